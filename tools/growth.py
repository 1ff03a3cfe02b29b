#!/usr/bin/env python3
"""Cost against size, as a table on standard output and a plot.

  growth.py FILE    writes the plot to FILE, an SVG; takes lines `call size theirs ours` (microseconds) from standard input
"""
import math, sys

CALLS = [('plan', '#1b6ca8'), ('write', '#b3541e'), ('read', '#3d7d3d'), ('search', '#6b4c9a')]
WIDTH, HEIGHT, LEFT, RIGHT, TOP, BOTTOM = 420, 330, 62, 14, 34, 52


def lines():
    out = {}
    for line in sys.stdin:
        call, size, theirs, ours = line.split()
        out.setdefault(call, []).append((int(size), float(theirs), float(ours)))
    return out


def table(data):
    rows = ['| Bins | plan, Rust | plan | write, Rust | write | read, Rust | read |', '|---|---|---|---|---|---|---|']
    for k, (size, _, _) in enumerate(data['plan']):
        rows.append('| %d | ' % size + ' | '.join('%.2f | %.2f' % data[c][k][1:] for c in ('plan', 'write', 'read')) + ' |')
    rows += ['', '| Vectors in the book | search, Rust | search |', '|---|---|---|']
    rows += ['| %d | %.3f | %.3f |' % row for row in data['search']]
    return '\n'.join(rows)


def panel(x0, title, under, data, calls):
    """One plot, both axes as powers: sizes by 2, times by 10."""
    sizes = sorted({s for c in calls for s, _, _ in data[c]})
    times = [t for c in calls for _, a, b in data[c] for t in (a, b)]
    low, high = math.floor(math.log10(min(times))), math.ceil(math.log10(max(times)))
    first, last = math.log2(sizes[0]), math.log2(sizes[-1])
    x = lambda s: x0 + LEFT + (math.log2(s) - first) / (last - first) * (WIDTH - LEFT - RIGHT)
    y = lambda t: TOP + (high - math.log10(t)) / (high - low) * (HEIGHT - TOP - BOTTOM)
    out = ['<text x="%d" y="18" font-size="14" font-weight="bold">%s</text>' % (x0 + LEFT, title)]
    for p in range(low, high + 1):
        out.append('<line x1="%.1f" y1="%.1f" x2="%.1f" y2="%.1f" stroke="#ddd"/>' % (x(sizes[0]), y(10 ** p), x(sizes[-1]), y(10 ** p)))
        out.append('<text x="%.1f" y="%.1f" text-anchor="end">%s</text>' % (x0 + LEFT - 6, y(10 ** p) + 4, '%g \u00b5s' % 10 ** p))
    for s in sizes:
        out.append('<text x="%.1f" y="%d" text-anchor="middle">%d</text>' % (x(s), HEIGHT - BOTTOM + 16, s))
    out.append('<text x="%.1f" y="%d" text-anchor="middle">%s</text>' % ((x(sizes[0]) + x(sizes[-1])) / 2, HEIGHT - BOTTOM + 32, under))
    for c, colour in CALLS:
        if c in calls:
            for i, dash in ((1, ' stroke-dasharray="5 4"'), (2, '')):
                points = ' '.join('%.1f,%.1f' % (x(row[0]), y(row[i])) for row in data[c])
                out.append('<polyline points="%s" fill="none" stroke="%s" stroke-width="2"%s/>' % (points, colour, dash))
    return out


def plot(data):
    out = ['<svg xmlns="http://www.w3.org/2000/svg" viewBox="0 0 %d %d" font-family="sans-serif" font-size="11">' % (2 * WIDTH, HEIGHT),
           '<rect width="100%" height="100%" fill="white"/>']
    out += panel(0, 'Mixed rows', 'bins', data, ('plan', 'write', 'read'))
    out += panel(WIDTH, 'One search', 'vectors in the book', data, ('search',))
    at = LEFT
    for c, colour in CALLS:
        out.append('<line x1="%d" y1="%d" x2="%d" y2="%d" stroke="%s" stroke-width="2"/>' % (at, HEIGHT - 9, at + 22, HEIGHT - 9, colour))
        out.append('<text x="%d" y="%d">%s</text>' % (at + 27, HEIGHT - 5, c))
        at += 80
    out.append('<text x="%d" y="%d">whole lines: here; dashed: the Rust</text>' % (at, HEIGHT - 5))
    return '\n'.join(out + ['</svg>']) + '\n'


data = lines()
open(sys.argv[1], 'w', encoding='utf-8').write(plot(data))
print(table(data))
