#!/usr/bin/env python3
"""The tables of crates/tables, books and levels, made from the Rust's text, or compared with it.

  tables.py FOLDER            writes the Rattle statics and the definitions' lists, as rt fmt lays them out
  tables.py FOLDER --check    compares them number by number, and then the files with what would be written; exit status
                              1 where one differs

FOLDER is a copy of the Rust (src/eac3/aht.rs ..), or has its files as src--src--eac3--aht.rs.txt ..
"""
import os, re, struct, sys, textwrap

ROOT = os.path.dirname(os.path.dirname(os.path.abspath(__file__)))
CODE = os.path.join(ROOT, 'crates/tables/src/consts.rt')
SPEC = os.path.join(ROOT, 'crates/tables/specs/Numbers.antt')
FRACTIONS = os.path.join(ROOT, 'crates/books/src/consts.rt')
SCALES = os.path.join(ROOT, 'crates/levels/src/consts.rt')


def text(folder, name):
    path = os.path.join(folder, 'src/eac3', name)
    if not os.path.exists(path):
        path = os.path.join(folder, 'src--src--eac3--%s.txt' % name.replace('/', '--'))
    return open(path, encoding='utf-8').read()


def rust(folder):
    """Name, element type and numbers of each table, read off the Rust's text."""
    aht, books = text(folder, 'aht.rs'), text(folder, 'tables/aht_codebooks.rs')
    plain = lambda text: re.sub(r'//[^\n]*|/\*.*?\*/', '', text, flags=re.S)
    out = []
    for name in ('HEBAPTAB', 'HEBAP_MANT_BITS', 'VQ_BITS'):
        body = re.search(r'pub const %s: \[u8; \d+\] = \[(.*?)\];' % name, plain(aht), re.S).group(1)
        out.append((name, 'u8', [int(x) for x in re.findall(r'\d+', body)]))
    # seven numbers a row: a at Gk 1; a, b for x >= 0, b for x < 0 at Gk 2; the same at Gk 4
    body = re.search(r'const GAQ_REMAP: \[GaqRemap; 12\] = \[(.*?)\n\];', plain(aht), re.S).group(1)
    row = re.compile(r'a_g1: (\w+), g2: \(([^)]*)\), g4: \(([^)]*)\)')
    remap = []
    for a, g2, g4 in row.findall(body.replace('u16 as i16', '')):
        for x in [a] + g2.split(',') + g4.split(','):
            v = int(x.strip(), 0)
            remap.append(v - 65536 if v > 32767 else v)
    out.append(('GAQ_REMAP', 'i16', remap))
    for h in range(1, 8):
        body = re.search(r'pub const VQ_HEBAP%d: \[\[i16; 6\]; \d+\] = \[(.*?)\n\];' % h, plain(books), re.S).group(1)
        out.append(('VQ_HEBAP%d' % h, 'i16', [int(x) for x in re.findall(r'-?\d+', body)]))
    return out


def spec_name(name):
    given = {'HEBAP_MANT_BITS': 'mant_bits_table', 'VQ_BITS': 'vq_bits_table', 'GAQ_REMAP': 'gaq_remap_table'}
    return given.get(name) or name.lower()


SECTION = {'HEBAPTAB': 'Table E3.1', 'HEBAP_MANT_BITS': 'Table E3.2', 'VQ_BITS': 'Table E3.2, hebap 1 to 7',
           'GAQ_REMAP': 'Table E3.6: a row has a at Gk 1; a, b for x ≥ 0, b for x < 0 at Gk 2; the same at Gk 4. Rows hebap 8 to 19'}
SECTION.update({'VQ_HEBAP%d' % h: 'Table E4.%d, six numbers a vector' % h for h in range(1, 8)})


def constant(name, kind, words):
    """The lines of a static array in rt fmt's layout: on one line where that is short, else lines as full as 99 places allow."""
    head = 'pub static %s: [%s; %d] = [' % (name, kind, len(words))
    if len(', '.join(words)) <= 60:
        return [head + ', '.join(words) + '];']
    body = textwrap.wrap(', '.join(words) + ',', 99, initial_indent='    ', subsequent_indent='    ', break_on_hyphens=False)
    return [head] + body + ['];']


def constant_rows(name, kind, rows):
    """The lines of a static array of rows in rt fmt's layout, where no row is short enough for one line."""
    lines = ['pub static %s: [[%s; %d]; %d] = [' % (name, kind, len(rows[0]), len(rows))]
    for row in rows:
        lines += ['    ['] + textwrap.wrap(', '.join(row) + ',', 99, initial_indent=' ' * 8, subsequent_indent=' ' * 8, break_on_hyphens=False) + ['    ],']
    return lines + ['];']


def code_text(tables):
    lines = ['// The tables of ATSC A/52 Annex E as the Rust has them, each flat. Made by tools/tables.py.']
    for name, kind, numbers in tables:
        lines += ['', '// %s.' % SECTION[name].replace('≥', '>=')] + constant(name, kind, [str(x) for x in numbers])
    return '\n'.join(lines) + '\n'


def pattern(x):
    """The bits of an f32."""
    return struct.unpack('<I', struct.pack('<f', x))[0]


def fractions(numbers):
    """A book in component order, each number / 32768 as the bit pattern of its f32."""
    n = len(numbers) // 6
    return [pattern(numbers[6 * k + j] / 32768) for j in range(6) for k in range(n)]


def scales(tables):
    """Eleven numbers for each hebap and gain: a and both b as fractions, the fractions 1 / 2^(m-1) and 1 / 2^(large - 1), the bits of small and of
    large codes, the exact values of a step of each and of both b."""
    by_name = {name: numbers for name, kind, numbers in tables}
    out = []
    for hebap in range(8, 20):
        m = by_name['HEBAP_MANT_BITS'][hebap]
        a1, a2, up2, below2, a4, up4, below4 = by_name['GAQ_REMAP'][7 * (hebap - 8):7 * (hebap - 8) + 7]
        for a, up, below, small, large, e in ((a1, 0, 0, m - 2, m, 16), (a2, up2, below2, m - 1, m - 1, 17), (a4, up4, below4, m - 2, m, 16)):
            out.append([pattern(x / 32768) for x in (a, up, below)] + [pattern(2.0 ** (1 - m)), pattern(2.0 ** (1 - large)), small, large,
                        2 ** (31 - m), (32768 + a) * 2 ** (e - m), up * 2 ** 15, -below * 2 ** 15])
    return out


def scales_text(tables):
    lines = ['// What the codes of a hebap and a gain have in common, a row each: hebap 8 to 19 at Gk 1, 2 and 4. By tools/tables.py.', '',
             '// By bit patterns: a and b (for x >= 0 and for x < 0) as fractions, 1 / 2^(m-1), 1 / 2^(bits of a large code - 1);',
             '// then the bits of small and of large codes; a step of each and both b, the second by its size, in units of 2^-30.']
    rows = [['0x%08x' % x if i < 5 else '%d' % x for i, x in enumerate(row)] for row in scales(tables)]
    return '\n'.join(lines + constant_rows('SCALES', 'u32', rows)) + '\n'


def fractions_text(tables):
    lines = ['// The books as fractions, by their bit patterns, each in component order. Made by tools/tables.py.']
    for name, kind, numbers in tables:
        if name.startswith('VQ_HEBAP'):
            lines += ['', '// %s: the first numbers of all vectors, then the second ones, and so on.' % SECTION[name].split(',')[0]]
            lines += constant(name, 'u32', ['0x%08x' % x for x in fractions(numbers)])
    return '\n'.join(lines) + '\n'


def spec_text(tables):
    lines = ['-- The tables of ATSC A/52 Annex E, section 3.4, each flat. Made by tools/tables.py.',
             'use Rattle.std.specs.Prelude.{List, [], ◌∷◌, ℕ, ℤ, pos, neg_ℤ}', '',
             'abbrev neg : ℕ → ℤ', 'neg n = neg_ℤ (pos n)']
    for name, kind, numbers in tables:
        signed = kind == 'i16'
        say = lambda x: str(x) if not signed else ('pos %d' % x if x >= 0 else 'neg %d' % -x)
        width = 7 if name == 'GAQ_REMAP' else 6 if signed else 16
        lines += ['', '-- ' + SECTION[name], 'unfoldable pub %s : List %s' % (spec_name(name), 'ℤ' if signed else 'ℕ'), '%s =' % spec_name(name)]
        for i in range(0, len(numbers), width):
            lines.append('    ' + ' ∷ '.join(say(x) for x in numbers[i:i + width]) + ' ∷')
        lines.append('    []')
    return '\n'.join(lines) + '\n'


def ours():
    """The same, read off the repository's own files."""
    code = open(CODE, encoding='utf-8').read()
    spec = open(SPEC, encoding='utf-8').read()
    from_code = {n: (k, [int(x) for x in re.findall(r'-?\d+', body)])
                 for n, k, body in re.findall(r'pub static (\w+): \[(\w+); \d+\] = \[(.*?)\];', code, re.S)}
    by_component = {n: [int(x, 16) for x in re.findall(r'0x(\w{8})', body)]
                    for n, body in re.findall(r'pub static (\w+): \[u32; \d+\] = \[(.*?)\];', open(FRACTIONS, encoding='utf-8').read(), re.S)}
    from_spec = {}
    for n, body in re.findall(r'unfoldable pub (\w+) : List .\n\1 =\n(.*?)\[\]', spec, re.S):
        from_spec[n] = [int(x.split()[-1]) * (-1 if x.startswith('neg') else 1) for x in re.findall(r'pos \d+|neg \d+|\d+', body)]
    return from_code, from_spec, by_component


def scales_read():
    """The numbers of SCALES in the repository."""
    body = re.search(r'pub static SCALES: \[\[u32; \d+\]; \d+\] = \[(.*?)\n\];', open(SCALES, encoding='utf-8').read(), re.S).group(1)
    return [int(x, 0) for x in re.findall(r'0x\w+|\d+', body)]


def main():
    tables = rust(sys.argv[1])
    assert [len(t[2]) for t in tables] == [64, 20, 8, 84, 24, 48, 96, 192, 768, 1536, 3072], 'the Rust text was not read whole'
    made = {CODE: code_text(tables), SPEC: spec_text(tables), FRACTIONS: fractions_text(tables), SCALES: scales_text(tables)}
    if '--check' not in sys.argv:
        for path, lines in made.items():
            open(path, 'w', encoding='utf-8').write(lines)
        return
    code, spec, by_component = ours()
    numbers = wrong = 0
    for name, kind, want in tables:
        for where, got in (('constant', code.get(name, (None, []))[1]), ('definition', spec.get(spec_name(name), []))):
            bad = abs(len(want) - len(got)) + sum(a != b for a, b in zip(want, got))
            numbers += len(want)
            wrong += bad
            if bad: print('tables: %s, %s: %d numbers differ' % (name, where, bad))
        if name.startswith('VQ_HEBAP'):
            want, got = fractions(want), by_component.get(name, [])
            bad = abs(len(want) - len(got)) + sum(a != b for a, b in zip(want, got))
            numbers += len(want)
            wrong += bad
            if bad: print('tables: %s as fractions: %d numbers differ' % (name, bad))
    want, got = [x for row in scales(tables) for x in row], scales_read()
    bad = abs(len(want) - len(got)) + sum(a != b for a, b in zip(want, got))
    numbers += len(want)
    wrong += bad
    if bad: print('tables: scales: %d numbers differ' % bad)
    other = [path for path, lines in made.items() if open(path, encoding='utf-8').read() != lines]
    for path in other:
        print('tables: %s is not as tools/tables.py writes it' % os.path.relpath(path, ROOT))
    print('tables: %d numbers compared with the Rust, %d different' % (numbers, wrong))
    sys.exit(1 if wrong or other else 0)


main()
