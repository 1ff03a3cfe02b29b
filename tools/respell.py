#!/usr/bin/env python3
"""Brings the names of definitions and lemmas to one spelling: words in snake case, types and modules in camel case.

usage: tools/respell.py            in the repository, once, after the kit's own respelling
       tools/respell.py --list     prints old and new name of each, and changes nothing

A name that a file of specs/ or proofs/ declares and that does not begin with a capital gets underscores for its humps and
dashes. A lemma that would have its definition's name gets _lem behind it. Text, numbers, functions of src/ and names of C
stay. Fields of records go by the same rule behind a dot; what Rattle makes of the source is not touched.
"""
import collections
import os
import re
import sys

NAME = r"[^\s(){}.;,@\"«»]+"
SIG = re.compile(r"^(\s*)((?:abbrev |unfoldable |pub |infix[lr]? \d+ )*)(" + NAME + r")((?: \{[^{}\n]*\})*) :(?!:)")
BODY = re.compile(r"^\s*(?:abbrev |unfoldable |pub )*(?:record|data) ")
# std has these under the same spelling: they stay
STAY = {"and-false", "pow-suc"}
# the lemma of a function of std
OTHER = {"in-float": "in_float_lem"}
# facts, in the one crate that declares them: they are types
FACTS = {"ahead": "IsAhead", "fitting": "IsFitting", "listedIn": "ListedIn", "endsIn": "EndsIn"}


def files(root, *ends):
    for folder, dirs, names in os.walk(root):
        dirs[:] = sorted(d for d in dirs if d not in ("out", ".git"))
        for name in sorted(names):
            if name.endswith(ends):
                yield os.path.join(folder, name)


def read(path):
    with open(path, encoding="utf-8") as f:
        return f.read()


def snake(name):
    return re.sub(r"(?<=[a-z0-9])[A-Z]", lambda m: "_" + m[0].lower(), name).replace("-", "_")


def declared(root):
    """Each declared name that begins with a small letter, and whether a record or a data type has it."""
    found = collections.defaultdict(lambda: [False, False])
    for path in files(root, ".antt"):
        inside = None
        for line in read(path).split("\n"):
            if line.strip() and not line.strip().startswith("--"):
                indent = len(line) - len(line.lstrip())
                if inside is not None and indent <= inside:
                    inside = None
                m = SIG.match(line)
                if BODY.match(line):
                    inside = indent
                elif m and re.match(r"[a-z]", m[3]):
                    found[m[3]][0 if inside is None else 1] = True
    return found


def table(found):
    by_new = collections.defaultdict(list)
    for name in found:
        by_new[snake(name)].append(name)
    names = {}
    for new, olds in by_new.items():
        camel = [o for o in olds if re.search(r"[a-z0-9][A-Z]", o)]
        plain = [o for o in olds if o == new]
        keeper = camel[0] if camel else plain[0] if plain else olds[0]
        for old in olds:
            it = new if old == keeper else new + "_lem"
            if it != old and old not in STAY:
                names[old] = OTHER.get(old, it)
    return names


def turn_code(text, names, fields):
    """A piece of antt: the first name of a path, and fields and names of a module behind a dot."""

    def path(m):
        parts = m[0].split(".")
        if parts[0] in ("tie", "goal", "Rattle"):
            return m[0]
        out = [names.get(parts[0], parts[0])]
        for part in parts[1:]:
            out.append(names.get(part, part) if part in fields or parts[0] == "cause" else part)
        return ".".join(out)

    return re.sub(NAME + r"(?:\." + NAME + r")*|(?<=[)}\]])(?:\." + NAME + r")+", path, text)


def turn_words(text, names):
    """A comment or a page: names with a hump, and names between backticks."""
    text = re.sub(r"(?<![\w/.-])[a-z]\w*[A-Z]\w*(?![\w(-])", lambda m: names.get(m[0], m[0]), text)
    return re.sub(r"`([^`\n]+)`", lambda m: "`" + turn_code(m[1], names, FIELDS) + "`", text)


def turn_antt(text, names, fields):
    out = []
    for line in text.split("\n"):
        at = line.find("--")
        while at > 0 and line[at - 1] not in " \t":
            at = line.find("--", at + 2)
        code, words = (line, "") if at < 0 else (line[:at], line[at:])
        out.append(turn_code(code, names, fields) + turn_words(words, names))
    return "\n".join(out)


CLAUSE = re.compile(r"(?m)(?:^|(?<=\s))(?:(?:requires|ensures)\*?(?: \w+)? \{|ghost (?!use)\w+: \{|ghost use )")


def turn_source(text, names, fields):
    out, at = [], 0
    for m in CLAUSE.finditer(text):
        if m.start() < at or text.rfind("//", text.rfind("\n", 0, m.start()) + 1, m.start()) >= 0:
            continue
        out.append(text[at : m.end()])
        end = m.end()
        if m[0].endswith("{"):
            depth = 1
            while depth:
                depth += {"{": 1, "}": -1}.get(text[end], 0)
                end += 1
        else:
            end = text.index(";", end)
        out.append(turn_code(text[m.end() : end], names, fields))
        at = end
    out.append(text[at:])
    text = "".join(out)
    return re.sub(r"(?m)//.*$", lambda m: turn_words(m[0], names), text)


def turn_edit(text, names, fields):
    code = re.search(r"(?m)^file: .*\.antt$", text)

    def line(m):
        body = m[2]
        if code or re.match(r"\s*(requires|ensures|ghost) ", body):
            body = turn_antt(body, names, fields)
        return m[1] + body

    return re.sub(r"(?m)^((?:old|new): )(.*)$", line, text)


def main():
    global FIELDS
    found = declared("crates")
    names = table(found)
    FIELDS = fields = {n for n in found if found[n][1]}
    if "--list" in sys.argv:
        for old in sorted(names):
            print(old, names[old])
        return
    for path in files("crates", ".antt", ".rt", ".edit"):
        text = read(path)
        turn = turn_antt if path.endswith(".antt") else turn_source if path.endswith(".rt") else turn_edit
        new = turn(text, names | FACTS if path.startswith("crates/desktext/") else names, fields)
        if new != text:
            with open(path, "w", encoding="utf-8") as f:
                f.write(new)
    for path in [p for top in ("docs", ".") for p in ([os.path.join(top, n) for n in os.listdir(top)]) if p.endswith(".md")]:
        text = read(path)
        new = turn_words(text, names)
        if new != text:
            with open(path, "w", encoding="utf-8") as f:
                f.write(new)


if __name__ == "__main__":
    main()
