#!/usr/bin/env python3
"""Brings the repository's own definitions, lemmas, fields and constructors to one spelling: types in upper camel case, all else in snake case, an acronym as one word.

usage: python3 tools/respell.py [--check]      once, at the top of a repository that the kit's port.py has turned

A name is the repository's own if a file of specs/ or proofs/ declares it. Names that the library or the check makes keep their spelling:
those that a file imports from elsewhere than the repository's crates, those behind `goal.`, `c.`, `l.` and `g.` in answers, and the answers themselves.
Functions of src/, strings, inputs and outputs are not touched. It names each two names that would fall together.
--check only lists the names, old and new. Names in backquotes on the pages of docs/ and in the README follow.
"""

import os
import re
import sys

ANY = re.compile(r"(?<![\w'-])(?:[A-Za-z][\w']*(?:-[\w']+)+|CFG|LL1)(?![\w'-])")
DECLARED = re.compile(
    r"(?m)^[ \t]*(?:(?:pub|abbrev|unfoldable|pattern|deriving|data|record) )*([A-Za-z][\w']*(?:-[\w']+)+)(?= (?:\{[^}\n]*\} )*:| (?:\([^\n]*\) )?(?:: |where))"
)
HEADED = re.compile(r"(?m)^[ \t]*(?:pub )?(?:data|record) ([A-Za-z][\w']*(?:-[\w']+)+)")
DERIVED = re.compile(r"(?m)^[ \t]*deriving \w+ as ([A-Za-z][\w']*(?:-[\w']+)+)")
ANSWER = re.compile(r"(?m)^(?:abbrev )?(?:pub )?([A-Za-z][\w'-]*) : goal\.")
IMPORT = re.compile(r"use ([A-Za-z][\w.']*)\.\{([^}]*)\}")


def texts(root):
    for folder, dirs, files in os.walk(os.path.join(root, "crates")):
        dirs[:] = sorted(d for d in dirs if d != "out")
        for f in sorted(files):
            if f.endswith((".rt", ".antt")):
                yield os.path.join(folder, f)


def pages(root):
    yield os.path.join(root, "README.md")
    for f in sorted(os.listdir(os.path.join(root, "docs"))):
        if f.endswith(".md") and f != "PORT.md":
            yield os.path.join(root, "docs", f)


def read(path):
    with open(path, encoding="utf-8") as f:
        return f.read()


def answers(path):
    """The name of the file where an answer or an invariant may stand, by its folder: crates/NAME/proofs/F/.."""
    parts = path.split(os.sep)
    return "proofs" in parts and len(parts) - parts.index("proofs") > 2


def respelled(name):
    words = name.split("-")
    if name[0].isupper():
        return "".join(w[0].upper() + w[1:] for w in words)
    return "_".join(words)


def own_names(root):
    own = set()
    for path in texts(root):
        if not path.endswith(".antt"):
            continue
        text = read(path)
        names = set(DECLARED.findall(text)) | set(HEADED.findall(text)) | set(DERIVED.findall(text))
        if answers(path):
            names -= set(ANSWER.findall(text))
        own |= names
    return own


def foreign(text, crates):
    """The names that a text imports from elsewhere than the repository's crates."""
    names = set()
    for module, items in IMPORT.findall(text):
        parts = module.split(".")
        if parts[0] == "Rattle" and len(parts) > 1 and parts[1] in crates:
            continue
        names |= set(re.findall(r"[^\s,]+", items))
    return names


def turn_antt(text, table, skip, made):
    def word(m):
        name = m[0]
        before = text[max(0, m.start() - 6) : m.start()]
        if name in skip or name not in table:
            return name
        if made and re.search(r"(?:^|[^\w'])(?:goal|c|l|g)\.$", before):
            return name
        return table[name]

    return ANY.sub(word, text)


def turn_rust(text, table):
    """Only ghost uses, clauses and names in backquotes of comments have names with a dash; code has none, and strings are left."""
    strings = re.compile(r'"(?:\\.|[^"\\])*"|//[^\n]*')

    def part(t):
        return ANY.sub(lambda m: table.get(m[0], m[0]), t)

    out, last = [], 0
    for m in strings.finditer(text):
        out.append(part(text[last : m.start()]))
        out.append(re.sub(r"`[^`]*`", lambda q: part(q[0]), m[0]) if m[0].startswith("//") else m[0])
        last = m.end()
    out.append(part(text[last:]))
    return "".join(out)


def turn_page(text, table):
    return re.sub(r"`[^`\n]*`", lambda q: ANY.sub(lambda m: table.get(m[0], m[0]), q[0]), text)


def main(argv):
    root = os.getcwd()
    crates = set(os.listdir(os.path.join(root, "crates")))
    own = own_names(root)
    table = {n: respelled(n) for n in own}
    table |= {"CFG": "Cfg", "LL1": "Ll1", "Sound-prop": "sound_prop"}
    taken, clash = {}, []
    plain = set()
    for path in texts(root):
        text = read(path)
        if path.endswith(".antt"):
            for n in re.findall(r"(?m)^[ \t]*(?:(?:pub|abbrev|unfoldable|pattern|data|record) )*([A-Za-z][\w']*) (?:\{[^}\n]*\} )*:", text):
                plain.add(n)
            plain |= set(re.findall(r"(?m)^[ \t]*(?:pub )?(?:data|record) ([A-Za-z][\w']*)(?![\w'-])", text))
    for old, new in sorted(table.items()):
        if new in taken:
            clash.append(f"{old} and {taken[new]} fall together as {new}")
        taken[new] = old
        if new in plain:
            clash.append(f"{old} falls together with {new}, which stands already")
    for path in texts(root):
        if path.endswith(".antt"):
            text = read(path)
            abroad = foreign(text, crates)
            for n in set(ANY.findall(text)) & set(table) - abroad:
                if table[n] in abroad:
                    clash.append(f"{path}: {n} falls together with {table[n]}, imported there")
    for it in clash:
        print("clash: " + it)
    if "--check" in argv:
        for old, new in sorted(table.items()):
            print(f"{old}\t{new}")
        return 1 if clash else 0
    changed = 0
    for path in texts(root):
        text = read(path)
        if path.endswith(".rt"):
            new = turn_rust(text, table)
        else:
            made = answers(path)
            skip = foreign(text, crates) | (set(ANSWER.findall(text)) if made else set())
            new = turn_antt(text, table, skip, made)
        if new != text:
            changed += 1
            with open(path, "w", encoding="utf-8") as f:
                f.write(new)
    for path in pages(root):
        text = read(path)
        new = turn_page(text, table)
        if new != text:
            changed += 1
            with open(path, "w", encoding="utf-8") as f:
                f.write(new)
    print(f"respell: {len(table)} names, {changed} files changed")
    return 0


if __name__ == "__main__":
    raise SystemExit(main(sys.argv[1:]))
