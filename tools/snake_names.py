#!/usr/bin/env python3
"""Writes the repository's own definitions, lemmas, fields and constructors in snake case, by the table snake_names.tsv beside it.

usage: python3 tools/snake_names.py        at the top of the repository, once, right after the port's own script

Whole words turn: in .antt files everywhere outside quotes, in .rt files in comments, `ghost` lines and clauses (names of Rust code have
no capitals and no dashes, so a word of the table stands only there), in must-fail/*.edit, and in pages of docs/ between backticks.
A name that Rattle makes stays: one that is joined to another by a dash is a word of its own and is not in the table.
"""

import os
import re

HERE = os.path.dirname(os.path.realpath(__file__))
WORD = re.compile(r"[^\s(){}.;,@\"«»`\[\]|:]+")
SPAN = re.compile(r"`[^`\n]+`")


def table():
    with open(os.path.join(HERE, "snake_names.tsv"), encoding="utf-8") as f:
        return dict(line.rstrip("\n").split("\t") for line in f if line.strip())


def files():
    for folder, dirs, names in os.walk("crates"):
        dirs[:] = sorted(d for d in dirs if d != "out")
        yield from (os.path.join(folder, n) for n in sorted(names) if n.endswith((".antt", ".rt", ".edit")))


def main():
    names = table()

    def turned(text):
        return WORD.sub(lambda m: names.get(m[0], m[0]), text)

    count = 0
    for path in files():
        with open(path, encoding="utf-8") as f:
            old = f.read()
        new = turned(old)
        if new != old:
            count += 1
            with open(path, "w", encoding="utf-8") as f:
                f.write(new)
    for page in ["README.md"] + sorted("docs/" + n for n in os.listdir("docs") if n.endswith(".md")):
        with open(page, encoding="utf-8") as f:
            old = f.read()
        new = SPAN.sub(lambda m: turned(m[0]), old)
        if new != old:
            count += 1
            with open(page, "w", encoding="utf-8") as f:
                f.write(new)
    print(f"{count} files")


main()
