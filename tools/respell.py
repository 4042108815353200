#!/usr/bin/env python3
"""Spells this repository's own definitions, lemmas and their fields in snake case, by the table respell.tsv beside this file.

    tools/respell.py        at the top of the repository, once, after the toolchain's port.py

Rows are: old name, tab, new name, and a third column `field` where the name is a record's field. Whole words turn, in .rt, .antt and
must-fail/*.edit files of crates/. Behind a dot a name turns where it is a field, or where a module or a type stands before the dot: what else
stands there is a label that the check makes of the code.
A name with no capital turns in the code of .antt files alone: in Rust it is another name, and in a comment a word of the language.
"""
import os, pathlib, re

HERE = pathlib.Path(__file__).resolve().parent
WORD = re.compile(r'[^\s(){}.;,@"«»\[\]`:]+')
MODULE = re.compile(r"(?<![\w.-])[A-Z]\w*\.$")
COMMENT = re.compile(r"(?m)(?<!\S)--(?=\s)[^\n]*")


def table():
    rows = [line.split("\t") for line in (HERE / "respell.tsv").read_text().splitlines()]
    return {row[0]: row[1] for row in rows}, {row[0] for row in rows if "field" in row[2:]}


def respelled(text, names, fields, is_antt):
    comments = [m.span() for m in COMMENT.finditer(text)] if is_antt else []

    def turn(m):
        word, start = m[0], m.start()
        if word not in names:
            return word
        if start and text[start - 1] == "." and word not in fields and not MODULE.search(text, max(0, start - 40), start):
            return word
        if word == word.lower() and (not is_antt or any(a <= start < b for a, b in comments)):
            return word
        return names[word]

    return WORD.sub(turn, text)


def main():
    names, fields = table()
    for folder, inside, files in os.walk("crates"):
        inside[:] = sorted(d for d in inside if d not in ("out", "target"))
        for name in sorted(files):
            if name.endswith((".rt", ".antt", ".edit")):
                path = pathlib.Path(folder, name)
                old = path.read_text()
                new = respelled(old, names, fields, name.endswith(".antt"))
                if new != old:
                    path.write_text(new)


if __name__ == "__main__":
    main()
