#!/usr/bin/env python3
"""Writes the definitions and lemmas of this repository in today's spelling: snake case, and a dash only between two names.

usage: respell.py [FILE..]     at the top of the repository, once, after the kit's port.py

The names stand in respell.tsv beside this file: the old one, the new one, and the word 'field' where a record has a field of the name.
It rewrites the .antt and .rt files below crates/, or the files that are given. In .rt it turns names with capitals alone, since a dash is a
minus there, and Rust's own names have no capitals within. Behind a dot only a record's field is turned: what else stands there is made by the check.
"""
import os
import re
import sys

HERE = os.path.dirname(os.path.abspath(__file__))
NAME = re.compile(r"[^\s(){}.;:,\"\[\]]+")


def table():
    names, fields = {}, set()
    with open(os.path.join(HERE, "respell.tsv"), encoding="utf-8") as rows:
        for row in rows:
            old, new, kind = row.rstrip("\n").split("\t")
            names[old] = new
            if kind == "field":
                fields.add(old)
    return names, fields


def turned(path, text, names, fields):
    is_rust = not path.endswith(".antt")

    def one(found):
        word = found[0]
        if word not in names:
            return word
        at = found.start()
        behind_dot = at > 0 and text[at - 1] == "." and not (at > 1 and text[at - 2].isspace())
        if behind_dot and word not in fields and not is_rust:
            return word
        return names[word]

    if is_rust:
        return re.sub(r"\b[a-z]\w*[A-Z]\w*\b", lambda found: names.get(found[0], found[0]), text)
    return NAME.sub(one, text)


def files():
    for folder, dirs, each in os.walk("crates"):
        dirs[:] = sorted(d for d in dirs if d != "out")
        for name in sorted(each):
            if name.endswith((".antt", ".rt")):
                yield os.path.join(folder, name)


def main(given):
    names, fields = table()
    for path in given or files():
        with open(path, encoding="utf-8", newline="") as file:
            text = file.read()
        new = turned(path, text, names, fields)
        if new != text:
            with open(path, "w", encoding="utf-8", newline="") as file:
                file.write(new)


if __name__ == "__main__":
    main(sys.argv[1:])
