#!/usr/bin/env python3
"""Brings the repository's own definitions and lemmas to snake case, after port.py.

usage: tools/port_names.py        at the top of the repository, once, right after port.py

The table is tools/port_names.tsv: a name as port.py leaves it, the new name, and the one file where that holds (none: everywhere; "pages":
in the pages alone, for names that port.py has brought to snake case itself). It is applied to whole names: in specs/ and proofs/, in what
src/ says beside its code (imports of the logic, clauses, comments), and in the pages. Functions of src/, exported names and strings keep
theirs.
"""

import glob
import os
import re

HERE = os.path.dirname(os.path.realpath(__file__))
TOP = os.path.dirname(HERE)
NAME = re.compile(r"[^\s(){}\[\].,;:|«»\"`=]+")
CODE_STRING = re.compile(r'b?"(?:[^"\\]|\\.)*"')


def table():
    everywhere, within = {}, {}
    with open(os.path.join(HERE, "port_names.tsv"), encoding="utf-8") as rows:
        for row in rows:
            old, new, *where = row.rstrip("\n").split("\t")
            if where:
                within.setdefault(where[0], {})[old] = new
            else:
                everywhere[old] = new
    return everywhere, within


def respelled(text, names):
    return NAME.sub(lambda m: names.get(m.group(0), m.group(0)), text)


def outside_strings(text, names):
    parts, at = [], 0
    for m in CODE_STRING.finditer(text):
        parts += [respelled(text[at : m.start()], names), m.group(0)]
        at = m.end()
    return "".join(parts) + respelled(text[at:], names)


def main():
    everywhere, within = table()
    os.chdir(TOP)
    logic = glob.glob("crates/*/specs/**/*.antt", recursive=True) + glob.glob("crates/*/proofs/**/*.antt", recursive=True)
    source = glob.glob("crates/*/src/**/*.rt", recursive=True)
    pages = ["README.md"] + [p for p in glob.glob("docs/*.md") if not p.startswith("docs/PORT")]
    for path in sorted(logic + source + pages):
        names = {**everywhere, **within.get("pages" if path in pages else path, {})}
        with open(path, encoding="utf-8") as f:
            old = f.read()
        new = outside_strings(old, names) if path.endswith(".rt") else respelled(old, names)
        if new != old:
            with open(path, "w", encoding="utf-8") as f:
                f.write(new)


main()
