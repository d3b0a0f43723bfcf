#!/usr/bin/env python3
"""Spells this repository's own definitions and lemmas as Rattle does: words in snake case, facts in camel case.

usage: tools/spell_names.py      at the top of the repository, once, after the toolchain's own script

The names are in tools/spell_names.tsv, the old spelling and the new one, and are replaced as whole words: in .antt files, in .rt
files and in the old and new texts of edits. Comments and strings stay, and so do names that the toolchain makes.
"""

import os
import re
import sys

HERE = os.path.dirname(os.path.realpath(__file__))
TOP = os.path.dirname(HERE)
WORD = re.compile(r"[^\s(){}\[\].;,@\"«»|⟦⟧∥]+")
STRING = re.compile(r'"(?:[^"\\]|\\.)*"')


def table():
    with open(os.path.join(HERE, "spell_names.tsv"), encoding="utf-8") as f:
        return dict(line.rstrip("\n").split("\t") for line in f)


def spelled(names, text):
    return WORD.sub(lambda m: names.get(m.group(0), m.group(0)), text)


def line_spelled(names, line, comment):
    code, mark, rest = line.partition(comment)
    parts, at = [], 0
    for m in STRING.finditer(code):
        parts += [spelled(names, code[at:m.start()]), m.group(0)]
        at = m.end()
    return "".join(parts) + spelled(names, code[at:]) + mark + rest


def files():
    for folder in ("crates", "planted"):
        for path, dirs, names in os.walk(os.path.join(TOP, folder)):
            dirs[:] = sorted(d for d in dirs if d != "out")
            for name in sorted(names):
                if name.endswith((".antt", ".rt", ".edit")):
                    yield os.path.join(path, name)


def main():
    names = table()
    for path in files():
        with open(path, encoding="utf-8") as f:
            text = f.read()
        comment = "//" if path.endswith(".rt") else "-- "
        new = "".join(line_spelled(names, line, comment) for line in text.splitlines(keepends=True))
        if new != text:
            with open(path, "w", encoding="utf-8") as f:
                f.write(new)
    return 0


if __name__ == "__main__":
    sys.exit(main())
