#!/usr/bin/env python3
"""Spells the repository's own definitions and lemmas as today's Rattle spells names: words in snake case.

usage: tools/respell.py   at the top of the repository, once, right after the kit's port.py

The names are listed in tools/respelled.txt, the old spelling and the new one on a line. It turns the clauses and imports
of src/, and specs/ and proofs/; a name behind a dot (a field, a step of a proof) stays, and so do the names that Rattle
makes of a function's goals. Nothing else is changed: no function of src/, no string, no input and no output.
"""

import os
import re

HERE = os.path.dirname(os.path.abspath(__file__))
GOALS = re.compile(r"use Rattle\.\S*\.(?:Goals|Given)(?:\.|\s)")


def table():
    with open(os.path.join(HERE, "respelled.txt"), encoding="utf-8") as f:
        return dict(line.split() for line in f if line.strip())


def files():
    for folder, dirs, names in os.walk("crates"):
        dirs[:] = sorted(d for d in dirs if d != "out")
        for name in sorted(names):
            if name.endswith((".rt", ".antt")):
                yield os.path.join(folder, name)


def main():
    names = table()
    longest_first = sorted(names, key=len, reverse=True)
    word = re.compile(r"(?<![\w'.\-])(" + "|".join(map(re.escape, longest_first)) + r")(?![\w'\-])")
    for path in files():
        with open(path, encoding="utf-8") as f:
            lines = f.read().split("\n")
        turned = [line if GOALS.match(line) else word.sub(lambda m: names[m[1]], line) for line in lines]
        if turned != lines:
            with open(path, "w", encoding="utf-8") as f:
                f.write("\n".join(turned))


if __name__ == "__main__":
    main()
