#!/usr/bin/env python3
"""Gives the repository's own definitions and lemmas their spelling of today: words in snake case, types and modules in camel case.

usage: python3 tools/spelling.py     once, at the top of the repository, after the kit's port.py

tools/spelling.tsv has a line for each name: the old one, the new one and, if it is renamed in one file alone, that file.
A name behind a dot is a field: it is renamed only if it has no dash, or if a record of the repository declares it.
"""

import glob
import re

FIELDS = {"before-it", "command-filled", "data-filled", "in-s", "starts-after", "stops-after", "args-key-at", "args-part", "name-at", "name-key-at", "name-part", "odd-request", "odd-stream", "pairs-at", "to-come"}
WORD = re.compile(r"[A-Za-z_0-9'ℕℤ◌≤≡≢<>+*/^%&|!∷×⊎-]+")


def main():
    everywhere, here = {}, {}
    with open("tools/spelling.tsv", encoding="utf-8") as f:
        for line in f:
            row = line.rstrip("\n").split("\t")
            if len(row) == 3:
                here.setdefault(row[2], {})[row[0]] = row[1]
            else:
                everywhere[row[0]] = row[1]
    for path in sorted(glob.glob("crates/*/src/*.rt") + glob.glob("crates/*/specs/**/*.antt", recursive=True) + glob.glob("crates/*/proofs/**/*.antt", recursive=True)):
        names = everywhere | here.get(path, {})
        with open(path, encoding="utf-8") as f:
            text = f.read()

        def turn(m):
            old = m[0]
            if "-" in old and old not in FIELDS and m.start() > 0 and text[m.start() - 1] == ".":
                return old
            return names.get(old, old)

        new = WORD.sub(turn, text)
        if new != text:
            with open(path, "w", encoding="utf-8") as f:
                f.write(new)


if __name__ == "__main__":
    main()
