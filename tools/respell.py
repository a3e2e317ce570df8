#!/usr/bin/env python3
"""Spells the repository's own definitions and lemmas as today's Rattle does: words in snake case, a dash only between two names.

usage: tools/respell.py [FOLDER]     after port.py, once, at the top of the repository (or with its folder)

The names are those of tools/respell.tsv, OLD and NEW on a line. They are turned in the .antt files of specs/ and proofs/, in the clauses,
comments and `ghost use` lines of src/, in must-fail edits, and in docs/, README.md and CHANGELOG.md where they stand in backticks. Functions of
src/, exported names, strings, inputs and outputs keep their names, and so does a name that Rattle makes of a function (`c.no-piece`).
"""

import os
import re
import sys

HERE = os.path.dirname(os.path.realpath(__file__))
TOKEN = re.compile(r"\"(?:[^\"\\\n]|\\.)*\"|[^\s(){}.;,@\"|=\\:\[\]«»`/#<>!&+*%?]+")
# Names of the table that Rattle also makes of a function: after a dot they stay.
MADE = {"no-piece", "one-step", "one-part", "left-of"}


def table():
    with open(os.path.join(HERE, "respell.tsv"), encoding="utf-8") as f:
        return dict(line.rstrip("\n").split("\t") for line in f if line.strip())


def turned(text, names, dashes=True):
    def one(m):
        word = m.group(0)
        if word not in names or (not dashes and "-" in word):
            return word
        if word in MADE and m.start() and text[m.start() - 1] == ".":
            return word
        return names[word]

    return TOKEN.sub(one, text)


def in_backticks(text, names):
    return re.sub(r"`[^`\n]*`", lambda m: turned(m.group(0), names), text)


def antt(text, names):
    lines = []
    for line in text.split("\n"):
        code, mark, comment = line.partition("-- ")
        lines.append(turned(code, names) + mark + turned(in_backticks(comment, names), names, False))
    return "\n".join(lines)


def files(root):
    for folder, dirs, names in os.walk(os.path.join(root, "crates")):
        dirs[:] = sorted(d for d in dirs if d != "out")
        for name in sorted(names):
            yield os.path.join(folder, name)
    for folder, dirs, names in os.walk(os.path.join(root, "docs")):
        for name in sorted(names):
            yield os.path.join(folder, name)
    for name in ("README.md", "CHANGELOG.md"):
        yield os.path.join(root, name)


def main(argv):
    root = argv[0] if argv else os.path.dirname(HERE)
    names = table()
    for path in files(root):
        if path.endswith(".antt"):
            turn = lambda text: antt(text, names)
        elif path.endswith(".rt"):
            turn = lambda text: turned(text, names, False)
        elif path.endswith(".edit"):
            turn = lambda text: turned(text, names, ".antt" in text)
        elif path.endswith(".md") and os.path.basename(path) not in ("PORT.md", "DESIGN-PASS.md"):
            turn = lambda text: in_backticks(text, names)
        else:
            continue
        with open(path, encoding="utf-8") as f:
            old = f.read()
        new = turn(old)
        if new != old:
            with open(path, "w", encoding="utf-8") as f:
                f.write(new)
            print(os.path.relpath(path, root))


main(sys.argv[1:])
