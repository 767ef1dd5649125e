#!/usr/bin/env python3
"""Respells the repository's own definitions and lemmas: words in snake case, types in camel case.

usage: python3 tools/respell.py [FOLDER]     run once, at the top of a checkout whose older spelling port.py has turned
The old and the new names stand in respelled.tsv beside this script. Whole names alone are turned, in .antt files, in the
code of .rt files and in the texts of must-fail edits; comments and strings stay. The files are laid out by `rt fmt` after it.
"""

import os
import re
import subprocess
import sys

HERE = os.path.dirname(os.path.realpath(__file__))
NAME = re.compile(r"[A-Za-z_][A-Za-z0-9_'-]*")
STRING = r"\"(?:\\.|[^\"\\])*\""
SKIPPED = {".rt": re.compile(r"//[^\n]*|" + STRING), ".edit": re.compile(r"//[^\n]*|" + STRING), ".antt": re.compile(r"--[^\n]*|" + STRING)}


def table():
    with open(os.path.join(HERE, "respelled.tsv"), encoding="utf-8") as f:
        return dict(line.rstrip("\n").split("\t") for line in f)


def turn(text, names):
    return NAME.sub(lambda m: names.get(m[0], m[0]), text)


def turn_code(text, names, skipped):
    parts, at = [], 0
    for m in skipped.finditer(text):
        parts += [turn(text[at : m.start()], names), m[0]]
        at = m.end()
    return "".join(parts + [turn(text[at:], names)])


def files(root):
    for folder, dirs, names in os.walk(os.path.join(root, "crates")):
        dirs[:] = sorted(d for d in dirs if d != "out")
        for name in sorted(names):
            yield os.path.join(folder, name)


def main(root):
    names = table()
    changed = 0
    for path in files(root):
        skipped = SKIPPED.get(os.path.splitext(path)[1])
        if skipped is None:
            continue
        with open(path, encoding="utf-8") as f:
            old = f.read()
        new = turn_code(old, names, skipped)
        if new != old:
            changed += 1
            with open(path, "w", encoding="utf-8") as f:
                f.write(new)
    for crate in sorted(os.listdir(os.path.join(root, "crates"))):
        subprocess.run(["rt", "fmt"], cwd=os.path.join(root, "crates", crate), stdout=subprocess.DEVNULL)
    print(f"{len(names)} names, {changed} files changed")


main(sys.argv[1] if len(sys.argv) > 1 else ".")
