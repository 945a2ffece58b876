#!/usr/bin/env python3
"""Brings the names of definitions and lemmas to today's spelling: snake case, types in camel case.

usage: python3 tools/respell.py [TOP]    once, right after /opt/rattle/port/port.py, over TOP (the folder above tools/ if not given)

The table is respell.txt, beside this file: an old name and its new one on each line. A name is turned where it stands as a whole
word of antt, in .antt files and in the clauses of .rt files. In comments it is turned only in the lists of names at the head of a file,
and in the pages of docs/ and README.md only in backquotes. Names that Rattle makes from the code, as loop-i, are not in the table.
"""
import os
import re
import subprocess
import sys

HERE = os.path.dirname(os.path.abspath(__file__))
TOP = sys.argv[1] if len(sys.argv) > 1 else os.path.dirname(HERE)
with open(os.path.join(HERE, "respell.txt"), encoding="utf-8") as f:
    NAMES = dict(line.split() for line in f)
WORD = re.compile(r"[^\s(){}\[\];,.`]+")
LISTED = re.compile(r"^(\s*--\s+)(\S+(?:, \S+)*)(\s*$|\s\s.*$)")


def turned(text):
    return WORD.sub(lambda m: NAMES.get(m[0], m[0]), text)


def line_of_code(line, comment):
    if comment == "--" and (m := LISTED.match(line)):
        return m[1] + turned(m[2]) + m[3]
    at = line.find(comment)
    if at >= 0 and (at == 0 or line[at - 1].isspace()):
        return turned(line[:at]) + line[at:]
    return turned(line)


def line_of_page(line):
    return re.sub(r"`[^`]*`", lambda m: turned(m[0]), line)


def rewrite(path, change):
    with open(path, encoding="utf-8") as f:
        old = f.read()
    new = "\n".join(change(line) for line in old.split("\n"))
    if new != old:
        with open(path, "w", encoding="utf-8") as f:
            f.write(new)


for folder, dirs, files in os.walk(os.path.join(TOP, "crates")):
    dirs[:] = sorted(d for d in dirs if d != "out")
    for name in sorted(files):
        if name.endswith(".antt"):
            rewrite(os.path.join(folder, name), lambda line: line_of_code(line, "--"))
        elif name.endswith(".rt"):
            rewrite(os.path.join(folder, name), lambda line: line_of_code(line, "//"))
for page in ["README.md"] + sorted("docs/" + p for p in os.listdir(os.path.join(TOP, "docs")) if p.endswith(".md")):
    rewrite(os.path.join(TOP, page), line_of_page)
for crate in sorted(os.listdir(os.path.join(TOP, "crates"))):
    if os.path.isdir(os.path.join(TOP, "crates", crate, "src")):
        subprocess.run(["rt", "fmt"], cwd=os.path.join(TOP, "crates", crate), stdout=subprocess.DEVNULL, check=False)
