#!/usr/bin/env python3
"""Spells this repository's own definitions and lemmas as today's Rattle does, by port_names.tsv beside this file.

usage: tools/port_names.py [TOP]

To be run once, after the kit's port/port.py, at the top of a checkout (or on the folder TOP). It rewrites the .rt, .antt and .edit
files of crates/, and what stands between backticks in README.md and docs/*.md. In a comment only names without a dash are turned, and
names between backticks. Functions of src/, exported names, strings, inputs and outputs are not in the table.
"""

import os
import re
import sys

HERE = os.path.dirname(os.path.realpath(__file__))
TOP = sys.argv[1] if len(sys.argv) > 1 else os.path.dirname(HERE)
TOKEN = re.compile(r"[^\s(){}.;,@\"«»\[\]`:]+")
TICKED = re.compile(r"`[^`\n]+`")

with open(os.path.join(HERE, "port_names.tsv"), encoding="utf-8") as f:
    NAMES = dict(line.rstrip("\n").split("\t") for line in f)
# The names without a dash, which no English word is spelled like.
PLAIN = {old: new for old, new in NAMES.items() if "-" not in old}


def name(old, names):
    # A module that a theorem takes a contract from.
    if old.endswith("·contract"):
        return old[: -len("·contract")].replace("-", "_") + "_contract"
    return names.get(old, old)


def turn(text, names):
    return TOKEN.sub(lambda m: name(m[0], names), text)


def turn_ticked(text):
    return TICKED.sub(lambda m: turn(m[0], NAMES), text)


def turn_line(line, mark):
    at = line.find(mark)
    # A mark counts where it begins the line or stands behind a blank.
    while at > 0 and not line[at - 1].isspace():
        at = line.find(mark, at + 1)
    code, comment = (line, "") if at < 0 else (line[:at], line[at:])
    return turn(code, NAMES) + turn(turn_ticked(comment), PLAIN)


def rewrite(path, change):
    with open(path, encoding="utf-8", newline="") as f:
        old = f.read()
    new = change(old)
    if new != old:
        with open(path, "w", encoding="utf-8", newline="") as f:
            f.write(new)


def files():
    for folder, dirs, names in os.walk(os.path.join(TOP, "crates")):
        dirs[:] = sorted(d for d in dirs if d != "out")
        yield from (os.path.join(folder, n) for n in sorted(names))


for path in files():
    ending = os.path.splitext(path)[1]
    if ending in (".rt", ".antt", ".edit"):
        mark = "--" if ending == ".antt" else "//" if ending == ".rt" else "#"
        rewrite(path, lambda text: "".join(turn_line(line, mark) for line in text.splitlines(keepends=True)))
pages = [os.path.join(TOP, "README.md")]
docs = os.path.join(TOP, "docs")
pages += [os.path.join(docs, n) for n in sorted(os.listdir(docs)) if n.endswith(".md") and not n.startswith("PORT")]
for path in pages:
    rewrite(path, turn_ticked)
