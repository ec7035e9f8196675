#!/usr/bin/env python3
"""Respells the repository's own definitions and lemmas by the table beside this script (old name, tab, new name).

usage: python3 tools/respell.py [ROOT]      over ROOT/crates, once, right after port.py (docs/PORT.md, its second line)
       python3 tools/respell.py --pages FILE..   over what pages say in backticks

A name is a whole word between spaces, brackets, dots and commas. In a comment only a name with a capital inside it is
respelled, since one with a dash may be plain English there. Names of functions of src/, strings and exported names are
not in the table.
"""

import os
import re
import sys

HERE = os.path.dirname(os.path.realpath(__file__))
WORD = re.compile(r"[^\s(){}\[\],.;:\"`|⌜⌝λ→×]+")


def table():
    with open(os.path.join(HERE, "respell.tsv"), encoding="utf-8") as f:
        return dict(line.rstrip("\n").split("\t") for line in f)


def respelled(text, names):
    return WORD.sub(lambda m: names.get(m.group(0), m.group(0)), text)


def turn(path, names):
    """A file of a crate: code and comments."""
    inner = {k: v for k, v in names.items() if re.search(r"[a-z0-9][A-Z]", k)}
    mark = "--" if path.endswith(".antt") else "//" if path.endswith(".rt") else "#"
    out = []
    with open(path, encoding="utf-8") as f:
        for line in f:
            at = 0 if line.lstrip().startswith(mark) else line.find(f" {mark} ")
            if at < 0 or (at > 0 and path.endswith(".antt")):
                at = len(line)
            out.append(respelled(line[:at], names) + respelled(line[at:], inner))
    write(path, "".join(out))


def write(path, text):
    with open(path, encoding="utf-8") as f:
        same = f.read() == text
    if not same:
        with open(path, "w", encoding="utf-8") as f:
            f.write(text)


def main(argv):
    names = table()
    if argv[:1] == ["--pages"]:
        for path in argv[1:]:
            with open(path, encoding="utf-8") as f:
                text = f.read()
            write(path, re.sub(r"`[^`\n]+`", lambda m: respelled(m.group(0), names), text))
        return
    root = argv[0] if argv else "."
    for folder, dirs, files in os.walk(os.path.join(root, "crates")):
        dirs[:] = sorted(d for d in dirs if d != "out")
        for f in sorted(files):
            if f.endswith((".antt", ".rt", ".edit")):
                turn(os.path.join(folder, f), names)


main(sys.argv[1:])
