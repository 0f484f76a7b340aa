#!/usr/bin/env python3
"""Respells this repository's own definitions, lemmas and labels as today's Rattle does.

usage: python3 tools/respell.py FOLDER      a checkout on which the kit's port.py has run, and nothing else

Words are in snake case; a dash stays only between the names of two functions. The pairs of names stand in
respelled-names.txt beside this file: each is a name of the repository's own, from specs/ or proofs/, or an alias in a
clause. Functions of src/, strings, inputs and outputs keep their names. In comments only the names that no English word
can be are respelled.
"""

import os
import re
import sys

HERE = os.path.dirname(os.path.realpath(__file__))
TOKEN = re.compile(r"(?<![\w'-])[A-Za-z_][\w'-]*")
STRING = re.compile(r'"(?:[^"\\]|\\.)*"')


def pairs():
    with open(os.path.join(HERE, "respelled-names.txt"), encoding="utf-8") as f:
        return dict(line.split() for line in f if line.strip())


def respelled(text, names):
    return TOKEN.sub(lambda m: names.get(m.group(0), m.group(0)), text)


def outside_strings(text, names):
    parts, at = [], 0
    for m in STRING.finditer(text):
        parts += [respelled(text[at : m.start()], names), m.group(0)]
        at = m.end()
    return "".join(parts + [respelled(text[at:], names)])


def line_respelled(line, mark, names, plain):
    at = line.find(mark) if mark else -1
    code, comment = (line, "") if at < 0 else (line[:at], line[at:])
    return outside_strings(code, names) + respelled(comment, plain)


def main(root):
    names = pairs()
    plain = {old: new for old, new in names.items() if "-" not in old}
    marks = {".antt": "--", ".rt": "//", ".edit": None}
    for folder, dirs, files in os.walk(os.path.join(root, "crates")):
        dirs[:] = sorted(d for d in dirs if d not in ("out", "target"))
        for name in sorted(files):
            kind = os.path.splitext(name)[1]
            if kind not in marks:
                continue
            path = os.path.join(folder, name)
            with open(path, encoding="utf-8") as f:
                old = f.read()
            new = "".join(line_respelled(line, marks[kind], names, plain) for line in old.splitlines(keepends=True))
            if new != old:
                with open(path, "w", encoding="utf-8") as f:
                    f.write(new)


if __name__ == "__main__":
    main(sys.argv[1] if len(sys.argv) > 1 else ".")
