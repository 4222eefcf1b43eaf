#!/usr/bin/env python3
"""Brings the definitions and lemmas of this repository to the spelling of today's Rattle: snake case.

usage: python3 tools/respell.py [FOLDER]     after the kit's port.py, once, at the top of the repository

A name of a definition, a record's field, a constructor or a variable in camel case (`twoAt`) becomes snake case (`two_at`) in
specs/, proofs/, clauses, comments and must-fail edits. Where a lemma or a variable has that name already, since port.py took a
dash of it for a word of the library, the lemma gets its dash back first (`row_read` becomes `row-read`), so that no two names fall
together. Functions of src/, types, modules, strings, inputs and outputs keep their names. It says what it renamed.
"""

import os
import re
import sys

CAMEL = re.compile(r"(?<![\w'])[a-z][A-Za-z0-9₀-₉]*[A-Z][A-Za-z0-9₀-₉]*")
# names of the library that are in camel case, and what is no name
KEPT = {"xBYTES"}


def snake(name):
    s = re.sub(r"([A-Z]+)([A-Z][a-z])", r"\1_\2", name)
    return re.sub(r"([a-z0-9₀-₉])([A-Z])", r"\1_\2", s).lower()


def texts(root):
    for folder, dirs, files in os.walk(os.path.join(root, "crates")):
        dirs[:] = sorted(d for d in dirs if d != "out")
        for f in sorted(files):
            if f.endswith((".antt", ".rt", ".edit")):
                yield os.path.join(folder, f)


def bare(name):
    """The name where it is no part of a path or of another name."""
    return re.compile(r"(?<![\w'.\-])" + re.escape(name) + r"(?![\w'\-])")


def in_code(text, change):
    """change of the parts of an antt text that are no comments."""
    lines = []
    for line in text.split("\n"):
        at = line.find("--") if re.match(r"\s*--", line) else line.find(" -- ")
        lines.append(change(line) if at < 0 else change(line[:at]) + line[at:])
    return "\n".join(lines)


def main(root):
    held = {p: open(p, encoding="utf-8").read() for p in texts(root)}
    antt = [p for p in held if p.endswith(".antt")]
    camel = sorted({n for t in held.values() for n in CAMEL.findall(t)} - KEPT)
    defined = "\n".join(held[p] for p in antt)
    twins = []
    for name in camel:
        to = snake(name)
        if not re.search(r"(?m)^\s*(?:\w+ )*" + re.escape(name) + r"\s*:(?!:)", defined):
            continue
        if re.search(r"(?m)^\s*(?:pub |private )*" + re.escape(to) + r"\s*:(?!:)", defined) or re.search(
            r"\blet " + re.escape(to) + r"\s*[=:]", defined
        ) or re.search(r"[({]" + re.escape(to) + r" :", defined):
            twins.append(to)
    for to in twins:
        name = bare(to)
        for p in antt:
            if to in held[p]:
                held[p] = in_code(held[p], lambda part: name.sub(to.replace("_", "-"), part))
        print(f"{to} is {to.replace('_', '-')}")
    for p in held:
        held[p] = CAMEL.sub(lambda m: m.group() if m.group() in KEPT else snake(m.group()), held[p])
    for name in camel:
        print(f"{name} is {snake(name)}")
    for p, text in held.items():
        with open(p, "w", encoding="utf-8") as f:
            f.write(text)


main(sys.argv[1] if len(sys.argv) > 1 else ".")
