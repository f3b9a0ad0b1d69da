#!/usr/bin/env python3
"""Respells the repository's own definitions and lemmas: words in snake case, types in camel case.

usage: python3 tools/respell.py        at the top of the repository

A name that has a dash and stands in TAKES is given the spelling beside it; every other name that a file of specs/ or
proofs/ defines and that has a dash has its dashes turned to underscores, or, where it begins with a capital, its words
joined in camel case. Functions of src/, strings and comments keep their spelling. It stops where two names would fall
together.
"""

import os
import re
import sys

# a definition whose name would be that of a type of src/
TAKES = {"Void-code": "IsVoidCode"}

DEFINED = re.compile(r"^\s*(?:(?:abbrev|unfoldable|pub|data|record|ruleset)\s+)*([^\s:{(]+)(?:\s+[({].*)?\s*:(?!\w)")
# a word of antt: dashes and apostrophes belong to it
WORD = re.compile(r"[^\s(){}.,;:«»\"@λ]+")
# what a .rt file has beside code: strings, characters, comments
APART = re.compile(r'"(?:[^"\\]|\\.)*"|//[^\n]*')


def files(ending):
    for folder, dirs, names in os.walk("crates"):
        dirs[:] = sorted(d for d in dirs if d != "out")
        for name in sorted(names):
            if name.endswith(ending):
                yield os.path.join(folder, name)


def read(path):
    with open(path, encoding="utf-8") as f:
        return f.read()


def write(path, text):
    with open(path, "w", encoding="utf-8") as f:
        f.write(text)


def spelling(name):
    if name in TAKES:
        return TAKES[name]
    words = name.split("-")
    if name[0].isupper():
        return "".join(w[:1].upper() + w[1:] for w in words)
    return "_".join(words)


def defined():
    """The names that lemmas and definitions have; the goals that an answer file answers are not the repository's."""
    names = set()
    for path in files(".antt"):
        if os.path.basename(path) in ("Answers.antt", "Invariants.antt", "Proof.antt"):
            continue
        for line in read(path).split("\n"):
            found = DEFINED.match(line.split("--")[0])
            if found and not line.startswith("use "):
                names.add(found.group(1))
    return names


def turn(text, table):
    return WORD.sub(lambda m: table.get(m.group(0), m.group(0)), text)


def turn_code(text, table):
    parts, at = [], 0
    for m in APART.finditer(text):
        parts += [turn(text[at : m.start()], table), m.group(0)]
        at = m.end()
    return "".join(parts) + turn(text[at:], table)


def turn_proof(text, table):
    """All but what a comment says."""
    lines = []
    for line in text.split("\n"):
        code, dashes, said = line.partition("-- ")
        lines.append(turn(code, table) + dashes + said)
    return "\n".join(lines)


def main():
    names = defined()
    table = {n: spelling(n) for n in sorted(names) if "-" in n}
    for old, new in table.items():
        if new in names or sum(1 for t in table.values() if t == new) > 1:
            sys.exit(f"respell: {old} would fall together with another {new}")
    for path in files(".antt"):
        write(path, turn_proof(read(path), table))
    for path in files(".rt"):
        write(path, turn_code(read(path), table))
    for old, new in table.items():
        print(f"{old} -> {new}")


main()
