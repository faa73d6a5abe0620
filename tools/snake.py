#!/usr/bin/env python3
"""Turns the repository's own names of definitions and lemmas from camel case to snake case, in crates/*/{src,specs,proofs}.

usage: python3 tools/snake.py [--list] [FOLDER]     FOLDER is the top of the repository, by default this script's.

It takes the names that .antt files declare. Code, texts in quotes and exported names stay: they have no camel case.
--list prints the names beside their new spelling, and what falls together, and writes nothing.
"""
import glob
import os
import re
import sys

# Names that are turned to another one than the rule gives, since that one is taken.
OTHER = {"countBy": "count_live", "ownName": "own_names"}
# Lemmas whose name a definition takes, by file.
LEMMAS = {"crates/patternsets/proofs/Words.antt": {"row_words": "words_of_row"}}
PART = re.compile(r"(?<![\w'])[a-z][\w']*[A-Z][\w']*")
DECLARED = re.compile(r"^\s*(?:(?:abbrev|unfoldable|private|pub|module|ruleset)\s+)*([^\s:(){}]+)\s*(?:[({].*)?:", re.M)
HEX = re.compile(r"x[0-9A-F]+$")


def snake(name):
    return OTHER.get(name) or re.sub(r"(?<=[a-z0-9'])([A-Z])", lambda m: "_" + m[1].lower(), name)


def files(top, ends):
    for folder in ("src", "specs", "proofs"):
        for p in sorted(glob.glob(os.path.join(top, "crates", "*", folder, "**", "*"), recursive=True)):
            if p.endswith(ends):
                yield p


def read(p):
    with open(p, encoding="utf-8") as f:
        return f.read()


def names(top):
    found = set()
    for p in files(top, (".antt",)):
        for name in DECLARED.findall(read(p)):
            found |= {w for w in PART.findall(name) if not HEX.match(w)}
    found |= {"modelTest", "readOutputsLine"}
    return {n for n in found if snake(n) != n}


def turned(text, old):
    # Texts in quotes stay as they are.
    parts = re.split(r'("(?:[^"\\\n]|\\.)*")', text)
    for i in range(0, len(parts), 2):
        parts[i] = PART.sub(lambda m: snake(m[0]) if m[0] in old else m[0], parts[i])
    return "".join(parts)


def main():
    args = [a for a in sys.argv[1:] if a != "--list"]
    top = args[0] if args else os.path.dirname(os.path.dirname(os.path.abspath(__file__)))
    old = names(top)
    if "--list" in sys.argv:
        word = re.compile(r"(?<![\w'])[a-z][\w']*")
        taken = {}
        for p in files(top, (".antt", ".rt")):
            for w in word.findall(read(p)):
                taken.setdefault(w, set()).add(os.path.relpath(p, top))
        for n in sorted(old):
            print(n, snake(n), *sorted(taken.get(snake(n), [])))
        return
    for p in files(top, (".antt", ".rt")):
        t = new = read(p)
        for lemma, other in LEMMAS.get(os.path.relpath(p, top), {}).items():
            new = re.sub(rf"(?<![\w'-]){lemma}(?![\w'-])", other, new)
        new = turned(new, old)
        if new != t:
            with open(p, "w", encoding="utf-8") as f:
                f.write(new)


main()
