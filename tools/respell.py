#!/usr/bin/env python3
"""Brings the names of definitions and lemmas to snake case, after port.py: once, at the top of the repository.

usage: python3 tools/respell.py [FOLDER]

It goes by words: in each .antt and .rt file under crates/, strings aside, a word that begins low and has a capital in it (gamesWith, devCA1) is
split at its capitals (games_with, dev_ca1). Types, modules, variants and the letters of RobinX's notation (n, P, G, C, S) begin with a capital
and stay, and so does a dash between two names (games_with-le). Functions of src/ have no capitals, so none of them changes.
"""
import os
import re
import sys

WORD = re.compile(r"(?<![A-Za-z0-9_'])[a-z][a-z0-9_]*[A-Z][A-Za-z0-9_]*")
STRING = re.compile(r'"(?:[^"\\\n]|\\.)*"')

# What the library or what Rattle generates spells so.
KEPT = re.compile(r"_[A-Z]")

# Two lemmas would have the name of the definition that they are about.
APART = {"by_row": "by_row_lem", "in_all": "in_all_lem"}
ALONE = re.compile(r"(?<![A-Za-z0-9_'.-])(by_row|in_all)(?![A-Za-z0-9_'.-])")

# Capitals behind a dash, or before one.
DASHED = {
    "GA1-alone": "ga1-alone",
    "SE1-alone": "se1-alone",
    "apart-in-S": "apart-in-s",
    "formula-BR4": "formula-br4",
    "formula-CA5": "formula-ca5",
    "formula-SE1": "formula-se1",
}
DASHES = re.compile("(?<![A-Za-z0-9_'-])(" + "|".join(DASHED) + ")(?![A-Za-z0-9_'-])")


def snake(word):
    return re.sub(r"([a-z0-9])([A-Z])", r"\1_\2", word).lower()


def turn(text):
    text = ALONE.sub(lambda m: APART[m.group(1)], text)
    text = DASHES.sub(lambda m: DASHED[m.group(1)], text)
    return WORD.sub(lambda m: m.group(0) if KEPT.search(m.group(0)) else snake(m.group(0)), text)


def outside_strings(text):
    at, out = 0, []
    for m in STRING.finditer(text):
        out += [turn(text[at:m.start()]), m.group(0)]
        at = m.end()
    return "".join(out) + turn(text[at:])


def main():
    root = sys.argv[1] if len(sys.argv) > 1 else "."
    for folder, dirs, files in os.walk(os.path.join(root, "crates")):
        dirs[:] = [d for d in dirs if d not in ("out", "data")]
        for f in sorted(files):
            if not f.endswith((".antt", ".rt")):
                continue
            path = os.path.join(folder, f)
            with open(path, encoding="utf-8") as t:
                old = t.read()
            new = outside_strings(old)
            if new != old:
                with open(path, "w", encoding="utf-8") as t:
                    t.write(new)
                print(path)


main()
