#!/usr/bin/env python3
"""Breaks each line that is believed and has more than 130 columns, as .ci/names lists them.

usage: python3 tools/wrap.py     at the top of the repository; then `rt fmt` in each crate whose files it names

A line is broken where the fewest brackets are open: after its `=` or `↦`, before an operator, or else before an argument.
"""
import re
import subprocess
import sys

MOST = 130
OPERATORS = {"→", "×", "⊎", "↔", "≡", "∷", "++", "+", "&&", "||"}


def broken(line):
    """The line in two. A comment, and a line without such a place, stay as they are."""
    if line.lstrip().startswith(("--", "//")):
        return [line]
    indent = len(line) - len(line.lstrip())
    best, depth = None, 0
    for at, c in enumerate(line):
        depth += (c in "([{") - (c in ")]}")
        if c != " " or at <= indent + 8 or at > MOST:
            continue
        before, after = line[:at].split()[-1], line[at:].split()[0]
        kind = 0 if before in ("=", "↦") else 1 if after in OPERATORS and before not in OPERATORS else 3
        if before in OPERATORS or after in ("=", "↦", ":") or before in (":", "|", "record", "λ") or indent + 4 + len(line) - at - 1 > MOST:
            continue
        score = (depth, kind, -at)
        if best is None or score < best[0]:
            best = score, at
    if best is None:
        return [line]
    at = best[1]
    return [line[:at], " " * (indent + 4) + line[at + 1:]]


def main():
    said = subprocess.run([".ci/names"], stdout=subprocess.PIPE, text=True).stdout
    places = [(m[1], int(m[2])) for m in re.finditer(r"^(\S+):(\d+) has \d+ columns$", said, re.M)]
    for path, number in sorted(places, reverse=True):
        with open(path, encoding="utf-8") as f:
            lines = f.read().split("\n")
        lines[number - 1:number] = broken(lines[number - 1])
        with open(path, "w", encoding="utf-8") as f:
            f.write("\n".join(lines))
        print(f"{path}:{number}")


if len(sys.argv) > 1:
    sys.exit(__doc__)
main()
