# SPDX-License-Identifier: MIT
"""Answers walks in words: python3 -m undrwyth [--start X,Y] DIGITS.."""
from __future__ import annotations

import os
import sys
from typing import List, Tuple

import undrwyth
from undrwyth import Corner, Verdict, Walk

USAGE = """usage: python3 -m undrwyth [--start X,Y] DIGITS..
       python3 -m undrwyth --help | --version

DIGITS is a walk: 0 east, 1 north, 2 west, 3 south, 4 takes the last step back. Each walk is answered in one line.

Status: 0 if every walk was answered; 1 if one was refused; 2 for wrong usage; 3 if there is no library, or the answers
cannot be written."""


def words(walk: Walk, start: Corner) -> str:
    """An answer in words.

    >>> words(undrwyth.walk("001100322223"), (0, 0))
    'closed and crossed: step 9 comes back to (2,1), where step 3 was'
    >>> words(undrwyth.walk("00000011112222223333"), (0, 0))
    'a room of 24 panels, 20 steps, counterclockwise'
    """
    steps = "1 step" if walk.steps == 1 else f"{walk.steps} steps"
    if walk.verdict is Verdict.NOWHERE:
        return "no step survives"
    if walk.verdict is Verdict.ROOM:
        panels = "1 panel" if walk.panels == 1 else f"{walk.panels} panels"
        return f"a room of {panels}, {steps}, {'counter' if walk.area > 0 else ''}clockwise"
    if walk.verdict is Verdict.THERE_AND_BACK:
        return "there and back, which is not a room"
    if walk.verdict is Verdict.OPEN or walk.meeting is None:
        return f"open: {steps}, from ({start[0]},{start[1]}) to ({walk.last[0]},{walk.last[1]})"
    j, k = walk.meeting
    x, y = _corner(walk.chain[:k], start)
    closed = "closed" if walk.verdict is Verdict.CLOSED_MEETING else "open"
    before = f"where step {j} was" if j else "where the walk began"
    return f"{closed} and crossed: step {k} comes back to ({x},{y}), {before}"


def _corner(chain: bytes, start: Corner) -> Corner:
    east, north, west, south = map(chain.count, range(4))
    return start[0] + east - west, start[1] + north - south


def _start(given: str) -> Corner:
    x, y = given.split(",")
    return int(x), int(y)


def _arguments(given: List[str]) -> Tuple[Corner, List[str]]:
    start = (0, 0)
    if given[:1] == ["--start"] and len(given) > 1:
        start, given = _start(given[1]), given[2:]
    if not given or any(walk.startswith("-") for walk in given):
        raise ValueError
    return start, given


def main(given: List[str]) -> int:
    """Answers the arguments, and gives the status."""
    if given in (["--help"], ["-h"]):
        print(USAGE)
        return 0
    if given == ["--version"]:
        print("undrwyth", undrwyth.__version__)
        return 0
    try:
        start, walks = _arguments(given)
    except ValueError:
        print("undrwyth: wrong usage:", *given, file=sys.stderr)
        print(USAGE.split("\n\n")[0], file=sys.stderr)
        return 2
    status = 0
    for ops in walks:
        try:
            print(words(undrwyth.walk(ops, start), start))
        except undrwyth.Refused as refused:
            print(f"refused: {refused}")
            status = 1
    return status


if __name__ == "__main__":
    try:
        status = main(sys.argv[1:])
        sys.stdout.flush()
    except OSError as why:  # a missing library is one
        print(f"undrwyth: {why}", file=sys.stderr)
        sys.stderr.flush()
        os._exit(3)  # what could not be written is not tried again
    sys.exit(status)
