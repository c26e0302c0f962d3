# SPDX-License-Identifier: MIT
"""The proved judge of a surveyor's walk along the edges of square floor panels, for Python.

>>> import undrwyth
>>> walk = undrwyth.walk("001100322223")
>>> walk.verdict.name, walk.meeting, walk.area
('CLOSED_MEETING', (3, 9), 0)
>>> undrwyth.walk("00000011112222223333").panels
24

Operations, steps and turns are bytes 0 to 4, or a string of digits; a start is a pair of ints. What is wrong is refused with
`Refused`. Buffers are made for each call, as large as it can need, or lent by the caller, without a copy: a bytearray, an array,
a memoryview or a NumPy array of bytes, or of 32-bit integers if the call writes words or numbers. A call keeps nothing, so
calls may run in several threads at once, on buffers of their own.
"""
from __future__ import annotations

from ctypes import c_int32
from typing import NoReturn, Optional, Sequence, Union

from . import _native
from ._answers import (
    CORNER_NUMBERS, LINE_BYTES, MARK_WORDS, MOST_GRID, MOST_INPUT_BYTES, MOST_PAIR_RECORDS, MOST_RECORDS, MOST_START, MOST_STEPS,
    NO_MEETING, PAIR_RECORD_WORDS, POINT_BYTES, POLYGON_HEADER_BYTES, RECORD_WORDS, SENTENCES, SPAN_NUMBERS, VERDICTS, Chain,
    Corner, Hull, Line, Mark, Marks, OrthogonalHull, Overlay, PairRecord, PairTable, Part, Party, PartyFacts, Polygon, Record, Refusal, Refused,
    Rows, Span, Steps, Table, Text, Verdict, Walk, WalkTwo,
)
from ._native import ORIGIN, Buffer, Input, LibraryMissing, apart, corner, grid_size, raw, room, rooms, steps, text

__version__ = "1.1.0"
__all__ = [
    "walk", "walk_two", "hull", "outline", "polygon_of_room", "chain_of_polygon", "rows", "overlay", "convex",
    "orthogonal_hull", "turns_of_steps", "steps_of_turns", "line", "convert_line", "Refused", "Refusal", "LibraryMissing", "Verdict", "Walk",
    "WalkTwo", "PartyFacts", "Hull", "Steps", "Chain", "OrthogonalHull", "Polygon", "Rows", "Overlay", "Part", "Line", "Text", "Table",
    "PairTable", "Record", "PairRecord", "Party", "Marks", "Mark", "Span", "Corner", "Input", "Buffer", "MOST_INPUT_BYTES",
    "MOST_STEPS", "MOST_START", "MOST_GRID", "MOST_RECORDS", "MOST_PAIR_RECORDS", "RECORD_WORDS", "PAIR_RECORD_WORDS", "MARK_WORDS",
    "CORNER_NUMBERS", "POLYGON_HEADER_BYTES", "POINT_BYTES", "SPAN_NUMBERS", "LINE_BYTES", "NO_MEETING",
]

(_walk, _walk_two, _hull, _outline, _polygon_of_room, _chain_of_polygon, _rows, _overlay, _convex,
 _orthogonal_hull, _turns_of_steps, _steps_of_turns, _line, _convert_line) = _native.functions()

for _class in (Refused, LibraryMissing):
    _class.__module__ = __name__  # by this name they are caught, and shown

_Two, _Three, _Five, _Six, _Eight = c_int32 * 2, c_int32 * 3, c_int32 * 5, c_int32 * 6, c_int32 * 8
_Eleven, _Nineteen = c_int32 * 11, c_int32 * 19


def _refuse(number: int, place: int, given: Optional[Input] = None, most: int = 3) -> NoReturn:
    """Raises the refusal; `given` is the input that has the place, if it is known, and `most` its greatest digit."""
    refusal = Refusal(number)
    if refusal in SENTENCES:
        raise Refused(number, place, SENTENCES[refusal].format(place=place))
    what = "the byte"
    if isinstance(given, str) and given[place] not in "0123456789":
        what = repr(given[place])
    elif given is not None:
        what = f"byte {steps(given)[place]}"
    said = "is of neither party" if refusal is Refusal.UNKNOWN_PARTY else f"is not a digit from 0 to {most}"
    raise Refused(number, place, f"{what} at place {place} {said}")


def _facts(words: Sequence[int], chain: memoryview) -> PartyFacts:
    verdict, count, corners, j, k, area, x, y = words
    return PartyFacts(VERDICTS[verdict], count, corners, None if k == NO_MEETING else (j, k), area, (x, y), chain)


def walk(
    ops: Input, start: Corner = ORIGIN, *,
    table: Optional[Buffer] = None, marks: Optional[Buffer] = None, chain: Optional[Buffer] = None,
) -> Walk:
    """Judges the walk of the operations from the start corner.

    >>> answer = walk("004123")
    >>> answer.verdict, answer.steps, answer.area, answer.chain
    (<Verdict.ROOM: 2>, 4, 1, b'\\x00\\x01\\x02\\x03')
    >>> answer.table[0].edge_east, answer.marks[2]
    (1, Mark(nodes=2, visits=1, changed=2))

    A lent table has 25 words for each record. For each operation marks has three words, and a chain one byte.

    >>> table = bytearray(100 * 4)
    >>> walk("0123", table=table).table[3].visits
    1
    """
    data = steps(ops)
    n = min(len(data), MOST_INPUT_BYTES)
    x, y = corner(start)
    # 4 c + 64 records are enough for c different corners, from (0,0) 4 c - 3; a walk has at most one more than it has steps
    records = 4 * (min(n, MOST_STEPS) + 1) + (64 if x or y else -3)
    if table is None and marks is None and chain is None:
        t, m, c = rooms(RECORD_WORDS * records, MARK_WORDS * n, n)
    else:
        t = room(table, "I", RECORD_WORDS * records)
        m = room(marks, "I", MARK_WORDS * n)
        c = room(chain, "B", n)
        apart(t, m, c)
    answer = _Eleven()
    number = _walk(x, y, data, len(data), t[0], t[1], m[0], m[1], c[0], c[1], answer)
    if number:
        _refuse(number, answer[1], ops, 4)
    _, _, verdict, count, nodes, corners, j, k, area, last_x, last_y = answer[:]
    made = Walk.__new__(Walk)  # as Walk(..) makes it, in half the time
    made.__dict__.update(
        verdict=VERDICTS[verdict], steps=count, corners=corners, meeting=None if k == NO_MEETING else (j, k), area=area,
        last=(last_x, last_y), buffer=c[2], nodes=nodes, table=Table(t[2], nodes), marks=Marks(m[2], n),
    )
    return made


def walk_two(
    ops: Input, start0: Corner = ORIGIN, start1: Corner = ORIGIN, *,
    table: Optional[Buffer] = None, marks: Optional[Buffer] = None,
    chain0: Optional[Buffer] = None, chain1: Optional[Buffer] = None,
) -> WalkTwo:
    """Judges the walks of two parties in one table. A byte is 16 times the party plus an operation; a string has two
    hexadecimal digits for each byte.

    >>> answer = walk_two("00 12 00 12 11 14 01 13 02 10 02 10 03 11", (0, 0), (3, 1))
    >>> answer.nodes, [party.area for party in answer.parties]
    (8, [2, 2])
    >>> [party.edge_west for party in answer.table[4].parties]
    [1, 1]
    """
    data = bytes.fromhex(ops) if isinstance(ops, str) else raw(ops)
    n = min(len(data), MOST_INPUT_BYTES)
    (x0, y0), (x1, y1) = corner(start0), corner(start1)
    # 4 c + 128 records are enough for c different corners of both together
    t = room(table, "I", PAIR_RECORD_WORDS * (4 * (min(n, 2 * MOST_STEPS) + 2) + 128))
    m = room(marks, "I", MARK_WORDS * n)
    c0 = room(chain0, "B", n)
    c1 = room(chain1, "B", n)
    apart(t, m, c0, c1)
    answer = _Nineteen()
    number = _walk_two(
        x0, y0, x1, y1, data, len(data), t[0], t[1], m[0], m[1], c0[0], c0[1], c1[0], c1[1], answer)
    if number:
        _refuse(number, answer[1], data, 4)
    words = answer[:]
    parties = _facts(words[3:11], c0[2]), _facts(words[11:], c1[2])
    return WalkTwo(words[2], parties, PairTable(t[2], t[1] // PAIR_RECORD_WORDS), Marks(m[2], n))


def hull(chain: Input, start: Corner = ORIGIN, *, out: Optional[Buffer] = None) -> Hull:
    """Lists the corners of the convex hull of the walk of the chain.

    >>> hull("0123").corners
    ((0, 0), (1, 0), (1, 1), (0, 1))
    """
    data = steps(chain)
    x, y = corner(start)
    o = room(out, "i", CORNER_NUMBERS * (min(len(data), MOST_STEPS) + 1))
    answer = _Three()
    number = _hull(x, y, data, len(data), o[0], o[1], answer)
    if number:
        _refuse(number, answer[1], chain)
    count = answer[2]
    return Hull(count, o[2][: CORNER_NUMBERS * count])


def outline(chain: Input, start: Corner = ORIGIN, *, out: Optional[Buffer] = None) -> Steps:
    """Writes the outer outline of the walk of the chain, as steps.

    >>> outline("001122331000").digits
    '0010212233'
    """
    data = steps(chain)
    x, y = corner(start)
    o = room(out, "B", 2 * min(len(data), MOST_STEPS))
    answer = _Three()
    number = _outline(x, y, data, len(data), o[0], o[1], answer)
    if number:
        _refuse(number, answer[1], chain)
    return Steps(answer[2], o[2][: answer[2]])


def polygon_of_room(chain: Input, start: Corner = ORIGIN, *, out: Optional[Buffer] = None) -> Polygon:
    """Writes a room as a polygon in Well-Known Binary, in millimetres.

    >>> polygon_of_room("0123").wkb.hex()[:26]
    '01030000000100000005000000'
    """
    data = steps(chain)
    x, y = corner(start)
    o = room(out, "B", POLYGON_HEADER_BYTES + POINT_BYTES * (min(len(data), MOST_STEPS) + 1))
    answer = _Three()
    number = _polygon_of_room(x, y, data, len(data), o[0], o[1], answer)
    if number:
        _refuse(number, answer[1], chain)
    return Polygon(answer[2], o[2][: answer[2]])


def chain_of_polygon(file: Union[bytes, bytearray, memoryview], *, chain: Optional[Buffer] = None) -> Chain:
    """Reads a polygon in Well-Known Binary as a start corner and a chain.

    >>> back = chain_of_polygon(polygon_of_room("0123", (5, -7)).wkb)
    >>> back.start, back.digits
    ((5, -7), '0123')
    """
    data = raw(file)
    o = room(chain, "B", MOST_STEPS)
    answer = _Five()
    number = _chain_of_polygon(data, len(data), o[0], o[1], answer)
    if number:
        _refuse(number, answer[1])
    return Chain(answer[2], o[2][: answer[2]], (answer[3], answer[4]))


def rows(chain: Input, start: Corner = ORIGIN, *, out: Optional[Buffer] = None) -> Rows:
    """Lists the panels inside a room by rows.

    >>> rows("001223").spans
    (Span(row=0, first=0, last=1),)
    """
    data = steps(chain)
    x, y = corner(start)
    o = room(out, "i", SPAN_NUMBERS * min(len(data), MOST_STEPS) // 2)
    answer = _Three()
    number = _rows(x, y, data, len(data), o[0], o[1], answer)
    if number:
        _refuse(number, answer[1], chain)
    count = answer[2]
    return Rows(count, o[2][: SPAN_NUMBERS * count])


def overlay(
    chain1: Input, chain2: Input, start1: Corner = ORIGIN, start2: Corner = ORIGIN, *,
    first: Optional[Buffer] = None, second: Optional[Buffer] = None, both: Optional[Buffer] = None,
) -> Overlay:
    """Lays two rooms over each other.

    >>> answer = overlay("001223", "001223", (0, 0), (1, 0))
    >>> answer.first.panels, answer.second.panels, answer.both.spans
    (1, 1, (Span(row=0, first=1, last=1),))
    """
    data1, data2 = steps(chain1), steps(chain2)
    (x1, y1), (x2, y2) = corner(start1), corner(start2)
    most = SPAN_NUMBERS * (min(len(data1), MOST_STEPS) + min(len(data2), MOST_STEPS)) // 2
    lists = room(first, "i", most), room(second, "i", most), room(both, "i", most)
    apart(*lists)
    (f, fn, fv), (s, sn, sv), (b, bn, bv) = lists
    answer = _Eight()
    number = _overlay(x1, y1, data1, len(data1), x2, y2, data2, len(data2), f, fn, s, sn, b, bn, answer)
    if number:
        _refuse(number, answer[1])
    words = answer[:]
    parts = [Part(words[5 + i], view[: SPAN_NUMBERS * words[5 + i]], words[2 + i]) for i, view in enumerate((fv, sv, bv))]
    return Overlay(*parts)


def convex(chain: Input, start: Corner = ORIGIN) -> bool:
    """Says whether a room is convex.

    >>> convex("0123"), convex("000111233223")
    (True, False)
    """
    data = steps(chain)
    x, y = corner(start)
    answer = _Three()
    number = _convex(x, y, data, len(data), answer)
    if number:
        _refuse(number, answer[1], chain)
    return answer[2] == 1


def orthogonal_hull(chain: Input, start: Corner = ORIGIN, grid: int = 1, *, out: Optional[Buffer] = None) -> OrthogonalHull:
    """Writes the outline of the orthogonal hull of a room, in blocks of grid by grid panels.

    >>> hull = orthogonal_hull("000112321233")
    >>> hull.digits, hull.start, hull.blocks
    ('0001122233', (0, 0), 6)
    >>> orthogonal_hull("000112321233", (-3, 5), 2).corners
    ((-4, 4), (-2, 4), (0, 4), (0, 6), (0, 8), (-2, 8), (-4, 8), (-4, 6))

    It never has more steps than the chain.
    """
    data = steps(chain)
    x, y = corner(start)
    size = grid_size(grid)
    o = room(out, "B", min(len(data), MOST_STEPS))
    answer = _Six()
    number = _orthogonal_hull(x, y, data, len(data), size, o[0], o[1], answer)
    if number:
        _refuse(number, answer[1], chain)
    _, _, count, start_x, start_y, blocks = answer[:]
    return OrthogonalHull(count, o[2][:count], (start_x, start_y), blocks, size)


def turns_of_steps(chain: Input, *, out: Optional[Buffer] = None) -> Steps:
    """Makes turns of steps.

    >>> turns_of_steps("0123").digits
    '0111'
    """
    data = steps(chain)
    o = room(out, "B", min(len(data), MOST_INPUT_BYTES))
    answer = _Two()
    number = _turns_of_steps(data, len(data), o[0], o[1], answer)
    if number:
        _refuse(number, answer[1], chain)
    return Steps(len(data), o[2])


def steps_of_turns(turns: Input, *, out: Optional[Buffer] = None) -> Steps:
    """Makes steps of turns.

    >>> steps_of_turns("0111").digits
    '0123'
    """
    data = steps(turns)
    o = room(out, "B", min(len(data), MOST_INPUT_BYTES))
    answer = _Two()
    number = _steps_of_turns(data, len(data), o[0], o[1], answer)
    if number:
        _refuse(number, answer[1], turns)
    return Steps(len(data), o[2])


def line(record: Input, *, out: Optional[Buffer] = None) -> Line:
    """Answers a record, as the line program does. A refusal is raised; a lent buffer then holds its text.

    >>> answer = line("0000040123")
    >>> answer.text[:8], answer.area, answer.hull
    (b'02000400', 1, ((0, 0), (1, 0), (1, 1), (0, 1)))

    A lent buffer has at least 8,240 bytes.
    """
    data = text(record)
    o = room(out, "B", LINE_BYTES)
    if o[1] < LINE_BYTES:
        raise ValueError(f"a lent buffer for a line has at least {LINE_BYTES} bytes, not {o[1]}")
    count = _line(data, len(data), o[0], o[1])
    answer = o[2][:count]
    if answer[0] >= 56:  # the digit 8
        _refuse_line(data, bytes(answer))
    return Line(count, answer)


def _refuse_line(data: bytes, answer: bytes) -> NoReturn:
    number = int(answer[:2], 16) - 128
    digits = bytes(int(chr(digit), 16) for digit in data[6:]) if number == Refusal.BAD_DIGIT else None
    _refuse(number, int(answer[2:], 16), digits, 4)


def convert_line(record: Input, *, out: Optional[Buffer] = None) -> Text:
    """Converts a record with turns; any other line stays as it is.

    >>> convert_line("0100040111").text
    b'0000040123'
    """
    data = text(record)
    o = room(out, "B", len(data))
    if o[1] < len(data):
        raise ValueError(f"a lent buffer for this line has at least {len(data)} bytes, not {o[1]}")
    _convert_line(data, len(data), o[0], o[1])
    return Text(len(data), o[2][: len(data)])
