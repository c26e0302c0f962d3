# SPDX-License-Identifier: MIT
"""What the calls answer, their refusals and their limits. include/undrwyth.h has the numbers; a test compares them."""
from __future__ import annotations

from dataclasses import dataclass
from enum import IntEnum
from typing import Iterator, NamedTuple, Optional, Sequence, Tuple, TypeVar, Union, overload

MOST_INPUT_BYTES = 32768
MOST_STEPS = 16384
MOST_START = 16384
MOST_GRID = 16384
MOST_RECORDS = 131148
MOST_PAIR_RECORDS = 262296
RECORD_WORDS = 25
PAIR_RECORD_WORDS = 36
MARK_WORDS = 3
CORNER_NUMBERS = 2
POLYGON_HEADER_BYTES = 13
POINT_BYTES = 16
SPAN_NUMBERS = 3
LINE_BYTES = 8240
NO_MEETING = 65535

Corner = Tuple[int, int]


class Verdict(IntEnum):
    """What a walk is."""

    NOWHERE = 0
    OPEN = 1
    ROOM = 2
    OPEN_MEETING = 3
    CLOSED_MEETING = 4
    THERE_AND_BACK = 5


VERDICTS = tuple(Verdict)


class Refusal(IntEnum):
    """The numbers of refusals."""

    TOO_MANY = 1
    TABLE = 2
    RESULT_ROOM = 3
    BAD_DIGIT = 4
    NOTHING_TO_TAKE = 5
    TOO_LONG = 6
    NO_ROOM = 7
    HULL_ROOM = 8
    BAD_LINE = 9
    START_RANGE = 10
    OUTLINE_ROOM = 11
    NOT_ROOM = 12
    POLYGON_ROOM = 13
    FILE_LENGTH = 14
    FILE_KIND = 15
    BAD_COORDINATE = 16
    BAD_RING = 17
    CHAIN_ROOM = 18
    RETIRED_KIND = 19
    UNKNOWN_PARTY = 20
    SPAN_ROOM = 21
    GRID_SIZE = 22


SENTENCES = {
    Refusal.TOO_MANY: "the input has more than 32,768 bytes",
    Refusal.TABLE: "the lent table does not have a whole number of records, or has none, or too many",
    Refusal.RESULT_ROOM: "a lent buffer does not have the length that the input asks for",
    Refusal.NOTHING_TO_TAKE: "the operation at place {place} takes a step back, and no step is left",
    Refusal.TOO_LONG: "the step at place {place} would be the 16,385th that survives",
    Refusal.NO_ROOM: "the table has too few records for the operation at place {place}",
    Refusal.HULL_ROOM: "the lent buffer is shorter than two numbers for each hull corner",
    Refusal.BAD_LINE: "the line is not a record",
    Refusal.START_RANGE: "a coordinate of the start is beyond 16,384",
    Refusal.OUTLINE_ROOM: "the lent buffer is shorter than the outline",
    Refusal.NOT_ROOM: "the walk is not a room",
    Refusal.POLYGON_ROOM: "the lent buffer is shorter than the polygon",
    Refusal.FILE_LENGTH: "the file does not have 13 bytes and 16 for each point",
    Refusal.FILE_KIND: "the file is not a polygon of one ring: its byte order, type or ring count is another",
    Refusal.BAD_COORDINATE: "a coordinate is not a whole multiple of 600, or is too far out",
    Refusal.BAD_RING: "the ring has a slant, a repeated point or fewer than four points, or is not closed",
    Refusal.CHAIN_ROOM: "the lent buffer is shorter than the chain",
    Refusal.RETIRED_KIND: "the record has turns, which are retired; convert changes them to steps",
    Refusal.SPAN_ROOM: "a lent buffer is shorter than three numbers for each span",
    Refusal.GRID_SIZE: "the grid size is not a number from 1 to 16,384",
}


class Refused(ValueError):
    """A call was refused: `number`, `name` and `place` as include/undrwyth.h has them, and a `sentence`.

    >>> import undrwyth
    >>> try:
    ...     undrwyth.walk("0154")
    ... except undrwyth.Refused as refused:
    ...     print(refused.number, refused.name, refused.place, refused, sep="; ")
    4; BAD_DIGIT; 2; byte 5 at place 2 is not a digit from 0 to 4
    """

    def __init__(self, number: int, place: int, sentence: str) -> None:
        super().__init__(number, place, sentence)
        self.number = Refusal(number)
        self.name = self.number.name
        self.place = place
        self.sentence = sentence

    def __str__(self) -> str:
        return self.sentence


class Record(NamedTuple):
    """The words of a record. A ref is a record's number plus 1, and 0 is none."""

    parent: int
    child_west_south: int
    child_west_even: int
    child_west_odd: int
    child_even_south: int
    child_even_even: int
    child_even_odd: int
    child_odd_south: int
    child_odd_even: int
    child_odd_odd: int
    neighbour_east: int
    neighbour_north: int
    neighbour_west: int
    neighbour_south: int
    link_step_east: int
    link_step_north: int
    link_step_west: int
    link_step_south: int
    visits: int
    need: int
    first: int
    edge_east: int
    edge_north: int
    edge_west: int
    edge_south: int


class Party(NamedTuple):
    """The words of a record that one of two parties has for itself. `need` is stored plus 1."""

    link_step_east: int
    link_step_north: int
    link_step_west: int
    link_step_south: int
    visits: int
    need: int
    first: int
    edge_east: int
    edge_north: int
    edge_west: int
    edge_south: int


class PairRecord(NamedTuple):
    """The words of a record that two parties share, and those of each."""

    parent: int
    child_west_south: int
    child_west_even: int
    child_west_odd: int
    child_even_south: int
    child_even_even: int
    child_even_odd: int
    child_odd_south: int
    child_odd_even: int
    child_odd_odd: int
    neighbour_east: int
    neighbour_north: int
    neighbour_west: int
    neighbour_south: int
    parties: Tuple[Party, Party]


class Mark(NamedTuple):
    """What an operation left: the nodes in use, the visits at the corner where it ends, and how many records it changed."""

    nodes: int
    visits: int
    changed: int


class Span(NamedTuple):
    """Panels of a row, from the first to the last."""

    row: int
    first: int
    last: int


T = TypeVar("T")


class _Items(Sequence[T]):
    """Items that are read from a buffer one by one, when they are asked for."""

    __slots__ = ("words", "_count")
    width = 1

    def __init__(self, words: memoryview, count: int) -> None:
        self.words = words
        self._count = count

    def _item(self, words: Sequence[int]) -> T:
        raise NotImplementedError

    def __len__(self) -> int:
        return self._count

    @overload
    def __getitem__(self, at: int) -> T: ...

    @overload
    def __getitem__(self, at: slice) -> Tuple[T, ...]: ...

    def __getitem__(self, at: Union[int, slice]) -> Union[T, Tuple[T, ...]]:
        if isinstance(at, slice):
            return tuple(self[i] for i in range(*at.indices(self._count)))
        at = range(self._count)[at]
        return self._item(self.words[self.width * at : self.width * (at + 1)].tolist())

    def __iter__(self) -> Iterator[T]:
        return (self[i] for i in range(self._count))

    def __eq__(self, other: object) -> bool:
        return isinstance(other, _Items) and tuple(self) == tuple(other)

    __hash__ = None  # type: ignore[assignment]

    def __repr__(self) -> str:
        return f"<{type(self).__name__} of {self._count}>"


class Table(_Items[Record]):
    """The records of the nodes in use. `words` is the whole buffer."""

    width = RECORD_WORDS

    def _item(self, words: Sequence[int]) -> Record:
        return Record(*words)


class PairTable(_Items[PairRecord]):
    """All records of a table that two parties share; one that is free is wholly zero."""

    width = PAIR_RECORD_WORDS

    def _item(self, words: Sequence[int]) -> PairRecord:
        return PairRecord._make([*words[:14], (Party(*words[14:25]), Party(*words[25:]))])


class Marks(_Items[Mark]):
    """A mark for each operation."""

    width = MARK_WORDS

    def _item(self, words: Sequence[int]) -> Mark:
        return Mark(*words)


@dataclass(frozen=True)
class PartyFacts:
    """What is answered of a walk: `meeting` is the first, None if there is none; `area` is 0 unless it is a room."""

    verdict: Verdict
    steps: int
    corners: int
    meeting: Optional[Corner]
    area: int
    last: Corner
    buffer: memoryview

    @property
    def panels(self) -> int:
        """How many panels are inside, 0 unless the walk is a room."""
        return abs(self.area)

    @property
    def chain(self) -> bytes:
        """The surviving steps."""
        return bytes(self.buffer[: self.steps])


@dataclass(frozen=True)
class Walk(PartyFacts):
    """The answer to a walk, with its table and its marks; `buffer` is that of the chain, whole."""

    nodes: int
    table: Table
    marks: Marks


@dataclass(frozen=True)
class WalkTwo:
    """The answer to the walks of two parties in one table."""

    nodes: int
    parties: Tuple[PartyFacts, PartyFacts]
    table: PairTable
    marks: Marks


@dataclass(frozen=True)
class Hull:
    """Corners of a convex hull: `numbers` has x and y of each."""

    count: int
    numbers: memoryview

    @property
    def corners(self) -> Tuple[Corner, ...]:
        """The corners, counterclockwise from the lowest of the leftmost."""
        numbers = self.numbers.tolist()
        return tuple(zip(numbers[::2], numbers[1::2]))


@dataclass(frozen=True)
class Steps:
    """Steps or turns, a byte each, in `buffer`."""

    count: int
    buffer: memoryview

    @property
    def chain(self) -> bytes:
        """The bytes."""
        return bytes(self.buffer)

    @property
    def digits(self) -> str:
        """The same as a string of digits."""
        return "".join(map(str, self.buffer))


@dataclass(frozen=True)
class Chain(Steps):
    """The chain of a polygon, and the corner at which it starts."""

    start: Corner


@dataclass(frozen=True)
class OrthogonalHull(Steps):
    """The outline of an orthogonal hull, the corner at which it starts, and how many blocks are inside. A block has `grid` by
    `grid` panels, and the corner (x, y) of blocks is the corner (grid * x, grid * y) of panels."""

    start: Corner
    blocks: int
    grid: int

    @property
    def corners(self) -> Tuple[Corner, ...]:
        """The corners of the outline as corners of panels, each once, from its start on."""
        (x, y), found = self.start, []
        for step in self.buffer:
            found.append((self.grid * x, self.grid * y))
            x += (step == 0) - (step == 2)
            y += (step == 1) - (step == 3)
        return tuple(found)


@dataclass(frozen=True)
class Polygon:
    """A polygon in Well-Known Binary, in `buffer`."""

    size: int
    buffer: memoryview

    @property
    def wkb(self) -> bytes:
        """Its bytes."""
        return bytes(self.buffer)


@dataclass(frozen=True)
class Rows:
    """Spans of panels: `numbers` has row, first and last panel of each."""

    count: int
    numbers: memoryview

    @property
    def spans(self) -> Tuple[Span, ...]:
        """The spans, rows from south to north and in each row from west to east."""
        numbers = self.numbers.tolist()
        return tuple(map(Span, numbers[::3], numbers[1::3], numbers[2::3]))

    @property
    def panels(self) -> int:
        """How many panels the spans have."""
        return sum(span.last - span.first + 1 for span in self.spans)


@dataclass(frozen=True)
class Part(Rows):
    """A part of two rooms, with its number of panels as the library counts it."""

    counted: int

    @property
    def panels(self) -> int:
        """How many panels the part has."""
        return self.counted


@dataclass(frozen=True)
class Overlay:
    """The panels in the first room only, in the second only, and in both."""

    first: Part
    second: Part
    both: Part


@dataclass(frozen=True)
class Text:
    """A line, in `buffer`."""

    count: int
    buffer: memoryview

    @property
    def text(self) -> bytes:
        """Its bytes."""
        return bytes(self.buffer)


def _signed(digits: bytes) -> int:
    number = int(digits, 16)
    most: int = 1 << (4 * len(digits))
    return number - most if 2 * number >= most else number


@dataclass(frozen=True)
class Line(Text):
    """The answer to a record, as the line program writes it; the facts are read from the text."""

    @property
    def verdict(self) -> Verdict:
        """What the walk is."""
        return VERDICTS[int(self.text[:2], 16)]

    @property
    def steps(self) -> int:
        """How many steps survive."""
        return int(self.text[2:6], 16)

    @property
    def nodes(self) -> int:
        """Nodes in use."""
        return int(self.text[6:14], 16)

    @property
    def corners(self) -> int:
        """Different corners."""
        return int(self.text[14:18], 16)

    @property
    def meeting(self) -> Optional[Corner]:
        """The first meeting, None if there is none."""
        j, k = int(self.text[18:22], 16), int(self.text[22:26], 16)
        return None if k == NO_MEETING else (j, k)

    @property
    def area(self) -> int:
        """The signed area of a room, else 0."""
        return _signed(self.text[26:34])

    @property
    def panels(self) -> int:
        """How many panels are inside, 0 unless the walk is a room."""
        return abs(self.area)

    @property
    def hull(self) -> Tuple[Corner, ...]:
        """The corners of the convex hull."""
        digits = self.text[38:]
        numbers = [_signed(digits[at : at + 4]) for at in range(0, len(digits), 4)]
        return tuple(zip(numbers[::2], numbers[1::2]))
