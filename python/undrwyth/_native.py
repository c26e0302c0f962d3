# SPDX-License-Identifier: MIT
"""The library's functions, found and typed, and the buffers that they are lent."""
from __future__ import annotations

import ctypes
import os
from operator import index
from pathlib import Path
from typing import Any, Callable, Iterable, List, Optional, Tuple, Union

SONAME = "libundrwyth.so.1"
NAMED = "UNDRWYTH_LIBRARY"

Buffer = Any  # whatever has writable bytes in one piece: bytearray, array, memoryview, a NumPy array
Input = Union[str, bytes, bytearray, memoryview]
Corner = Tuple[int, int]
ORIGIN: Corner = (0, 0)
Lent = Tuple[Any, int, memoryview]  # what the call gets, its length in elements, and its elements


class LibraryMissing(OSError):
    """libundrwyth.so.1 was not found, cannot be loaded, or is an older one."""


def _find() -> str:
    named = os.environ.get(NAMED)
    if named:
        return named
    built = Path(__file__).resolve().parents[2] / "target" / os.uname().machine / SONAME
    return str(built) if built.exists() else SONAME


def _load(names: Iterable[str]) -> List[Callable[..., int]]:
    path = _find()
    try:
        library = ctypes.CDLL(path)
    except OSError as why:
        raise LibraryMissing(
            f"{SONAME} cannot be used: {why}. scripts/library builds it, the Debian package has it, "
            f"and {NAMED} may name its file"
        ) from None
    functions = []
    for name in names:
        try:
            function = getattr(library, "undrwyth_" + name)
        except AttributeError:
            raise LibraryMissing(f"{path} has no undrwyth_{name}: it is another version") from None
        function.argtypes, function.restype = _types(name)
        functions.append(function)
    return functions


def _types(name: str) -> Tuple[List[Any], Any]:
    arguments: List[Any] = []
    for letter in SIGNATURES[name]:
        if letter == "s":
            arguments += [ctypes.c_int32, ctypes.c_int32]
        elif letter == "g":
            arguments += [ctypes.c_uint32]
        elif letter == "a":
            arguments += [ctypes.c_void_p]
        else:
            arguments += [ctypes.c_void_p, ctypes.c_uint64]
    return arguments, ctypes.c_uint64 if name in ("line", "convert_line") else ctypes.c_uint32


# The arguments of each function: s a start, i an input, g a grid size, l a lent buffer, a the answer.
SIGNATURES = {
    "walk": "sillla",
    "walk_two": "ssilllla",
    "hull": "sila",
    "outline": "sila",
    "polygon_of_room": "sila",
    "chain_of_polygon": "ila",
    "rows": "sila",
    "overlay": "sisillla",
    "convex": "sia",
    "orthogonal_hull": "sigla",
    "turns_of_steps": "ila",
    "steps_of_turns": "ila",
    "line": "il",
    "convert_line": "il",
}


def functions() -> List[Callable[..., int]]:
    """The functions in the order of SIGNATURES. Without the library each says so when it is called."""
    try:
        return _load(SIGNATURES)
    except LibraryMissing as missing:
        said = str(missing)

    def absent(*_: object) -> int:
        raise LibraryMissing(said)

    return [absent] * len(SIGNATURES)


_DIGITS = bytes(byte - 48 if 48 <= byte <= 57 else 255 for byte in range(256))


def steps(given: Input) -> bytes:
    """Bytes as they are; a string by its digits. A character that is not a digit becomes 255, which every call refuses."""
    if type(given) is bytes:
        return given
    if isinstance(given, str):
        return given.encode("ascii", "replace").translate(_DIGITS)
    return raw(given)


def text(given: Input) -> bytes:
    """The bytes of a line; a character of a string beyond ASCII becomes a question mark, which is in no record."""
    return given.encode("ascii", "replace") if isinstance(given, str) else raw(given)


def raw(given: Union[bytes, bytearray, memoryview]) -> bytes:
    """The bytes of anything that has bytes."""
    if isinstance(given, bytes):
        return given
    if isinstance(given, str):
        raise TypeError("bytes are asked for, not a string")
    try:
        view = memoryview(given)
    except TypeError:
        raise TypeError(f"bytes or a string are asked for, not {type(given).__name__}") from None
    if view.itemsize != 1:
        raise TypeError(f"bytes are asked for, not elements of {view.itemsize} bytes")
    return bytes(view)


def corner(given: Corner) -> Corner:
    """A pair of ints, each brought into 32 bits: what is further out is refused all the same."""
    if given is ORIGIN:
        return given
    try:
        x, y = given
        x, y = index(x), index(y)
    except (TypeError, ValueError):
        raise TypeError(f"a start is a pair of ints, not {given!r}") from None
    return max(-(2**31), min(x, 2**31 - 1)), max(-(2**31), min(y, 2**31 - 1))


def grid_size(given: int) -> int:
    """An int, brought into 32 bits: what is further out is refused all the same."""
    try:
        return max(0, min(index(given), 2**32 - 1))
    except TypeError:
        raise TypeError(f"a grid size is an int, not {given!r}") from None


_byte_at = ctypes.c_char.from_buffer
_byref = ctypes.byref
_address = ctypes.addressof


def room(given: Optional[Buffer], code: str, count: int) -> Lent:
    """The buffer that is given, or a new one of this many elements: B bytes, I words, i signed numbers."""
    if given is not None:
        return _lent(given, code)
    if not count:
        return None, 0, memoryview(b"").cast(code)
    if code == "B":
        made = bytearray(count)
        return _byref(_byte_at(made)), count, memoryview(made)
    made = bytearray(4 * count)
    return _byref(_byte_at(made)), count, memoryview(made).cast(code)


def rooms(words: int, marks: int, count: int) -> Tuple[Lent, Lent, Lent]:
    """New buffers of this many words, words again, and bytes, in one piece, which is quicker."""
    first, second = 4 * words, 4 * (words + marks)
    made = bytearray(second + count)
    at, view = _address(_byte_at(made)), memoryview(made)
    return (
        (at, words, view[:first].cast("I")),
        (at + first, marks, view[first:second].cast("I")),
        (at + second, count, view[second:]),
    )


_FORMATS = {1: frozenset("Bbc"), 4: frozenset(order + kind for order in ("", "@", "=", "<") for kind in "IiLl")}


def _lent(given: Buffer, code: str) -> Lent:
    size = 1 if code == "B" else 4
    try:
        view = memoryview(given)
    except TypeError:
        raise TypeError(f"a lent buffer is a bytearray, an array or a memoryview, not {type(given).__name__}") from None
    if view.readonly or not view.c_contiguous:
        raise TypeError("a lent buffer can be written, and is in one piece")
    item, held = view.itemsize, view.nbytes
    if (item != size and item != 1) or view.format not in _FORMATS[item]:
        raise TypeError(f"a lent buffer has bytes or integers of {size} bytes, not elements of format {view.format!r}")
    if held % size:
        raise ValueError(f"a lent buffer of {held} bytes does not hold elements of {size} bytes")
    if not held:
        return None, 0, memoryview(b"").cast(code)
    first = _byte_at(view)
    if size > 1 and _address(first) % size:
        raise ValueError(f"a lent buffer of elements of {size} bytes begins at a multiple of {size}")
    if view.format != code or view.ndim != 1:
        view = view.cast("B").cast(code)
    return _byref(first), held // size, view


def apart(*lent: Lent) -> None:
    """Buffers of one call do not overlap."""
    ends = sorted((_address(one[0]._obj), one[2].nbytes) for one in lent if one[0] is not None)
    for (at, length), (after, _) in zip(ends, ends[1:]):
        if after < at + length:
            raise ValueError("two lent buffers overlap")
