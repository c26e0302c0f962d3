# SPDX-License-Identifier: MIT
"""Makes the calls that `cases` of rust/compare writes, and compares the answer and every byte of every lent buffer, with the bytes
around it, with those of the proved library that Rust links. UNDRWYTH_CASES names the file with the calls."""
import os
import struct
import unittest
from collections import Counter

import undrwyth

MARGIN = 16
SHORT = (8, 11, 13, 18, 21)  # refusals that only a short lent buffer gets; 2, 3 and 7 are those of a walk's buffers
LINES = ("line", "convert_line")  # the result of these is a length, and there is no answer beside it
NUMBER = struct.Struct("<i").unpack
LENGTH = struct.Struct("<I").unpack
RESULT = struct.Struct("<Q").unpack


def read(file):
    """The calls: name, arguments as a letter and a value, result, buffers after it."""

    def exactly(n):
        found = file.read(n)
        if len(found) != n:
            raise EOFError("the calls end in the middle of one")
        return found

    def held():
        return exactly(LENGTH(exactly(4))[0])

    while True:
        length = file.read(4)
        if not length:
            return
        name, arguments = exactly(LENGTH(length)[0]).decode(), []
        while True:
            letter = exactly(1)
            if letter == b"r":
                break
            if letter == b"n":
                arguments.append(("n", NUMBER(exactly(4))[0]))
            elif letter == b"l":
                exactly(1)
                arguments.append(("l", held()))
            else:
                arguments.append((letter.decode(), held()))
        result = RESULT(exactly(8))[0]
        yield name, arguments, result, [held() for letter, _ in arguments if letter in "la"]


def meeting(answer):
    return answer.meeting or (undrwyth.NO_MEETING, undrwyth.NO_MEETING)


def facts(answer):
    return [answer.verdict, answer.steps, answer.corners, *meeting(answer), answer.area, *answer.last]


def words(name, answer):
    """The words of an accepted answer, as the header has them."""
    if name == "walk":
        verdict, steps, corners, *others = facts(answer)
        return [0, 0, verdict, steps, answer.nodes, corners, *others]
    if name == "walk_two":
        return [0, 0, answer.nodes, *facts(answer.parties[0]), *facts(answer.parties[1])]
    if name in ("hull", "rows", "outline"):
        return [0, 0, answer.count]
    if name == "polygon_of_room":
        return [0, 0, answer.size]
    if name == "chain_of_polygon":
        return [0, 0, answer.count, *answer.start]
    if name == "overlay":
        parts = answer.first, answer.second, answer.both
        return [0, 0, *(part.panels for part in parts), *(part.count for part in parts)]
    if name == "convex":
        return [0, 0, int(answer)]
    if name == "orthogonal_hull":
        return [0, 0, answer.count, *answer.start, answer.blocks]
    return [0, 0]


def views(name, answer):
    """What an accepted answer shows of each buffer."""
    if name == "walk":
        return answer.table.words, answer.marks.words, answer.buffer
    if name == "walk_two":
        return answer.table.words, answer.marks.words, answer.parties[0].buffer, answer.parties[1].buffer
    if name in ("hull", "rows"):
        return (answer.numbers,)
    if name == "overlay":
        return answer.first.numbers, answer.second.numbers, answer.both.numbers
    return () if name == "convex" else (answer.buffer,)


LENT = {
    "walk": ("table", "marks", "chain"),
    "walk_two": ("table", "marks", "chain0", "chain1"),
    "overlay": ("first", "second", "both"),
    "chain_of_polygon": ("chain",),
    "convex": (),
}


class Cases(unittest.TestCase):
    def ask(self, name, arguments, result, after):
        """One call, with buffers as they were lent, and if it is accepted, another with buffers of the package's own."""
        numbers = [value for letter, value in arguments if letter == "n"]
        grid = [numbers.pop() % 2**32] if name == "orthogonal_hull" else []
        starts = [*zip(numbers[::2], numbers[1::2]), *grid]
        inputs = [value for letter, value in arguments if letter == "i"]
        before = [value for letter, value in arguments if letter == "l"]
        held = [bytearray(b"\xa5" * MARGIN + value + b"\xa5" * MARGIN) for value in before]
        lent = [memoryview(one)[MARGIN : MARGIN + len(value)] for one, value in zip(held, before)]
        call, names = getattr(undrwyth, name), LENT.get(name, ("out",))
        answer = refused = None
        try:
            answer = call(*inputs, *starts, **dict(zip(names, lent)))
        except undrwyth.Refused as why:
            refused = why
        except ValueError:  # the buffer is too short for the line: the result is 0, and nothing is written
            self.assertIn(name, LINES)
            self.assertEqual(result, 0)
        for one, value in zip(held, after):
            self.assertEqual(one, b"\xa5" * MARGIN + value + b"\xa5" * MARGIN)
        self.bytes += sum(map(len, held))
        if name in LINES:
            if answer is not None:
                self.assertEqual((answer.count, answer.text), (result, after[0][:result]))
            elif refused is not None:
                self.assertEqual(b"%02x%08x" % (128 + refused.number, refused.place), after[0][:result])
        else:
            said = words(name, answer) if refused is None else [refused.number, refused.place]
            said += [0] * (len(after[-1]) // 4 - len(said))
            self.assertEqual((0 if refused is None else refused.number, struct.pack(f"<{len(said)}i", *said)), (result, after[-1]))
            self.bytes += len(after[-1])
        if answer is not None:
            for view, value in zip(views(name, answer), after):
                self.assertEqual(bytes(view), value[: view.nbytes])
            if name == "walk":
                self.assertEqual(answer.chain, after[2][: answer.steps])
            elif name == "walk_two":
                for party, value in zip(answer.parties, after[2:]):
                    self.assertEqual(party.chain, value[: party.steps])
        if answer is not None and sum(map(len, inputs)) <= 2000:
            own = call(*inputs, *starts)
            self.assertEqual(words(name, own), words(name, answer))
            if name in ("walk", "walk_two"):
                self.assertEqual(own.marks, answer.marks)
                self.same_start(own.table.words, answer.table.words)
                for mine, theirs in zip(views(name, own)[2:], views(name, answer)[2:]):
                    self.assertEqual(mine, theirs)
            else:
                self.assertEqual(list(map(bytes, views(name, own))), list(map(bytes, views(name, answer))))
        elif refused is not None and refused.number in SHORT:
            call(*inputs, *starts)  # the package's own buffers are large enough
        elif refused is not None and refused.number in (2, 3, 7) and name not in LINES:  # the table of a line is not lent
            try:
                call(*inputs, *starts)
            except undrwyth.Refused as why:
                self.assertNotIn(why.number, (2, 3, 7))

    def same_start(self, one, other):
        """Two tables of different lengths: the longer one has zeros after the other."""
        short, long = sorted((bytes(one), bytes(other)), key=len)
        self.assertEqual(long[: len(short)], short)
        self.assertFalse(any(long[len(short) :]))

    def test_cases(self):
        path = os.environ.get("UNDRWYTH_CASES")
        if path is None:
            self.skipTest("UNDRWYTH_CASES names no file with calls")
        self.bytes, asked = 0, Counter()
        with open(path, "rb") as file:
            for name, arguments, result, after in read(file):
                with self.subTest(call=sum(asked.values()), name=name):
                    self.ask(name, arguments, result, after)
                asked[name] += 1
        self.assertEqual(len(asked), 14, "each function is asked")
        print(f"{sum(asked.values())} calls of {len(asked)} functions, {self.bytes} bytes as native", flush=True)


if __name__ == "__main__":
    unittest.main()
