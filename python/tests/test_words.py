# SPDX-License-Identifier: MIT
"""The sentences of programs/words.c and of the package are the same."""
import ctypes
import itertools
import subprocess
import tempfile
import unittest
from pathlib import Path

import undrwyth
from undrwyth.__main__ import words

HERE = Path(__file__).resolve().parents[2]
WALKS = "001100322223", "00000011112222223333", "000112321233", "1400121233", "223001", "0204", "32" * 40, "0" * 400, "03" * 300 + "2211"
STARTS = (0, 0), (-3, 4), (16384, -16384)
ROOM = 192


class Words(unittest.TestCase):
    @classmethod
    def setUpClass(cls):
        cls.folder = tempfile.TemporaryDirectory()
        built = f"{cls.folder.name}/words.so"
        subprocess.run(
            ["cc", "-std=c99", "-O1", "-Wall", "-Wextra", "-pedantic", "-Werror", "-shared", "-fPIC", f"-I{HERE}/include", "-o", built,
             f"{HERE}/programs/words.c"], check=True)
        cls.c = ctypes.CDLL(built)
        for name in "verdict_name", "refusal_name", "convex_word":
            getattr(cls.c, "undrwyth_" + name).restype = ctypes.c_char_p
        for name in "walk_sentence", "refusal_sentence", "overlay_sentence", "orthogonal_sentence":
            getattr(cls.c, "undrwyth_" + name).restype = ctypes.c_size_t

    @classmethod
    def tearDownClass(cls):
        cls.folder.cleanup()

    def said(self, name, *arguments):
        """What C says, in all rooms that are too short as well."""
        out = ctypes.create_string_buffer(b"\xff" * ROOM, ROOM + 1)
        size = getattr(self.c, f"undrwyth_{name}_sentence")(out, ctypes.c_size_t(ROOM), *arguments)
        whole = out.value
        self.assertEqual(size, len(whole))
        for room in 0, 1, 2, size // 2, size, size + 1:
            out = ctypes.create_string_buffer(b"\xff" * ROOM, ROOM + 1)
            self.assertEqual(getattr(self.c, f"undrwyth_{name}_sentence")(out, ctypes.c_size_t(room), *arguments), size)
            held = whole[: room - 1] + b"\0" if room else b""
            self.assertEqual(out.raw, held + b"\xff" * (ROOM - len(held)) + b"\0", room)
        return whole.decode()

    def fault(self, ops, place):
        out = ctypes.create_string_buffer(24)
        if isinstance(ops, str):
            text = ops[place:].encode()
            self.c.undrwyth_text_fault(out, text, ctypes.c_size_t(len(text)))
        else:
            self.c.undrwyth_byte_fault(out, ctypes.c_uint(ops[place]))
        return out

    def compare(self, ops, start):
        try:
            walk = undrwyth.walk(ops, start)
        except undrwyth.Refused as refused:
            said = self.said("refusal", int(refused.number), refused.place, self.fault(ops, refused.place), 4)
            self.assertEqual(said, str(refused), ops)
            return
        j, k = walk.meeting or (65535, 65535)
        answer = (ctypes.c_int32 * 11)(0, 0, walk.verdict, walk.steps, walk.nodes, walk.corners, j, k, walk.area, *walk.last)
        self.assertEqual(self.said("walk", start[0], start[1], walk.chain, answer), words(walk, start), ops)

    def test_walks(self):
        for ops, start in itertools.product(WALKS, STARTS):
            self.compare(ops, start)
        for length in range(7):
            for ops in itertools.product("0123", repeat=length):
                self.compare("".join(ops), (0, 0))
        for ops in itertools.product("014", repeat=5):
            self.compare("".join(ops), (-1, -1))

    def test_faults(self):
        for code in [*range(128), *map(ord, "\xa0ÄßΩ中😀")]:
            if chr(code).isprintable() or code < 128:
                self.compare("00" + chr(code), (0, 0))
        for byte in range(256):
            self.compare(bytes([0, byte]), (0, 0))

    def test_refusals(self):
        """Every refusal has one sentence and one name."""
        for refusal, place in itertools.product(undrwyth.Refusal, (0, 7, 4294967295)):
            with self.assertRaises(undrwyth.Refused) as caught:
                undrwyth._refuse(refusal, place)
            self.assertEqual(self.said("refusal", int(refusal), ctypes.c_uint32(place), None, 3), str(caught.exception))
            self.assertEqual(self.c.undrwyth_refusal_name(int(refusal)).decode(), refusal.name.lower())
        with self.assertRaises(undrwyth.Refused) as caught:
            undrwyth.walk_two(b"\x25")
        self.assertEqual(self.said("refusal", 20, 0, self.fault(b"\x25", 0), 4), str(caught.exception))
        self.assertEqual(self.said("refusal", 23, 0, None, 4), "refusal 23")
        self.assertEqual(self.c.undrwyth_refusal_name(23), b"unknown")

    def test_verdicts(self):
        for verdict in undrwyth.Verdict:
            self.assertEqual(self.c.undrwyth_verdict_name(int(verdict)).decode(), verdict.name.lower())
        self.assertEqual(self.c.undrwyth_verdict_name(6), b"unknown")

    def test_rooms(self):
        """An overlay, orthogonal hulls and a convex room."""
        hull = (ctypes.c_uint32 * 6)(0, 0, 8, 7, 9, 4)
        self.assertEqual(self.said("orthogonal", 1, hull), "an orthogonal hull of 4 panels, 8 steps")
        self.assertEqual(self.said("orthogonal", 2, hull), "an orthogonal hull of 4 blocks of 2 by 2 panels, 8 steps")
        hull[5] = 1
        self.assertEqual(self.said("orthogonal", 16384, hull), "an orthogonal hull of 1 block of 16384 by 16384 panels, 8 steps")
        answer = (ctypes.c_uint32 * 8)(0, 0, 12, 1, 4, 3, 1, 2)
        self.assertEqual(self.said("overlay", answer), "12 panels in the first only, 1 panel in the second only, 4 panels in both")
        self.assertEqual(self.c.undrwyth_convex_word((ctypes.c_uint32 * 3)(0, 0, 1)), b"convex")
        self.assertEqual(self.c.undrwyth_convex_word((ctypes.c_uint32 * 3)(0, 0, 0)), b"not convex")
