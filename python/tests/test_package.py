# SPDX-License-Identifier: MIT
"""The package: its docstrings, the header's numbers, lent buffers, bad input, threads, and the command."""
import array
import ctypes
import doctest
import os
import pickle
import re
import subprocess
import sys
import threading
import unittest
from dataclasses import FrozenInstanceError
from pathlib import Path

import undrwyth
import undrwyth.__main__
from undrwyth import Refused

HERE = Path(__file__).resolve().parents[1]
PAGE = HERE.parent / "docs" / "PYTHON.md"
HEADER = (HERE.parent / "include" / "undrwyth.h").read_text()
ROOM = "00000011112222223333"


def defined(prefix):
    return {name: int(value) for name, value in re.findall(rf"#define UNDRWYTH_{prefix}(\w+) (\d+)", HEADER)}


def load_tests(loader, tests, pattern):
    for module in undrwyth, undrwyth._answers, undrwyth.__main__:
        tests.addTests(doctest.DocTestSuite(module))
    tests.addTests(doctest.DocFileSuite(str(PAGE), module_relative=False))
    return tests


class Header(unittest.TestCase):
    def test_numbers(self):
        self.assertEqual(defined("REFUSAL_"), {one.name: one.value for one in undrwyth.Refusal})
        self.assertEqual(defined("VERDICT_"), {one.name: one.value for one in undrwyth.Verdict})
        self.assertEqual([name.upper() for name in undrwyth.Record._fields], list(defined("WORD_")))
        self.assertEqual(undrwyth.PairRecord._fields[:14], undrwyth.Record._fields[:14])
        self.assertEqual(undrwyth.Party._fields, undrwyth.Record._fields[14:])
        ours = {name: value for name, value in vars(undrwyth).items() if name.isupper() and name in undrwyth.__all__}
        self.assertGreater(len(ours), 10)
        self.assertEqual(ours, {name: value for name, value in defined("").items() if name in ours})

    def test_version(self):
        self.assertEqual(undrwyth.__version__, ".".join(str(defined("VERSION_")[part]) for part in ("MAJOR", "MINOR", "PATCH")))

    def test_functions(self):
        declared = re.findall(r"^\w+ undrwyth_(\w+)\(", HEADER, re.M)
        self.assertEqual(sorted(declared), sorted(undrwyth._native.SIGNATURES))
        for name in declared:
            self.assertTrue(callable(getattr(undrwyth, name)))

    def test_signatures(self):
        """Arguments and result of each function are those that the header declares."""
        words = {"int32_t": ctypes.c_int32, "undrwyth_size": ctypes.c_uint64, "uint32_t": ctypes.c_uint32}
        for result, name, arguments in re.findall(r"^(\w+) undrwyth_(\w+)\(([^)]*)\);", HEADER, re.M):
            declared = [
                ctypes.c_void_p if "*" in one or "[" in one else words[one.split()[0]] for one in arguments.split(",")]
            self.assertEqual(undrwyth._native._types(name), (declared, words[result]), name)

    def test_sizes(self):
        """The tables that a walk makes are as large as the header says that always is enough."""
        for n in 0, 1, 20:
            self.assertEqual(len(undrwyth.walk(bytes(n)).table.words), 25 * (4 * n + 1))
            self.assertEqual(len(undrwyth.walk(bytes(n), (0, 5)).table.words), 25 * (4 * n + 68))
            self.assertEqual(len(undrwyth.walk_two(bytes(n)).table), 4 * n + 136)

    def test_sentences(self):
        for refusal in undrwyth.Refusal:
            with self.assertRaises(Refused) as caught:
                undrwyth._refuse(refusal, 0, b"\x25")
            self.assertEqual((caught.exception.number, caught.exception.name), (refusal, refusal.name))
            self.assertGreater(len(str(caught.exception)), 20)


class Lending(unittest.TestCase):
    def test_kinds(self):
        """A bytearray, an array and a memoryview are written, without a copy."""
        words = array.array("I", [7]) * 100
        for table in bytearray(400), words, memoryview(bytearray(400)), memoryview(words):
            answer = undrwyth.walk("0123", table=table)
            self.assertEqual(bytes(memoryview(table)), bytes(answer.table.words))
            self.assertEqual(answer.table[0].edge_north, 1)
            memoryview(table).cast("B")[84:88] = b"\x09\0\0\0"  # word 21 of record 0
            self.assertEqual(answer.table[0].edge_east, 9)

    def test_numpy(self):
        try:
            import numpy
        except ImportError:
            self.skipTest("NumPy is not there")
        table, chain = numpy.full((4, 25), 7, numpy.uint32), numpy.full(4, 7, numpy.uint8)
        answer = undrwyth.walk("0123", table=table, chain=chain)
        self.assertEqual((table[0, 21], table[:, 18].tolist(), chain.tolist()), (1, [2, 1, 1, 1], [0, 1, 2, 3]))
        table[0, 21] = 9
        self.assertEqual(answer.table[0].edge_east, 9)
        spans = numpy.zeros((2, 3), numpy.int32)
        self.assertEqual((undrwyth.rows("001223", (-5, 2), out=spans).count, spans[0].tolist()), (1, [2, -5, -4]))
        for wrong in numpy.zeros(100, numpy.float32), numpy.zeros(100, ">u4"), table.T, numpy.zeros(50, numpy.uint64):
            with self.assertRaises(TypeError):
                undrwyth.walk("0123", table=wrong)

    def test_rest_stays(self):
        out = array.array("i", [77]) * 12
        self.assertEqual(undrwyth.hull("0123", (-3, 5), out=out).corners, ((-3, 5), (-2, 5), (-2, 6), (-3, 6)))
        self.assertEqual(list(out[8:]), [77] * 4)

    def test_short(self):
        """A short buffer gets the refusal of its call, and stays as it is."""
        for number, call, size in (
            (2, lambda lent: undrwyth.walk("0123", table=lent), 96),
            (3, lambda lent: undrwyth.walk("0123", marks=lent), 44),
            (3, lambda lent: undrwyth.walk("0123", chain=lent), 3),
            (2, lambda lent: undrwyth.walk_two(b"\x10", table=lent), 100),
            (8, lambda lent: undrwyth.hull("0123", out=lent), 28),
            (11, lambda lent: undrwyth.outline("0123", out=lent), 3),
            (13, lambda lent: undrwyth.polygon_of_room("0123", out=lent), 92),
            (18, lambda lent: undrwyth.chain_of_polygon(undrwyth.polygon_of_room("0123").wkb, chain=lent), 3),
            (18, lambda lent: undrwyth.orthogonal_hull("0123", out=lent), 3),
            (21, lambda lent: undrwyth.rows("0123", out=lent), 8),
            (21, lambda lent: undrwyth.overlay("0123", "0123", both=lent), 8),
            (3, lambda lent: undrwyth.turns_of_steps("0123", out=lent), 3),
            (3, lambda lent: undrwyth.steps_of_turns("0123", out=lent), 5),
        ):
            for lent in bytearray(b"\xa5" * size), bytearray():
                if not lent and number == 2 and size == 100:
                    continue
                with self.subTest(number=number, size=len(lent)), self.assertRaises(Refused) as caught:
                    call(lent)
                self.assertEqual((caught.exception.number, lent), (number, b"\xa5" * len(lent)))
        for call in undrwyth.line, undrwyth.convert_line:
            with self.assertRaisesRegex(ValueError, "at least"):
                call("0000040123", out=bytearray(9))

    def test_no_room(self):
        """A table of one record is too small for a step, and the refusal clears all buffers."""
        table, marks, chain = bytearray(b"\x09" * 100), bytearray(b"\x09" * 12), bytearray(b"\x09")
        with self.assertRaises(Refused) as caught:
            undrwyth.walk("0", table=table, marks=marks, chain=chain)
        self.assertEqual((caught.exception.name, caught.exception.place), ("NO_ROOM", 0))
        self.assertFalse(any(table + marks + chain))

    def test_wrong(self):
        whole = bytearray(800)
        for wrong in (
            "a string", 5, b"not writable", array.array("d", [0.0]), array.array("H", [0]), memoryview(whole)[::2],
            array.array("f", [0.0]),
        ):
            with self.subTest(wrong=wrong), self.assertRaises(TypeError):
                undrwyth.walk("0123", table=wrong)
        with self.assertRaises(TypeError):
            undrwyth.outline("0123", out=array.array("I", [0] * 8))
        with self.assertRaisesRegex(ValueError, "multiple of 4"):
            undrwyth.walk("0123", table=memoryview(whole)[1:401])
        with self.assertRaisesRegex(ValueError, "does not hold"):
            undrwyth.walk("0123", table=bytearray(401))
        with self.assertRaisesRegex(ValueError, "overlap"):
            undrwyth.walk("0123", table=memoryview(whole)[:400], marks=memoryview(whole)[396:444])
        with self.assertRaisesRegex(ValueError, "overlap"):
            undrwyth.overlay("0123", "0123", first=whole, both=whole)
        self.assertFalse(any(whole))


class Input(unittest.TestCase):
    def test_kinds(self):
        for ops in "0123", b"\0\1\2\3", bytearray(b"\0\1\2\3"), memoryview(b"\0\1\2\3"), array.array("B", [0, 1, 2, 3]):
            self.assertEqual(undrwyth.walk(ops).area, 1)
        for ops in 5, None, [0, 1], 1.5, array.array("I", [0]):
            with self.subTest(ops=ops), self.assertRaises(TypeError):
                undrwyth.walk(ops)
        with self.assertRaises(TypeError):
            undrwyth.chain_of_polygon("00")
        with self.assertRaises(ValueError):
            undrwyth.walk_two("0x")

    def test_places(self):
        for ops, number, place, said in (
            ("01x", 4, 2, "'x' at place 2 is not a digit from 0 to 4"),
            ("01\N{ARABIC-INDIC DIGIT THREE}", 4, 2, "at place 2 is not a digit"),
            ("\ud800", 4, 0, "at place 0"),
            (b"0", 4, 0, "byte 48 at place 0"),
            ("044", 5, 2, "no step is left"),
            ("0" * 16385, 6, 16384, "16,385th"),
            (bytes(32769), 1, 0, "32,768"),
        ):
            with self.assertRaisesRegex(Refused, said) as caught:
                undrwyth.walk(ops)
            self.assertEqual((caught.exception.number, caught.exception.place), (number, place))
        with self.assertRaisesRegex(Refused, "byte 32 at place 1 is of neither party"):
            undrwyth.walk_two(b"\x10\x20")
        with self.assertRaisesRegex(Refused, "byte 15 at place 1 is not a digit from 0 to 4"):
            undrwyth.line("0000020f")
        with self.assertRaisesRegex(Refused, "not a record"):
            undrwyth.line("\u00e9")

    def test_longest(self):
        """The package's own buffers are enough for the longest walks."""
        self.assertEqual(undrwyth.walk("0" * 16384, (16384, -16384)).last, (32768, -16384))
        self.assertEqual(undrwyth.walk("04" * 16384).steps, 0)
        answer = undrwyth.walk_two(b"\0" * 16384 + b"\x11" * 16384, (16384, 0), (-16384, 0))
        self.assertEqual([party.steps for party in answer.parties], [16384, 16384])

    def test_starts(self):
        for start in (16385, 0), (0, -16385), (2**32, 0), (0, -(2**70)):
            with self.assertRaises(Refused) as caught:
                undrwyth.walk("0123", start)
            self.assertEqual(caught.exception.name, "START_RANGE")
        for start in 0, (0,), (0, 0, 0), (0.0, 0), "00", None:
            with self.subTest(start=start), self.assertRaises(TypeError):
                undrwyth.hull("0123", start)

    def test_grids(self):
        for grid in 0, 16385, -1, 2**32 + 1, -(2**70):
            with self.assertRaises(Refused) as caught:
                undrwyth.orthogonal_hull("0124", grid=grid)
            self.assertEqual((caught.exception.name, str(caught.exception)), ("GRID_SIZE", "the grid size is not a number from 1 to 16,384"))
        with self.assertRaises(Refused) as caught:
            undrwyth.orthogonal_hull("0124", (16385, 0), grid=0)
        self.assertEqual(caught.exception.name, "START_RANGE")
        for grid in 1.0, "1", None:
            with self.subTest(grid=grid), self.assertRaises(TypeError):
                undrwyth.orthogonal_hull("0123", grid=grid)
        u = "000112321233"
        out = bytearray(b"\7" * 12)
        hull = undrwyth.orthogonal_hull(u, (-3, 5), out=out)
        self.assertEqual((hull.count, hull.start, hull.blocks, hull.grid), (10, (-3, 5), 6, 1))
        self.assertEqual((out, hull.digits), (b"\0\0\0\1\1\2\2\2\3\3\7\7", "0001122233"))
        self.assertEqual(undrwyth.walk(hull.chain, hull.start).area, hull.blocks)
        self.assertEqual(undrwyth.orthogonal_hull(u, (-3, 5), 16384).corners, ((-16384, 0), (0, 0), (0, 16384), (-16384, 16384)))

    def test_answers(self):
        answer = undrwyth.walk(ROOM)
        with self.assertRaises(FrozenInstanceError):
            answer.area = 5
        self.assertEqual(answer, undrwyth.walk(ROOM))
        self.assertEqual(undrwyth.rows(ROOM).panels, answer.panels)
        self.assertEqual(sum(one.edge_east + one.edge_north for one in answer.table), answer.steps)
        self.assertEqual(undrwyth.line("000014" + ROOM).panels, 24)
        self.assertEqual(undrwyth.line("000003223").hull, undrwyth.hull("223").corners)
        self.assertEqual(answer.marks[-1], answer.marks[19:][0])
        with self.assertRaises(IndexError):
            answer.table[len(answer.table)]

    def test_refused_travels(self):
        try:
            undrwyth.convex("01")
        except Refused as refused:
            back = pickle.loads(pickle.dumps(refused))
        self.assertEqual((back.number, back.name, back.place, str(back)), (12, "NOT_ROOM", 0, "the walk is not a room"))


class Threads(unittest.TestCase):
    def test_threads(self):
        """Eight threads make different calls at once, and each gets its own answers."""
        wrong = []

        def work(length):
            ops = "0" * length + "1" * length + "2" * length + "3" * length
            for _ in range(100):
                if undrwyth.walk(ops).area != length**2 or undrwyth.rows(ops).panels != length**2:
                    wrong.append(length)

        threads = [threading.Thread(target=work, args=(length,)) for length in range(1, 9)]
        for thread in threads:
            thread.start()
        for thread in threads:
            thread.join()
        self.assertEqual(wrong, [])


class Page(unittest.TestCase):
    def test_ten_lines(self):
        """The program of docs/PYTHON.md, run as it stands, ends with what the page says."""
        part = PAGE.read_text().split("## From records to panel counts\n")[1].split("\n## ")[0]
        program = "\n".join(line[4:] for line in part.splitlines() if line.startswith("    ") or not line)
        done = subprocess.run(
            [sys.executable, "-c", program], cwd=HERE.parent, env={**os.environ, "PYTHONPATH": str(HERE)}, stdout=subprocess.PIPE,
            text=True)
        self.assertEqual((done.returncode, done.stdout.splitlines()[-1]), (0, re.findall("ends with `(.*)`", part)[0]))


class Command(unittest.TestCase):
    def run_it(self, *arguments, **environment):
        held = {**os.environ, "PYTHONPATH": str(HERE), **environment}
        done = subprocess.run([sys.executable, "-m", "undrwyth", *arguments], env=held, capture_output=True, text=True)
        return done.returncode, done.stdout, done.stderr

    def test_words(self):
        walks = "001100322223", ROOM, "3210", "02", "0", "04", "020", "5"
        self.assertEqual(self.run_it(*walks), (1, """\
closed and crossed: step 9 comes back to (2,1), where step 3 was
a room of 24 panels, 20 steps, counterclockwise
a room of 1 panel, 4 steps, clockwise
there and back, which is not a room
open: 1 step, from (0,0) to (1,0)
no step survives
open and crossed: step 2 comes back to (0,0), where the walk began
refused: byte 5 at place 0 is not a digit from 0 to 4
""", ""))
        self.assertEqual(self.run_it("--start", "-3,4", "01")[:2], (0, "open: 2 steps, from (-3,4) to (-2,5)\n"))
        self.assertEqual(self.run_it("--version")[:2], (0, f"undrwyth {undrwyth.__version__}\n"))

    def test_usage(self):
        for wrong in (), ("--start",), ("--start", "1", "0"), ("--start", "a,b", "0"), ("--other",):
            status, said, why = self.run_it(*wrong)
            self.assertEqual((status, said), (2, ""))
            self.assertIn("wrong usage", why)

    def test_no_library(self):
        for path, why in ("/nowhere/libundrwyth.so.1", "cannot open"), (__file__, "cannot be used"), ("libc.so.6", "has no undrwyth_walk"):
            status, said, line = self.run_it("0123", UNDRWYTH_LIBRARY=path)
            self.assertEqual((status, said, line.count("\n")), (3, "", 1))
            self.assertIn(why, line)

    @unittest.skipUnless(os.path.exists("/dev/full"), "there is no /dev/full")
    def test_full(self):
        with open("/dev/full", "w") as full:
            done = subprocess.run(
                [sys.executable, "-m", "undrwyth", "0123"], env={**os.environ, "PYTHONPATH": str(HERE)}, stdout=full,
                stderr=subprocess.PIPE, text=True)
        self.assertEqual((done.returncode, done.stderr.count("\n")), (3, 1))


if __name__ == "__main__":
    unittest.main()
