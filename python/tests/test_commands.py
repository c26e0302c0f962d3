# SPDX-License-Identifier: MIT
"""The commands for people answer as the package does: both stand over the same library, and share no line of code."""
import csv
import io
import json
import os
import random
import signal
import subprocess
import time
import unittest
from pathlib import Path

import undrwyth
from undrwyth import Refused
from undrwyth.__main__ import words

HERE = Path(__file__).resolve().parents[2]
SEED = 20260729


def run(*arguments, given=""):
    if isinstance(given, str):
        given = given.encode()
    done = subprocess.run([str(HERE / "undrwyth"), *arguments], input=given, capture_output=True, check=False)
    return done.returncode, done.stdout, done.stderr.decode()


def a_room(draw):
    """A random walk's outline is often a room; a rectangle always is."""
    chain = undrwyth.outline(bytes(draw.randrange(4) for _ in range(draw.randrange(4, 60)))).digits
    if undrwyth.walk(chain).verdict is undrwyth.Verdict.ROOM and len(chain) > 4:
        return chain
    wide, high = draw.randrange(1, 9), draw.randrange(1, 9)
    chain = "0" * wide + "1" * high + "2" * wide + "3" * high
    cut = draw.randrange(len(chain))
    chain = chain[cut:] + chain[:cut]
    return chain if draw.random() < 0.5 else chain[::-1].translate(str.maketrans("0123", "2301"))


def lines(draw, count):
    """Records with what they are read as: key, start and operations."""
    made = []
    for number in range(count):
        kind = draw.randrange(6)
        ops = a_room(draw) if kind < 3 else "".join(draw.choices("01234", (4, 4, 4, 4, 1), k=draw.randrange(1, 40)))
        if kind == 5:
            at = draw.randrange(len(ops) + 1)
            ops = ops[:at] + draw.choice("56789xyz%Z") + ops[at:]
        key = draw.choice([None, f"order-{number}", "Ärger in Köln", "a b"])
        start = draw.choice([(0, 0), (3, -4), (-16384, 16384), (16385, 0), (120, -40)]) if key or draw.random() < 0.5 else (0, 0)
        line = ops
        if draw.random() < 0.3 and ops.isdigit():
            line = f"00{len(ops):04x}{ops}"
        elif line[:6] == f"00{len(ops) - 6:04x}":
            continue  # a frame as well
        if start != (0, 0):
            line = f"{start[0]},{start[1]},{line}"
        if key:
            line = f"{key},{line}"
        made.append((line, key, start, ops))
    return made


class Commands(unittest.TestCase):
    def compare(self, command, answer, *options, of=lines, count=300):
        """Each line of JSON, and of CSV, has what `answer` gives; a refusal of it is the line's."""
        draw = random.Random(SEED)
        made = of(draw, count)
        given = "".join(line + "\n" for line, *_ in made)
        status, out, said = run(command, "--json", *options, given=given)
        self.assertEqual((status, said), (0, ""))
        rows = [json.loads(line) for line in out.splitlines()]
        self.assertEqual(len(rows), len(made))
        refused = 0
        for number, (row, (line, key, start, ops)) in enumerate(zip(rows, made), 1):
            self.assertEqual((row.pop("record"), row.pop("key")), (number, key))
            number, place, sentence = row.pop("refusal"), row.pop("place"), row.pop("sentence")
            try:
                expected = answer(ops, start)
            except Refused as why:
                refused += 1
                self.assertEqual((number, place), (why.number, why.place), line)
                self.assertEqual(sentence, f"refused: {why}")
                del row["x"], row["y"]
                self.assertEqual(set(row.values()), {None})
                continue
            self.assertEqual((number, place), (0, 0), line)
            self.assertEqual(row, expected, line)
        self.assertGreater(refused, 10)
        self.assertGreater(len(made) - refused, 50)
        return given

    def test_explain(self):
        def answer(ops, start):
            walk = undrwyth.walk(ops, start)
            j, k = walk.meeting or (None, None)
            return {
                "x": start[0], "y": start[1], "verdict": walk.verdict.name.lower(), "steps": walk.steps, "nodes": walk.nodes,
                "corners": walk.corners, "j": j, "k": k, "area": walk.area, "panels": walk.panels, "last_x": walk.last[0],
                "last_y": walk.last[1]}

        given = self.compare("explain", answer)
        made = lines(random.Random(SEED), 300)
        said = run("explain", given=given)[1].decode().splitlines()
        for number, (text, (_, key, start, ops)) in enumerate(zip(said, made), 1):
            try:
                sentence = words(undrwyth.walk(ops, start), start)
            except Refused as why:
                sentence = f"refused: {why}"
            self.assertEqual(text, f"{number}{' ' + key if key else ''}: {sentence}")
        rows = [json.loads(line) for line in run("explain", "--json", given=given)[1].splitlines()]
        table = list(csv.DictReader(io.StringIO(run("explain", "--csv", given=given)[1].decode())))
        for row, other in zip(rows, table):
            self.assertEqual({name: "" if value is None else str(value) for name, value in row.items()}, other)

    def test_outline(self):
        def answer(ops, start):
            walk = undrwyth.walk(ops, start)
            x, y = start
            corners = [start]
            for step in walk.chain:
                x, y = x + (step == 0) - (step == 2), y + (step == 1) - (step == 3)
                corners.append((x, y))
            x, y = min(corners)
            made = undrwyth.outline(walk.chain, start)
            return {"x": x, "y": y, "steps": made.count, "chain": made.digits}

        given = self.compare("outline", answer)
        made = [line for line in run("outline", given=given)[1].splitlines() if b": refused: " not in line]
        inside = [line for line in made if all(abs(int(number)) <= 16384 for number in line.split(b",")[-3:-1])]
        self.assertGreater(len(inside), 100)
        # the outline of an outline is itself
        self.assertEqual(run("outline", "--digits", given=b"".join(line + b"\n" for line in inside))[1].splitlines(), inside)

    def test_hull(self):
        def answer(ops, start):
            hull = undrwyth.hull(undrwyth.walk(ops, start).chain, start)
            return {"x": start[0], "y": start[1], "count": hull.count, "corners": [list(corner) for corner in hull.corners]}

        self.compare("hull", answer)

    def test_convex(self):
        def answer(ops, start):
            return {"x": start[0], "y": start[1], "convex": undrwyth.convex(undrwyth.walk(ops, start).chain, start)}

        self.compare("convex", answer)

    def test_orthogonal(self):
        for grid in "1", "2", "7", "16384":
            def answer(ops, start):
                made = undrwyth.orthogonal_hull(undrwyth.walk(ops, start).chain, start, int(grid))
                x, y = made.start
                return {"x": x, "y": y, "grid": int(grid), "blocks": made.blocks, "steps": made.count, "chain": made.digits}

            given = self.compare("orthogonal", answer, "--grid", grid)
            made = [line for line in run("orthogonal", "--grid", grid, given=given)[1].splitlines() if b": refused: " not in line]
            inside = [line for line in made if all(abs(int(number)) <= 16384 for number in line.split(b",")[-3:-1])]
            self.assertGreater(len(inside), 100)
            # the hull of a hull is itself
            self.assertEqual(run("orthogonal", "--digits", given=b"".join(line + b"\n" for line in inside))[1].splitlines(), inside)
        self.assertEqual(run("orthogonal", "--grid", "0", "0123")[1], b"refused: the grid size is not a number from 1 to 16,384\n")
        self.assertEqual(run("orthogonal", "--grid", str(2**70), "0123")[1], b"refused: the grid size is not a number from 1 to 16,384\n")

    def test_spans(self):
        def answer(ops, start):
            rows = undrwyth.rows(undrwyth.walk(ops, start).chain, start)
            return {"x": start[0], "y": start[1], "spans": [list(span) for span in rows.spans]}

        given = self.compare("spans", answer)
        lists = {}
        for row in csv.DictReader(io.StringIO(run("spans", "--csv", given=given)[1].decode())):
            if row["row"]:
                lists.setdefault(row["record"], []).append([int(row[name]) for name in ("row", "first", "last")])
        expected = [json.loads(line) for line in run("spans", "--json", given=given)[1].splitlines()]
        self.assertEqual(lists, {str(row["record"]): row["spans"] for row in expected if row["spans"] is not None})

    def test_table(self):
        def answer(ops, start):
            walk = undrwyth.walk(ops, start)
            return {
                "x": start[0], "y": start[1], "chain": "".join(map(str, walk.chain)), "marks": [list(mark) for mark in walk.marks],
                "table": [list(record) for record in list(walk.table)[: walk.nodes]], "corners": corners(walk, start)}

        def corners(walk, start):
            found = {}
            x, y = start
            for number, step in enumerate([None, *walk.chain]):
                if step is not None:
                    x, y = x + (step == 0) - (step == 2), y + (step == 1) - (step == 3)
                at = x, y
                while at != (0, 0):
                    found.setdefault(at, None)
                    at = int(at[0] / 2), int(at[1] / 2)
            by_parent = {}
            # node r is at the corner whose ancestors are those of its parents: looked up by neighbours of visited corners
            for at in [(0, 0), *found]:
                by_parent.setdefault((int(at[0] / 2), int(at[1] / 2)) if at != (0, 0) else None, set()).add(at)
            placed = [None] * walk.nodes
            placed[0] = (0, 0)
            for r in range(walk.nodes):
                record = walk.table[r]
                for name, ref in record._asdict().items():
                    if name.startswith("child_") and ref:
                        _, i, j = name.split("_")
                        fits = [
                            at for at in by_parent[placed[r]]
                            if side(at[0], "west") == i and side(at[1], "south") == j]
                        self.assertEqual(len(fits), 1)
                        placed[ref - 1] = fits[0]
            return [list(at) for at in placed]

        def side(value, below):
            return below if value == -1 else "odd" if value % 2 else "even"

        self.compare("table", answer)

    def test_chains(self):
        def polygons(draw, count):
            made = []
            for number in range(count):
                room, start = a_room(draw), (draw.randrange(-99, 99), draw.randrange(-99, 99))
                file = bytearray(undrwyth.polygon_of_room(room, start).wkb)
                if draw.random() < 0.3:
                    file[draw.randrange(len(file))] ^= 1 << draw.randrange(8)
                key = draw.choice([None, f"order-{number}"])
                text = file.hex() if draw.random() < 0.5 else file.hex().upper()
                made.append((f"{key},{text}" if key else text, key, None, bytes(file)))
            return made

        draw = random.Random(SEED)
        made = polygons(draw, 300)
        status, out, said = run("chains", "--json", given="".join(line + "\n" for line, *_ in made))
        self.assertEqual((status, said, out.count(b"\n")), (0, "", len(made)))
        for line, (text, key, _, file) in zip(out.splitlines(), made):
            row = json.loads(line)
            try:
                chain = undrwyth.chain_of_polygon(file)
            except Refused as why:
                self.assertEqual(row["refusal"], why.number)
                self.assertTrue(row["sentence"].startswith(f"refused: {why}"))
                continue
            self.assertEqual((row["key"], row["x"], row["y"], row["chain"], row["steps"]), (key, *chain.start, chain.digits, chain.count))

    def test_overlay(self):
        draw = random.Random(SEED)
        pairs = [(a_room(draw), a_room(draw), (draw.randrange(-4, 4), draw.randrange(-4, 4))) for _ in range(100)]
        first, second = HERE / "target" / "first.txt", HERE / "target" / "second.txt"
        first.write_text("".join(f"{one}\n" for one, _, _ in pairs))
        second.write_text("".join(f"t,{at[0]},{at[1]},{two}\n" for _, two, at in pairs))
        status, out, said = run("overlay", "--digits", "--json", str(first), str(second))
        self.assertEqual((status, said, out.count(b"\n")), (0, "", len(pairs)))
        for line, (one, two, at) in zip(out.splitlines(), pairs):
            row, answer = json.loads(line), undrwyth.overlay(one, two, (0, 0), at)
            for name, part in ("first", answer.first), ("second", answer.second), ("both", answer.both):
                self.assertEqual((row[name + "_panels"], row[name + "_spans"]), (part.panels, [list(span) for span in part.spans]))

    def test_summary(self):
        made = lines(random.Random(SEED), 500)
        given = "".join(line + "\n" for line, *_ in made)
        kept = HERE / "target" / "refused.txt"
        told = json.loads(run("summary", "--json", "--refused", str(kept), given=given)[1])
        rows = [json.loads(line) for line in run("explain", "--json", given=given)[1].splitlines()]
        refused = [row for row in rows if row["refusal"]]
        self.assertEqual(told.pop("records"), len(rows))
        self.assertEqual(told.pop("refused"), len(refused))
        self.assertEqual(told.pop("panels"), sum(row["panels"] or 0 for row in rows))
        self.assertEqual(told.pop("steps"), sum(row["steps"] or 0 for row in rows))
        for verdict in undrwyth.Verdict:
            name = verdict.name.lower()
            self.assertEqual(told.pop(name), sum(row["verdict"] == name for row in rows))
        for refusal in undrwyth.Refusal:
            same = [row["record"] for row in refused if row["refusal"] == refusal]
            if same:
                self.assertEqual(told.pop(refusal.name.lower()), {"lines": len(same), "first": same[0]})
        self.assertEqual(told, {})
        self.assertEqual(kept.read_text(), "".join(made[row["record"] - 1][0] + "\n" for row in refused))

    def test_frames(self):
        """With --frames the lines are refused and answered as undrwyth judge does, which is proved, apart from 7."""
        given = (HERE / "crates" / "judge" / "stdin").read_bytes()
        judged = run("judge", given=given)[1].splitlines()
        said = [json.loads(line) for line in run("explain", "--frames", "--json", given=given)[1].splitlines()]
        self.assertEqual(len(judged), len(said))
        compared = 0
        for line, row in zip(judged, said):
            first = int(line[:2], 16)
            if first == 0x87:
                continue
            if first > 0x80:
                self.assertEqual((row["refusal"], row["place"]), (first - 0x80, int(line[2:], 16)))
            else:
                self.assertEqual(row["verdict"], undrwyth.Verdict(first).name.lower())
                self.assertEqual((row["steps"], row["nodes"]), (int(line[2:6], 16), int(line[6:14], 16)))
                compared += 1
        self.assertGreater(compared, 10)


class Running(unittest.TestCase):
    """What a terminal sees: an interrupt, and how far the work is."""

    def start(self, **handles):
        def usual():
            signal.signal(signal.SIGINT, signal.SIG_DFL)  # though the tests may run while it is ignored

        run("explain", "0")  # it is built
        return subprocess.Popen([str(HERE / "undrwyth"), "explain"], stdin=subprocess.PIPE, preexec_fn=usual, **handles)

    def test_interrupt(self):
        with self.start(stdout=subprocess.PIPE, stderr=subprocess.PIPE) as it:
            it.stdin.write(b"0123\n")
            it.stdin.flush()
            self.assertEqual(it.stdout.readline(), b"1: a room of 1 panel, 4 steps, counterclockwise\n")
            it.send_signal(signal.SIGINT)
            said = it.communicate()[1].decode()
        self.assertEqual((it.returncode, said), (1, "undrwyth explain: the program was stopped by a signal, with status 130\n"))

    def test_progress(self):
        here, there = os.openpty()
        with self.start(stdout=subprocess.DEVNULL, stderr=there) as it:
            for _ in range(2):
                it.stdin.write(b"0123\n" * 1025)
                it.stdin.flush()
                time.sleep(1.2)
            it.stdin.close()
            self.assertEqual(it.wait(), 0)
        os.close(there)
        said = b""
        try:
            while True:
                more = os.read(here, 1000)
                if not more:
                    break
                said += more
        except OSError:  # nothing is left
            pass
        os.close(here)
        self.assertEqual(said, b"\r2049 lines\r\x1b[K")
