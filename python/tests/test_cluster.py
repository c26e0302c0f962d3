# SPDX-License-Identifier: MIT
"""undrwyth.cluster with a client that runs each task at once: the rule for names, the second try, and what is missing. scale/check tries it
with a real cluster."""
from __future__ import annotations

import os
import subprocess
import tempfile
import unittest
from pathlib import Path
from typing import Any, Callable, Dict

from undrwyth import cluster

ROOT = Path(__file__).resolve().parents[2]
PROGRAM = str(ROOT / "target" / os.uname().machine / "undrwyth")
RECORDS = b"".join(b"%06x%s\n" % (n, b"0123" * (n // 4)) for n in range(4, 400, 4)) + b"0000040123\r\n\xff\n0000040123"


class Future:
    def __init__(self, run: Callable[[], Any]) -> None:
        try:
            self.value, self.error = run(), None
        except Exception as error:  # as a worker does
            self.value, self.error = None, error

    def result(self) -> Any:
        if self.error is not None:
            raise self.error
        return self.value


class Client:
    """Runs tasks at once; `lost` are the numbers of tasks, from 0, whose worker is lost each time."""

    def __init__(self, lost: tuple = ()) -> None:
        self.lost, self.count = lost, 0

    def nthreads(self) -> Dict[str, int]:
        return {"here": 1}

    def submit(self, function: Callable[..., Any], *given: Any, pure: bool, retries: int) -> Future:
        assert not pure and retries == 3
        task, self.count = self.count, self.count + 1

        def run() -> Any:
            if task in self.lost:
                raise RuntimeError("the worker is lost")
            return function(*given)
        return Future(run)


class Cluster(unittest.TestCase):
    @classmethod
    def setUpClass(cls) -> None:
        subprocess.run([str(ROOT / "undrwyth"), "--version"], check=True, stdout=subprocess.DEVNULL)  # it is built

    def setUp(self) -> None:
        room = tempfile.TemporaryDirectory()
        self.addCleanup(room.cleanup)
        self.room = Path(room.name)
        (self.room / "records").write_bytes(RECORDS)

    def split(self) -> str:
        folder = str(self.room / "parts")
        subprocess.run([PROGRAM, "parts", "split", "--lines", "15", str(self.room / "records"), folder], check=True, stdout=subprocess.DEVNULL)
        return folder

    def one_run(self, command: str) -> bytes:
        return subprocess.run([PROGRAM, command], input=RECORDS, stdout=subprocess.PIPE, check=True).stdout

    def test_same_bytes(self) -> None:
        for command in cluster.COMMANDS:
            for shared in (True, False):
                with self.subTest(command=command, shared=shared):
                    cluster.answer_file(Client(), str(self.room / "records"), str(self.room / "answers"), command, program=PROGRAM, lines=30, shared=shared)
                    self.assertEqual((self.room / "answers").read_bytes(), self.one_run(command))
                    self.assertEqual(sorted(os.listdir(self.room)), ["answers", "records"])

    def test_lost_workers(self) -> None:
        for shared in (True, False):
            with self.subTest(shared=shared):
                folder = self.split()
                with self.assertRaises(cluster.Failed) as caught:
                    cluster.answer_parts(Client((2, 5)), folder, program=PROGRAM, shared=shared)
                self.assertEqual(caught.exception.parts, (3, 6))
                self.assertIn("the worker is lost", str(caught.exception))
                self.assertFalse([name for name in os.listdir(folder) if "attempt" in name])
                again = Client()
                cluster.answer_parts(again, folder, program=PROGRAM, shared=shared)
                self.assertEqual(again.count, 2)
                joined = subprocess.run([PROGRAM, "parts", "join", folder], stdout=subprocess.PIPE, check=True).stdout
                self.assertEqual(joined, self.one_run("judge"))
                subprocess.run(["rm", "-r", folder], check=True)

    def test_changed_part(self) -> None:
        folder = self.split()
        with open(os.path.join(folder, "part.000002"), "r+b") as file:
            file.write(b"1")
        for shared in (True, False):
            with self.subTest(shared=shared), self.assertRaisesRegex(cluster.Failed, "part 2 is not the one that was cut"):
                cluster.answer_parts(Client(), folder, program=PROGRAM, shared=shared)

    def test_wrong_use(self) -> None:
        with self.assertRaisesRegex(ValueError, "'polygons' is not one of judge, convert, rows"):
            cluster.answer_parts(Client(), "nowhere", "polygons")
        with self.assertRaisesRegex(cluster.Failed, "cannot be started"):
            cluster.answer_parts(Client(), "nowhere", program="/nowhere/undrwyth")
        with self.assertRaisesRegex(cluster.Failed, "manifest cannot be opened"):
            cluster.answer_parts(Client(), "nowhere", program=PROGRAM)


if __name__ == "__main__":
    unittest.main()
