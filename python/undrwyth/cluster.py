# SPDX-License-Identifier: MIT
"""Answers files of records on the workers of a Dask cluster.

    from dask.distributed import Client
    from undrwyth import cluster
    with Client("tcp://scheduler:8786") as client:
        cluster.answer_file(client, "records", "answers")

The records are cut into parts after line feeds, each part is answered by a run of its own, and the answers are joined; a theorem says that
these are the bytes of one run (docs/SCALE.md). Parts travel as bytes, never as text: a reader of text, such as `dask.bag.read_text`, makes LF
of CR LF, and a line that must be refused is then accepted. Answers get their name only when they are whole.
"""
from __future__ import annotations

import hashlib
import os
import subprocess
import tempfile
from collections import deque
from typing import Any, Deque, List, NamedTuple, Tuple

__all__ = ["answer_file", "answer_parts", "Failed"]

COMMANDS = ("judge", "convert", "rows")


class Failed(Exception):
    """A program failed, or parts have no answers: `parts` has their numbers."""

    def __init__(self, message: str, parts: Tuple[int, ...] = ()) -> None:
        super().__init__(message)
        self.parts = parts


class _Part(NamedTuple):
    number: int
    sum: str


def _run(words: List[str], given: bytes = b"") -> bytes:
    """Runs a program on bytes: what it wrote, if it ended with status 0."""
    try:
        done = subprocess.run(words, input=given, stdout=subprocess.PIPE, stderr=subprocess.PIPE, check=False)
    except OSError as error:
        raise Failed(f"{words[0]} cannot be started: {error.strerror}") from None
    if done.returncode != 0:
        said = done.stderr.decode("utf-8", "replace").strip().splitlines()
        raise Failed(said[-1] if said else f"{words[0]} ended with status {done.returncode}")
    return done.stdout


def _in_place(program: str, command: str, folder: str, number: int) -> None:
    """On a worker that sees the folder: the program answers the part there."""
    _run([program, "parts", "answer", command, folder, str(number)])


def _of_bytes(program: str, command: str, part: bytes) -> bytes:
    """On a worker that does not see the folder: the answers to the bytes of a part."""
    return _run([program, command], part)


def _write(path: str, data: bytes) -> None:
    """Writes a file whole, on the disk, under a name of this attempt."""
    with open(path, "wb") as file:
        file.write(data)
        file.flush()
        os.fsync(file.fileno())


def _keep(folder: str, command: str, part: _Part, answers: bytes) -> None:
    """Gives the answers of a part their name, as `undrwyth parts answer` does, and then their note."""
    name = os.path.join(folder, f"part.{part.number:06}")
    attempt = f".attempt.{os.uname().nodename}.{os.getpid()}"
    note = f"{command} {part.sum} {len(answers)} {hashlib.sha256(answers).hexdigest()}\n"
    try:
        _write(name + attempt, answers)
        _write(name + ".note" + attempt, note.encode())
        os.replace(name + attempt, name + ".answers")
        os.replace(name + ".note" + attempt, name + ".done")
    finally:
        for left in (name + attempt, name + ".note" + attempt):
            if os.path.exists(left):
                os.remove(left)


def _read_part(folder: str, part: _Part) -> bytes:
    with open(os.path.join(folder, f"part.{part.number:06}"), "rb") as file:
        data = file.read()
    if hashlib.sha256(data).hexdigest() != part.sum:
        raise Failed(f"part {part.number} is not the one that was cut: its checksum is not the manifest's", (part.number,))
    return data


def _missing(program: str, folder: str) -> List[_Part]:
    """The parts that have no answers yet, with their checksums out of the manifest."""
    numbers = {int(line) for line in _run([program, "parts", "missing", folder]).split()}
    with open(os.path.join(folder, "manifest"), encoding="ascii") as file:
        said = [line.split() for line in file if line.startswith("part ")]
    return [_Part(int(words[1]), words[4]) for words in said if int(words[1]) in numbers]


def answer_parts(
    client: Any, folder: str, command: str = "judge", *, program: str = "undrwyth", retries: int = 3, shared: bool = True,
) -> None:
    """Answers the parts of a folder that have no answers yet, on the workers of a Dask client.

    The folder is what `undrwyth parts split` made. With `shared` each worker sees it under the same path; without, the bytes of
    a part travel to the worker and its answers come back, a few parts at a time. `program` is the command on the workers and
    here. A part whose program fails or whose worker is lost is tried again. Raises `Failed` with the numbers of the parts that still
    have no answers; called again, it does these alone.
    """
    if command not in COMMANDS:
        raise ValueError(f"{command!r} is not one of {', '.join(COMMANDS)}")
    folder = os.path.abspath(folder)
    window = max(4, 4 * sum(client.nthreads().values()))
    running: Deque[Tuple[_Part, Any]] = deque()
    faults: List[Tuple[int, str]] = []

    def settle() -> None:
        part, future = running.popleft()
        try:
            answers = future.result()
            if not shared:
                _keep(folder, command, part, answers)
        except Exception as error:  # whatever a worker raised: the part has no answers, and the others go on
            faults.append((part.number, str(error) or type(error).__name__))

    for part in _missing(program, folder):
        if len(running) == window:
            settle()
        if shared:
            future = client.submit(_in_place, program, command, folder, part.number, pure=False, retries=retries)
        else:
            future = client.submit(_of_bytes, program, command, _read_part(folder, part), pure=False, retries=retries)
        running.append((part, future))
    while running:
        settle()
    left = tuple(part.number for part in _missing(program, folder))
    if left:
        why = dict(faults).get(left[0], "its answers are not there")
        raise Failed(f"{len(left)} parts have no answers: {', '.join(map(str, left))} (part {left[0]}: {why})", left)


def answer_file(
    client: Any, records: str, answers: str, command: str = "judge", *,
    program: str = "undrwyth", lines: int = 100_000, retries: int = 3, shared: bool = True,
) -> None:
    """Answers a file of records on the workers of a Dask client; the file of answers gets its name when it is whole.

    The parts stand in a folder beside the answers, which is removed at the end. `lines` is how many lines a part has. See
    `answer_parts` for the rest; to take a long run up again after a failure, split and join yourself and call that.
    """
    target = os.path.abspath(answers)
    with tempfile.TemporaryDirectory(prefix=os.path.basename(target) + ".parts.", dir=os.path.dirname(target)) as room:
        folder = os.path.join(room, "parts")
        os.chmod(room, 0o755)
        _run([program, "parts", "split", "--lines", str(lines), os.path.abspath(records), folder])
        answer_parts(client, folder, command, program=program, retries=retries, shared=shared)
        joined = os.path.join(room, "answers")
        with open(joined, "wb") as file:
            done = subprocess.run([program, "parts", "join", folder], stdout=file, stderr=subprocess.PIPE, check=False)
            os.fsync(file.fileno())
        if done.returncode != 0:
            raise Failed(done.stderr.decode("utf-8", "replace").strip())
        os.replace(joined, target)
