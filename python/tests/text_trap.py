# SPDX-License-Identifier: MIT
"""Shows why records must travel as bytes: text_trap.py PROGRAM. Read as text by dask.bag, a line that ends in CR LF loses its CR, and the judge
accepts a line that it must refuse. It fails if that is no longer so; then docs/SCALE.md has to follow."""
import os
import subprocess
import sys
import tempfile

import dask
import dask.bag

RECORDS = b"0000040123\n0000040123\r\n"


def judge(data: bytes) -> list:
    return subprocess.run([sys.argv[1], "judge"], input=data, stdout=subprocess.PIPE, check=True).stdout.decode().splitlines()


def main() -> None:
    dask.config.set(scheduler="synchronous")
    with tempfile.TemporaryDirectory() as folder:
        path = os.path.join(folder, "records")
        with open(path, "wb") as file:
            file.write(RECORDS)
        lines = dask.bag.read_text(path).compute()
    as_bytes, as_text = judge(RECORDS), judge("".join(lines).encode())
    assert as_bytes[1].startswith("89"), as_bytes
    assert as_text[1] == as_text[0] == as_bytes[0], as_text
    print("read as text by dask.bag, a line with CR LF is accepted; as bytes it is refused (9)")


if __name__ == "__main__":
    main()
