# SPDX-License-Identifier: MIT
"""undrwyth.sqlite, if this Python loads extensions and the extension is built; otherwise its message."""
from __future__ import annotations

import os
import sqlite3
import unittest
from unittest import mock

from undrwyth import sqlite

LOADS = hasattr(sqlite3.Connection, "enable_load_extension")


class Sqlite(unittest.TestCase):
    def setUp(self) -> None:
        self.connection = sqlite3.connect(":memory:")
        self.addCleanup(self.connection.close)

    @unittest.skipUnless(LOADS and os.path.exists(sqlite.EXTENSION), "this Python loads no extensions, or scripts/sqlite was not run")
    def test_functions(self) -> None:
        sqlite.register(self.connection)
        ask = self.connection.execute
        self.assertEqual(ask("SELECT undrwyth_explain('0123')").fetchone(), ("a room of 1 panel, 4 steps, counterclockwise",))
        self.assertEqual(ask("SELECT * FROM undrwyth_rows(undrwyth_polygon(0, 0, '000112321233'))").fetchall(), [(0, 0, 2), (1, 0, 0), (1, 2, 2)])
        ask("CREATE TABLE orders (outline BLOB CHECK (undrwyth_is_room(outline)))")
        ask("INSERT INTO orders VALUES (undrwyth_polygon(0, 0, '0123'))")
        with self.assertRaisesRegex(sqlite3.IntegrityError, "CHECK constraint failed"):
            ask("INSERT INTO orders VALUES (x'00')")
        with self.assertRaisesRegex(sqlite3.OperationalError, "refusal 12 at place 0: the walk is not a room"):
            ask("SELECT undrwyth_polygon(0, 0, '001100322223')").fetchone()
        with self.assertRaisesRegex(sqlite3.OperationalError, "not authorized"):
            ask("SELECT load_extension('x')").fetchone()

    @unittest.skipUnless(LOADS, "this Python loads no extensions")
    def test_missing(self) -> None:
        with mock.patch.object(sqlite, "EXTENSION", "/nowhere/mod_undrwyth.so"):
            with self.assertRaisesRegex(sqlite.ExtensionMissing, "scripts/sqlite builds it"):
                sqlite.register(self.connection)

    @unittest.skipIf(LOADS, "this Python loads extensions")
    def test_python_without(self) -> None:
        with self.assertRaisesRegex(sqlite.ExtensionMissing, "loads no extensions"):
            sqlite.register(self.connection)


if __name__ == "__main__":
    unittest.main()
