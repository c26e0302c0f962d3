# SPDX-License-Identifier: MIT
"""The SQL functions of Undrwyth in a connection of Python's sqlite3.

    import sqlite3
    import undrwyth.sqlite
    orders = sqlite3.connect("orders.gpkg")
    undrwyth.sqlite.register(orders)
    orders.execute("INSERT INTO orders (customer, outline) VALUES ('hall', undrwyth_polygon(0, 0, '0123', 1000))")

docs/DATABASE.md has the functions. They are those of the loadable extension, so that a constraint means the same in every program.
"""
from __future__ import annotations

import os
import sqlite3
from pathlib import Path

__all__ = ["register", "ExtensionMissing", "EXTENSION"]

NAME = "mod_undrwyth"
NAMED = "UNDRWYTH_SQLITE"


class ExtensionMissing(OSError):
    """The extension for SQLite was not found, cannot be loaded, or this Python loads none."""


def _find() -> str:
    named = os.environ.get(NAMED)
    if named:
        return named
    built = Path(__file__).resolve().parents[2] / "target" / os.uname().machine / (NAME + ".so")
    return str(built) if built.exists() else NAME


EXTENSION = _find()


def register(connection: sqlite3.Connection) -> None:
    """Loads the extension into the connection, and lets it load no other after that."""
    if not hasattr(connection, "enable_load_extension"):
        raise ExtensionMissing("this Python's sqlite3 loads no extensions; Debian's python3 does")
    connection.enable_load_extension(True)
    try:
        connection.load_extension(EXTENSION)
    except sqlite3.OperationalError as why:
        raise ExtensionMissing(
            f"{EXTENSION} cannot be used: {why}. scripts/sqlite builds it, the Debian package libsqlite3-mod-undrwyth has it, "
            f"and {NAMED} may name its file"
        ) from None
    finally:
        connection.enable_load_extension(False)
