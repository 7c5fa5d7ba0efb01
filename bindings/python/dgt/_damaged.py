"""SQLite files that a program keeps. It puts a damaged one aside, and begins another."""

import contextlib
import os
import sqlite3
import time
from collections.abc import Callable
from typing import TypeVar

_KINDS = (11, 26)
"""SQLITE_CORRUPT and SQLITE_NOTADB."""
_Kept = TypeVar("_Kept")


class Damaged(sqlite3.DatabaseError):
    """The file isn't what SQLite wrote."""


def check(kept: sqlite3.Connection) -> None:
    """Reads a whole file. `Damaged` if it is."""
    if (said := kept.execute("PRAGMA quick_check(1)").fetchone()) != ("ok",):
        raise Damaged(str(said[0]).splitlines()[-1])


def or_another(path: str, opened: Callable[[], _Kept], report: Callable[[str], None]) -> _Kept:
    """What opens a file, which closes it if that fails. If it is damaged, it gets another name, and
    another file is opened."""
    try:
        return opened()
    except sqlite3.DatabaseError as fault:
        if not isinstance(fault, Damaged) and fault.sqlite_errorcode & 0xff not in _KINDS:
            raise
        aside = f"{path}.damaged-{time.strftime('%Y%m%d-%H%M%S')}"
        for end in ("", "-wal", "-shm"):
            with contextlib.suppress(FileNotFoundError):
                os.rename(path + end, aside + end)
        report(f"{path} is damaged ({fault}): it is now {aside}, and another file begins")
    return opened()
