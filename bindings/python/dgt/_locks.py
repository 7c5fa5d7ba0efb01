"""Locks of files, which the system releases once their process has ended."""

import errno
import fcntl
import os
import time

_TRY_EACH = 0.01
"""The seconds between two attempts."""


def lock(number: int, tries: int, program: str = "program") -> None:
    """Locks a file or folder, if its file system supports that. `OSError` if another program has
    locked it, also in this number of further attempts."""
    for left in range(tries, -1, -1):
        try:
            return fcntl.flock(number, fcntl.LOCK_EX | fcntl.LOCK_NB)
        except BlockingIOError:
            if not left:
                raise OSError(errno.EWOULDBLOCK, f"in use by another {program}") from None
            time.sleep(_TRY_EACH)
        except OSError:
            return None


def hold(path: str, program: str) -> None:
    """Keeps a file for this process of a program, until it ends. The lock is that of a file next to
    it, since others may replace the file itself. `OSError` if another process keeps it, or if the
    lock is a link, which may lead to any other file."""
    folder, name = os.path.split(os.path.realpath(path))
    number = os.open(f"{folder}/.{name}.lock", os.O_CREAT | os.O_NOFOLLOW, 0o666)
    lock(number, 0, f"{program} (end that one, or choose another file)")
