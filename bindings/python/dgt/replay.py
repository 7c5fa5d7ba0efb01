"""Plays a session that dgt-record or dgt-doctor has written.

Example:
  $ dgt-replay --speed 10 evening.txt

It prints the name of a pseudo-terminal, which a program opens instead of a
board's port. The session begins once the program has sent its first bytes. The
program then gets the board's bytes at the recorded times. A report of all
squares waits until the program has requested it, for a second at most. So a
program that makes the same requests gets each answer after its request.

It ends once the program has read everything.

Exit status: 0, or 1 if the file is not a whole session, or wasn't all read.
"""

import argparse
import contextlib
import os
import select
import sys
import time

from ._manual import make_parser
from ._session import BadSession, Entry, read_session
from ._simulated import open_terminal
from .commands import Ask, Asked
from .decoder import CommandDecoder, Decoder
from .events import Dump

_PATIENCE = 1.0
"""The most seconds that a report of all squares waits for the program's request."""
_READ_WAIT = 10.0
"""The seconds that the program has to read the last bytes."""


class _Player:
    """Plays a session on a pseudo-terminal."""

    def __init__(self, line: int) -> None:
        self._line, self._unsent = line, b""
        self._words, self._asked = CommandDecoder(), 0
        self._events, self._answered = Decoder(), 0

    def _turn(self, seconds: float) -> None:
        """Reads the program's bytes, and sends as much as it takes, within this time."""
        poll = select.poll()
        poll.register(self._line, select.POLLIN | (select.POLLOUT if self._unsent else 0))
        poll.poll(1000 * max(0.0, seconds))
        with contextlib.suppress(BlockingIOError):
            words = self._words.feed(os.read(self._line, 4096))
            self._asked += words.count(Asked(Ask.DUMP))
        with contextlib.suppress(BlockingIOError):
            self._unsent = self._unsent[os.write(self._line, self._unsent):]

    def wait_until(self, until: float, count: int = 0) -> None:
        """Waits until a time, or until the program has requested all squares this often."""
        while (now := time.monotonic()) < until and not 0 < count <= self._asked:
            self._turn(until - now)

    def play(self, entries: list[Entry], speed: float) -> None:
        """Plays the board's bytes, at the recorded times divided by `speed`."""
        first = next((each.seconds for each in entries if each.mark == ">"), 0.0)
        poll = select.poll()
        poll.register(self._line, select.POLLIN)
        poll.poll()
        begun = time.monotonic()
        for entry in entries:
            if entry.mark != "<":
                continue
            due = begun + max(0.0, entry.seconds - first) / speed
            self.wait_until(due)
            if reports := sum(isinstance(each, Dump) for each in self._events.feed(entry.chunk)):
                self._answered += reports
                self.wait_until(due + _PATIENCE, self._answered)
            self._unsent += entry.chunk
            self._turn(0.0)

    def finish(self, terminal: int) -> bool:
        """Waits until the program has read everything. Returns whether it has."""
        end = time.monotonic() + _READ_WAIT
        while self._unsent or select.select([terminal], [], [], 0.0)[0]:
            if time.monotonic() > end:
                return False
            self.wait_until(time.monotonic() + 0.05)
        return True


def _speed(text: str) -> float:
    with contextlib.suppress(ValueError):
        if 0.001 <= (speed := float(text)) <= 1_000_000:
            return speed
    raise argparse.ArgumentTypeError(f"not a number from 0.001 to 1000000: {text!r}")


def main(arguments: list[str] | None = None) -> None:
    """Runs the program `dgt-replay` with these arguments, or those of the process."""
    parser = make_parser("dgt-replay", __doc__)
    parser.add_argument("file", help="the session")
    parser.add_argument("--speed", type=_speed, default=1.0, metavar="TIMES",
                        help="the speed, as a multiple of the recorded one (%(default)s)")
    args = parser.parse_args(arguments)
    try:
        with open(args.file, encoding="utf-8", errors="replace") as file:
            entries, is_whole = read_session(file.read())
    except (OSError, BadSession) as wrong:
        why = wrong.strerror if isinstance(wrong, OSError) else wrong
        raise SystemExit(f"dgt-replay: {args.file}: {why}") from None
    line, terminal = open_terminal()
    print(os.ttyname(terminal), flush=True)
    player = _Player(line)
    with contextlib.suppress(KeyboardInterrupt):
        player.play(entries, args.speed)
        if not player.finish(terminal):
            sys.exit("dgt-replay: the program hasn't read all")
    if not is_whole:
        sys.exit(f"dgt-replay: {args.file}: the session was cut off: its end is missing")
