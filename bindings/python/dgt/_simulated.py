"""A simulated board and its clock on a pseudo-terminal, which a host opens like a serial port."""

import contextlib
import os
import pathlib
import pty
import select
import threading
import time
import tty
from collections.abc import Iterable

from .board import Board
from .logging_board import LoggingBoard
from .values import SQUARES, Clock, Time, Times

_RUNNING, _TURNS = 0x01, (0x10, 0x08)  # bits of a clock's status: it runs; the side to move
_POLLING = 50
"""The most milliseconds until a board that was plugged in is answered for."""


def open_terminal(raw: bool = True) -> tuple[int, int]:
    """Opens a pseudo-terminal, without echo if it is `raw`. Returns the board's side, and the one
    that a host opens by its name."""
    line, terminal = pty.openpty()
    if raw:
        tty.setraw(terminal)
    os.set_blocking(line, False)
    return line, terminal


class RunningClock:
    """A clock. While it runs, one of its sides counts down each second, to 0:00:00.

    `left` is the seconds of White and Black. `side` is the one to move, 0 for White, or `None` at
    first. `due` is when it counts next, or `None` if it doesn't run. White's side is the first one
    that the board reports, unless `white_first` is false."""

    def __init__(self, white: int = 0, black: int = 0, white_first: bool = True) -> None:
        self.left, self.white_first = [white, black], white_first
        self.side: int | None = None
        self.due: float | None = None

    @property
    def runs(self) -> int | None:
        """The side that runs."""
        return None if self.due is None else self.side

    def run(self, side: int | None, now: float) -> None:
        """Runs for a side that has time left, or stops for `None`."""
        self.due = None
        if side is not None:
            self.side, self.due = side, now + 1 if self.left[side] > 0 else None

    def count(self, now: float) -> bool:
        """Counts down one second, if one has passed. Returns whether it did."""
        if self.side is None or self.due is None or now < self.due:
            return False
        self.left[self.side] -= 1
        self.due = self.due + 1 if self.left[self.side] > 0 else None
        return True

    def time(self, side: int) -> Time:
        left = self.left[side]
        return Time(left // 3600, left // 60 % 60, left % 60)

    @property
    def times(self) -> Times:
        """What a board reports of the clock."""
        turn = 0 if self.side is None else _TURNS[self.side]
        first = 0 if self.white_first else 1
        return Times(self.time(first), self.time(1 - first),
                     turn | (0 if self.due is None else _RUNNING))


class PluggedBoard:
    """A board on a pseudo-terminal, also named by a symbolic link if there is a `link`. While it
    isn't `is_on`, it reads and writes nothing. It shows its `clock` once that has run. Threads may
    share it."""

    def __init__(self, link: str | os.PathLike[str] | None = None, board: Board | None = None,
                 raw: bool = True) -> None:
        self.link = None if link is None else pathlib.Path(link)
        self.raw, self.lock = raw, threading.RLock()
        self.board = board or LoggingBoard()
        self.clock, self.ends, self.is_on = RunningClock(), tuple[int, ...](), True
        self._is_off = False  # it was unplugged

    def plug(self) -> str:
        """Opens a terminal if there is none, and switches the board on. Returns its name. `OSError`
        if it or its link can't be made."""
        with self.lock:
            if not self.ends:
                if self._is_off:
                    self.board.line_lost()
                self.ends, self._is_off = open_terminal(self.raw), False
                if self.link:
                    if not self.link.exists():  # the link of a board that was killed
                        self.link.unlink(missing_ok=True)
                    self.link.symlink_to(os.ttyname(self.ends[1]))
            return os.ttyname(self.ends[1])

    def unplug(self) -> None:
        """Closes the terminal. The board loses its power until it is plugged in."""
        with self.lock:
            if self.ends and self.link:
                self.link.unlink(missing_ok=True)
            for end in self.ends:
                os.close(end)
            self.ends, self._is_off = (), True

    def write(self, data: bytes) -> None:
        """Writes bytes. If no host reads them, they are lost, like on a line."""
        with self.lock, contextlib.suppress(BlockingIOError):
            if self.ends:
                os.write(self.ends[0], data)

    def send(self, messages: Iterable[bytes]) -> None:
        """Writes messages. Subclasses have faults here."""
        for message in messages:
            self.write(message)

    def hear(self, asked: bytes) -> None:
        self.send(self.board.answers(asked))

    def answer(self) -> None:
        """Answers the bytes that a host has written."""
        with self.lock, contextlib.suppress(BlockingIOError):
            if self.ends and self.is_on:
                self.hear(os.read(self.ends[0], 4096))

    def put(self, *changes: tuple[str, str]) -> None:
        """Puts pieces on squares, a dot for none, and sends all changes at once."""
        with self.lock:
            for square, piece in changes:
                self.board.change(square, piece)
            self.report()

    def show(self, letters: str, pause: float) -> None:
        """Moves pieces, with pauses of this number of seconds, until the board shows these 64
        letters. A captured piece is removed first."""
        before = self.board.position.letters
        changed = [at for at in range(64) if before[at] != letters[at]]
        lifted = sorted((at for at in changed if before[at] != "."),
                        key=lambda at: letters[at] == ".")
        steps = [(at, ".") for at in lifted]
        steps += [(at, letters[at]) for at in changed if letters[at] != "."]
        for number, (at, letter) in enumerate(steps):
            time.sleep(pause if number else 0)
            self.put((SQUARES[at], letter))

    def hand_clock(self, clock: Clock) -> None:
        with self.lock:
            self.board.hand_clock(clock)
            self.report()

    def run_clock(self, side: int | None) -> None:
        """Runs the clock for a side that has time left, or stops it for `None`."""
        with self.lock:
            self.clock.run(side, time.monotonic())
            self.hand_clock(self.clock.times)

    def count_clock(self) -> None:
        """Counts down the seconds that have passed."""
        with self.lock:
            while self.clock.count(time.monotonic()):
                self.hand_clock(self.clock.times)

    def report(self) -> None:
        """Sends what has changed, if the host wants it."""
        with self.lock:
            if self.ends and self.is_on:
                self.send(self.board.messages())


class PluggedBoards(list[PluggedBoard]):
    """Plugged boards. A thread answers their hosts until `close`."""

    def __init__(self, boards: Iterable[PluggedBoard]) -> None:
        super().__init__(boards)
        for board in self:
            board.plug()
        self.is_open = True
        self.thread = threading.Thread(target=self._serve, daemon=True)
        self.thread.start()

    def _serve(self) -> None:
        while self.is_open:
            boards = {ends[0]: board for board in self if board.is_on and (ends := board.ends)}
            poll = select.poll()
            for end in boards:
                poll.register(end, select.POLLIN)
            for end, _ in poll.poll(_POLLING):
                if end in boards[end].ends:
                    boards[end].answer()

    def close(self) -> None:
        self.is_open = False
        self.thread.join()
        for board in self:
            board.unplug()
