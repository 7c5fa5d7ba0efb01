"""Follows a board on a line, with repeated requests, so that the picture becomes right again after
any fault of the line."""

import contextlib
import errno
import os
import threading
import time
from collections import deque
from collections.abc import Iterator
from dataclasses import dataclass, field
from typing import Any, Protocol, Self

from ._handle import Bytes, Uncopied, readable
from ._port import Port, has_input, raised
from .board import Mode
from .clock_commands import ClockCommands
from .commands import ClockId, Leds
from .errors import BadValue, Closed
from .events import Dump, Event, Fault, Refused
from .follower import Follower
from .values import Clock, Position, Times, checked, seconds

_linux: Any = os  # mypy 1.0 knows no eventfd
_LOOK = 2.0
"""The seconds between two looks for a port that has disappeared."""
_LONGEST = 3600.0
"""The most seconds that one call sleeps."""
_GONE = "the port has gone; it is looked for every two seconds"
_SILENT = "the board doesn't answer (switch it off and on; dgt-doctor finds out more)"
_OTHER_SIZE = "the board doesn't report 64 squares (is it for draughts? dgt-doctor finds out more)"
_CLOSED = "the line was closed"
_GOES = (errno.ENOENT, errno.ENXIO, errno.ENODEV, errno.EIO)
"""The errors of a port that has disappeared."""
_LATE = 1.0
"""The least seconds between two unanswered requests of a silent board."""
_DUMP = 0x06
"""The code of a report of all squares."""


@dataclass(frozen=True, slots=True)
class BoardView:
    """The state of a board that is followed."""

    picture: Position | None = None
    """The position, or `None` before the board has reported it."""
    clock: Clock | None = None
    """The last report of the board's clock. `None` unless `follow` is called with `clock`, before
    the first report, and while the clock has no reading: it shows no digits, for instance while it
    is being set, or sends zeros."""
    in_doubt: bool = False
    """Whether the picture may be wrong: the line lost or altered bytes, or the board is away. The
    doubt ends when the board reports all squares again."""
    away: str | None = None
    """Why the board can't be heard: its port has disappeared, or it doesn't answer. Otherwise
    `None`."""
    confirmed: bool = False
    """Whether a second report of all squares has shown the same picture. The picture is then what
    the board had reported, up to that report or including it, if at most one message was altered,
    lost or inserted since the report before. A change makes it unconfirmed; with `confirm` it is
    confirmed again soon."""
    bytes_heard: int = field(default=0, compare=False)
    """The number of bytes received from the board since its port was opened."""
    serial: str | None = None
    """The last serial number that the board has reported, or `None`. It is requested if `follow` is
    called with `identify`."""

    @property
    def silent(self) -> bool:
        """Whether the port is open, but the board doesn't answer, or not like a chess board."""
        return self.away in (_SILENT, _OTHER_SIZE)


class SerialLine(Protocol):
    """The interface that `follow` needs of a serial port that you have opened, for instance with
    pyserial. `follow` sets `timeout`, in seconds, before each `read`, and reads the bytes that wait
    in the port, or else one. It ends once `is_open` is false."""

    timeout: float | None
    is_open: bool

    @property
    def in_waiting(self) -> int:
        """The number of bytes that can be read without waiting."""

    def read(self, size: int, /) -> bytes:
        """Returns this number of bytes, or fewer after the timeout."""

    def write(self, chunk: bytes, /) -> object:
        """Sends bytes."""


class _Steps:
    """Follows a board without a line and without a clock. It adds each new view to `changes`."""

    def __init__(self, period: float, patience: int, mode: Mode, confirm: bool,
                 identify: bool = False) -> None:
        self.follower = Follower(period, patience=patience, mode=mode, confirm=confirm,
                                 identify=identify)
        self.view = BoardView()
        self.changes: deque[BoardView] = deque()
        self._missing: str | None = None
        self._refusals = 0  # reports of all squares that had another size, one after another
        self.is_disturbed = False
        """Whether the reader of the line has found that it has just lost or altered bytes."""
        self.asked_at = self._unanswered_at = float("-inf")

    def ask(self, now: float) -> bytes:
        """Returns the request to send at this time."""
        asked = self.follower.ask(now)
        if asked:
            self.asked_at = round(now, 3)
            if not self._is_unanswered():
                self._unanswered_at = self.asked_at
        self._note()  # an answer or the rest of a message may be overdue by now
        return asked

    def hear(self, chunk: bytes, now: float) -> list[Event]:
        """Hears a chunk of bytes that arrived at this time, and returns its events. If the line is
        disturbed, a dump in the chunk may be older than the fault."""
        events = []
        if self.is_disturbed:
            self.follower.line_disturbed()
        for event in self.follower.hear_each(now, chunk):
            events.append(event)
            if isinstance(event, Dump):
                self._refusals = 0
            elif isinstance(event, Refused) and event.fault == Fault.WRONG_SIZE:
                self._refusals += event.code == _DUMP
            is_refused = isinstance(event, Refused) and event.fault == Fault.BAD_READING
            self._note(is_refused or event == Times())
        if self.is_disturbed:
            self.follower.line_disturbed()
            self._note()
        return events

    def seconds_left(self, now: float, until: float | None) -> float:
        """Returns the seconds to wait for bytes: until the next request, or until a time."""
        times = (self.follower.due_at, until, now + _LONGEST)
        return max(0.0, min(each for each in times if each is not None) - now)

    def lose(self, why: str) -> None:
        """Notes that the line is away. The picture stays, in doubt."""
        self.follower.line_lost()
        self._refusals = 0
        self._missing, self.asked_at, self._unanswered_at = why, float("-inf"), float("-inf")
        self._note()

    def regain(self) -> None:
        """Notes that the line is back."""
        self._missing = None
        self._note()

    def is_overdue(self, now: float) -> bool:
        """Whether a request is due, and nothing was heard since the last one."""
        due = self.follower.due_at
        return self._is_unanswered() and due is not None and due <= now

    def _is_unanswered(self) -> bool:
        """Whether nothing was heard since a request."""
        heard = self.follower.last_heard
        return self._unanswered_at > (float("-inf") if heard is None else heard)

    def _is_silent(self) -> bool:
        """Whether nothing was heard between a request and another one a second later."""
        return self._is_unanswered() and round(self.asked_at - self._unanswered_at, 3) >= _LATE

    def _note(self, has_no_reading: bool = False) -> None:
        """Notes changes. The last clock stays known while the line is away, but not after a report
        without a reading."""
        old, picture, clock = self.view, self.follower.picture, self.follower.clock
        clock = clock or (None if has_no_reading else old.clock)
        away = self._missing or (_OTHER_SIZE if self._refusals > 1 and picture is None
                                 else _SILENT if self._is_silent() else None)
        is_old = picture is None and old.picture is not None
        serial = self.follower.serial
        view = BoardView(old.picture if is_old else picture, clock,
                         self.follower.in_doubt or away is not None or is_old,
                         away, self.follower.confirmed, self.follower.offset,
                         old.serial if serial is None else serial.decode("latin-1"))
        if view != old:
            self.view = view
            self.changes.append(view)


def _mode(mode: Mode | None, clock: bool) -> Mode:
    """Returns the mode of a follower with these arguments."""
    if checked(clock, bool) and mode is not None:
        raise BadValue("clock and mode exclude each other")
    return mode if mode is not None else Mode.UPDATE_NICE if clock else Mode.UPDATE_BOARD


def _end(timeout: float | None, until: float | None) -> float | None:
    """Returns the time at which a call with these arguments ends. `None` is never."""
    if timeout is None:
        return until if until is None else seconds(until, "until", float("-inf"))
    if until is not None:
        raise BadValue("timeout and until exclude each other")
    return time.monotonic() + seconds(timeout, "timeout", float("-inf"))


class _Given:
    """A line that the caller has opened."""

    def __init__(self, line: SerialLine) -> None:
        self._line = line

    def write(self, chunk: bytes) -> None:
        with contextlib.suppress(OSError), self._until_closed():
            self._line.write(chunk)  # on failure `exchange` finds that the line has ended

    ask = write

    def is_disturbed(self, _: float) -> bool:
        """Always false: such a line reports no faults."""
        return False

    def exchange(self, seconds: float, wakes: int | None = None) -> bytes:
        """Returns bytes once they arrive, or nothing after `seconds`. `OSError` if the line has
        ended. `BadValue` with `wakes`."""
        if wakes is not None:
            raise BadValue("a line that you have opened can't wait for another descriptor")
        with self._until_closed():
            self._line.timeout = seconds
            chunk = self._line.read(self._line.in_waiting or 1) if self._line.is_open else b""
        if not chunk and not self._line.is_open:
            raise OSError(_CLOSED)
        return chunk

    @contextlib.contextmanager
    def _until_closed(self) -> Iterator[None]:
        """Handles a port of pyserial that is closed during a call, which may raise anything."""
        try:
            yield
        except Exception:
            if self._line.is_open:
                raise
            raise OSError(_CLOSED) from None

    def close(self) -> None:
        """Does nothing: the caller closes the line."""


class _Followed(Uncopied, ClockCommands[None]):
    """The common part of `Following` and `AsyncFollowing`."""

    _steps: _Steps
    _is_closed = False

    @property
    def view(self) -> BoardView:
        """The present view."""
        return self._steps.view

    @property
    def follower(self) -> Follower:
        """Makes commands for `write`: `following.write(following.follower.send(Ask.CLOCK))`."""
        return self._steps.follower

    def write(self, chunk: Bytes) -> None:
        raise NotImplementedError

    def light(self, *squares: str) -> None:
        """Lights two squares of a board with lights, or none, with the frame of `Leds.lighting`.
        For other frames, `write` the bytes of `Follower.send_leds`. `BadValue` as in `lighting`,
        and `Closed` after `close` or `aclose`."""
        self.write(self.follower.send_leds(Leds.lighting(*squares).leds))

    def _clock_message(self, id: ClockId, payload: bytes) -> None:
        self.write(self.follower.send_clock(id, payload))

    def _check_open(self) -> None:
        if self._is_closed:
            raise Closed(f"this {type(self).__name__} is closed")


class Following(_Followed):
    """Follows a board on a serial port: the result of `follow`. It is an iterator of `BoardView`s;
    `wait` returns one or gives up after a timeout. The calls of `ClockCommands` send a command to
    the board's clock. Use it in one thread; any other may `close` it. It is also closed when
    nothing refers to it any more, for instance after a `break` out of a loop over
    `dgt.follow(..)`.

    >>> with dgt.follow("/dev/ttyUSB0") as board:
    ...     board.send_text("hello")
    """

    _line: Port | _Given | None
    _closing = -1

    def __init__(self, port: str | os.PathLike[str] | SerialLine, period: float = 10.0, *,
                 patience: int = 6, mode: Mode | None = None, confirm: bool = False,
                 wait_for_port: bool = False, identify: bool = False, clock: bool = False) -> None:
        """Like `follow`."""
        self._steps = _Steps(period, patience, _mode(mode, clock), confirm, identify)
        self._waits, self._was_there, self._look_at = wait_for_port, False, 0.0
        self._is_given, self._line, self._name = False, None, ""
        self._lock = threading.RLock()  # held during `wait`, which uses the port
        # Has something to read once `close` is called.
        self._closing = raised(_linux.eventfd(0, _linux.EFD_CLOEXEC))
        if isinstance(port, (str, os.PathLike)):
            self._name = os.fspath(port)
            self._look(is_first=True)
        elif all(hasattr(port, name) for name in ("is_open", "read", "write")):
            self._line, self._is_given = _Given(port), True
        else:
            raise TypeError(f"port must be a port's name, or an open port of pyserial: {port!r}")

    def __del__(self) -> None:
        if self._closing >= 0:
            Following.close(self)
            os.close(self._closing)

    @property
    def descriptor(self) -> int | None:
        """A descriptor for a loop that follows many boards: call `wait(0)` when it has something
        to read, and at `due_at`. `None` while the port is away, and for a line that
        you have opened."""
        return self._line.descriptor if isinstance(self._line, Port) else None

    @property
    def due_at(self) -> float:
        """The time at which to call `wait` even if nothing has arrived."""
        due = self._look_at if self._line is None else self.follower.due_at
        return time.monotonic() + _LONGEST if due is None else due

    @property
    def _is_unsent(self) -> bool:
        """Whether the port has yet to take bytes: then it is to be called once it takes some."""
        return isinstance(self._line, Port) and self._line.is_unsent

    def write(self, chunk: Bytes) -> None:
        """Sends a chunk of bytes to the board. The chunk is lost if the port is away, or takes
        nothing for a period. `Closed` after `close`."""
        self._check_open()
        if self._line is not None:
            self._line.write(readable(chunk)[0])

    def wait(self, timeout: float | None = None, *, until: float | None = None,
             wakes: int | None = None) -> BoardView | None:
        """Returns the view after the next change, or `None` if there was none for `timeout`
        seconds. With 0 it doesn't wait. `until` is a time of `time.monotonic` instead, such as
        `Games.due`. It also returns `None` once the descriptor `wakes` has something to
        read. `Closed` after `close`. When a line that you have opened ends, it returns a view in
        doubt with the reason in `away`, and the next call raises `Closed`. `BadValue` for `wakes`
        with such a line, for `timeout` together with `until`, and if either isn't a number."""
        until = _end(timeout, until)
        changes = self._steps.changes
        with self._lock:
            self._check_open()
            while not changes:
                self._turn(until, wakes)
                self._check_open()
                is_over = until is not None and time.monotonic() >= until
                if not changes and (is_over or has_input(wakes, 0.0)):
                    return None
            return changes.popleft()

    def _turn(self, until: float | None, wakes: int | None) -> None:
        """Sends the due request, and hears bytes that arrive, or waits until something is due."""
        now = time.monotonic()
        if self._line is None and self._is_given:
            raise Closed(_CLOSED)
        if self._line is None and now >= self._look_at:
            self._look()
        elif self._line is None:
            end = self._look_at if until is None else min(self._look_at, until)
            has_input(wakes, max(0.0, end - now), self._closing)
        else:
            self._converse(self._line, now, until, wakes)

    def _converse(self, line: Port | _Given, now: float, until: float | None,
                  wakes: int | None) -> None:
        # If this is called late, an overdue answer may have arrived: it is heard first.
        is_overdue = self._steps.is_overdue(now)
        if not is_overdue and (asked := self._steps.ask(now)):
            line.ask(asked)
        is_ready = is_overdue or self._steps.changes
        wait = 0.0 if is_ready else self._steps.seconds_left(now, until)
        try:
            chunk = line.exchange(wait, wakes)
        except OSError as fault:
            line.close()
            self._line, self._look_at = None, time.monotonic() + _LOOK
            self._steps.lose((fault.strerror or str(fault)) if self._is_given else _GONE)
        else:
            now = time.monotonic()
            self._steps.is_disturbed = line.is_disturbed(now)
            self._hear(chunk, now)
            if is_overdue and (asked := self._steps.ask(now)):
                line.ask(asked)

    def _hear(self, chunk: bytes, now: float) -> None:
        self._steps.hear(chunk, now)

    def _open(self) -> Port:
        return Port(self._name, self._closing)

    def _look(self, is_first: bool = False) -> None:
        """Opens the port if it exists. The first time this may raise an `OSError`."""
        self._look_at = time.monotonic() + _LOOK
        try:
            self._line = self._open()
        except OSError as fault:
            if is_first and (not self._waits or fault.errno == errno.ENOTTY):
                raise
            has_gone = self._was_there and fault.errno in _GOES
            self._steps.lose(_GONE if has_gone else fault.strerror or str(fault))
        else:
            self._was_there = True
            self._steps.regain()

    def close(self) -> None:
        """Ends it, and closes the port if it has opened it. Each later `wait` raises `Closed`. So
        does a `wait` of another thread: at once, or when a `read` of a line that you have opened
        returns."""
        if not self._is_closed:
            self._is_closed = True
            _linux.eventfd_write(self._closing, 1)
        if not self._is_given:
            with self._lock:
                if self._line is not None:
                    self._line.close()
                self._line = None

    def __enter__(self) -> Self:
        return self

    def __exit__(self, *_: object) -> None:
        self.close()

    def __iter__(self) -> Self:
        return self

    def __next__(self) -> BoardView:
        try:
            view = self.wait()
        except Closed:
            raise StopIteration from None
        except KeyboardInterrupt as stop:
            del self  # a traceback that is kept, as at a prompt, would keep the port
            raise stop.with_traceback(None)
        assert view is not None  # without a time it never gives up
        return view


def follow(port: str | os.PathLike[str] | SerialLine, period: float = 10.0, *, patience: int = 6,
           mode: Mode | None = None, confirm: bool = False, wait_for_port: bool = False,
           identify: bool = False, clock: bool = False) -> Following:
    """Follows a board on a serial port, and yields a `BoardView` after each change.

    >>> with dgt.follow("/dev/ttyUSB0") as board:
    ...     for view in board:
    ...         print(view.picture, view.in_doubt)
    ...         if view.picture and view.picture["e4"] == "P":
    ...             break
    rnbqkbnr/pppppppp/8/8/8/8/PPPPPPPP/RNBQKBNR False
    rnbqkbnr/pppppppp/8/8/8/8/PPPP1PPP/RNBQKBNR False
    rnbqkbnr/pppppppp/8/8/4P3/8/PPPP1PPP/RNBQKBNR False

    `port` is the port's name, or an object like a port of pyserial. A port that is named is opened
    at once, set to 9600 baud, and locked: only one program may read a board. `OSError` if that
    fails, with a text that says what to do. If the port disappears later, `follow` looks for it
    every two seconds. Meanwhile the picture stays, in doubt, and `BoardView.away` says why. With
    `wait_for_port` it also looks for a port that can't be opened at first, unless the file isn't a
    serial port. A port that comes back may have another number, but its name in /dev/serial/by-id
    stays. If you pass an object, `follow` ends once that line is closed or fails, after a view that
    says so.

    All squares are requested every `period` seconds, so that a lost change becomes known.
    With `clock` the board also reports its clock, and a reading of it is requested in each period
    (`BoardView.clock`); without it the clock stays unknown. With `confirm` a changed picture is
    also requested after a second, until it is `BoardView.confirmed`. With `identify` the serial
    number is requested (`BoardView.serial`). `patience` and `mode` are those of `Follower`; `clock`
    stands for the mode `UPDATE_NICE`. `BadValue` and `TypeError` as in `Follower`, `BadValue` for
    `clock` together with a mode, and `TypeError` if `port` isn't a port."""
    return Following(port, period, patience=patience, mode=mode, confirm=confirm,
                     wait_for_port=wait_for_port, identify=identify, clock=clock)
