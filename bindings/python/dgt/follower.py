"""A host that repeats its requests."""

from collections.abc import Iterator
from ctypes import byref, c_uint8, c_uint64

from ._asker import Asker
from ._c import LEAST_PERIOD
from ._handle import Bytes, readable
from ._library import dgt
from .board import Mode
from .decoder import EventReader
from .errors import BadValue
from .events import Event
from .values import checked, number, seconds

_LEAST = LEAST_PERIOD / 1000
"""The least period, in seconds: a request and its answer take a third of it on the line."""


def _milliseconds(time: float, what: str = "a time", least: float = 0.0) -> int:
    """Returns a time or a period in milliseconds. `BadValue` if it is less than `least`, too great,
    or not a number."""
    if not seconds(time, what, least) * 1000 < 2**64:
        raise BadValue(f"{what} must be below 2**64 milliseconds: {time!r}")
    return round(time * 1000)


class Follower(EventReader, Asker):
    """A host that requests the whole position again and again, so that its picture becomes right
    again whatever the line lost or altered. It owns neither a line nor a clock. Pass it the time in
    seconds, of a clock that never goes back, such as `time.monotonic`. Write the bytes of `ask` to
    the line, and pass it the bytes from there. The time comes first, as in the other languages.

    >>> follower, board = Follower(period=10.0), dgt.Board()
    >>> for message in board.answers(follower.ask(0.0)):
    ...     follower.hear(0.1, message)
    >>> follower.placement, follower.due_at
    ('rnbqkbnr/pppppppp/8/8/8/8/PPPPPPPP/RNBQKBNR', 10.0)
    >>> follower.ask(9.9), follower.ask(10.0), follower.in_doubt
    (b'', b'DB', False)
    >>> for message in board.answers(b"DB"):
    ...     for event in follower.hear_each(10.1, message):
    ...         print(type(event).__name__, follower.confirmed)
    Dump True

    It sends one request in each period: the mode's command and a dump request. In the modes that
    report the clock, `UPDATE` and `UPDATE_NICE`, it also requests a reading of the clock. It starts
    over if the last dump didn't arrive, after a disturbance, or after `patience` plain requests in
    a row. Then it sends 258 bytes (259 in these modes), which also complete any command that the
    board has in part.

    These are disturbances: lost or altered bytes that are noticed, an answer without a request, a
    dump that contradicts the picture, and a message that stays unfinished for a second after its
    last byte. A clock without digits isn't one.

    After an LED frame and a message to the clock, it repeats the mode's command. The board may read
    a frame that lost a byte as other commands, and `RESET` ends its reports.

    >>> follower.send_leds(b"@@")
    b'`\\x02@@D'
    """

    _prefix, _feed_name, _chunk_name, _most = "dgt_follower", "hear", "hear_all", 1

    def __init__(self, period: float = 10.0, *, patience: int = 6, mode: Mode = Mode.UPDATE_BOARD,
                 confirm: bool = False, identify: bool = False) -> None:
        """`period` is in seconds, from one request to the next. With a patience of 0 each request
        starts over. `confirm` and `identify` are the properties. `BadValue` if the period is less
        than a second, the patience isn't from 0 to 2**32 - 1, or the mode is `IDLE` or invalid."""
        super().__init__()
        held = number(patience, 2**32 - 1, "patience")
        self._call(dgt.dgt_follower_start, _milliseconds(period, "period", _LEAST), held)
        self.mode, self.confirm, self.identify = mode, confirm, identify

    def hear(self, now: float, chunk: Bytes) -> None:
        """Hears a chunk of bytes that arrived at this time."""
        time = _milliseconds(now)
        held, address = readable(chunk)
        self._call(self._hear, time, address, len(held))

    def _hear(self, at: int, time: int, address: int, count: int) -> None:
        self._feed_chunk(at, time, address, count)
        self._offset += count

    def hear_each(self, now: float, chunk: Bytes) -> Iterator[Event]:
        """Yields the events of a chunk of bytes that arrived at this time. A byte is heard once you
        have taken the event before it. So the picture, `confirmed` and `in_doubt` are those after
        that event."""
        return self._each(chunk, _milliseconds(now))

    def ask(self, now: float) -> bytes:
        """Returns the request to send at this time, or nothing if none is due. In any case, an
        answer that is a second late by then starts a doubt. A message that has stayed unfinished
        for a second is a disturbance; its rest is still heard if it arrives later."""
        return self._sent("ask", _milliseconds(now))

    def ask_now(self) -> None:
        """Makes a request due at once, or as soon as the last one is answered. Its answer isn't
        older than this call, unless answers to earlier requests were late."""
        self._call(dgt.dgt_follower_ask_now)

    def _time(self, name: str) -> float | None:
        time = c_uint64()
        return time.value / 1000 if self._call(self._of(name), byref(time)) else None

    @property
    def due_at(self) -> float | None:
        """The first time at which `ask` returns bytes, or finds an answer or the rest of a message
        overdue, if nothing is heard before. It is 0 if a request is due at once, and `None` if the
        time is too great.

        After a disturbance a request is due half a second after the last one, and without an
        answer a second after it. On a silent line that second doubles with each request, up to the
        period, until something is heard."""
        return self._time("due_at")

    @property
    def last_heard(self) -> float | None:
        """The time of the last complete message, or `None` before the first."""
        return self._time("last_heard")

    @property
    def unread(self) -> int:
        """The number of bytes heard of an unfinished message."""
        return int(self._call(dgt.dgt_follower_unread))

    @property
    def in_doubt(self) -> bool:
        """Whether the picture may be wrong: since the last awaited dump there was a disturbance, or
        `ask` found an answer a second late."""
        return bool(self._call(dgt.dgt_follower_in_doubt))

    @property
    def confirmed(self) -> bool:
        """Whether an awaited dump repeated the picture. Since then nothing has changed it, nothing
        arrived without a request, there was no disturbance, and no answer was late. The picture is
        then what the board had reported, up to that dump or including it, if at most one message
        was altered, lost or inserted since the dump before it. A change that is lost later shows
        with the next dump. The first awaited dump after starting over confirms nothing: it may be a
        late answer to an earlier request."""
        return bool(self._call(dgt.dgt_follower_confirmed))

    @property
    def confirm(self) -> bool:
        """Whether an unconfirmed picture is requested again: a second after its last change, and a
        second after the last request."""
        return bool(self._call(lambda at: self._confirm))

    @confirm.setter
    def confirm(self, confirm: bool) -> None:
        self._confirm = checked(confirm, bool)
        self._call(dgt.dgt_follower_set_confirm, confirm)

    @property
    def serial(self) -> bytes | None:
        """The serial number of the board, five bytes, or `None` before the board has reported
        it."""
        digits = (c_uint8 * 5)()
        return bytes(digits) if self._call(dgt.dgt_follower_serial, digits) else None

    @property
    def identify(self) -> bool:
        """Whether an unknown serial number is requested: once after each answered request, and at
        most three times."""
        return bool(self._call(lambda at: self._identify))

    @identify.setter
    def identify(self, identify: bool) -> None:
        self._identify = checked(identify, bool)
        self._call(dgt.dgt_follower_set_identify, identify)

    @property
    def mode(self) -> Mode:
        """The mode that each request sets. A new one applies from the next request on. `BadValue`
        if it is `IDLE` or invalid."""
        return Mode(self._call(dgt.dgt_follower_mode))

    @mode.setter
    def mode(self, mode: Mode) -> None:
        if not self._call(dgt.dgt_follower_set_mode, number(mode, max(Mode), "mode")):
            raise BadValue("a follower needs a mode in which the board reports changes, not IDLE")

    @property
    def heartbeats_left(self) -> int:
        """The number of plain requests that may follow before one starts over."""
        return int(self._call(dgt.dgt_follower_heartbeats_left))

    def line_disturbed(self) -> None:
        """Call it when the reader of the line has found that bytes were lost or altered: serial
        ports count overruns and framing errors. It is a disturbance. First pass the bytes before
        the fault."""
        self._call(dgt.dgt_follower_line_disturbed)

    def line_lost(self) -> None:
        """Call it when the line was lost, with everything in transit. It resets everything but the
        period, the patience, the mode, `confirm` and `identify`."""
        self._call(self._made_new, dgt.dgt_follower_line_lost)
