"""Squares, pieces, positions and clocks."""

from __future__ import annotations

import contextlib
from collections.abc import Iterator, Sequence
from ctypes import byref, c_char, c_uint8, c_uint64
from dataclasses import dataclass
from typing import TypeVar

from . import _c
from ._c import NO_SUCH, PLACEMENT_ROOM, STATUS_ABSENT, ClockStruct, TimeStruct
from ._library import dgt
from .errors import BadPlacement, BadValue

LETTERS = ".PRNBKQprnbkqXYZ"
"""The letter of each piece by its code: capital ones are white, and a dot is an empty square."""

SQUARES = tuple(f"{file}{rank}" for rank in "87654321" for file in "abcdefgh")
"""The name of each square by its number."""

_Kind = TypeVar("_Kind")
_SQUARE_NUMBERS = {name: number for number, name in enumerate(SQUARES)}
_PIECE_CODES = {letter: code for code, letter in enumerate(LETTERS)}
_LETTER_BYTES = LETTERS.encode().ljust(256)


def square_number(name: str) -> int:
    """Returns the number of a square, from 0 for a8 to 63 for h1. `BadValue` if no square has this
    name."""
    try:
        return _SQUARE_NUMBERS[name]
    except (KeyError, TypeError):
        raise BadValue(f"not a square: {name!r}") from None


def piece_code(letter: str) -> int:
    """Returns the code of a piece, from 0 to 15. `BadValue` if no piece has this letter."""
    try:
        return _PIECE_CODES[letter]
    except (KeyError, TypeError):
        raise BadValue(f"not a piece: {letter!r}") from None


def letters_of(codes: bytes) -> str:
    """Returns the letters of valid codes."""
    return codes.translate(_LETTER_BYTES).decode()


def segment(character: str) -> int:
    """Returns the segments that show a digit, a space or a hyphen on the clock, from 0 to 127.
    `BadValue` for any other character."""
    known = isinstance(character, str) and str.__len__(character) == 1 and str.isascii(character)
    shown: int = dgt.dgt_segment(ord(character)) if known else NO_SUCH
    if shown == NO_SUCH:
        raise BadValue(f"not a digit, space or hyphen: {character!r}")
    return shown


def plain_bytes(held: object) -> bytes | None:
    """Returns the bytes of a `bytes` or a subclass as plain `bytes`, or `None`."""
    return bytes.__getitem__(held, slice(None)) if isinstance(held, bytes) else None


def checked(held: object, kind: type[_Kind]) -> _Kind:
    """Returns the object. `TypeError` unless it is of this class."""
    if not isinstance(held, kind):
        raise TypeError(f"not a {kind.__name__}: {held!r}")
    return held


@dataclass(frozen=True, slots=True)
class Position(Sequence[str]):
    """The pieces on the 64 squares. `position["e4"]` is the letter of a piece.

    >>> start = Position.start()
    >>> start["e2"], start["e4"]
    ('P', '.')
    >>> start.changes(Position.parse("rnbqkbnr/pppppppp/8/8/4P3/8/PPPP1PPP/RNBQKBNR"))
    {'e4': 'P', 'e2': '.'}

    It is an immutable sequence of 64 letters, from a8 to h1. A number is the index of a square:

    >>> start[0], start[-1], len(start), start.count("p"), "X" in start
    ('r', 'R', 64, 8, False)
    >>> start[:8], [SQUARES[number] for number, piece in enumerate(start) if piece == "N"]
    ('rnbqkbnr', ['b1', 'g1'])

    A name that isn't a square is a `BadValue`, and a number out of range is an `IndexError`.
    """

    codes: bytes
    """The code of the piece on each square, by the square's number."""

    def __post_init__(self) -> None:
        codes = plain_bytes(self.codes)
        if codes is None or len(codes) != 64 or max(codes) > 15:
            raise BadValue("a position is 64 bytes, each from 0 to 15")
        object.__setattr__(self, "codes", codes)

    @classmethod
    def parse(cls, placement: str) -> Position:
        """Returns the position of a FEN's first field. `BadPlacement` if the text isn't one, and
        `TypeError` if it isn't a text."""
        text = str.encode(checked(placement, str), errors="replace")
        codes = (c_uint8 * 64)()
        parsed = dgt.dgt_parse_placement(text, len(text), codes)
        if not parsed.ok:
            raise BadPlacement(parsed.at)
        return cls(bytes(codes))

    @classmethod
    def of_letters(cls, letters: str) -> Position:
        """Returns the position of 64 letters, from a8 to h1. `BadValue` if they aren't valid."""
        return cls(bytes(piece_code(letter) for letter in letters))

    @classmethod
    def start(cls) -> Position:
        """Returns the starting position."""
        return cls.parse("rnbqkbnr/pppppppp/8/8/8/8/PPPPPPPP/RNBQKBNR")

    @property
    def placement(self) -> str:
        """The first field of a FEN."""
        text = (c_char * PLACEMENT_ROOM)()
        dgt.dgt_placement((c_uint8 * 64).from_buffer_copy(self.codes), text)
        return text.value.decode()

    @property
    def letters(self) -> str:
        """The 64 letters, from a8 to h1."""
        return letters_of(self.codes)

    def __getitem__(self, square: str | int | slice) -> str:
        if isinstance(square, slice):
            return self.letters[square]
        at = square if isinstance(square, int) else square_number(square)
        return LETTERS[self.codes[at]]

    def __len__(self) -> int:
        return len(self.codes)

    def __iter__(self) -> Iterator[str]:
        return iter(self.letters)

    def changes(self, newer: Position) -> dict[str, str]:
        """Returns the squares on which a newer position differs, with their letters there.
        `TypeError` if it isn't a position."""
        pairs = zip(SQUARES, self.codes, checked(newer, Position).codes)
        return {square: LETTERS[new] for square, old, new in pairs if old != new}

    def differ(self, other: Position) -> int:
        """Returns the squares on which another position differs, as a number of 64 bits: bit n is
        set exactly if square n differs. `TypeError` if it isn't a position.

        >>> hex(Position.start().differ(Position.parse("8/8/8/8/8/8/8/8")))
        '0xffff00000000ffff'
        """
        squares = c_uint64()
        own, others = ((c_uint8 * 64).from_buffer_copy(each.codes)
                       for each in (self, checked(other, Position)))
        dgt.dgt_differ(own, others, byref(squares))
        return squares.value

    def __str__(self) -> str:
        return self.placement


def number(held: object, most: int, what: str) -> int:
    """Returns the number, from 0 to `most`. Otherwise a `BadValue` names `what` it is."""
    plain = int.__index__(held) if isinstance(held, int) else -1
    if not 0 <= plain <= most:
        raise BadValue(f"{what} must be a number from 0 to {most}: {held!r}")
    return plain


def seconds(held: float, what: str, least: float = 0.0) -> float:
    """Returns the number of seconds, `least` or more. Otherwise a `BadValue` names `what` it is."""
    with contextlib.suppress(TypeError):
        if held >= least:
            return held
    raise BadValue(f"{what} must be a number of seconds, {least} or more: {held!r}")


_TIME_FIELDS = (("hours", 9), ("minutes", 59), ("seconds", 59), ("flags", 7))


@dataclass(frozen=True, slots=True)
class Time:
    """The time of one side of a clock, and its three flags.

    `hours` is from 0 to 9, `minutes` and `seconds` are from 0 to 59, and `flags` is from 0 to 7.
    `BadValue` if one of them is out of range.

    >>> str(Time(1, 29, 55))
    '1:29:55'
    """

    hours: int = 0
    minutes: int = 0
    seconds: int = 0
    flags: int = 0

    def __post_init__(self) -> None:
        for name, most in _TIME_FIELDS:
            object.__setattr__(self, name, number(getattr(self, name), most, name))

    @property
    def blocked(self) -> bool:
        """Whether the flag has fallen, and the clock stays at zero. `blocked`, `per_move` and
        `fallen` are the meanings that other programs give `flags`: no clock was tried."""
        return bool(self.flags & _c.FLAG_BLOCKED)

    @property
    def per_move(self) -> bool:
        """Whether the time is one for each move."""
        return bool(self.flags & _c.FLAG_PER_MOVE)

    @property
    def fallen(self) -> bool:
        """Whether the flag has fallen, and the clock shows that."""
        return bool(self.flags & _c.FLAG_FALLEN)

    def __str__(self) -> str:
        return f"{self.hours}:{self.minutes:02}:{self.seconds:02}"


def _status(held: object, is_absent: bool) -> int:
    """Returns the status of a clock. `BadValue` if it is out of range, or its bit 20 is wrong."""
    plain = number(held, 127, "status")
    if bool(plain & STATUS_ABSENT) != is_absent:
        side = "with" if is_absent else "without"
        raise BadValue(f"status must be {side} the bit 20 (no clock is connected): {held!r}")
    return plain


@dataclass(frozen=True, slots=True)
class Times:
    """A clock, and the times that it shows.

    `first` and `second` are the times of the clock's two sides, in the order of the message. Either
    may be White's. `status` is from 0 to 127, without the bit 20 (hexadecimal), which means that no
    clock is connected. `BadValue` if one of them is out of range. The text is that of `dgt
    monitor`: each side's time and flags, and the status in hexadecimal.

    >>> print(Times(Time(1, 30), Time(1, 29, 55), 0x11))
    times 1:30:00 0 1:29:55 0 11
    """

    first: Time = Time()
    second: Time = Time()
    status: int = 0

    def __post_init__(self) -> None:
        for name, side in (("first", self.first), ("second", self.second)):
            if not isinstance(side, Time):
                raise BadValue(f"{name} must be a Time: {side!r}")
        object.__setattr__(self, "status", _status(self.status, is_absent=False))

    @property
    def running(self) -> bool:
        return bool(self.status & _c.STATUS_RUNNING)

    @property
    def lever(self) -> bool:
        """The position of the lever."""
        return bool(self.status & _c.STATUS_LEVER)

    @property
    def battery_low(self) -> bool:
        """Whether its battery is low."""
        return bool(self.status & _c.STATUS_BATTERY_LOW)

    @property
    def black_turn(self) -> bool:
        """Whether it is Black's turn."""
        return bool(self.status & _c.STATUS_BLACK_TURN)

    @property
    def white_turn(self) -> bool:
        """Whether it is White's turn."""
        return bool(self.status & _c.STATUS_WHITE_TURN)

    def __str__(self) -> str:
        first, second = (f"{side} {side.flags}" for side in (self.first, self.second))
        return f"times {first} {second} {self.status:02x}"


@dataclass(frozen=True, slots=True)
class NoClock:
    """No clock is connected.

    `raw` is the six bytes of the report, each from 0 to 127. The low half of the first and of the
    fourth isn't `a` (hexadecimal), which marks an acknowledgement. `status` is from 0 to 127, with
    the bit 20. `BadValue` if one of them is invalid.
    """

    raw: bytes = bytes(6)
    status: int = STATUS_ABSENT

    def __post_init__(self) -> None:
        raw = plain_bytes(self.raw)
        if raw is None or len(raw) != 6 or max(raw) > 127:
            raise BadValue(f"raw must be six bytes from 0 to 127: {self.raw!r}")
        if 0x0A in (raw[0] & 0x0F, raw[3] & 0x0F):
            raise BadValue("raw must be without a low half of a in the first or fourth byte: "
                           f"{self.raw!r}")
        object.__setattr__(self, "raw", raw)
        object.__setattr__(self, "status", _status(self.status, is_absent=True))

    def __str__(self) -> str:
        return f"noclock {self.raw.hex()} {self.status:02x}"


Clock = Times | NoClock


def read_time(told: TimeStruct) -> Time:
    """Returns the time that the library has reported."""
    return Time(told.hours, told.minutes, told.seconds, told.flags)


def read_clock(told: ClockStruct) -> Clock:
    """Returns the clock that the library has reported. Its kind must not be 0."""
    if told.kind == _c.CLOCK_NONE:
        return NoClock(bytes(told.raw), told.status)
    return Times(read_time(told.first), read_time(told.second), told.status)


def byte(held: int, what: str) -> int:
    """Returns the number, from 0 to 255. Otherwise a `BadValue` names `what` it is."""
    return number(held, 255, what)


def _time_struct(time: Time) -> TimeStruct:
    return TimeStruct(time.hours, time.minutes, time.seconds, time.flags)


def clock_struct(clock: Clock) -> ClockStruct:
    """Returns the clock for the library. `TypeError` if it isn't a clock."""
    if isinstance(clock, Times):
        return ClockStruct(_c.CLOCK_TIMES, clock.status, (c_uint8 * 6)(),
                           _time_struct(clock.first), _time_struct(clock.second))
    if isinstance(clock, NoClock):
        return ClockStruct(_c.CLOCK_NONE, clock.status, (c_uint8 * 6)(*clock.raw))
    raise TypeError(f"not a clock: {clock!r}")
