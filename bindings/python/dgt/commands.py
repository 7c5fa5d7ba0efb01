"""The commands of a host, and the faults in its bytes."""

from __future__ import annotations

from dataclasses import dataclass

from . import _c
from ._c import CommandStruct
from .errors import BadValue
from .values import square_number

Ask = _c.Ask
ClockId = _c.ClockId


@dataclass(frozen=True, slots=True)
class Asked:
    """A command of one byte."""

    ask: Ask


@dataclass(frozen=True, slots=True)
class ClockMessage:
    """A message to the clock."""

    id: int
    payload: bytes


@dataclass(frozen=True, slots=True)
class Leds:
    """An LED frame."""

    leds: bytes

    @classmethod
    def lighting(cls, *squares: str) -> Leds:
        """Returns the frame that lights two squares, such as those of a move, or none. Other
        programs encode it this way; no board with lights was tried. `BadValue` for another number
        of squares, or if one isn't a square.

        >>> Leds.lighting("e2", "e4").leds.hex(" ")
        '01 34 24 00'
        """
        if len(squares) not in (0, 2):
            raise BadValue(f"squares must be two or none: {squares!r}")
        places = [square_number(square) for square in squares]
        return cls(bytes([1, *places, 0]) if places else _NO_LIGHTS)


@dataclass(frozen=True, slots=True)
class BadSize:
    """A clock message with a size (the second byte) below 3."""


@dataclass(frozen=True, slots=True)
class BadStart:
    """A clock message with a third byte other than 03."""


@dataclass(frozen=True, slots=True)
class BadEnd:
    """A clock message with a last byte other than 00."""


@dataclass(frozen=True, slots=True)
class StrayByte:
    """A byte that doesn't begin a command, or a command that only a later version of the library
    knows."""

    byte: int


Command = Asked | ClockMessage | Leds
Word = Command | BadSize | BadStart | BadEnd | StrayByte

_NO_LIGHTS = bytes([0, 64, 64, 0])
_FAULTS: dict[int, type[BadSize | BadStart | BadEnd]] = {
    _c.BAD_SIZE: BadSize, _c.BAD_START: BadStart, _c.BAD_END: BadEnd}
_ASKED = {ask.value: Asked(ask) for ask in Ask}


def read_word(told: CommandStruct, word: bytearray) -> Word:
    """Returns the command or fault that the library has reported. Its kind must not be 0."""
    if told.kind == _c.COMMAND:
        if told.code == _c.SEND_CLOCK_MESSAGE:
            return ClockMessage(told.id, bytes(word[4:told.word_len - 1]))
        if told.code == _c.SEND_LEDS:
            return Leds(bytes(word[2:told.word_len]))
        return _ASKED.get(told.code) or StrayByte(told.code)
    fault = _FAULTS.get(told.kind)
    return fault() if fault else StrayByte(told.byte)
