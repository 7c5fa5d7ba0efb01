"""The events in a board's bytes: messages and faults. The text of an event (`str`) is its line of
`dgt monitor`, without the offset.

A later version may introduce new classes for messages that are an `Other` today."""

import ctypes
from collections.abc import Callable
from dataclasses import dataclass

from . import _c
from ._c import EVENT_FIELD, EventStruct
from .names import BatteryState, Signal, read_battery, read_signal, read_text
from .values import LETTERS, SQUARES, NoClock, Position, Times, read_clock

Fault = _c.Fault


def _text(body: bytes) -> str:
    """The bytes in hexadecimal digits, or a hyphen if there are none."""
    return body.hex() or "-"


@dataclass(frozen=True, slots=True)
class Dump:
    """The board reported all squares.

    >>> print(Dump(Position.start()))
    dump rnbqkbnr/pppppppp/8/8/8/8/PPPPPPPP/RNBQKBNR
    """

    position: Position
    unasked: bool = False

    def __str__(self) -> str:
        return f"dump {self.position}"


@dataclass(frozen=True, slots=True)
class Field:
    """The board reported one square: its name, and the letter of its piece."""

    square: str
    piece: str

    def __str__(self) -> str:
        return f"field {self.square} {self.piece}"


@dataclass(frozen=True, slots=True)
class Ack:
    """The reply to a clock message. A first byte of hexadecimal 10 is success. A clock also sends
    one when a button is pressed.

    >>> Ack(b"\\x10\\x88\\x02\\x33", 0).signal
    Pressed(button=<Button.RUN: 51>)
    """

    ack: bytes
    status: int

    @property
    def signal(self) -> Signal | None:
        """The meaning that other programs give these bytes, or `None` if that is unknown."""
        return read_signal(self.ack)

    def __str__(self) -> str:
        return f"ack {self.ack.hex(' ')} {self.status:02x}"


@dataclass(frozen=True, slots=True)
class Serial:
    """The serial number of the board, five bytes."""

    serial: bytes
    unasked: bool = False

    @property
    def text(self) -> str | None:
        """The text that its bytes are, or `None` if one of them doesn't print."""
        return read_text(self.serial)

    def __str__(self) -> str:
        return f"serial {_text(self.serial)}"


@dataclass(frozen=True, slots=True)
class Version:
    """The version of the board's program."""

    main: int
    sub: int
    unasked: bool = False

    def __str__(self) -> str:
        return f"version {self.main}.{self.sub}"


@dataclass(frozen=True, slots=True)
class Trademark:
    """The trademark."""

    body: bytes
    unasked: bool = False

    @property
    def text(self) -> str | None:
        """The text that its bytes are, or `None` if one of them doesn't print."""
        return read_text(self.body)

    def __str__(self) -> str:
        return f"trademark {_text(self.body)}"


@dataclass(frozen=True, slots=True)
class Battery:
    """The state of the battery."""

    body: bytes
    unasked: bool = False

    @property
    def state(self) -> BatteryState | None:
        """The meaning that other programs give the body, or `None` unless it has nine bytes."""
        return read_battery(self.body)

    def __str__(self) -> str:
        return f"battery {_text(self.body)}"


@dataclass(frozen=True, slots=True)
class LongSerial:
    """The long serial number."""

    body: bytes
    unasked: bool = False

    @property
    def text(self) -> str | None:
        """The text that its bytes are, or `None` if one of them doesn't print."""
        return read_text(self.body)

    def __str__(self) -> str:
        return f"longserial {_text(self.body)}"


@dataclass(frozen=True, slots=True)
class Other:
    """A message with another code and its unchanged body, or an event of a kind that only a later
    version of the library knows."""

    code: int
    body: bytes

    def __str__(self) -> str:
        return f"other {self.code:02x} {_text(self.body)}"


@dataclass(frozen=True, slots=True)
class Refused:
    """A complete message with a fault in its body. `at` is the offset of a wrong byte there."""

    code: int
    fault: Fault
    at: int

    def __str__(self) -> str:
        fault = self.fault.name.replace("_", "").lower()
        place = "" if self.fault is Fault.WRONG_SIZE else f" {self.at}"
        return f"refused {self.code:02x} {fault}{place}"


@dataclass(frozen=True, slots=True)
class Cut:
    """A message was cut off by the next one after `have` bytes."""

    have: int

    def __str__(self) -> str:
        return f"cut {self.have}"


@dataclass(frozen=True, slots=True)
class BadLength:
    """The header of a message gives a length that is less than the header's."""

    def __str__(self) -> str:
        return "badlength"


@dataclass(frozen=True, slots=True)
class Stray:
    """A byte outside any message."""

    byte: int

    def __str__(self) -> str:
        return f"stray {self.byte:02x}"


Message = (Dump | Field | Times | NoClock | Ack | Serial | Version | Trademark | Battery
           | LongSerial | Other)
Event = Message | Refused | Cut | BadLength | Stray

# The fields of all squares with all pieces, made once: to look one up is faster than to make it.
FIELDS = [[Field(square, letter) for letter in LETTERS] for square in SQUARES]

_Maker = Callable[[EventStruct, bytearray], Event]


def _carried(kind: Callable[[bytes, bool], Event]) -> _Maker:
    return lambda told, body: kind(bytes(body[:told.body_len]), bool(told.unasked))


def _field(told: EventStruct, body: bytearray) -> Field:
    field: Field = FIELDS[told.square][told.piece]
    return field


def _other(told: EventStruct, body: bytearray) -> Other:
    return Other(told.code, bytes(body[:told.body_len]))


# The class of each kind of event, from 1 on. A later version of the library may have more kinds.
_MAKERS: tuple[_Maker, ...] = (
    lambda told, body: Dump(Position(bytes(told.pieces)), bool(told.unasked)),
    _field,
    lambda told, body: read_clock(told.clock),
    lambda told, body: read_clock(told.clock),
    lambda told, body: Ack(bytes(told.ack), told.ack_status),
    lambda told, body: Serial(bytes(told.serial), bool(told.unasked)),
    _carried(Trademark),
    lambda told, body: Version(told.main_number, told.sub_number, bool(told.unasked)),
    _carried(Battery),
    _carried(LongSerial),
    _other,
    lambda told, body: Refused(told.code, Fault(told.fault), told.at),
    lambda told, body: Cut(told.have),
    lambda told, body: BadLength(),
    lambda told, body: Stray(told.byte),
)


def read_event(told: EventStruct, body: bytearray) -> Event:
    """Returns the event that the library has reported. Its kind must not be 0."""
    make: _Maker = _MAKERS[told.kind - 1] if told.kind <= len(_MAKERS) else _other
    return make(told, body)


def read_offsets(told: bytearray, count: int, before: int) -> list[int]:
    """Returns the offsets of the events that the library has reported in `count` structs, after
    this number of bytes."""
    size = ctypes.sizeof(EventStruct)
    return [before + EventStruct.from_buffer(told, index * size).place for index in range(count)]


KIND, SQUARE, PIECE = (getattr(EventStruct, name).offset for name in ("kind", "square", "piece"))


def read_events(told: bytearray, count: int, body: bytearray) -> list[Event]:
    """Returns the events that the library has reported in an array of structs. Only the last of
    them may have a body."""
    size = ctypes.sizeof(EventStruct)
    kinds, squares, pieces = (told[at:count * size:size] for at in (KIND, SQUARE, PIECE))
    return [FIELDS[square][piece] if kind == EVENT_FIELD
            else read_event(EventStruct.from_buffer(told, index * size), body)
            for index, (kind, square, piece) in enumerate(zip(kinds, squares, pieces))]
