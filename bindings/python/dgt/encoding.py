"""Encodes messages and commands, and decodes single ones."""

from collections.abc import Callable
from ctypes import byref, c_uint8
from typing import Any, cast

from . import _c
from ._c import MAX_BODY, MAX_WORD, CommandStruct, EncodedStruct, EventStruct
from ._handle import Bytes, readable, writable
from ._library import dgt
from .commands import Asked, ClockMessage, Command, Leds, read_word
from .errors import BadValue
from .events import (Ack, Battery, Dump, Field, LongSerial, Message, Other, Refused, Serial,
                     Trademark, Version, read_event)
from .values import (NoClock, Position, Times, clock_struct, number, piece_code, plain_bytes,
                     square_number)


def encode_message(message: Message) -> bytes:
    r"""Returns the bytes of a message that a board would send. `BadValue` if a member is out of its
    range, or an `Other` has the code of another class; `TypeError` if it isn't a message, or its
    body isn't bytes.

    >>> encode_message(Field("e2", ".")).hex(" ")
    '8e 00 05 34 00'
    >>> encode_message(Other(0x30, b"\x07")).hex(" ")
    'b0 00 04 07'
    """
    if type(message) not in _KINDS:
        raise TypeError(f"not a message: {message!r}")
    told = EventStruct()
    body, address = readable(_write(message, told))
    return _encoded(dgt.dgt_encode_message, MAX_BODY + 3, message, byref(told), address, len(body))


def view_message(code: int, body: Bytes) -> Message | Refused:
    r"""Returns the message with this code and this body, or a `Refused` with the fault of the body.
    The code is the first byte of the message without its top bit, and the body begins after the
    third byte. `BadValue` if the code or a byte of the body is above 127, or the body has more than
    16380 bytes.

    >>> view_message(0x0e, b"\x34\x00")
    Field(square='e2', piece='.')
    >>> print(view_message(0x0e, b"\x34\x10"))
    refused 0e badpiece 1
    """
    held, address = readable(body)
    told = EventStruct()
    if not dgt.dgt_view_message(number(code, 127, "code"), address, len(held), byref(told)):
        raise BadValue(f"body must be at most {MAX_BODY} bytes from 0 to 127: {body!r}")
    return cast(Message | Refused, read_event(told, bytearray(held)))


def encode_command(command: Command) -> bytes:
    """Returns the bytes of a command. Unlike the calls of a `Host`, it doesn't await a reply.
    `BadValue` if the command carries too many bytes, or its id isn't a byte; `TypeError` if it
    isn't a command.

    >>> encode_command(ClockMessage(0x0b, b"\\x03")).hex(" ")
    '2b 04 03 0b 03 00'
    """
    carried: Bytes = b""
    if isinstance(command, Asked):
        code, id = number(command.ask, 255, "ask"), 0
    elif isinstance(command, ClockMessage):
        code, id, carried = _c.SEND_CLOCK_MESSAGE, number(command.id, 255, "id"), command.payload
    elif isinstance(command, Leds):
        code, id, carried = _c.SEND_LEDS, 0, command.leds
    else:
        raise TypeError(f"not a command: {command!r}")
    held, address = readable(carried)
    return _encoded(dgt.dgt_encode_command, MAX_WORD, command, code, id, address, len(held))


def view_command(word: Bytes) -> Command | None:
    r"""Returns the command with exactly these bytes, or `None`.

    >>> view_command(b"\x42"), view_command(b"\x42\x42")
    (Asked(ask=<Ask.DUMP: 66>), None)
    """
    held, address = readable(word)
    told = CommandStruct()
    if not dgt.dgt_view_command(address, len(held), byref(told)):
        return None
    return cast(Command, read_word(told, bytearray(held)))


def _encoded(encode: Callable[..., EncodedStruct], room: int, what: object,
             *arguments: object) -> bytes:
    out, out_at = writable(room)
    encoded = encode(*arguments, out_at, room)
    if encoded.status != _c.DONE:
        raise BadValue(f"a member is out of its range: {what!r}")
    return bytes(out[:encoded.bytes])


def _array(held: object, count: int, what: str) -> Any:
    """Returns an array of `count` bytes. Otherwise a `BadValue` names `what` they are."""
    plain = plain_bytes(held)
    if plain is None or len(plain) != count:
        raise BadValue(f"{what} must be {count} bytes: {held!r}")
    return (c_uint8 * count)(*plain)


_KINDS: dict[type, int] = {
    Dump: _c.EVENT_DUMP, Field: _c.EVENT_FIELD, Times: _c.EVENT_TIMES, NoClock: _c.EVENT_NO_CLOCK,
    Ack: _c.EVENT_ACK, Serial: _c.EVENT_SERIAL, Version: _c.EVENT_VERSION, Other: _c.EVENT_OTHER,
    Trademark: _c.EVENT_TRADEMARK, Battery: _c.EVENT_BATTERY, LongSerial: _c.EVENT_LONG_SERIAL,
}


def _write(message: Message, told: EventStruct) -> Bytes:
    """Writes the library's struct for a message, and returns its body."""
    told.kind = _KINDS[type(message)]
    match message:
        case Dump(position):
            if not isinstance(position, Position):
                raise BadValue(f"position must be a Position: {position!r}")
            told.pieces = _array(position.codes, 64, "position")
        case Field(square, piece):
            told.square, told.piece = square_number(square), piece_code(piece)
        case Times() | NoClock():
            told.clock = clock_struct(message)
        case Ack(ack, status):
            told.ack, told.ack_status = _array(ack, 4, "ack"), number(status, 127, "status")
        case Serial(serial):
            told.serial = _array(serial, 5, "serial")
        case Version(main, sub):
            told.main_number = number(main, 127, "main")
            told.sub_number = number(sub, 127, "sub")
        case Trademark(body) | Battery(body) | LongSerial(body):
            return body
        case Other(code, body):
            told.code = number(code, 127, "code")
            return body
    return b""
