"""The common part of hosts and followers: their commands, and what they know of a board."""

from collections.abc import Callable
from ctypes import byref, c_char, c_uint8
from typing import Any

from ._c import (DONE, MAX_ASKING, MAX_WORD, PLACEMENT_ROOM, TOO_MANY_AWAITED, ClockStruct,
                 SentStruct)
from ._handle import Bytes, Handle, readable, writable
from ._library import dgt
from .clock_commands import ClockCommands
from .commands import Ask, ClockId
from .errors import NoSuchCommand, TooManyAwaited
from .values import Clock, Position, byte, read_clock


class Asker(Handle, ClockCommands[bytes]):
    def __init__(self) -> None:
        super().__init__()
        self._out, self._out_at = writable(max(MAX_ASKING, MAX_WORD))

    def _of(self, name: str) -> Callable[..., Any]:
        """The library's function with this name for objects of this kind."""
        function: Callable[..., Any] = getattr(dgt, f"{self._prefix}_{name}")
        return function

    def _sent(self, name: str, *what: int) -> bytes:
        return self._call(self._send, self._of(name), what)

    def _send(self, at: int, send: Callable[..., SentStruct], what: tuple[int, ...]) -> bytes:
        sent = send(at, *what, self._out_at, len(self._out))
        if sent.status == TOO_MANY_AWAITED:
            raise TooManyAwaited("16 replies are awaited already")
        if sent.status != DONE:
            raise NoSuchCommand("no command has this code or payload")
        return bytes(self._out[:sent.bytes])

    def send(self, ask: Ask | int) -> bytes:
        """Returns a command of one byte. `BadValue` if it isn't a byte, `NoSuchCommand` if it isn't
        one of `Ask`, `TooManyAwaited` if it requests a reply and 16 are awaited already."""
        return self._sent("send", byte(ask, "a command"))

    def send_clock(self, id: ClockId | int, payload: Bytes = b"") -> bytes:
        """Returns a message to the clock with this payload, even if it is too short for this id:
        `send_display` and so on make complete ones. `BadValue` if the id isn't a byte,
        `NoSuchCommand` if the payload has more than 252 bytes, `TypeError` if it isn't bytes."""
        number = byte(id, "an id")
        held, address = readable(payload)
        return self._sent("send_clock", number, address, len(held))

    def _clock_message(self, id: ClockId, payload: bytes) -> bytes:
        return self.send_clock(id, payload)

    def send_leds(self, leds: Bytes) -> bytes:
        """Returns an LED frame. `NoSuchCommand` if there are more than 255 bytes."""
        held, address = readable(leds)
        return self._sent("send_leds", address, len(held))

    @property
    def picture(self) -> Position | None:
        """The position on the board, or `None` before the first dump."""
        codes = (c_uint8 * 64)()
        known = self._call(self._of("picture"), codes)
        return Position(bytes(codes)) if known else None

    @property
    def placement(self) -> str | None:
        """The picture as the first field of a FEN."""
        text = (c_char * PLACEMENT_ROOM)()
        known = self._call(self._of("placement"), text)
        return text.value.decode() if known else None

    @property
    def clock(self) -> Clock | None:
        """The last report of the board's clock, or `None` before the first. In a follower a report
        without a reading (the clock shows no digits, or sends only zeros) sets it to `None`."""
        told = ClockStruct()
        self._call(self._of("clock"), byref(told))
        return read_clock(told) if told.kind else None
