"""A board and a host connected with two lines of bytes, for tests."""

from collections.abc import Callable
from enum import StrEnum
from typing import Any

from . import _c
from ._c import MAX_OWED, MAX_SENT, MAX_WORD
from ._handle import Bytes, Uncopied, readable, writable
from ._library import dgt
from .board import Board, Identity
from .commands import Ask, Asked, ClockMessage, Command, Leds
from .errors import BadValue, NoSuchCommand
from .host import Host
from .values import Clock, Position, byte, number


class Outcome(StrEnum):
    """The outcome of an act. Only `DONE` has changed anything."""

    DONE = "done"
    NOTHING = "nothing"
    NO_ROOM = "noroom"
    BUSY = "busy"
    TOO_MANY_AWAITED = "toomany"


_SENDING = {_c.DONE: Outcome.DONE, _c.TOO_MANY_AWAITED: Outcome.TOO_MANY_AWAITED,
            _c.NO_ROOM: Outcome.NO_ROOM}
_POLLING = {_c.NOTHING: Outcome.NOTHING, _c.WROTE: Outcome.DONE, _c.NO_ROOM: Outcome.NO_ROOM}


class World(Uncopied):
    """A board and a host, with a line of bytes each way. Nothing happens by itself: each call is
    one act, and returns its `Outcome`. The lines hold at most `up` bytes (from the board, at least
    67) and `down` bytes (from the host, at least 257).

    >>> world = World()
    >>> for ask in Ask.UPDATE_BOARD, Ask.DUMP:
    ...     outcome = world.host_sends(ask)
    >>> world.to_board(2), world.board_sends(), world.to_host(30)
    (<Outcome.DONE: 'done'>, <Outcome.DONE: 'done'>, <Outcome.DONE: 'done'>)
    >>> world.change("e2", ".")             # while the dump is in transit
    <Outcome.DONE: 'done'>
    >>> world.settle(), world.quiet
    (3, True)
    >>> print(world.host.picture)
    rnbqkbnr/pppppppp/8/8/8/8/PPPP1PPP/RNBQKBNR
    """

    _most = 65535  # bytes that a line may hold

    def __init__(self, position: Position | None = None, clock: Clock | None = None,
                 identity: Identity | None = None, *, up: int = 1024, down: int = 1024) -> None:
        for name, room, least in (("up", up, MAX_SENT), ("down", down, MAX_WORD)):
            if number(room, self._most, name) < least:
                raise BadValue(f"{name} must be a number from {least} to {self._most}: {room!r}")
        self._board, self._host = Board(position, clock, identity), Host()
        self._up_room, self._down_room = up, down
        self._up, self._down = bytearray(), bytearray()
        self._out, self._out_at = writable(MAX_WORD)

    @property
    def board(self) -> Board:
        """The board, to look at. To act on it, use the calls of the world."""
        return self._board

    @property
    def host(self) -> Host:
        """The host, to look at. To act on it, use the calls of the world."""
        return self._host

    @property
    def up(self) -> bytes:
        """The bytes in transit to the host."""
        return bytes(self._up)

    @property
    def down(self) -> bytes:
        """The bytes in transit to the board."""
        return bytes(self._down)

    @property
    def quiet(self) -> bool:
        """Whether nothing is in transit or left to send: both lines are empty, neither side has a
        part of a message or command, and the board has nothing to send."""
        held = self._up or self._down or self._board.unread or self._host.unread
        return not held and not self._board.owes

    # ---- Changes on the board, and what both sides send

    def change(self, square: str, piece: str) -> Outcome:
        """Puts the piece with this letter on a square of the board. A dot empties the square."""
        self._board.change(square, piece)
        return Outcome.DONE

    def hand_clock(self, clock: Clock) -> Outcome:
        """Sets the times of the board's clock."""
        self._board.hand_clock(clock)
        return Outcome.DONE

    def host_sends(self, command: Ask | Command) -> Outcome:
        """The host sends a command. `TOO_MANY_AWAITED` if it requests a reply and 16 are awaited
        already, `NO_ROOM` if the line has no room for all its bytes. `NoSuchCommand` if it isn't
        one of `Ask`, or is too long for a command."""
        if isinstance(command, ClockMessage):
            held, address = readable(command.payload)
            id = byte(command.id, "an id")
            return self._sent(dgt.dgt_host_send_clock, id, address, len(held))
        if isinstance(command, Leds):
            held, address = readable(command.leds)
            return self._sent(dgt.dgt_host_send_leds, address, len(held))
        ask = command.ask if isinstance(command, Asked) else command
        return self._sent(dgt.dgt_host_send, byte(ask, "a command"))

    def _sent(self, send: Callable[..., Any], *what: int) -> Outcome:
        room = min(self._down_room - len(self._down), len(self._out))
        sent = self._host._call(send, *what, self._out_at, room)
        if sent.status == _c.REFUSED:
            raise NoSuchCommand("no command has this code or payload")
        self._down += self._out[:sent.bytes] if sent.status == _c.DONE else b""
        return _SENDING[sent.status]

    def board_sends(self) -> Outcome:
        """The board sends its next message. `NOTHING` if it has none, `NO_ROOM` if the line has no
        room for all its bytes."""
        room = min(self._up_room - len(self._up), len(self._out))
        polled = self._board._call(dgt.dgt_board_poll, self._out_at, room)
        self._up += self._out[:polled.bytes] if polled.status == _c.WROTE else b""
        return _POLLING[polled.status]

    # ---- Deliveries

    def to_board(self, count: int) -> Outcome:
        """The board takes up to `count` bytes from the line, and stops when it owes eight replies.
        `NOTHING` if the line is empty, `BUSY` if the board owes eight replies already."""
        left = min(number(count, self._most, "count"), len(self._down))
        if left == 0:
            return Outcome.NOTHING
        if self._is_busy():
            return Outcome.BUSY
        while left and not self._is_busy():
            used, _ = self._board.take(self._down[:left])
            del self._down[:used]
            left -= used
        return Outcome.DONE

    def _is_busy(self) -> bool:
        return self._board.owed_len == MAX_OWED

    def to_host(self, count: int) -> Outcome:
        """The host hears up to `count` bytes from the line. `NOTHING` if the line is empty."""
        heard = bytes(self._up[:number(count, self._most, "count")])
        if not heard:
            return Outcome.NOTHING
        del self._up[:len(heard)]
        self._host.hear(heard)
        return Outcome.DONE

    def settle(self) -> int:
        """Delivers all bytes, and makes the board send everything that it has to send. Returns the
        number of acts."""
        acts = 0
        while True:
            if self._up:
                self.to_host(self._most)
            elif self._board.owes:
                self.board_sends()
            elif self._down:
                self.to_board(self._most)
            else:
                return acts
            acts += 1

    # ---- Breaks and faults

    def both_disconnect(self) -> Outcome:
        """Both sides see the line break: all bytes on it are lost, and both do `line_lost`."""
        self._up.clear()
        self._down.clear()
        self._host.line_lost()
        self._board.line_lost()
        return Outcome.DONE

    def host_disconnects(self) -> Outcome:
        """Only the host sees the line break: all bytes on it are lost, and the host does
        `line_lost` and `restart`."""
        self._up.clear()
        self._host.line_lost()
        self._down[:] = self._host.restart()
        return Outcome.DONE

    def garble_up(self, chunk: Bytes) -> Outcome:
        """Replaces the bytes in transit to the host. `NO_ROOM` if there are too many."""
        return self._garbled(self._up, self._up_room, chunk)

    def garble_down(self, chunk: Bytes) -> Outcome:
        """Replaces the bytes in transit to the board. `NO_ROOM` if there are too many."""
        return self._garbled(self._down, self._down_room, chunk)

    def _garbled(self, line: bytearray, room: int, chunk: Bytes) -> Outcome:
        held, _ = readable(chunk)
        if len(held) > room:
            return Outcome.NO_ROOM
        line[:] = held
        return Outcome.DONE

    def board_loses_power(self) -> Outcome:
        """The board loses its power and gets it back: it does `line_lost`. The lines keep their
        bytes."""
        self._board.line_lost()
        return Outcome.DONE

    def host_restarts(self) -> Outcome:
        """The host gives up its awaited replies, and does `restart`. `NO_ROOM` if the line has no
        room for the 257 bytes."""
        if self._down_room - len(self._down) < _c.RESTART_LENGTH:
            return Outcome.NO_ROOM
        self._host.give_up_awaited()
        self._down += self._host.restart()
        return Outcome.DONE

    def host_gives_up(self) -> Outcome:
        """The host gives up its awaited replies, which may be lost. Nothing else changes."""
        self._host.give_up_awaited()
        return Outcome.DONE
