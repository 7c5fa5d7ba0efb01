"""A simulated board."""

from collections.abc import Iterator
from ctypes import byref, c_uint8
from dataclasses import dataclass

from . import _c
from ._c import (MAX_KEPT, MAX_SENT, MAX_WORD, BodyStruct, ClockStruct, CommandStruct,
                 IdentityStruct)
from ._handle import Bytes, Handle, readable, writable
from ._library import dgt
from .commands import Word, read_word
from .errors import BadValue, Busy
from .values import (Clock, Position, Times, clock_struct, number, piece_code, plain_bytes,
                     read_clock, square_number)

Mode = _c.Mode


@dataclass(frozen=True, slots=True)
class Identity:
    """What a board reports about itself.

    `serial` is five bytes; `trademark`, `battery` and `long_serial` are at most 64 bytes each. Each
    of these bytes is from 0 to 127. So are `main` and `sub`, the version of the board's firmware.
    `clock_version` is from 0 to 255: the clock's main number in the high four bits, and its sub
    number in the low four. `BadValue` if a value is out of range.
    """

    serial: bytes = b"00001"
    trademark: bytes = b"SIMULATED BOARD"
    main: int = 1
    sub: int = 3
    battery: bytes = b"\x64"
    clock_version: int = 0x14
    long_serial: bytes = b"0000000001"

    def __post_init__(self) -> None:
        for name, most in (("main", 127), ("sub", 127), ("clock_version", 255)):
            object.__setattr__(self, name, number(getattr(self, name), most, name))
        for name, least, most in (("serial", 5, 5), ("trademark", 0, MAX_KEPT),
                                  ("battery", 0, MAX_KEPT), ("long_serial", 0, MAX_KEPT)):
            object.__setattr__(self, name, _seven_bit(getattr(self, name), least, most, name))

    def _struct(self) -> IdentityStruct:
        return IdentityStruct(
            (c_uint8 * 5)(*self.serial), self.main, self.sub, self.clock_version,
            _body(self.trademark), _body(self.battery), _body(self.long_serial))


def _seven_bit(held: object, least: int, most: int, what: str) -> bytes:
    """Returns these bytes, from `least` to `most` of them, each from 0 to 127. Otherwise a
    `BadValue` names `what` they are."""
    plain = plain_bytes(held)
    if plain is None or not least <= len(plain) <= most or max(plain, default=0) > 127:
        count = f"{most}" if least == most else f"at most {most}"
        raise BadValue(f"{what} must be {count} bytes from 0 to 127: {held!r}")
    return plain


def _body(body: bytes) -> BodyStruct:
    return BodyStruct(len(body), (c_uint8 * MAX_KEPT)(*body))


class Board(Handle):
    r"""A simulated board with its pieces, its clock and the messages that it has to send. Pass it
    the bytes of the host, and write the messages that it returns to the line.

    >>> board = Board()
    >>> list(board.answers(b"\x44"))       # the host asks for changes from now on
    []
    >>> board.change("e2", ".")
    >>> [message.hex(" ") for message in board.answers(b"\x4d")]  # and for the version
    ['8e 00 05 34 00', '93 00 05 01 03']
    """

    _prefix = "dgt_board"

    def __init__(self, position: Position | None = None, clock: Clock | None = None,
                 identity: Identity | None = None) -> None:
        super().__init__()
        self._told = CommandStruct()
        self._word, self._word_at = writable(MAX_WORD)
        self._out, self._out_at = writable(MAX_SENT)
        position = Position.start() if position is None else position
        identity = Identity() if identity is None else identity
        if not isinstance(position, Position) or not isinstance(identity, Identity):
            raise TypeError("a board is made of a Position, a clock and an Identity")
        pieces = (c_uint8 * 64).from_buffer_copy(position.codes)
        said = identity._struct()
        shown = clock_struct(Times() if clock is None else clock)
        status = self._call(dgt.dgt_board_start, pieces, byref(shown), byref(said))
        if status != _c.STARTED:
            what = {_c.START_BAD_PIECES: "position", _c.START_BAD_CLOCK: "clock",
                    _c.START_BAD_IDENTITY: "identity"}[status]
            raise BadValue(f"the {what} of a board is out of its range")

    def change(self, square: str, piece: str) -> None:
        """Puts the piece with this letter on a square. A dot empties the square. `BadValue` if it
        isn't a square or a piece."""
        self._call(dgt.dgt_board_change, square_number(square), piece_code(piece))

    def hand_clock(self, clock: Clock) -> None:
        """Sets the times of the clock. `TypeError` if it isn't a clock."""
        shown = clock_struct(clock)
        if not self._call(dgt.dgt_board_hand_clock, byref(shown)):
            raise BadValue(f"no clock shows this: {clock!r}")

    def take(self, chunk: Bytes) -> tuple[int, Word | None]:
        """Takes bytes of the host, up to and including the first that completes a command or shows
        a fault, or else all. Returns their number, and the command or fault. `Busy` if the board
        owes eight replies."""
        held, address = readable(chunk)
        return self._call(self._taken, address, len(held))

    def _taken(self, at: int, address: int, size: int) -> tuple[int, Word | None]:
        taken = dgt.dgt_board_take(at, address, size, byref(self._told), self._word_at, MAX_WORD)
        if taken.busy:
            raise Busy("the board owes eight replies")
        return taken.used, read_word(self._told, self._word) if self._told.kind else None

    def poll(self) -> bytes | None:
        """Returns the next message to send, or `None`. The message then counts as sent."""
        return self._call(self._polled)

    def _polled(self, at: int) -> bytes | None:
        polled = dgt.dgt_board_poll(at, self._out_at, MAX_SENT)
        return bytes(self._out[:polled.bytes]) if polled.status == _c.WROTE else None

    def messages(self) -> Iterator[bytes]:
        """Yields each message to send, until there is none."""
        self._check_open()
        return iter(self.poll, None)

    def answers(self, chunk: Bytes) -> Iterator[bytes]:
        """Takes all of a host's bytes, and yields the messages to send: first the waiting ones, and
        then the replies to each command. It takes a command once you have taken each message before
        it, so a command that ends updates suppresses none of them."""
        held, _ = readable(chunk)
        self._check_open()
        return self._answered(held)

    def _answered(self, held: bytes) -> Iterator[bytes]:
        yield from self.messages()
        at = 0
        while at < len(held):
            try:
                at += self.take(held[at:at + MAX_WORD])[0]
            except Busy:
                pass  # until the owed messages are sent
            yield from self.messages()

    @property
    def owes(self) -> bool:
        """Whether there is anything to send."""
        return bool(self._call(dgt.dgt_board_owes))

    @property
    def owed_len(self) -> int:
        """The number of replies that the board owes. With 8 it is busy."""
        return int(self._call(dgt.dgt_board_owed_len))

    @property
    def unread(self) -> int:
        """The number of bytes received of an unfinished command."""
        return int(self._call(dgt.dgt_board_unread))

    @property
    def mode(self) -> Mode:
        """Which changes the board reports without a request."""
        return Mode(self._call(dgt.dgt_board_mode))

    @property
    def position(self) -> Position:
        """The position on the squares."""
        codes = (c_uint8 * 64)()
        self._call(dgt.dgt_board_position, codes)
        return Position(bytes(codes))

    @property
    def clock(self) -> Clock:
        """What the clock shows."""
        shown = ClockStruct()
        self._call(dgt.dgt_board_clock, byref(shown))
        return read_clock(shown)

    def line_lost(self) -> None:
        """Call it when the line was lost. The board keeps its squares, clock and identity, and
        resets everything else."""
        self._call(dgt.dgt_board_line_lost)
