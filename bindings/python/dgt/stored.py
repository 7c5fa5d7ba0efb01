"""What a board stores while no host listens.

A board stores its pieces and its clock. It sends all of that after the byte `STORED_REQUEST`, as an
`Other` with the code 0f; `read_stored` reads its body. The names of the bytes are those of the
published header, and the bytes after them are known from other programs: no board was tried."""

from collections.abc import Callable
from ctypes import byref
from dataclasses import dataclass

from . import _c
from ._c import StoredStruct
from ._handle import Bytes, readable
from ._library import dgt
from .values import LETTERS, SQUARES, Time, read_time

Mark = _c.Mark

STORED_REQUEST = b"\x49"
"""The byte that requests a board's stored data, to write to the line. No reply is awaited."""


@dataclass(frozen=True, slots=True)
class StoredPiece:
    """This piece was on this square: its letter, and the square's name. `bit` is the unread bit D4
    of its byte."""

    square: str
    piece: str
    bit: bool = False


@dataclass(frozen=True, slots=True)
class StoredTime:
    """The time of one player. Its `flags` are 6 or 7, one for each player."""

    time: Time


@dataclass(frozen=True, slots=True)
class UnknownByte:
    """Another byte, or the first byte of an incomplete piece or time."""

    byte: int


Stored = StoredPiece | StoredTime | Mark | UnknownByte

_MAKERS: dict[int, Callable[[StoredStruct], Stored]] = {
    _c.STORED_PIECE: lambda told: StoredPiece(SQUARES[told.square], LETTERS[told.piece],
                                              bool(told.bit)),
    _c.STORED_TIME: lambda told: StoredTime(read_time(told.time)),
    _c.STORED_MARK: lambda told: Mark(told.byte),
    _c.STORED_UNKNOWN: lambda told: UnknownByte(told.byte),
}


def read_stored(body: Bytes) -> list[Stored]:
    r"""Reads the body of a message with the code 0f, in order. Each byte is read once. `TypeError`
    if the body isn't bytes.

    >>> for each in read_stored(b"\x6f\x40\x34\x41\x24\x61\x30\x05"):
    ...     print(each)
    111
    StoredPiece(square='e2', piece='.', bit=False)
    StoredPiece(square='e4', piece='P', bit=False)
    StoredTime(time=Time(hours=1, minutes=30, seconds=5, flags=6))
    """
    held, address = readable(body)
    stored, at, told = list[Stored](), 0, StoredStruct()
    while at < len(held):
        at += dgt.dgt_stored_first(address + at, len(held) - at, byref(told))
        stored.append(_MAKERS[told.kind](told))
    return stored
