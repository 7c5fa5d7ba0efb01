"""The random values of tests/libraries/properties: positions, clocks, the bytes of boards and of
hosts, and the cuts of a line.

The functions of a strategy have names: hypothesis takes long to print a lambda.
"""

from __future__ import annotations

import importlib
from typing import Any

import dgt
from hypothesis import strategies as st

# It has no types.
model: Any = importlib.import_module("model")

Strategy = st.SearchStrategy

BYTES = st.integers(0, 255)
SEVEN_BIT = st.integers(0, 127)
SQUARES = st.sampled_from(dgt.SQUARES)
PIECES = st.sampled_from(dgt.LETTERS)
ASKS = st.sampled_from(dgt.Ask)


def clear_tops(data: bytes) -> bytes:
    return bytes(byte & 0x7F for byte in data)


def seven_bit(least: int, most: int) -> Strategy[bytes]:
    return st.binary(min_size=least, max_size=most).map(clear_tops)


# ---- Positions and clocks


def put(position: dgt.Position, changes: dict[int, int]) -> dgt.Position:
    """The position with other pieces on some squares, by their numbers."""
    return dgt.Position(bytes(changes.get(square, piece)
                              for square, piece in enumerate(position.codes)))


def make_time(side: tuple[int, int, int], flags: int) -> dgt.Time:
    return dgt.Time(side[0], side[1], side[2], flags)


def make_times(first: dgt.Time, second: dgt.Time, status: int) -> dgt.Times:
    return dgt.Times(first, second, status & ~0x20)


def make_no_clock(raw: bytes, status: int) -> dgt.NoClock:
    """Without the mark of an acknowledgement."""
    marked = [place in (0, 3) and byte & 0x0F == 0x0A for place, byte in enumerate(raw)]
    return dgt.NoClock(bytes(byte ^ mark for byte, mark in zip(raw, marked)), status | 0x20)


CHANGES = st.dictionaries(st.integers(0, 63), st.integers(0, 15), max_size=8)
BASES = st.sampled_from([dgt.Position.start(), dgt.Position(bytes(64)), dgt.Position(b"\x0f" * 64)])
POSITIONS = st.builds(put, BASES, CHANGES)
# The hours, the minutes and the seconds of a side of a clock.
SIDES = st.tuples(st.integers(0, 9), st.integers(0, 59), st.integers(0, 59))
FLAGGED = st.builds(make_time, SIDES, st.integers(0, 7))
CLOCKS = st.one_of(st.builds(make_times, FLAGGED, FLAGGED, SEVEN_BIT),
                   st.builds(make_no_clock, seven_bit(6, 6), SEVEN_BIT))
IDENTITIES = st.builds(
    dgt.Identity, serial=seven_bit(5, 5), trademark=seven_bit(0, 64), main=SEVEN_BIT, sub=SEVEN_BIT,
    battery=seven_bit(0, 64), clock_version=BYTES, long_serial=seven_bit(0, 64))


def packed(number: int) -> int:
    """Two decimal digits in a byte."""
    return number // 10 << 4 | number % 10


def clock_body(clock: dgt.Clock) -> bytes:
    """The seven bytes of a clock's message."""
    if isinstance(clock, dgt.NoClock):
        return bytes([*clock.raw, clock.status])
    sides = [byte for time in (clock.first, clock.second)
             for byte in (time.flags << 4 | time.hours, packed(time.minutes), packed(time.seconds))]
    return bytes([*sides, clock.status])


# ---- What a board sends


def spell(code: int, body: bytes) -> bytes:
    return bytes(model.spell(code, body))


def dump(position: dgt.Position) -> bytes:
    return spell(model.DUMP, position.codes)


def field(square: int, piece: int) -> bytes:
    return spell(model.FIELD, bytes([square, piece]))


def of_known_size(code: int, data: bytes) -> bytes:
    return spell(code, data[:model.SIZES[code]])


def spoil(message: bytes, at: int, byte: int, size: int) -> bytes:
    """A message of which a byte is another, and whose end may be lost."""
    data = bytearray(message)
    data[at % len(data)] = byte
    return bytes(data[:size % (2 * len(data)) + 1])


# Messages with mostly correct bodies.
UNSIZED = st.sampled_from([0x12, 0x20, 0x22, 0x00, 0x10, 0x30, 0x7F])
MESSAGES = st.one_of(
    st.builds(field, st.integers(0, 65), st.integers(0, 17)),
    st.builds(dump, POSITIONS),
    st.builds(spell, st.just(model.CLOCK), st.one_of(CLOCKS.map(clock_body), seven_bit(7, 7))),
    st.builds(of_known_size, st.sampled_from(sorted(model.SIZES)), seven_bit(64, 64)),
    st.builds(spell, st.one_of(UNSIZED, SEVEN_BIT), seven_bit(0, 12)))
SPOILT = st.builds(spoil, MESSAGES, BYTES, BYTES, BYTES)
BOARDS_BYTES = st.lists(st.one_of(MESSAGES, MESSAGES, SPOILT, st.binary(max_size=5)),
                        max_size=6).map(b"".join)


# ---- What a host sends


def clock_message(number: int, payload: bytes) -> bytes:
    return bytes(model.clock_message(number, payload))


def leds_frame(leds: bytes) -> bytes:
    return bytes([model.LIGHTS, len(leds), *leds])


def one_byte(ask: dgt.Ask) -> bytes:
    return bytes([ask])


PAYLOADS = st.one_of(st.binary(max_size=9), st.binary(min_size=7, max_size=9),
                     st.binary(min_size=252, max_size=252))
LEDS = st.one_of(st.binary(max_size=5), st.binary(min_size=255, max_size=255))
CLOCK_IDS = st.one_of(st.sampled_from(dgt.ClockId).map(int), BYTES)
COMMANDS = st.one_of(st.builds(one_byte, ASKS), st.builds(clock_message, CLOCK_IDS, PAYLOADS),
                     st.builds(leds_frame, LEDS))
FAULTS = st.sampled_from([b"\x2b\x02", b"\x2b\x03\x04", b"\x2b\x03\x03\x09\x01"])
HOSTS_BYTES = st.lists(
    st.one_of(COMMANDS, COMMANDS, st.builds(spoil, COMMANDS, BYTES, BYTES, BYTES), FAULTS,
              st.binary(max_size=4)), max_size=8).map(b"".join)


# ---- A line


def cut(data: bytes, places: list[int]) -> list[bytes]:
    """The chunks of bytes that a line cuts at these places. Some of them may be empty."""
    ends = sorted(min(place, len(data)) for place in places)
    return [data[start:end] for start, end in zip([0, *ends], [*ends, len(data)])]


def chunks(data: Strategy[bytes]) -> Strategy[list[bytes]]:
    return st.builds(cut, data, st.lists(st.integers(0, 300), max_size=6))
