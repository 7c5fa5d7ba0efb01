"""Conversations of a host and a board over two lines, and of a follower and a board over lines
that lose and alter bytes. Each act is done with the package and with tests/testing/model.py, and
then both are in the same state."""

from __future__ import annotations

import importlib
import unittest
from typing import Any

import dgt
from hypothesis import strategies as st
from hypothesis.stateful import (RuleBasedStateMachine, initialize, invariant, rule,
                                 run_state_machine_as_test)
import strategies as some

# It has no types.
model: Any = importlib.import_module("model")

MODES = {0x40: dgt.Mode.IDLE, 0x43: dgt.Mode.UPDATE, 0x44: dgt.Mode.UPDATE_BOARD,
         0x4B: dgt.Mode.UPDATE_NICE}
ALL = 1 << 20  # more bytes than are ever on a line
MODE_ASKS = st.sampled_from([dgt.Ask(code) for code in MODES])
COUNTS = st.one_of(st.integers(1, 10), st.sampled_from([67, 300, ALL]))
MOST_SENDINGS = 73  # of a board, while nothing else happens


def same(what: str, got: object, right: object) -> None:
    assert got == right, f"{what}: {got!r} instead of {right!r}"


class Ends(RuleBasedStateMachine):
    """A board at the end of two lines, of the package and of the model."""

    def __init__(self) -> None:
        super().__init__()
        start = dgt.Position.start()
        self.board, self.plain = dgt.Board(start), model.Board(start.codes)
        self.up, self.down = bytearray(), bytearray()  # to the host, and to the board

    def hear(self, data: bytes) -> None:
        """The host hears bytes."""
        raise NotImplementedError

    @rule(square=some.SQUARES, piece=some.PIECES)
    def change(self, square: str, piece: str) -> None:
        self.board.change(square, piece)
        self.plain.change(dgt.SQUARES.index(square), dgt.piece_code(piece))

    @rule(position=some.POSITIONS)
    def set_up(self, position: dgt.Position) -> None:
        """All pieces are put on their squares of a position."""
        for square, piece in zip(dgt.SQUARES, position):
            self.change(square, piece)

    @rule(clock=some.CLOCKS)
    def hand_clock(self, clock: dgt.Clock) -> None:
        self.board.hand_clock(clock)
        self.plain.hand_clock(some.clock_body(clock))

    @rule()
    def board_sends(self) -> None:
        message, right = self.board.poll(), self.plain.next_message()
        same("a message", message, right)
        if message is not None:
            self.plain.sent(right)
            self.up += message

    @rule(count=COUNTS)
    def to_board(self, count: int) -> None:
        chunk, used = bytes(self.down[:count]), 1
        while chunk and used:
            is_busy = self.plain.is_busy()
            try:
                used, _ = self.board.take(chunk)
            except dgt.Busy:
                used = 0
            same("whether the board is busy", used == 0, is_busy)
            for byte in chunk[:used]:
                self.plain.take(byte)
            chunk = chunk[used:]
            del self.down[:used]

    @rule(count=COUNTS)
    def board_answers(self, count: int) -> None:
        """The board sends what is pending, takes bytes, and sends all replies."""
        chunk = bytes(self.down[:count])
        del self.down[:count]
        messages = list(self.board.answers(chunk))
        right = self.plain_messages()
        for byte in chunk:
            self.plain.take(byte)
            right += self.plain_messages()
        same("the answers", messages, right)
        self.up += b"".join(messages)

    def plain_messages(self) -> list[bytes]:
        """What the model's board sends."""
        messages = []
        while message := self.plain.next_message():
            messages.append(message)
            self.plain.sent(message)
        return messages

    @rule(count=COUNTS)
    def to_host(self, count: int) -> None:
        chunk = bytes(self.up[:count])
        del self.up[:count]
        self.hear(chunk)

    @rule()
    def settle(self) -> None:
        """Everything is delivered and sent."""
        sendings = 0
        while self.up or self.down or self.board.owes:
            sendings = 0 if self.down else sendings + 1
            assert sendings <= MOST_SENDINGS + 1, "the board goes on sending"
            self.to_board(ALL)
            self.board_sends()
            self.to_host(ALL)

    @invariant()
    def is_same_board(self) -> None:
        same("the board's position", list(self.board.position.codes), self.plain.squares)
        same("the board's clock", some.clock_body(self.board.clock), self.plain.clock)
        same("the mode", self.board.mode, MODES[self.plain.mode])
        same("what is owed", self.board.owes, self.plain.next_message() is not None)


class Talk(Ends):
    """A host and a board, with lines that lose bytes only at a break.

    Once a dump was asked for, the last mode command asks for updates and all is quiet, the host's
    picture is the board's.
    """

    def __init__(self) -> None:
        super().__init__()
        self.host, self.plain_host = dgt.Host(), model.Host()
        self.is_dump_asked = self.has_updates = False

    def hear(self, data: bytes) -> None:
        self.host.hear(data)
        for byte in data:
            self.plain_host.hear(byte)

    def await_reply(self, code: int) -> None:
        reply = model.REPLIES.get(code)
        self.plain_host.awaited += [reply] * (reply not in (None, model.CLOCK))

    @rule(ask=st.one_of(some.ASKS, MODE_ASKS))
    def send(self, ask: dgt.Ask) -> None:
        try:
            self.down += self.host.send(ask)
        except dgt.TooManyAwaited:
            same("replies that are awaited", len(self.plain_host.awaited), 16)
            assert ask in model.REPLIES
            return
        self.await_reply(ask)
        self.is_dump_asked |= ask == dgt.Ask.DUMP
        if ask in model.MODES:
            self.has_updates = ask != dgt.Ask.RESET

    @rule(number=some.CLOCK_IDS, payload=some.PAYLOADS, is_clock=st.booleans())
    def send_more(self, number: int, payload: bytes, is_clock: bool) -> None:
        """A message to the clock, or an LED frame."""
        host = self.host
        self.down += host.send_clock(number, payload) if is_clock else host.send_leds(payload)

    @rule(how=st.sampled_from(["follow", "restart", "break", "break of the host"]))
    def begin(self, how: str) -> None:
        """The host asks for all squares and for changes; or the line breaks, and what is under way
        is lost. If only the host sees a break, it restarts the board."""
        if how.startswith("break"):
            self.up.clear()
            self.down.clear()
            self.host.line_lost()
            self.plain_host = model.Host()
        if how == "follow" and len(self.plain_host.awaited) == 16:
            return
        if how == "break":
            self.board.line_lost()
            self.plain.line_lost()
        elif how == "follow":
            self.down += self.host.follow()
            self.await_reply(dgt.Ask.DUMP)
        else:
            same("given up", self.host.give_up_awaited(), len(self.plain_host.awaited))
            self.down += self.host.restart()
            self.plain_host.awaited = [model.DUMP]
        self.is_dump_asked = self.has_updates = how != "break"

    @invariant()
    def is_same_host(self) -> None:
        host, plain = self.host, self.plain_host
        same("the picture", host.picture and list(host.picture.codes), plain.picture)
        same("the host's clock", host.clock and some.clock_body(host.clock), plain.clock)
        same("what is awaited", [model.REPLIES[ask] for ask in host.awaited], plain.awaited)
        same("what is unread", host.unread, len(plain.decoder.unfinished))

    @invariant()
    def picture_is_right(self) -> None:
        is_quiet = not (self.up or self.down or self.board.owes or self.host.unread)
        if is_quiet and self.is_dump_asked and self.has_updates:
            same("the picture of a quiet board", self.host.picture, self.board.position)

    def teardown(self) -> None:
        self.settle()
        self.is_same_host()
        self.picture_is_right()


PERIOD = 10.0  # of a follower, in seconds
WAITS = st.sampled_from([0.0, 0.5, 2.5, 10.0, 25.0])
CLOCK_MODES = [dgt.Mode.UPDATE, dgt.Mode.UPDATE_NICE]
FOLLOWERS_MODES = st.sampled_from([dgt.Mode.UPDATE_BOARD, *CLOCK_MODES])
PLACES = st.one_of(st.integers(0, 10), st.integers(0, 300))
# What a line may insert: any bytes, the beginnings of long commands and messages, and a clock that
# shows no digits.
PARTS = st.one_of(st.binary(min_size=1, max_size=4),
                  st.sampled_from([b"\x60\xff", b"\x2b\xff\x03", b"\x86\x00\x43", b"\xb0\x7f",
                                   bytes.fromhex("8d000a017f0304050601")]))


class FaultyTalk(Ends):
    """A follower and a board, whose lines lose, alter and insert bytes, and which lose their power
    and their line.

    Once the follower has asked more often than its patience allows heartbeats since the last fault,
    and all is quiet, its picture is the board's, whatever else is sent but a reset. So is its
    clock, if each of these askings was in a mode that reports it, and nothing else set the mode.
    """

    def __init__(self) -> None:
        super().__init__()
        self.start(0, dgt.Mode.UPDATE, False, False, False)

    @initialize(patience=st.integers(0, 3), mode=FOLLOWERS_MODES, delivers=st.booleans(),
                confirm=st.booleans(), identify=st.booleans())
    def start(self, patience: int, mode: dgt.Mode, delivers: bool, confirm: bool, identify: bool
              ) -> None:
        """`delivers` is whether all is delivered between the askings at the end."""
        self.follower = dgt.Follower(PERIOD, patience=patience, mode=mode, confirm=confirm,
                                     identify=identify)
        self.plain_host, self.is_clock_readable = model.Host(), True
        self.patience, self.delivers, self.now = patience, delivers, 0.0
        self.fail()

    def fail(self) -> None:
        """There was a fault."""
        self.askings, self.asks_for_clock = 0, True

    def hear(self, data: bytes) -> None:
        for event in self.follower.hear_each(self.now, data):
            if isinstance(event, dgt.Refused) and event.fault == dgt.Fault.BAD_READING:
                self.is_clock_readable = False
            self.is_clock_readable |= isinstance(event, (dgt.Times, dgt.NoClock))
        for byte in data:
            self.plain_host.hear(byte)

    @rule(wait=WAITS)
    def ask(self, wait: float) -> None:
        self.now += wait
        due, mode = self.follower.due_at, self.follower.mode
        asked = self.follower.ask(self.now)
        is_done = bool(asked) or self.follower.due_at != due  # it notes what is overdue
        same("whether it is due", is_done, due is not None and due <= self.now)
        self.down += asked
        if len(asked) > 1:  # not for the serial number
            self.askings += 1
            self.asks_for_clock &= mode in CLOCK_MODES

    @rule()
    def ask_now(self) -> None:
        self.follower.ask_now()

    @rule(mode=FOLLOWERS_MODES)
    def set_mode(self, mode: dgt.Mode) -> None:
        self.follower.mode = mode

    @rule(ask=some.ASKS)
    def send(self, ask: dgt.Ask) -> None:
        try:
            self.down += self.follower.send(ask)
        except dgt.TooManyAwaited:
            return
        self.asks_for_clock &= ask not in model.MODES
        if ask == dgt.Ask.RESET:
            self.fail()

    @rule(leds=st.sampled_from([b"", b"\x42\x40", b"\x60\xff\x2b"]))
    def send_leds(self, leds: bytes) -> None:
        self.down += self.follower.send_leds(leds)

    @rule(is_up=st.booleans(), at=PLACES, count=st.integers(1, 5))
    def lose(self, is_up: bool, at: int, count: int) -> None:
        line = self.up if is_up else self.down
        del line[at:at + count]
        self.fail()

    @rule(is_up=st.booleans(), at=PLACES, byte=some.BYTES)
    def alter(self, is_up: bool, at: int, byte: int) -> None:
        line = self.up if is_up else self.down
        line[at:at + 1] = bytes([byte])
        self.fail()

    @rule(is_up=st.booleans(), at=PLACES, data=PARTS)
    def insert(self, is_up: bool, at: int, data: bytes) -> None:
        line = self.up if is_up else self.down
        line[at:at] = data
        self.fail()

    @rule()
    def board_loses_power(self) -> None:
        self.board.line_lost()
        self.plain.line_lost()
        self.fail()

    @rule()
    def host_loses_line(self) -> None:
        """What is under way may come all the same."""
        self.follower.line_lost()
        self.plain_host, self.is_clock_readable = model.Host(), True
        self.fail()

    @invariant()
    def is_same_picture(self) -> None:
        follower, plain = self.follower, self.plain_host
        same("the picture", follower.picture and list(follower.picture.codes), plain.picture)
        clock = plain.clock if self.is_clock_readable and plain.clock != bytes(7) else None
        same("the clock", follower.clock and some.clock_body(follower.clock), clock)

    @invariant()
    def is_confirmed_or_in_doubt(self) -> None:
        assert not (self.follower.confirmed and self.follower.in_doubt)

    @invariant()
    def heals(self) -> None:
        if self.askings <= self.patience or self.up or self.down or self.board.owes:
            return
        same("the picture of a quiet board", self.follower.picture, self.board.position)
        if self.asks_for_clock:
            right = None if self.board.clock == dgt.Times() else self.board.clock
            same("the clock of a quiet board", self.follower.clock, right)

    def teardown(self) -> None:
        while self.askings <= self.patience:
            self.ask(PERIOD)
            if self.delivers:
                self.settle()
        self.settle()
        self.is_same_picture()
        self.heals()


class Conversations(unittest.TestCase):
    def test_host(self) -> None:
        run_state_machine_as_test(Talk)

    def test_follower(self) -> None:
        run_state_machine_as_test(FaultyTalk)
