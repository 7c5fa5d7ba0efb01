"""Properties of readers and writers of bytes: the events of tests/testing/model.py with any chunks,
and decoding reverses encoding."""

from __future__ import annotations

import importlib
import unittest
from typing import Any, cast

import dgt
from hypothesis import given
from hypothesis import strategies as st
import strategies as some

# They have no types.
model: Any = importlib.import_module("model")
told: Any = importlib.import_module("told")

Side = tuple[int, int, int]


def texts(events: list[dgt.Event]) -> list[str]:
    return list(map(str, events))


def word_texts(words: list[dgt.Word]) -> list[str]:
    return [str(told.word_text(word, dgt)) for word in words]


class Chunks(unittest.TestCase):
    """In any chunks the events of bytes are those of tests/testing/model.py."""

    @given(some.chunks(some.BOARDS_BYTES))
    def test_decoder(self, chunks: list[bytes]) -> None:
        plain, by_list, one_by_one = model.Decoder(), dgt.Decoder(), dgt.Decoder()
        for chunk in chunks:
            right = [text for text in map(plain.take, chunk) if text]
            self.assertEqual(texts(by_list.feed(chunk)), right)
            self.assertEqual(texts(list(one_by_one.feed_each(chunk))), right)
            self.assertEqual(by_list.unread, len(plain.unfinished))
            self.assertEqual(by_list.offset, one_by_one.offset)
        self.assertEqual(one_by_one.finish(), len(plain.unfinished))
        self.assertEqual(one_by_one.unread, 0)

    @given(some.chunks(some.BOARDS_BYTES))
    def test_offsets(self, chunks: list[bytes]) -> None:
        plain, data = model.Decoder(), b"".join(chunks)
        read = map(plain.take, data)
        right = [(place, text) for place, text in enumerate(read, start=1) if text]
        decoder, host = dgt.Decoder(), dgt.Host()
        placed = [pair for chunk in chunks for pair in decoder.feed_placed(chunk)]
        self.assertEqual([(place, str(event)) for place, event in placed], right)
        heard = [(host.offset, str(event)) for chunk in chunks for event in host.hear_each(chunk)]
        self.assertEqual(heard, right)
        self.assertEqual((decoder.offset, host.offset), (len(data), len(data)))
        decoder.reset()
        host.line_lost()
        self.assertEqual((decoder.offset, host.offset), (0, 0))

    @given(some.chunks(some.BOARDS_BYTES))
    def test_host(self, chunks: list[bytes]) -> None:
        plain, host = model.Host(), dgt.Host()
        reader = model.Decoder()
        for chunk in chunks:
            right = [text for text in map(reader.take, chunk) if text]
            self.assertEqual(texts(list(host.hear_each(chunk))), right)
            for byte in chunk:
                plain.hear(byte)
            self.assertEqual(host.picture and list(host.picture.codes), plain.picture)
            self.assertEqual(host.clock and some.clock_body(host.clock), plain.clock)
            self.assertEqual(host.unread, len(plain.decoder.unfinished))

    @given(some.chunks(some.HOSTS_BYTES))
    def test_reader_of_commands(self, chunks: list[bytes]) -> None:
        word, by_list, one_by_one = b"", dgt.CommandDecoder(), dgt.CommandDecoder()
        for chunk in chunks:
            right = []
            for byte in chunk:
                word += bytes([byte])
                if kind := model.word_kind(word):
                    right.append(model.word_text(word, kind))
                    word = b""
            self.assertEqual(word_texts(by_list.feed(chunk)), right)
            self.assertEqual(word_texts(list(one_by_one.feed_each(chunk))), right)
            self.assertEqual(by_list.unread, len(word))
        self.assertEqual(one_by_one.finish(), len(word))
        self.assertEqual(one_by_one.unread, 0)

    @given(some.chunks(some.HOSTS_BYTES), some.POSITIONS)
    def test_board(self, chunks: list[bytes], position: dgt.Position) -> None:
        board = dgt.Board(position)
        answers = b"".join(message for chunk in chunks for message in board.answers(chunk))
        self.assertEqual(answers, model.serve(b"".join(chunks), list(position.codes)))
        reader = dgt.CommandDecoder()
        reader.feed(b"".join(chunks))
        self.assertEqual((board.unread, board.owed_len), (reader.unread, 0))


class Messages(unittest.TestCase):
    """What a board was made with is what a decoder reads of it, and each message has the bytes of
    docs/PROTOCOL.md."""

    def check(self, message: bytes, right_bytes: bytes, right: dgt.Event) -> None:
        self.assertEqual(message, right_bytes)
        self.assertEqual(dgt.Decoder().feed(message), [right])
        self.assertEqual(dgt.view_message(message[0] - 128, message[3:]), right)
        self.assertEqual(dgt.encode_message(cast(dgt.Message, right)), message)

    @given(some.POSITIONS, some.CLOCKS)
    def test_dump_and_clock(self, position: dgt.Position, clock: dgt.Clock) -> None:
        dump, shown = dgt.Board(position, clock).answers(b"\x42\x41")
        self.check(dump, some.spell(model.DUMP, position.codes), dgt.Dump(position))
        self.check(shown, some.spell(model.CLOCK, some.clock_body(clock)), clock)

    @given(some.POSITIONS, some.SQUARES, some.PIECES)
    def test_field(self, position: dgt.Position, square: str, piece: str) -> None:
        board = dgt.Board(position)
        board.change(square, piece)
        fields = list(board.answers(b"\x44"))
        self.assertEqual(len(fields), position[square] != piece)
        for field in fields:
            body = bytes([dgt.SQUARES.index(square), dgt.LETTERS.index(piece)])
            self.check(field, some.spell(model.FIELD, body), dgt.Field(square, piece))

    @given(some.IDENTITIES)
    def test_identity(self, own: dgt.Identity) -> None:
        answers = list(dgt.Board(identity=own).answers(b"\x45\x47\x4c\x4d\x55"))
        rights: list[tuple[int, bytes, dgt.Event]] = [
            (model.SERIAL, own.serial, dgt.Serial(own.serial)),
            (model.TRADEMARK, own.trademark, dgt.Trademark(own.trademark)),
            (model.BATTERY, own.battery, dgt.Battery(own.battery)),
            (model.VERSION, bytes([own.main, own.sub]), dgt.Version(own.main, own.sub)),
            (model.LONG_SERIAL, own.long_serial, dgt.LongSerial(own.long_serial))]
        for message, (code, body, right) in zip(answers, rights, strict=True):
            self.check(message, some.spell(code, body), right)

    @given(some.CLOCK_IDS, some.PAYLOADS, st.integers(0, 255))
    def test_acknowledgement(self, number: int, payload: bytes, version: int) -> None:
        board = dgt.Board(identity=dgt.Identity(clock_version=version))
        (message,) = board.answers(dgt.Host().send_clock(number, payload))
        ack = bytes([0x10, number, version if number == dgt.ClockId.VERSION else 0, 0])
        right = some.spell(model.CLOCK, model.acknowledgement(*ack))
        self.check(message, right, dgt.Ack(ack, 0))

    @given(st.binary(min_size=4, max_size=4))
    def test_any_acknowledgement(self, ack: bytes) -> None:
        message = some.spell(model.CLOCK, model.acknowledgement(*ack))
        self.check(message, message, dgt.Ack(ack, 0))

    @given(some.UNSIZED, some.seven_bit(0, 12), st.integers(0, 1365))
    def test_any_body(self, code: int, part: bytes, count: int) -> None:
        message = some.spell(code, part * count)
        (event,) = dgt.Decoder().feed(message)
        kinds = {0x12: dgt.Trademark, 0x20: dgt.Battery, 0x22: dgt.LongSerial}
        right = kinds[code](part * count) if code in kinds else dgt.Other(code, part * count)
        self.assertEqual(event, right)

    @given(some.SEVEN_BIT, st.one_of(some.seven_bit(0, 9), some.seven_bit(64, 64)))
    def test_viewed(self, code: int, body: bytes) -> None:
        (read,) = dgt.Decoder().feed(some.spell(code, body))
        self.assertEqual(dgt.view_message(code, body), read)

    @given(some.BYTES, st.binary(max_size=3))
    def test_no_message(self, code: int, body: bytes) -> None:
        if code > 127 or max(body, default=0) > 127:
            with self.assertRaises(dgt.BadValue):
                dgt.view_message(code, body)
        if code > 127 or max(body, default=0) > 127 or code in (*model.SIZES, 0x12, 0x20, 0x22):
            with self.assertRaises(dgt.BadValue):
                dgt.encode_message(dgt.Other(code, body))


class Commands(unittest.TestCase):
    """What a host sends is what a reader of commands reads, and `dgt ask` has the same bytes for
    its text."""

    def check(self, sent: bytes, right: dgt.Word) -> None:
        reader = dgt.CommandDecoder()
        self.assertEqual((reader.feed(sent), reader.unread), ([right], 0))
        self.assertEqual(dgt.view_command(sent), right)
        self.assertIsNone(dgt.view_command(sent + b"\x42"))
        self.assertEqual(dgt.encode_command(cast(dgt.Command, right)), sent)
        self.assertEqual(model.ask(word_texts([right])), sent)

    @given(some.ASKS)
    def test_one_byte(self, ask: dgt.Ask) -> None:
        self.check(dgt.Host().send(ask), dgt.Asked(ask))

    @given(some.CLOCK_IDS, some.PAYLOADS)
    def test_clock_message(self, number: int, payload: bytes) -> None:
        self.check(dgt.Host().send_clock(number, payload), dgt.ClockMessage(number, payload))

    @given(some.LEDS)
    def test_leds(self, leds: bytes) -> None:
        self.check(dgt.Host().send_leds(leds), dgt.Leds(leds))

    @given(st.text("0123456789 -", max_size=6), st.text(st.characters(max_codepoint=127),
                                                        max_size=8))
    def test_shown(self, digits: str, letters: str) -> None:
        host = dgt.Host()
        self.assertEqual(host.send_display(digits), model.ask([f"display {digits}"]))
        self.assertEqual(host.send_text(letters), model.ask(["text", letters]))

    @given(some.SIDES, some.SIDES, some.BYTES)
    def test_set_and_run(self, left: Side, right: Side, number: int) -> None:
        sent = dgt.Host().send_set_and_run(dgt.Time(*left), dgt.Time(*right), number)
        payload = bytes([*left, *right, number])
        self.assertEqual(sent, model.ask([f"setandrun {payload.hex()}"]))

    @given(some.BYTES, st.binary(max_size=252))
    def test_other_messages(self, number: int, icons: bytes) -> None:
        host = dgt.Host()
        self.assertEqual(host.send_beep(number), model.ask([f"beep {number}"]))
        self.assertEqual(host.send_icons(icons), model.ask(["icons", icons.hex() or "-"]))
        sent = host.send_end() + host.send_button() + host.send_clock_version()
        self.assertEqual(sent, model.ask(["end", "button", "clockversion"]))


class Placements(unittest.TestCase):
    """Placements are written and read as tests/testing/model.py does it."""

    @given(some.POSITIONS, some.POSITIONS)
    def test_differ(self, one: dgt.Position, other: dgt.Position) -> None:
        pairs = zip(one.codes, other.codes)
        right = sum(1 << at for at, (own, others) in enumerate(pairs) if own != others)
        self.assertEqual(one.differ(other), right)

    @given(some.POSITIONS)
    def test_round_trip(self, position: dgt.Position) -> None:
        text = position.placement
        self.assertEqual(text, model.placement(position.codes))
        self.assertEqual(dgt.Position.parse(text), position)

    @given(st.text("12345678/8/PkXq09", max_size=20), some.POSITIONS, st.integers(0, 71))
    def test_any_text(self, text: str, position: dgt.Position, at: int) -> None:
        whole = position.placement
        for each in (text, whole[:at] + text + whole[at + len(text):], whole[:at]):
            codes, fault = model.read_placement(each)
            try:
                self.assertEqual(list(dgt.Position.parse(each).codes), codes)
            except dgt.BadPlacement as refused:
                self.assertEqual(refused.at, fault)
