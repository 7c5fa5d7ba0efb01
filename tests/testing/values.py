"""Checks the values of the package for Python. A position is a sequence of letters. A time, a
clock and an identity refuse values out of their ranges. Calls refuse wrong arguments with the
errors that their docstrings name, and objects refuse to be copied. The events that a board stored,
and the bytes that messages carry, have names. The texts of events are those of `dgt monitor` in
tests/testing/rows.txt."""

import collections.abc
import copy
import dataclasses
import math
import operator
import pickle
import typing

import cases
import dgt
import told
import worked
from dgt.recogniser import Recogniser
from wrong import Wrong, wanted

START = "rnbqkbnr/pppppppp/8/8/8/8/PPPPPPPP/RNBQKBNR"
LETTERS = "rnbqkbnr" + "pppppppp" + 32 * "." + "PPPPPPPP" + "RNBQKBNR"


def refusal(what, error, call):
    """The text with which a call is refused."""
    try:
        made = call()
    except error as fault:
        return str(fault)
    raise Wrong(f"{what}: {made!r} instead of a {error.__name__}")


class Values(cases.Case):
    def test_position(self):
        position, letters = dgt.Position.parse(START), list(LETTERS)
        for what, got, right in [
            ("kind", isinstance(position, collections.abc.Sequence), True),
            ("letters", (list(position), [*reversed(position)]), (letters, letters[::-1])),
            ("length", len(position), 64),
            ("by number", [position[at] for at in range(-64, 64)], letters + letters),
            ("by name", [position[name] for name in dgt.SQUARES], letters),
            ("parts", (position[8:16], position[60:], position[::-63]), ("pppppppp", "KBNR", "Rr")),
            ("what it has", ["P" in position, "X" in position, "PP" in position, 1 in position],
             [True, False, False, False]),
            ("what it has of one", (position.count("P"), position.index("K")), (8, 60)),
            ("a list", position == letters, False),
            ("copies", [copy.deepcopy(position), pickle.loads(pickle.dumps(position))],
             2 * [position]),
            ("a set", len({position, dgt.Position.start()}), 1),
        ]:
            wanted(f"position, {what}", got, right)
        for wrong in (64, -65, 2**70):
            refusal(f"square {wrong}", IndexError, lambda: position[wrong])
        for wrong in ("e9", "P", "", None, 1.5, b"e4"):
            refusal(f"square {wrong!r}", dgt.BadValue, lambda: position[wrong])
        refusal("a square that is set", TypeError, lambda: operator.setitem(position, 0, "P"))
        refusal("codes that are set", dataclasses.FrozenInstanceError,
                lambda: setattr(position, "codes", bytes(64)))

    def test_fields(self):
        for name, field, taken, refused, said in FIELDS:
            kind = getattr(dgt, name)
            for value in taken:
                wanted(f"{name}, {field}", getattr(kind(**{field: value}), field), value)
            for value in refused:
                what = f"{name} with {field} {value!r}"
                text = refusal(what, dgt.BadValue, lambda: kind(**{field: value}))
                is_named = text.startswith(f"{field} must be ") and said in text
                wanted(f"{what}: {text}", (is_named, text.endswith(f": {value!r}")), (True, True))

    def test_calls(self):
        """Each argument is one of another type, or out of range. """
        for call, *right in calls():
            for at in range(len(right)):
                for wrong in WRONG:
                    try:
                        call(*right[:at], wrong, *right[at + 1:])
                    except (dgt.DgtError, TypeError, OSError):
                        continue
                    except Exception as fault:
                        what = f"{call} with {wrong!r:.40} as its argument {at}"
                        raise Wrong(f"{what}: {fault!r}") from fault

    def test_refusals(self):
        for call, error, said in [
            (lambda: dgt.Follower(patience=1.5), dgt.BadValue,
             "patience must be a number from 0 to 4294967295: 1.5"),
            (lambda: dgt.Follower(mode=7), dgt.BadValue, "mode must be a number from 0 to 3: 7"),
            (lambda: dgt.Follower(mode=0), dgt.BadValue,
             "a follower needs a mode in which the board reports changes, not IDLE"),
            (lambda: dgt.Follower("text"), dgt.BadValue,
             "period must be a number of seconds, 1.0 or more: 'text'"),
            (lambda: dgt.Follower(0.999), dgt.BadValue,
             "period must be a number of seconds, 1.0 or more: 0.999"),
            (lambda: dgt.Follower(confirm=1), TypeError, "not a bool: 1"),
            (lambda: dgt.Follower().ask(2.0**64), dgt.BadValue,
             "a time must be below 2**64 milliseconds: 1.8446744073709552e+19"),
            (lambda: dgt.follow(5), TypeError,
             "port must be a port's name, or an open port of pyserial: 5"),
            (lambda: dgt.follow("/", None), dgt.BadValue,
             "period must be a number of seconds, 1.0 or more: None"),
            (lambda: dgt.Follower(10.0, 6), TypeError,
             "Follower.__init__() takes from 1 to 2 positional arguments but 3 were given"),
            (lambda: dgt.Games(len, len, fen=5), dgt.BadFen, "not a text: 5"),
            (lambda: dgt.GameState.parse(f"{KINGS} w - - 0 {LONG}"), dgt.BadFen,
             f"not two numbers at the end: '{KINGS} w - - 0 {LONG}'"),
            (lambda: dgt.Games(len, len).tick(-1), dgt.BadValue,
             "a time must be a number of seconds, 0.0 or more: -1"),
            (lambda: dgt.Games(len, len, white_clock="top"), dgt.BadValue,
             "white_clock must be left, right or learn: 'top'"),
            (lambda: dgt.PgnGame(result=1).text(), dgt.BadValue,
             "result must be one of 1-0, 0-1, 1/2-1/2, *: 1"),
            (lambda: dgt.PgnFile("\0"), OSError,
             "[Errno 2] the name contains a zero byte: '\\x00'"),
            (lambda: dgt.PgnGame({"Round": 3}).text(), dgt.BadValue,
             "the tag Round must be a text: 3"),
        ]:
            wanted("what is said", refusal(said, error, call), said)

    def test_copies(self):
        for kind in (dgt.World, dgt.Host, dgt.Follower, dgt.Decoder, dgt.CommandDecoder, dgt.Board,
                     dgt.Following, dgt.Games, dgt.PgnFile):
            for how in (copy.copy, copy.deepcopy, pickle.dumps):
                said = f"a {kind.__name__} can't be copied"
                wanted(f"{how}", refusal(said, TypeError, lambda: how(kind.__new__(kind))), said)

    def test_names(self):
        time, mark, button = dgt.Time, dgt.Mark, dgt.Button
        body = bytes.fromhex("6f 40 34 51 24 61 30 05 71 29 00 00 41 7c 6b 7d 80 41")
        wanted("what is stored", dgt.read_stored(body), [
            mark.BEGIN, dgt.StoredPiece("e2", "."), dgt.StoredPiece("e4", "P", True),
            dgt.StoredTime(time(1, 30, 5, 6)), dgt.StoredTime(time(1, 29, 0, 7)), mark.NOTHING,
            dgt.UnknownByte(0x41), mark.WATCHDOG, mark.END, dgt.UnknownByte(0x7D),
            dgt.UnknownByte(0x80), dgt.UnknownByte(0x41)])
        wanted("nothing", dgt.read_stored(b""), [])
        for ack, signal in [
            ("10 88 02 33", dgt.Pressed(button.RUN)), ("10 08 44 31", dgt.Pressed(button.BACK)),
            ("10 88 45 35", dgt.Off()), ("10 88 41 35", dgt.Pressed(button.OK)),
            ("10 08 00 00", dgt.Done(dgt.ClockId.BUTTON)),
            ("10 0c 01 02", dgt.Done(dgt.ClockId.TEXT)),
            ("10 09 21 00", dgt.ClockVersion(2, 1)), ("10 81 00 00", dgt.Ready()),
            ("11 09 21 00", None), ("10 88 02 36", None), ("10 04 00 00", None), ("10 09 21", None),
        ]:
            wanted(f"signal {ack}", dgt.Ack(bytes.fromhex(ack), 0).signal, signal)
        for body, state in [
            ("40 7f 3b 01 02 03 04 05 02",
             dgt.BatteryState(64, None, 59, 1, 2, 3, 4, 5, charging=False, discharging=True)),
            ("7f 00 7f 00 00 00 00 00 7d",
             dgt.BatteryState(None, 0, None, 0, 0, 0, 0, 0, charging=True, discharging=False)),
            ("40", None), ("", None),
        ]:
            wanted(f"battery {body}", dgt.Battery(bytes.fromhex(body)).state, state)
        for carried, text in [(b"00001", "00001"), (b" ~", " ~"), (b"", None), (b"a\x7f", None),
                              (b"\x1f", None)]:
            wanted(f"text {carried}", (dgt.Serial(carried).text, dgt.Trademark(carried).text,
                                       dgt.LongSerial(carried).text), 3 * (text,))
        flags = [(one.blocked, one.per_move, one.fallen)
                 for one in (time(flags=n) for n in range(8))]
        wanted("flags", flags, [(n % 2 == 1, n // 2 % 2 == 1, n > 3) for n in range(8)])


# ---- Values that are checked when they are made

NUMBERS = ("1", 1.0, None, b"1", -1)  # none of them is a number that a field may be
BODIES = ("text", None, 5, [1], b"\x80", bytes(65))
# The class, its field, values that it may be, values that it may not be, and what is said of these.
FIELDS = [
    ("Time", "hours", (0, 9), (10, *NUMBERS), "a number from 0 to 9"),
    ("Time", "minutes", (0, 59), (60, *NUMBERS), "a number from 0 to 59"),
    ("Time", "seconds", (0, 59), (60, *NUMBERS), "a number from 0 to 59"),
    ("Time", "flags", (0, 7), (8, *NUMBERS), "a number from 0 to 7"),
    ("Times", "first", (), (None, 5, (0, 5, 0)), "a Time"),
    ("Times", "second", (), (None, 5, "0:05:00"), "a Time"),
    ("Times", "status", (0, 0x1F, 0x40, 0x5F), (128, *NUMBERS), "a number from 0 to 127"),
    ("Times", "status", (), (0x20, 0x7F), "without the bit 20 (no clock is connected)"),
    ("NoClock", "raw", (bytes(6), b"\x7f" * 6, b"\x0b\x0a\x0a\x0b\x0a\x0a"),
     ("123456", None, 6, bytes(5), bytes(7), b"\x80" + bytes(5)), "six bytes from 0 to 127"),
    ("NoClock", "raw", (), (b"\x0a" + bytes(5), b"\0\0\0\x7a\0\0"),
     "without a low half of a in the first or fourth"),
    ("NoClock", "status", (0x20, 0x7F), (160, *NUMBERS), "a number from 0 to 127"),
    ("NoClock", "status", (), (0, 0x5F), "with the bit 20 (no clock is connected)"),
    ("Identity", "serial", (bytes(5), b"\x7f" * 5), ("00001", None, bytes(4), bytes(6),
     b"0000\x80"), "5 bytes from 0 to 127"),
    ("Identity", "main", (0, 127), (128, *NUMBERS), "a number from 0 to 127"),
    ("Identity", "sub", (0, 127), (128, *NUMBERS), "a number from 0 to 127"),
    ("Identity", "clock_version", (0, 255), (256, *NUMBERS), "a number from 0 to 255"),
    *(("Identity", body, (b"", bytes(64), b"\x7f"), BODIES, "at most 64 bytes from 0 to 127")
      for body in ("trademark", "battery", "long_serial")),
]


# ---- Calls with wrong arguments, and copies

KINGS, LONG = "k7/8/8/8/8/8/8/K7", 5000 * "9"
WRONG = (None, 5, -1, 1.5, math.nan, math.inf, 2**70, "text", "\0", LONG, b"text", [1], {})


def calls():
    """Calls, each with right arguments."""
    position, state, times = dgt.Position.start(), dgt.GameState.start(), dgt.Times()
    world, board, host, follower = dgt.World(), dgt.Board(), dgt.Host(), dgt.Follower()
    games, seer = dgt.Games(len, len), Recogniser()
    encoded = [(dgt.encode_message, dgt.Dump, position), (dgt.encode_message, dgt.Field, "e2", "."),
               (dgt.encode_message, dgt.Ack, bytes(4), 0), (dgt.encode_message, dgt.Version, 1, 3),
               (dgt.encode_message, dgt.Serial, bytes(5)), (dgt.encode_message, dgt.Battery, b""),
               (dgt.encode_message, dgt.Other, 0x30, b""), (dgt.encode_command, dgt.Asked, 0x42),
               (dgt.encode_command, dgt.ClockMessage, 3, b""), (dgt.encode_command, dgt.Leds, b"")]
    return [
        *((lambda *of, how=how, kind=kind: how(kind(*of)), *of) for how, kind, *of in encoded),
        (lambda *of: dgt.Follower(of[0], patience=of[1], mode=of[2]), 10.0, 6, dgt.Mode.UPDATE),
        (follower.ask, 0.0), (follower.hear, 0.0, b""), (follower.hear_each, 0.0, b""),
        (host.hear, b""), (host.hear_each, b""), (host.send, 0x42),
        (host.send_clock, 3, b""), (host.send_leds, b""), (host.send_display, "1", 0, 0),
        (host.send_text, "1", 0), (host.send_beep, 1),
        (host.send_set_and_run, dgt.Time(), dgt.Time(), 0),
        (host.send_icons, b""), (dgt.Decoder().feed_placed, b""), (dgt.CommandDecoder().feed, b""),
        (dgt.Board, position, times, dgt.Identity()), (board.change, "e2", "."),
        (board.hand_clock, times), (board.take, b""), (board.answers, b""),
        (dgt.World, position, times, dgt.Identity()), (world.change, "e2", "."),
        (world.hand_clock, times), (world.host_sends, dgt.Ask.DUMP), (world.to_board, 1),
        (world.to_host, 1), (world.garble_up, b""), (world.garble_down, b""),
        (dgt.encode_message, times), (dgt.encode_command, dgt.Leds(b"")),
        (dgt.view_message, 1, b""), (dgt.view_command, b""), (dgt.read_stored, b""),
        (lambda ack: dgt.Ack(ack, 0).signal, bytes(4)), (lambda body: dgt.Battery(body).state, b""),
        (lambda serial: dgt.Serial(serial).text, b""),
        (dgt.Position, position.codes), (dgt.Position.parse, START), (position.changes, position),
        (dgt.Position.of_letters, LETTERS), (position.differ, position),
        (dgt.square_number, "e2"), (dgt.piece_code, "P"), (dgt.segment, "1"),
        (dgt.chess.State, position, dgt.chess.Colour.WHITE, "", None, 0, 1),
        (dgt.chess.State.parse, dgt.START_FEN), (state.chess.is_legal, "e2e4"),
        (state.chess.play, "e2e4"), (state.chess.move_to, position), (state.chess.san, "e2e4"),
        (state.chess.parse_san, "e4", True), (state.chess.is_repeated, state.chess),
        (state.chess.repetitions, [state.chess]), (dgt.GameState.parse, dgt.START_FEN),
        (dgt.GameState.place, LETTERS, True), (state.after, "e2e4"), (dgt.san, state, "e2e4"),
        (dgt.PgnGame().add, "e2e4", None),
        (dgt.Games, len, len, None, {}, "left", dgt.START_FEN, ""),
        (seer.see, 0, position), (seer.due, 0), (seer.go_on, state.chess, False),
        (games.see, dgt.BoardView(position), 0.0), (games.set_tags, {}, True), (games.tick, 0.0),
        (dgt.follow, "/", 10.0),
        (lambda tags: dgt.PgnGame(tags).text(), {"White": "Ann"}),
        (lambda name: dgt.PgnGame({name: ""}).text(), "White"),
        (lambda value: dgt.PgnGame({"White": value}).text(), "Ann"),
        (lambda result: dgt.PgnGame(result=result).text(), "*"),
    ]


TABLES, _ = worked.read_tables()


def rows(*names):
    """The bytes of the rows of these tables, the texts of their events or words, and how many bytes
    are unfinished at the end."""
    for digits, lines in (row.cells for name in names for row in TABLES[name]):
        texts = [line.partition(" ")[2] for line in
                 worked.encode_lines(lines).decode().splitlines()]
        *_, (first, _, rest) = [("", "", "")] + [text.partition(" ") for text in texts]
        is_cut = first == "unfinished"
        yield bytes.fromhex(digits), texts[:-1] if is_cut else texts, int(rest) if is_cut else 0


class Texts(cases.Case):
    """The worked rows, in one chunk and byte by byte."""

    def test_events(self):
        kinds = set()
        for data, *right in rows("shown", "dumps", "Lines of show and monitor"):
            decoder, host = dgt.Decoder(), dgt.Host()
            events = decoder.feed(data)
            heard = [event for byte in data for event in host.hear(bytes([byte]))]
            for read, unread in (events, decoder.unread), (heard, host.unread):
                wanted(f"the texts of {data.hex(' ')}", [[*map(str, read)], unread], right)
            kinds |= {type(event) for event in events}
        wanted("events without a text", set(typing.get_args(dgt.Event)) - kinds, set())

    def test_words(self):
        commands = [(bytes.fromhex(row.cells[1]), [row.cells[0]], 0) for row in TABLES["commands"]]
        for data, *right in [*commands, *rows("a host's bytes", "Lines of commands")]:
            reader, board, taken = dgt.CommandDecoder(), dgt.Board(), []
            words = reader.feed(data)
            for byte in data:
                taken.append(board.take(bytes([byte]))[1])
                list(board.messages())
            for read, unread in (words, reader.unread), (filter(None, taken), board.unread):
                texts = [told.word_text(word, dgt) for word in read]
                wanted(f"the texts of {data.hex(' ')}", [texts, unread], right)
