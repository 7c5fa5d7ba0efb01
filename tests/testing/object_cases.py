"""The objects of the package for Python: what they know, and what a program may do wrong."""

import copy
import pickle
import sys
import threading
import time

import cases
import dgt
import model
from model import START
from wrong import wanted

FIELD = bytes([0x8E, 0, 5, 36, 1])


class Known(cases.Case):
    def test_host(self):
        """A host reports what it awaits, and what was asked for out of turn."""
        host, start = dgt.Host(), dgt.Position.start()
        dump, version = model.spell(model.DUMP, start.codes), model.spell(model.VERSION, [9, 8])
        times, no_clock = [0x71, 0x02, 0x03, 0x04, 0x05, 0x06, 0x09], [1, 2, 3, 4, 5, 6, 0x20]
        shown = dgt.Times(dgt.Time(1, 2, 3, 7), dgt.Time(4, 5, 6), 0x09)
        absent = dgt.NoClock(bytes(no_clock[:6]), 0x20)
        for what, got, right in [
            ("version", host.send(dgt.Ask.VERSION), b"\x4d"),
            ("follow", host.follow(), b"\x44\x42"),
            ("two awaited", host.awaited, [dgt.Ask.VERSION, dgt.Ask.DUMP]),
            ("out of turn", host.hear(dump), [dgt.Dump(start, True)]),
            ("in turn", host.hear(version), [dgt.Version(9, 8, False)]),
            ("one awaited", host.awaited, [dgt.Ask.DUMP]),
            ("dump", host.hear(dump), [dgt.Dump(start, False)]),
            ("not awaited", host.hear(version), [dgt.Version(9, 8, True)]),
            ("no clock heard", host.clock, None),
            ("times", host.hear(model.spell(model.CLOCK, times)), [shown]),
            ("clock", host.clock, shown),
            ("status", (shown.running, shown.lever, shown.black_turn), (True, False, True)),
            ("no clock", host.hear(model.spell(model.CLOCK, no_clock)), [absent]),
            ("absent", host.clock, absent),
            ("a part", (host.hear(version[:3]), host.unread), ([], 3)),
            ("picture", (host.picture, host.placement), (start, START)),
            ("given up", (host.send(dgt.Ask.VERSION), host.give_up_awaited(), host.awaited,
                          host.unread), (b"\x4d", 1, [], 3)),
            ("line lost", (host.send(dgt.Ask.BATTERY), host.line_lost()), (b"\x4c", None)),
            ("as new", (host.unread, host.awaited, host.clock, host.picture, host.placement),
             (0, [], None, None, None)),
        ]:
            wanted(f"host, {what}", got, right)

    def test_board(self):
        """A board has the identity, the squares and the clock that it was made with, and reports
        what changes."""
        identity = dgt.Identity(b"12345", b"MINE", 9, 8, b"\x50", 0x21, b"987")
        shown = dgt.Times(dgt.Time(1, 2, 3), dgt.Time(4, 5, 6, 7), 0x09)
        absent = dgt.NoClock(b"123456", 0x20)
        board = dgt.Board(dgt.Position.parse("8/8/8/8/8/8/8/K6k"), shown, identity)
        spell, version = model.spell, bytes([0x2B, 3, 3, model.CLOCK_VERSION_ID, 0])
        for what, got, right in [
            ("identity", list(board.answers(b"\x45\x47\x4c\x4d\x55")), [
                spell(model.SERIAL, b"12345"), spell(model.TRADEMARK, b"MINE"),
                spell(model.BATTERY, b"\x50"), spell(model.VERSION, [9, 8]),
                spell(model.LONG_SERIAL, b"987")]),
            ("clock's version", list(board.answers(version)), [
                spell(model.CLOCK, model.acknowledgement(0x10, model.CLOCK_VERSION_ID, 0x21, 0))]),
            ("times", list(board.answers(b"\x41")),
             [spell(model.CLOCK, [1, 2, 3, 0x74, 5, 6, 0x09])]),
            ("as made", (board.clock, board.mode, board.owes), (shown, dgt.Mode.IDLE, False)),
            ("mode", (list(board.answers(b"\x44")), board.mode), ([], dgt.Mode.UPDATE_BOARD)),
            ("changes", (board.change("a1", "."), board.change("a2", "K")), (None, None)),
            ("owes", (board.owes, board.owed_len), (True, 0)),
            ("told", list(board.messages()), [
                spell(model.FIELD, [48, 5]), spell(model.FIELD, [56, 0])]),
            ("all told", (board.owes, board.poll()), (False, None)),
            ("hand clock", (board.hand_clock(absent), board.clock), (None, absent)),
            ("line lost", (board.line_lost(), board.mode, board.owes),
             (None, dgt.Mode.IDLE, False)),
            ("kept", (str(board.position), board.clock), ("8/8/8/8/8/8/K7/7k", absent)),
        ]:
            wanted(f"board, {what}", got, right)

    def test_pending(self):
        """`answers` sends what is pending before it takes a command."""
        lifted, board = model.spell(model.FIELD, [52, 0]), dgt.Board()
        wanted("pending, mode", list(board.answers(b"\x44")), [])
        for asked, codes in (b"", []), (b"\x40", []), (b"\x44\x4d\x42", [0x93, 0x86]):
            board.change("e2", "." if board.position["e2"] == "P" else "P")
            first, *others = board.answers(asked)
            wanted(f"pending before {asked.hex()}", (first[:4], [each[0] for each in others]),
                   (lifted[:4], codes))
            board.take(b"\x44")  # the command 40 ends the reports
        for part in (b"\x42", b"\x2b\x04"):
            board.take(part)
        wanted("owed and partial", (board.owed_len, board.unread), (1, 2))

    def test_busy(self):
        """`answers` takes all bytes, however much a board owes, and has them when it is called."""
        board, piece = dgt.Board(), bytearray(b"\x4d" * 500)
        for _ in range(8):
            board.take(b"\x42")
        answers = board.answers(piece)
        piece[:] = bytes(500)
        wanted("busy at the start", [len(message) for message in answers], 8 * [67] + 500 * [5])
        answers = board.answers(b"\x4d\x4d\x4d")
        first = next(answers)
        for _ in range(8):
            board.take(b"\x42")
        sizes = [len(message) for message in (first, *answers)]
        wanted("busy half way", sizes, [5] + 8 * [67] + 2 * [5])


class Misused(cases.Case):
    def test_follower(self):
        """A follower of Python: what it asks when, in seconds, and what it refuses."""
        follower = dgt.Follower(period=10, patience=1, mode=dgt.Mode.UPDATE)
        start = dgt.Position.start()
        dump, anew = model.spell(model.DUMP, start.codes), bytes(255) + b"\x44\x42\x43\x41"
        for what, got, right in [
            ("as new",
             (follower.due_at, follower.mode, follower.heartbeats_left, follower.last_heard,
                        follower.in_doubt, follower.picture),
             (0, dgt.Mode.UPDATE, 1, None, False, None)),
            ("the first asking", (follower.ask(0.25), follower.due_at), (anew, 1.25)),
            ("a dump", (follower.hear(1.0, dump), follower.last_heard, follower.picture),
             (None, 1.0, start)),
            ("not due", follower.ask(10.249), b""),
            ("a heartbeat", (follower.ask(10.25), follower.heartbeats_left), (b"\x43\x42\x41", 0)),
            ("each event", list(follower.hear_each(11.0, dump + b"\x8e")), [dgt.Dump(start)]),
            ("a disturbance", (list(follower.hear_each(11.5, b"\x8e")), follower.in_doubt,
                               follower.due_at), ([dgt.Cut(1)], True, 10.75)),
            ("anew", (follower.ask(12.75), follower.placement), (anew, START)),
            ("another mode", (setattr(follower, "mode", dgt.Mode.UPDATE_NICE), follower.mode),
             (None, dgt.Mode.UPDATE_NICE)),
            ("a command", (follower.send(dgt.Ask.VERSION), follower.send_leds(b"\x01"),
                           follower.send_clock(dgt.ClockId.END)),
             (b"\x4d", b"\x60\x01\x01\x4b", b"\x2b\x03\x03\x03\x00\x4b")),
            ("no clock heard", follower.clock, None),
            ("line lost", (follower.line_lost(), follower.picture, follower.due_at, follower.mode),
             (None, None, 0, dgt.Mode.UPDATE_NICE)),
            ("never again", (dgt.Follower(1.8e16).ask(1e15) != b"", dgt.Follower(1).due_at),
             (True, 0)),
        ]:
            wanted(f"follower, {what}", got, right)
        for wrong in (-1, -0.001, float("nan"), float("inf"), 2**64 / 1000):
            self.assertRaises(dgt.BadValue, lambda: follower.ask(wrong))
            self.assertRaises(dgt.BadValue, lambda: follower.hear(wrong, b""))
            self.assertRaises(dgt.BadValue, lambda: follower.hear_each(wrong, b""))
            self.assertRaises(dgt.BadValue, lambda: dgt.Follower(wrong))
        self.assertRaises(dgt.BadValue, lambda: dgt.Follower(patience=-1))
        self.assertRaises(dgt.BadValue, lambda: dgt.Follower(patience=2**32))
        self.assertRaises(dgt.BadValue, lambda: setattr(follower, "mode", dgt.Mode.IDLE))
        self.assertRaises(TypeError, lambda: follower.hear(0, "text"))
        follower.close()
        self.assertRaises(dgt.Closed, lambda: follower.ask(0))
        self.assertRaises(dgt.Closed, lambda: follower.hear_each(0, b""))

    def test_misuse(self):
        host, board, decoder = dgt.Host(), dgt.Board(), dgt.Decoder()
        for wrong in ("text", 5, None, [1, 2], 1.5):
            self.assertRaises(TypeError, lambda: host.hear(wrong))
            self.assertRaises(TypeError, lambda: decoder.feed_each(wrong))
            self.assertRaises(TypeError, lambda: board.take(wrong))
            self.assertRaises(dgt.BadValue, lambda: board.change(wrong, "P"))
            self.assertRaises((dgt.BadValue, TypeError), lambda: board.hand_clock(wrong))
            self.assertRaises(TypeError, lambda: dgt.Board(position=wrong or "x"))
        self.assertRaises(dgt.BadValue, lambda: host.send(256))
        self.assertRaises(dgt.NoSuchCommand, lambda: host.send(0x46))
        self.assertRaises(dgt.NoSuchCommand, lambda: host.send_leds(bytes(256)))
        self.assertRaises(dgt.BadValue, lambda: dgt.Leds.lighting("e2"))
        self.assertRaises(dgt.BadValue, lambda: dgt.Leds.lighting("e2", "e9"))
        wanted("lights", dgt.Leds.lighting("a8", "h1").leds.hex(), "01003f00")
        wanted("no lights", dgt.Leds.lighting().leds.hex(), "00404000")
        self.assertRaises(dgt.BadValue, lambda: board.hand_clock(dgt.Times(dgt.Time(10))))
        for _ in range(16):
            host.send(dgt.Ask.VERSION)
        self.assertRaises(dgt.TooManyAwaited, host.follow)
        for _ in range(8):
            board.take(b"\x42")
        self.assertRaises(dgt.Busy, lambda: board.take(b"\x42"))
        for closed in (host, board, decoder):
            closed.close()
            closed.close()
        self.assertRaises(dgt.Closed, lambda: host.hear(b""))
        self.assertRaises(dgt.Closed, lambda: host.picture)
        self.assertRaises(dgt.Closed, board.poll)
        self.assertRaises(dgt.Closed, lambda: decoder.unread)
        self.assertRaises(dgt.BadPlacement, lambda: dgt.Position.parse("8/8"))

    def test_types(self):
        """Types that are wrong are refused, and a class that lies of its bytes is not believed."""
        class Text(str):
            def encode(self, *_):
                return type("Long", (bytes,), {"__len__": lambda self: 1 << 30})()

        class Bytes(bytes):
            def __len__(self):
                return 1 << 30

            def __iter__(self):
                return iter([255] * 99)

        host, board, start = dgt.Host(), dgt.Board(), dgt.Position.start()
        for wrong in ("text", 5.5, None, -1, 256, b"4"):
            self.assertRaises(dgt.BadValue, lambda: host.send(wrong))
            self.assertRaises(dgt.BadValue, lambda: host.send_clock(wrong, b""))
        for wrong in ("text", 5, None, [1, 2], 1.5):
            self.assertRaises(TypeError, lambda: host.send_clock(dgt.ClockId.BEEP, wrong))
            self.assertRaises(TypeError, lambda: host.send_leds(wrong))
            self.assertRaises(TypeError, lambda: board.answers(wrong))
        for wrong in (5, None, b"8/8"):
            self.assertRaises(TypeError, lambda: dgt.Position.parse(wrong))
        self.assertRaises(dgt.BadPlacement, lambda: dgt.Position.parse("\ud800"))
        serial, body = Bytes(b"00001"), Bytes(b"body")
        named = dgt.Board(identity=dgt.Identity(serial, body, 1, 3, body, 0x14, body))
        wanted("bytes of a class", list(named.answers(Bytes(b"\x45\x47"))), [
            model.spell(model.SERIAL, b"00001"), model.spell(model.TRADEMARK, b"body")])
        wanted("text of a class", dgt.Position.parse(Text(START)), start)
        wanted("codes of a class", type(dgt.Position(Bytes(start.codes)).codes), bytes)
        wanted("a piece of a class", host.hear(Bytes(b"\0")), [dgt.Stray(0)])

    def test_long_chunk(self):
        """A chunk of more events than one call of the library reports, some of them with a body:
        the list has what an iterator yields."""
        data = b"".join(FIELD * count + b"\x92\x00\x05ab\x85\x00\x03\x19"
                        for count in (700, 256, 1, 0))
        for kind, feed in ((dgt.Host, "hear"), (dgt.Decoder, "feed")):
            events = getattr(kind(), feed)(data)
            wanted(f"fields of a long chunk, {feed}", events.count(dgt.Field("e4", "P")), 957)
            each = getattr(kind(), f"{feed}_each")(data)
            pairs = zip(events, each, strict=True)
            wanted(f"a long chunk, {feed}", [pair for pair in pairs if pair[0] != pair[1]], [])

    def test_handles(self):
        """No object is made twice; after an iterator that was closed or left it is used on; and
        once it is closed, each call raises `Closed` at once."""
        fault = dgt.BadPlacement(3)
        for again in (copy.copy(fault), pickle.loads(pickle.dumps(fault))):
            wanted("a copy of BadPlacement", (str(again), again.at), (str(fault), 3))
        for kind in (dgt.Host, dgt.Decoder, dgt.CommandDecoder, dgt.Board):
            each = {dgt.Host: "hear_each", dgt.Board: "answers"}.get(kind, "feed_each")
            piece = b"\x4d\x4d\x4d" if kind in (dgt.Board, dgt.CommandDecoder) else FIELD * 3
            with kind() as made:
                self.assertRaises(RuntimeError, made.__init__)
                begun, left = getattr(made, each)(piece), getattr(made, each)(piece)
                right = next(begun)
                begun.close()
                wanted(f"{each} that is left", next(left), right)
                wanted(f"{each} afterwards", list(getattr(made, each)(piece)), [right] * 3)
            self.assertRaises(dgt.Closed, lambda: getattr(made, each)(b""))
            self.assertRaises(dgt.Closed, lambda: next(left))
            with made:
                made.close()
        self.assertRaises(dgt.Closed, made.messages)

    def test_nested(self):
        """A call within a call of the same object raises, and the result of that call stays
        right."""
        # A list of events is read at once, and what an iterator yields one by one. An iterator
        # makes fields without a call.
        events, times = ("read_event", "read_events"), b"\x8d\x00\x0a" + bytes(7)
        for kind, feed, within, piece, calls in [
            (dgt.Host, "hear", events, times * 3, 1 + 3 + 3),
            (dgt.Decoder, "feed", events, times * 3, 1 + 3 + 3),
            (dgt.CommandDecoder, "feed", ("read_word",), b"\x4d\x4d\x4d", 3 + 3),
        ]:
            made, raised = kind(), []
            right = getattr(kind(), feed)(piece)

            def nest(frame, *_):
                if frame.f_code.co_name in within:
                    self.assertRaises(dgt.Nested, lambda: getattr(made, feed)(b"\x7f\x7f"))
                    raised.append(True)

            sys.settrace(nest)
            try:
                got = getattr(made, feed)(piece), list(getattr(made, f"{feed}_each")(piece))
            finally:
                sys.settrace(None)
            wanted(f"{feed} with calls within", (got, len(raised)), ((right, right), calls))

    def test_threads(self):
        """Threads share a host, and one closes it in the end: each piece is heard whole, and
        nothing else is raised."""
        host, heard, faults = dgt.Host(), [], []
        piece = b"".join(bytes([0x8E, 0, 5, square, 1]) for square in range(64))

        def hear():
            try:
                while True:
                    heard.append(len(host.hear(piece)))
                    host.picture, host.awaited, host.clock
            except dgt.Closed:
                return
            except BaseException as fault:
                faults.append(fault)

        threads = [threading.Thread(target=hear, daemon=True) for _ in range(4)]
        for thread in threads:
            thread.start()
        time.sleep(0.5)
        host.close()
        for thread in threads:
            thread.join(30)
        wanted("threads that don't end", [thread for thread in threads if thread.is_alive()], [])
        wanted("threads", (set(heard), faults), ({64}, []))


