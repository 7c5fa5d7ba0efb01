"""Checks the calls of the package for Python that make commands for the clock, on a host, on a
follower, and on a board that is followed. Their bytes are those of docs/PROTOCOL.md and
tests/testing/rows.txt."""

import pathlib

import cases
import dgt
from values import refusal
from wrong import wanted

LINES = pathlib.Path(__file__).resolve().parent / "rows.txt"
# The call without `send_`, its arguments, and the bytes: the tables of clock messages, segments and
# commands by name.
ROWS = [
    ("display", ["123456"], "2b 0b 03 01 4f 5b 06 7d 6d 66 00 00 00"),
    ("display", ["-12345"], "2b 0b 03 01 5b 06 40 6d 66 4f 00 00 00"),
    ("display", ["-12345", 1], "2b 0b 03 01 5b 06 40 6d 66 4f 01 00 00"),
    ("display", ["", 255, 254], "2b 0b 03 01 00 00 00 00 00 00 ff fe 00"),
    ("text", ["ABCDEFGH"], "2b 0c 03 0c 41 42 43 44 45 46 47 48 00 00"),
    ("text", ["hello", 255], "2b 0c 03 0c 68 65 6c 6c 6f 20 20 20 ff 00"),
    ("beep", [3], "2b 04 03 0b 03 00"),
    ("set_and_run", [(9, 8, 7), (6, 5, 4), 255], "2b 0a 03 0a 09 08 07 06 05 04 ff 00"),
    ("icons", [b""], "2b 03 03 02 00"),
    ("icons", [bytearray(b"\x01\xff")], "2b 05 03 02 01 ff 00"),
    ("icons", [memoryview(bytes(252))], "2b ff 03 02" + 252 * " 00" + " 00"),
    ("end", [], "2b 03 03 03 00"),
    ("button", [], "2b 03 03 08 00"),
    ("clock_version", [], "2b 03 03 09 00"),
]
# Those that a row of tests/testing/rows.txt shows whole.
SHOWN = [ROWS[at][2] for at in (1, 2, 4, 6, 11, 12, 13)]
DIGITS = "text must be at most 6 digits, spaces and hyphens: "
ASCII = "text must be at most 8 ASCII characters: "
TIME = "must be a Time with flags 0: "
NO_BYTES = (-1, 256, "3", b"3", 1.5, None)
# The call, arguments that are refused, and what is said of each.
REFUSED = [
    *(("display", [text], DIGITS)
      for text in ("1234567", "12:34", "hello", "\u0661", 12, None, b"12")),
    *(("text", [text], ASCII) for text in ("too long.", "Z\xfcg", 5, None, b"text")),
    *(("beep", [value], "duration must be a number from 0 to 255: ") for value in NO_BYTES),
    *(("display", ["1", value], "dots must be a number from 0 to 255: ") for value in NO_BYTES),
    *(("display", ["1", 0, value], "beep must be a number from 0 to 255: ") for value in NO_BYTES),
    *(("text", ["1", value], "beep must be a number from 0 to 255: ") for value in NO_BYTES),
    *(("set_and_run", [(), (), value], "control must be a number from 0 to 255: ")
      for value in NO_BYTES),
    *(("set_and_run", [value, (), 0], f"left {TIME}") for value in ([1, 0, 0], 5, (0, 0, 0, 1))),
    *(("set_and_run", [(), value, 0], f"right {TIME}") for value in (None, "1", (0, 0, 0, 7))),
    ("icons", [bytes(253)], "payload must be at most 252 bytes: "),
]


class Line:
    """A line like one of pyserial, which keeps what is written."""

    def __init__(self):
        self.is_open, self.timeout, self.in_waiting, self.written = True, None, 0, []

    def read(self, size):
        return b""

    def write(self, chunk):
        self.written.append(chunk)


def with_times(arguments):
    """The arguments, with a Time instead of each tuple."""
    return [dgt.Time(*each) if isinstance(each, tuple) else each for each in arguments]


def made(call, arguments):
    """The bytes of a call of a host, a follower, and a board that is followed."""
    arguments, line = with_times(arguments), Line()
    with dgt.follow(line) as board:
        wanted(f"what {call} of a board returns", getattr(board, f"send_{call}")(*arguments), None)
    host, follower = (getattr(each, f"send_{call}")(*arguments)
                      for each in (dgt.Host(), dgt.Follower()))
    right = host + b"\x44"  # the mode's command
    wanted(f"{call} of a follower, and of a board", (follower, line.written), (right, [right]))
    return host


class ClockCalls(cases.Case):
    def test_rows(self):
        """Each call has the bytes of its row. A board takes them as one command, and acknowledges
        it."""
        for call, arguments, right in ROWS:
            sent = made(call, arguments)
            wanted(f"{call} of {arguments}", sent.hex(" "), right)
            board = dgt.Board()
            message = dgt.ClockMessage(sent[3], sent[4:-1])
            wanted(f"{call}, taken", board.take(sent), (len(sent), message))
            [answer] = dgt.Decoder().feed(b"".join(board.messages()))
            wanted(f"{call}, acknowledged", tuple(answer.ack[:2]), (0x10, sent[3]))
        text = LINES.read_text()
        wanted("rows that are not shown", [row for row in SHOWN if f"| `{row}` |" not in text], [])

    def test_refusals(self):
        """A value out of its range is refused, and nothing is sent."""
        for call, arguments, said in REFUSED:
            arguments, line = with_times(arguments), Line()
            for caller in (dgt.Host(), dgt.Follower(), dgt.follow(line)):
                what, send = f"{call} of {arguments}", getattr(caller, f"send_{call}")
                text = refusal(what, dgt.BadValue, lambda: send(*arguments))
                wanted(what, text[:len(said)], said)
            wanted(f"{what}, sent", line.written, [])
        for wrong in ("text", 5, None, [1]):
            self.assertRaises(TypeError, dgt.Host().send_icons, wrong)

    def test_closed(self):
        for caller in (dgt.Host(), dgt.Follower(), dgt.follow(Line())):
            caller.close()
            for call, arguments, _ in ROWS:
                with self.assertRaises(dgt.Closed):
                    getattr(caller, f"send_{call}")(*with_times(arguments))
