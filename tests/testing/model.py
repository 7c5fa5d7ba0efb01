"""docs/PROTOCOL.md and docs/PROGRAM.md in plain Python: the output of `dgt monitor`, `dgt
picture`, `dgt log`, `dgt commands`, `dgt ask`, `dgt board` and `dgt simulate`.

It was written from these pages and the program's help, not from its sources, so that
tests/program/hostile can compare both. Squares are numbers, pieces their codes, a position is a
list of 64 pieces. A clock is the seven bytes of its message's body, since each times or no-clock
message has one encoding.
"""

import re

LETTERS = ".PRNBKQprnbkqXYZ"
START = "rnbqkbnr/pppppppp/8/8/8/8/PPPPPPPP/RNBQKBNR"

# Codes of messages, and the size of the body where a code has but one.
DUMP, CLOCK, FIELD, SERIAL, TRADEMARK, VERSION, BATTERY, LONG_SERIAL = (
    0x06, 0x0D, 0x0E, 0x11, 0x12, 0x13, 0x20, 0x22)
SIZES = {DUMP: 64, CLOCK: 7, FIELD: 2, SERIAL: 5, VERSION: 2}
STORED = 0x0F
MARKS = {0x00: "nothing", 0x6A: "powerup", 0x6B: "end", 0x6C: "fourrows", 0x6D: "emptyboard"}
MARKS |= {0x6E: "downloaded", 0x6F: "begin", 0x7A: "turnedbegin", 0x7B: "tag", 0x7C: "watchdog"}
MARKS |= {0x7F: "erased"}

# The commands of one byte: those that ask for a message, with its code, and those that set the
# mode.
REPLIES = {0x41: CLOCK, 0x42: DUMP, 0x45: SERIAL, 0x47: TRADEMARK, 0x4C: BATTERY, 0x4D: VERSION,
           0x55: LONG_SERIAL}
IDLE, UPDATE, UPDATE_BOARD, UPDATE_NICE = MODES = 0x40, 0x43, 0x44, 0x4B
# The first bytes of the commands of several bytes.
CLOCK_MESSAGE, LIGHTS = 0x2B, 0x60
CLOCK_VERSION_ID = 0x09

# What the program's board is.
FIRST_CLOCK = bytes(7)
BODIES = {SERIAL: b"00001", TRADEMARK: b"SIMULATED BOARD", VERSION: bytes([1, 3]),
          BATTERY: b"\x64", LONG_SERIAL: b"0000000001"}
CLOCK_VERSION = 0x14
MOST_OWED = 8
MOST_AWAITED = 16
LONGEST_LINE = 519


def square_name(square):
    return "abcdefgh"[square % 8] + str(8 - square // 8)


def placement(position):
    """A position as text, with the fewest digits."""
    letters = "".join(LETTERS[piece] for piece in position)
    ranks = [letters[start : start + 8] for start in range(0, 64, 8)]
    return "/".join(re.sub(r"\.+", lambda run: str(len(run[0])), rank) for rank in ranks)


def read_placement(text):
    """The position and None, or None and the offset of the first byte with which the text begins no
    placement."""
    position = []
    rank = 1  # how many have been begun
    for offset, letter in enumerate(text):
        room = 8 * rank - len(position)
        if letter == "/" and room == 0 and rank < 8:
            rank += 1
        elif "1" <= letter <= "8" and int(letter) <= room:
            position += [0] * int(letter)
        elif letter in LETTERS[1:] and room > 0:
            position.append(LETTERS.index(letter))
        else:
            return None, offset
    return (position, None) if len(position) == 64 else (None, len(text))


def spell(code, body):
    """The bytes of a message: its head, with the total in two halves of seven bits, and its
    body."""
    total = 3 + len(body)
    return bytes([0x80 | code, total >> 7, total & 0x7F, *body])


def hexadecimal(body):
    return bytes(body).hex() or "-"


def is_acknowledgement(body):
    """The low four bits of b3 or of b6 are a: one of them is enough."""
    return body[0] & 0x0F == 0x0A or body[3] & 0x0F == 0x0A


def acknowledgement(ack0, ack1, ack2, ack3):
    """The body of an acknowledgement with status 00: b3 and b6 hold the mark, and the top bits of
    the four bytes."""
    b3 = 0x0A | (ack2 & 0x80) >> 3 | (ack3 & 0x80) >> 2
    b6 = 0x0A | (ack0 & 0x80) >> 3 | (ack1 & 0x80) >> 2
    return bytes([b3, ack0 & 0x7F, ack1 & 0x7F, b6, ack2 & 0x7F, ack3 & 0x7F, 0x00])


def clock_text(body):
    """The tests are made in this order: an acknowledgement, no clock, a bad digit. Else these are
    times."""
    b3, b4, b5, b6, b7, b8, status = body
    if is_acknowledgement(body):
        ack0, ack1 = b4 | b6 << 3 & 0x80, b5 | b6 << 2 & 0x80
        ack2, ack3 = b7 | b3 << 3 & 0x80, b8 | b3 << 2 & 0x80
        return f"ack {ack0:02x} {ack1:02x} {ack2:02x} {ack3:02x} {status:02x}"
    if status & 0x20:
        return f"noclock {hexadecimal(body[:6])} {status:02x}"
    for offset, byte in enumerate(body[:6]):
        # Above the hours are flags, above the units of minutes and seconds are tens.
        is_hours = offset in (0, 3)
        if byte & 0x0F > 9 or byte >> 4 > 5 and not is_hours:
            return f"badreading {offset}"
    first = f"{b3 & 0x0F}:{b4:02x}:{b5:02x} {b3 >> 4}"
    second = f"{b6 & 0x0F}:{b7:02x}:{b8:02x} {b6 >> 4}"
    return f"times {first} {second} {status:02x}"


def dump_text(body):
    for offset, piece in enumerate(body):
        if piece > 15:
            return f"badpiece {offset}"
    return f"dump {placement(body)}"


def field_text(body):
    """The square is looked at before the piece."""
    square, piece = body
    if square > 63:
        return "badsquare 0"
    if piece > 15:
        return "badpiece 1"
    return f"field {square_name(square)} {LETTERS[piece]}"


def message_text(code, body):
    """The text of a whole message, or of its refusal: for its size, or for the first byte that its
    place doesn't allow."""
    if code in SIZES and len(body) != SIZES[code]:
        return f"refused {code:02x} wrongsize"
    if code in (DUMP, CLOCK, FIELD):
        text = {DUMP: dump_text, CLOCK: clock_text, FIELD: field_text}[code](body)
        return f"refused {code:02x} {text}" if text.startswith("bad") else text
    if code == VERSION:
        return f"version {body[0]}.{body[1]}"
    names = {SERIAL: "serial", TRADEMARK: "trademark", BATTERY: "battery",
             LONG_SERIAL: "longserial"}
    return f"{names.get(code, f'other {code:02x}')} {hexadecimal(body)}"


class Decoder:
    """Reads messages from any bytes."""

    def __init__(self):
        self.unfinished = bytearray()
        self.message = None  # the whole one of the last byte, its code and its body

    def take(self, byte):
        """The text of the event of this byte, or None where it has none."""
        self.message = None
        have = len(self.unfinished)
        if byte & 0x80:
            # Always begins a message.
            self.unfinished = bytearray([byte])
            return f"cut {have}" if have else None
        if not have:
            return f"stray {byte:02x}"
        self.unfinished.append(byte)
        if have < 2:
            return None
        total = 128 * self.unfinished[1] + self.unfinished[2]
        if have + 1 < total:
            return None
        message, self.unfinished = self.unfinished, bytearray()
        if total < 3:
            return "badlength"
        self.message = message[0] & 0x7F, bytes(message[3:])
        return message_text(*self.message)


def monitor(data):
    decoder, lines = Decoder(), []
    for offset, byte in enumerate(data, 1):
        text = decoder.take(byte)
        if text:
            lines.append(f"{offset:08} {text}\n")
    if decoder.unfinished:
        lines.append(f"{len(data):08} unfinished {len(decoder.unfinished)}\n")
    return "".join(lines).encode()


def shown_clock(body):
    """The text of a clock for `dgt picture --clock`, by the body of its message."""
    b3, b4, b5, b6, b7, b8, status = body
    if status & 0x20:
        return "clock none"
    turn = {0x08: "black", 0x10: "white"}.get(status & 0x18, "-")
    words = [f"clock {b3 & 0x0F}:{b4:02x}:{b5:02x} {b6 & 0x0F}:{b7:02x}:{b8:02x}"]
    words += ["running" if status & 0x01 else "stopped", turn]
    words += ["low"] * bool(status & 0x04)
    words += [side + flag for side, hours in (("left", b3), ("right", b6))
              for bit, flag in ((0x10, "blocked"), (0x20, "permove"), (0x40, "fallen"))
              if hours & bit]
    return " ".join(words)


def picture(data, doubt=False, clock=False):
    """What `dgt picture` writes, or `dgt picture` with `--doubt` or `--clock`."""
    decoder, lines, squares, sure, told = Decoder(), [], None, False, None
    for offset, byte in enumerate(data, 1):
        text = decoder.take(byte) or ""
        if text.startswith("dump "):
            squares, sure = list(decoder.message[1]), True
        elif text.startswith("field ") and squares:
            square, piece = decoder.message[1]
            squares[square] = piece
        elif text.startswith(("times ", "noclock ")):
            before, told = told, shown_clock(decoder.message[1])
            lines += [f"{offset:08} {told}\n"] if clock and told != before else []
            continue
        elif text.startswith("refused 0d badreading "):
            continue  # a clock that is being set
        else:
            if text.startswith(("refused ", "cut ", "badlength", "stray ")):
                lines += [f"{offset:08} doubt\n"] if doubt and sure else []
                sure = False
            continue
        lines.append(f"{offset:08} {placement(squares)}\n")
    return "".join(lines).encode()


def stored(body):
    """The size and the text of what a body stores first."""
    first, second = body[0], body[1:2]
    if 0x40 <= first < 0x60 and second and second[0] < 64:
        carried = " +" * (first >= 0x50)
        return 2, f"piece {square_name(second[0])} {LETTERS[first % 16]}{carried}"
    # The flags and the hours, minutes and seconds, a digit each.
    if re.fullmatch("[67][0-9]([0-5][0-9]){2}", body[:3].hex()):
        return 3, f"time {first & 0x0F}:{body[1]:02x}:{body[2]:02x} {first >> 4}"
    return 1, MARKS.get(first, f"unknown {first:02x}")


def log(data):
    lines, decoder = [], Decoder()
    for offset, byte in enumerate(data, 1):
        decoder.take(byte)
        code, rest = decoder.message or (None, b"")
        while code == STORED and rest:
            size, text = stored(rest)
            rest = rest[size:]
            lines.append(f"{offset - len(rest):08} {text}\n")
    return "".join(lines).encode()


def word_kind(word):
    """What these bytes of the host are, or None while more of the word is to come."""
    first, have = word[0], len(word)
    if first in MODES or first in REPLIES:
        return "command"
    if first not in (CLOCK_MESSAGE, LIGHTS):
        return "stray"
    if have == 1:
        return None
    size = word[1]  # of what follows it
    if first == LIGHTS:
        return "command" if have == 2 + size else None
    if size < 3:
        return "bad size"
    if have > 2 and word[2] != 0x03:
        return "bad start"
    if have < 2 + size:
        return None
    return "command" if word[-1] == 0x00 else "bad end"


# The words for commands, and for clock messages that carry nothing, by their ids.
NAMES = {0x40: "reset", 0x41: "clock", 0x42: "dump", 0x43: "update", 0x44: "updateboard",
         0x4B: "updatenice"}
NAMES |= {0x45: "serial", 0x47: "trademark", 0x4C: "battery", 0x4D: "version", 0x55: "longserial"}
EMPTY = {0x03: "end", 0x08: "button", 0x09: "clockversion"}
SEGMENTS = dict(zip(bytes.fromhex("3f065b4f666d7d077f6f0040"), "0123456789 -"))


def clock_message_text(clock_id, payload):
    carried = payload.hex() or "-"
    if clock_id == 0x01 and len(payload) == 8:
        c, b, a, f, e, d, dots, beep = payload
        shown = "".join(SEGMENTS.get(place, "?") for place in (a, b, c, d, e, f))
        return "display " + (carried if "?" in shown or dots or beep else shown)
    if clock_id == 0x0C and len(payload) == 9:
        is_plain = all(0x20 <= letter <= 0x7E for letter in payload[:8]) and payload[8] == 0
        return "text " + (payload[:8].decode() if is_plain else carried)
    if clock_id == 0x02:
        return f"icons {carried}"
    if clock_id == 0x0A and len(payload) == 7:
        return f"setandrun {carried}"
    if clock_id == 0x0B and len(payload) == 1:
        return f"beep {payload[0]}"
    if clock_id in EMPTY and not payload:
        return EMPTY[clock_id]
    return f"clockmessage {clock_id:02x} {carried}"


def word_text(word, kind):
    """The line's text of a word of this kind."""
    if kind == "stray":
        return f"stray {word[0]:02x}"
    if kind != "command":
        return kind.replace(" ", "")
    if word[0] == LIGHTS:
        return f"leds {word[2:].hex() or '-'}"
    return clock_message_text(word[3], word[4:-1]) if word[0] == CLOCK_MESSAGE else NAMES[word[0]]


def commands(data):
    word, lines = b"", []
    for offset, byte in enumerate(data, 1):
        word += bytes([byte])
        kind = word_kind(word)
        if kind:
            lines.append(f"{offset:08} {word_text(word, kind)}\n")
            word = b""
    if word:
        lines.append(f"{len(data):08} unfinished {len(word)}\n")
    return "".join(lines).encode()


def clock_message(clock_id, payload):
    return bytes([CLOCK_MESSAGE, len(payload) + 3, 0x03, clock_id, *payload, 0x00])


# The bytes that `dgt ask` writes for words without operands.
ASKED = {name: bytes([code]) for code, name in NAMES.items()}
ASKED |= {name: clock_message(clock_id, b"") for clock_id, name in EMPTY.items()}
ASKED |= {"follow": b"\x44\x42", "restart": bytes(255) + b"\x44\x42", "log": b"\x49"}


# How what follows the other words is read: to the bytes of the command, or None if it can't follow.


def read_digits(word, most):
    """The bytes of hexadecimal digits: one byte or more, and no more than these."""
    is_right = re.fullmatch(r"([0-9A-Fa-f]{2})+", word) and len(word) <= 2 * most
    return bytes.fromhex(word) if is_right else None


def read_payload(word, most):
    return b"" if word == "-" else read_digits(word, most)


def ask_beep(word):
    is_right = re.fullmatch(r"0|[1-9][0-9]{0,2}", word) and int(word) <= 255
    return clock_message(0x0B, [int(word)]) if is_right else None


def ask_display(word):
    if re.fullmatch(r"[0-9A-Fa-f]{16}", word):
        return clock_message(0x01, bytes.fromhex(word))
    if not re.fullmatch(r"[0-9 -]{0,6}", word):
        return None
    places = {letter: place for place, letter in SEGMENTS.items()}
    a, b, c, d, e, f = (places[letter] for letter in word.ljust(6))
    return clock_message(0x01, [c, b, a, f, e, d, 0, 0])


def ask_text(word):
    if re.fullmatch(r"[0-9A-Fa-f]{18}", word):
        return clock_message(0x0C, bytes.fromhex(word))
    is_right = word.isascii() and len(word) <= 8
    return clock_message(0x0C, word.ljust(8).encode() + b"\0") if is_right else None


def ask_icons(word):
    payload = read_payload(word, 252)
    return None if payload is None else clock_message(0x02, payload)


def ask_set_and_run(word):
    payload = read_digits(word, 7) or b""
    return clock_message(0x0A, payload) if len(payload) == 7 else None


def ask_clock_message(clock_id, word):
    """A clock message that `dgt commands` has no other word for."""
    ids, payload = read_digits(clock_id, 1), read_payload(word, 252)
    if not ids or payload is None:
        return None
    has_no_other = clock_message_text(ids[0], payload).startswith("clockmessage ")
    return clock_message(ids[0], payload) if has_no_other else None


def ask_leds(word):
    lights = read_payload(word, 255)
    return None if lights is None else bytes([LIGHTS, len(lights), *lights])


def ask_stray(word):
    byte = read_digits(word, 1)
    return byte if byte and word_kind(byte) == "stray" else None


# How many words follow each of these, and what reads them.
DETAILS = {"beep": (1, ask_beep), "display": (1, ask_display), "text": (1, ask_text)}
DETAILS |= {"icons": (1, ask_icons), "setandrun": (1, ask_set_and_run)}
DETAILS |= {"clockmessage": (2, ask_clock_message), "leds": (1, ask_leds), "stray": (1, ask_stray)}


def ask(arguments):
    """What `dgt ask` writes, or None if an argument is wrong or missing. None asks for help."""
    output, rest = b"", list(arguments[arguments[:1] == ["--"] :])
    while rest:
        argument = rest.pop(0)
        if argument in ASKED:
            output += ASKED[argument]
            continue
        name, space, words = argument.partition(" ")
        count, read = DETAILS.get(name, (0, None))
        if space:
            words = words.split(" ", count - 1) if count else []
        else:
            words, rest = rest[:count], rest[count:]
        asked = read(*words) if read and len(words) == count else None
        if asked is None:
            return None
        output += asked
    return output


class CommandReader:
    """Divides the bytes of a host into words."""

    def __init__(self):
        self.unfinished = bytearray()

    def take(self, byte):
        """The command that this byte completes, or None. A word that is no command is passed
        over."""
        self.unfinished.append(byte)
        kind = word_kind(self.unfinished)
        if kind is None:
            return None
        word, self.unfinished = bytes(self.unfinished), bytearray()
        return word if kind == "command" else None


class Board:
    def __init__(self, squares):
        self.squares, self.reported_squares = list(squares), list(squares)
        self.clock, self.reported_clock = FIRST_CLOCK, None
        self.mode = IDLE
        self.owes_times = False
        self.owed = []  # codes of messages, and bodies of acknowledgements
        self.reader = CommandReader()

    def is_busy(self):
        return len(self.owed) == MOST_OWED

    def change(self, square, piece):
        self.squares[square] = piece

    def hand_clock(self, clock):
        self.clock = clock
        self.owes_times = (self.mode == UPDATE
                           or self.mode == UPDATE_NICE and self.reported_clock != clock)

    def line_lost(self):
        self.mode = IDLE
        self.reported_squares, self.reported_clock = list(self.squares), None
        self.owes_times = False
        self.owed = []
        self.reader = CommandReader()

    def take(self, byte):
        command = self.reader.take(byte)
        if command is None or command[0] == LIGHTS:
            return
        if command[0] in MODES:
            self.mode = command[0]
            follows = self.mode in (UPDATE, UPDATE_NICE)
            self.owes_times = follows and self.reported_clock != self.clock
        elif command[0] in REPLIES:
            self.owed.append(REPLIES[command[0]])
        elif not self.clock[6] & 0x20:  # a clock is connected
            clock_id = command[3]
            version = CLOCK_VERSION if clock_id == CLOCK_VERSION_ID else 0
            self.owed.append(acknowledgement(0x10, clock_id, version, 0))

    def form(self, code):
        """A message of this code as it is at this moment."""
        return spell(code, BODIES.get(code) or {DUMP: self.squares, CLOCK: self.clock}[code])

    def next_message(self):
        """The message that is to be sent first, or None: owed replies, then fields, then the
        clock."""
        if self.owed:
            return (spell(CLOCK, self.owed[0]) if isinstance(self.owed[0], bytes)
                    else self.form(self.owed[0]))
        if self.mode != IDLE:
            for square in range(64):
                if self.squares[square] != self.reported_squares[square]:
                    return spell(FIELD, [square, self.squares[square]])
        return self.form(CLOCK) if self.owes_times else None

    def sent(self, message):
        """The next message is on its way."""
        if self.owed:
            self.owed.pop(0)
        code, body = message[0] & 0x7F, message[3:]
        if code == DUMP:
            self.reported_squares = list(body)
        elif code == FIELD:
            self.reported_squares[body[0]] = body[1]
        elif code == CLOCK and not is_acknowledgement(body):
            self.reported_clock, self.owes_times = body, False


def serve(commands, squares):
    """What `dgt board` writes: after each byte all that there is to send."""
    board, answers = Board(squares), bytearray()
    for byte in commands:
        board.take(byte)
        while message := board.next_message():
            answers += message
            board.sent(message)
    return bytes(answers)


class Host:
    def __init__(self):
        self.decoder = Decoder()
        self.picture = self.clock = None
        self.awaited = []  # codes of replies that have a kind: all but the clock's

    def hear(self, byte):
        text = self.decoder.take(byte)
        if not self.decoder.message or text.startswith("refused "):
            return
        code, body = self.decoder.message
        if self.awaited and self.awaited[0] == code:
            self.awaited.pop(0)
        if code == DUMP:
            self.picture = list(body)
        elif code == FIELD and self.picture:
            self.picture[body[0]] = body[1]
        elif code == CLOCK and not is_acknowledgement(body):
            self.clock = body


class World:
    """A board and a host, with a line each way. Each act gives its outcome; what isn't done changes
    nothing."""

    def __init__(self, squares, up_room, down_room):
        self.board, self.host = Board(squares), Host()
        self.up, self.down = bytearray(), bytearray()
        self.up_room, self.down_room = up_room, down_room

    def change(self, square, piece):
        self.board.change(square, piece)
        return "done"

    def hand_clock(self, clock):
        self.board.hand_clock(clock)
        return "done"

    def host_sends(self, command):
        kind = REPLIES.get(command[0])
        has_kind = kind not in (None, CLOCK)
        if has_kind and len(self.host.awaited) == MOST_AWAITED:
            return "toomany"
        if len(self.down) + len(command) > self.down_room:
            return "noroom"
        self.down += command
        if has_kind:
            self.host.awaited.append(kind)
        return "done"

    def board_sends(self):
        message = self.board.next_message()
        if message is None:
            return "nothing"
        if len(self.up) + len(message) > self.up_room:
            return "noroom"
        self.up += message
        self.board.sent(message)
        return "done"

    def to_board(self, count):
        if not self.down:
            return "nothing"
        if self.board.is_busy():
            return "busy"
        while count and self.down and not self.board.is_busy():
            self.board.take(self.down.pop(0))
            count -= 1
        return "done"

    def to_host(self, count):
        if not self.up:
            return "nothing"
        for byte in self.up[:count]:
            self.host.hear(byte)
        del self.up[:count]
        return "done"

    def line_breaks(self):
        self.up.clear()
        self.down.clear()
        self.board.line_lost()
        self.host = Host()
        return "done"

    def host_breaks(self):
        self.up.clear()
        self.host = Host()
        self.down[:] = bytes(255) + b"\x44\x42"
        self.host.awaited.append(DUMP)
        return "done"

    # The additional state of a world with faults.

    def line_garbles(self, line, room, data):
        if len(data) > room:
            return "noroom"
        line[:] = data
        return "done"

    def up_garbles(self, data):
        return self.line_garbles(self.up, self.up_room, data)

    def down_garbles(self, data):
        return self.line_garbles(self.down, self.down_room, data)

    def board_loses_power(self):
        self.board.line_lost()
        return "done"

    def host_restarts(self):
        """The host keeps its picture, its clock and what it has of a message."""
        if len(self.down) + 257 > self.down_room:
            return "noroom"
        self.down += bytes(255) + b"\x44\x42"
        self.host.awaited = [DUMP]
        return "done"

    def host_gives_up(self):
        self.host.awaited = []
        return "done"

    def is_quiet(self):
        unread = (self.up or self.down or self.host.decoder.unfinished
                  or self.board.reader.unfinished)
        return not unread and self.board.next_message() is None

    def closing_lines(self):
        host = self.host
        picture = placement(host.picture) if host.picture else "unknown"
        clock = clock_text(host.clock) if host.clock else "unknown"
        quiet = "yes" if self.is_quiet() else "no"
        board = placement(self.board.squares)
        return f"board {board}\nhost {picture}\nhostclock {clock}\nquiet {quiet}\n"


# How the words of a script's line are read. Each gives what the word means, or None where it isn't
# allowed.


def read_square(word):
    return (8 * (ord("8") - word[1]) + word[0] - ord("a") if re.fullmatch(rb"[a-h][1-8]", word)
            else None)


def read_letter(word):
    return LETTERS.index(word.decode()) if re.fullmatch(rb"[.PRNBKQprnbkqXYZ]", word) else None


def read_count(word):
    return int(word) if re.fullmatch(rb"[1-9][0-9]{0,4}", word) and int(word) <= 65535 else None


def read_hexadecimal(word):
    return bytes.fromhex(word.decode()) if re.fullmatch(rb"([0-9A-Fa-f]{2})+", word) else None


def read_garbled(word):
    """Bytes, or none of them."""
    return b"" if word == b"-" else read_hexadecimal(word)


def read_clock(word):
    """The body of a times or no-clock message."""
    body = read_hexadecimal(word)
    is_body = body and len(body) == 7 and max(body) < 0x80
    return body if is_body and clock_text(body).startswith(("times", "noclock")) else None


def read_command(word):
    """The bytes of exactly one command."""
    data, reader = read_hexadecimal(word) or b"", CommandReader()
    commands = [command for command in map(reader.take, data) if command]
    return data if commands == [data] else None


ACTS = {
    b"change": (World.change, [read_square, read_letter]),
    b"clock": (World.hand_clock, [read_clock]),
    b"host": (World.host_sends, [read_command]),
    b"send": (World.board_sends, []),
    b"toboard": (World.to_board, [read_count]),
    b"tohost": (World.to_host, [read_count]),
    b"break": (World.line_breaks, []),
    b"hostbreak": (World.host_breaks, []),
}
# The acts that --faults adds.
FAULTS = {
    b"garbleup": (World.up_garbles, [read_garbled]),
    b"garbledown": (World.down_garbles, [read_garbled]),
    b"boardlost": (World.board_loses_power, []),
    b"restart": (World.host_restarts, []),
    b"giveup": (World.host_gives_up, []),
}


def read_line(line, acts):
    """The act of a script's line, its arguments and None; or None twice, and the offset where the
    line goes bad."""
    if len(line) > LONGEST_LINE:
        return None, None, LONGEST_LINE
    name, *words = line.split(b" ")
    if name not in acts:
        return None, None, 0
    act, readers = acts[name]
    offset, arguments = len(name) + 1, []
    for place, word in enumerate(words):
        argument = readers[place](word) if place < len(readers) else None
        if argument is None:
            return None, None, offset
        arguments.append(argument)
        offset += len(word) + 1
    return (act, arguments, None) if len(words) == len(readers) else (None, None, len(line))


def simulate(script, squares, up_room, down_room, has_faults):
    """What `dgt simulate` gives, with --faults or without: its status, standard output and standard
    error."""
    world, output = World(squares, up_room, down_room), ""
    acts = ACTS | FAULTS if has_faults else ACTS
    lines = script.split(b"\n")
    if not lines[-1]:
        lines.pop()
    for number, line in enumerate(lines, 1):
        act, arguments, fault = read_line(line, acts)
        if fault is not None:
            return 1, output.encode(), f"dgt: line {number}: bad at {fault}\n".encode()
        output += act(world, *arguments) + "\n"
    return 0, (output + world.closing_lines()).encode(), b""
