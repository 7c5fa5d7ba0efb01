"""A board of the package on a pseudo-terminal, with its clock, its log, and the hands at it. The
line to it may alter and lose bytes in both directions."""

import contextlib
import pathlib
import random
import tempfile
import time

import cases  # the path of the package
import dgt
import games
from dgt._simulated import PluggedBoard, PluggedBoards
from wrong import wanted

# The first moves of a game, as squares: from and to, twice where White castles.
GAME = """e2e4 e7e5 g1f3 b8c6 f1b5 a7a6 b5a4 g8f6 e1g1h1f1 f8e7 f1e1 b7b5 a4b3 d7d6""".split()
INCREMENT = 5  # seconds that a clock adds when it is pressed
RUNS, WHITE_TURN = 0x01, 0x10  # bits of a clock's status


class Board(PluggedBoard):
    """A board at a path. `spoil` is what the line makes of each message; `asked` has when something
    was asked, and what. With a `chance` it loses and alters bytes, either way, and counts that in
    `faults`. `to_clock` has the messages to the clock, and `said` of each message the number of
    bytes so far, the time, and where the pieces stand."""

    def __init__(self, path, identity=None, board=None, raw=True):
        super().__init__(path, board or dgt.LoggingBoard(identity=identity), raw)
        self.path, self.heard = self.link, dgt.CommandDecoder()
        self.spoil, self.asked, self.to_clock, self.said = bytes, [], [], []
        self.chance, self.faults, self.count, self.moves = None, 0, 0, 0

    @property
    def position(self):
        return self.board.position

    @property
    def tells(self):
        """Whether it reports changes."""
        return self.board.mode != dgt.Mode.IDLE

    def plug(self):
        with self.lock:
            self.link, self.count = self.path, 0
            return super().plug()

    def switch_off(self):
        """Off and on: it forgets what it is to report."""
        with self.lock:
            self.board.line_lost()

    def hear(self, asked):
        self.asked.append((time.monotonic(), asked))
        self.to_clock += [(each.id, each.payload) for each in self.heard.feed(asked)
                          if isinstance(each, dgt.ClockMessage)]
        super().hear(self.alter(asked))

    def alter(self, message):
        """What a bad line makes of a message."""
        if self.chance is None or self.chance.random() > 0.08:
            return message
        self.faults += 1
        at = self.chance.randrange(len(message))
        byte = bytes([self.chance.randrange(256)])
        return self.chance.choice([b"", message[:at] + message[at + 1:], message[:at],
                                   message[:at] + byte + message[at + 1:],
                                   message[:at] + byte + message[at:]])

    def send(self, messages):
        """Sends these messages at once: a busy machine holds none of them up."""
        sent = []
        for message in messages:
            sent.append(self.alter(self.spoil(message)))
            self.count += len(sent[-1])
            self.said.append((self.count, time.time(), self.position.placement))
        if any(sent):
            self.write(b"".join(sent))

    def put_each(self, changes):
        """Puts pieces on squares, one after the other, and sends all these messages at once."""
        with self.lock:
            messages = []
            for square, piece in changes:
                self.board.change(square, piece)
                messages += self.board.messages()
            if self.ends and self.is_on:
                self.send(messages)

    def garble(self, noise):
        """Sends random bytes instead of messages, a few at a time."""
        for at in range(0, len(noise), 512):
            self.write(noise[at:at + 512])
            time.sleep(0.01)

    def show_clock(self, first, second, status, flags=(0, 0)):
        """The clock shows these seconds, with this status and the flags of both sides."""
        sides = (dgt.Time(left // 3600, left // 60 % 60, left % 60, flag)
                 for left, flag in zip((first, second), flags))
        none = status & dgt.NoClock().status
        self.hand_clock(dgt.NoClock(status=status) if none else dgt.Times(*sides, status))

    def press(self, side):
        """A player presses the clock after a move. Returns the time that is left to him."""
        with self.lock:
            self.clock.left[side] += INCREMENT
            self.run_clock(1 - side)
            return str(self.clock.time(side))

    def play(self):
        """Plays its next move, forth through the game and then back."""
        turn = self.moves % (2 * len(GAME))
        self.moves += 1
        move = GAME[turn] if turn < len(GAME) else GAME[2 * len(GAME) - 1 - turn]
        for at in range(0, len(move), 4):
            old, new = move[at:at + 2], move[at + 2:at + 4]
            old, new = (old, new) if turn < len(GAME) else (new, old)
            piece = self.position[old]
            self.put((old, "."))
            time.sleep(0.1)
            self.put((new, piece))


class Boards(PluggedBoards):
    """Boards at ports of a folder, without clocks at first, each with a serial number."""

    def __init__(self, folder, count):
        super().__init__([])
        self.add(*(pathlib.Path(folder, f"port{number + 1}") for number in range(count)))

    def add(self, *paths):
        for path in paths:
            said = dgt.Identity(serial=f"{len(self) + 1:05}".encode())
            board = Board(path, board=dgt.LoggingBoard(None, dgt.NoClock(), said))
            board.clock.left = [5400, 5400]
            board.plug()
            self.append(board)


class SerialPort:
    """Like an open port of pyserial, with a board at its other end."""

    def __init__(self, board, timeout=None):
        self.board, self.is_open, self.timeout, self.sent = board, True, timeout, b""

    @property
    def in_waiting(self):
        return len(self.sent)

    def write(self, chunk):
        self.sent += b"".join(self.board.answers(chunk))
        return len(chunk)

    def take(self, size):
        chunk, self.sent = self.sent[:size], self.sent[size:]
        return chunk


@contextlib.contextmanager
def a_line(folder=None, **how):
    """A board with a port in this folder, or in one of its own."""
    with contextlib.ExitStack() as stack:
        folder = folder or stack.enter_context(tempfile.TemporaryDirectory())
        boards = PluggedBoards([Board(pathlib.Path(folder, "port"), **how)])
        stack.callback(boards.close)
        yield boards[0]


class Hands:
    """The hands at a board. They know squares as White does, also on a turned board."""

    def __init__(self, line, seed=0):
        self.line, self.number = line, dgt.square_number
        self.chance = random.Random(seed)
        self.letters = list(dgt.Position.start().letters)
        self.turned = False

    def put_all(self, steps):
        """Puts pieces on squares: their numbers or names, and the letters."""
        changes = []
        for square, letter in steps:
            number = square if isinstance(square, int) else self.number(square)
            self.letters[number] = letter
            changes.append((dgt.SQUARES[63 - number if self.turned else number], letter))
        self.line.put_each(changes)

    def puts(self, text):
        """Puts pieces by a text such as `e2. e4P`."""
        self.put_all((step[:2], step[2]) for step in text.split())

    def set_up(self, letters):
        lifts, puts = games.steps_between(self.letters, letters)
        self.chance.shuffle(puts)
        self.put_all(lifts + puts)

    def turn(self):
        """Turns the board, with its pieces."""
        self.turned, letters = not self.turned, "".join(self.letters)
        self.letters = self.letters[::-1]
        self.set_up(letters)

    def move(self, state, move):
        """Makes a move as a person may."""
        before, after = state.letters, state.after(move).letters
        steps = games.in_any_order(self.chance, before, after, move, self.number)
        kind = self.chance.random()
        if kind < 0.3:
            steps = self.slide(before, move, steps)
        elif kind < 0.4:
            steps = self.think(state, move) + steps
        self.put_all(steps)
        wanted("the hands", "".join(self.letters), after)

    def slide(self, before, move, steps):
        """The steps of a piece that is slid over the board, if it can be."""
        at, to = self.number(move[:2]), self.number(move[2:4])
        way = games.on_the_way(self.chance, before, move, self.number)
        plain = len(move) == 4 and all(square in (at, to) for square, _ in steps)
        if not plain or not way:
            return steps
        between = [(square, letter) for each in way
                   for square, letter in ((each, before[at]), (each, "."))]
        lifts = [(to, ".")] if before[to] != "." else []
        first, last = (lifts, []) if self.chance.random() < 0.5 else ([], lifts)
        return [*first, (at, "."), *between, *last, (to, before[at])]

    def think(self, state, move):
        """Another piece is put elsewhere, and back."""
        others = [other for other in state.moves()
                  if other != move and state.letters[self.number(other[2:4])] == "."
                  and state.letters[self.number(other[:2])] not in "KkPp"]
        if not others:
            return []
        other = self.chance.choice(others)
        at, to = self.number(other[:2]), self.number(other[2:4])
        letter = state.letters[at]
        return [(at, "."), (to, letter), (to, "."), (at, letter)]
