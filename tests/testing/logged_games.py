"""Checks the games that `python -m dgt game --log` makes of a board's log, and the log that a
`dgt.LoggingBoard` keeps. tests/apps/games runs these cases.

A log is written as text here: `e4P` is a piece that was put on e4, and `e2.` one that was lifted
from e2. `L1:29:50` and `R1:29:50` are times of the clock's first and second side. `7d` is a byte,
and words are marks.
"""

import contextlib
import fcntl
import os
import pathlib
import random
import re
import signal
import subprocess
import sys
import tempfile
import time

import cases
import dgt
import pgn_games
import tables
from cases import ROOT, SECONDS
from dgt._logged import LoggedGames
from engines import ENVIRONMENT, PROGRAM, check_ends
from engines import run as ran
from games import steps_between
from simulated_board import Boards
from simulated_board import a_line as a_board
from wrong import Wrong, wanted

SESSION = ROOT / "tests/sessions/simulated_log.txt"
MARKS = {"nothing": 0x00, "on": 0x6A, "end": 0x6B, "rows": 0x6C, "empty": 0x6D, "sent": 0x6E,
         "begin": 0x6F, "turned": 0x7A, "tag": 0x7B, "dog": 0x7C, "erased": 0x7F}
ON = "broken off: the board was switched on after this"
DOG = "broken off: the board restarted after this"
GAP = "broken off: the log lacks moves after this"
UNTOLD = "no moves lead to the positions in the log after this"
ITALIAN = "e2. e4P e7. e5p g1. f3N b8. c6n f1. c4B f8. c5b"
PROMOTION = "a2. a4P b7. b5p a4. b5. b5P a7. a6p b5. a6. a6P c8. b7b a6. b7. b7P h7. h6p b7. a8."
BACK = "g1N f3. f1B c4. e2P e4. b8n c6. f8b c5. e7p e5."
SET_UP = " ".join(f"{file}{rank}{piece}" for rank, pieces in (
    (8, "rnbqkbnr"), (7, "pppppppp"), (2, "PPPPPPPP"), (1, "RNBQKBNR"))
    for file, piece in zip("abcdefgh", pieces))
# What a log says; of each game its moves, its result and its comment; and what is said of it.
LOGS = [
    ("", [], ["the log is empty"]),
    ("on end", [], []),
    ("begin", [], []),
    ("begin end e2. e4P", [], [2, 2]),
    ("begin e2. e4P end", ["e4 *"], []),
    # A log that wraps: what is older comes after its end.
    ("begin e2. e4P end e7. e5p begin d2. d4P", ["e4 *", "d4 *"], [2, 6]),
    # The last move was made if another piece was lifted after it, or nothing was.
    ("begin e2. e4P e7. on", [f"e4 * {ON}"], []),
    ("begin e2. e4P e7.", ["e4 *"], []),
    ("begin e2. e7. e4P e5p g1. on", [f"e4 e5 * {ON}"], []),
    ("begin e2. e4P b8. a6n g1. g1N a6. c6n g1. on", [f"e4 Nc6 * {ON}"], []),
    (f"begin {ITALIAN} h1. f1R e1. g1K", ["e4 e5 Nf3 Nc6 Bc4 Bc5 O-O *"], []),
    (f"begin {ITALIAN} e1. g1K h1. f1R d7. d6p", ["e4 e5 Nf3 Nc6 Bc4 Bc5 O-O d6 *"], []),
    ("begin e2. e4P a7. a6p e4. e5P d7. d5p d5. e5. d6P", ["e4 a6 e5 d5 exd6 *"], []),
    ("begin e2. e4P a7. a6p e4. e5P d7. d5p e5. d6P d5. c7. d6p", ["e4 a6 e5 d5 exd6 cxd6 *"], []),
    (f"begin {PROMOTION} a8N", ["a4 b5 axb5 a6 bxa6 Bb7 axb7 h6 bxa8=N *"], []),
    (f"begin {PROMOTION} a8P a8. a8Q", ["a4 b5 axb5 a6 bxa6 Bb7 axb7 h6 bxa8=Q *"], []),
    # Slid over squares, put on wrong ones, taken back, and answered before they were put down.
    ("begin e2. e3P e3. e4P d7. d6p d6. d5p e4. d5. d5P d8. d7q d7. d6q d6. d5. d5q",
     ["e4 d5 exd5 Qxd5 *"], []),
    ("begin e2. e4P g8. g6n g6. f6n", ["e4 Nf6 *"], []),
    # Two pieces are lifted, as if one took a pawn and the other one took it.
    ("begin e2. e4P g8. f6n d2. d3P f6. d3. L0:10:00 d3P g8n on", [f"e4 Nf6 d3 Ng8 * {ON}"], []),
    ("begin e2. e4P g8. f6n d2. d3P f6. d3. L0:10:00 on", [f"e4 Nf6 d3 * {ON}"], []),
    ("begin e2. e4P g8. f6n d2. d3P f6. d3. on", [f"e4 Nf6 d3 * {ON}"], []),
    ("begin e2. e4P e7. e5p g1. f3N f3. g1N b1. c3N", ["e4 e5 Nc3 *"], []),
    ("begin e2. e4P e4. e2P begin d2. d4P", ["d4 *"], []),
    ("begin g1. f3N g8. f6n f3. g1N f6. g8n begin e2. e4P", ["Nf3 Nf6 Ng1 Ng8 e4 *"], []),
    ("begin e2. e7. e4P e5p g1. f3N", ["e4 e5 Nf3 *"], []),
    # Results.
    ("begin f2. f3P e7. e5p g2. g4P d8. h4q", ["f3 e5 g4 Qh4# 0-1"], []),
    (f"begin {ITALIAN} e1. e8. e4. c5. c5K d5k d5. c5. e4k d5K", ["e4 e5 Nf3 Nc6 Bc4 Bc5 1-0"], []),
    ("begin e1. e8. d4K d5k", [" 1/2-1/2"], []),
    ("begin e2. e4P e1. e8. d4K d5k d5. e8k d4. e1K e4. e2P begin d2. d4P", ["e4 1/2-1/2", "d4 *"],
     []),
    # Marks in the middle.
    ("begin e2. e4P sent tag nothing erased rows e7. e5p", ["e4 e5 *"], []),
    ("begin e2. e4P dog e7. e5p", [f"e4 * {DOG}"], [2, 6]),
    ("begin e2. on e4P e7. on e5p begin d2. d4P", ["d4 *"], [3, 4]),
    (f"begin {ITALIAN} on on begin d2. d4P", [f"e4 e5 Nf3 Nc6 Bc4 Bc5 * {ON}", "d4 *"], []),
    # Another game, also without its mark, or without what leads to it.
    (f"begin {ITALIAN} e1. e8. {BACK} e8k e1K begin d2. d4P", ["e4 e5 Nf3 Nc6 Bc4 Bc5 *", "d4 *"],
     []),
    (f"begin {ITALIAN} e1. e8. {BACK} e8k e1K d2. d4P", ["e4 e5 Nf3 Nc6 Bc4 Bc5 *", "d4 *"], []),
    ("begin e2. e4P begin d2. d4P", [f"e4 * {GAP}", "d4 *"], []),
    ("begin e2. e4P empty begin d2. d4P", [f"e4 * {GAP}", "d4 *"], []),
    (f"begin e2. e4P empty {SET_UP} d2. d4P", [f"e4 * {GAP}", "d4 *"], []),
    # A position on the way to that is none of a game.
    (f"empty e1K e8k L1:00:00 R1:00:00 e1. e2K L0:59:00 R0:59:00 e2. e8. {SET_UP} begin c2. c4P",
     ["c4 *"], []),
    ("empty e1K e8k e4P on", [], []),
    ("begin e2. e4P e1. e8. e3K e6k on", [f"e4 * {UNTOLD}"], []),
    ("turned d7. d5P d2. d4p", ["e4 e5 *"], []),
    ("begin e2. e4P turned d7. d5P d2. d4p", [f"e4 * {GAP}", "e4 e5 *"], []),
    # Nothing leads to what comes later: a change is missing, or was made while a host listened.
    ("begin e2. e4P e5p g1. f3N b8. c6n end", [f"e4 * {UNTOLD}"], []),
    ("begin e2. e4P e7. e5p f1. e5. e5B on", [f"e4 e5 * {UNTOLD}"], []),
    # Bytes that are unknown, and a log that begins in the middle of what was stored.
    ("7d begin e2. 3f e4P 7e 41", ["e4 *"],
     ["unknown bytes in the log were ignored: 7d at 0, 3f at 4, 7e at 7, 41 at 8"]),
    ("24 e7. e5p begin d2. d4P", ["d4 *"],
     ["unknown bytes in the log were ignored: 24 at 0", 2, 1]),
    ("L1:00:00 7d 6a", [], ["unknown bytes in the log were ignored: 7d at 3"]),
    ("05 30 begin d2. d4P", ["d4 *"], ["unknown bytes in the log were ignored: 05 at 0, 30 at 1"]),
    (" ".join(["7d"] * 22), [], ["unknown bytes in the log were ignored: "
                                 + ", ".join(f"7d at {at}" for at in range(20)) + " and 2 more"]),
]
# The clock's first side is White's, or Black's.
FIRST = "L1:30:00 R1:30:00 begin e2. e4P L1:29:50 e7. e5p R1:29:40 g1. f3N L1:29:30"
SECOND = "L1:30:00 R1:30:00 begin e2. e4P R1:29:50 e7. e5p L1:29:40 g1. f3N R1:29:30"
# A log, White's side of the clock, and the time after each move.
TIMED = [
    (FIRST, "left", "1:29:50 1:29:40 1:29:30"), (FIRST, "learn", "1:29:50 1:29:40 1:29:30"),
    (SECOND, "right", "1:29:50 1:29:40 1:29:30"), (SECOND, "learn", "1:29:50 1:29:40 1:29:30"),
    (SECOND, "left", "- - -"),
    # Both times after each move, of which one is new.
    ("begin L1:30:00 R1:30:00 e2. e4P L1:29:50 R1:30:00 e7. e5p L1:29:50 R1:30:20 g1. f3N "
     "L1:29:30 R1:30:20", "learn", "1:29:50 1:30:20 1:29:30"),
    # A clock that isn't stored, or only of one side, gives no time.
    ("L1:30:00 R1:30:00 begin e2. e4P L1:29:50 e7. e5p g1. f3N L1:29:30 b8. c6n R1:20:00", "left",
     "1:29:50 - 1:29:30 1:20:00"),
    ("begin e2. e4P L1:29:50 e7. e5p g1. f3N L1:29:30", "left", "- - -"),
    # The answer was lifted before the clock was pressed, and a move taken back after it.
    ("L0:10:00 R0:10:00 begin e2. e4P e7. L0:09:50 e5p R0:09:40 g1. f3N", "left",
     "0:09:50 0:09:40 -"),
    ("L0:10:00 R0:10:00 begin e2. e4P L0:09:50 e4. e2P d2. d4P L0:09:30", "left", "0:09:30"),
    ("L0:10:00 R0:10:00 begin e2. e4P L0:09:00 R0:10:00 e7. e5p on", "left", "0:09:00 -"),
    # A flag in the time is not a part of it; the clock is set for the next game.
    ("L0:10:00 R0:10:00 begin e2. e4P L0:00:00 on L0:10:00 R0:10:00 begin d2. d4P", "left",
     "0:00:00 -"),
]


def logged(text):
    """The bytes of a log."""
    body = b""
    for word in text.split():
        left = re.fullmatch(r"([LR])(\d):(\d\d):(\d\d)", word)
        if word in MARKS:
            body += bytes([MARKS[word]])
        elif left:
            side, hours, *packed = left.groups()
            body += bytes([(0x60 if side == "L" else 0x70) + int(hours)])
            body += bytes(int(each, 16) for each in packed)
        elif re.fullmatch("[0-9a-f]{2}", word):
            body += bytes.fromhex(word)
        else:
            body += bytes([0x40 + dgt.piece_code(word[2]), dgt.square_number(word[:2])])
    return body


def read(body, white_clock="left", tags=None):
    """The games of a log, the lines, and what is said of it."""
    told, warned = [], []
    games = LoggedGames(told.append, warned.append, tags or {}, white_clock)
    games.read(body)
    return games.games, told, warned


def outside(said):
    """What is said of changes that are of no game: how many, and the place of the first."""
    words = [each for each in said if isinstance(each, str)]
    if count := [each for each in said if not isinstance(each, str)]:
        words.append(f"{count[0]} changes of squares belong to no game, from byte {count[1]} of "
                     "the log on: the position is unknown there")
    return words


# ---- The board that keeps a log


def sent(board, asked=b"\x49"):
    return [bytes(each) for each in board.answers(asked)]


def body_of(board):
    """What a board has logged."""
    messages = [each for each in sent(board) if each[0] not in (0x8D, 0x8E)]
    for each in messages:
        wanted("its length", (each[0], 128 * each[1] + each[2]), (0x8F, len(each)))
    return b"".join(each[3:] for each in messages)


class Logs(cases.Case):
    """What is read from a log, and the board that keeps one."""

    def test_logs(self):
        """Each log has these games, and so has a log with the other bit of the pieces set."""
        for text, right, said in LOGS:
            body = logged(text)
            for bit in (0, 0x10):
                games, told, warned = read(bytes(
                    byte | bit if 0x40 <= byte < 0x60 and at + 1 < len(body) and body[at + 1] < 64
                    else byte for at, byte in enumerate(body)))
                got = [" ".join([*(made.san for made in game.moves)] + [game.result])
                       + (f" {game.comment}" if game.comment else "") for game in games]
                wanted(f"games of {text}", got, [each.strip() for each in right])
                wanted(f"what is said of {text}", warned, outside(said))
                broken = sum("broken off" == line for line in told)
                wanted(f"lines of {text}: {told}", broken,
                       sum(bool(each.comment) for each in games))
                wanted(f"beginnings of {text}", [line for line in told if line.startswith("game")
                                                 and line != f"game {dgt.START_FEN}"], [])
        _, told, _ = read(logged("begin e2. e3P e3. e4P e7. e5p g1. f3N"))
        wanted("lines", told, [f"game {dgt.START_FEN}", "1. e4 e2e4", "1... e5 e7e5",
                               "2. Nf3 g1f3"])
        [game], *_ = read(logged("begin e2. e4P"), tags={"White": "Ann"})
        wanted("tags", game.tags, {"Date": "????.??.??", "White": "Ann"})

    def test_log_times(self):
        for text, side, right in TIMED:
            games, *_ = read(logged(text), side)
            got = [str(made.clock or "-") for game in games for made in game.moves]
            wanted(f"times of {text}, {side}", got, right.split())
            wanted(f"flags of {text}", {made.clock.flags for game in games for made in game.moves
                                        if made.clock} <= {0}, True)

    def test_any_logs(self):
        """Any bytes, and each cut of a log, are read to their end. No game has a move that its log
        lacks: as far as the cut goes, the moves are those of the whole."""
        chance = random.Random(5)
        for length in (1, 10, 300, 3000):
            read(bytes(chance.choice([chance.randrange(256), 0x6F, 0x40, chance.randrange(64)])
                       for _ in range(length)))
        body = logged(f"on begin {ITALIAN} e1. g1K h1. f1R d7. d6p f3. g5N")
        whole = [made.move for made in read(body)[0][0].moves]
        for at in range(len(body)):
            games, *_ = read(body[:at])
            moves = [made.move for game in games for made in game.moves]
            wanted(f"moves of {at} bytes", moves, whole[:len(moves)])
        for at in range(2, len(body)):
            games, *_ = read(body[at:])
            wanted(f"games from byte {at} on", games, [])

    def test_logging_board(self):
        board = dgt.LoggingBoard(clock=dgt.NoClock())
        wanted("a new one", body_of(board), logged("on begin end"))
        board.change("e2", ".")
        board.change("e2", ".")
        board.change("e4", "P")
        wanted("a move", body_of(board), logged("on begin sent e2. e4P end"))
        for mode, is_logged in ((b"\x44", False), (b"\x43", False), (b"\x4b", False),
                                (b"\x40", True)):
            board.clear_log()
            sent(board, mode)
            board.change("e7", ".")
            board.change("e7", "p")
            board.hand_clock(dgt.Times(dgt.Time(1), status=mode[0] & 1))
            got = body_of(board)
            wanted(f"after {mode.hex()}", got, logged("e7. e7p L1:00:00 R0:00:00 end"
                                                      if is_logged else "end"))
        board = dgt.LoggingBoard()
        board.clear_log()
        wanted("the order", [each[0] & 0x7F for each in sent(board, b"\x4d\x49\x4d\x49")],
               [0x13, 0x0F, 0x13, 0x0F])
        wanted("no command", sent(board, b"\x2b\x04\x03\x0b\x49\x00")[0][0], 0x8D)
        board.take(b"\x49")
        wanted("whether it owes that", (board.owes, board.owed_len), (True, 0))
        board.line_lost()
        wanted("and after a loss of power", (board.owes, body_of(board)[-3:]),
               (False, logged("on begin end")))

    def test_refusals(self):
        """It refuses what a `Board` refuses, with the same errors, open and closed."""
        def error(call):
            try:
                return call()
            except Exception as fault:
                return type(fault)

        found = {dgt.Board: [], dgt.LoggingBoard: []}
        for make, errors in found.items():
            for is_open in (True, False):
                board = make()
                _ = is_open or board.close()
                for square, piece in ((64, "Q"), (-1, "Q"), (None, "Q"), ("e2", "x"), ("e2", None)):
                    errors.append(error(lambda: board.change(square, piece)))
                errors += [error(lambda: board.hand_clock(5)), error(lambda: board.take("text"))]
        wanted("errors", found[dgt.LoggingBoard], found[dgt.Board])
        wanted("a bad square", found[dgt.Board][0], dgt.BadValue)
        wanted("no log", error(board.clear_log), dgt.Closed)
        wanted("again", (error(lambda: board.__init__(room=3)), board._log_room),
               (RuntimeError, 8192))

    def test_marks(self):
        """How the pieces stand is logged each time that they do."""
        start = dgt.Position.start()
        board = dgt.LoggingBoard(dgt.Position.parse("8/8/8/8/8/8/8/8"))
        wanted("an empty one", body_of(board), logged("on empty end"))
        for letters, mark in ((start.letters, "begin"), (start.letters[::-1], "turned"),
                              (start.letters.swapcase(), "rows"), ("." * 64, "empty")):
            board.clear_log()
            lifts, puts = steps_between(board.position.letters, letters)
            for square, piece in lifts + puts:
                board.change(dgt.SQUARES[square], piece)
            wanted(f"the last mark, {mark}", body_of(board)[-2:], logged(f"{mark} end"))

    def test_clock_log(self):
        """A clock is logged once it stands, or is pressed."""
        board, runs = dgt.LoggingBoard(), []
        board.clear_log()
        for first, second, status in ((600, 600, 0), (600, 600, 0x11), (599, 600, 0x11),
                                      (590, 600, 0x11), (595, 600, 0x09), (595, 590, 0x09),
                                      (595, 580, 0), (595, 580, 0x11)):
            times = (dgt.Time(0, *divmod(each, 60)) for each in (first, second))
            board.hand_clock(dgt.Times(*times, status))
            runs.append(len(body_of(board)))
        board.hand_clock(dgt.NoClock())
        got = body_of(board).replace(b"\x6e", b"")
        wanted("times", got, logged("L0:10:00 R0:10:00 L0:09:55 R0:09:40 end"))

    def test_room(self):
        """The oldest are dropped, each whole, and a long log is several messages."""
        for size in (3, 4, 10, 200):
            board, things = dgt.LoggingBoard(room=size), []
            for number in range(300):
                board.change("e4", "Pp"[number % 2])
                things.append(logged(f"e4{'Pp'[number % 2]}"))
                if number % 3 == 0:
                    left = dgt.Time(0, number // 60, number % 60)
                    board.hand_clock(dgt.Times(left))
                    things += [logged(f"L{left}")] + [logged("R0:00:00")] * (number == 0)
            last = b""
            while len(things[-1]) + len(last) <= size:
                last = things.pop() + last
            wanted(f"the room of {size}", body_of(board), last + logged("end"))
        board = dgt.LoggingBoard(room=65536)
        for number in range(20000):
            board.change("e4", "Pp"[number % 2])
        messages = sent(board)
        wanted("the messages", [len(each) - 3 for each in messages], [16380, 16380, 7243])
        for size in (-1, 2, 65537, 3.5, None):
            with self.assertRaises(dgt.BadValue):
                dgt.LoggingBoard(room=size)


class LoggedTable(tables.AtGame):
    """A table with a second board, which logs what happens, and to which nobody listens."""

    logging = None

    def __init__(self, *how):
        super().__init__(*how)
        self.logging = dgt.LoggingBoard(self.position())

    def show(self):
        super().show()
        for square, piece in self.logging.position.changes(self.position()).items() \
                if self.logging else ():
            self.logging.change(square, piece)

    def show_clock(self):
        super().show_clock()
        if self.logging:
            self.logging.hand_clock(self.timer.times)


class LoggedGame(tables.Played):
    """A game at such a table. A move that is taken back and made again has two times in the log, so
    that moves are taken back only in every second game."""

    table = LoggedTable

    def take_back(self):
        if self.takes_back:
            super().take_back()


def play_logged(seeds, most):
    """Plays games, one for each seed, and reads them from the log. Returns how many moves."""
    made = 0
    for seed in seeds:
        with tempfile.TemporaryDirectory(dir=tables.room()) as folder:
            game = LoggedGame(seed, None, dgt.PgnFile(str(pathlib.Path(folder, "games.pgn"))))
            game.takes_back = bool(seed % 2)
            while game.made < most and game.step():
                pass
            result = game.finish()
        games, told, warned = read(body_of(game.hand.logging),
                                   "learn" if seed % 3 == 0 else game.side)
        wanted(f"game {seed}, games and what is said", (len(games), warned), (1, []))
        moves = [each.move for each in games[0].moves]
        if moves != game.moves:
            raise Wrong(f"game {seed}, moves: {tables.differing(moves, game.moves)}\n"
                        + "\n".join(told[-8:]))
        wanted(f"game {seed}, result", (games[0].result, games[0].comment), (result, ""))
        clocks = [each.clock and str(each.clock) for each in games[0].moves]
        # A press after which the clock shows what it showed before isn't logged.
        before = ["1:30:00", "1:30:00", *game.clocks]
        right = [None if clocks[at] is None and before[at] == clock else clock
                 for at, clock in enumerate(game.clocks)]
        if clocks != right and not game.takes_back:
            raise Wrong(f"game {seed}, clocks: {tables.differing(clocks, right)}")
        made += len(moves)
    return made


# ---- The program


@contextlib.contextmanager
def a_line(board=None):
    """A board on a line, and a name for a file of games."""
    with a_board(board=board) as line, tempfile.TemporaryDirectory() as folder:
        yield line, pathlib.Path(folder, "games.pgn")


def slowly(line):
    """Sends messages, each in parts that the port has room for."""
    def transmit(data):
        while data:
            size = 128 * data[1] + data[2]
            message, data = data[:size], data[size:]
            while message:
                with contextlib.suppress(BlockingIOError):
                    message = message[os.write(line.ends[0], message[:2000]):]
                time.sleep(0.005)
            time.sleep(0.3)
    return transmit


class LogPrograms(cases.Case):
    def test_program_log(self):
        """The games of a board's log are printed, and added to a file. The board isn't changed."""
        with a_line() as (line, path):
            for word in f"{ITALIAN} e1. e8. d4K d5k".split():
                line.put((word[:2], word[2]))
            path.write_text("old *\n")
            got = ran("game", line.path, "--log", "--pgn", path, "--white", "Ann")
            wanted(f"its status, {got.stderr}", (got.returncode, got.stderr), (0, ""))
            wanted("its lines", got.stdout.splitlines()[-2:],
                   ["3... Bc5 f8c5", "result 1/2-1/2 kings"])
            wanted("the old", path.read_text().partition("\n\n")[0], "old *")
            [game] = pgn_games.read(dgt, path.read_text().partition("\n\n")[2])
            wanted("the game", (game.tags["White"], game.tags["Date"], game.result,
                                len(game.moves)), ("Ann", "????.??.??", "1/2-1/2", 6))
            wanted("the mode", line.board.mode, dgt.Mode.IDLE)
            full = path.parent / "full"
            full.symlink_to("/dev/full")
            check_ends([(["game", line.path, "--log", *words], status, said)
                        for words, status, said in [
                            (("--fen", dgt.START_FEN), 2, "--log takes no --fen and no --period"),
                            (("--period", "3"), 2, "--log takes no --fen and no --period"),
                            (("--pgn", full), 1, "not a file")]])
        with a_line() as (line, path):
            line.board.clear_log()
            line.spoil = lambda message: message.replace(b"\x8f\x00\x04\x6b", b"\x8f\x00\x03")
            got = ran("game", line.path, "--log", "--pgn", path)
            wanted("an empty log", (got.returncode, got.stderr, path.exists()),
                   (0, "dgt-game: the log is empty\n", False))

    def test_program_long_log(self):
        """A log of several messages, with a pause after each."""
        board = dgt.LoggingBoard(room=65536)
        for _ in range(5000):
            board.change("e5", "X")
            board.change("e5", ".")
        for word in ITALIAN.split():
            board.change(word[:2], word[2])
        with a_line(board) as (line, path):
            line.write = slowly(line)
            got = ran("game", line.path, "--log", "--pgn", path)
            wanted(f"its lines, {got.stderr}", (got.returncode, len(got.stdout.splitlines())),
                   (0, 7))
        board = dgt.LoggingBoard()
        for word in 100 * "g1. f3N g8. f6n f3. g1N f6. g8n ".split():
            board.change(word[:2], word[2])
        with a_line(board) as (line, path), subprocess.Popen(
                [*PROGRAM, "game", line.path, "--log"], stdout=subprocess.PIPE, text=True, cwd="/",
                env=ENVIRONMENT) as got:
            fcntl.fcntl(got.stdout, fcntl.F_SETPIPE_SZ, 4096)
            time.sleep(8)
            lines = got.stdout.read().splitlines()
            wanted("lines that are read late", (got.wait(SECONDS), len(lines)), (0, 401))

    def test_program_no_log(self):
        """Boards that send no log, a part of one, or one that the line alters; and a signal."""
        bad = "the line altered or lost bytes in each of 3 attempts: {}. Try another cable or " \
              "socket, without a hub\n"
        for board, spoil, said, least in [
                (dgt.Board(), bytes, "the board sent no log within 5 seconds. Not every board "
                 "keeps one. Switch it off and on, and try again; dgt-doctor checks whether it "
                 "answers\n", 5),
                (None, lambda message: message[:-1],
                 bad.format("a message was cut off after 7 bytes"), 0),
                (None, lambda message: b"\x8f\x01" + message, bad.format("cut 2"), 0)]:
            with a_line(board) as (line, path):
                line.spoil, begun = spoil, time.monotonic()
                got = ran("game", line.path, "--log", "--pgn", path)
                passed = time.monotonic() - begun
                wanted("its end", (got.returncode, got.stdout, got.stderr, path.exists()),
                       (1, "", f"dgt-game: {line.path}: {said}", False))
                wanted(f"whether it waits, {passed}", least <= passed, True)
        with a_line() as (line, path):
            spoiled = iter([lambda message: message[:-1] + b"\x86", lambda message: b"\x05"
                            + message])
            line.spoil = lambda message: next(spoiled, bytes)(message)
            line.board.change("e2", ".")
            line.board.change("e4", "P")
            got = ran("game", line.path, "--log")
            wanted(f"the third time, {got.stderr}", (got.returncode, got.stdout.splitlines()[1:]),
                   (0, ["1. e4 e2e4"]))
        with a_line(dgt.Board()) as (line, path):
            with subprocess.Popen([*PROGRAM, "game", line.path, "--log"], env=ENVIRONMENT, cwd="/",
                                  stderr=subprocess.PIPE, text=True) as got:
                cases.wait("a request", lambda: line.asked)
                got.send_signal(signal.SIGTERM)
                wanted("after a signal", (got.wait(SECONDS), got.stderr.read()), (1, ""))

    def test_replayed_log(self):
        """The session of tests/sessions/ with a log."""
        with subprocess.Popen([*PROGRAM, "replay", "--speed", "100", SESSION], env=ENVIRONMENT,
                              cwd="/", stdout=subprocess.PIPE, text=True) as replay:
            path = self.folder / "games.pgn"
            got = ran("game", replay.stdout.readline().strip(), "--log", "--pgn", path)
            games = pgn_games.compare(path, dgt)
            wanted(f"its status, {got.stderr}", (got.returncode, replay.wait(SECONDS)), (0, 0))
            wanted("its games", [(len(game.moves), game.clocks[-1], game.result) for game in games],
                   [(7, "0:04:32", "*"), (4, "0:04:42", "0-1")])
        lines = [line.removeprefix("# prints ") for line in SESSION.read_text().splitlines()
                 if line.startswith("# prints ")]
        wanted("its lines", got.stdout.splitlines(), lines)

    def test_example_log(self):
        """bindings/python/examples/board.py keeps a log."""
        pipes = {"stdin": subprocess.PIPE, "stdout": subprocess.PIPE}
        with subprocess.Popen([sys.executable, ROOT / "bindings/python/examples/board.py"],
                              text=True, **pipes, env=os.environ
                              | {"PYTHONDONTWRITEBYTECODE": "1"}) as board:
            board.stdin.write("clock 0:05:00 0:05:00\ne2e4\nclock 0:04:50 0:05:00\ne7e5\n"
                              "clock 0:04:50 0:04:51\noff\ng1f3\n")
            board.stdin.flush()
            port = board.stdout.readline().strip()
            time.sleep(1)  # for the moves
            got = ran("game", port, "--log")
        wanted(f"its lines, {got.stderr}", got.stdout.splitlines()[1:],
               ["1. e4 e2e4 0:05:00 0:05:00", "1... e5 e7e5 0:04:50 0:05:00", "broken off"])

    def test_trial_log(self):
        """The boards of trials keep a log until a host listens."""
        table = Boards(self.folder, 1)
        for _ in range(3):
            table[0].play()
        got = ran("game", table[0].path, "--log")
        table.close()
        wanted(f"its lines, {got.stderr}", got.stdout.splitlines()[1:],
               ["1. e4 e2e4", "1... e5 e7e5", "2. Nf3 g1f3"])
