"""The recognition of moves of the package for Python: each case of the table in
apps/eboard/test_moves.c, which the adapter for eboard passes too, games of `dgt-livechess`, and
random games. games.txt has more."""

import pathlib
import re

import cases
import dgt
from dgt._live_boards import Game as LiveGame
from games import PERFT, Game, Hand, played
from wrong import wanted


# ---- The table of the adapter for eboard

TABLE = pathlib.Path(__file__).resolve().parents[2] / "apps/eboard/test_moves.c"
# What the recogniser reports instead of what the adapter reports, by the name of the case. It
# also reports what is taken back and made again, and replaces moves of either side. It waits for
# the rook of a castling and for the piece that a pawn becomes, and reports that a game begins.
OTHERS = {
    "seen once more while it rests": "e2e4 -e2e4",
    "a queen's move is none that looks like it": "QUEEN_IN_CORNER h1f1 -h1f1",
    "taken back": "e2e4 -e2e4 d2d4",
    "the first move, taken back and made again": "e2e4 -e2e4 e2e4 e7e5",
    "taken back and made again": "e2e4 e7e5 g1f3 -g1f3 g1f3 b8c6",
    "taken back, made again and answered at once": "e2e4 e7e5 g1f3 -g1f3 g1f3 b8c6 f1c4",
    "two taken back and made again": "e2e4 e7e5 g1f3 b8c6 -b8c6 -g1f3 g1f3 b8c6 f1c4",
    "two taken back, and another made again":
        "e2e4 e7e5 g1f3 b8c6 -b8c6 -g1f3 g1f3 d7d6 f1c4",
    "taken back, another made, and then it": "e2e4 e7e5 g1f3 -g1f3 b1c3 -b1c3 g1f3",
    "another game with the same moves": "e2e4 e7e5 -e7e5 -e2e4 e2e4 e7e5 g1f3",
    "two moves taken back": "e2e4 e7e5 -e7e5 -e2e4 d2d4",
    "two moves taken back at once": "e2e4 e7e5 g1f3 b8c6 -b8c6 -g1f3 d2d4",
    "a capture taken back": "e2e4 d7d5 e4d5 -e4d5 e4e5",
    "a capture taken back, the taken one first": "e2e4 d7d5 e4d5 -e4d5 e4e5",
    "castling taken back": "ITALIAN e1g1 -e1g1 d2d3",
    "castling taken back, the rook first": "ITALIAN e1g1 -e1g1 d2d3",
    "a promotion taken back": "SEVENTH h7g8q -h7g8q h7g8r b7b6",
    "a promotion taken back with its answer, and both made again":
        "SEVENTH h7g8q b7b6 -b7b6 -h7g8q h7g8r b7b6 g1f3",
    "put elsewhere after all, and answered":
        "e2e3 -e2e3 e2e4 e7e5 -e7e5 -e2e4 e2e3 e7e5 d2d4",
    "put elsewhere after all": "e2e3 -e2e3 e2e4 -e2e4 e2e3 e7e5",
    "the other side's, slid on late": "e2e4 e7e6 -e7e6 e7e5 g1f3",
    "the other side's, put right by a leap": "e2e4 b8a6 -b8a6 b8c6 g1f3",
    "put right by a leap, and answered at once": "e2e4 b8a6 -b8a6 b8c6 g1f3 b7b6",
    "put right, and taken at once": "d2d4 e7e6 -e7e6 e7e5 d4e5 a7a6",
    "put right, slid up to what it takes": "e2e4 d7d5 e4d5 d8d6 -d8d6 d8d5 b1c3",
    "put right twice, and taken back": "e2e4 e7e6 -e7e6 e7e5 -e7e5 e7e6 -e7e6 d7d5",
    "the other side's castling, the rook long before": "BISHOP f8c5 b1c3 h8f8 -h8f8 e8g8 c1e3",
    "White's, where Black plays": "e2e3 -e2e3 e2e4 e7e6 -e7e6 e7e5 -e7e5 e7e6 d2d4",
    "nobody's, where both are wanted": "e2e4 e7e6 -e7e6 e7e5 -e7e5 e7e6 d2d4",
    "set up again, piece by piece": "e2e4 e7e5 g1f3 -g1f3 -e7e5 -e2e4 d2d4",
    "set up again, a piece that goes home by a move": "e2e4 g8f6 -g8f6 -e2e4 d2d4",
    "set up again, from a heap": "SEVENTH game d2d4",
    "set up again, the kings last": "e2e4 game e3e4 g6g5",
    "the same, and Black moves first": "e2e4 game g6g5 e3e4",
    "set up, at first as no game reaches it": "e2e4 game e4e5",
    # The adapter for eboard never changes what it has reported, and makes a pawn a queen.
    "promotion, the pawn never replaced": "SEVENTH",
    "put elsewhere after all, and never put right": "e2e3 -e2e3 e2e4 e7e5 d2d4",
    "the own castling, the rook long before": "ITALIAN h1f1 -h1f1 e1g1 -e1g1 h1f1 d7d6",
    "turned after a move was taken back": "e2e4 e7e5 g1f3 -g1f3 game g1f3",
    "a turned board": "game e2e4 e7e5 -e7e5 -e2e4",
    "turned between two games": "e2e4 game e2e4",
    "a castling on a turned board": "game ITALIAN e1g1 d7d6",
}


def read_table():
    """The name and the steps of each case, as the compiler reads them, and what is reported."""
    text = TABLE.read_text().replace("\\\n", " ")
    macros = dict(re.findall(r"^#define (\w+) +(.*)$", text, re.M))
    table = text.split("CASES[] = {", 1)[1].split("\n};", 1)[0]

    def said(code):
        parts = re.findall(r'"([^"]*)"|(\w+)', code)
        return "".join(quoted if not name else said(macros[name]) for quoted, name in parts)

    for case in re.findall(r"\{(.*?)\},", table, re.S):
        name, steps, moves = re.split(r'(?<="),|(?<=[A-Z]),', case)
        other = [said(macros[word]) if word in macros else word
                 for word in OTHERS.get(said(name), "").split()]
        yield said(name), said(steps).split(), " ".join(other) or said(moves).lower()


def do(hand, step):
    number = hand.dgt.square_number
    if step == "turned":
        hand.squares = list(reversed(hand.dgt.Position.start().letters))
        hand.show()
        hand.rest(0.4)
    elif step == "seen":
        hand.show()
        hand.rest(0.06)
    elif step.isdigit():
        hand.rest(int(step) / 1000)
    elif len(step) == 3:
        hand.put(number(step[:2]), step[2])
    elif step not in ("black", "both"):
        at, to = number(step[:2]), number(step[2:])
        letter = hand.squares[at]
        if hand.squares[to] != ".":
            hand.put(to, ".")
        hand.put(at, ".")
        hand.put(to, letter)
        hand.rest(0.4)


# ---- Games that go on from a position

# Moves on the board, and the moves after which a client of `dgt-livechess` continues its game. Then
# steps of the table, and the moves of the client's game, which begins anew.
GIVEN = [
    ("e2e4 e7e5", "e2e4 e7e5", "g1f3", "Nf3"),
    ("", "", "e2e4", "e4"),
    # Earlier moves are taken back, also to the position from which it went on.
    ("e2e4 e7e5", "e2e4 e7e5", "e5e7 c7c5 9000 c5c7 e7e5 g1f3", "Nf3"),
    ("e2e4", "e2e4", "g8f6 g1f3 f6g8 500 f3g1", "Nf6 Nf3 Ng8 Ng1"),
    ("e2e4", "e2e4", "d7d5 b1c3 g8f6 f6g8 c3b1 d5d7", ""),
    # The other side's move isn't on the board yet.
    ("e2e4", "e2e4 e7e5", "a2. a2P 70000", ""),
    ("g1f3", "g1f3 g8f6", "70000 g8f6 f3e5", "Ne5"),
    ("e2e4", "e2e4 e7e5", "g1f3 2500 e7e5", "Nf3"),
    ("e2e4", "e2e4 e7e5", "c7c5 2500 c5c7 e7e5", ""),
    ("e2e4", "e2e4 e7e5", "e7e5 e5e7 c7c5", None),
    # Another position begins a game, and nothing else does, not even the first squares.
    ("e2e4", "d2d4", "e4e2 9000 d2d4 d7d5", "d5"),
    ("e2e4", "d2d4 d7d5", "e4e2 d2d4 9000 g8f6 9000 f6g8 d7d5", ""),
    ("e2e4 e7e5 g1f3", "e2e4", "f3g1 9000 e5e7 e7e6", "e6"),
    ("e2e4", "e2e4", "e8. e1. e7k e3K 70000", ""),
    ("e2e4 e7e5 g1f3 b8c6", "e2e4 e7e5 g1f3 b8c6", "c6b8 f3g1 e5e7 e4e2 9000", None),
    # It was left by two moves meanwhile. A knight that may not have been moved yet is none.
    ("e2e4 e7e5 g1f3 b8c6", "e2e4 e7e5", "2000", "Nf3 Nc6"),
    ("d2d4 d7d5", "d2d4 d7d5 g1f3 g8f6", "9000 g1f3 g8f6 c2c4", "c4"),
]


class LiveHand(Hand):
    """A hand on a board of `dgt-livechess`, with its own game and that of a client."""

    def __init__(self, letters):
        self.own = self.client = LiveGame()
        super().__init__(dgt, letters)

    def show(self):
        view = dgt.BoardView(dgt.Position.of_letters("".join(self.squares)), confirmed=True)
        for game in {self.own, self.client}:
            game.see(view, self.time)

    def rest(self, seconds):
        self.time += seconds
        for game in {self.own, self.client}:
            while (due := game.watched.due) is not None and due <= self.time:
                game.wait(due)


class Recognition(cases.Case):
    def test_table(self):
        rows = list(read_table())
        wanted("cases that the table hasn't", set(OTHERS) - {name for name, _, _ in rows}, set())
        for name, steps, right in rows:
            hand = Hand(dgt, dgt.Position.start().letters)
            for step in steps:
                do(hand, step)
            hand.rest(12)  # moves faster than hands wait for 10 s
            wanted(name, hand.told, ["game", *right.split()])

    def test_given(self):
        """A game goes on from a position, whichever the board shows."""
        for before, given, steps, moves in GIVEN:
            state = played(dgt.GameState.start(), given)
            hand = LiveHand(dgt.Position.start().letters)
            for step in before.split():
                do(hand, step)
            hand.client = LiveGame(hand.own, hand.time)
            for _ in range(2):
                hand.client.set_up(state, hand.time)
            right = given.removeprefix(f"{before} ")  # one move more, or something else
            wanted(f"pending: {before}, from {given}", hand.client.pending,
                   right if len(right) == 4 and right != given else None)
            hand.show()
            for step in steps.split():
                do(hand, step)
            wanted(f"{before}, from {given}, {steps}", hand.client.moves,
                   None if moves is None else moves.split())

    def a_game(self, seed):
        game = Game(dgt, seed, PERFT[seed % 16][0] if seed % 16 < len(PERFT) else None)
        while game.made < 100 and game.step():
            pass
        game.hand.rest(2.5)
        wanted(f"moves of {' '.join(game.hand.told)}", game.hand.moves, game.moves)


for number in range(24):
    cases.generate(Recognition, f"game_{number}", Recognition.a_game, number)
