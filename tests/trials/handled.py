"""Games that hands play on a board, square by square, with accidents. Times are in milliseconds."""

import functools
import pathlib
import random
from dataclasses import dataclass, field
from typing import Any, NamedTuple

import dgt
import pgn_games
from dgt.chess import Colour, State
from dgt.values import LETTERS, SQUARES

GAMES = pathlib.Path(__file__).resolve().parents[2] / "apps/broadcast/page/games.pgn"
# Three mates and a stalemate.
SHORT = ("f2f3 e7e5 g2g4 d8h4", "e2e4 e7e5 f1c4 b8c6 d1h5 g8f6 h5f7",
         "e2e4 c7c6 d2d4 d7d5 b1c3 d5e4 c3e4 b8d7 d1e2 g8f6 e4d6",
         "e2e3 a7a5 d1h5 a8a6 h5a5 h7h5 h2h4 a6h6 a5c7 f7f6 c7d7 e8f7 d7b7 d8d3 b7b8 d3h7 b8c8 "
         "f7g6 c8e6")
RANDOM, MOST = 300, 90  # how many random games there are, and the half-moves of the longest
NUMBER = {name: number for number, name in enumerate(SQUARES)}
CODE = {letter: code for code, letter in enumerate(LETTERS)}
PAWNS, KINGS = (CODE["P"], CODE["p"]), (CODE["K"], CODE["k"])
SLIDERS = {CODE[letter] for letter in "RBQrbq"}
START = State.start().position.codes
CENTRE = {"1-0": ["e4 d5"], "0-1": ["d4 e5"], "1/2-1/2": ["e4 e5", "d4 d5"]}
AROUND = (-9, -8, -7, -1, 1, 7, 8, 9)

Act = tuple[int, str, Any, int]  # when, what happens, and to what
Step = tuple[int, int, int]  # a wait, a square, and what stands there then


class Record(NamedTuple):
    """A game: its moves, the squares before and after each, and its result if it is over."""

    moves: list[str]
    squares: list[bytes]
    result: str


@dataclass(frozen=True)
class Family:
    """What happens in games, with shares of half-moves."""

    name: str
    whole: float  # the aim: the share of games without a fault
    slide: float = 0.3
    late: float = 0.5  # of promotions: the pawn is put first
    adjust: float = 0
    misplace: float = 0
    take_back: float = 0
    bump: float = 0
    doubt: float = 0
    altered: float = 0  # of dumps
    first: tuple[int, int] = (3000, 8000)  # from the set-up to the first move
    paces: tuple[tuple[int, int], ...] = ((500, 1200), (3000, 5000))  # of a half-move


@dataclass
class Game:
    """A game as it was played."""

    record: Record
    result: str
    cleared_at: int  # when its set-up began
    begun_at: int = 0
    done: list[int] = field(default_factory=list)  # when each half-move had its last square


def recorded(moves: list[str]) -> Record:
    states = [State.start()]
    for move in moves:
        states.append(states[-1].play(move))
    last, winner = states[-1], "1-0" if len(moves) % 2 else "0-1"
    result = winner if last.is_mate else "1/2-1/2" if last.is_stalemate else ""
    return Record(moves, [each.position.codes for each in states], result)


@functools.cache
def real_games() -> list[tuple[Record, str]]:
    """Famous and short games, with their results."""
    found = [(recorded(moves.split()), "") for moves in SHORT]
    read = pgn_games.read(dgt, GAMES.read_text())
    return found + [(recorded(game.moves), game.result) for game in read]


def is_special(squares: bytes, move: str) -> bool:
    """Whether a move captures, castles or promotes."""
    at, to = NUMBER[move[:2]], NUMBER[move[2:4]]
    return (squares[to] != 0 or len(move) == 5 or squares[at] in KINGS and abs(at - to) == 2
            or squares[at] in PAWNS and (at - to) % 8 != 0)


@functools.cache
def random_game(number: int) -> Record:
    """Random legal moves, but none back to the starting position, which begins a game. Special
    moves are made more often, and those of far pawns."""
    chance, state, moves = random.Random(f"game {number}"), State.start(), list[str]()
    most = chance.randint(12, MOST)
    while len(moves) < most and not state.is_dead and (legal := state.moves()):
        codes, pawn = state.position.codes, PAWNS[state.turn]
        far = range(32) if state.turn == Colour.WHITE else range(32, 64)
        weights = [6 if is_special(codes, each) else
                   4 if codes[at := NUMBER[each[:2]]] == pawn and at in far else 1
                   for each in legal]
        move = chance.choices(legal, weights)[0]
        if (after := state.play(move)).position.codes != START:
            state = after
            moves.append(move)
    return recorded(moves)


def any_game(chance: random.Random, is_real: bool) -> tuple[Record, str]:
    """A game and its result. Two of five long real ones are given up early."""
    record, result = chance.choice(real_games()) if is_real else (
        random_game(chance.randrange(RANDOM)), "")
    if is_real and len(record.moves) > 20 and chance.random() < 0.4:
        count = chance.randint(10, len(record.moves) - 1)
        record, result = Record(record.moves[:count], record.squares[:count + 1], ""), ""
    return record, record.result or result or chance.choice(list(CENTRE))


class Session:
    """Two games on one board. `acts` contains what happens, in the order of time."""

    def __init__(self, family: Family, seed: int) -> None:
        self.family, self.seed = family, seed
        self.chance = random.Random(f"{family.name} {seed}")
        self.turned, self.has_clock = seed % 5 == 0, seed % 2 == 0
        self.pace = family.paces[seed // 2 % 2]
        self.at = self.sure_at = 0
        self.back = -1  # if the cable is out, it is in again after this half-move
        self.acts: list[Act] = []
        self.squares = bytearray(64 if seed % 3 == 0 else START)
        self.first = bytes(self.squares)
        self.games: list[Game] = []
        for number in range(2):
            self.play(*any_game(self.chance, (seed + number) % 2 == 0))
        self.acts.sort(key=lambda act: act[0])

    def wait(self, least: int, most: int) -> int:
        return self.chance.randint(least, most)

    def happens(self, share: float) -> bool:
        return self.chance.random() < share

    def put(self, *steps: Step) -> None:
        for wait, square, code in steps:
            self.at += wait
            self.squares[square] = code
            self.acts.append((self.at, "put", square, code))

    def near(self, square: int, *but: int) -> list[int]:
        """An empty square next to this one, if there is one."""
        free = [to for by in AROUND if 0 <= (to := square + by) < 64 and to not in but
                and abs(to % 8 - square % 8) < 2 and not self.squares[to]]
        return self.chance.sample(free, min(1, len(free)))

    # ---- A half-move

    def order(self, move: str) -> list[tuple[int, int]]:
        """The squares that a move changes, in an order that hands may have."""
        at, to, squares = NUMBER[move[:2]], NUMBER[move[2:4]], self.squares
        man, choose = squares[at], self.chance.choice
        becomes = CODE[move[4].upper() if to < 8 else move[4]] if len(move) == 5 else man
        lift, down = (at, 0), (to, becomes)
        if man in KINGS and abs(at - to) == 2:
            corner, beside = (at + 3, at + 1) if to > at else (at - 4, at - 1)
            rook, aside = (corner, 0), (beside, squares[corner])
            return choose([[lift, down, rook, aside], [rook, aside, lift, down],
                           [lift, rook, down, aside]])
        if squares[to]:  # the last way pushes the piece off the square
            return choose([[(to, 0), lift, down], [lift, (to, 0), down], [lift, down]])
        if man in PAWNS and (at - to) % 8:
            passed = (at // 8 * 8 + to % 8, 0)
            return choose([[passed, lift, down], [lift, passed, down], [lift, down, passed]])
        return [lift, down]

    def steps(self, move: str) -> list[Step]:
        """The same with waits, and with what the hands do before they put the piece down."""
        at, to, order = NUMBER[move[:2]], NUMBER[move[2:4]], self.order(move)
        man, place, extra = self.squares[at], len(order) - 1, list[Step]()
        waits = (40, 150) if self.pace[0] < 2000 else (80, 400)
        steps = [(self.wait(*waits), *each) for each in order]
        is_plain = order[-1][0] == to and man not in KINGS
        if len(move) == 5 and self.happens(self.family.late):
            extra = [(self.wait(40, 150), to, man), (self.wait(200, 2000), to, 0)]
        elif is_plain and self.happens(self.family.misplace) and (wrong := self.near(to, at)):
            extra = [(self.wait(40, 150), wrong[0], man), (self.wait(300, 1500), wrong[0], 0)]
        elif man in SLIDERS and is_plain and self.happens(self.family.slide):
            step = (to - at) // max(abs(to // 8 - at // 8), abs(to % 8 - at % 8))
            for square in range(at + step, to, step):
                extra += [(self.wait(10, 40), square, man), (self.wait(20, 300), square, 0)]
        if order[place - 1][0] == to and len(move) < 5 and self.happens(0.5):
            place -= 1  # the other piece is taken off only then
        return steps[:place] + extra + steps[place:]

    def make(self, move: str) -> None:
        """Makes a move at the pace of the game."""
        steps = self.steps(move)
        self.at += max(50, self.wait(*self.pace) - sum(step[0] for step in steps))
        self.put(*steps)

    # ---- What happens between half-moves

    def adjust(self) -> None:
        """One or two pieces are lifted and put back."""
        full = [square for square in range(64) if self.squares[square]]
        lifted = [(at, self.squares[at]) for at in self.chance.sample(full, self.wait(1, 2))]
        self.put(*[(self.wait(80, 500), at, 0) for at, _ in lifted])
        self.put(*[(self.wait(150, 800), *each) for each in lifted])

    def bump(self) -> None:
        """One to three pieces are bumped to near squares, and put back one by one."""
        full, moved = [square for square in range(64) if self.squares[square]], []
        self.at += self.wait(100, 800)
        for square in self.chance.sample(full, min(len(full), self.wait(1, 3))):
            for to in self.near(square, *full):
                moved.append((to, square, self.squares[square]))
                self.put((self.wait(0, 60), square, 0), (self.wait(10, 60), to, moved[-1][2]))
        self.at += self.wait(1500, 6000)
        for to, square, man in moved:
            self.put((self.wait(200, 600), to, 0), (self.wait(150, 400), square, man))

    def take_back(self, state: State, right: str) -> None:
        """Another move is made and taken back, not one that castles, promotes or ends the game."""
        squares = bytes(self.squares)
        moves = [move for move in state.moves() if move != right and len(move) < 5 and (
            squares[NUMBER[move[2:4]]] or not is_special(squares, move))]
        if not moves or not state.play(move := self.chance.choice(moves)).can_move:
            return
        at, to = NUMBER[move[:2]], NUMBER[move[2:4]]
        self.make(move)
        back = [(self.wait(80, 300), at, squares[at])]
        if squares[to]:
            back.insert(self.wait(0, 1), (self.wait(80, 300), to, squares[to]))
        self.put((self.wait(300, 3000), to, 0), *back)
        self.at += self.wait(200, 1500)

    def choose_gap(self, squares: list[bytes]) -> tuple[int, int]:
        """After how many half-moves a gap begins, and its length. Its end repeats no position: the
        half-moves would leave no trace."""
        hidden = self.wait(1, 6)
        ends = [end for end in range(hidden + 1, len(squares) - 1)
                if squares[end] not in squares[:end]]
        return (self.chance.choice(ends) - hidden, hidden) if ends else (-1, 0)

    def accidents(self, game: Game, number: int, gap: tuple[int, int]) -> None:
        """What happens after this number of half-moves, at times with the next one."""
        family, is_last = self.family, number == len(game.record.moves)
        if self.back == number:
            self.acts.append((self.at + self.wait(50, 150), "cable", True, 0))
            self.back = -1
        elif family.name == "gaps" and number == gap[0]:
            self.acts.append((self.at + self.wait(20, self.pace[0] - 200), "cable", False, 0))
            self.back = sum(gap)
        elif family.name == "cable" and is_last and len(self.games) == 1:
            self.acts.append((self.at + self.wait(100, 3000), "cable", False, 0))
            self.back = self.chance.choice((0, 0, 1, 1, 2, 2, 3))
        if self.happens(family.doubt) and self.at > self.sure_at + 2000:
            begun = self.at + self.wait(0, 600)
            self.sure_at = begun + self.wait(500, 10_000)
            self.acts += [(begun, "sure", False, 0), (self.sure_at, "sure", True, 0)]
        if number and self.happens(family.adjust):
            self.adjust()
        if number and self.happens(family.bump):
            self.bump()

    # ---- Whole games

    def play(self, record: Record, result: str) -> None:
        game, count, state = Game(record, result, self.at), len(record.moves), State.start()
        self.games.append(game)
        self.set_up()
        game.begun_at, gap = self.at, self.choose_gap(record.squares)
        first = self.wait(*self.family.first)
        self.run(first // 8, first // 2, Colour.WHITE)
        for number, move in enumerate(record.moves):
            self.accidents(game, number, gap)
            if number and self.happens(self.family.take_back):
                self.take_back(state, move)
            if number:
                self.make(move)
            else:
                self.at += first
                self.put(*self.steps(move))
            game.done.append(self.at)
            state = state.play(move) if self.family.take_back else state
            self.run(100, 400, Colour(1 - number % 2))
        self.accidents(game, count, gap)
        self.run(401, 1000, None)
        self.at += self.wait(5000, 15_000) if record.result else self.wait(1500, 5000)
        if not record.result:
            self.put_kings(result)

    def run(self, least: int, most: int, colour: Colour | None) -> None:
        """The clock runs for a colour after a while."""
        if self.has_clock:
            self.acts.append((self.at + self.wait(least, most), "run", colour, 0))

    def put_kings(self, result: str) -> None:
        """Both kings are lifted, and put down for the result. What stands there is taken off."""
        places = [NUMBER[name] for name in self.chance.choice(CENTRE[result]).split()]
        kings = self.chance.sample([self.squares.index(king) for king in KINGS], 2)
        off = [at for at in places if self.squares[at] and at not in kings]
        self.put(*[(self.wait(100, 400), at, 0) for at in off + kings])
        down = zip(places, self.chance.sample(KINGS, 2))
        self.put(*[(self.wait(150, 600), *each) for each in down])
        self.at += self.wait(1200, 4000)

    def set_up(self) -> None:
        """Piece by piece, in any order. In one of five White's king and queen change places, and
        are put right later."""
        goal = bytearray(START)
        if self.squares != START and self.happens(0.2):
            goal[59], goal[60] = goal[60], goal[59]
        for pieces in (goal, START):
            todo = [square for square in range(64) if self.squares[square] != pieces[square]]
            for square in self.chance.sample(todo, len(todo)):
                if self.squares[square]:
                    self.put((self.wait(80, 400), square, 0))
                if man := pieces[square]:
                    others = [at for at in todo if self.squares[at] == man != pieces[at]]
                    self.put(*[(self.wait(80, 400), at, 0) for at in others[:1]],
                             (self.wait(80, 400), square, man))
            if pieces is goal and goal != START:
                self.at += self.wait(1000, 3000)
