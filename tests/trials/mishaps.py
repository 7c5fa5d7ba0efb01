"""Hands that play a game with an accident, and note what the file of games should have."""

import random
from typing import Any, NamedTuple

import dgt
from dgt.chess import Colour, State
from dgt.errors import BadValue
from dgt.values import LETTERS
from handled import KINGS, NUMBER, PAWNS, START, Family, Record, Session, Step, any_game
from judged import lines

BRANCH = 4  # a game with the same first half-moves as the one before goes on from them
Way = Any  # a function of hands and a move: the steps of this move, or None as usual


class Kept(NamedTuple):
    """A game: its first squares and side, its moves, and its result."""

    squares: bytes
    turn: Colour
    moves: list[str]
    result: str


def kind(squares: bytes, move: str) -> str:
    at, to = NUMBER[move[:2]], NUMBER[move[2:4]]
    if len(move) == 5:
        return "promotion"
    if squares[at] in KINGS and abs(at - to) == 2:
        return "castling"
    if squares[to]:
        return "capture"
    return "passing" if squares[at] in PAWNS and (at - to) % 8 else "plain"


def state_of(squares: bytes, turn: int) -> State | None:
    """The state of these squares without castlings, if the rules allow it."""
    try:
        return State.parse(f"{dgt.Position(bytes(squares)).placement} {'wb'[turn]} - - 0 1")
    except BadValue:
        return None


class Hands(Session):
    """The hands of a game with an accident, and what the file should have afterwards."""

    def __init__(self, name: str, seed: int, act: Any) -> None:
        self.seed, self.chance = seed, random.Random(f"{name} {seed}")
        self.family = Family(name, 1, slide=0 if name == "clean" else 0.3,
                             late=0 if name == "clean" else 0.5)
        self.turned = self.first_turned = name == "board_turned" or seed % 5 == 4
        self.has_clock, self.pace = seed % 2 == 0, (2000, 5000)
        self.at, self.acts, self.games = 0, [], []
        self.squares, self.first = bytearray(START), START
        self.noise, self.period, self.missing, self.is_warned = 0.0, 2.0, -1, False
        self.kept: list[Kept] = []
        self.state = State.start()
        act(self)
        self.acts.sort(key=lambda act: act[0])

    # ---- Games

    def choose(self, good: Any = None, back: int = 6) -> None:
        """Chooses a game that begins otherwise than the one before, and a half-move of it that is
        `good`, and not one of the first or last."""
        before = self.kept[-1].moves if self.kept else []
        while True:
            self.record, self.result = any_game(self.chance, self.chance.random() < 0.5)
            squares, moves = self.record.squares, self.record.moves
            places = [at for at in range(4, len(moves) - back)
                      if good is None or good(squares[at], moves[at])]
            if places and moves[:BRANCH] != before[:BRANCH]:
                self.place = self.chance.choice(places)
                break

    def begin(self, state: State, *first: int) -> None:
        self.state = state
        self.kept.append(Kept(state.position.codes, state.turn, [], "*"))
        self.run(100, 400, state.turn)
        self.at += self.wait(*first) if first else self.wait(3000, 8000)

    def half(self, move: str, steps: list[Step] | None = None, press: tuple[int, int] = (100, 400),
             ) -> None:
        """Makes a half-move of the game, maybe with these steps."""
        if steps is None:
            self.make(move)
        else:
            self.at += self.wait(*self.pace) // 2
            self.put(*steps)
        self.state = self.state.play(move)
        self.kept[-1].moves.append(move)
        self.run(*press, self.state.turn)

    def next(self) -> str | None:
        done = len(self.kept[-1].moves)
        return self.record.moves[done] if done < len(self.record.moves) else None

    def go(self, end: int = 999, way: Way | None = None, before: Any = None,
           share: float = 1) -> None:
        """Plays up to a half-move, a share of them in a way or after something else."""
        while len(self.kept[-1].moves) < end and (move := self.next()):
            is_so = self.happens(share)
            if before and is_so and self.kept[-1].moves:
                before(self)
            self.half(move, way(self, move) if way and is_so else None)

    def finish(self, result: str = "") -> None:
        self.run(401, 1000, None)
        result = result or self.result
        if self.state.can_move:
            self.at += self.wait(1500, 5000)
            self.put_kings(result)
        else:
            lost = ("0-1", "1-0")[self.state.turn]
            result = lost if self.state.is_mate else "1/2-1/2"
            self.at += 12_000
        self.kept[-1] = self.kept[-1]._replace(result=result)

    def each(self, way: Way | None = None, before: Any = None, share: float = 1,
             good: Any = None) -> None:
        """A whole game."""
        self.choose(good)
        self.begin(State.start())
        self.go(999, way, before, share)
        self.finish()

    def open(self, good: Any = None, back: int = 6) -> None:
        """A game up to its chosen half-move."""
        self.choose(good, back)
        self.begin(State.start())
        self.go(self.place)

    def once(self, act: Any, good: Any = None, back: int = 6) -> None:
        """A game in which something happens once."""
        self.open(good, back)
        act(self)
        self.go()
        self.finish()

    def again(self, *first: int) -> None:
        """The pieces are set up in any order, and a short second game follows."""
        self.run(0, 100, None)
        self.set_up()
        self.choose()
        self.begin(State.start(), *first)
        self.go(14)
        self.finish()

    def some(self, count: int) -> None:
        """Half-moves by chance."""
        for _ in range(count):
            if moves := self.others(""):
                self.half(self.chance.choice(moves))

    # ---- Parts of accidents

    def others(self, right: str, state: State | None = None) -> list[str]:
        """Legal moves but this one, that neither castle, promote, capture in passing nor end."""
        state = state or self.state
        squares = state.position.codes
        return [move for move in state.moves() if move != right and kind(squares, move) in
                ("plain", "capture") and (after := state.play(move)).can_move
                and after.position.codes != START]

    def restore(self, goal: bytes, *waits: int) -> None:
        """Puts the pieces as they are there."""
        waits, squares = waits or (80, 300), self.squares
        differ = [at for at in range(64) if squares[at] != goal[at]]
        self.chance.shuffle(differ)
        self.put(*[(self.wait(*waits), at, 0) for at in differ if squares[at]],
                 *[(self.wait(*waits), at, goal[at]) for at in differ if goal[at]])

    def place_all(self, goal: bytes, last: tuple[int, ...] = ()) -> None:
        """Takes all pieces off, and puts others piece by piece, the last ones in the end."""
        self.restore(bytes(64))
        squares = [at for at in range(64) if goal[at]]
        self.chance.shuffle(squares)
        self.put(*[(self.wait(80, 400), at, goal[at])
                   for at in sorted(squares, key=lambda at: goal[at] in last)])

    def wander(self, count: int, *hold: int) -> None:
        """Other half-moves are made, and taken back after a while."""
        before, state = [bytes(self.squares)], self.state
        for number in range(count):
            if moves := self.others("" if number else self.next() or "", state):
                self.make(move := self.chance.choice(moves))
                state = state.play(move)
                before.append(bytes(self.squares))
        self.at += self.wait(*hold)
        for each in before[-2::-1]:
            self.restore(each)

    def analyse(self, count: int) -> None:
        """Half-moves that belong to no game."""
        state = self.state
        for _ in range(count):
            if moves := self.others("", state):
                self.make(move := self.chance.choice(moves))
                state = state.play(move)

    def touch(self, count: int, *off: int) -> None:
        """Pieces are lifted one after another, and put back."""
        full = [at for at in range(64) if self.squares[at]]
        for at in self.chance.sample(full, min(count, len(full))):
            self.put((self.wait(100, 300), at, 0), (self.wait(*off), at, self.squares[at]))

    def empty(self, *but: str) -> int:
        """An empty square that these moves don't touch."""
        used = {NUMBER[move[at:at + 2]] for move in but for at in (0, 2)}
        return self.chance.choice([at for at in range(16, 48)
                                   if not self.squares[at] and at not in used])

    def illegal(self) -> None:
        """An illegal move, taken back after a while."""
        legal = {move[:4] for move in self.state.moves()}
        own = [at for at in range(64) if self.squares[at]
               and (LETTERS[self.squares[at]].isupper() == (self.state.turn == 0))]
        names = {number: name for name, number in NUMBER.items()}
        at, to = self.chance.choice(
            [(at, to) for at in own for to in range(64)
             if not self.squares[to] and names[at] + names[to] not in legal])
        man = self.squares[at]
        self.at += self.wait(500, 2000)
        self.put((100, at, 0), (self.wait(100, 500), to, man),
                 (self.wait(1000, 10_000), to, 0), (self.wait(100, 500), at, man))

    def cable(self, what: str, count: int) -> None:
        """The cable or the power is out for some half-moves, the only line if there are few."""
        state, halves = State.start(), list[State]()
        self.choose(back=count + 2)
        for move in self.record.moves:
            halves.append(state)
            state = state.play(move)
        squares = self.record.squares
        only = [at for at in range(4, len(halves) - count - 2)
                if count < 5 and squares[at + count] not in squares[:at + 1]]
        self.chance.shuffle(only)
        for at in only[:8]:
            if lines(halves[at], squares[at + count], count) == 1:
                self.place = at
                break
        else:
            self.missing, self.is_warned = count, True
        self.begin(State.start())
        self.go(self.place)
        self.acts.append((self.at + 1500, what, False, 0))
        self.at += 2000
        self.go(self.place + count)
        self.at += 1000
        self.acts.append((self.at, what, True, 0))
        self.at += self.wait(500, 2000)
        if self.missing > 0:
            self.at += 8000
        self.go()
        self.finish()

    def overlap(self, share: float, before: tuple[int, int], after: tuple[int, int]) -> None:
        """The reply's piece is lifted before the move is put down, and put soon afterwards."""
        self.choose()
        self.begin(State.start())
        while move := self.next():
            if self.happens(share):
                self.pair(move, before, after)
            else:
                self.half(move)
        self.finish()

    def pair(self, move: str, before: tuple[int, int], after: tuple[int, int]) -> None:
        rest = self.record.moves[len(self.kept[-1].moves) + 1:][:1]
        follows = self.state.play(move).position.codes
        if not rest or kind(follows, rest[0]) not in ("plain", "capture"):
            return self.half(move)
        lift, to = NUMBER[rest[0][:2]], NUMBER[rest[0][2:4]]
        order = self.order(move)
        steps = [(self.wait(80, 200), *each) for each in order]
        early = self.wait(*before)
        steps[-1:] = [(80, lift, 0), (early, *order[-1])]
        self.half(move, steps, (10, 30))
        down = self.wait(*after)
        taken = [(down // 2, to, 0)] if follows[to] and self.happens(0.5) else []
        self.put(*taken, (down - sum(step[0] for step in taken), to, follows[lift]))
        self.state = self.state.play(rest[0])
        self.kept[-1].moves.append(rest[0])
        return self.run(100, 400, self.state.turn)
