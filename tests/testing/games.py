"""Random games on a board. The hands that play them slide pieces, take moves back, answer before
the move was put down, and put pieces on wrong squares."""

import importlib
import random

from wrong import wanted

START = "rnbqkbnr/pppppppp/8/8/8/8/PPPPPPPP/RNBQKBNR w KQkq - 0 1"
# Positions, and the published numbers of positions after one move, two moves and so on (perft).
PERFT = [
    (START, [20, 400, 8902]),
    ("r3k2r/p1ppqpb1/bn2pnp1/3PN3/1p2P3/2N2Q1p/PPPBBPPP/R3K2R w KQkq - 0 1", [48, 2039, 97862]),
    ("8/2p5/3p4/KP5r/1R3p1k/8/4P1P1/8 w - - 0 1", [14, 191, 2812, 43238]),
    ("r3k2r/Pppp1ppp/1b3nbN/nP6/BBP1P3/q4N2/Pp1P2PP/R2Q1RK1 w kq - 0 1", [6, 264, 9467]),
    ("rnbq1k1r/pp1Pbppp/2p5/8/2B5/8/PPP1NnPP/RNBQK2R w KQ - 1 8", [44, 1486]),
    ("r4rk1/1pp1qppp/p1np1n2/2b1p1B1/2B1P1b1/P1NP1N2/1PP1QPPP/R4RK1 w - - 0 10", [46, 2079]),
    ("n1n5/PPPk4/8/8/8/8/4Kppp/5N1N b - - 0 1", [24, 496, 9483]),
]

PACE = 0.1  # seconds after each square, as fast as hands are: a bump of the table is faster


class Hand:
    """A hand on a board, and what the recogniser reports of it: moves, those taken back with a
    hyphen, and `game` for each beginning. Times are in seconds."""

    pace = 0.06  # after each square

    def __init__(self, dgt, letters, fen=None, turned=False):
        self.dgt, self.turned, self.events = dgt, turned, importlib.import_module("dgt.recogniser")
        self.recogniser = self.events.Recogniser()
        self.time, self.told, self.moves = 1000.0, [], []
        if fen:
            self.recogniser.go_on(dgt.GameState.parse(fen).chess, turned)
        self.squares = list(letters)
        self.show()
        self.rest(1.5)

    def note(self, events):
        for event in events:
            match event:
                case self.events.Made(move):
                    self.moves.append(move)
                    self.told.append(move)
                case self.events.Unseen(moves):
                    self.moves += moves
                    self.told += moves
                case self.events.Back(count):
                    self.told += [f"-{self.moves.pop()}" for _ in range(count)]
                case self.events.Begun():
                    self.moves = []
                    self.told.append("game")

    def show(self):
        letters = "".join(reversed(self.squares) if self.turned else self.squares)
        self.note(self.recogniser.see(round(1000 * self.time),
                                      self.dgt.Position.of_letters(letters)))

    def rest(self, seconds):
        self.time += seconds
        self.note(self.recogniser.due(round(1000 * self.time)))

    def put(self, square, letter):
        self.squares[square] = letter
        self.show()
        self.rest(self.pace)


# ---- Random games


def played(state, moves):
    """The state after these moves, by their long names."""
    for move in moves.split():
        state = state.after(move)
    return state


def steps_between(before, after):
    """The squares from which pieces are lifted, and those on which pieces are put after that, each
    with what is on it then."""
    changed = [square for square in range(64) if before[square] != after[square]]
    return ([(square, ".") for square in changed if before[square] != "."],
            [(square, after[square]) for square in changed if after[square] != "."])


def kind_of(state, move, after):
    """The kind of a move that changes other squares than its own, or becomes another piece."""
    changed = sum(map(str.__ne__, state.letters, after.letters))
    return ("promotions" if len(move) == 5 else
            {3: "captures in passing", 4: "castlings"}.get(changed))


def by_chance(chance, state, legal):
    """A move by chance: nearly always one that has a kind or lets a pawn capture in passing, and
    more often one that takes."""
    weights = [40 if kind_of(state, move, after) or after.chess.fen.split()[3] != "-" else
               3 if after.letters.count(".") != state.letters.count(".") else 1
               for move, after in legal.items()]
    return chance.choices(list(legal), weights)[0]


def in_any_order(chance, before, after, move, number):
    """The squares that change in a move, each with what is put there, in an order that hands may
    have: a piece that is put down was lifted before."""
    at, to = number(move[:2]), number(move[2:4])
    changed = [square for square in range(64) if before[square] != after[square]]
    lifts, puts = [(at, ".")], [(to, after[to])]
    others = [square for square in changed if square not in (at, to)]
    if before[to] != "." and chance.random() < 0.7:
        lifts.append((to, "."))
    if len(others) == 1:  # a pawn that is taken in passing
        (lifts if chance.random() < 0.5 else puts).append((others[0], "."))
    if len(others) == 2:  # the rook that castles
        corner, beside = sorted(others, key=lambda square: after[square] != ".")
        way = chance.randrange(3)
        if way < 2:
            both = [(corner, "."), (beside, after[beside])]
            return both + lifts + puts if way else lifts + puts + both
        lifts, puts = lifts + [(corner, ".")], puts + [(beside, after[beside])]
    chance.shuffle(lifts)
    chance.shuffle(puts)
    if len(move) == 5 and chance.random() < 0.5:  # the pawn itself first
        puts = [(to, before[at]), (to, "."), *puts]
    return lifts + puts


def on_the_way(chance, before, move, number):
    """The empty squares that a piece passes over, some of them."""
    at, to = number(move[:2]), number(move[2:4])
    down, across = to // 8 - at // 8, to % 8 - at % 8
    length = max(abs(down), abs(across))
    if before[at] in "NnKk" or length < 2:
        return []
    step = (to - at) // length
    return [at + step * each for each in range(1, length) if chance.random() < 0.6]


class Game:
    """A random game. `moves` contains the moves that were not taken back."""

    long = 2.5  # for how long a position rests that is then looked at

    def __init__(self, dgt, seed, fen):
        self.chance = random.Random(seed)
        self.number = dgt.square_number
        self.dgt, self.fen, self.made = dgt, fen, 0
        self.states, self.moves = [dgt.GameState.parse(fen or START)], []
        self.hand = self.sit_down(self.chance.random() < 0.3)
        self.hand.pace = PACE

    def sit_down(self, turned):
        """Returns the hand that plays it."""
        return Hand(self.dgt, self.states[0].letters, self.fen, turned)

    @property
    def state(self):
        return self.states[-1]

    def choose(self):
        """A legal move: those that take, castle or promote are made more often. None that leads
        back to an earlier position: it might be taken for pieces that are put back."""
        before = {state.letters for state in self.states}
        legal = {move: state for move, state in self.state.moves().items()
                 if state.letters not in before}
        if not legal:
            return None
        weights = [6 if len(move) == 5 or state.letters.count(".") != self.state.letters.count(".")
                   or sum(map(str.__ne__, state.letters, self.state.letters)) == 4 else 1
                   for move, state in legal.items()]
        return self.chance.choices(list(legal), weights)[0]

    def steps(self, move):
        after = self.state.after(move)
        steps = in_any_order(self.chance, self.state.letters, after.letters, move, self.number)
        self.states.append(after)
        self.moves.append(move)
        self.made += 1
        return steps

    def put_all(self, steps):
        for step in steps:
            self.hand.put(*step)

    def slide(self, move):
        """A piece goes over the board: each square on its way shows it, some for longer."""
        before = self.state.letters
        way = on_the_way(self.chance, before, move, self.number)
        at = self.number(move[:2])
        *steps, last = self.steps(move)
        lifts = [step for step in steps if step[0] != at]
        if not way or last[0] != self.number(move[2:4]) or any(put != "." for _, put in steps):
            return self.put_all([*steps, last])
        late = self.chance.random() < 0.5
        self.put_all([] if late else lifts)
        self.hand.put(at, ".")
        for square in way:
            self.hand.put(square, before[at])
            self.hand.rest(self.chance.choice([0, 0, 0, 0.4]))
            self.hand.put(square, ".")
        self.put_all((lifts if late else []) + [last])

    def lift_early(self, move):
        """The answer's piece is lifted before the move was put down."""
        *steps, last = self.steps(move)
        answer = self.choose()
        if answer is None:
            return self.put_all([*steps, last])
        first, *others = self.steps(answer)
        is_taken = move[2:4] == answer[2:4] and len(move) == 5  # nobody sees what the pawn became
        if first[1] != "." or first[0] == last[0] or is_taken:
            return self.put_all([*steps, last, first, *others])
        self.put_all([*steps, first, last, *others])

    def answer_first(self, move):
        """The other side's move is put on the board after the own one."""
        before = self.moves[-1][2:4] if self.moves else ""
        steps, answer = self.steps(move), self.choose()
        if answer is None:
            return self.put_all(steps)
        others = self.steps(answer)
        apart = not {square for square, _ in steps} & {square for square, _ in others}
        if not apart or answer[:2] == before:
            return self.put_all(steps + others)
        self.put_all(others)
        self.hand.rest(1)
        self.put_all(steps)

    def misplace(self, move):
        """The piece is put on a wrong square, and then on the right one."""
        at = self.number(move[:2])
        free = [square for square in range(8, 56) if self.state.letters[square] == "."]
        wrong = self.chance.choice(free)
        letter = self.state.letters[at]
        self.put_all([(at, "."), (wrong, letter)])
        self.hand.rest(self.chance.choice([0, 0.5, 1.5]))
        self.put_all([(wrong, "."), (at, letter)])
        self.put_all(self.steps(move))

    def take_back(self):
        """Some moves are taken back, the last one first."""
        for _ in range(min(self.chance.randint(1, 3), len(self.moves))):
            self.moves.pop()
            old = self.states.pop().letters
            lifts, puts = steps_between(old, self.state.letters)
            self.chance.shuffle(puts)
            self.put_all(lifts + puts)
            self.hand.rest(self.chance.choice([0, 0.4]))

    def adjust(self):
        """Pieces are lifted and put back."""
        full = [square for square in range(64) if self.state.letters[square] != "."]
        lifted = self.chance.sample(full, 2)
        self.put_all((square, ".") for square in lifted)
        self.hand.rest(self.chance.choice([0, 1.5]))
        self.put_all((square, self.state.letters[square]) for square in lifted)

    def step(self):
        """Something happens. False if the game is over."""
        kind = self.chance.random()
        if kind < 0.06:
            self.hand.rest(2.5)
            self.take_back()
        if kind > 0.97:
            self.adjust()
        move = self.choose()
        if move is None:
            return False
        if kind < 0.2:
            self.slide(move)
        elif kind < 0.35:
            self.lift_early(move)
        elif kind < 0.4:
            self.misplace(move)
        elif kind < 0.43:
            self.hand.rest(2.5)
            self.answer_first(move)
        else:
            self.put_all(self.steps(move))
        rest = self.chance.choice([0, 0.1, 0.4, self.long])
        self.hand.rest(rest)
        if rest == self.long:
            self.look()
        return True

    def look(self):
        """Looks at a position that has rested."""
        if self.hand.recogniser.due_at() is None:
            wanted("moves", self.hand.moves, self.moves)
            wanted("the state", self.hand.recogniser.state, self.state.chess)
