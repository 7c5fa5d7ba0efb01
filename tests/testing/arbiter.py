"""Plays whole fast games over UCI with a simulated board, and compares each move that the engine
sends with the move that was made on the board. The board's side moves at random. The other side
plays to win, so most games end with a mate.

A third of the games start from a FEN. In half of them the board plays Black, in some it is turned,
and in half of them the line loses and alters bytes. Moves are made as people make them, and the
board's move may be made before the answer was put on the board.
"""

import collections
import random
import time

import engines
import games
from simulated_board import Hands, a_line
from wrong import Wrong, wanted

SETTLE = 0.3
# A game that lasts longer is cut off.
PLIES = 200
WORTH = dict(zip("PNBRQKpnbrqk", (1, 3, 3, 5, 9, 0) * 2))


class Game:
    """A game that is played. It counts what it has tried."""

    def __init__(self, dgt, seed, line):
        self.dgt, self.seed = dgt, seed
        self.chance = random.Random(1000 + seed)
        self.line, self.hands = line, Hands(line, seed)
        options = [("Settle", round(1000 * SETTLE))]
        self.engine = engines.Engine(self.line.path, "--period", "1", options=options)
        self.counts = dict.fromkeys(["moves", "castlings", "captures in passing", "promotions",
                                     "mates", "stalemates", "cut off", "early", "faults",
                                     "quick answers", "answers"], 0)
        self.fen = games.PERFT[1 + seed // 3 % 6][0] if seed % 3 == 2 else games.START
        self.is_white = seed % 2 == 0
        self.state, self.before, self.moves = dgt.GameState.parse(self.fen), None, []

    def close(self):
        self.engine.end()
        self.counts["faults"] = self.line.faults

    def begin(self):
        if self.chance.random() < 0.3:
            self.hands.turned = True
            self.hands.letters.reverse()
        self.hands.set_up(self.state.letters)
        if self.seed % 4 > 1:
            self.line.chance = self.chance
        self.engine.say("ucinewgame", self.where())
        self.ask()

    def where(self):
        start = "startpos" if self.fen == games.START else f"fen {self.fen}"
        return f"position {start}" + (f" moves {' '.join(self.moves)}" if self.moves else "")

    def choose(self):
        """The next move, or `None` if there is none."""
        if not (legal := self.state.moves()):
            return None
        if self.is_own_turn:
            return games.by_chance(self.chance, self.state, legal)
        return max(legal, key=lambda each: self.value(legal[each]))

    @property
    def is_own_turn(self):
        return self.state.white == self.is_white

    def value(self, state):
        """How good a position is for the side that has moved: its pieces after the best answer, and
        how few answers there are."""
        answers = state.moves().values()
        if not answers:
            return 1000 if state.check else -1000
        worst = min(self.balance(answer.letters, not state.white) for answer in answers)
        return worst - len(answers) / 40 + self.chance.random() / 2

    def balance(self, letters, white):
        return sum(WORTH[each] * (1 if each.isupper() == white else -1)
                   for each in letters if each != ".")

    def note(self, move):
        after = self.state.after(move)
        if kind := games.kind_of(self.state, move, after):
            self.counts[kind] += 1
        self.before, self.state = self.state, after
        self.moves.append(move)

    def ask(self):
        delay = self.engine.delay()
        self.counts["answers"] += 1
        self.counts["quick answers"] += delay < 0.05

    def put_answer(self):
        """Puts the last move of the other side, if it isn't on the board yet."""
        if self.moves and "".join(self.hands.letters) != self.state.letters:
            self.hands.move(self.before, self.moves[-1])

    def move(self, move):
        """The player's turn: the answer is put, and the move is made, in this order or not."""
        self.engine.say(self.where(), "go wtime 60000 btime 60000 winc 1000 binc 1000")
        is_first = len(self.moves) < 2
        if is_first or not self.can_be_early(move):
            self.put_answer()
            if is_first or self.chance.random() < 0.3:
                self.engine.inform("white is to move", "black is to move")
        else:
            self.counts["early"] += 1
        if "".join(self.hands.letters) == self.state.letters:
            self.hands.move(self.state, move)
        else:
            self.make_early(move)
        if self.chance.random() < 0.2:
            self.ask()
        got = self.engine.move()
        wanted(f"the move in {self.state.fen} after {self.engine.lines[-4:]}", got, move)
        self.counts["moves"] += 1

    def can_be_early(self, move):
        """Whether the move is made before the answer is put. Both must not meet."""
        if not self.moves or self.chance.random() > 0.2:
            return False
        answered = self.squares(self.before.letters, self.state.letters)
        return not answered & self.squares(self.state.letters, self.state.after(move).letters)

    def squares(self, one, other):
        return {square for square in range(64) if one[square] != other[square]}

    def make_early(self, move):
        """Makes the own move first, and then puts the answer."""
        after = self.state.after(move).letters
        for squares in (self.squares(self.state.letters, after),
                        self.squares(self.before.letters, self.state.letters)):
            changed = sorted(squares, key=lambda each: after[each] != ".")
            self.hands.put_all((square, after[square]) for square in changed)

    def play(self):
        self.begin()
        while len(self.moves) < PLIES and (move := self.choose()):
            if self.is_own_turn:
                self.move(move)
            self.note(move)
        self.counts["cut off"] += bool(self.state.moves())
        self.finish()

    def finish(self):
        """The last position: without a legal move the engine says that there is none."""
        if self.state.moves():
            return
        self.counts["mates" if self.state.check else "stalemates"] += 1
        if self.is_own_turn:
            self.engine.say(self.where(), "go")
            wanted("the move of a game that is over", self.engine.move(), "0000")


def play(dgt, seed):
    with a_line() as line:
        game = Game(dgt, seed, line)
        try:
            game.play()
            return game.counts
        except (Wrong, OSError) as fault:
            raise Wrong(f"game {seed}: {fault}") from fault
        finally:
            game.close()


def check(dgt, pool, count):
    begun, total = time.monotonic(), collections.Counter()
    for counts in pool.map(lambda seed: play(dgt, seed), range(count)):
        total.update(counts)
    quick, answers = total["quick answers"], total["answers"]
    if quick < answers / 4:  # a busy machine makes the others late
        raise Wrong(f"of {answers} answers {quick} came within 50 ms")
    told = ", ".join(f"{number} {name}" for name, number in total.items())
    return f"{count} games with {told} ({time.monotonic() - begun:.0f} s)"
