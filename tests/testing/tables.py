"""Games that are played with a board and a clock, and kept by the package's `python -m dgt game`:
in simulated time, but with a real file.

The board is one of the package. Its bytes go through the steps of `dgt.follow`. Hands play as in
tests/testing/games.py, and press the clock after each move, some at once and some later, but before
the other player puts a piece.
"""

import os
import pathlib
import tempfile

import cases  # the path of the package
import dgt
import games
import pgn_games
from dgt import following, game
from dgt._simulated import RunningClock
from wrong import Wrong

INCREMENT = 5
MOST_STEPS = 1000  # this number of steps without any time between them are a busy wait
GOES_ON = "the next game goes on from the position "  # in the comment of a game that was taken back
CENTRE = {"1-0": ("e4", "d5"), "0-1": ("e5", "d4"), "1/2-1/2": ("d4", "d5")}
# What is counted of games that were played. Positions are those that had rested, and the last are
# those of them whose moves weren't all known.
COUNTED = ["games", "moves", "castlings", "captures in passing", "promotions",
           "promotions to other pieces than a queen", "take-backs", "positions", "unresolved"]


class Compared:
    """A file of games, and at each writing the text of the game is made anew, too."""

    def __init__(self, table, file):
        self.table, self.file = table, file

    def __getattr__(self, name):
        return getattr(self.file, name)

    def put(self, text):
        right = self.table.keeper._kept.text()
        if text != right:
            raise Wrong(f"the text {text!r} has grown, and anew it is {right!r}")
        self.file.put(text)


class Table(games.Hand):
    """A board, a clock and the program. `told` has its lines, and `warned` what standard error
    gets. `spoil` is what the line makes of each message."""

    def __init__(self, letters=None, fen=None, turned=False, file=None, timer=None,
                 white_clock="left", tags=None):
        self.turned, self.time, self.timer = turned, 1000.0, timer
        self.told, self.warned, self.spoil, self.is_plugged = [], [], bytes, True
        self.asked = None
        self.squares = list(letters or dgt.Position.start().letters)
        self.board = dgt.Board(self.position(), timer.times if timer else dgt.NoClock())
        self.steps = following._Steps(2.0, game.PATIENCE, dgt.Mode.UPDATE_NICE, True)
        compared = file and Compared(self, file)
        self.keeper = game.Games(self.told.append, self.warned.append, compared, tags, white_clock,
                                 fen, "port")
        self.rest(1.5)

    @property
    def state(self):
        return self.keeper.game.state

    @property
    def kept(self):
        return [each.move for each in self.keeper.game.moves]

    def position(self):
        letters = "".join(reversed(self.squares) if self.turned else self.squares)
        return dgt.Position.of_letters(letters)

    def show(self):
        for square, letter in self.board.position.changes(self.position()).items():
            self.board.change(square, letter)
        self.hear(self.board.messages())

    def stand(self, state):
        """All pieces stand as in this state at once."""
        self.squares = list(state.letters)
        self.show()

    def hear(self, messages):
        chunk = b"".join(map(self.spoil, messages))
        if self.is_plugged:
            self.steps.hear(chunk, self.time)
            self.views()

    def views(self):
        while self.steps.changes:
            view = self.steps.changes.popleft()
            self.keeper.see(view, self.time)
            if self.keeper.unconfirmed and view.picture != self.asked:
                self.asked = view.picture
                self.steps.follower.ask_now()

    def due(self):
        times = [self.steps.follower.due_at if self.is_plugged else None, self.keeper.due,
                 self.timer.due if self.timer else None]
        return min((each for each in times if each is not None), default=float("inf"))

    def rest(self, seconds):
        end, steps = self.time + seconds, 0
        while (due := self.due()) <= end:
            steps = 0 if due > self.time else steps + 1
            if steps > MOST_STEPS:
                raise Wrong("it waits for nothing")
            self.time = max(self.time, due)
            self.serve()
        self.time = end

    def serve(self):
        """Does what is due."""
        if self.is_plugged and (asked := self.steps.ask(self.time)):
            self.hear(self.board.answers(asked))
        if self.keeper.due is not None and self.keeper.due <= self.time:
            self.keeper.tick(self.time)
        while self.timer and self.timer.count(self.time):
            self.show_clock()
        self.views()

    def show_clock(self):
        self.board.hand_clock(self.timer.times)
        self.hear(self.board.messages())

    def run_clock(self, side):
        self.timer.run(side, self.time)

    def press(self, side):
        """A player presses the clock after a move. Returns the time that is left to him."""
        self.timer.left[side] += INCREMENT
        self.timer.run(1 - side, self.time)
        self.show_clock()
        return str(self.timer.time(side))

    def unplug(self):
        self.is_plugged = False
        self.steps.lose("the port has gone")
        self.views()

    def plug(self):
        self.board.line_lost()
        self.is_plugged = True
        self.steps.regain()
        self.views()

    def puts(self, text):
        """Puts pieces by a text such as `e2. e4P`."""
        for step in text.split():
            self.put(dgt.square_number(step[:2]), step[2])

    def moves(self, text, state=None):
        """Makes moves by their long names, a second after each other, from the state of the game or
        another one. Returns that after them."""
        for move in text.split():
            made = (state or self.state).after(move)
            state, after = state and made, made.letters
            changed = [square for square in range(64) if self.squares[square] != after[square]]
            for square in sorted(changed, key=lambda each: after[each] != "."):
                self.put(square, after[square])
            self.rest(1)
        return state

    def take_back(self, moves, count, rest=1):
        """Takes back the last of these moves of the game, one after another."""
        states = [self.keeper.game.start]
        for move in moves:
            states.append(states[-1].after(move))
        for _ in range(count):
            before, after = states.pop().letters, states[-1].letters
            changed = [square for square in range(64) if before[square] != after[square]]
            for square in sorted(changed, key=lambda each: after[each] != "."):
                self.put(square, after[square])
            self.rest(rest)

    def set_up(self, letters, last="Kk"):
        """Takes all pieces off and puts others, these kinds last."""
        for square in range(64):
            self.put(square, ".")
        for square in sorted(range(64), key=lambda each: letters[each] in last):
            self.put(square, letters[square])
        self.rest(6)


class AtGame(Table):
    """The table of a `Played` game."""

    game = None

    def put(self, square, letter):
        if self.game and letter != ".":  # nobody puts a piece before the other player has pressed
            self.game.press()
        self.squares[square] = letter
        if self.game and self.game.shows_next():
            self.game.complete()
        self.show()
        self.rest(self.pace)

    def due(self):
        pending = self.game.pending[0] if self.game and self.game.pending else float("inf")
        return min(super().due(), pending)

    def serve(self):
        super().serve()
        if self.game and self.game.pending and self.game.pending[0] <= self.time:
            self.game.press()


class Played(games.Game):
    """A random game at a table. `clocks` contains the time of each move's player after it, and
    `side` is the one of the clock that has White's time."""

    table = AtGame
    long = 3.2
    most_fast = 2  # how often in a row moves are made before the last ones have rested

    def __init__(self, seed, fen, file):
        self.file, self.clocks, self.pending = file, [], None
        self.looked = self.unresolved = self.fast = self.backs = 0
        super().__init__(dgt, seed, fen)

    def sit_down(self, turned):
        self.side = "left" if self.chance.random() < 0.7 else "right"
        timer = RunningClock(5400, 5400, self.side == "left")
        table = self.table(self.state.letters, self.fen, turned, self.file, timer, self.side,
                           {"Round": "1"})
        table.game = self
        timer.run(0 if self.state.white else 1, table.time)
        return table

    def step(self):
        if not super().step():
            return False
        is_fast = self.hand.kept != self.moves
        self.fast = self.fast + 1 if is_fast else 0
        if self.fast == self.most_fast:
            self.hand.rest(1.2)
            self.fast = 0
        return True

    def answer_first(self, move):
        """Nobody does this at a table with a clock."""
        self.put_all(self.steps(move))

    def misplace(self, move):
        """Nobody does this before the last move has rested."""
        self.hand.rest(self.long)
        super().misplace(move)

    def look(self):
        self.looked += 1
        kept = self.hand.keeper.game
        self.unresolved += [each.move for each in kept.moves] != self.moves

    def shows_next(self):
        """Whether the board shows the next move: its squares are as after it, and others may lack
        what the answer moves or takes."""
        number = len(self.clocks)
        if number >= len(self.moves):
            return False
        shown, before, after = self.hand.squares, self.states[number], self.states[number + 1]
        answer = (self.states[number + 2:] or [after])[0]
        return all(shown[square] == right or (shown[square] == "." and old == right != new)
                   for square, (old, right, new)
                   in enumerate(zip(before.letters, after.letters, answer.letters)))

    def complete(self):
        """The next move is made, and its player will press the clock."""
        self.press()
        number = len(self.clocks)
        is_last = not self.states[number + 1].moves()  # a later press isn't waited for
        delay = 0.0 if is_last else self.chance.choice([0.0, 0.2, 1.3])
        self.pending = self.hand.time + delay, 0 if self.states[number].white else 1
        self.clocks.append(None)

    def press(self):
        """The clock is pressed, if it has to be."""
        if self.pending:
            self.clocks[-1] = self.hand.press(self.pending[1])
            self.pending = None

    def take_back(self):
        """Moves are taken back, fast, and then the player thinks. Not all of them: all pieces at
        home would begin another game."""
        if len(self.moves) <= 3:
            return
        self.press()
        self.backs += 1
        super().take_back()
        del self.clocks[len(self.moves):]
        self.hand.run_clock(0 if self.state.white else 1)
        self.hand.rest(self.long)

    def finish(self):
        """The players give a result, if the rules haven't. Returns it."""
        self.press()
        self.hand.rest(self.long)
        self.look()
        if not self.state.moves():
            return ("0-1" if self.state.white else "1-0") if self.state.check else "1/2-1/2"
        if self.chance.random() < 0.1:
            return "*"
        result = self.chance.choice(list(CENTRE))
        kings, squares = ["K", "k"], [self.number(each) for each in CENTRE[result]]
        self.chance.shuffle(kings)
        lifted = [self.state.letters.index(king) for king in kings]
        self.put_all((square, ".") for square in lifted)
        self.put_all((square, ".") for square in squares if self.hand.squares[square] != ".")
        self.put_all(zip(squares, kings))
        self.hand.rest(1.5)
        return result


def room():
    """A place in which files are made without waiting for a disk, if there is one."""
    memory = pathlib.Path("/dev/shm")
    return memory if os.access(memory, os.W_OK) else None


def play(seeds, most):
    """Plays games, one for each seed, into one file, and compares them with what the file has.
    Returns how many of each of `COUNTED` there were."""
    with tempfile.TemporaryDirectory(dir=room()) as folder:
        path = pathlib.Path(folder, "games.pgn")
        played, results = [], []
        for seed in seeds:
            fen = games.PERFT[seed % 16][0] if 0 < seed % 16 < len(games.PERFT) else None
            file = dgt.PgnFile(str(path))
            game = Played(seed, fen, file)
            while game.made < most and game.step():
                pass
            results.append(game.finish())
            if not game.hand.keeper.close():
                raise Wrong(f"game {seed}: {game.hand.warned}")
            played.append(game)
        compare(seeds, path, played, results)
    return [sum(each) for each in zip(*map(counts, played))]


def counts(game):
    kinds = [*map(games.kind_of, game.states, game.moves, game.states[1:])]
    return (1, len(game.moves), *map(kinds.count, COUNTED[2:5]),
            sum(len(move) == 5 and move[4] != "q" for move in game.moves), game.backs,
            game.looked, game.unresolved)


def compare(seeds, path, played, results):
    # Moves that were taken back may stay, in games of their own.
    found = [kept for kept in pgn_games.compare(path, dgt)
             if not any(GOES_ON in comment for comment in kept.comments)]
    if len(found) != len(played):
        raise Wrong(f"games {seeds}: the file has {len(found)} games of {len(played)}")
    for seed, game, result, kept in zip(seeds, played, results, found):
        for what, got, right in [("moves", kept.moves, game.moves),
                                 ("clocks", kept.clocks, game.clocks),
                                 ("result", kept.result, result),
                                 ("FEN", kept.fen, game.states[0].fen),
                                 ("comments", kept.comments, [])]:
            if got != right:
                raise Wrong(f"game {seed}, {what}: {differing(got, right)}\n"
                            + "\n".join(game.hand.told[-8:]))


def differing(got, right):
    """What two lists have from the first difference on."""
    if isinstance(got, str):
        return f"{got!r} instead of {right!r}"
    at = next((number for number, (one, two) in enumerate(zip(got, right)) if one != two),
              min(len(got), len(right)))
    there = slice(at, at + 4)
    return f"from {at} on {got[there]} of {len(got)} instead of {right[there]} of {len(right)}"


def seeds_of(count, size=5):
    return [range(at, min(at + size, count)) for at in range(0, count, size)]
