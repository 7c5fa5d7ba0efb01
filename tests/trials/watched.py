"""What a follower says of a board that hands play on: a follower by rules, or a real one."""

import math
import random
from collections import deque
from typing import NamedTuple

import dgt
from dgt._simulated import RunningClock
from dgt.chess import Colour
from dgt.values import LETTERS, SQUARES
from handled import Session

# Milliseconds: from the last change to the dump that confirms it, and from a dump to the next.
CONFIRMED, PERIOD = 1050, 10_000
DOUBT = (100, 300)  # from a contradiction, or from the cable's return, to the right picture
REST = 20_000  # after the last act
PER_BYTE = 1.04  # on the line
NOISE = 1 / 500  # of the bytes are altered, in both directions
NEVER = 1 << 60


class Seen(NamedTuple):
    """What the host knows from a time on. The squares are None while the board is away."""

    at: int
    squares: bytes | None
    is_sure: bool
    is_confirmed: bool
    running: Colour | None


def add(many: list[Seen], seen: Seen) -> None:
    """Adds what is new."""
    if not many or seen[1:] != many[-1][1:]:
        many.append(seen)


class Sight:
    """A follower by rules. `real` is the board, and `shown` the picture."""

    def __init__(self, session: Session) -> None:
        self.session, self.chance = session, random.Random(f"sight {session.seed}")
        self.real, self.shown = bytearray(session.first), bytearray(session.first)
        self.is_in, self.is_sure, self.is_confirmed = True, True, False
        self.running: Colour | None = None
        self.now, self.confirm_at, self.dump_at, self.heal_at = 0, CONFIRMED, PERIOD, NEVER
        self.seen: list[Seen] = []
        self.note()
        for at, what, to, code in session.acts:
            self.until(at)
            getattr(self, what)(to, code)
            self.note()
        self.until(self.now + REST)

    def until(self, at: int) -> None:
        while (due := min(self.confirm_at, self.dump_at, self.heal_at)) <= at:
            self.now = due
            self.heal() if due == self.heal_at else self.dump()
            self.note()
        self.now = at

    def note(self) -> None:
        squares = bytes(self.shown[::-1] if self.session.turned else self.shown)
        is_confirmed = self.is_confirmed and self.is_sure
        seen = Seen(self.now, squares, self.is_sure, is_confirmed, self.running)
        add(self.seen, seen if self.is_in else Seen(self.now, None, False, False, None))

    def change(self) -> None:
        self.is_confirmed, self.confirm_at = False, self.now + CONFIRMED

    def dump(self) -> None:
        self.dump_at, self.confirm_at = self.now + PERIOD, NEVER
        if not self.is_in or not self.is_sure:
            return
        if self.chance.random() < self.session.family.altered:
            for _ in range(self.chance.randint(1, 2)):
                square = self.chance.randrange(64)
                self.shown[square] = (self.shown[square] + self.chance.randint(1, 12)) % 13
            self.change()
        elif self.shown != self.real:
            self.is_sure, self.heal_at = False, self.now + self.chance.randint(*DOUBT)
        else:
            self.is_confirmed = True

    def heal(self) -> None:
        self.shown[:], self.is_sure, self.heal_at = self.real, True, NEVER
        self.change()

    # ---- Acts

    def put(self, square: int, code: int) -> None:
        self.real[square] = self.shown[square] = code
        self.change()

    def run(self, colour: Colour | None, _: int) -> None:
        self.running = colour

    def sure(self, is_sure: bool, _: int) -> None:
        self.is_sure = is_sure
        self.change()

    def cable(self, is_in: bool, _: int) -> None:
        self.is_in, self.is_sure = is_in, False
        self.heal_at = self.now + self.chance.randint(*DOUBT) if is_in else NEVER


class Line(deque[tuple[int, bytes]]):
    """Bytes under way, with the times of their arrival. The line alters some."""

    def __init__(self, seed: str) -> None:
        super().__init__()
        self.chance = random.Random(seed)
        self.left = self.gap()

    def gap(self) -> int:
        """How many bytes pass until one is altered."""
        return int(math.log(1 - self.chance.random()) / math.log(1 - NOISE))

    def send(self, now: int, message: bytes) -> None:
        data = bytearray(message)
        while self.left < len(data):
            data[self.left] ^= self.chance.randint(1, 255)
            self.left += 1 + self.gap()
        self.left -= len(data)
        begun = max(now, self[-1][0]) if self else now
        self.append((begun + math.ceil(len(data) * PER_BYTE), bytes(data)))

    def due(self) -> int:
        return self[0][0] if self else NEVER


class Noisy:
    """A follower of the package, and a board on the other side of a noisy line."""

    def __init__(self, session: Session) -> None:
        self.session, self.turned = session, session.turned
        self.up, self.down = Line(f"up {session.seed}"), Line(f"down {session.seed}")
        self.timer = RunningClock(5400, 5400)
        first = session.first[::-1] if self.turned else session.first
        self.board = dgt.Board(dgt.Position(first), self.timer.times)
        mode = dgt.Mode.UPDATE_NICE if session.has_clock else dgt.Mode.UPDATE_BOARD
        self.follower = dgt.Follower(mode=mode, confirm=True)
        self.now, self.seen, acts = 0, list[Seen](), deque(session.acts)
        while (due := min(acts[0][0] if acts else NEVER, self.due())) < session.acts[-1][0] + REST:
            self.now = max(self.now, due)
            if acts and acts[0][0] == due:
                self.act(*acts.popleft()[1:])
            self.serve()

    def due(self) -> int:
        asks, ticks = self.follower.due_at, self.timer.due
        return min(self.up.due(), self.down.due(), NEVER if asks is None else round(asks * 1000),
                   NEVER if ticks is None else int(ticks * 1000) + 1)

    def act(self, what: str, to: int, code: int) -> None:
        if what == "put":
            self.board.change(SQUARES[63 - to if self.turned else to], LETTERS[code])
        else:
            self.timer.run(to, self.now / 1000)
            self.board.hand_clock(self.timer.times)

    def serve(self) -> None:
        """Passes on what has arrived, and notes what the follower says after each message."""
        now = self.now / 1000
        if self.timer.count(now):
            self.board.hand_clock(self.timer.times)
        sent = list(self.board.messages())
        while self.down.due() <= self.now:
            sent += self.board.answers(self.down.popleft()[1])
        for message in sent:
            self.up.send(self.now, message)
        while self.up.due() <= self.now:
            self.follower.hear(now, self.up.popleft()[1])
            self.note()
        if asked := self.follower.ask(now):
            self.down.send(self.now, asked)
        self.note()

    def note(self) -> None:
        follower = self.follower
        picture, clock, running = follower.picture, follower.clock, None
        if self.session.has_clock and isinstance(clock, dgt.Times) and clock.running:
            running = Colour.WHITE if clock.white_turn else Colour.BLACK
        add(self.seen, Seen(self.now, picture.codes if picture else None, not follower.in_doubt,
                            follower.confirmed, running))


def watch(session: Session) -> list[Seen]:
    """What the host knows of a session."""
    return (Noisy(session) if session.family.name == "noise" else Sight(session)).seen
