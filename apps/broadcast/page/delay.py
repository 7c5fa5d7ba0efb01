"""Delayed games and boards: all that spectators get."""

import collections
import queue
import threading
import time
from typing import Any

import collector
import corrected_games
import shown_boards


class LateState(collector.State):
    """The rows of a state, each of which is read some seconds after its arrival. For rows from
    before the start the machine's time counts; steps of the clock don't affect the others."""

    def __init__(self, state: collector.State, seconds: float) -> None:
        self.kept, self.read, self.seconds, self.last, self.newest = state.kept, 0, seconds, 0, 0
        self.gates: collections.deque[tuple[float, int]] = collections.deque()
        here, now = time.monotonic(), time.time()
        for row, at in self.kept.execute("SELECT id, at FROM heard ORDER BY id"):
            self.gates.append((here + min(seconds, max(0.0, at + seconds - now)), row))
            self.newest = row

    def news(self) -> list[tuple[int, float, str, str, int, Any]]:
        here = time.monotonic()
        newest, = self.kept.execute("SELECT coalesce(max(id), 0) FROM heard").fetchone()
        if newest > self.newest:
            self.newest = newest
            self.gates.append((here + self.seconds, newest))
        while self.gates and self.gates[0][0] <= here:
            self.last = self.gates.popleft()[1]
        return super().news()

    def reach(self, board: str, row: int, number: int) -> None:
        """Does nothing: the state has later times."""


class Late(corrected_games.CorrectedGames):
    """Makes the games of a delayed state. `boards` shows them."""

    def __init__(self, shelf: collector.Shelf, tags: dict[str, str], side: str,
                 tell: collector.Tell, name: Any, state: LateState,
                 boards: shown_boards.Boards) -> None:
        self.boards, self.seconds, self.is_closed = boards, state.seconds, threading.Event()
        self.held: collections.deque[tuple[float, collector.Heard]] = collections.deque()
        super().__init__(shelf, tags, side, tell, name, state, True)

    def hear(self, heard: collector.Heard) -> None:
        self.held.append((time.monotonic() + self.seconds, heard))

    def go_on(self) -> None:
        """Continues the boards once all rows from before the start are read."""
        self.hear(collector.Call(super().go_on))

    def close(self) -> None:
        self.is_closed.set()
        super().close()

    def next(self, seconds: float) -> collector.Heard | None:
        if self.is_closed.is_set():
            return None
        due = self.held[0][0] if self.held else collector.NEVER
        if due > (here := time.monotonic()):
            self.is_closed.wait(min(seconds, due - here))
            raise queue.Empty
        heard = self.held.popleft()[1]
        if isinstance(heard, collector.Now):
            self.boards.show_time(heard)
        return heard

    def report_change(self, name: str, text: str) -> None:
        """It was reported already."""

    def take(self, row: int, journal: str, name: str, at: float, entry: Any) -> None:
        if isinstance(entry, list):
            self.boards.show(journal, name, round(1000 * at), entry)
        elif entry == collector.REMOVED:
            self.boards.remove(name)
        super().take(row, journal, name, at, entry)
