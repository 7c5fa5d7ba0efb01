"""Makes games from the boards' reports and the arbiter's corrections, both rows of the state."""

import functools
import queue
import sqlite3
import time
from collections.abc import Callable
from dataclasses import dataclass, field
from typing import Any

import dgt

import collector
import corrections
import topics
from collector import Table, report, view_of
from corrections import DESK, Entry, Refused

Players = dict[str, dict[str, str]]  # tags of each board
NOBODY = dict.fromkeys(corrections.PLAYER_TAGS, "")


@dataclass
class Wanted:
    """A correction that an arbiter wants to store, for a board or for none. `keep` stores it if it
    is more than one row, and `reply` gets its fault."""

    board: str
    entry: Entry
    keep: Callable[[Entry], None] | None = None
    reply: queue.SimpleQueue[str] = field(default_factory=queue.SimpleQueue)


class CorrectedGames(collector.Collector):
    """Makes games. `name` gets the players of a round from its file. The side of a clock that has
    White's time is `left` or `right`, or it is learned."""

    def __init__(self, shelf: collector.Shelf, tags: dict[str, str], side: str,
                 tell: collector.Tell, name: Callable[[Players], None], state: collector.State,
                 is_last: bool) -> None:
        self.names: Players = {}  # of both files
        self.of_file: Players = {}
        self.pairings: Players = {}
        self.name = name
        self.sides: dict[str, str] = {}  # of clocks with another side than the usual one
        self.targets: dict[str, str] = {}  # the address that gets the games of a round
        self.late: CorrectedGames | None = None  # makes the same games some time later
        super().__init__(shelf, tags, side, tell, state, is_last)

    def hear(self, heard: collector.Heard) -> None:
        super().hear(heard)
        if self.late is not None and not isinstance(heard, collector.Call):
            self.late.hear(heard)

    # ---- Keeping a correction

    def ask(self, wanted: Wanted) -> None:
        """Stores a correction, if it is possible. Otherwise Refused."""
        self.hear(collector.Call(functools.partial(self.decide, wanted)))
        try:
            fault = wanted.reply.get(timeout=20)
        except queue.Empty:
            fault = "the games were busy for 20 seconds: look whether it was kept"
        if fault:
            raise Refused(fault)

    def decide(self, wanted: Wanted) -> None:
        """Stores a correction with the times of its boards, so that it has the same effect when the
        state is read again. It is tried on a copy before."""
        here, board = time.monotonic(), wanted.board
        at = {name: table.number(here)
              for name, table in self.tables.items() if board in ("", name)}
        try:
            self.check(board, wanted.entry)
            if board:
                self.state.add(DESK, board, at.get(board, 0), wanted.entry)
            else:
                keep = wanted.keep or functools.partial(self.state.add, DESK, "", 0)
                keep({**wanted.entry, "at": at})
        except Refused as fault:
            wanted.reply.put(str(fault))
        except sqlite3.Error as fault:
            wanted.reply.put(f"the file of --state can't be written: {fault}")
        else:
            self.take_news()
            wanted.reply.put("")

    def game(self, board: str, number: int) -> dgt.PgnGame:
        """A copy of a game. Refused if it doesn't exist."""
        table, kept = self.tables.get(board), self.shelf.find(board, number)
        if table is not None and number == table.place.count and table.games.game is not None:
            return corrections.copied(table.games.game)
        if kept is None:
            raise Refused(f"board {board} has no game {number}")
        return corrections.read_game(kept.text)

    def check(self, board: str, entry: Entry) -> None:
        """Refused if a correction can't be made."""
        if "game" in entry:
            corrections.correct(self.game(board, entry["game"]), entry)
        if "swap" in entry:
            self.check_swap(*entry["swap"])
        for name in entry.get("clock", {}).keys() - self.shown.keys():
            raise Refused(f"unknown board: {name}")

    def check_swap(self, one: str, other: str) -> None:
        """Refused if another board doesn't show the position of the game on a board."""
        table, board = self.tables.get(one), self.shown.get(other)
        game = table.games.game if table else None
        if one == other or board is None or not board.is_shown:
            raise Refused(f"unknown other board: {other}")
        if table is None or game is None:
            raise Refused(f"board {one} has no game")
        shown, right = board.position.letters, game.state.letters
        right = right[::-1] if table.games.turned else right
        wrong = [dgt.SQUARES[at] for at in range(64) if shown[at] != right[at]]
        if wrong:
            raise Refused(f"set up the position of the game on board {other} first: see "
                          f"{', '.join(wrong[:8])}{' and others' if len(wrong) > 8 else ''}")

    # ---- Making the games

    def take(self, row: int, journal: str, name: str, at: float, entry: Any) -> None:
        if journal != DESK:
            if name:
                self.shown.setdefault(name, topics.Board(name)).named = self.names.get(name)
            return super().take(row, journal, name, at, entry)
        times = {name: 1000 * at} if name else entry["at"]
        for each in [each for each in times if each in self.tables]:
            self.do(each, functools.partial(self.reach, times[each] / 1000))
        try:
            if name:
                self.correct(row, name, entry)
            else:
                self.set(entry)
        except (Refused, dgt.DgtError) as fault:
            report(f"not corrected: {name} {entry}: {fault}")
        return None

    def correct(self, row: int, name: str, entry: Entry) -> None:
        """Corrects the present game on a board, or an earlier one. The text of a finished game may
        contain the correction already."""
        table, number = self.tables.get(name), entry["game"]
        if table is not None and number == table.place.count and table.games.game is not None:
            self.do(name, functools.partial(self.correct_live, entry))
        elif row > self.finished.get((name, number), 0):
            kept = self.shelf.find(name, number)
            if kept is None:
                raise Refused("no such game")
            game = corrections.read_game(kept.text)
            corrections.correct(game, entry)
            self.shelf.put(kept, game.text())
            self.keep_done(row, kept)

    def keep_done(self, row: int, kept: collector.Kept) -> None:
        """Stores the text of a finished game, with the correction of a row. As long as another one
        goes on from its moves, it is made and corrected again at the next start."""
        table = self.tables.get(kept.board)
        if self.is_last and (table is None or kept not in table.place.done):
            try:
                self.state.finish(kept.board, kept.number, kept.text, row)
                self.finished[kept.board, kept.number] = row
            except sqlite3.Error as fault:
                report(f"the state can't be written: {fault}")

    def correct_live(self, entry: Entry, table: Table) -> None:
        """Corrects the present game, and looks at the board again."""
        corrections.correct_live(table.games, entry, table.at)
        board = self.shown.get(table.place.board)
        if board is not None and board.is_shown:
            table.games.see(view_of(board), table.at)
            table.note_beginning()

    def set(self, entry: Entry) -> None:
        """Handles corrections that aren't about a single game."""
        if "names" in entry:
            self.take_names(**entry["names"])
        if "pairings" in entry:
            self.take_pairings(**entry["pairings"])
        for name, side in entry.get("clock", {}).items():
            self.sides[name] = side
            if name in self.tables:
                self.do(name, self.set_side)
        for name, said in entry.get("from", {}).items():
            if name in self.tables:
                self.do(name, functools.partial(self.move_to, *said))

    def take_names(self, tags: dict[str, str], players: dict[str, list[str]], push: str) -> None:
        """Sets the tags and players of a round, for the games that begin from now on, and for the
        present games of this round."""
        self.tags |= tags
        if push:
            self.targets[self.tags.get("Round", "?")] = push
        self.of_file = {name: dict(zip(("White", "Black"), both)) for name, both in players.items()}
        self.name_all(tags)

    def take_pairings(self, round: str, asked: str | None, tags: dict[str, str],
                      boards: Players) -> None:
        """Sets the players of a round from the file of pairings, in the same way. After the end of
        a round, another one begins with it."""
        is_next = round not in ("", self.tags.get("Round"))
        tags = {**tags, "Round": round} if round else tags
        self.tags |= tags
        self.pairings = boards
        self.name_all(tags)
        if is_next and self.is_between:
            self.take_round(self.row, tags)

    def name_all(self, tags: dict[str, str]) -> None:
        """Sets tags of all boards' games, and the players of each board whose players are new: what
        was typed at the desk stays until then."""
        before, self.names = self.names, {**self.of_file, **self.pairings}
        self.name(self.names)
        self.tell("", None, False)
        for name, board in self.shown.items():
            board.named = self.names.get(name)
        for name in list(self.tables):
            new = {} if self.names.get(name) == before.get(name) else {
                **NOBODY, **self.names.get(name, {})}
            self.do(name, functools.partial(self.name_game, tags, new))

    def name_game(self, tags: dict[str, str], players: dict[str, str], table: Table) -> None:
        game = table.games.game
        is_of_round = game is not None and (not game.moves or all(
            game.tags.get(each) == tags[each] for each in ("Event", "Round") if each in tags))
        if "White" in players:
            table.players = players["White"], players["Black"]
        table.games.set_tags({**tags, **players}, is_of_round)

    def add(self, name: str) -> Table:
        table = super().add(name)
        self.set_side(table)
        if players := self.names.get(name):
            table.name_players((players["White"], players["Black"]))
            table.games.set_tags(players, False)
        return table

    # ---- Clocks, and boards that are swapped

    def side(self, name: str) -> str:
        """White's side of a board's clock, or `learn`."""
        return self.sides.get(name, self.white_clock)

    def set_side(self, table: Table) -> None:
        """Sets White's side of a board's clock from now on, also in the present game."""
        table.games.white_clock = self.side(table.place.board)

    def move_to(self, journal: str, number: int, table: Table) -> None:
        """Continues the game on another board. The last entry of a journal about that board has
        this number: nobody was away."""
        table.journal, table.shift = journal, max(0.0, table.at + 0.001 - number / 1000)
