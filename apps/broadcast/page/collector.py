"""Makes games from the reports of boards, like `dgt-game`."""

import collections
import contextlib
import functools
import hashlib
import json
import math
import os
import queue
import re
import sqlite3
import sys
import threading
import time
import traceback
from collections.abc import Callable
from dataclasses import dataclass
from typing import Any

import dgt
from dgt import _damaged
from dgt._locks import hold
from dgt._mqtt import say

import topics
from corrections import DESK, Entry
from views import Summary, summary, written

PROGRAM = os.path.basename(sys.argv[0])
MOST_GAMES = 10000  # the latest ones
# New players belong to the present game if it goes on, and has at most this many half-moves.
OPENING = 20
NEVER = float("inf")
TURNS = {"white": 0x10, "black": 0x08}  # bits of a clock's status
# A game's time follows its board's by as many seconds, so that what comes late is heard in time,
# and goes on for as many without a word of the board.
LATE, TRUST = 0.3, 15.0
OLDEST = 13 * 3600.0  # seconds: journals keep 12 hours
MOST_ROWS = 20000  # the rows of a board that the state keeps at least: more belong to no game
AWAY = ("silent", "gone", "ended")
REMOVED = "removed"  # the entry of a board without topics
TABLES = """
PRAGMA journal_mode = WAL;
PRAGMA synchronous = NORMAL;
CREATE TABLE IF NOT EXISTS heard (id INTEGER PRIMARY KEY, journal TEXT, board TEXT, number INTEGER,
                                  entry TEXT,
                                  at REAL DEFAULT ((julianday('now') - 2440587.5) * 86400));
CREATE TABLE IF NOT EXISTS marks (board TEXT, journal TEXT, number INTEGER,
                                  PRIMARY KEY (board, journal)) WITHOUT ROWID;
CREATE TRIGGER IF NOT EXISTS mark AFTER INSERT ON heard BEGIN
    INSERT OR REPLACE INTO marks VALUES (new.board, new.journal, new.number);
END;
CREATE TABLE IF NOT EXISTS games (board TEXT, game INTEGER, final TEXT, text BLOB, before BLOB,
                                  row INTEGER DEFAULT 0, PRIMARY KEY (board, game)) WITHOUT ROWID;
CREATE TABLE IF NOT EXISTS done (board TEXT PRIMARY KEY, games INTEGER, since INTEGER,
                                 first INTEGER);
CREATE TABLE IF NOT EXISTS reached (board TEXT PRIMARY KEY, row INTEGER, number INTEGER);
"""
Tell = Callable[[str, Summary | None, bool], None]


@dataclass
class Now:
    """The time on a board up to which everything is known; or the time is unknown."""

    board: str
    journal: str
    at: float | None


@dataclass
class Call:
    """Something to do between two entries."""

    run: Callable[[], None]


Heard = Now | Call


class State:
    """Everything that games are made from, in order, in an SQLite file: reading it again makes the
    same games. Rows without a board contain the tags of rounds. For finished games it keeps their
    text, and only the rows of a board's last one: they say how the next one began."""

    def __init__(self, path: str | None) -> None:
        """OSError or sqlite3.Error if the file can't be opened. A new one is for its owner only: it
        has what spectators get later."""
        if path:
            os.close(os.open(path, os.O_CREAT, 0o600))
        self.kept = sqlite3.connect(path or ":memory:", isolation_level=None,
                                    check_same_thread=False, timeout=5.0)
        try:
            self.kept.executescript(TABLES)
            _damaged.check(self.kept)
        except sqlite3.Error:
            self.kept.close()
            raise
        self.read = 0  # the last row that the games have read
        self.last = 1 << 62  # the last row that they may read

    def add(self, journal: str, board: str, number: int, entry: Any) -> None:
        """sqlite3.Error if it can't be stored."""
        self.add_all((journal, board, number, entry))

    def add_all(self, *rows: tuple[str, str, int, Any]) -> None:
        """Adds rows, all or none of them."""
        places = ", ".join(["(?, ?, ?, ?)"] * len(rows))
        self.kept.execute(f"INSERT INTO heard (journal, board, number, entry) VALUES {places}",
                          [each for *row, entry in rows for each in (*row, json.dumps(entry))])

    def corrections(self, count: int) -> list[tuple[str, float, Entry]]:
        """The last corrections: a board or none, the time, and the entry."""
        rows = self.kept.execute("SELECT board, at, entry FROM heard WHERE journal = ? "
                                 "ORDER BY id DESC LIMIT ?", [DESK, count]).fetchall()
        return [(board, at, json.loads(entry)) for board, at, entry in rows]

    def settings(self, what: str) -> list[Any]:
        """The arbiter's entries of one kind, in order."""
        rows = self.kept.execute("SELECT entry FROM heard WHERE journal = ? AND board = '' "
                                 "ORDER BY id", [DESK]).fetchall()
        return [entry[what] for text, in rows if what in (entry := json.loads(text))]

    def mark(self, journal: str, board: str, number: int) -> None:
        """Notes that a journal's entries of a board up to this number aren't needed."""
        self.kept.execute("INSERT OR REPLACE INTO marks VALUES (?, ?, ?)", [board, journal, number])

    def marks(self) -> dict[tuple[str, str], int]:
        """The last number that was heard of each board from each journal."""
        rows = self.kept.execute("SELECT board, journal, number FROM marks WHERE journal != ''")
        return {(board, journal): number for board, journal, number in rows}

    def latest(self) -> list[tuple[str, str, int, Any]]:
        """The last entry of each board that wasn't removed: the board, a journal, a number, and the
        entry."""
        rows = self.kept.execute("SELECT board, journal, number, entry, max(id) FROM heard "
                                 "WHERE board != '' AND journal != ? AND entry != 'null' "
                                 "GROUP BY board", [DESK])
        latest = [(*row, json.loads(entry)) for *row, entry, _ in rows]
        return [row for row in latest if row[-1] != REMOVED]  # type: ignore[misc]

    def news(self) -> list[tuple[int, float, str, str, int, Any]]:
        """The unread rows: a row, its time here, a journal, a board, a number, and an entry."""
        rows = self.kept.execute(
            "SELECT id, at, journal, board, number, entry FROM heard LEFT JOIN done USING (board) "
            "WHERE id > ? AND id <= ? AND id >= coalesce(since, 0) ORDER BY id LIMIT 1000",
            [self.read, self.last]).fetchall()
        self.read = rows[-1][0] if rows else self.read
        return [(*row, json.loads(entry)) for *row, entry in rows]  # type: ignore[misc]

    def finish(self, board: str, game: int, text: str, row: int) -> None:
        """Stores the text of a finished game, with all corrections up to a row."""
        self.kept.execute("INSERT INTO games (board, game, final, row) VALUES (?, ?, ?, ?) "
                          "ON CONFLICT DO UPDATE SET final = excluded.final, row = excluded.row",
                          [board, game, text, row])

    def finished(self) -> dict[tuple[str, int], int]:
        """The row up to which the text of each finished game contains the corrections."""
        return {(board, game): row for board, game, row in
                self.kept.execute("SELECT board, game, row FROM games WHERE final IS NOT NULL")}

    def cut(self, board: str, games: int, since: int, first: int) -> None:
        """Notes the number of a board's finished games, and which of its rows are kept: those since
        the last one began. The next game begins with the row `first`, or a later one."""
        self.kept.execute("INSERT OR REPLACE INTO done VALUES (?, ?, ?, ?)",
                          [board, games, since, first])
        self.kept.execute("DELETE FROM heard WHERE board = ? AND id < ? AND journal != ?",
                          [board, since, DESK])

    def reach(self, board: str, row: int, number: int) -> None:
        """Notes the time, as a number, up to which a board has shown the entry of a row."""
        self.kept.execute("INSERT OR REPLACE INTO reached VALUES (?, ?, ?)", [board, row, number])

    def reached(self) -> list[tuple[str, int, int]]:
        """The last of these times of each board: a board, a row, and a number."""
        return self.kept.execute("SELECT board, row, number FROM reached").fetchall()

    def row_of_last(self, board: str, count: int) -> int:
        """The first of this number of a board's last rows."""
        row = self.kept.execute("SELECT id FROM heard WHERE board = ? ORDER BY id DESC LIMIT 1 "
                                "OFFSET ?", [board, count - 1]).fetchone()
        return int(row[0]) if row else 0

    def counts(self) -> dict[str, int]:
        """The number of finished games of each board."""
        return dict(self.kept.execute("SELECT board, games FROM done"))

    def firsts(self) -> dict[str, int]:
        """The first row of each board's next game."""
        return dict(self.kept.execute("SELECT board, first FROM done"))

    def done(self) -> list[tuple[str, int, str]]:
        """The finished games: a board, the game's number on it, and its text."""
        return self.kept.execute(
            "SELECT board, game, final FROM games JOIN done USING (board) "
            "WHERE game <= done.games AND final IS NOT NULL").fetchall()

    def file(self, rows: list[tuple[str, int, bytes, bytes]]) -> None:
        """Notes the new and the present text of games in the file of --pgn, each by its board and
        its number."""
        self.kept.executemany(
            "INSERT INTO games (board, game, text, before) VALUES (?, ?, ?, ?) ON CONFLICT DO "
            "UPDATE SET text = excluded.text, before = excluded.before", rows)

    def filed(self, board: str, game: int) -> list[bytes]:
        """The texts that the file may have for a game."""
        row = self.kept.execute("SELECT text, before FROM games WHERE board = ? AND game = ?",
                                [board, game]).fetchone()
        return [each for each in row or () if each]


def view_of(board: topics.Board) -> dgt.BoardView:
    """The same as a view of `dgt.follow`."""
    return dgt.BoardView(board.position, clock_of(board.clock), not board.is_sure,
                         board.state if board.state in AWAY else None,
                         board.is_sure and board.is_confirmed)


def clock_of(clock: topics.Clock | None) -> dgt.Clock | None:
    if clock is None:
        return None
    if clock.is_none:
        return dgt.NoClock()
    left, right = (divmod(each, 60) for each in (clock.left, clock.right))
    status = TURNS.get(clock.turn or "", 0) | clock.running
    with contextlib.suppress(dgt.BadValue):  # more hours than a DGT clock has
        return dgt.Times(dgt.Time(*divmod(left[0], 60), left[1]),
                         dgt.Time(*divmod(right[0], 60), right[1]), status)
    return None


def natural(text: str) -> list[tuple[int, str]]:
    """A key that sorts 10 after 9."""
    parts = re.split(r"([0-9]+)", text)
    return [(int(part or 0), "") if at % 2 else (0, part) for at, part in enumerate(parts)]


@dataclass
class Kept:
    """A game: its board, and its text once it is on the shelf."""

    board: str
    in_file: Any  # a dgt.KeptGame, if there is a file
    text: str = ""
    number: int = 0


class Shelf:
    """All games since the start, and the file of --pgn. A separate thread writes it, so that games
    can change while the disk is slow."""

    def __init__(self, path: str | None, state: State) -> None:
        """OSError if the file can't be made, or another process keeps it."""
        self.lock, self.state, self.is_open = threading.Lock(), state, threading.Event()
        self.games: collections.deque[Kept] = collections.deque(maxlen=MOST_GAMES)
        self.file = None if path is None else dgt.PgnFile(path)
        if path is not None:
            hold(path, PROGRAM)
        self.changed: list[Kept] = []
        self.is_stale, self.written = True, (b"", "")
        self.news, self.saving, self.fault = threading.Event(), threading.Lock(), ""
        self.watchers: list[threading.Event] = []  # set after each change
        self.content = b"" if self.file is None else self.file._read() or b""
        for board, number, text in state.done():
            self.put(self.begin(board, number), text)

    def open(self) -> None:
        """All earlier games are on the shelf: from now on the file is written."""
        if not self.is_open.is_set() and self.file is not None:
            threading.Thread(target=self.save_all, daemon=True).start()
        self.content = b""
        self.is_open.set()

    def begin(self, board: str, number: int) -> Kept:
        kept = Kept(board, None if self.file is None else self.file.begin(), number=number)
        if self.content:
            kept.in_file.written = next((each for each in self.state.filed(board, number)
                                         if each in self.content), b"")
        return kept

    def put(self, kept: Kept, text: str) -> None:
        """Sets the text of a game, and puts it on the shelf with its first move: games without
        moves must not push others off."""
        with self.lock:
            if kept.text == text:
                return
            if not kept.text:
                self.games.append(kept)
            kept.text, self.is_stale = text, True
            if self.file is not None:
                self.changed.append(kept)
        for each in (self.news, *self.watchers):
            each.set()

    def find(self, board: str, number: int) -> Kept | None:
        with self.lock:
            return next((kept for kept in self.games if (kept.board, kept.number) ==
                         (board, number)), None)

    def texts(self) -> list[str]:
        counts: collections.Counter[str] = collections.Counter()
        ordered = []
        for kept in self.games:
            counts[kept.board] += 1
            ordered.append((counts[kept.board], natural(kept.board), kept.text))
        ordered.sort(key=lambda each: each[:2])
        return [text for *_, text in ordered]

    def pgn(self) -> tuple[bytes, str]:
        """All games as PGN (the first game of each board, then the second of each, and so on), and
        an ETag for this text."""
        with self.lock:
            if self.is_stale:
                text = "\n".join(self.texts()).encode(errors="replace")
                self.written = text, f'"{hashlib.sha256(text).hexdigest()[:20]}"'
                self.is_stale = False
            return self.written

    @property
    def count(self) -> int:
        with self.lock:
            return len(self.games)

    def save_all(self) -> None:
        while True:
            self.news.wait()
            self.news.clear()
            self.save()
            time.sleep(0.2)  # more moves may come, and the file is long

    def save(self) -> bool:
        """Writes the file. Returns whether it is complete. A fault is reported once, and the next
        move tries again."""
        if self.file is None:
            return True
        with self.saving:
            try:
                self.foretell(self.file)
                self.file.save()
            except OSError as refused:
                fault = refused.strerror or str(refused)
                if fault != self.fault:
                    report(f"{self.file.name} can't be written: {fault} (the games go on, and "
                           "each move tries again)")
                self.fault = fault
            else:
                if self.fault:
                    report(f"{self.file.name} is written again")
                self.fault = ""
            return not self.fault

    def foretell(self, file: dgt.PgnFile) -> None:
        """Notes the text that the file is about to get, so that the next process can find its
        games. OSError if that fails."""
        with self.lock:
            changed, self.changed = self.changed, []
            new = {(each.board, each.number): each for each in changed}
            for each in changed:
                file.put(each.text, each.in_file)
        try:
            self.state.file([(*key, each.in_file.text, each.in_file.written)
                             for key, each in new.items()])
        except sqlite3.Error as fault:
            with self.lock:
                self.changed += changed
            raise OSError(str(fault)) from None

    @property
    def lacks(self) -> bool:
        return bool(self.fault)

    def close(self) -> bool:
        """Writes the file for the last time. Returns whether it is complete, and reports missing
        games."""
        if self.file is None or self.save():
            return True
        report(f"{self.file.name} lacks this:\n{self.file.unsaved}")
        return False


class Place:
    """The games of a board, which `dgt.Games` puts on the shelf."""

    name = unsaved = ""

    def __init__(self, shelf: Shelf, board: str, count: int, first: int) -> None:
        """Games that begin before the row `first` are on the shelf already."""
        self.shelf, self.board, self.count = shelf, board, count
        self.row, self.first = 0, first
        self.kept: Kept | None = None
        self.done: list[Kept] = []  # those before it, until the state has them

    @property
    def played(self) -> int:
        """The number of games with moves."""
        return self.count - bool(self.kept and not self.kept.text)

    def begin(self) -> None:
        if self.kept is not None and self.kept.text:
            self.done.append(self.kept)
        if self.row >= self.first:
            self.count = self.played + 1
            self.kept = self.shelf.begin(self.board, self.count)

    def put(self, text: str) -> None:
        if self.kept is not None:
            self.shelf.put(self.kept, text)

    def save(self) -> None:
        pass  # the shelf does it


@dataclass
class Table:
    """The games of a board, and its pending entries."""

    games: dgt.Games
    place: Place
    players: tuple[str, str] | None = None
    told: Any = None
    letters: str = ""  # on the board now
    row: int = 0  # the first one with these letters
    rows: int = 0
    begun: int = 0  # the game that began last, and the first rows of the one before, and of it
    since: int = 0
    first: int = 0
    record: tuple[Any, bytes, str] = None, b"", ""  # the game as JSON, and of when
    advice: str = ""  # the reported one
    goes_on: bool = False  # whether that was reported
    journal: str = ""
    shift: float = 0.0  # of the journal's times
    at: float = 0.0  # the board's time, of its last entry
    base: tuple[float, float] | None = None  # a time of the board, and when it was here
    due: float = NEVER  # here

    def now(self, here: float) -> float:
        """The board's time."""
        return self.base[0] + min(here - self.base[1], TRUST) - LATE if self.base else self.at

    def number(self, here: float) -> int:
        """The time in its journal, as the number of an entry."""
        return math.ceil(1000 * (max(self.at, self.now(here)) - self.shift))

    def set_due(self) -> None:
        due, self.due = self.games.due, NEVER
        if due is not None and self.base and due <= self.base[0] + TRUST - LATE:
            self.due = self.base[1] + due - self.base[0] + LATE

    def note_beginning(self) -> None:
        """Notes a new game, which began with the present position. One that goes on from moves of
        the game before needs the rows since that began."""
        if self.begun != self.place.count:
            self.begun = self.place.count
            if not self.games.is_branch:
                self.since, self.first = self.first, self.row

    def name_players(self, players: tuple[str, str] | None) -> None:
        """Sets the players of the next game, and of this one if it has none or has just begun."""
        if players == self.players:
            return
        self.players, game = players, self.games.game
        is_new = game is None or game.tags.get("White", "?") == "?" or (
            len(game.moves) <= OPENING and game.result == "*")
        self.games.set_tags(dict(zip(("White", "Black"), players or ("?", "?"))),
                            is_new and players is not None)

    def state(self) -> Any:
        """A value that changes with the summary."""
        game = self.games.game
        return game and (self.place.count, len(game.moves), game.state,
                         self.games.turned, summary(self.games))


class Collector:
    """Makes games in a separate thread, from the boards' entries in order. `tell` gets the name of
    a board, the summary of its game, and whether it began on a turned board. If the name is empty,
    the tags of games have changed."""

    def __init__(self, shelf: Shelf, tags: dict[str, str], white_clock: str,
                 tell: Tell, state: State, is_last: bool = True) -> None:
        """If it `is_last`, nobody needs the state's rows of finished games."""
        self.shelf, self.tags, self.white_clock, self.tell = shelf, {**tags}, white_clock, tell
        self.is_last, self.finished, self.row, self.arrived = is_last, state.finished(), 0, 0.0
        self.state, self.counts, self.is_between = state, state.counts(), False
        self.firsts, self.reached = state.firsts(), state.reached()
        self.waiting: queue.SimpleQueue[Heard | None] = queue.SimpleQueue()
        self.tables: dict[str, Table] = {}
        self.shown: dict[str, topics.Board] = {}  # what the games have of each board
        self.thread = threading.Thread(target=self.run, daemon=True)
        self.thread.start()

    def hear(self, heard: Heard) -> None:
        """What is heard beside the boards' entries, which are in the state."""
        self.waiting.put(heard)

    def close(self) -> None:
        """Puts all games so far on the shelf."""
        self.waiting.put(None)
        self.thread.join()
        for table in self.tables.values():
            table.games.close()

    def record(self, name: str) -> tuple[bytes, str]:
        """The game on a board as JSON, or null, and an ETag for this text."""
        table = self.tables.get(name)
        told = table and table.told
        if not table or not told or not (game := table.games.game):
            return b"null", '"none"'
        key = told, [(each.move, each.clock) for each in game.moves]
        if table.record[0] != key:
            text = written(game)
            table.record = key, text, f'"{hashlib.sha256(text).hexdigest()[:20]}"'
        return table.record[1:]

    def next(self, seconds: float) -> Heard | None:
        """The next news within this time. `queue.Empty` if there is none."""
        return self.waiting.get(timeout=seconds)

    def run(self) -> None:
        self.take_news()
        self.go_on()
        while True:
            self.take_news()
            self.shelf.open()
            now = time.monotonic()
            for name in [name for name, table in self.tables.items() if table.due <= now]:
                self.do(name, functools.partial(self.wait, now))
            due = min((table.due for table in self.tables.values()), default=NEVER)
            try:
                heard = self.next(min(1.0, max(0.0, due - time.monotonic())))
            except queue.Empty:
                continue
            self.take_news()  # what was heard before this
            match heard:
                case None:
                    return
                case Call(run):
                    run()
                case Now():
                    self.set_time(heard)

    def go_on(self) -> None:
        """Continues each board at the time that it had reached before the start, unless it has a
        newer entry: a move that had rested stays made."""
        for name, row, number in self.reached:
            if (table := self.tables.get(name)) and table.place.row == row:
                self.do(name, functools.partial(self.reach, number / 1000))

    def set_time(self, now: Now) -> None:
        """Sets the time on a board, from which its next event is due."""
        if table := self.tables.get(now.board):
            table.base = None
            if now.at is not None and now.journal == table.journal:
                table.base = now.at + table.shift, time.monotonic()
            table.set_due()

    def take_news(self) -> None:
        while news := self.state.news():
            for self.row, self.arrived, journal, name, number, entry in news:
                self.take(self.row, journal, name, number / 1000, entry)

    def take(self, row: int, journal: str, name: str, at: float, entry: Any) -> None:
        """Handles a board's entry, or one of a round."""
        if not name:
            return self.take_round(row, entry)
        if entry is None:  # something is lost
            self.do(name, lambda table: self.lose(table, at))
            return None
        if entry == REMOVED:
            self.shown.pop(name, None)
            return self.remove(name)
        board = self.shown.setdefault(name, topics.Board(name))
        board.hear_entry(round(1000 * at), entry)
        board.journal, board.heard_at = journal, at
        if board.is_shown and not self.is_between:
            self.do(name, functools.partial(self.observe, journal, at, row, board))

    def take_round(self, row: int, tags: dict[str, str] | None) -> None:
        """Sets the tags of all games that begin from now on. Without tags the present games are
        over, and none begins until there are some."""
        if tags is None:
            for name in list(self.tables):
                self.remove(name)
            self.is_between = True
            return
        self.tags |= tags
        for table in self.tables.values():
            game = table.games.game
            table.games.set_tags(tags, game is not None and not game.moves)
        self.tell("", None, False)
        if self.is_between:
            self.is_between = False
            for name, board in self.shown.items():
                self.do(name, functools.partial(self.observe, board.journal, board.heard_at, row,
                                                board))

    def remove(self, name: str) -> None:
        """Ends the game on a board, whose next one begins with a later row. The rows of the present
        position stay: the next round may begin with it."""
        if table := self.tables.pop(name, None):
            table.games.close()
            self.counts[name] = table.place.played
            if table.place.kept and table.place.kept.text:
                table.place.done.append(table.place.kept)
            table.since, table.first = table.row, self.row + 1
            self.firsts[name] = table.first
            self.finish(name, table, table.place.played)
            self.tell(name, None, False)

    def finish(self, name: str, table: Table, games: int) -> None:
        """Stores finished games, and drops a board's rows before them."""
        if not self.is_last:
            table.place.done.clear()
            return
        try:
            self.store_done(name, table)
            self.state.cut(name, games, table.since, table.first)
        except sqlite3.Error as fault:
            report(f"the state can't be shortened: {fault} (the next game tries again)")
        else:
            table.place.done.clear()

    def store_done(self, name: str, table: Table) -> None:
        """Stores the texts of games that are finished. sqlite3.Error if that fails."""
        for kept in table.place.done:
            self.state.finish(name, kept.number, kept.text, self.row)
            self.finished[name, kept.number] = self.row

    def lose(self, table: Table, at: float) -> None:
        """Notes that nobody watched the board up to this time."""
        table.at = max(table.at, at + table.shift)
        table.games.see(dgt.BoardView(in_doubt=True, away="ended"), table.at)

    def wait(self, now: float, table: Table) -> None:
        """Notes that everything up to this time was heard. The state stores the time."""
        table.at = max(table.at, table.now(now))
        with contextlib.suppress(sqlite3.Error):
            self.state.reach(table.place.board, table.place.row, table.number(now))
        table.games.tick(table.at)
        table.note_beginning()

    def reach(self, at: float, table: Table) -> None:
        """Does everything due up to a time of the board."""
        table.at = max(table.at, at + table.shift)
        while (due := table.games.due) is not None and due <= table.at:
            table.games.tick(due)
        table.note_beginning()

    def observe(self, journal: str, at: float, row: int, board: topics.Board, table: Table) -> None:
        """Handles a board's entry, after everything that was due before. The clock of another
        machine may be slow, and nobody watched before it did."""
        if journal != table.journal:
            if table.at:
                self.lose(table, table.at - table.shift)
            table.journal, table.shift = journal, max(0.0, table.at + 1 - at)
        table.at, table.place.row = max(table.at, at + table.shift), row
        while (due := table.games.due) is not None and due <= table.at:
            table.games.tick(due)
        # A journal has no older entries, and no later ones: the date of its machine is wrong.
        day = at if abs(self.arrived - at) < OLDEST else self.arrived
        table.games.set_tags({"Date": time.strftime("%Y.%m.%d", time.localtime(day)),
                              **self.tags}, False)
        table.name_players(board.players)
        if board.is_sure and (letters := board.position.letters) != table.letters:
            table.letters, table.row = letters, row
        table.games.see(view_of(board), table.at)
        table.note_beginning()
        table.rows += 1
        if table.rows > 2 * MOST_ROWS and self.is_last:
            table.rows, row = MOST_ROWS, self.state.row_of_last(table.place.board, MOST_ROWS)
            self.store_done(table.place.board, table)
            self.state.cut(table.place.board, table.place.count - 1, row, row)

    def do(self, name: str, what: Callable[[Table], None]) -> None:
        """Does something with a board's games, and reports the changes."""
        table = self.tables.get(name) or self.add(name)
        try:
            what(table)
        except Exception:  # of one board: the others' games go on
            del self.tables[name]
            self.counts[name] = table.place.count
            report(f"{name!r}: its game is broken off\n{traceback.format_exc()}")
            return
        table.set_due()
        if table.place.done and not table.games.is_branch:
            self.finish(name, table, table.place.count - 1)
        if (advice := table.games.advice) != table.advice:
            table.advice = advice
            self.report_change(name, f"no move leads to this: {advice}" if advice
                               else "found again")
        if (goes_on := table.games.goes_on) != table.goes_on:
            table.goes_on = goes_on
            if goes_on and table.games.game:
                self.report_change(name, f"goes on after the result {table.games.game.result}: if "
                                   "it is wrong, keep * at the desk")
        if (state := table.state()) != table.told:
            table.told = state
            self.tell(name, summary(table.games), table.games.turned)

    def report_change(self, name: str, text: str) -> None:
        """Reports what to put right on a board, that its game isn't lost any more, or that it goes
        on after its result."""
        report(f"{name!r}: {text}")

    def add(self, name: str) -> Table:
        place = Place(self.shelf, name, self.counts.get(name, 0), self.firsts.get(name, 0))
        games = dgt.Games(nothing, nothing, place, {**self.tags, "Board": name}, self.white_clock)
        table = self.tables[name] = Table(games, place, begun=place.count)
        return table


def nothing(_: str) -> None:
    """What `dgt-game` would print."""


report = functools.partial(say, PROGRAM)
