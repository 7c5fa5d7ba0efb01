"""The boards as a server shows them."""

import collections
import contextlib
import functools
import json
import sqlite3
import threading
import time
from typing import Any

from dgt._mqtt import Reporter

import collector
import corrected_games
import corrections
import topics
import web
from collector import report

# At once, and of one publisher: a journal, or all that publish without one.
MOST_BOARDS, MOST_OF_PUBLISHER = 4096, 512


class Boards:
    """The last messages of each board, and the events for pages."""

    def __init__(self, state: collector.State) -> None:
        self.lock = threading.Lock()
        self.state, self.marks = state, state.marks()
        self.asked: dict[tuple[str, str], tuple[int, float]] = {}
        self.fault = Reporter(collector.PROGRAM)
        self.known: dict[str, topics.Board] = {}
        self.owned: collections.Counter[str] = collections.Counter()  # boards of each journal
        self.events = web.Events()
        self.latest: tuple[int, bytes] = (-1, b"")
        self.games: corrected_games.CorrectedGames | None = None
        self.late: Boards | None = None  # the boards for spectators
        self.names: corrected_games.Players = {}
        self.seats: dict[str, str] = {}  # the other board of each swapped one
        self.broker, self.broker_at, self.looked_at = False, 0.0, 0.0
        self.messages = self.refused = 0
        self.wrong: set[tuple[str, str]] = set()  # topics with a reported invalid message
        self.full: set[str] = set()  # publishers with a reported refused board
        self.notes: list[str] = []  # for the publishers of the board that was heard last

    def head(self) -> dict[str, Any]:
        tags = self.games.tags if self.games else {}
        return {"broker": self.broker, "event": tags.get("Event", ""),
                "round": tags.get("Round", "")}

    def all(self) -> dict[str, Any]:
        boards = [board.event() for board in self.known.values() if board.is_shown]
        return {**self.head(), "boards": boards}

    def now(self) -> dict[str, Any]:
        with self.lock:
            return self.all()

    def written(self) -> tuple[bytes, bytes, int]:
        """Everything that pages show, as JSON in two parts, and the place of the next event. Its
        first key is the time, from which a page computes the age of each clock. The second part is
        the same object until the next event."""
        with self.lock:
            end = self.events.end
            if self.latest[0] != end:
                self.latest = end, json.dumps(self.all())[1:].encode() + b"\n\n"
            now = topics.moment(time.monotonic())
            return f'{{"now": {now}, '.encode(), self.latest[1], end

    def tell(self, event: dict[str, Any]) -> None:
        event = {"now": topics.moment(time.monotonic()), **event}
        self.events.add(json.dumps(event).encode())

    def refuse(self, name: str, topic: str, payload: bytes) -> None:
        """Reports an invalid message, once for each topic until it has a valid one."""
        with self.lock:
            self.refused += 1
            is_new = (name, topic) not in self.wrong and len(self.wrong) < MOST_BOARDS
            self.wrong |= {(name, topic)} if is_new else set()
        if is_new:
            shown = f"{name}/{topic}" if topic else name
            report(f"{shown[:80]!r}: invalid message ignored: {payload[:80]!r}")

    def board_of(self, name: str, journal: str) -> topics.Board | None:
        """The board with this name. Nothing if its publisher has too many boards, which is reported
        once."""
        board = self.known.get(name)
        if (board is None or board.journal != journal) and (
                self.owned[journal] >= MOST_OF_PUBLISHER
                or board is None and len(self.known) >= MOST_BOARDS):
            self.refused += 1
            if journal not in self.full and len(self.full) < MOST_BOARDS:
                self.full.add(journal)
                report(f"{name[:80]!r}: ignored, since its publisher has too many boards")
            return None
        if board is None:
            board = self.known[name] = topics.Board(name, known_at=time.monotonic())
            self.owned[""] += 1
        return board

    def give(self, board: topics.Board, journal: str | None) -> None:
        """Gives the board to a publisher, or to none."""
        self.owned[board.journal] -= 1
        if not self.owned[board.journal]:
            del self.owned[board.journal]
        if journal is None:
            del self.known[board.name]
        else:
            self.owned[journal] += 1
            board.journal = journal

    def hear(self, name: str, topic: str, payload: bytes) -> None:
        """Handles a message of a board. An empty one removes what the topic said."""
        now = time.monotonic()
        try:
            said = topics.read(topic, payload)
            with self.lock:
                board = self.known.get(name)
                if board and board.journal and topic != topics.COUNTERS:
                    return  # the journal contains it, too
                if (board := board or self.board_of(name, "")) is None:
                    return
                self.wrong.discard((name, topic))
                was_shown = board.is_shown
                board.hear(topic, said, now, payload.decode())
                if not board.said:
                    self.give(board, None)
                if topic != topics.COUNTERS:
                    self.tell_change(board)
                    self.pass_on(board, was_shown)
        except topics.Refused:
            self.refuse(name, topic, payload)

    def hear_log(self, name: str, payload: bytes, is_live: bool) -> str | None:
        """Handles a message of a journal about a board. Returns a request for missing entries, if
        there are any, or after a retained message for the time."""
        try:
            log = topics.read_log(payload)
            with self.lock:
                if (board := self.board_of(name, log.journal)) is None:
                    return None
                now = time.monotonic()
                if not board.may_be_of(log.journal, now, is_live):
                    board.others[log.journal] = log.last
                    if is_live:
                        board.hear_rival(log, now)
                    return None
                if is_live:
                    self.compare(board, log.journal, now)
                return self.take_log(board, log, is_live)
        except topics.Refused:
            self.refuse(name, topics.LOG, payload)
            return None

    def compare(self, board: topics.Board, journal: str, now: float) -> None:
        """Notes, and reports once, that another program publishes the board, too."""
        board.rivals = {each: at for each, at in board.rivals.items()
                        if each != journal and now < at + topics.LOST}
        if board.rivals:
            if not board.is_doubled(now):
                others = ", ".join(board.rivals)
                report(f"{board.name!r}: two programs publish this board (the journals {journal} "
                       f"and {others}): only what the first one says is shown and kept. Give one "
                       "of the boards another name (see --names of dgt-broadcast)")
            if now > board.noted_at + topics.LOST:
                board.noted_at = now
                self.notes.append(f"rivals {' '.join([journal, *board.rivals])}")
            board.doubled_at = now

    def doubled(self) -> list[str]:
        """The boards that two programs publish."""
        with self.lock:
            now = time.monotonic()
            return sorted((name for name, board in self.known.items() if board.is_doubled(now)),
                          key=collector.natural)

    def take_log(self, board: topics.Board, log: topics.Log, is_live: bool) -> str | None:
        name, key, now = board.name, (board.name, log.journal), time.monotonic()
        self.pass_over(board)
        mark = max(self.marks.get(key, 0), self.end_of_last(board, log))
        if is_live and log.last < mark:  # a power failure took the end of the journal
            mark = log.before
        mark = self.marks[key] = self.keep(name, log, mark)
        self.give(board, log.journal)
        if log.entries and log.entries[-1][0] == log.last:
            board.hear_entry(log.last, log.entries[-1][1:])
        if is_live:
            board.hear_time(log.now, now)
        self.tell_change(board)
        is_all = mark >= log.last
        if self.games:
            self.games.hear(collector.Now(name, log.journal,
                                          log.now / 1000 if is_all and is_live else None))
        asked, at = self.asked.get(key, (-1, 0.0))
        if is_all and is_live or asked == mark and now < at + 1:
            return None
        self.asked[key] = mark, now
        return f"{log.journal} {mark}"

    def end_of_last(self, board: topics.Board, log: topics.Log) -> int:
        """The time in a new journal that corresponds to the last entry of the old one. Older
        entries are from somewhere else, such as another game. The clocks of two machines may
        differ."""
        if board.journal in ("", log.journal) or board.ahead is None:
            return 0
        last = self.marks.get((board.name, board.journal), 0)
        return last + board.ahead - topics.ahead(log.now) - 1000

    def keep(self, name: str, log: topics.Log, mark: int) -> int:
        """Stores the entries that follow the last stored one, and returns the number of the last
        one. Entries that the journal has dropped are lost."""
        before = mark
        try:
            if 0 < mark < log.first:
                self.state.add(log.journal, name, log.first - 1, None)
                mark = log.first - 1
            for number, *said in log.entries if log.before <= mark else ():
                if number > mark:
                    self.state.add(log.journal, name, number, said)
                    mark = number
        except sqlite3.Error as fault:
            self.fault.say(f"the state can't be written: {fault} (requesting the rest again)")
        else:
            if mark > before:
                self.fault.last = ""  # it was written
        return mark

    def pass_over(self, board: topics.Board) -> None:
        """Notes that the board's journal is heard, so that other messages aren't needed."""
        for journal, number in board.others.items():
            with contextlib.suppress(sqlite3.Error):
                self.state.mark(journal, board.name, number)
                self.marks[board.name, journal] = number
        board.others.clear()

    def end_journal(self, journal: str) -> None:
        """Notes that the program of a journal has ended."""
        with self.lock:
            for board in self.known.values():
                if board.journal == journal:
                    board.has_ended = True
                    self.tell_change(board)

    def end(self, name: str) -> None:
        """Notes that a board isn't followed any more."""
        with self.lock:
            if board := self.known.get(name):
                board.has_ended = True
                self.tell_change(board)

    def look(self) -> None:
        """Ends the boards that a journal says nothing about while the broker is there, also those
        that only a retained message or the state has named. It is called each second; if it was
        not, this program was busy, and they have more time."""
        now = time.monotonic()
        if now > self.looked_at + 5:
            self.broker_at = now
        self.looked_at = now
        with self.lock:
            silent = [name for name, board in self.known.items()
                      if self.broker and board.journal and not board.has_ended
                      and now > max(self.broker_at, board.known_at, board.live_at) + topics.LOST]
        for name in silent:
            self.end(name)
            if self.late and self.late.games:
                self.late.games.hear(collector.Call(functools.partial(self.late.end, name)))

    def tell_change(self, board: topics.Board) -> None:
        """Sends changes to pages, unless they show them by themselves."""
        board.named = self.names.get(board.name)
        event = board.event() if board.is_shown else None
        if event is None and board.told is not None:
            self.tell({"removed": board.name})
        elif event is not None and not topics.is_foreseen(board.told, event):
            self.tell(event)
        else:
            return
        board.told = event

    def pass_on(self, board: topics.Board, was_shown: bool) -> None:
        """Makes games from the messages of a board without a journal."""
        if self.games and (board.is_shown or was_shown):
            now = time.time()
            entry = board.as_entry() if board.is_shown else collector.REMOVED
            with contextlib.suppress(sqlite3.Error):
                self.state.add("", board.name, round(1000 * now), entry)
            self.games.hear(collector.Now(board.name, "", now))

    def recall(self) -> None:
        """Shows the boards of the state until their messages arrive."""
        for name, journal, number, entry in self.state.latest():
            if board := self.board_of(name, journal):
                self.give(board, journal)
                board.hear_entry(number, entry)
                board.live_at = time.monotonic()

    def hear_game(self, name: str, game: dict[str, Any] | None, is_turned: bool) -> None:
        """Notes changes of the game on a board or, without a board, of the tags."""
        with self.lock:
            board = self.known.get(name)
            if board is not None and board.is_shown:
                board.game, board.is_turned = game, is_turned
                self.tell_change(board)
            elif not name:
                self.tell(self.head())

    def hear_broker(self, is_there: bool) -> None:
        """Notes that the broker was connected or lost. On a connection the boards' states are
        unknown until they arrive again: the broker may have lost retained messages. The rest stays,
        and repeated messages change nothing."""
        with self.lock:
            self.broker, self.broker_at = is_there, time.monotonic()
            self.tell(self.head())
            for board in self.known.values():
                if board.journal and self.games:
                    self.games.hear(collector.Now(board.name, board.journal, None))
                    continue
                board.is_fresh = False
                if is_there:
                    board.said.pop(topics.STATE, None)
                    self.tell_change(board)
                self.pass_on(board, False)

    # ---- The arbiter's settings, and delayed boards

    def sit(self) -> None:
        """Puts boards that were swapped before at their places."""
        for one, other in self.state.settings("swap"):
            self.change_places(one, other)

    def change_places(self, one: str, other: str) -> None:
        sources = {self.seats.get(each, each): each for each in {*self.seats, one, other}}
        self.seats[sources[one]], self.seats[sources[other]] = other, one

    def swap(self, entry: corrections.Entry) -> None:
        """Two boards change places: each continues the other's game. sqlite3.Error if that can't be
        stored."""
        one, other = entry["swap"]
        with self.lock:
            rows = []
            for name, journal, number, said in self.state.latest():
                if name in (one, other):
                    number = max(number, self.marks.get((name, journal), 0))
                    rows.append((journal, other if name == one else one, number, said))
            begins = {name: [journal, number] for journal, name, number, _ in rows}
            self.state.add_all((corrections.DESK, "", 0, {**entry, "from": begins}), *rows)
            self.marks |= {(name, journal): number for journal, name, number, _ in rows}
            self.asked.clear()
            self.change_places(one, other)
            self.exchange(self.known[one], self.known[other])

    def exchange(self, one: topics.Board, other: topics.Board) -> None:
        """Shows the boards at each other's places. The games stay there."""
        one.name, other.name = other.name, one.name
        one.game, other.game = other.game, one.game
        one.is_turned, other.is_turned = other.is_turned, one.is_turned
        for board in (one, other):
            self.known[board.name] = board
            self.tell_change(board)

    def name(self, players: corrected_games.Players) -> None:
        """Sets the players of the files of names and of pairings."""
        with self.lock:
            self.names = players
            for board in self.known.values():
                self.tell_change(board)

    def show(self, journal: str, name: str, number: int, entry: list[Any]) -> None:
        """Shows an entry from some time ago."""
        with self.lock:
            board = self.known.setdefault(name, topics.Board(name))
            board.journal = journal
            board.hear_entry(number, entry)
            if board.clock_number == number:
                board.clock_at = time.monotonic()
            self.tell_change(board)

    def show_time(self, now: collector.Now) -> None:
        with self.lock:
            if now.at is not None and (board := self.known.get(now.board)):
                board.hear_time(round(1000 * now.at), time.monotonic())
                self.tell_change(board)

    def remove(self, name: str) -> None:
        with self.lock:
            if self.known.pop(name, None):
                self.tell({"removed": name})
