"""The pairings of rounds, from a file: who plays on which board."""

import csv
import pathlib
import re
import threading
from collections.abc import Callable
from dataclasses import dataclass, field
from typing import Any

import collector
import corrections
import topics
from corrections import MOST_FILE, PLAYER_TAGS, Entry, Refused

MOST_VALUE = 200  # bytes
MOST_TOLD = 5  # wrong lines
TAG = re.compile(r'\[\s*(\w+)\s+"((?:[^"\\]|\\.)*)"\s*\]')
MOVES = re.compile(r"[0-9*{;%(]|\[%")  # begins a line that is no tag
EVENT_TAGS = ("Event", "Site", "Date")
NAMES = {name.lower(): name for name in (
    *EVENT_TAGS, "Round", "Board", "White", "Black", *PLAYER_TAGS)}
UNKNOWN = ("", "?", "-", "0")
DATE = re.compile(r"[0-9?]{4}\.[0-9?]{2}\.[0-9?]{2}")
# What some tags have to be.
KINDS = {"FideId": (re.compile("[0-9]{1,10}"), "a number of FIDE"),
         "Elo": (re.compile("[0-9]{1,4}"), "a rating"),
         "Title": (re.compile("[A-Za-z]{1,4}"), "a title"), "Date": (DATE, "a date of PGN")}
Tags = dict[str, str]


def value_of(name: str, text: str) -> str:
    """The value of a tag, or an empty text if it is unknown. Refused if it isn't valid."""
    value, kind = text.strip(), re.sub("^(White|Black)(?=.)", "", name)
    if value in UNKNOWN and name != "Board":
        return ""
    if "\ufffd" in value or not value.isprintable() or len(value.encode()) > MOST_VALUE:
        raise Refused(f"{name} isn't text of at most {MOST_VALUE} bytes on one line")
    if kind in KINDS and not KINDS[kind][0].fullmatch(value):
        raise Refused(f"{name} isn't {KINDS[kind][1]}: {value[:40]!r}")
    return value


@dataclass
class Pairing:
    """The game on a board. Without a round it is of any."""

    board: str
    round: str
    tags: Tags


@dataclass
class Pairings:
    """The content of a file, and its wrong lines."""

    games: list[Pairing] = field(default_factory=list)
    wrong: list[str] = field(default_factory=list)

    def refuse(self, line: int, why: object) -> None:
        self.wrong.append(f"line {line}: {why}")

    def add(self, tags: Tags) -> None:
        """Adds a game. Refused if it has no board or no players, or the board has some already."""
        # A round such as `3.7` names the board after the dot.
        name, _, board = tags.pop("Round", "").partition(".")
        board = tags.pop("Board", "") if "Board" in tags and not board else board
        tags.pop("Board", "")
        if not board:
            raise Refused("no board: it is `7` in a Round such as `3.7`, or in Board")
        if set("/+#") & set(board) or len(board.encode()) > topics.MOST_NAME:
            raise Refused(f"not a board's name (no / + #): {board[:40]!r}")
        if lacks := [each for each in ("White", "Black") if not tags.get(each)]:
            raise Refused(f"board {board} has no {' and no '.join(lacks)}")
        if any((each.board, each.round) == (board, name) for each in self.games):
            raise Refused(f"board {board} has players already")
        self.games.append(Pairing(board, name, tags))

    @property
    def rounds(self) -> list[str]:
        """The rounds that are named, in order."""
        return sorted({each.round for each in self.games} - {""}, key=collector.natural)

    def of(self, name: str) -> list[Pairing]:
        return [each for each in self.games if each.round in ("", name)]


# ---- Reading a file


def line_of(raw: bytes) -> str:
    """A line of UTF-8, or of a program for Windows."""
    try:
        return raw.decode().rstrip("\r")
    except UnicodeDecodeError:
        return raw.decode("cp1252", "replace").rstrip("\r")


def read(content: bytes) -> Pairings:
    """Reads a PGN or a CSV. Nothing of a wrong line is taken, and the rest is."""
    lines = [line_of(raw) for raw in content.removeprefix(b"\xef\xbb\xbf").split(b"\n")]
    first, found = next((each.lstrip() for each in lines if each.strip()), ""), Pairings()
    (read_pgn if first[:1] in ("[", "%", ";") else read_csv)(lines, found)
    return found


def read_pgn(lines: list[str], found: Pairings) -> None:
    """Reads the tags of games. Their moves and results don't count."""
    tags: Tags = {}
    begun, is_in_tags = 0, False

    def add() -> None:
        try:
            if begun:
                found.add(tags)
        except Refused as fault:
            found.refuse(begun, fault)

    for number, line in enumerate(lines, 1):
        line = line.strip()
        is_tag = line.startswith("[") and not MOVES.match(line)
        if not is_tag and (not is_in_tags or not line or MOVES.match(line)):
            is_in_tags = False
            continue
        if not is_in_tags:
            add()
            tags, begun, is_in_tags = Tags(), number, True
        try:
            read_tag(line, tags)
        except Refused as fault:
            found.refuse(number, fault)
    add()


def read_tag(line: str, tags: Tags) -> None:
    """Reads a line of PGN. Refused with the reason if it is wrong."""
    if not (parts := TAG.fullmatch(line)):
        raise Refused(f'not a tag such as [White "Carlsen"]: {line[:80]!r}')
    name, value = parts[1], re.sub(r"\\(.)", r"\1", parts[2])
    if name in tags:
        raise Refused(f"the game has a {name} already")
    if name.lower() in NAMES:
        tags[name] = value_of(name, value)


def read_csv(lines: list[str], found: Pairings) -> None:
    """Reads a table. Its first line names the columns."""
    rows = [(number, line) for number, line in enumerate(lines, 1)
            if line.strip() and not line.startswith("#")]
    if not rows:
        return
    (number, head), *rows = rows
    comma = max(",;\t", key=head.count)
    columns = [re.sub(r"[\W_]", "", each).lower() for each in head.split(comma)]
    if lacks := [each for each in ("board", "white", "black") if each not in columns]:
        return found.refuse(number, f"no column {' and no column '.join(lacks)}")
    for each in columns:
        if each not in NAMES or columns.count(each) > 1:
            return found.refuse(number, f"unknown, or twice: the column {each[:40]!r}")
    for number, line in rows:
        try:
            cells = next(csv.reader([line], delimiter=comma, strict=True))
            if len(cells) != len(columns):
                raise Refused(f"{len(cells)} cells for {len(columns)} columns")
            tags = {NAMES[each]: value_of(NAMES[each], cell) for each, cell in zip(columns, cells)}
            name, _, _ = tags.get("Round", "").partition(".")
            found.add({**tags, "Round": f"{name}.{tags['Board']}"})
        except (csv.Error, Refused) as fault:
            found.refuse(number, fault)


# ---- The present round


class Watch(corrections.Watch):
    """A file of pairings, which is read again once it has changed. `fault` names its wrong lines.
    """

    names: Pairings

    def __init__(self, path: str) -> None:
        """Refused if it can't be read."""
        self.path, self.fault, self.names = path, "", Pairings()
        self.stamp = self.seen = self.look()
        if not self.read():
            raise Refused(f"{path}: {self.fault}")

    def read(self) -> bool:
        try:
            self.names = read(pathlib.Path(self.path).read_bytes()[:MOST_FILE])
        except OSError as fault:
            self.fault = fault.strerror or str(fault)
            return False
        wrong, more = self.names.wrong[:MOST_TOLD], len(self.names.wrong) - MOST_TOLD
        self.fault = "; ".join(wrong + ([f"and {more} more wrong lines"] if more > 0 else []))
        return True


class Rounds:
    """Names the players of a round from a file. The round is the desk's last one, unless another
    one was `asked` for at the start since then; or the first one of the file."""

    def __init__(self, path: str, asked: str | None, state: collector.State) -> None:
        """Refused if the file can't be read."""
        self.watch, self.asked, self.state = Watch(path), asked, state
        self.lock, self.is_late = threading.Lock(), False
        last = state.settings("pairings")[-1:]
        is_same = bool(last) and last[0]["asked"] == asked
        self.round: str = last[0]["round"] if is_same else asked or ""
        self.ask: Callable[[Entry], Any] = lambda _: None
        self.others: Callable[[], Tags] = dict  # the tags that are set elsewhere

    def run(self, ask: Callable[[Entry], Any], others: Callable[[], Tags],
            report: Callable[[str], None]) -> None:
        """Takes the file, also again once it has changed. `ask` stores what it says."""
        self.ask, self.others = ask, others
        if self.watch.fault:
            report(f"{self.watch.path}: {self.watch.fault}")

        def take(_: Any) -> None:
            try:
                self.take()
            except Refused as fault:
                report(f"{self.watch.path}: {fault}")

        take(None)
        self.watch.run(take, report)

    def take(self) -> None:
        """Names the players of the present round. If the file has none of it, nothing changes.
        Refused if that can't be stored."""
        with self.lock:
            found = self.watch.names
            self.round = self.round or next(iter(found.rounds), "")
            games = found.of(self.round)
            others = self.others()
            tags = {name: value for name in EVENT_TAGS for value in
                    [next((each.tags[name] for each in games if each.tags.get(name)), "")]
                    if value and not others.get(name)}
            players = ("White", "Black", *PLAYER_TAGS)
            entry = {"round": self.round, "asked": self.asked, "tags": tags, "boards": {
                each.board: {name: value for name, value in each.tags.items()
                             if value and name in players} for each in games}}
            self.is_late = not games and bool(found.games)
            if games and self.state.settings("pairings")[-1:] != [entry]:
                self.ask({"pairings": entry})

    def begin(self, name: str) -> None:
        """Begins a round of the file. Refused if the file has none with this name."""
        if not name or not name.isprintable() or not self.watch.names.of(name):
            known = ", ".join(self.watch.names.rounds) or "none"
            raise Refused(f"the file has no round {name[:40]!r}; it has {known}")
        before, self.round = self.round, name
        try:
            self.take()
        except Refused:
            self.round = before
            raise

    @property
    def following(self) -> str:
        """The round after the present one."""
        if self.round.isdecimal():
            return str(int(self.round) + 1)
        rounds = self.watch.names.rounds
        return next((each for each in rounds if collector.natural(each)
                     > collector.natural(self.round)), self.round)

    def lines(self) -> list[tuple[str, bool]]:
        """What the desk says of the file, and whether each line is a fault."""
        path, found = self.watch.path, self.watch.names
        lines = [(f"{path}: {self.watch.fault}", True)] if self.watch.fault else []
        if self.is_late:
            rounds = ", ".join(found.rounds)
            return [*lines, (f"{path}: nothing of round {self.round}, but of {rounds}: begin that "
                             "round below", True)]
        what = f"round {self.round}" if self.round else "any round"
        return [*lines, (f"{path}: {len(found.of(self.round))} boards of {what}", False)]
