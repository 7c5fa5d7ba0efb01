"""The arbiter's corrections: the meaning of his rows of the state, and their effect on games."""

import itertools
import os
import pathlib
import re
import threading
import urllib.parse
from collections.abc import Callable, Iterator
from dataclasses import dataclass, field, replace
from typing import Any

import dgt
import dgt.chess

import topics

DESK = "desk"  # the journal of an arbiter's rows
# Results as PGN has them, and what it calls their reasons.
RESULTS = ("1-0", "0-1", "1/2-1/2", "*")
REASONS = ("normal", "time forfeit", "rules infraction", "adjudication", "abandoned")
SIDES = ("left", "right", "learn")
FILE_TAGS = ("Event", "Site", "Date", "Round")
# What a file of pairings says of the players of a game.
PLAYER_TAGS = (*(colour + kind for colour in ("White", "Black")
                 for kind in ("FideId", "Elo", "Title", "Team")), "TimeControl")
MOST_MOVES = 1000  # half-moves of a corrected game
LOOK = 1.0  # seconds between two looks at the time of a file
MOST_FILE = 1 << 20  # bytes
LOCAL = ("localhost", "127.0.0.1", "::1")
WORDS = re.compile(r"\{([^}]*)\}|(\d+\.+|\S+)")
# The square to which a move goes, and what a pawn becomes.
TARGET = re.compile(r"[x:-]?([a-h][1-8])(?:=?([QRBNqrbn]))?[+#]*$")
Entry = dict[str, Any]


class Refused(Exception):
    """A correction, or a file, isn't valid."""


# ---- Games as text


def named(state: dgt.GameState, word: str) -> str:
    """The legal move of a word in short or long notation. A capture may be written without `x`, as
    in `Nd5` and `ed5`: `d5` is none."""
    plain, why = word.rstrip("!?"), "is not a legal move"
    long = TARGET.sub(lambda found: found[1] + (found[2] or "").lower(), plain)
    if state.chess.is_legal(long):
        return long
    for x in "", "x":
        text = TARGET.sub(lambda found: (x if found.end(1) > 2 else "") + found[1]
                          + (found[2] or "").upper(), plain)
        try:
            return state.chess.parse_san(text, lenient=True)
        except dgt.BadSan as fault:
            if fault.why == dgt.chess.SanFault.AMBIGUOUS:
                why = "may be several moves"
    raise Refused(f"{word} {why} at {state.number}{'.' if state.white else '...'}")


def read_moves(state: dgt.GameState, text: str) -> Iterator[tuple[str, str]]:
    """The moves of a text, each with the comment after it."""
    move = ""
    for found in WORDS.finditer(text):
        comment, word = found.groups()
        if comment is not None:
            yield move, comment
            move = ""
        elif not word[0].isdigit() or word.startswith("0-0"):
            if word == "*":
                continue
            if move:
                yield move, ""
            move = named(state, word)
            state = state.after(move)
    if move:
        yield move, ""


def read_game(text: str) -> dgt.PgnGame:
    """Reads a game from the text that `dgt.PgnGame` has written."""
    heads, _, body = text.partition("\n\n")
    tags = {name: re.sub(r"\\(.)", r"\1", value)
            for name, value in re.findall(r'(?m)^\[(\w+) "(.*)"\]$', heads)}
    fen, result = tags.pop("FEN", None), tags.pop("Result", "*")
    tags.pop("SetUp", None)
    start = dgt.GameState.parse(fen) if fen else dgt.GameState.start()
    game = dgt.PgnGame(tags, start, [], result)
    for move, comment in read_moves(start, body):
        clock = re.fullmatch(r"\[%clk (\d+):(\d+):(\d+)\]", comment.strip())
        if move:
            game.add(move, dgt.Time(*map(int, clock.groups())) if clock else None)
        if comment and not clock:
            game.comment = " ".join(comment.split())
    return game


def copied(game: dgt.PgnGame) -> dgt.PgnGame:
    return replace(game, tags=dict(game.tags), moves=[replace(each) for each in game.moves])


# ---- Corrections of games


def spliced(game: dgt.PgnGame, text: str) -> Entry:
    """The correction that gives a game the moves of a text. Refused if they aren't legal, or too
    many."""
    old = [each.move for each in game.moves]
    read = read_moves(game.start, re.sub(r"\{[^}]*\}", " ", text))
    new = [move for move, _ in itertools.islice(read, MOST_MOVES + 1)]
    if len(new) > MOST_MOVES:
        raise Refused(f"more than {MOST_MOVES:,} half-moves, and other games would have to wait: "
                      "the longest known game has 538")
    ply = next((at for at, pair in enumerate(zip(old, new)) if pair[0] != pair[1]),
               min(len(old), len(new)))
    same = 0
    while same < min(len(old), len(new)) - ply and old[-1 - same] == new[-1 - same]:
        same += 1
    return {"ply": ply, "old": old[ply:len(old) - same], "new": new[ply:len(new) - same]}


def tags_of(entry: Entry) -> dict[str, str]:
    """The tags that a correction sets. An empty one is removed."""
    if "result" in entry:
        return {"Termination": "" if entry["result"] == "*" else str(entry["why"])}
    return dict(entry.get("tags", {}))


def set_tags(game: dgt.PgnGame, tags: dict[str, str]) -> None:
    game.tags.update(tags)
    for name in [name for name, value in tags.items() if not value]:
        del game.tags[name]


def correct(game: dgt.PgnGame, entry: Entry) -> None:
    """Corrects a finished game, or a copy. Refused if that isn't possible."""
    if "ply" in entry:
        ply, count = entry["ply"], len(entry["old"])
        if [each.move for each in game.moves[ply:ply + count]] != entry["old"]:
            raise Refused("the moves of the game have changed meanwhile")
        try:
            game.replace(ply, count, entry["new"])
        except dgt.DgtError as fault:
            raise Refused(f"no such moves: {fault}") from None
    set_tags(game, tags_of(entry))
    game.result = entry.get("result", game.result)


def correct_live(games: dgt.Games, entry: Entry, at: float) -> None:
    """Corrects the present game, at a time of its board."""
    if games.game is None:
        raise Refused("no game has begun")
    set_tags(games.game, tags_of(entry))
    if "ply" in entry:
        games.replace(entry["ply"], len(entry["old"]), entry["new"], at)
    elif "result" in entry:
        games.end(entry["result"], at)
    games.set_tags({}, True)


# ---- The file of names


def check_address(url: str) -> str:
    """An address that may get a token. Refused if it isn't one."""
    try:
        parts = urllib.parse.urlsplit(url)
        host = (parts.hostname or "").encode("idna")
    except ValueError as fault:
        raise Refused(f"{url!r}: {fault}") from None
    if (not host or parts.scheme not in ("http", "https") or parts.username is not None
            or not f"{parts.path}{parts.query}".isascii()):
        raise Refused(f"not an address such as https://example.org/push: {url!r}")
    if parts.scheme == "http" and parts.hostname not in LOCAL:
        raise Refused("an address of another machine has to begin with https")
    return url


@dataclass
class Names:
    """The content of a file about a round: names, tags, and the address that gets its games."""

    tags: dict[str, str] = field(default_factory=dict)
    players: dict[str, list[str]] = field(default_factory=dict)
    push: str = ""


def read_line(names: Names, line: str) -> None:
    """Refused with the reason if a line is wrong."""
    name, equals, value = (each.strip() for each in line.partition(" = "))
    if not equals or not name:
        raise Refused("not `BOARD = WHITE - BLACK`, with spaces around the =")
    if name in FILE_TAGS and value.isprintable():
        names.tags[name] = value
    elif name == "Push":
        names.push = check_address(value)
    elif set("/+#") & set(name):
        raise Refused("no board's name contains /, + or #")
    elif name in names.players:
        raise Refused(f"board {name} has players already")
    else:
        names.players[name] = list(topics.read_players(value))


def read_names(text: str) -> Names:
    """Refused with the lines that are wrong."""
    names, wrong = Names(), []
    for number, line in enumerate(text.splitlines(), 1):
        try:
            if line.strip() and not line.lstrip().startswith("#"):
                read_line(names, line)
        except (topics.Refused, Refused) as fault:
            wrong.append(f"line {number}: {fault}: {line.strip()[:80]!r}")
    if wrong:
        raise Refused("; ".join(wrong[:5]))
    return names


class Watch:
    """A file of names, which is read again once it has changed."""

    def __init__(self, path: str) -> None:
        """Refused if it can't be read, or is wrong."""
        self.path, self.fault = path, ""
        self.names: Any = Names()
        self.stamp = self.seen = self.look()
        self.read()
        if self.fault:
            raise Refused(f"{path}: {self.fault}")

    def look(self) -> Any:
        """A value that changes with the file."""
        try:
            now = os.stat(self.path)
            return now.st_mtime_ns, now.st_size, now.st_ino
        except OSError:
            return None

    def read(self) -> bool:
        """Reads the file. If it is wrong, the names don't change."""
        try:
            content = pathlib.Path(self.path).read_bytes()[:MOST_FILE]
            self.names, self.fault = read_names(content.decode("utf-8-sig")), ""
        except OSError as fault:
            self.fault = fault.strerror or str(fault)
        except UnicodeDecodeError:
            self.fault = "it isn't UTF-8"
        except Refused as fault:
            self.fault = str(fault)
        return not self.fault

    def run(self, hear: Callable[[Any], None], report: Callable[[str], None]) -> None:
        """Reads the file again if it has changed between two looks, and is stable."""
        stop = threading.Event()
        while not stop.wait(LOOK):
            stamp, self.seen = self.seen, self.look()
            if self.seen != stamp or stamp == self.stamp:
                continue
            self.stamp = stamp
            if self.read():
                hear(self.names)
            report(f"{self.path}: {self.fault or 'read again'}")
