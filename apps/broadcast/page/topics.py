"""The messages of a board's topics, and the state of a board."""

import json
import re
import time
from dataclasses import dataclass, field
from typing import Any

import dgt

from views import named

# The topics of a board, below boards/NAME. A server gets retained messages in this order, so that
# the state and the confirmation are known before the position.
LOG, JOURNAL, STATE, CONFIRMED, POSITION, CLOCK, PLAYERS, COUNTERS = TOPICS = (
    "log", "journal", "state", "confirmed", "", "clock", "players", "counters")
IN_ENTRY = (STATE, POSITION, CLOCK, PLAYERS)
# The states of a board. In doubt: the line lost bytes, and all squares weren't reported yet.
STATES = ("following", "doubt", "silent", "gone", "ended", "unknown")
MOST_BYTES = 500  # of a message
MOST_LOG = 500 * 110  # of a message with entries
MOST_NAME = MOST_PLAYERS = 200  # bytes
# Seconds after which a silent journal's board has no signal, and another journal may take it: it
# says something each ten.
LOST = 25.0
SIDES = ("left", "right")  # of a clock
AT_START = time.time() - time.monotonic()
NEAR = 1.5  # seconds by which a clock may differ from a page's prediction
# A line of `dgt picture`: the number of bytes, and the position.
LINE = re.compile(r"(\d{8,20}) (\S+)")
# A line of `dgt picture --clock`, and its words for flags.
TIME = r"(\d{1,3}:[0-5]\d:[0-5]\d)"
FLAGS = [side + flag for side in SIDES for flag in ("blocked", "permove", "fallen")]
TIMES = re.compile(rf"\d{{8,20}} clock {TIME} {TIME} (running|stopped) (white|black|-)( low)?"
                   + "".join(f"(?: ({flag}))?" for flag in FLAGS))
NO_CLOCK = re.compile(r"\d{8,20} clock none")


class Refused(Exception):
    """A message isn't valid for its topic."""


@dataclass(frozen=True)
class Clock:
    """The times of a clock, in seconds; or that there is none."""

    is_none: bool = True
    left: int = 0
    right: int = 0
    running: bool = False
    turn: str | None = None
    low: bool = False
    fallen: tuple[str, ...] = ()  # the sides with a fallen flag


def read_position(text: str) -> tuple[int, dgt.Position]:
    """The number of bytes, and the position."""
    if not (found := LINE.fullmatch(text)):
        raise Refused
    try:
        return int(found[1]), dgt.Position.parse(found[2])
    except dgt.BadPlacement:
        raise Refused from None


def seconds(text: str) -> int:
    hours, minutes, rest = map(int, text.split(":"))
    return 3600 * hours + 60 * minutes + rest


def read_clock(text: str) -> Clock:
    if NO_CLOCK.fullmatch(text):
        return Clock()
    if not (found := TIMES.fullmatch(text)):
        raise Refused
    left, right, runs, turn, low, *flags = found.groups()
    fallen = tuple(side for side in SIDES if {f"{side}blocked", f"{side}fallen"} & {*flags})
    return Clock(False, seconds(left), seconds(right), runs == "running",
                 None if turn == "-" else turn, bool(low), fallen)


def read_state(text: str) -> str:
    if text not in STATES[:-1]:
        raise Refused
    return text


def read_players(text: str) -> tuple[str, str]:
    names = [each.strip() for each in re.split(" [-\N{EN DASH}] ", text)]
    if len(names) != 2 or not all(names):
        raise Refused("players are `WHITE - BLACK`, with a single hyphen or dash between spaces")
    if not text.isprintable() or len(text.encode()) > MOST_PLAYERS:
        raise Refused(f"names have at most {MOST_PLAYERS} bytes, on one line")
    return names[0], names[1]


def read_counters(text: str) -> dict[str, int]:
    """Numbers of events, by names."""
    try:
        read = json.loads(text)
    except (ValueError, RecursionError):
        raise Refused from None
    if not isinstance(read, dict) or len(read) > 10:
        raise Refused
    if all(re.fullmatch("[a-z]{1,20}", name) and type(count) is int and 0 <= count < 2**53
           for name, count in read.items()):
        return read
    raise Refused


READERS = {STATE: read_state, CONFIRMED: read_position, POSITION: read_position,
           CLOCK: read_clock, PLAYERS: read_players, COUNTERS: read_counters}


def read(topic: str, payload: bytes) -> Any:
    """The content of a message of a topic. None for an empty one, which removes the last one."""
    if not payload:
        return None
    try:
        text = payload[:MOST_BYTES + 1].decode()
    except UnicodeDecodeError:
        raise Refused from None
    if len(payload) > MOST_BYTES or not text.isascii() and topic != PLAYERS:
        raise Refused
    return READERS[topic](text)


@dataclass(frozen=True)
class Log:
    """A message of a journal: its entries of a board after the number `before`. The journal has
    those from `first` to `last`. Numbers are times in milliseconds; so is `now`."""

    journal: str
    now: int
    first: int
    last: int
    before: int
    entries: list[list[Any]]


def read_log(payload: bytes) -> Log:
    try:
        log = Log(*json.loads(payload[:MOST_LOG]))
        is_right = bool(re.fullmatch(r"\w{1,40}", log.journal)) and all(
            type(each) is int and 0 <= each < 2**53
            for each in (log.now, log.first, log.last, log.before))
        for number, *said in log.entries if is_right else ():
            is_right &= type(number) is int
            read_entry(said)
    except (ValueError, TypeError, AttributeError, RecursionError):
        raise Refused from None
    if not is_right:
        raise Refused
    return log


def read_entry(said: list[Any]) -> dict[str, Any]:
    """The contents of all topics. Refused if one of them isn't valid."""
    *texts, is_confirmed = said
    entry = {topic: read(topic, text.encode())
             for topic, text in zip(IN_ENTRY, texts, strict=True) if text}
    return entry | {CONFIRMED: entry.get(POSITION) if is_confirmed else (0, None)}


def ahead(now: int) -> int:
    """The milliseconds by which the clock here is ahead of another one."""
    return round(1000 * time.time()) - now


@dataclass
class Board:
    """The state of a board."""

    name: str
    said: dict[str, Any] = field(default_factory=dict)  # the last content of each topic
    sure: tuple[int, dgt.Position] | None = None  # the last position, but for those in doubt
    game: dict[str, Any] | None = None
    is_turned: bool = False  # White's pieces began on the ranks 8 and 7
    texts: dict[str, str] = field(default_factory=dict)  # the same as text
    journal: str = ""  # the journal with the board, if there is one
    named: dict[str, str] | None = None  # tags of its players, from an arbiter's file
    clock_number: int = 0  # the number of the entry with this clock
    others: dict[str, int] = field(default_factory=dict)  # other journals, and their last numbers
    less: str | None = None  # the side of the clock that had less time than before
    rivals: dict[str, float] = field(default_factory=dict)  # those that follow it now, and when
    doubled_at: float = -LOST  # when its journal was heard beside one of these
    noted_at: float = -LOST  # when both publishers were sent a note of it
    told: dict[str, Any] | None = None  # the last event for pages
    has_ended: bool = False  # the journal's program, or it is silent
    known_at: float = 0.0
    live_at: float = 0.0  # when the journal was heard
    ahead: int | None = None  # the clock here, of the journal's, in milliseconds
    is_fresh: bool = False  # its position was heard since the broker was connected
    heard_at: float = 0.0
    clock_at: float = 0.0

    @property
    def is_shown(self) -> bool:
        return POSITION in self.said

    @property
    def is_sure(self) -> bool:
        """Whether the position is right."""
        return self.is_fresh and self.state in ("following", "unknown")

    @property
    def is_confirmed(self) -> bool:
        """Whether the board has confirmed its position, according to its publisher."""
        confirmed = self.said.get(CONFIRMED)
        return bool(confirmed is None or confirmed[1] == self.position)

    @property
    def state(self) -> str:
        return "ended" if self.has_ended else str(self.said.get(STATE, "unknown"))

    def may_be_of(self, journal: str, now: float, is_live: bool) -> bool:
        """Whether a journal is the one in use. If two programs follow one board, that is the first
        one, until it is disconnected or silent."""
        return self.journal in ("", journal) or is_live and (
            self.state in ("silent", "gone", "ended") or now > self.live_at + LOST)

    def hear_rival(self, log: Log, now: float) -> None:
        """Notes a live message of another journal about the board. One that has entries of it, and
        not that it is disconnected, follows it as well."""
        if log.entries:
            self.rivals.pop(log.journal, None)
            if log.entries[-1][1] in ("following", "doubt"):
                self.rivals[log.journal] = now
        elif log.journal in self.rivals:
            self.rivals[log.journal] = now

    def is_doubled(self, now: float) -> bool:
        """Whether two programs publish it."""
        return now < self.doubled_at + LOST

    @property
    def position(self) -> dgt.Position:
        position: dgt.Position = self.said[POSITION][1]
        return position

    @property
    def clock(self) -> Clock | None:
        clock: Clock | None = self.said.get(CLOCK)
        return clock

    @property
    def players(self) -> tuple[str, str] | None:
        if self.named:
            return self.named["White"], self.named["Black"]
        players: tuple[str, str] | None = self.said.get(PLAYERS)
        return players

    def hear(self, topic: str, said: Any, now: float, text: str = "") -> None:
        """Notes a message of a topic. A repeated clock message keeps its age: a broker that comes
        back repeats it."""
        self.heard_at = now
        if topic == CLOCK and text != self.texts.get(CLOCK):
            self.clock_at = now
            self.compare_clock(said)
        if said is None:
            self.said.pop(topic, None)
        else:
            self.said[topic] = said
        self.texts[topic] = text
        self.note_sure()
        if topic == POSITION:
            self.is_fresh = said is not None
            if said is None:
                self.game, self.is_turned = None, False

    def hear_entry(self, number: int, said: list[Any]) -> None:
        entry = read_entry(said)
        text = said[IN_ENTRY.index(CLOCK)] or ""
        if text != self.texts.get(CLOCK):
            self.clock_number, self.texts[CLOCK] = number, text
            self.compare_clock(entry.get(CLOCK))
        self.said = {**entry, COUNTERS: self.said.get(COUNTERS, {})}
        self.is_fresh = True
        self.note_sure()

    def note_sure(self) -> None:
        """Notes the position that pages show: in doubt it is the one before."""
        if self.state != "doubt" or not self.is_shown:
            self.sure = self.said.get(POSITION)

    def compare_clock(self, new: Clock | None) -> None:
        """Notes which side of a new reading has less time."""
        old, is_read = self.clock, bool(new and new.running)
        less = [side for side in SIDES if old and not old.is_none and is_read
                and getattr(new, side) < getattr(old, side)]
        self.less = less[0] if less else self.less if is_read else None

    @property
    def runs(self) -> str | None:
        """The running side of the clock: by the side to move if White's side is known, or the one
        that had less time than before. If neither is known, the left one counts as White's."""
        clock, side = self.clock, self.game and self.game["white_side"]
        if clock is None or not clock.running:
            return None
        is_left = (clock.turn == "white") == ((side or "left") == "left")
        by_turn = clock.turn and SIDES[not is_left]
        return by_turn if by_turn and side else self.less or by_turn

    def hear_time(self, number: int, now: float) -> None:
        """Notes the time on the board, which gives the age of its clock."""
        clock_at = now - max(0, number - self.clock_number) / 1000
        if abs(clock_at - self.clock_at) > 0.5:
            self.clock_at = clock_at
        self.heard_at, self.live_at, self.has_ended = now, now, False
        self.ahead = ahead(number)

    def as_entry(self) -> list[Any]:
        """The same for a board without a journal."""
        sure = {"following": self.is_sure, "unknown": self.is_sure}.get(self.state, True)
        state = (None if self.state == "unknown" else self.state) if sure else "doubt"
        return [state, *(self.texts.get(each) for each in IN_ENTRY[1:]), self.is_confirmed]

    def event(self) -> dict[str, Any]:
        """The event for a page. `at` of the clock is the `moment` at which it was read."""
        count, position = self.sure or self.said[POSITION]
        placement, clock, game = str(position), self.clock, dict(self.game or {})
        players = game.pop("players", None) or self.players and named(
            self.named or dict(zip(("White", "Black"), self.players)))
        return {
            "board": self.name,
            "count": count,
            "placement": placement[::-1] if self.is_turned else placement,
            "state": "following" if self.state == "doubt" else self.state,
            "players": players,
            "clock": None if clock is None else {"none": True} if clock.is_none else {
                "left": clock.left, "right": clock.right, "running": clock.running,
                "turn": clock.turn, "low": clock.low, "fallen": clock.fallen, "runs": self.runs,
                "at": moment(self.clock_at)},
            "game": game or None,
        }


def moment(at: float) -> int:
    """A time of `time.monotonic` in milliseconds since 1970, without steps."""
    return round(1000 * (AT_START + at))


def is_foreseen(told: dict[str, Any] | None, event: dict[str, Any]) -> bool:
    """Whether a page with the one event shows the other by itself: it counts down the running side
    of the clock."""
    old, new = told and told["clock"], event["clock"]
    if not told or {**told, "clock": None} != {**event, "clock": None}:
        return False
    if not old or not new or "none" in old or "none" in new:
        return bool(old == new)
    timeless = [{key: clock[key] for key in clock.keys() - {"at", *SIDES}} for clock in (old, new)]
    if timeless[0] != timeless[1]:
        return False
    passed = (new["at"] - old["at"]) / 1000 if event["state"] == "following" else 0
    return all(
        abs(max(0, old[side] - passed) - new[side]) < NEAR if side == new["runs"]
        else old[side] == new[side] for side in SIDES)
