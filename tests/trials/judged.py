"""Compares the events of a recogniser with the games that were played."""

from __future__ import annotations

import operator
from collections.abc import Iterator
from dataclasses import dataclass, field
from typing import Any, NamedTuple

from dgt.chess import State
from dgt.errors import IllegalMove
from handled import START, Game, Session
from watched import Seen

Events = list[tuple[int, Any]]  # with their times
HALF_MOVES = ("Made", "Gap")
MOST_WRONG = 4  # squares after a right half-move, as after an altered dump
LONGEST = 4  # half-moves that are looked for between two positions
CHANGED = 4  # the most squares that a half-move changes


class Item(NamedTuple):
    """What is left of a game's events: half-moves, those of a gap, and marks of a cut."""

    at: int
    kind: str  # "Made", "Gap", "Begun" or "Lost"
    move: str
    state: State | None  # afterwards, if it is known


@dataclass
class Counts:
    """What is counted of games."""

    games: int = 0
    whole: int = 0
    most: int = 0
    made: int = 0
    right: int = 0
    invented: int = 0
    withdrawn: int = 0
    marked: int = 0
    cuts: int = 0
    unmarked: int = 0
    results: int = 0
    wrong: int = 0
    delays: list[int] = field(default_factory=list)

    def add(self, other: Counts) -> None:
        for name, value in vars(other).items():
            setattr(self, name, getattr(self, name) + value)


class Report:
    """What was reported of a game."""

    def __init__(self) -> None:
        self.items: list[Item] = []
        self.turned: set[bool] = set()
        self.results: list[tuple[int, str]] = []
        self.withdrawn = 0

    @property
    def state(self) -> State | None:
        return self.items[-1].state if self.items else None

    def take(self, at: int, event: Any) -> None:
        match type(event).__name__:
            case "Begun":
                while self.items and self.items[-1].kind not in HALF_MOVES:
                    self.items.pop()  # nothing came of it
                self.turned.add(event.is_turned)
                self.items.append(Item(at, "Begun", "", event.state))
            case "Made":
                self.move(at, event.move)
            case "Unseen":
                for move in event.moves:
                    self.move(at, move)
            case "Gap":
                hidden = [Item(at, "Gap", "", None)] * event.count
                self.items += [*hidden[:-1], Item(at, "Gap", "", event.state)]
            case "Back":
                self.back(event.count)
            case "Lost":
                self.items.append(Item(at, "Lost", "", self.state))
            case "Ended":
                self.results.append((at, str(event.result)))

    def move(self, at: int, move: str) -> None:
        try:
            state = self.state.play(move) if self.state else None
        except IllegalMove:
            state = None
        self.items.append(Item(at, "Made", move, state))

    def back(self, count: int) -> None:
        self.withdrawn += count
        while count and self.items and self.items[-1].kind != "Begun":
            count -= self.items.pop().kind in HALF_MOVES

    def places(self, game: Game) -> list[int | None]:
        """Which half-move of the game each item is, if it is one."""
        known: dict[str, list[int]] = {}
        for number, move in enumerate(game.record.moves):
            known.setdefault(move, []).append(number)
        last, found = -1, list[int | None]()
        for item in self.items:
            squares = item.state.position.codes if item.move and item.state else bytes(64)
            wrong = {at: sum(map(operator.ne, squares, game.record.squares[at + 1]))
                     for at in known.get(item.move, []) if at > last}
            best = min(wrong, key=lambda at: wrong[at] > 0, default=None)
            place = best if best is not None and wrong[best] <= MOST_WRONG else None
            found.append(place)
            last = last if place is None else place
        return found

    def judge(self, game: Game, turned: bool, is_last: bool) -> Counts:
        """Counts what is right and wrong."""
        counts = Counts(1, made=len(game.record.moves), withdrawn=self.withdrawn)
        last, between = -1, list[Item]()  # what was reported after the last right half-move
        for item, place in zip(self.items, self.places(game)):
            if place is None:
                between.append(item)
            else:
                close(counts, place - last - 1, between, last < 0)
                counts.right += 1
                counts.delays.append(item.at - game.done[place])
                last, between = place, []
        if not is_last and not self.results:
            between.append(Item(0, "Lost", "", None))  # the next game breaks it off
        close(counts, counts.made - last - 1, between, last < 0)
        counts.whole = int(counts.right == counts.made and self.turned == {turned}
                           and not counts.invented and not counts.cuts)
        is_right = [end == game.result and at >= game.done[-1] for at, end in self.results]
        counts.results, counts.wrong = int(any(is_right)), is_right.count(False)
        return counts


def close(counts: Counts, missing: int, between: list[Item], is_first: bool) -> None:
    """Counts what was reported between two half-moves, or at an end: `missing` were made there."""
    kinds = [item.kind for item in between]
    begun = [item.state.position.codes for item in between if item.kind == "Begun" and item.state]
    hidden, is_anew = kinds.count("Gap"), begun != ([START] if is_first else [])
    counts.invented += kinds.count("Made") + max(0, hidden - missing)
    counts.marked += min(hidden, missing)
    if missing or begun and is_anew:
        counts.cuts += 1
        counts.unmarked += not (hidden or "Lost" in kinds or begun and is_anew)


def lines(state: State, goal: bytes, halves: int) -> int:
    """How many legal lines of as many half-moves lead to the squares: 0, 1 or 2 if several do."""
    wrong = sum(map(operator.ne, state.position.codes, goal))
    if halves == 0 or wrong > CHANGED * halves:
        return int(wrong == 0)
    found = 0
    for move in state.moves():
        found += lines(state.play(move), goal, halves - 1)
        if found > 1:
            return 2
    return found


def may_be_whole(game: Game, shown: list[tuple[int, bytes]]) -> bool:
    """Whether all half-moves follow from the positions that were shown at these times: they are
    the only legal line between two of them. That knows what was played, and guesses nothing."""
    state, last, moves = State.start(), 0, game.record.moves
    for number, (done, squares) in enumerate(zip(game.done, game.record.squares[1:]), 1):
        if any(at >= done and squares == each for at, each in shown):
            halves = number - last
            if halves > LONGEST or halves > 1 and lines(state, squares, halves) != 1:
                return False
            for move in moves[last:number]:
                state = state.play(move)
            last = number
    return last == len(moves)


def reports_of(session: Session, events: Events) -> list[Report]:
    """What was reported of each game. What begins after a set-up began belongs to its game."""
    reports, number = [Report() for _ in session.games], 0
    for at, event in events:
        if type(event).__name__ == "Begun":
            number = sum(game.cleared_at <= at for game in session.games) - 1
        reports[number].take(at, event)
    return reports


def judge(session: Session, seen: list[Seen], events: Events) -> Iterator[Counts]:
    """Counts for each game of a session."""
    reports = reports_of(session, events)
    ends = [*(game.cleared_at for game in session.games[1:]), seen[-1].at + 1]
    for number, (report, game) in enumerate(zip(reports, session.games)):
        shown = [(each.at, each.squares[::-1] if session.turned else each.squares)
                 for each in seen if each.squares and game.begun_at <= each.at < ends[number]]
        is_last = not any(each.items for each in reports[number + 1:])
        counts = report.judge(game, session.turned, is_last)
        counts.most = int(may_be_whole(game, shown))
        yield counts
