"""The boards of `dgt-livechess`, and the games on them."""

from __future__ import annotations

import asyncio
import functools
import time
from collections.abc import Iterable, Sequence
from typing import Any, Protocol

from . import _mqtt
from ._turn import to_put
from ._watched import Watched
from .clock_side import in_seconds
from .following import BoardView
from .pgn import san
from .recogniser import Back, Begun, Ended, Found, GameEvent, Gap, Lost, Made, Unseen
from .rules import GameState
from .values import Position, Times

Json = dict[str, Any]
_LOST_WAIT = 3.0
"""The rest of a position before a hint, in seconds."""
_MOST_WRONG = 8
"""A hint names at most this number of wrong squares."""


class Game:
    """A game on a board, and the moves from now on. That of a client goes on from another one, or
    from a state that the client sets up."""

    def __init__(self, own: Game | None = None, now: float = 0.0) -> None:
        self.watched, self.turned = Watched(), False
        # The states so far, each with the text of the move before it, and how many come before.
        self._line, self._count = list[tuple[GameState, str]](), 0
        self._given: GameState | None = None
        self._is_shown = self._is_lost = self._was_shown = False
        self._missing: tuple[str, str] | None = None
        if own is not None and own.state is not None:
            self._line, self._count, self._is_shown = own._line.copy(), len(own._line), True
            self.turned = own.turned
            self._again(now)

    @property
    def state(self) -> GameState | None:
        """The state after the moves, or `None` before a game."""
        return self._line[-1][0] if self._line else None

    @property
    def moves(self) -> list[str] | None:
        """The moves from now on, in short notation. `None` before a game, before the board has
        shown the position that was set up, and if earlier moves were taken back."""
        line, count = self._line, self._count
        is_on = self._is_shown and len(line) >= count and (
            self._given is None or _are_same(line[count - 1][0], self._given))
        return [text for _, text in line[count:]] if is_on else None

    @property
    def pending(self) -> str | None:
        """The move to the position that was set up, until the board has shown it."""
        return self._missing[0] if self._missing else None

    def set_up(self, state: GameState, now: float) -> None:
        """Continues the game from this state, which the board shows now or later."""
        last, is_on = self.state, self.moves is not None
        is_last = last is not None and _are_same(last, state)
        if self._is_shown or not is_last:
            self._was_shown = self._is_shown and any(
                _are_same(each, state) for each, _ in self._line)
        if last is not None and not is_last:
            move = last.chess.move_to(state.chess.position) if is_on else None
            self._missing = (move, last.letters) if move else None
            self._line = [*(self._line if move else []), (state, move or "")]
        self._line = self._line or [(state, "")]
        self._is_shown = self._missing is not None
        self._given, self._count = state, len(self._line)
        self._again(now)

    def _again(self, now: float, is_lost: bool = False) -> None:
        """Goes on from the last state. What the board shows counts again once it changes."""
        self._is_lost = is_lost
        self.watched.go_on([state for state, _ in self._line], self.turned, now)

    def from_white(self, letters: str) -> str:
        """Returns letters of the board from White's point of view."""
        return letters[::-1] if self.turned else letters

    def hint(self, letters: str) -> str:
        """Returns which pieces to put where so that the game goes on. An empty text if it does, or
        if too many squares differ."""
        is_on, shown = self.moves is not None, self.from_white(letters)
        right = self.state if is_on else self._given
        if right is None or is_on and not self._is_lost or not {"K", "k"} <= {*shown}:
            return ""
        wrong = sum(map(str.__ne__, shown, right.letters))
        told = f"no move leads to this: {to_put(shown, right.letters)}"
        return told if 1 <= wrong <= _MOST_WRONG else ""

    def see(self, view: BoardView, now: float) -> None:
        if view.picture is not None and not view.in_doubt and not view.away and self._given:
            self._look(view.picture.letters, self._given.letters, now)
            if self._missing and self.from_white(view.picture.letters) == self._missing[1]:
                return self._again(now)
        self._take(self.watched.see(view, now), now)

    def _look(self, letters: str, right: str, now: float) -> None:
        """Looks whether the board shows the position that was set up. Until a move is made from
        there, it may be turned."""
        shown = self.from_white(letters)
        if len(self._line) <= self._count and (
                sum(map(str.__eq__, shown[::-1], right)) > sum(map(str.__eq__, shown, right))):
            self.turned = not self.turned
            self._again(now)
        if self.from_white(letters) == right:
            self._is_shown, self._is_lost, self._missing = True, False, None

    def wait(self, now: float) -> None:
        """Notes that the board hasn't changed until this time."""
        self._take(self.watched.tick(now), now)

    def _take(self, events: list[GameEvent], now: float) -> None:
        for event in events:
            match event:
                case Begun(state) | Gap(state=state) if self._given is None:
                    self._begin(GameState._of(state))
                case Made(move):
                    self._add([move])
                case Unseen(moves) if self._is_shown or self._was_shown or self._is_final(moves):
                    self._add(moves)
                case Back(count) if count < len(self._line):
                    del self._line[-count:]
                case Back() if self._given is None and self.watched.state is not None:
                    return self._begin(self.watched.state)
                case Lost() | Found():
                    self._is_lost = isinstance(event, Lost)
                case Ended():
                    pass
                case _:  # the client knows of no other game
                    return self._again(now, True)

    def _begin(self, state: GameState) -> None:
        self._line, self._count, self._is_shown = [(state, "")], 1, True
        self.turned = self.watched.turned

    def _add(self, moves: Sequence[str]) -> None:
        for move in moves:
            state = self._line[-1][0]
            self._line.append((state.after(move), san(state, move)))
        self._is_shown, self._is_lost, self._missing = True, False, None

    def _is_final(self, moves: Sequence[str]) -> bool:
        """Whether the last move can't be undone. Otherwise a piece may not have been moved yet,
        instead of back."""
        before = state = self._line[-1][0]
        for move in moves:
            before, state = state, state.after(move)
        return state.halfmoves == 0 or state.castlings != before.castlings


def _are_same(one: GameState, other: GameState) -> bool:
    """Whether two states have the same position and side to move."""
    return (one.letters, one.white) == (other.letters, other.white)


class Watcher(Protocol):
    """Watches a board, and has a game on it."""

    game: Game

    def is_of(self, board: Board) -> bool:
        """Whether it still watches this board."""

    def look(self) -> None:
        """Called after each possible change of the board."""


class Board:
    """A board that clients may watch, in a loop of asyncio."""

    def __init__(self, name: str, source: str) -> None:
        self.name, self.source = name, source
        self.rank: tuple[int, str] = (0, "")
        """Sorts the list of boards."""
        self.view = BoardView()
        self.own = Game()
        """The game that is recognised for no client."""
        self.watchers: list[Watcher] = []
        self._clock_at, self._said = 0.0, ""
        self._hint_at: float | None = None
        self._hinted = ""
        self._timer: asyncio.TimerHandle | None = None

    @property
    def serial(self) -> str:
        """The board's serial number, or its name."""
        return self.view.serial or self.name

    @property
    def games(self) -> list[Game]:
        return [self.own, *(each.game for each in self.watchers if each.is_of(self))]

    @property
    def pending(self) -> tuple[str, bool] | None:
        """A move that a client has set up and the board hasn't shown yet, and whether the board is
        turned."""
        return next(((move, game.turned) for game in self.games if (move := game.pending)), None)

    def new_game(self) -> Game:
        """Returns a game for a client, which continues the game on the board."""
        return Game(self.own, time.monotonic())

    def set_up(self, game: Game, state: GameState) -> None:
        now = time.monotonic()
        self._hint_at = now + _LOST_WAIT
        game.set_up(state, now)
        if game in self.games:  # else another board is on the port now
            game.see(self.view, now)

    # ---- Its views

    def see(self, view: BoardView) -> None:
        now = time.monotonic()
        if view.clock != self.view.clock:
            self._clock_at = time.time()
        if view.picture != self.view.picture or view.away:
            self._hint_at = now + _LOST_WAIT
        self.view = view
        for game in self.games:
            game.see(view, now)
        if view.away or view.picture and not view.in_doubt:
            self._say(view.away or f"following the board {self.serial}")

    def _say(self, text: str) -> None:
        """Prints the board's state if it has changed."""
        if text != self._said:
            say(f"{self.source}: {text}")
        self._said = text

    def _hint(self) -> None:
        """Prints a new hint for the game of a client."""
        picture, self._hint_at = self.view.picture, None
        hints = [game.hint(picture.letters) for game in self.games[1:]
                 ] if picture is not None and not self.view.in_doubt else []
        hint = next(filter(None, hints), "")
        if hint and hint != self._hinted:
            say(f"{self.source}: {hint}")
        self._hinted = hint

    def turn(self) -> None:
        """Does everything due, makes each watcher look, and schedules the next call."""
        now = time.monotonic()
        for game in self.games:
            game.wait(now)
        if self._hint_at is not None and now >= self._hint_at:
            self._hint()
        for watcher in self.watchers.copy():
            watcher.look()
        self._turn_at(self._dues())

    def _dues(self) -> Iterable[float | None]:
        return [self._hint_at, *(game.watched.due for game in self.games)]

    def _turn_at(self, dues: Iterable[float | None]) -> None:
        if self._timer is not None:
            self._timer.cancel()
        due = min((each for each in dues if each is not None), default=None)
        self._timer = None if due is None else asyncio.get_running_loop().call_at(due, self.turn)

    def close(self) -> None:
        self._turn_at([])

    # ---- Its messages to clients

    def shown(self, game: Game) -> str | None:
        """Returns the placement of the pieces, from White's point of view."""
        if self.view.picture is None:
            return None
        return str(Position.of_letters(game.from_white(self.view.picture.letters)))

    @property
    def clock(self) -> Json | None:
        """The clock, if there is one. Its left side counts as White's."""
        clock = self.view.clock
        if not isinstance(clock, Times):
            return None
        return {"white": in_seconds(clock.first), "black": in_seconds(clock.second),
                "run": clock.white_turn if clock.running else None,
                "time": round(1000 * self._clock_at)}

    def listed(self) -> Json:
        """Its entry in the list of boards."""
        view = self.view
        state = ("NOTRESPONDING" if view.silent else "INACTIVE" if view.away or not view.picture
                 else "DELAYED" if view.in_doubt else "ACTIVE")
        return {"source": self.source, "state": state, "battery": None, "comment": None,
                "board": self.shown(self.own), "flipped": self.own.turned,
                "clock": self.clock}

    def event(self, game: Game) -> Json:
        """The message of a feed about it, with a game on it."""
        shown, state, moves = self.shown(game), game.state, game.moves
        match = (state is not None and moves is not None
                 and str(Position.of_letters(state.letters)) == shown)
        event = {"flipped": game.turned, "board": shown, "clock": self.clock, "match": match}
        return {**event, **({} if moves is None else {"san": moves})}


say = functools.partial(_mqtt.say, "dgt-livechess")
