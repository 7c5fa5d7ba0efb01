"""Recognises the games that are played on a board.

A `Recogniser` takes what the board shows, and returns the events of a game. Moves are texts such as
`e2e4`, and states are those of `dgt.chess`. Times are in milliseconds. It waits until a move has
rested: ask it again at `due_at`.

    >>> import dgt
    >>> from dgt.recogniser import Made, Recogniser
    >>> recogniser = Recogniser()
    >>> events = recogniser.see(0, dgt.Position.start())
    >>> e4 = dgt.Position.parse("rnbqkbnr/pppppppp/8/8/4P3/8/PPPP1PPP/RNBQKBNR")
    >>> events += recogniser.see(2000, e4)
    >>> events += recogniser.due(4000)
    >>> [event.move for event in events if isinstance(event, Made)], recogniser.state.fen
    (['e2e4'], 'rnbqkbnr/pppppppp/8/8/4P3/8/PPPP1PPP/RNBQKBNR b KQkq - 0 1')
"""

from ctypes import addressof, byref, c_uint64
from dataclasses import dataclass
from typing import Literal

from . import _c, chess
from ._c import GameEventStruct
from ._handle import Handle
from ._library import dgt
from .chess import Colour, State
from .values import SQUARES, Position, checked, number

GameResult = Literal["1-0", "0-1", "1/2-1/2"]
_RESULTS: dict[int, GameResult] = {
    _c.RESULT_WHITE_WINS: "1-0", _c.RESULT_BLACK_WINS: "0-1", _c.RESULT_DRAW: "1/2-1/2"}
_LAST_TIME = 2**64 - 1
_NO_PIECES = bytes(64)


@dataclass(frozen=True, slots=True)
class Begun:
    """A game begins with this state. The one before is broken off, if it hasn't ended. `is_turned`
    is true if White's pieces began on the board's ranks 8 and 7."""

    state: State
    is_turned: bool


@dataclass(frozen=True, slots=True)
class Made:
    """A move was made, and the position after it was shown."""

    move: str


@dataclass(frozen=True, slots=True)
class Unseen:
    """These moves were made, and only the position after the last was shown. No other legal line of
    as many moves leads there."""

    moves: tuple[str, ...]


@dataclass(frozen=True, slots=True)
class Gap:
    """`count` moves were made, and only the position after the last was shown. Some legal line of
    as many leads to `state`, but it isn't known which was made."""

    count: int
    state: State


@dataclass(frozen=True, slots=True)
class Back:
    """`count` moves are taken back: those of the last `Made`, `Unseen` or `Gap`. If `stays`, what
    is taken back since moves were made last stays: keep the game with it, too."""

    count: int
    stays: bool


@dataclass(frozen=True, slots=True)
class Ended:
    """The game has ended with this result."""

    result: GameResult


@dataclass(frozen=True, slots=True)
class Lost:
    """No moves lead to what the board shows. `squares` are those whose pieces differ from the last
    state's."""

    squares: tuple[str, ...]


@dataclass(frozen=True, slots=True)
class Found:
    """The board shows a position of the game again."""


GameEvent = Begun | Made | Unseen | Gap | Back | Ended | Lost | Found


def _read_event(told: GameEventStruct) -> GameEvent:
    """Returns the event that the library has written."""
    match told.kind:
        case _c.GAME_BEGUN:
            return Begun(State._of(bytes(told.state)), bool(told.turned))
        case _c.GAME_MADE:
            return Made(chess._name(*bytes(told.moves[0])))
        case _c.GAME_UNSEEN:
            return Unseen(tuple(chess._name(*bytes(move)) for move in told.moves[:told.count]))
        case _c.GAME_GAP:
            return Gap(told.count, State._of(bytes(told.state)))
        case _c.GAME_BACK:
            return Back(told.count, bool(told.stays))
        case _c.GAME_ENDED:
            return Ended(_RESULTS[told.result])
        case _c.GAME_LOST:
            return Lost(tuple(name for at, name in enumerate(SQUARES) if told.squares >> at & 1))
        case _:
            return Found()


class Recogniser(Handle):
    """A recogniser of games. It has no clock of its own: pass it times of one that is never set
    back, in milliseconds. `BadValue` if a time isn't from 0 to 2**64 - 1."""

    _prefix = "dgt_recogniser"

    def __init__(self) -> None:
        super().__init__()
        self._told = GameEventStruct()
        self._told_at = addressof(self._told)

    def see(self, at: int, position: Position | None, *, is_sure: bool = True,
            is_confirmed: bool = True, running: Colour | None = None) -> list[GameEvent]:
        """Takes what the board shows at this time, or `None` while it can't be heard. Returns the
        events until then.

        Something may have been lost on the line if a position isn't sure. It is confirmed if the
        board was asked again, and has shown the same. `running` is the side whose clock runs, or
        `None` if that isn't known."""
        if position is None:
            sight, codes = _c.SIGHT_AWAY, _NO_PIECES
        else:
            sight = _c.SIGHT_SURE if is_sure else _c.SIGHT_DOUBTED
            codes = checked(position, Position).codes
        side = _c.NO_SUCH if running is None else number(running, Colour.BLACK, "running")
        return self._call(self._see, number(at, _LAST_TIME, "a time"), codes, sight,
                          bool(is_confirmed), side)

    def _see(self, handle: int, now: int, *seen: object) -> list[GameEvent]:
        events: list[GameEvent] = []
        if dgt.dgt_recogniser_see(handle, now, *seen) == _c.SEE_STILL_DUE:
            events = self._due(handle, now)
            dgt.dgt_recogniser_see(handle, now, *seen)
        return events + self._due(handle, now)

    def due_at(self) -> int | None:
        """Returns the first time at which `due` has something to do if nothing is seen before, or
        `None` if there is none."""
        time = c_uint64()
        return time.value if self._call(dgt.dgt_recogniser_due_at, byref(time)) else None

    def due(self, now: int) -> list[GameEvent]:
        """Returns the events that are due at this time."""
        return self._call(self._due, number(now, _LAST_TIME, "a time"))

    def _due(self, handle: int, now: int) -> list[GameEvent]:
        events: list[GameEvent] = []
        while dgt.dgt_recogniser_due(handle, now, self._told_at):
            events.append(_read_event(self._told))
        return events

    @property
    def state(self) -> State | None:
        """The state that the events so far lead to, or `None` before a game has begun."""
        state = chess._State()
        return State._of(state.raw) if self._call(dgt.dgt_recogniser_state, state) else None

    def go_on(self, state: State, is_turned: bool = False) -> None:
        """Goes on from this state of a game, as if events had led to it, and forgets everything
        else. `is_turned` is that of `Begun`. `TypeError` if it isn't a state."""
        self._call(dgt.dgt_recogniser_go_on, checked(state, State)._held, bool(is_turned))
