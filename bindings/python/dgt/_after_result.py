"""Whether a board goes on after the result of its game."""

from collections.abc import Sequence

from ._watched import Watched
from .following import BoardView
from .recogniser import Begun, Ended, GameEvent, Made, Unseen
from .rules import GameState

_MOST = 2
"""As many half-moves after a result mean that the board goes on. One may come of setting up pieces.
"""


class AfterResult:
    """Counts the half-moves that are made after a result. They may be an analysis, or the result
    was a mistake. Times are in seconds, and never decrease."""

    def __init__(self, states: Sequence[GameState], turned: bool, now: float) -> None:
        """The game has ended with the last of these states. After a mate or stalemate only moves
        from the states before it are possible."""
        self._final = "" if states[-1].chess.can_move else states[-1].letters
        self._watched, self._count = Watched(), 0
        self._states = states[:-1] or states if self._final else states
        self._watched.go_on(self._states, turned, now)

    @property
    def due(self) -> float | None:
        """The time at which to call `tick`."""
        return self._watched.due

    def see(self, view: BoardView, now: float) -> bool:
        """Notes what the board shows. Returns whether it goes on."""
        if view.picture and self._watched.from_white(view.picture.letters) == self._final:
            return False
        return self._note(self._watched.see(view, now), now)

    def tick(self, now: float) -> bool:
        """The same, if nothing has changed."""
        return self._note(self._watched.tick(now), now)

    def _note(self, events: list[GameEvent], now: float) -> bool:
        for event in events:
            match event:
                case Made():
                    self._count += 1
                case Unseen(moves):
                    self._count += len(moves)
                case Begun():
                    self._count = 0
                case Ended():  # the kings still show the result that is known
                    self._watched.go_on(self._states, self._watched.turned, now)
        return self._count >= _MOST
