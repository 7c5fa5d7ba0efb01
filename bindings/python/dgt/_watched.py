"""What a recogniser of games sees of a board."""

from collections.abc import Sequence

from .chess import Colour
from .follower import _milliseconds
from .following import BoardView
from .recogniser import Begun, GameEvent, Recogniser
from .rules import GameState
from .values import Position, Times

_KEPT, _PACE = 16, 3000
"""The most states that are shown again, and the milliseconds from each to the next."""


class Watched:
    """The games on a board. Times are in seconds, and never decrease from one call to the next."""

    def __init__(self) -> None:
        self._recogniser, self._view = Recogniser(), BoardView()
        self.turned = False
        """Whether White's pieces began on the ranks 8 and 7 of the board."""

    def see(self, view: BoardView, now: float) -> list[GameEvent]:
        """Returns the events until now. The board shows this view from now on."""
        self._view = view
        return self._noted(self._recogniser.see(
            _milliseconds(now), None if view.away else view.picture, is_sure=not view.in_doubt,
            is_confirmed=view.confirmed, running=_running(view.clock)))

    def tick(self, now: float) -> list[GameEvent]:
        """Returns the events until now. The board hasn't changed."""
        return self._noted(self._recogniser.due(_milliseconds(now)))

    def _noted(self, events: list[GameEvent]) -> list[GameEvent]:
        for event in events:
            self.turned = event.is_turned if isinstance(event, Begun) else self.turned
        return events

    def go_on(self, states: Sequence[GameState], turned: bool, now: float) -> None:
        """Goes on after these states of a game. What the board shows counts from the next `see`.
        The last states are shown again, so that moves may be taken back."""
        at = _milliseconds(now)
        states = states[-min(_KEPT, at // _PACE + 1):]
        self._recogniser.go_on(states[0].chess, turned)
        for number, state in enumerate(states[1:], 1):
            letters = state.letters[::-1] if turned else state.letters
            self._recogniser.see(at - _PACE * (len(states) - number), Position.of_letters(letters))
        self._recogniser.due(at)
        if self._recogniser.state != states[-1].chess:
            self._recogniser.go_on(states[-1].chess, turned)
        self.turned, self._view = turned, BoardView()

    @property
    def due(self) -> float | None:
        """The time at which to call `tick`."""
        at = self._recogniser.due_at()
        return None if at is None else at / 1000

    @property
    def state(self) -> GameState | None:
        """The state that the events so far lead to."""
        state = self._recogniser.state
        return None if state is None else GameState._of(state)

    def from_white(self, letters: str) -> str:
        """Returns letters of the board from White's point of view."""
        return letters[::-1] if self.turned else letters

    @property
    def unconfirmed(self) -> bool:
        """Whether an event may wait for a confirmation: pieces have moved, and aren't just lifted.
        """
        view, state = self._view, self.state
        if view.picture is None or view.in_doubt or view.away or view.confirmed:
            return False
        shown = self.from_white(view.picture.letters)
        return state is None or any(
            each not in (".", right) for each, right in zip(shown, state.letters))


def _running(clock: object) -> Colour | None:
    """Returns the player whose clock runs, if it reports that."""
    if not isinstance(clock, Times) or not clock.running or clock.white_turn == clock.black_turn:
        return None
    return Colour.WHITE if clock.white_turn else Colour.BLACK
