"""Which side of a clock is White's."""

from .pgn import PgnGame
from .values import Clock, Time, Times

SIDES = ("left", "right")
"""The sides of a clock. Left is the one that it reports first."""
_MOST_COUNTED = 60
"""The most seconds that a side counts from one reading to the next."""
_MOST_SHOWN = 200
"""How many positions are remembered."""


def in_seconds(time: Time) -> int:
    """The time of one side of a clock in seconds."""
    return 3600 * time.hours + 60 * time.minutes + time.seconds


class WhiteClock:
    """Learns which side of a clock is White's: it notes the side that counts in each position of a
    game. A player may press the clock late. So the majority of the positions decides, and there
    must be positions with each player to move.

    >>> game, white = PgnGame(), WhiteClock()
    >>> def report(left, right):
    ...     white.see(game.state.letters, Times(Time(0, 0, left), Time(0, 0, right)))
    ...     white.look_at(game)
    >>> report(50, 50)
    >>> report(50, 49)  # the right side counts while White is to move
    >>> game.add("e2e4").san
    'e4'
    >>> report(49, 49)  # and the left one while Black is
    >>> white.side
    'right'
    """

    def __init__(self) -> None:
        # The number of the side that counts, by the letters on the board.
        self._counted = dict[str, int]()
        # After each number of moves: whether White was to move, and the side that counted.
        self._turns = dict[int, tuple[bool, int]]()
        self._before: Times | None = None

    def see(self, letters: str, clock: Clock | None) -> None:
        """Notes the board and its clock at one time, such as `BoardView.picture.letters` and
        `BoardView.clock`. Call it for each view."""
        before, now = self._before, clock if isinstance(clock, Times) else None
        self._before = now
        if now is None or before is None:
            return
        if now.black_turn != before.black_turn:  # pressed: until then the mover's side counted
            self._counted.pop(letters, None)
            return
        counts = [in_seconds(before.first) - in_seconds(now.first),
                  in_seconds(before.second) - in_seconds(now.second)]
        if min(counts) == 0 < max(counts) < _MOST_COUNTED:
            self._counted[letters] = counts.index(max(counts))
            if len(self._counted) > _MOST_SHOWN:
                del self._counted[next(iter(self._counted))]

    def look_at(self, game: PgnGame) -> None:
        """Notes the side to move in the last two positions of the game, if a side counted there.
        Call it after each move."""
        states = [(len(game.moves), game.state)]
        states += [(len(game.moves) - 1, game.moves[-1].before)] if game.moves else []
        for ply, state in states:
            self._turns.pop(ply, None)
            if state.letters in self._counted:
                self._turns[ply] = state.white, self._counted[state.letters]

    def new_game(self) -> None:
        """Forgets the side: clocks are turned between games."""
        self._counted.clear()
        self._turns.clear()

    @property
    def side(self) -> str | None:
        """White's side, `left` (which the clock reports first) or `right`. `None` if it isn't known
        yet."""
        right = sum(1 if white == (side == 1) else -1 for white, side in self._turns.values())
        if not right or len({white for white, _ in self._turns.values()}) < 2:
            return None
        return SIDES[right > 0]
