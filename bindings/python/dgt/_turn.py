"""One turn of a game on a board: a position, and the move to make from it."""

from dataclasses import dataclass

from .rules import GameState
from .values import SQUARES

_CASTLING_WAIT = 2.0
"""The rest of a rook's move that may be the first half of castling, in seconds."""
_PAWN_WAIT = 2.0
"""The seconds after which a pawn on its last rank counts as a queen."""
_SET_UP_WAIT = 0.7
"""The seconds before a hint names what is missing in a position that isn't set up yet."""
_ILLEGAL_WAIT = 1.0
"""The seconds before a hint about a position that no legal move leads to."""
_HALF_WAIT = 2.0
"""The seconds before a hint names the missing part of a move."""
_LIFTED_WAIT = 5.0
"""The seconds before a hint names lifted pieces."""
_MOST = 6
"""The most things to do that a hint names."""
_HALVES = {"h1f1": "e1g1", "a1d1": "e1c1", "h8f8": "e8g8", "a8d8": "e8c8"}
"""Each castling by the rook's move that may begin it."""
_NAMES = {"P": "pawn", "R": "rook", "N": "knight", "B": "bishop", "K": "king", "Q": "queen"}


def _name(letter: str) -> str:
    """Returns the name of a piece, such as `white pawn`."""
    kind = _NAMES.get(letter.upper())
    return f"{'white' if letter.isupper() else 'black'} {kind}" if kind else "other piece"


def to_put(shown: str, right: str) -> str:
    """Returns what to do so that the board shows the letters `right`, such as `put the black pawn
    from e7 on e5`."""
    wrong = [square for square in range(64) if shown[square] != right[square]]
    extra = [square for square in wrong if shown[square] != "."]
    puts = []
    for square in wrong:
        if (letter := right[square]) == ".":
            continue
        at = next((each for each in extra if shown[each] == letter), None)
        if at is not None:
            extra.remove(at)
        place = "" if at is None else f" from {SQUARES[at]}"
        puts.append(f"put the {_name(letter)}{place} on {SQUARES[square]}")
    steps = [f"take the {_name(shown[square])} off {SQUARES[square]}" for square in extra] + puts
    more = [f"and {len(steps) - _MOST} more"] if len(steps) > _MOST else []
    return "; ".join(steps[:_MOST] + more)


def _is_on_the_way(shown: str, befores: tuple[str, ...], after: str) -> bool:
    """Returns whether the board shows a part of a move and nothing else: a piece has arrived, and
    each other square is as before the move, as after it, or empty."""
    has_arrived = False
    for square, letter in enumerate(shown):
        if letter == after[square]:
            has_arrived |= letter not in (".", befores[0][square])
        elif letter != "." and all(letter != before[square] for before in befores):
            return False
    return has_arrived


@dataclass(frozen=True, slots=True)
class _Made:
    """A move that a board shows, and its least rest in seconds."""

    move: str
    rest: float = 0.0


class Turn:
    """Waits for a move on a board. Pass it the letters on the board with `see`. `made` returns the
    move once it has rested, and `hint` what the player has to do.

    >>> from dgt._turn import Turn
    >>> turn = Turn(GameState.start(), settle=0.3)
    >>> turn.see(turn.state.letters, 1.0)
    >>> turn.see(turn.state.after("e2e4").letters, 2.0)
    >>> turn.made(2.2), turn.made(2.3)
    (None, 'e2e4')

    A move is made if the board shows the position after it, whatever it has shown in between. The
    board has to show the position before the move first. If that contains the other side's answer,
    the player may also move before making that answer on the board: `before` is the position that
    was answered.

    The letters are those of a board with White's pieces on the ranks 1 and 2. Times are in seconds,
    and never decrease from one call to the next.
    """

    def __init__(self, state: GameState, settle: float, before: str | None = None) -> None:
        self.state, self.settle = state, settle
        self.is_set_up = False
        """Whether the board has shown the position."""
        self._befores = (state.letters,) if before is None else (state.letters, before)
        self._shown: str | None = None
        self._since = self._hint_from = 0.0
        self._hinted: str | None = None
        self.legal: dict[str, GameState] = {}
        self._made: dict[str, _Made] = {}
        self._pawns: dict[str, _Made] = {}
        self.await_moves(())

    def await_moves(self, only: tuple[str, ...]) -> None:
        """Waits only for these moves, or for each legal move if none of them is legal."""
        legal = self.state.moves()
        self.legal = {move: legal[move] for move in only if move in legal} or legal
        self._made, self._pawns = {}, {}
        for move, after in self.legal.items():
            to, letters = SQUARES.index(move[2:4]), after.letters
            is_half = _HALVES.get(move) in self.legal and letters[to] in "Rr"
            self._made[letters] = _Made(move, _CASTLING_WAIT if is_half else 0.0)
            if move[4:] == "q":
                pawn = self.state.letters[SQUARES.index(move[:2])]
                self._pawns[letters[:to] + pawn + letters[to + 1:]] = _Made(move, _PAWN_WAIT)

    def see(self, letters: str | None, time: float, is_sure: bool = True) -> None:
        """Notes the letters on the board from this time on, or `None`. No move is made while they
        aren't sure."""
        self.is_set_up |= letters == self.state.letters
        shown = letters if is_sure else None
        if shown != self._shown:
            self._shown, self._since, self._hint_from = shown, time, time

    def ask(self, time: float) -> None:
        """Notes that the chess program requests a move. The next hint comes at once if the position
        isn't set up."""
        self._hinted = None
        if not self.is_set_up:
            self._hint_from = time - _SET_UP_WAIT

    @property
    def _has_begun(self) -> bool:
        return self.is_set_up or len(self._befores) > 1

    def _shown_move(self) -> _Made | None:
        if self._shown is None or not self._has_begun:
            return None
        return self._made.get(self._shown) or self._pawns.get(self._shown)

    @property
    def shown(self) -> str | None:
        """The legal move that the board shows, whether it has rested or not."""
        made = self._shown_move()
        return made.move if made else None

    @property
    def due(self) -> float | None:
        """The time at which the move that the board shows has rested."""
        made = self._shown_move()
        return self._since + max(made.rest, self.settle) if made else None

    def made(self, time: float) -> str | None:
        """Returns the move that the board shows, if it has rested by this time."""
        return self.shown if self.due is not None and time >= self.due else None

    def hint(self, time: float) -> tuple[str | None, float | None]:
        """Returns the hint for the player now, if any, and when to call again."""
        if self._shown is None or self.shown:
            return None, None
        text, wait = self._advice(self._shown)
        if text == self._hinted:
            return None, None
        if time < self._hint_from + wait:
            return None, self._hint_from + wait
        self._hinted = text
        return text, None

    def _advice(self, shown: str) -> tuple[str, float]:
        """Returns the advice about the letters on the board, and the seconds to wait before it."""
        right = self.state.letters
        if shown == right:
            return f"{'white' if self.state.white else 'black'} is to move", 0.0
        move, goal = self._goal(shown)
        if not self.is_set_up:
            return to_put(shown, goal), _SET_UP_WAIT
        if move:
            return f"{move}: {to_put(shown, goal)}", max(_HALF_WAIT, self.settle)
        if all(letter in (".", right[square]) for square, letter in enumerate(shown)):
            return to_put(shown, right), _LIFTED_WAIT
        return f"illegal: {to_put(shown, right)}", max(_ILLEGAL_WAIT, self.settle)

    def _goal(self, shown: str) -> tuple[str | None, str]:
        """Returns the only move of which a part is shown, and the letters after it. Otherwise
        returns the position itself."""
        found = [(made.move, letters) for letters, made in self._made.items()
                 if self._has_begun and _is_on_the_way(shown, self._befores, letters)]
        return found[0] if len(found) == 1 else (None, self.state.letters)
