"""States of a game as `Games` and `PgnGame` have them, with the rules of `dgt.chess`."""

from __future__ import annotations

import contextlib
import re
from dataclasses import dataclass

from .chess import Colour, State
from .errors import BadFen, DgtError, Impossible
from .values import LETTERS, SQUARES, Position, square_number
from .values import number as within

START_FEN = "rnbqkbnr/pppppppp/8/8/8/8/PPPPPPPP/RNBQKBNR w KQkq - 0 1"
"""The position in which a game begins."""

_MOST = 65535


@dataclass(frozen=True, slots=True, init=False, repr=False)
class GameState:
    """A position with the side to move, and with what the rules remember of earlier moves. Squares
    have the numbers of `SQUARES`, from 0 for a8 to 63 for h1. Pieces have the letters of `LETTERS`.
    Moves have the form of UCI, such as `e2e4`, `e1g1` and `h7g8q`.

    >>> state = GameState.start()
    >>> len(state.moves()), state.after("e2e4").fen
    (20, 'rnbqkbnr/pppppppp/8/8/4P3/8/PPPP1PPP/RNBQKBNR b KQkq e3 0 1')
    >>> state.chess.can_move, state.chess.san("g1f3")
    (True, 'Nf3')
    """

    chess: State
    """The same state with all calls of `dgt.chess`."""

    def __init__(self, letters: str, white: bool, castlings: str = "", passed: int | None = None,
                 halfmoves: int = 0, number: int = 1) -> None:
        """Makes the state of these parts: see the properties of these names. `BadFen` if no game
        reaches it, `BadValue` if a part is out of its range."""
        square = None if passed is None else SQUARES[within(passed, 63, "passed")]
        state = State(Position.of_letters(letters), _colour(white), castlings, square, halfmoves,
                      number)
        object.__setattr__(self, "chess", state)

    @classmethod
    def _of(cls, state: State) -> GameState:
        made = object.__new__(cls)
        object.__setattr__(made, "chess", state)
        return made

    def __repr__(self) -> str:
        return f"GameState.parse({self.fen!r})"

    @property
    def letters(self) -> str:
        """The 64 letters, from a8 to h1."""
        return self.chess._letters

    @property
    def white(self) -> bool:
        """Whether it is White's turn."""
        return self.chess.turn == Colour.WHITE

    @property
    def castlings(self) -> str:
        """The castlings that no move of king or rook has ruled out, some of KQkq."""
        return self.chess.rights

    @property
    def passed(self) -> int | None:
        """The square that a pawn has just passed over."""
        passed = self.chess.passed
        return None if passed is None else square_number(passed)

    @property
    def halfmoves(self) -> int:
        """The number of moves of both sides since the last capture or pawn's move, at most
        65535."""
        return self.chess.half_moves

    @property
    def number(self) -> int:
        """The number of the move, from 1 to 65535; it rises after each of Black's."""
        return self.chess.number

    @classmethod
    def start(cls) -> GameState:
        """Returns the position in which a game begins."""
        return cls._of(State.start())

    @classmethod
    def place(cls, letters: str, white: bool) -> GameState:
        """Returns the state of 64 letters if the moves before are unknown. Castling is possible if
        king and rook are on their first squares. `BadFen` unless each side has one king, and if a
        pawn is on the first or last rank, a letter isn't a chess piece, or the side that isn't to
        move is in check."""
        if not isinstance(letters, str) or len(letters) != 64 or set(letters) - set(LETTERS):
            raise BadFen(f"not 64 letters of pieces: {letters!r}")
        position, turn, rights = Position.of_letters(letters), _colour(white), ""
        for right in "KQkq":
            with contextlib.suppress(Impossible):
                rights += State(position, turn, right).rights
        return cls._of(State(position, turn, rights))

    @classmethod
    def parse(cls, fen: str) -> GameState:
        """Returns the state of a FEN; missing fields at its end are `w - - 0 1`. A castling without
        its king and rook is dropped. Numbers above 65535 count as 65535, and that of the move as 1
        if it is 0. `BadFen` if the text isn't a FEN, or for the reasons of `place`."""
        if not isinstance(fen, str):
            raise BadFen(f"not a text: {fen!r}")
        fields = fen.split()
        fields += ["8/8/8/8/8/8/8/8", "w", "-", "-", "0", "1"][len(fields):]
        placement, turn, castlings, passed, *counts = fields
        if turn not in ("w", "b") or set(castlings) - set("KQkq-"):
            raise BadFen(f"not a turn (w or b) and castlings (of KQkq, or -): {fen!r}")
        if len(counts) != 2 or not all(re.fullmatch("[0-9]{1,9}", each) for each in counts):
            raise BadFen(f"not two numbers at the end: {fen!r}")
        half_moves, number = (min(int(each), _MOST) for each in counts)
        try:
            state = cls.place(Position.parse(placement).letters, turn == "w").chess
            rights = "".join(right for right in state.rights if right in castlings)
            return cls._of(State(state.position, state.turn, rights,
                                 None if passed == "-" else passed, half_moves, max(number, 1)))
        except DgtError as wrong:
            raise BadFen(f"{wrong}: {fen!r}") from None

    @property
    def fen(self) -> str:
        """The state as a FEN. It contains the passed square, whether or not a pawn can be captured
        there."""
        fields = self.chess.fen.split()
        fields[3] = self.chess.passed or "-"
        return " ".join(fields)

    @property
    def check(self) -> bool:
        """Whether the side to move is in check. Without a legal move that is mate."""
        return self.chess.is_check

    def moves(self) -> dict[str, GameState]:
        """Returns each legal move, with the state after it."""
        return {move: GameState._of(state) for move, state in self.chess._replies()}

    def after(self, move: str) -> GameState:
        """Returns the state after a legal move. `IllegalMove` if it isn't legal."""
        return GameState._of(self.chess.play(move))


def _colour(white: bool) -> Colour:
    return Colour.WHITE if white else Colour.BLACK
