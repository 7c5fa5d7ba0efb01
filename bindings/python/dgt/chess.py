"""The rules of chess: which moves are legal, the state after each, draws, and texts.

The rules are those of the FIDE Laws of Chess of 2023, as the library applies them. Moves have the
form of UCI, such as `e2e4`, `h7g8q`, and `e1g1` for a castling.

    >>> from dgt import chess
    >>> state = chess.State.parse("4k3/8/8/8/8/8/4P3/4K2R w K - 0 1")
    >>> len(state.moves()), state.san("e1g1"), state.parse_san("Rh8+")
    (16, 'O-O', 'h1h8')
    >>> state.play("e1g1").play("e8d7").fen
    '8/3k4/8/8/8/8/4P3/5RK1 w - - 2 2'
"""

from __future__ import annotations

import itertools
from collections.abc import Iterable, Iterator
from ctypes import c_char, c_uint8, c_uint64, sizeof
from dataclasses import dataclass

from . import _c
from ._c import NO_SUCH, ChessMoveStruct, ChessStateStruct
from ._library import dgt
from .errors import BadFen, BadSan, BadValue, IllegalMove, Impossible
from .values import LETTERS, SQUARES, Position, checked, letters_of, piece_code, square_number
from .values import number as within

Colour = _c.Colour
Why = _c.Why
SanFault = _c.SanFault

_RIGHTS = {bytes(kept): "".join(itertools.compress("KQkq", kept))
           for kept in itertools.product((0, 1), repeat=4)}
"""The castlings of a state, by its bytes for them."""
_RIGHTS_BYTES = {text: kept for kept, text in _RIGHTS.items()}
_FIELDS = ("placement", "turn", "rights", "passed", "half_moves", "number")
_MOST = 65535
_PAWNS = (piece_code("P"), piece_code("p"))
_BECOMES = {letter.lower(): piece_code(letter) for letter in "QRBN"}
_State, _Move = c_char * sizeof(ChessStateStruct), c_char * sizeof(ChessMoveStruct)
_NO_MOVE = bytes(sizeof(_Move))


def _read_move(name: str) -> bytes:
    """Returns a move for the library. If the text isn't a move, it is one that is never legal."""
    try:
        man = _BECOMES[name[4:]] if name[4:] else 0
        return bytes((square_number(name[:2]), square_number(name[2:4]), man, 0))
    except (BadValue, KeyError, TypeError):
        return _NO_MOVE


def _name(at: int, to: int, becomes: int, _: int) -> str:
    return SQUARES[at] + SQUARES[to] + (LETTERS[becomes].lower() if becomes else "")


@dataclass(frozen=True, slots=True, init=False, repr=False)
class State:
    """A position with the side to move, and with what the rules remember of earlier moves. It is
    always one that the rules allow. It is immutable, and equal to a state of the same parts."""

    _held: bytes  # a dgt_chess_state

    def __init__(self, position: Position, turn: Colour, rights: str = "",
                 passed: str | None = None, half_moves: int = 0, number: int = 1) -> None:
        """Makes the state of these parts: see the properties of these names. `Impossible` if no
        game reaches it, `BadValue` if a part is out of its range, `TypeError` if the position isn't
        one."""
        if checked(rights, str) not in _RIGHTS_BYTES:
            raise BadValue(f"rights must be letters of KQkq, in this order: {rights!r}")
        held = bytes(ChessStateStruct(
            (c_uint8 * 64).from_buffer_copy(checked(position, Position).codes),
            within(half_moves, _MOST, "half_moves"), within(number, _MOST, "number"),
            within(turn, Colour.BLACK, "turn"),
            (c_uint8 * 4).from_buffer_copy(_RIGHTS_BYTES[rights]),
            NO_SUCH if passed is None else square_number(passed)))
        if why := dgt.dgt_chess_check(held):
            raise Impossible(Why(why))
        object.__setattr__(self, "_held", held)

    @classmethod
    def _of(cls, held: bytes) -> State:
        state = object.__new__(cls)
        object.__setattr__(state, "_held", held)
        return state

    @classmethod
    def start(cls) -> State:
        """Returns the state in which a game begins."""
        state = _State()
        dgt.dgt_chess_start(state)
        return cls._of(state.raw)

    @classmethod
    def parse(cls, fen: str) -> State:
        """Returns the state of a text in Forsyth-Edwards Notation: six fields with one space
        between two. `BadFen` if it isn't one, `Impossible` if no game reaches the state."""
        text, state = str.encode(checked(fen, str), errors="replace"), _State()
        read = dgt.dgt_chess_parse_fen(text, len(text), state)
        if read.status == SanFault.BAD_TEXT:
            raise BadFen(f"not a FEN: wrong at offset {read.at}: {fen!r}", _FIELDS[read.field],
                         read.at)
        if read.status != _c.CHESS_DONE:
            raise Impossible(Why(read.status))
        return cls._of(state.raw)

    @property
    def fen(self) -> str:
        """The state in Forsyth-Edwards Notation. It contains the passed square only if a legal move
        captures the pawn there."""
        text = (c_char * _c.CHESS_FEN_ROOM)()
        dgt.dgt_chess_fen(self._held, text)
        return text.value.decode()

    def __str__(self) -> str:
        return self.fen

    def __repr__(self) -> str:
        return f"State.parse({self.fen!r})"

    # ---- Its parts

    @property
    def _struct(self) -> ChessStateStruct:
        return ChessStateStruct.from_buffer_copy(self._held)

    @property
    def position(self) -> Position:
        """The pieces on the squares."""
        return Position(self._held[:64])

    @property
    def _letters(self) -> str:
        return letters_of(self._held[:64])

    @property
    def turn(self) -> Colour:
        """The side to move."""
        return Colour(self._struct.turn)

    @property
    def rights(self) -> str:
        """The castlings that no earlier move has ruled out: letters of `KQkq`, in this order."""
        return _RIGHTS[bytes(self._struct.rights)]

    @property
    def passed(self) -> str | None:
        """The square that a pawn passed over by a double step in the last move, whether or not it
        can be captured there, or `None`."""
        square: int = self._struct.passed
        return None if square == NO_SUCH else SQUARES[square]

    @property
    def half_moves(self) -> int:
        """The number of moves of either side since the last capture or move of a pawn, or 65535 if
        there are more."""
        return int(self._struct.half_moves)

    @property
    def number(self) -> int:
        """The number of the move: 1 at the beginning, and one more after each move of Black. It
        ends at 65535."""
        return int(self._struct.number)

    # ---- Moves

    def moves(self) -> list[str]:
        """Returns the legal moves."""
        return [_name(*move) for move in self._moves()]

    def _moves(self) -> Iterator[bytes]:
        goals = (c_uint64 * 64)()
        dgt.dgt_chess_goals(self._held, goals)
        for at, squares in enumerate(goals):
            is_pawn = self._held[at] in _PAWNS
            while squares:
                to = (squares & -squares).bit_length() - 1
                squares &= squares - 1
                if is_pawn and not 8 <= to < 56:
                    yield from (bytes((at, to, man, 0)) for man in _BECOMES.values())
                else:
                    yield bytes((at, to, 0, 0))

    def _replies(self) -> Iterator[tuple[str, State]]:
        """Yields each legal move with the state after it."""
        for move in self._moves():
            state = _State.from_buffer_copy(self._held)
            dgt.dgt_chess_play(state, move)
            yield _name(*move), State._of(state.raw)

    def is_legal(self, move: str) -> bool:
        """Whether a move is legal. A text that isn't a move is not."""
        return bool(dgt.dgt_chess_is_legal(self._held, _read_move(move)))

    def play(self, move: str) -> State:
        """Returns the state after a legal move. `IllegalMove` if it isn't legal."""
        state = _State.from_buffer_copy(self._held)
        if not dgt.dgt_chess_play(state, _read_move(move)):
            raise IllegalMove(f"not a legal move in {self.fen}: {move!r}")
        return State._of(state.raw)

    def move_to(self, picture: Position) -> str | None:
        """Returns the legal move that leads to a position, or `None`. There is only one.
        `TypeError` if it isn't a position."""
        move = _Move()
        found = dgt.dgt_chess_move_to(self._held, checked(picture, Position).codes, move)
        return _name(*move.raw) if found else None

    def san(self, move: str) -> str:
        """Returns a legal move in Standard Algebraic Notation, as in PGN. `IllegalMove` if it isn't
        legal."""
        text = (c_char * _c.CHESS_SAN_ROOM)()
        if not dgt.dgt_chess_san(self._held, _read_move(move), text):
            raise IllegalMove(f"not a legal move in {self.fen}: {move!r}")
        return text.value.decode()

    def parse_san(self, text: str, lenient: bool = False) -> str:
        """Returns the legal move that `san` writes as this text. `BadSan` if there is none.

        A `lenient` reader takes texts of other programs, if only one legal move fits. The sign of
        check or mate may be missing, and so may the `=` of a promotion. The file and the rank that
        the move leaves are each written or left out. Castling is written with the letter O or with
        zeros."""
        parse = dgt.dgt_chess_parse_san_leniently if lenient else dgt.dgt_chess_parse_san
        plain, move = str.encode(checked(text, str), errors="replace"), _Move()
        if why := parse(self._held, plain, len(plain), move):
            raise BadSan(text, SanFault(why))
        return _name(*move.raw)

    # ---- Ends of a game

    @property
    def is_check(self) -> bool:
        """Whether the side to move is in check."""
        return bool(dgt.dgt_chess_is_check(self._held))

    @property
    def can_move(self) -> bool:
        """Whether the side to move has a legal move."""
        return bool(dgt.dgt_chess_can_move(self._held))

    @property
    def is_mate(self) -> bool:
        """Whether the side to move is checkmated."""
        return bool(dgt.dgt_chess_is_mate(self._held))

    @property
    def is_stalemate(self) -> bool:
        """Whether the side to move has no legal move and isn't in check."""
        return bool(dgt.dgt_chess_is_stalemate(self._held))

    @property
    def is_dead(self) -> bool:
        """Whether no moves can lead to checkmate, because only kings are left, or also one knight,
        or also bishops that all stand on squares of one colour. Other such positions aren't
        found."""
        return bool(dgt.dgt_chess_is_dead(self._held))

    @property
    def is_fifty_moves(self) -> bool:
        """Whether the last 50 moves of each side moved no pawn and captured nothing: the side to
        move may claim a draw."""
        return bool(dgt.dgt_chess_is_fifty_moves(self._held))

    @property
    def is_seventy_five_moves(self) -> bool:
        """Whether the last 75 moves of each side did: a draw, unless the last one was checkmate."""
        return bool(dgt.dgt_chess_is_seventy_five_moves(self._held))

    def is_repeated(self, other: State) -> bool:
        """Whether another state has the same position with the same side to move, in which the same
        moves are possible. `TypeError` if it isn't a state."""
        return bool(dgt.dgt_chess_is_repeated(self._held, checked(other, State)._held))

    def repetitions(self, history: Iterable[State]) -> int:
        """Returns how many of these states have. If three states of a game do, this one among
        them, the side to move may claim a draw."""
        return sum(map(self.is_repeated, history))
