"""The exceptions of this package."""

from typing import Any

from ._c import SanFault, Why


class DgtError(Exception):
    """A call was refused, and has changed nothing. If a step of an iterator raises it, the earlier
    results are valid, and the bytes after them aren't read.

    Another exception that interrupts a call, such as `KeyboardInterrupt`, may come after the
    library has read bytes or taken a message from its queue. The call's result is then lost. The
    object remains usable."""


class Closed(DgtError):
    """The object was closed."""


class Nested(DgtError, RuntimeError):
    """A call was made while another call of the same object was under way in the same thread. A
    signal handler, a `__del__` or a trace function may make such a call."""


class TooManyAwaited(DgtError):
    """A host awaits sixteen replies already."""


class Busy(DgtError):
    """A board owes eight replies, and takes no byte until it has sent one."""


class BadValue(DgtError, ValueError):
    """An argument isn't a valid square, piece, number, byte or text, or is out of its range."""


class NoSuchCommand(BadValue):
    """No command has these bytes."""


class BadPlacement(BadValue):
    """A text isn't a placement. `at` is the offset of the first character that doesn't continue
    one, or the text's length."""

    def __init__(self, at: int) -> None:
        super().__init__(f"not a placement: wrong at offset {at}")
        self.at = at

    def __reduce__(self) -> Any:
        return type(self), (self.at,), vars(self)


class BadFen(BadValue):
    """A text isn't a FEN, or its position can't occur in a game. If `State.parse` of `dgt.chess`
    raises it, `field` is the part of a state that is wrong, or `placement`, and `at` is the offset
    of the first wrong character, or the text's length. Otherwise they are `None`."""

    def __init__(self, text: str, field: str | None = None, at: int | None = None) -> None:
        super().__init__(text)
        self.field, self.at = field, at


class Impossible(BadFen):
    """No game reaches a state of `dgt.chess`. `why` is the first reason that holds."""

    def __init__(self, why: Why) -> None:
        super().__init__(_WHYS[why])
        self.why = why

    def __reduce__(self) -> Any:
        return type(self), (self.why,), vars(self)


class IllegalMove(BadValue):
    """The rules of chess don't allow a move, or a text isn't a move."""


class BadSan(IllegalMove):
    """A text isn't that of a legal move. `why` is the reason."""

    def __init__(self, text: str, why: SanFault) -> None:
        super().__init__(text, why)
        self.why = why

    def __str__(self) -> str:
        return f"{_SAN_FAULTS[self.why]}: {self.args[0]!r}"


_WHYS = {
    Why.BAD_KINGS: "a side doesn't have exactly one king",
    Why.EXTRA_PIECE: "a piece isn't a chess piece",
    Why.BAD_PAWN: "a pawn is on the first or the eighth rank",
    Why.IN_CHECK: "the side that isn't to move is in check",
    Why.BAD_RIGHTS: "a right to castle lacks its king or its rook",
    Why.BAD_PASSED: "no pawn has just passed over the passed square",
    Why.BAD_NUMBER: "the number of the move is 0",
}
_SAN_FAULTS = {
    SanFault.BAD_TEXT: "not a move in Standard Algebraic Notation",
    SanFault.NO_MOVE: "no legal move has this text",
    SanFault.AMBIGUOUS: "several legal moves fit this text",
}
