"""Makes a DGT clock show moves."""

from .commands import ClockId
from .events import Ack
from .names import ClockVersion, Done
from .values import segment

_ANSWER_WAIT = 2.0
"""After this many seconds without an acknowledgement a message is sent again."""
_VERSION_WAIT = 10.0
"""The seconds between two requests for the version of a clock that doesn't answer."""
_WITH_TEXT = 2
"""The first main version of a clock that shows text."""
_BEEP = 3
_SEGMENTS = {"a": 0x5F, "b": 0x7C, "c": 0x58, "d": 0x5E, "e": 0x7B, "f": 0x71, "g": 0x3D, "h": 0x74,
             "n": 0x54, "q": 0x67, "r": 0x50}
"""The segments that show the letters of moves."""

Message = tuple[ClockId, bytes]


def message_of(move: str, version: int) -> Message:
    """Returns the message that makes a clock with this main version show a move and beep."""
    if version >= _WITH_TEXT:
        return ClockId.TEXT, move.ljust(8)[:8].encode() + bytes([_BEEP])
    a, b, c, d, e, f = (_SEGMENTS.get(each) or segment(each) for each in move.ljust(6)[:6])
    return ClockId.DISPLAY, bytes([c, b, a, f, e, d, 0, _BEEP])


class Display:
    """Sends messages to the clock, one at a time, and repeats each until the clock acknowledges it.
    The clock has to report its version first. At the time `due` write the message of `take` to the
    board, and pass acknowledgements to `acknowledge`.

    >>> from dgt._display import Display
    >>> display = Display()
    >>> display.show("e7e5")
    >>> display.take(0.0)[0].name
    'VERSION'
    >>> display.acknowledge(Ack(bytes([0x10, 0x09, 0x20, 0]), 0))  # the version is 2.0
    >>> display.take(0.1)
    (<ClockId.TEXT: 12>, b'e7e5    \\x03')
    >>> display.due
    2.1
    """

    def __init__(self) -> None:
        self._move: str | None = None
        # Whether the clock still has to acknowledge, and whether it may show a move.
        self._is_new = self._is_shown = False
        self._version: int | None = None
        self._sent: Message | None = None
        self._sent_at = self._version_at = float("-inf")

    def plug(self) -> None:
        """Notes that the port was opened: another clock may be connected."""
        self._version = self._sent = None
        self._sent_at = self._version_at = float("-inf")
        self._is_new = self._move is not None or self._is_shown

    def show(self, move: str) -> None:
        self._move, self._is_new = move, True

    def end(self) -> None:
        """Makes the clock show its times again, if it may show a move."""
        self._move, self._is_new = None, self._is_shown

    def acknowledge(self, ack: Ack) -> None:
        """Notes an acknowledgement, which may also be of another message or of a button."""
        signal = ack.signal
        if isinstance(signal, ClockVersion):
            self._version, signal = signal.main, Done(ClockId.VERSION)
        if self._sent is None or signal != Done(self._sent[0]):
            return
        if self._sent == self._message:
            self._is_new, self._is_shown = False, self._move is not None
        self._sent, self._sent_at = None, float("-inf")

    @property
    def _message(self) -> Message:
        """The next message for the clock."""
        if self._version is None:
            return ClockId.VERSION, b""
        return message_of(self._move, self._version) if self._move else (ClockId.END, b"")

    @property
    def due(self) -> float | None:
        """The first time at which `take` returns a message."""
        if not self._is_new:
            return None
        again = self._version_at + _VERSION_WAIT if self._version is None else 0.0
        return max(0.0, self._sent_at + _ANSWER_WAIT, again)

    def take(self, time: float) -> Message | None:
        """Returns the message to send at this time, if any. It then counts as sent."""
        if self.due is None or time < self.due:
            return None
        self._sent, self._sent_at = self._message, time
        if self._version is None:
            self._version_at = time
        self._is_shown |= self._version is not None and self._move is not None
        return self._sent
