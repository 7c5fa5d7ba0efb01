"""A simulated board that keeps a log while no host listens."""

from collections import deque

from ._c import MAX_BODY
from ._handle import Bytes
from .board import Board, Identity, Mode
from .commands import StrayByte, Word
from .errors import BadValue
from .stored import STORED_REQUEST, Mark
from .values import Clock, Position, Time, Times, number, piece_code, square_number

_CODE = 0x8F
_HEAD = 3
_START = Position.start().letters
_MARKS = {_START: Mark.BEGIN, _START[::-1]: Mark.TURNED_BEGIN, "." * 64: Mark.EMPTY_BOARD}


def _packed(number: int) -> int:
    return 16 * (number // 10) + number % 10


class LoggingBoard(Board):
    r"""A `Board` that also keeps a log, as real boards are said to do, and sends it after the byte
    49.

    >>> board = LoggingBoard()
    >>> board.change("e2", "."), board.change("e4", "P")
    (None, None)
    >>> [message.hex(" ") for message in board.answers(STORED_REQUEST)]
    ['8f 00 0a 6a 6f 40 34 41 24 6b']

    What it logs is a choice of this project; no board was tried:

    - It logs only in the mode `IDLE`: no host has requested updates since it was switched on (made,
      or `line_lost`), or one has sent 40. Changes in other modes aren't logged.
    - For a change of a square it logs the new piece. It adds a mark if the pieces are in the
      starting position, only on four ranks, or all off the board. When the board is switched on, it
      logs that, and such a mark.
    - For a reading of the clock it logs each side with another time than it logged last. It ignores
      a clock that only counts: it runs, and its status hasn't changed.
    - The log has at most `room` bytes. The oldest entries are dropped.
    - It sends the log with a mark at the end, in one message, or in several with complete entries
      if it is too long. Then it adds a mark that the log was sent, and keeps the entries.
    """

    def __init__(self, position: Position | None = None, clock: Clock | None = None,
                 identity: Identity | None = None, room: int = 8192) -> None:
        """Like `Board`. `BadValue` if the room isn't a number from 3 to 65536."""
        if (room := number(room, 1 << 16, "room")) < _HEAD:
            raise BadValue(f"room must be a number from 3 to 65536: {room!r}")
        super().__init__(position, clock, identity)
        self._log, self._log_size, self._log_room = deque[bytes](), 0, room
        self._unsent = deque[bytes]()
        self._status: int | None = None
        self._times: list[Time | None] = [None, None]
        self._switch_on()

    def change(self, square: str, piece: str) -> None:
        """As of `Board`, and logs it."""
        at, code = square_number(square), piece_code(piece)
        before = self.position[at]
        super().change(square, piece)
        if before != piece and self.mode == Mode.IDLE:
            self._add(bytes([0x40 + code, at]))
            self._mark_position()

    def hand_clock(self, clock: Clock) -> None:
        """As of `Board`, and logs it."""
        super().hand_clock(clock)
        if not isinstance(clock, Times):
            return
        counts = clock.running and clock.status == self._status
        self._status = clock.status
        if counts or self.mode != Mode.IDLE:
            return
        for side, shown in enumerate((clock.first, clock.second)):
            if shown != self._times[side]:
                self._times[side] = shown
                self._add(bytes([0x60 + 16 * side + shown.hours, _packed(shown.minutes),
                                 _packed(shown.seconds)]))

    def take(self, chunk: Bytes) -> tuple[int, Word | None]:
        """Like `Board`, and the byte 49 requests the log. It is still returned as a `StrayByte`."""
        used, word = super().take(chunk)
        if word == StrayByte(STORED_REQUEST[0]):
            self._send_log()
        return used, word

    def poll(self) -> bytes | None:
        """Like `Board`, and then the next message with the log."""
        return super().poll() or (self._unsent.popleft() if self._unsent else None)

    @property
    def owes(self) -> bool:
        """Like `Board`, with the log."""
        return super().owes or bool(self._unsent)

    def line_lost(self) -> None:
        """Like `Board`: it is switched off and on, which it logs."""
        super().line_lost()
        self._unsent.clear()
        self._switch_on()

    def clear_log(self) -> None:
        """Empties the log."""
        self._check_open()
        self._log.clear()
        self._log_size = 0

    def _switch_on(self) -> None:
        self._add(bytes([Mark.POWER_UP]))
        self._mark_position()

    def _mark_position(self) -> None:
        letters = self.position.letters
        if mark := _MARKS.get(letters):
            self._add(bytes([mark]))
        elif "." not in letters[:16] + letters[48:] and not letters[16:48].strip("."):
            self._add(bytes([Mark.FOUR_ROWS]))

    def _add(self, thing: bytes) -> None:
        self._log.append(thing)
        self._log_size += len(thing)
        while self._log_size > self._log_room:
            self._log_size -= len(self._log.popleft())

    def _send_log(self) -> None:
        bodies = [b""]
        for thing in [*self._log, bytes([Mark.END])]:
            if len(bodies[-1]) + len(thing) > MAX_BODY:
                bodies.append(b"")
            bodies[-1] += thing
        for body in bodies:
            self._unsent.append(bytes([_CODE, *divmod(_HEAD + len(body), 128)]) + body)
        self._add(bytes([Mark.DOWNLOADED]))
