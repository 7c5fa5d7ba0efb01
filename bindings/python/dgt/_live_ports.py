"""The boards of `dgt-livechess` on serial ports."""

import asyncio
import contextlib
import os
import time
from collections.abc import Iterable
from dataclasses import replace

from ._board_with_clock import BoardWithClock
from ._live_boards import Board, say
from .board import Mode
from .commands import Ask
from .errors import TooManyAwaited
from .following import BoardView
from .serial_ports import is_likely, ports
from .values import SQUARES, Position, square_number

_PERIOD = 2.0
"""The seconds between two requests for all squares and the clock."""
_LOOK = 2.0
"""The seconds between two looks for ports."""
_NUMBER_WAIT = 5.0
"""The seconds after which a board that is there and reports no number counts as one without a
number, and between two more requests for it."""
_AT_ONCE = 64
"""The most changes of a board that are handled before other boards have their turn."""


class PortBoard(Board):
    """A board on a serial port. Its clock and its lights may show the other side's move."""

    def __init__(self, port: str, has_clock: bool, has_lights: bool) -> None:
        """`OSError` if the file isn't a serial port."""
        super().__init__(os.path.basename(port), port)
        self._has_clock, self._has_lights = has_clock, has_lights
        self._line = BoardWithClock(port, _PERIOD, Mode.UPDATE_NICE, identify=True)
        self._descriptor: int | None = None
        self._asked: Position | None = None
        self._pending: tuple[str, bool] | None = None
        self._is_late, self._back_at, self._asked_at = False, time.monotonic(), float("-inf")
        self.turn()

    def turn(self) -> None:
        now, self._is_late = time.monotonic(), True
        for _ in range(_AT_ONCE):
            if (view := self._line.wait(0)) is None:
                self._is_late = False
                break
            self.see(self._identified(view, now))
        if not self._is_late and (last := self._identified(self._line.view, now)) != self.view:
            self.see(last)  # the number has arrived, or has not arrived in time
        self._ask_number(now)
        self._watch(self._line.descriptor)
        is_unconfirmed = any(game.watched.unconfirmed for game in self.games)
        if is_unconfirmed and self.view.picture != self._asked:
            self._asked = self.view.picture
            self._line.follower.ask_now()
        super().turn()

    def _identified(self, view: BoardView, now: float) -> BoardView:
        """Returns the view if it is of the board whose number it has. Any board may have come to
        the port: until it has reported its number, returns the last view, in doubt, and after a
        while the view without a number."""
        if view.away is not None:
            self._back_at = now
            return replace(self.view, in_doubt=True, away=view.away, confirmed=False)
        number = self._line.follower.serial
        if number is not None and view.serial == number.decode("latin-1"):
            return view
        if now >= self._back_at + _NUMBER_WAIT:
            return replace(view, serial=None)
        return replace(self.view, in_doubt=True, away=None, confirmed=False)

    def _ask_number(self, now: float) -> None:
        """Requests the number of a board that has come back, also after the follower's three
        requests for it."""
        line, begun = self._line, max(self._back_at, self._asked_at)
        is_unknown = line.view.serial is not None and line.follower.serial is None
        if is_unknown and line.view.away is None and now >= begun + _NUMBER_WAIT:
            self._asked_at = now
            with contextlib.suppress(TooManyAwaited):
                line.write(line.follower.send(Ask.SERIAL))

    def _dues(self) -> Iterable[float | None]:
        now = time.monotonic()
        if (pending := self.pending) != self._pending:
            self._pending = pending
            self._show(pending)
        late = now if self._is_late else None
        return [*super()._dues(), late, self._line.due_at, self._line.tend_clock(now)]

    def _show(self, pending: tuple[str, bool] | None) -> None:
        move, is_turned = pending or ("", False)
        if self._has_clock and move:
            self._line.shown_move.show(move)
        elif self._has_clock:
            self._line.shown_move.end()
        if self._has_lights:
            squares = [move[:2], move[2:4]] if move else []
            self._line.light(*(SQUARES[63 - square_number(each)] if is_turned else each
                               for each in squares))

    def _watch(self, descriptor: int | None) -> None:
        """Makes the loop call `turn` when the board sends something. The port may have changed."""
        loop = asyncio.get_running_loop()
        if self._descriptor is not None and self._descriptor != descriptor:
            loop.remove_reader(self._descriptor)
        if descriptor is not None:
            loop.add_reader(descriptor, self.turn)
        self._descriptor = descriptor

    def close(self) -> None:
        self._watch(None)
        super().close()
        self._line.close()


async def look_for_ports(boards: list[Board], has_clock: bool, has_lights: bool) -> None:
    """Follows each port that is likely a board's, also one that is plugged in later."""
    known, is_said = set[str](), False
    last: set[str] | None = None
    while True:
        found = {port.path for port in ports() if is_likely(port)}
        # A new port may get its name in by-id a moment later.
        for path in sorted(found - known if last is None else found & last - known):
            known.add(path)
            with contextlib.suppress(OSError):  # it isn't a serial port
                boards.append(PortBoard(path, has_clock, has_lights))
        last = found
        if not known and not is_said:
            say("no board yet (plug it in, or name its port: `python3 -m dgt ports` lists them)")
            is_said = True
        await asyncio.sleep(_LOOK)
