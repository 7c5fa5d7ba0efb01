"""Follows a board, and shows moves on its clock."""

import time

from ._display import Display
from .board import Mode
from .events import Ack, Dump
from .following import BoardView, Following

PATIENCE = 30
"""Requests are so frequent that the usual patience would start over every few seconds."""


class BoardWithClock(Following):
    """Follows a board on a port, and confirms its picture soon. `wait` also returns after a dump or
    an acknowledgement of the clock that changed nothing."""

    def __init__(self, port: str, period: float, mode: Mode = Mode.UPDATE_BOARD,
                 identify: bool = False) -> None:
        """`OSError` if the file isn't a serial port."""
        self.asked_at = self.confirmed_at = float("-inf")
        """When the last dump that confirmed the picture was requested, and when it arrived."""
        self.shown_move = Display()
        super().__init__(port, period, patience=PATIENCE, mode=mode, confirm=True,
                         wait_for_port=True, identify=identify)

    def _hear(self, chunk: bytes, now: float) -> None:
        events = self._steps.hear(chunk, now)
        has_dump = any(isinstance(event, Dump) for event in events)
        if has_dump and self.view.confirmed:
            self.asked_at, self.confirmed_at = self._steps.asked_at, now
        acks = [event for event in events if isinstance(event, Ack)]
        for ack in acks:
            self.shown_move.acknowledge(ack)
        if has_dump or acks:
            self._steps.changes.append(self.view)

    def _look(self, is_first: bool = False) -> None:
        self.shown_move.plug()
        super()._look(is_first)

    def has_confirmed(self, since: float) -> bool:
        """Whether a dump that was requested at this time or later has confirmed the picture."""
        return self.view.confirmed and self.asked_at >= round(since, 3)

    def ask_until(self, until: float) -> list[BoardView]:
        """Requests dumps until the board has confirmed the picture, or until a time. Returns the
        view after each change."""
        begun, views, changes = time.monotonic(), list[BoardView](), self._steps.changes
        while not self.has_confirmed(begun) and time.monotonic() < until:
            self.follower.ask_now()
            if view := self.wait(until=until):
                views.append(view)
        views += changes
        changes.clear()
        return views

    def tend_clock(self, now: float) -> float | None:
        """Sends the clock's due message, and returns the time of the next one. Nothing is due while
        the board is away."""
        if self.view.away is not None:
            return None
        if message := self.shown_move.take(now):
            self.write(self.follower.send_clock(*message))
        return self.shown_move.due

    def close(self) -> None:
        """Like `Following.close`. The clock shows its times again."""
        self.shown_move.end()
        if message := self.shown_move.take(float("inf")):
            self.write(self.follower.send_clock(*message))
        super().close()
