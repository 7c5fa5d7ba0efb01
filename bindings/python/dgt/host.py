"""The host of a board."""

from collections.abc import Iterator
from ctypes import c_uint8

from ._asker import Asker
from ._c import MAX_AWAITED
from ._handle import Bytes
from ._library import dgt
from .commands import Ask
from .decoder import EventReader
from .events import Event


class Host(EventReader, Asker):
    """Makes requests to a board, and keeps a picture of it. It owns no line: write the bytes that
    it returns to the line, and pass it the bytes from there, in chunks of any length.

    >>> host, board = Host(), dgt.Board()
    >>> for message in board.answers(host.follow()):
    ...     for event in host.hear_each(message):
    ...         print(type(event).__name__, host.placement)
    Dump rnbqkbnr/pppppppp/8/8/8/8/PPPPPPPP/RNBQKBNR
    """

    _prefix, _feed_name, _chunk_name = "dgt_host", "hear", "hear_many"

    def hear(self, chunk: Bytes) -> list[Event]:
        """Hears a chunk of bytes, and returns its events. The host's picture is then the picture
        after the last event."""
        return self._all(chunk)

    def hear_placed(self, chunk: Bytes) -> list[tuple[int, Event]]:
        """Hears a chunk of bytes, and returns the same events, each with its offset: the number of
        bytes heard since the host was made or its line was lost."""
        return self._placed(chunk)

    def hear_each(self, chunk: Bytes) -> Iterator[Event]:
        """Yields the events of a chunk of bytes. A byte is heard once you have taken the event
        before it, so the host's picture is the picture after that event."""
        return self._each(chunk)

    def follow(self) -> bytes:
        """Returns the commands that request each change from now on, and all squares.
        `TooManyAwaited` if 16 replies are awaited already."""
        return self._sent("follow")

    def restart(self) -> bytes:
        """Returns the commands of `follow` after 255 zeros, which complete any command that the
        board has in part."""
        return self._sent("restart")

    @property
    def awaited(self) -> list[Ask]:
        """The requests that await replies, the next one first."""
        codes = (c_uint8 * MAX_AWAITED)()
        count = self._call(dgt.dgt_host_awaited, codes)
        return [Ask(code) for code in codes[:count]]

    def give_up_awaited(self) -> int:
        """Gives up all awaited replies, and returns their number. Nothing else changes. Call it
        when a reply is overdue: a lost reply remains the next awaited one, so each later reply is
        `unasked`, and after 16 requests the next one raises `TooManyAwaited`. A reply that arrives
        after this call is `unasked` too. Then send a new request with `restart` or `send`."""
        return int(self._call(dgt.dgt_host_give_up_awaited))

    @property
    def unread(self) -> int:
        """The number of bytes heard of an unfinished message."""
        return int(self._call(dgt.dgt_host_unread))

    def line_lost(self) -> None:
        """Call it when the line was lost, with everything in transit. It resets the host."""
        self._call(self._made_new, dgt.dgt_host_line_lost)
