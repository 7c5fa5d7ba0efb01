"""Follows a board in a program that uses asyncio."""

import asyncio
import contextlib
import os
import time
from asyncio import StreamReader, StreamWriter, Task
from collections import deque
from collections.abc import Iterator
from typing import Self

from ._handle import Bytes, readable
from .board import Mode
from .errors import Closed
from .following import _CLOSED, BoardView, Following, _end, _Followed, _mode, _Steps

_CHUNK = 4096
_STALE = 1.0
"""The seconds after which a waiting view is dropped if there is a newer one."""
_MOST_UNSENT = 1000
"""No request is made while a stream has more bytes to send: those of a second."""


class _Views:
    """The views that wait for the loop over them."""

    def __init__(self) -> None:
        self._waiting: deque[tuple[float, BoardView]] = deque()
        self.news = asyncio.Event()

    def add(self, view: BoardView) -> None:
        """Queues a view, and drops old ones."""
        now = time.monotonic()
        self._waiting.append((now, view))
        while len(self._waiting) > 1 and self._waiting[0][0] < now - _STALE:
            self._waiting.popleft()
        self.news.set()

    def take(self) -> BoardView | None:
        """Returns the next view, or `None`."""
        now = time.monotonic()
        while len(self._waiting) > 1 and self._waiting[0][0] < now - _STALE:
            self._waiting.popleft()
        return self._waiting.popleft()[1] if self._waiting else None


class _NamedPort:
    """A port that is opened by its name, and again if it disappears."""

    def __init__(self, following: Following) -> None:
        self._following, self.close = following, following.close
        self._ready = asyncio.Event()

    def write(self, chunk: Bytes) -> None:
        self._following.write(chunk)
        self._ready.set()  # the port may not have taken all of it

    async def serve(self, views: _Views) -> None:
        """Serves the board until this is cancelled."""
        while True:
            self._ready.clear()
            while view := self._following.wait(0):
                views.add(view)
                await asyncio.sleep(0)
            with contextlib.suppress(TimeoutError), self._watched():
                async with asyncio.timeout(self._following.due_at - time.monotonic()):
                    await self._ready.wait()

    @contextlib.contextmanager
    def _watched(self) -> Iterator[None]:
        """Sets `_ready` once there is something to read, or the port takes bytes that it hasn't
        taken yet. The port isn't closed meanwhile."""
        loop, descriptor = asyncio.get_running_loop(), self._following.descriptor
        if descriptor is None:
            yield
            return
        loop.add_reader(descriptor, self._ready.set)
        if self._following._is_unsent:
            loop.add_writer(descriptor, self._ready.set)
        try:
            yield
        finally:
            loop.remove_reader(descriptor)
            loop.remove_writer(descriptor)


class _Streams:
    """A pair of streams that the caller has opened, and closes."""

    def __init__(self, steps: _Steps, reader: StreamReader, writer: StreamWriter) -> None:
        self._steps, self._reader, self._writer = steps, reader, writer

    def write(self, chunk: Bytes) -> None:
        if not self._writer.is_closing():
            self._writer.write(readable(chunk)[0])

    def close(self) -> None:
        """Does nothing: the caller closes the streams."""

    async def serve(self, views: _Views) -> None:
        """Serves the board until the end of the reader."""
        try:
            while (fault := await self._exchange(views)) is None:
                self._note(views)
            self._steps.lose(fault)
        finally:
            self._note(views)

    async def _exchange(self, views: _Views) -> str | None:
        """Sends the due request, and hears bytes that arrive. Returns why the line has ended, if it
        has. It never waits for the writer."""
        asked = self._steps.ask(time.monotonic())
        if asked and self._writer.transport.get_write_buffer_size() <= _MOST_UNSENT:
            self._writer.write(asked)
        self._note(views)
        limit = asyncio.timeout(self._steps.seconds_left(time.monotonic(), None))
        try:
            async with limit:
                chunk = await self._reader.read(_CHUNK)
        except OSError as fault:  # a TimeoutError is one
            return None if limit.expired() else fault.strerror or str(fault) or _CLOSED
        self._steps.hear(chunk, time.monotonic())
        return None if chunk else _CLOSED

    def _note(self, views: _Views) -> None:
        changes = self._steps.changes
        while changes:
            views.add(changes.popleft())


class AsyncFollowing(_Followed):
    """Follows a board with asyncio: the result of `follow_async`. It is an asynchronous iterator of
    `BoardView`s; `wait` returns one or gives up after a timeout. The calls of `ClockCommands` send
    a command to the board's clock at once, as `write` does: none of them waits.

    >>> async def greet(port):
    ...     async with dgt.follow_async(port) as board:
    ...         board.send_text("hello")

    A separate task serves the board, also while the loop over the views waits for something else.
    It begins with the first `wait`, `async for` or `async with`. Views come in order. One that has
    waited for more than a second is dropped if there is a newer one, so that a slow loop gets
    recent views. `aclose` ends the task, and so does the garbage collector.
    """

    _serving: Task[None] | None = None

    def __init__(self, port: str | os.PathLike[str] | tuple[StreamReader, StreamWriter],
                 period: float = 10.0, *, patience: int = 6, mode: Mode | None = None,
                 confirm: bool = False, wait_for_port: bool = False, identify: bool = False,
                 clock: bool = False) -> None:
        """Like `follow_async`."""
        self._views = _Views()
        self._line: _NamedPort | _Streams
        if isinstance(port, tuple) and len(port) == 2:
            self._steps = _Steps(period, patience, _mode(mode, clock), confirm, identify)
            self._line = _Streams(self._steps, *port)
        elif isinstance(port, (str, os.PathLike)):
            following = Following(port, period, patience=patience, mode=mode, confirm=confirm,
                                  wait_for_port=wait_for_port, identify=identify, clock=clock)
            self._steps, self._line = following._steps, _NamedPort(following)
        else:
            raise TypeError(f"port must be a port's name, or a pair of streams: {port!r}")

    def __del__(self) -> None:
        if self._serving is not None and not self._serving.done():
            with contextlib.suppress(RuntimeError):  # the loop is closed
                self._serving.get_loop().call_soon_threadsafe(self._serving.cancel)

    def write(self, chunk: Bytes) -> None:
        """Sends a chunk of bytes to the board. It is lost if the port is away. `Closed` after
        `aclose`."""
        self._check_open()
        self._line.write(chunk)

    def _serve(self) -> Task[None]:
        self._check_open()
        if self._serving is None:
            self._serving = asyncio.create_task(self._line.serve(self._views))
            news = self._views.news
            self._serving.add_done_callback(lambda _: news.set())
        return self._serving

    async def wait(self, timeout: float | None = None, *, until: float | None = None
                   ) -> BoardView | None:
        """Returns the view after the next change, or `None` if there was none for `timeout`
        seconds. With 0 it doesn't wait. `until` is a time of `time.monotonic` instead. `Closed`
        after `aclose`, and if streams have ended, after a view that says so. `BadValue` as in
        `Following.wait`."""
        end, serving = _end(timeout, until), self._serve()
        await asyncio.sleep(0)  # the board is served in any case
        while (view := self._views.take()) is None:
            self._check(serving)
            left = None if end is None else end - time.monotonic()
            if left is not None and left <= 0:
                return None
            self._views.news.clear()
            with contextlib.suppress(TimeoutError):
                async with asyncio.timeout(left):
                    await self._views.news.wait()
        return view

    def _check(self, serving: Task[None]) -> None:
        """Raises what has ended the task."""
        self._check_open()
        if serving.done():
            serving.result()
            raise Closed(_CLOSED)

    async def aclose(self) -> None:
        """Ends it, and closes the port if it has opened it. Each later `wait` raises `Closed`, and
        so does a `wait` of another task."""
        self._is_closed = True
        self._views.news.set()
        if self._serving is not None:
            self._serving.cancel()
            await asyncio.wait([self._serving])
        self._line.close()

    async def __aenter__(self) -> Self:
        self._serve()
        return self

    async def __aexit__(self, *_: object) -> None:
        await self.aclose()

    def __aiter__(self) -> Self:
        return self

    async def __anext__(self) -> BoardView:
        try:
            view = await self.wait()
        except Closed:
            raise StopAsyncIteration from None
        assert view is not None  # without a time it never gives up
        return view


def follow_async(port: str | os.PathLike[str] | tuple[StreamReader, StreamWriter],
                 period: float = 10.0, *, patience: int = 6, mode: Mode | None = None,
                 confirm: bool = False, wait_for_port: bool = False, identify: bool = False,
                 clock: bool = False) -> AsyncFollowing:
    """Follows a board with asyncio, like `follow`.

    >>> import asyncio
    >>> async def show():
    ...     async with dgt.follow_async("/dev/ttyUSB0") as board:
    ...         async for view in board:
    ...             print(view.picture)
    ...             if view.picture and view.picture["e4"] == "P":
    ...                 break
    >>> asyncio.run(show())
    rnbqkbnr/pppppppp/8/8/8/8/PPPPPPPP/RNBQKBNR
    rnbqkbnr/pppppppp/8/8/8/8/PPPP1PPP/RNBQKBNR
    rnbqkbnr/pppppppp/8/8/4P3/8/PPPP1PPP/RNBQKBNR

    `port` is the port's name, which is opened at once and looked for if it disappears, as `follow`
    does: `OSError` if that fails. Or it is a pair of asyncio streams, for instance of a network.
    The caller closes these. It ends when their reader ends or fails, after a view in doubt that
    says so in `away`. The other arguments are those of `follow`."""
    return AsyncFollowing(port, period, patience=patience, mode=mode, confirm=confirm,
                          wait_for_port=wait_for_port, identify=identify, clock=clock)
