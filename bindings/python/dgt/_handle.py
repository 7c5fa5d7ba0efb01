"""The base of all objects of the library: their memory, and a lock, so that one call runs at a
time."""

import ctypes
import threading
from collections.abc import Callable
from ctypes import c_char, c_uint64
from typing import Any, NoReturn, Self, TypeVar

from ._library import dgt
from .errors import Closed, Nested

Bytes = bytes | bytearray | memoryview

_Answer = TypeVar("_Answer")


def readable(chunk: Bytes) -> tuple[bytes, int]:
    """Returns the bytes of a chunk and their address, which is valid while you keep the bytes.
    `TypeError` if the object has no bytes."""
    held = chunk if type(chunk) is bytes else bytes(memoryview(chunk))
    return held, ctypes.cast(ctypes.c_char_p(held), ctypes.c_void_p).value or 0


def writable(size: int) -> tuple[bytearray, int]:
    """Returns memory of `size` bytes and its address, which is valid while you keep the memory."""
    room = bytearray(size)
    return room, ctypes.addressof((c_char * size).from_buffer(room))


class Uncopied:
    """An object that can't be copied or pickled: a copy would share its state."""

    def __reduce__(self) -> NoReturn:
        raise TypeError(f"a {type(self).__name__} can't be copied")


class Handle(Uncopied):
    """An object of the library in memory that Python owns, until `close` or its deletion."""

    _prefix: str
    _lock: threading.RLock

    def __init__(self) -> None:
        # Other threads wait for the lock. The thread that holds it takes it once more, and sees in
        # `_running` that a call is under way.
        lock = threading.RLock()
        if self.__dict__.setdefault("_lock", lock) is not lock:
            raise RuntimeError(f"this {type(self).__name__} was made already")
        self._running = False
        size = getattr(dgt, f"{self._prefix}_size")()
        self._room = (c_uint64 * ((size + 7) // 8))()
        getattr(dgt, f"{self._prefix}_make")(self._room)
        self._at = ctypes.addressof(self._room)

    def _call(self, use: Callable[..., _Answer], *arguments: Any) -> _Answer:
        """Calls `use` with the object's address and these arguments while no other call runs.
        `Nested` within a call of the same thread, `Closed` if the object is closed."""
        with self._lock:
            if self._running or not self._at:
                self._refuse()
            self._running = True
            try:
                return use(self._at, *arguments)
            finally:
                self._running = False

    def _refuse(self) -> NoReturn:
        name = type(self).__name__
        if self._running:
            raise Nested(f"a call of this {name} is under way in this thread")
        raise Closed(f"this {name} is closed")

    def _check_open(self) -> None:
        """Raises `Closed` if the object is closed."""
        self._call(lambda at: None)

    def close(self) -> None:
        """Ends the object. Each later call raises `Closed`, except `close` and `with`, which do
        nothing. An earlier iterator that has bytes left to read raises `Closed` too. `close` waits
        for a call in another thread."""
        with self._lock:
            self._at = 0

    def __enter__(self) -> Self:
        return self

    def __exit__(self, *_: object) -> None:
        self.close()
