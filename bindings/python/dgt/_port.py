"""A serial port, which only one process at a time may open."""

import contextlib
import errno
import fcntl
import os
import select
import signal
import termios

# Why a port can't be opened, and what to do.
_ADVICE = {
    errno.ENOENT: "no such port (plug the board in; /dev/serial/by-id lists the ports)",
    errno.EACCES: "permission denied (join the group dialout)",
    errno.EBUSY: "in use by another program (end that one first)",
    errno.EWOULDBLOCK: "in use by another program (end that one first)",
    errno.ENOTTY: "not a serial port",
}
_LEAST = 64
"""The lowest number of a descriptor of this package."""
_CHUNK = 256
"""The most bytes that one call returns: the package hears this number in about 8 ms at worst."""
_COUNTS, _FAULTS = 80, slice(24, 44)
"""The size of Linux' counters of a port's events, and the part that counts faults."""
_LATE = 0.1
"""For how many seconds after a fault was counted bytes may come that the port got before it."""


def has_input(descriptor: int | None, seconds: float, other: int | None = None) -> bool:
    """Waits until one of the descriptors has something to read, at most for this time in seconds.
    Returns whether one has."""
    poll = select.poll()
    for each in (descriptor, other):
        if each is not None:
            poll.register(each, select.POLLIN)
    return bool(poll.poll(1000 * seconds))


def stopping() -> int:
    """Returns a descriptor that has something to read once a signal stops the program."""
    readable, writable = os.pipe2(os.O_NONBLOCK | os.O_CLOEXEC)
    signal.set_wakeup_fd(writable, warn_on_full_buffer=False)
    for number in (signal.SIGINT, signal.SIGTERM, signal.SIGHUP):
        if signal.getsignal(number) is not signal.SIG_IGN:
            signal.signal(number, lambda *_: None)
    return readable


def raised(descriptor: int) -> int:
    """Moves a descriptor to a higher number: `select`, which the module paho uses, needs numbers
    below 1024."""
    try:
        return fcntl.fcntl(descriptor, fcntl.F_DUPFD_CLOEXEC, _LEAST)
    finally:
        os.close(descriptor)


def _take(line: int) -> None:
    """Locks a serial line, and sets it up: 9600 baud, 8 bits, no parity, 1 stop bit, no flow
    control, raw. It is locked before it is touched."""
    fcntl.flock(line, fcntl.LOCK_EX | fcntl.LOCK_NB)
    _, _, control, *_, special = termios.tcgetattr(line)
    control = control & termios.HUPCL | termios.CS8 | termios.CREAD | termios.CLOCAL
    special[termios.VMIN], special[termios.VTIME] = 1, 0
    speed = termios.B9600
    termios.tcsetattr(line, termios.TCSANOW, [0, 0, control, 0, speed, speed, special])
    fcntl.ioctl(line, termios.TIOCEXCL)


def _open(name: str) -> int:
    line = raised(os.open(name, os.O_RDWR | os.O_NOCTTY | os.O_NONBLOCK))
    try:
        _take(line)
    except BaseException:
        os.close(line)
        raise
    return line


class Port:
    """A serial port that only this process has opened. Only `exchange` waits."""

    def __init__(self, name: str, closing: int) -> None:
        """`exchange` also returns if the descriptor `closing` has something to read. `OSError` if
        the port can't be opened, with a text that says why, and what to do."""
        try:
            line = _open(name)
        except ValueError:  # the name contains a zero byte
            raise OSError(errno.ENOENT, _ADVICE[errno.ENOENT], name) from None
        except (OSError, termios.error) as fault:
            number, text = fault.args[:2]
            raise OSError(number, _ADVICE.get(number, text), name) from None
        self._line = self.descriptor = line
        self._file = open(line, "r+b", buffering=0)
        self._poll = select.poll()
        self._poll.register(closing, select.POLLIN)
        self._unsent = b""
        self._counted, self._late_until = self._count(), float("-inf")

    def _count(self) -> bytes:
        """The system's counters of overruns, framing errors, parity errors and breaks. A
        pseudo-terminal has none."""
        try:
            return fcntl.ioctl(self._line, termios.TIOCGICOUNT, bytes(_COUNTS))[_FAULTS]
        except OSError:
            return b""

    def is_disturbed(self, now: float) -> bool:
        """Whether bytes may have been lost or altered among the latest that `exchange` returned."""
        counted = self._count()
        if counted != self._counted:
            self._counted, self._late_until = counted, now + _LATE
        return now < self._late_until

    @property
    def is_unsent(self) -> bool:
        """Whether the port hasn't taken all bytes yet."""
        return bool(self._unsent)

    def ask(self, chunk: bytes) -> None:
        """Sends a chunk, and drops the unsent rest of earlier ones."""
        self._unsent = b""
        self.write(chunk)

    def write(self, chunk: bytes) -> None:
        """Sends a chunk after the earlier ones."""
        self._unsent += chunk
        with contextlib.suppress(OSError):  # `exchange` will find that the port has disappeared
            self._send()

    def _send(self) -> None:
        self._unsent = self._unsent[self._file.write(self._unsent) or 0:]

    def exchange(self, seconds: float, wakes: int | None = None) -> bytes:
        """Sends as much as the port takes, and returns the bytes that arrive. Returns nothing after
        this time in seconds, once the port took something, or if the descriptor `wakes` has
        something to read. `OSError` if the port has disappeared."""
        self._poll.register(self._line, select.POLLIN | (select.POLLOUT if self._unsent else 0))
        if wakes is not None:
            self._poll.register(wakes, select.POLLIN)
        events = dict(self._poll.poll(1000 * seconds)).get(self._line, 0)
        if wakes is not None:
            self._poll.unregister(wakes)
        if events & select.POLLOUT:
            self._send()
        others = events & ~select.POLLOUT
        chunk = self._file.read(_CHUNK) if others and not self._file.closed else None
        if chunk == b"" or (chunk is None and others & ~select.POLLIN):
            raise OSError(errno.ENODEV, "the port has gone")
        return chunk or b""

    def close(self) -> None:
        """Closes the port, so that others may open it, even if a child of this process has a copy
        of it."""
        with contextlib.suppress(OSError, ValueError):  # it disappeared, or is closed already
            fcntl.flock(self._file, fcntl.LOCK_UN)
            fcntl.ioctl(self._file, termios.TIOCNXCL)
        with contextlib.suppress(OSError):
            self._file.close()
