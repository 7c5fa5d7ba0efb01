"""Sessions: the bytes between a host and a board with their times, as text.
tests/sessions/README.md describes the format."""

import re
import threading
import time
from collections.abc import Callable
from dataclasses import dataclass

from ._port import Port
from .errors import BadValue
from .events import BadLength, Cut, Dump, Refused, Stray
from .host import Host

HEAD = "# dgt session 1"
FAULTS = (Refused, Cut, BadLength, Stray)
"""The events that a session notes."""
_LINE = re.compile(r"(\d+\.\d{3}) (?:([<>])((?: [0-9a-f]{2})+)|(open|gone))")


class BadSession(BadValue):
    """A text isn't a session. The message names the line at fault."""


@dataclass(frozen=True, slots=True)
class Entry:
    """A line of a session."""

    mark: str
    """`<` for bytes of the board, `>` for bytes of the host, `open` or `gone` for the port, `#` for
    a note."""
    seconds: float = 0.0
    """The time since the session began. 0 for a note."""
    chunk: bytes = b""
    text: str = ""
    """The text of a note."""


class Recorder:
    """Writes a session, line by line. After a chunk of the board it notes the chunk's faults, and a
    new position if the chunk contained a report of all squares. Another thread may add notes."""

    def __init__(self, write: Callable[[str], object]) -> None:
        """`write` gets each line, with its line feed."""
        self._write, self._begun, self._count = write, time.monotonic(), 0
        self._lock, self._is_over = threading.RLock(), False
        self._host, self._shown = Host(), ""
        write(f"{HEAD}\n")

    def _add(self, line: str, is_note: bool = False) -> None:
        with self._lock:
            if not self._is_over:
                passed = time.monotonic() - self._begun
                self._count += not is_note
                self._write(f"# {line}\n" if is_note else f"{passed:.3f} {line}\n")

    def note(self, text: str) -> None:
        """Adds a note, on one line."""
        self._add(" ".join(text.split()), is_note=True)

    @property
    def is_empty(self) -> bool:
        """Whether it contains only notes."""
        return not self._count

    def opened(self) -> None:
        self._host.line_lost()
        self._add("open")

    def gone(self) -> None:
        """Notes that the port has disappeared."""
        self._add("gone")

    def sent(self, chunk: bytes) -> None:
        """Notes bytes of the host that the port took."""
        self._add(f"> {chunk.hex(' ')}")

    def heard(self, chunk: bytes) -> None:
        """Notes bytes of the board."""
        with self._lock:
            self._add(f"< {chunk.hex(' ')}")
            events = self._host.hear(chunk)
            for event in events:
                if isinstance(event, FAULTS):
                    self.note(f"fault {event}")
            shown = self._host.placement or ""
            if any(isinstance(event, Dump) for event in events) and shown != self._shown:
                self._shown = shown
                self.note(f"picture {shown}")

    def end(self) -> None:
        """Ends the session. Nothing is written afterwards."""
        with self._lock:
            self.note(f"end of {self._count} lines")
            self._is_over = True


class RecordedPort(Port):
    """A serial port that writes its bytes to a session."""

    def __init__(self, name: str, closing: int, recorder: Recorder) -> None:
        super().__init__(name, closing)
        self._recorder = recorder
        recorder.opened()

    def _send(self) -> None:
        unsent = self._unsent
        super()._send()
        if taken := unsent[:len(unsent) - len(self._unsent)]:
            self._recorder.sent(taken)

    def exchange(self, seconds: float, wakes: int | None = None) -> bytes:
        try:
            chunk = super().exchange(seconds, wakes)
        except OSError:
            self._recorder.gone()
            raise
        if chunk:
            self._recorder.heard(chunk)
        return chunk


def _read_line(line: str) -> Entry | None:
    """Returns the entry of a line, or `None` if the line isn't valid."""
    if not line or line.startswith("#"):
        return Entry("#", text=line[1:].strip())
    read = _LINE.fullmatch(line)
    if not read:
        return None
    seconds, mark, digits, word = read.groups()
    return Entry(mark or word, float(seconds), bytes.fromhex(digits or ""))


def read_session(text: str) -> tuple[list[Entry], bool]:
    """Returns the entries of a session, and whether it is complete: its end or a line in the middle
    may be missing. `BadSession` if the text isn't a session."""
    first, *lines = [line.rstrip() for line in text.splitlines()] or [""]
    if first != HEAD:
        raise BadSession(f"line 1: not a session: it must begin with {HEAD!r}")
    entries, last = list[Entry](), 0.0
    for number, line in enumerate(lines, 2):
        entry = _read_line(line)
        if entry is None and number == len(lines) + 1:
            break  # cut off
        if entry is None or entry.mark != "#" and entry.seconds < last:
            raise BadSession(f"line {number}: not a line of a session, or its time is less than "
                             f"the one before: {line[:60]!r}")
        last = max(last, entry.seconds)
        entries.append(entry)
    count = sum(entry.mark != "#" for entry in entries)
    texts = [entry.text for entry in entries if entry.text]
    return entries, texts[-1:] == [f"end of {count} lines"]
