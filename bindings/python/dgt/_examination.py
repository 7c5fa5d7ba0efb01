"""A board that dgt-doctor examines, and the person at it."""

import contextlib
import os
import time
from collections import deque
from collections.abc import Iterable

from ._findings import FINDINGS
from ._port import has_input
from ._session import FAULTS, RecordedPort, Recorder
from .commands import Ask, ClockId
from .events import Ack, Dump, Event, Fault, Field, Other, Refused
from .following import _DUMP
from .host import Host

PATIENCE = 4.0
"""The seconds to wait for an answer."""
LATE = 1.0
"""An answer after this number of seconds is late, also for a follower."""
LOOK = 0.5
"""The seconds between two looks for a port that has disappeared."""
LONGEST = 3600.0
LEFT_OUT = "left out: the board doesn't answer"
_DRAUGHTS = 103
_ANSWERED = ("version", "serial", "trademark", "clock")
"""The requests that each board answers. Not each has a battery, or a long serial number."""
_DAMAGED = {"altered bytes", "another board's code", "clock unreadable"}
"""Findings that explain a missing answer."""
_UNEXPLAINED = ("order", "quiet", "idle", "later")
"""The statements without a finding of their own."""
_DONE = 0x10


class Stopped(Exception):
    """The person has stopped the examination."""


class Person:
    """The person at the board, who reads standard output and types lines."""

    def __init__(self) -> None:
        self._rest = b""

    def say(self, text: str) -> None:
        """Prints a line. A closed output is ignored: the report contains the same."""
        with contextlib.suppress(OSError):
            print(text, flush=True)

    def typed(self, seconds: float = 0.0) -> str | None:
        """Returns the next line that the person types within this time, or `None`. `Stopped` for
        `q`, and at the end of the input."""
        if b"\n" not in self._rest and has_input(0, seconds):
            self._rest += os.read(0, 4096) or b"q\n"
        line, end, rest = self._rest.partition(b"\n")
        if not end:
            return None
        self._rest = rest
        if line.strip().lower() == b"q":
            raise Stopped
        return line.decode(errors="replace").strip().lower()

    def forget(self) -> None:
        """Drops all lines typed so far."""
        while self.typed() is not None:
            pass


class Examination:
    """A board on a port, its messages, and the findings."""

    def __init__(self, name: str, recorder: Recorder, person: Person, stop: int) -> None:
        """It raises `Stopped` once the descriptor `stop` has something to read. `OSError` if the
        port can't be opened."""
        self.name, self.person, self.host, self.mode = name, person, Host(), Ask.UPDATE_BOARD
        self.findings, self.held = dict[str, str](), dict[str, tuple[bool, str]]()
        self.facts, self.delays = dict[str, str](), dict[str, list[float]]()
        self.fields = list[tuple[str, str]]()
        """The reported squares since the list was cleared."""
        self._has_missed = self._has_recovered = self.is_understood = self.has_ended = False
        self._faults = dict[str, str]()
        """The findings before the first message that was understood."""
        self._raw, self._queue = b"", deque[Event]()
        self.recorder, self._stop = recorder, stop
        self._port: RecordedPort | None = RecordedPort(name, stop, recorder)

    def find(self, name: str, detail: str = "") -> None:
        """Notes a finding, once."""
        if name not in self.findings:
            self.findings[name] = f" ({detail})" if detail else ""
            self.person.say(f"found: {name}{self.findings[name]}: {FINDINGS[name]}")

    def hold(self, statement: str, holds: bool, detail: str = "") -> None:
        """Notes whether a statement held. One failure outweighs all successes."""
        if self.held.get(statement, (True, ""))[0]:
            self.held[statement] = holds, f" ({detail})" if detail else ""

    def miss(self) -> None:
        """Notes that the board didn't report a change, and requests changes again."""
        self._has_missed = True
        self.set_mode(self.mode)
        self.dump()  # its reply shows that the board has read the mode command

    def judge(self) -> None:
        """Adds the findings that depend on the whole examination."""
        self.hold("faults", True)
        if self._has_missed:
            self.find("mode lost" if self._has_recovered else "no updates")
        if (missing := self._failed(_ANSWERED)) and not _DAMAGED & self.findings.keys():
            self.find("no answer", ", ".join(missing))
        if others := self._failed(_UNEXPLAINED):
            self.find("other behaviour", ", ".join(others))
        self._judge_steps()
        if self.has_heard and not self.is_understood:
            self.find("not understood")

    def _failed(self, statements: Iterable[str]) -> list[str]:
        return [name for name in statements if not self.held.get(name, (True, ""))[0]]

    def _judge_steps(self) -> None:
        if failed := [name for name, fact in self.facts.items() if fact.startswith("failed: ")]:
            self.find("failed steps", "; ".join(failed))
        if left := [name for name, fact in self.facts.items() if fact == LEFT_OUT]:
            self.find("skipped steps", f"from {left[0]} on")
        undone = [name for name, fact in self.facts.items()
                  if fact != LEFT_OUT and fact.startswith(("skipped", "left out"))]
        if undone := undone + ["ended early"] * self.has_ended:
            self.find("unfinished", "; ".join(undone))

    # ---- The line

    def write(self, chunk: bytes) -> None:
        """Sends bytes to the board. If the port has disappeared, `hear` raises the `OSError`."""
        if self._port is not None:
            self._port.write(chunk)

    def set_mode(self, mode: Ask) -> None:
        self.mode = mode
        self.write(self.host.send(mode))

    def hear(self, until: float, wakes: int | None = None) -> Event | None:
        """Returns the next event, or `None` if there was none until a time, or until `wakes` has
        something to read. `OSError` if the port has disappeared."""
        while not self._queue:
            if self._port is None:
                raise OSError("the port has gone")
            try:
                chunk = self._port.exchange(max(0.0, until - time.monotonic()), wakes)
            except OSError:
                self._port.close()
                self._port = None
                raise
            self._check_stop()
            self._raw = (self._raw + chunk)[-20000:]
            for event in self.host.hear(chunk):
                self._note(event)
                self._queue.append(event)
            is_over = time.monotonic() >= until or (wakes is not None and has_input(wakes, 0.0))
            if not self._queue and is_over:
                return None
        return self._queue.popleft()

    @property
    def has_more(self) -> bool:
        """Whether there are events that `hear` hasn't returned yet."""
        return bool(self._queue)

    @property
    def has_heard(self) -> bool:
        return bool(self._raw)

    def open(self) -> bool:
        """Reopens a port that had disappeared, if it is back. Returns whether it is open."""
        self._check_stop()
        with contextlib.suppress(OSError):
            if self._port is None:
                self._port = RecordedPort(self.name, self._stop, self.recorder)
                self.host.line_lost()
                self._queue.clear()
        return self._port is not None

    def _check_stop(self) -> None:
        if has_input(self._stop, 0.0):
            raise Stopped

    def _note(self, event: Event) -> None:
        """Adds the findings of an event. Those of faults wait for a message: without one the port
        may be that of another device."""
        if isinstance(event, Field):
            self.fields.append((event.square, event.piece))
            self._has_recovered = self._has_missed
        if isinstance(event, Other):
            self._faults["another board's code"] = f"{event.code | 0x80:02x}"
        elif isinstance(event, FAULTS):
            self.hold("faults", False, str(event))
            name, detail = self._fault(event)
            self._faults.setdefault(name, detail)
        else:
            self.is_understood = True
        if self.is_understood:
            for found in self._faults.items():
                self.find(*found)
            self._faults.clear()

    def _fault(self, event: Event) -> tuple[str, str]:
        if isinstance(event, Refused) and event.fault == Fault.BAD_READING:
            return "clock unreadable", ""
        if not isinstance(event, Refused) or event.fault != Fault.WRONG_SIZE or event.code != _DUMP:
            return "altered bytes", str(event)
        at = self._raw.rfind(bytes([0x80 | _DUMP]))
        size = 128 * self._raw[at + 1] + self._raw[at + 2]
        return "draughts board" if size == _DRAUGHTS else "wrong size of dump", f"{size} bytes"

    # ---- Questions

    def await_event(self, kinds: tuple[type[Event], ...], seconds: float) -> Event | None:
        """Returns the next event of one of these kinds, or `None` after this time."""
        until = time.monotonic() + seconds
        while event := self.hear(until):
            if isinstance(event, kinds):
                return event
            if time.monotonic() >= until:
                break
        return None

    def ask(self, question: bytes, kinds: tuple[type[Event], ...], what: str) -> Event | None:
        """Sends a request, and returns the answer, or `None`. Notes the delay."""
        self.write(question)
        asked = time.monotonic()
        answer = self.await_event(kinds, PATIENCE)
        if answer is None:
            self.host.give_up_awaited()
            return None
        delay = time.monotonic() - asked
        self.delays.setdefault(what, []).append(delay)
        if delay > LATE and self.is_understood:
            self.find("late answers", f"{what} after {delay:.1f} s")
        return answer

    def request(self, question: Ask, kinds: tuple[type[Event], ...], what: str, tries: int = 2,
                may_be_off: bool = False) -> Event | None:
        """Sends a request, up to `tries` times until it is answered. Notes answers that were lost,
        unless the board may be off."""
        has_lost = False
        for _ in range(tries):
            answer = self.ask(self.host.send(question), kinds, what)
            if answer is not None and not isinstance(answer, Refused):
                if has_lost and not may_be_off:
                    self.lose(kinds, what)
                return answer
            has_lost = has_lost or answer is None
        return None

    def lose(self, kinds: tuple[type[Event], ...], what: str) -> None:
        """Notes that an answer was lost. If it was only late, another one follows."""
        if self.await_event(kinds, PATIENCE):
            self.find("late answers", f"{what} after more than {PATIENCE:.0f} s")
        else:
            self.find("lost answers", what)

    def dump(self, tries: int = 3, may_be_off: bool = False) -> Dump | None:
        """Requests all squares, up to three times until they are reported."""
        answer = self.request(Ask.DUMP, (Dump, Refused), "dump", tries, may_be_off)
        return answer if isinstance(answer, Dump) else None

    def begin_anew(self, unfinished: bytes = b"") -> bool:
        """Sends what a follower sends to start over, after the bytes of an unfinished command.
        Returns whether the board then reports all squares."""
        self.host.give_up_awaited()
        begins = unfinished + self.host.restart()
        return self.ask(begins, (Dump, Refused), "new beginning") is not None

    def send_clock(self, message: bytes, id: ClockId) -> Ack | None:
        """Sends a message to the clock, up to three times until it is acknowledged. Returns the
        acknowledgement."""
        has_lost, what = False, f"clock message {id:02x}"
        for _ in range(3):
            ack = self.ask(message, (Ack,), what)
            if isinstance(ack, Ack) and ack.ack[:2] == bytes([_DONE, id]):
                self.hold("acks", True)
                if has_lost:
                    self.lose((Ack,), what)
                return ack
            has_lost = has_lost or ack is None
            self.await_event((), LOOK)
        self.hold("acks", False, f"id {id:02x}")
        self.find("clock refused", f"id {id:02x}")
        return None
