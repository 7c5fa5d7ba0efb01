#!/usr/bin/env python3
"""Simulates a board on a pseudo-terminal, so that you can try a host.

It prints the name of the terminal, which a host opens as a serial line. If LINK
is given, it makes that a symbolic link to the terminal. Then it reads commands
from standard input, one per line:

    e2 .                   removes the piece on e2
    e4 P                   puts a piece on e4 (PRNBKQ white, prnbkq black)
    e2e4                   moves the piece on e2; a piece on e4 is removed
    new                    sets up the pieces of a new game
    turn                   the same, with White on the other side from now on
    clock 1:00:00 0:59:30  sets the times of the clock's first and second side,
                           and stops it
    clock start            starts the clock: White is to move, and the first
                           side counts down each second, to 0:00:00
    clock press            presses the clock: the other side is to move, and
                           counts down
    clock stop             stops the clock; the same side stays to move
    wait 0.5               waits for half a second; 3600 at most
    off                    switches the board off and on; the port stays open.
                           The board logs this, and all changes while no host
                           has requested updates: see dgt-game --log
    gone                   unplugs the board
    back                   plugs it in again, on another terminal
    half                   sends half of the next message, and unplugs the board
    lose                   loses the next message on the line
    raw 8e00               sends these bytes
    curt                   from now on answers only requests for all squares
    mute                   from now on answers nothing

It reports any other line on standard error, and ignores it. The board answers
the host all the time. With LINK it also prints each byte of the host's commands
but zeros, and `ready` at the start and after each line.

With LINK it ends at the end of its input. Otherwise it ends half a second later
or once the host has read everything. If that takes more than ten seconds, it
says so and ends with status 1.
"""

import argparse
import os
import pathlib
import re
import select
import signal
import sys
import time
from collections.abc import Iterable, Iterator

# First, so that --help needs no library.
parser = argparse.ArgumentParser(
    description=__doc__, formatter_class=argparse.RawDescriptionHelpFormatter, allow_abbrev=False)
parser.add_argument("link", metavar="LINK", nargs="?", help="a name by which a host opens the port")
words = parser.parse_args()

sys.path.insert(0, str(pathlib.Path(__file__).resolve().parents[1]))
try:
    import dgt
    from dgt._simulated import PluggedBoard
except ImportError as missing:
    sys.exit(f"board.py: {missing}")


SQUARES = {0x86, 0x8E}  # the first bytes of messages with squares: all of them, and one
MOVE = re.compile("([a-h][1-8])([a-h][1-8])")


def read_seconds(text: str) -> int:
    """Returns the seconds of a time such as 1:29:55. ValueError if it isn't valid."""
    read = re.fullmatch(r"(\d):(\d\d):(\d\d)", text, re.ASCII)
    if not read:
        raise ValueError(f"not a time from 0:00:00 to 9:59:59: {text}")
    shown = dgt.Time(*map(int, read.groups()))
    return 3600 * shown.hours + 60 * shown.minutes + shown.seconds


class Simulation(PluggedBoard):
    """A board and its clock, on one side of a pseudo-terminal."""

    def __init__(self, link: str | None) -> None:
        super().__init__(link)
        self.faults = set[str]()  # by their names in the input
        self.is_turned = False  # White is on the far side
        self.plug()

    def say(self, text: str) -> None:
        """Prints a line, but only with LINK."""
        if self.link:
            print(text, flush=True)

    def plug(self) -> str:
        """Opens the port, and prints its name without LINK."""
        is_new = not self.ends
        try:
            name = super().plug()
        except OSError as refused:
            what = f"{self.link}" if self.ends else "can't open a pseudo-terminal"
            hint = " (LINK must be a new name in a writable folder)" if self.ends else ""
            raise SystemExit(f"board.py: {what}: {refused.strerror}{hint}") from None
        if is_new and not self.link:
            print(name, flush=True)
        return name

    def unplug(self) -> None:
        time.sleep(0.05)  # the host reads the bytes first
        super().unplug()

    def send(self, messages: Iterable[bytes]) -> None:
        """Sends messages, as far as faults leave them."""
        for message in messages:
            if "mute" in self.faults or "curt" in self.faults and message[0] not in SQUARES:
                continue
            if "lose" in self.faults:
                self.faults.remove("lose")
            elif "half" in self.faults:
                self.faults.remove("half")
                self.write(message[: len(message) // 2])
                self.unplug()
            else:
                self.write(message)

    def hear(self, asked: bytes) -> None:
        """Answers these bytes of the host."""
        for command in asked.replace(b"\0", b""):
            self.say(f"asked {command:02x}")
        super().hear(asked)

    def serve(self, seconds: float | None, until: tuple[int, ...] = ()) -> None:
        """Sends changes to the host, and answers it: for this number of seconds, for ever if it is
        None, or until one of these descriptors has something to read."""
        end = None if seconds is None else time.monotonic() + seconds
        while True:
            self.count_clock()
            self.send(self.board.messages())
            now = time.monotonic()
            if end is not None and now >= end:
                return
            times = [max(0.0, each - now) for each in (end, self.clock.due) if each is not None]
            heard = [*self.ends[:1], *until]
            ready = select.select(heard, [], [], min(times, default=None))[0]
            if self.ends and self.ends[0] in ready:
                self.answer()
            if not set(until).isdisjoint(ready):
                return

    def lines(self) -> Iterator[str]:
        """The lines of standard input. Answers the host while it waits for one."""
        rest = b""
        while True:
            self.serve(None, (0,))
            chunk = os.read(0, 4096)
            if not chunk:
                break
            *whole, rest = (rest + chunk).split(b"\n")
            yield from (each.decode(errors="replace") for each in whole)
        if rest:
            yield rest.decode(errors="replace")

    def move(self, start: str, end: str) -> None:
        piece = self.board.position[start]
        if self.board.position[end] != ".":
            self.board.change(end, ".")
            self.serve(0.1)
        self.board.change(start, ".")
        self.serve(0.1)
        self.board.change(end, piece)

    def set_clock(self, first: str, second: str) -> None:
        """Shows these times, and stops. ValueError if one of them isn't valid."""
        self.clock.left, self.clock.side = [read_seconds(first), read_seconds(second)], None
        self.run_clock(None)

    def start_clock(self, side: int) -> None:
        """ValueError if the side has no time left."""
        if self.clock.left[side] == 0:
            raise ValueError(f"the clock's {('first', 'second')[side]} side has no time left")
        self.run_clock(side)

    def press_clock(self) -> None:
        """ValueError if the clock doesn't run, or if the other side has no time left."""
        if self.clock.runs is None:
            raise ValueError("the clock doesn't run")
        self.start_clock(1 - self.clock.runs)

    def obey(self, happening: str) -> None:
        """Obeys a line of the input. ValueError if the line is invalid."""
        match happening.split():
            case ["wait", seconds] if 0 <= float(seconds) <= 3600:
                self.serve(float(seconds))
            case ["wait", _]:
                raise ValueError("not 0 to 3600 seconds")
            case ["clock", "start"]:
                self.start_clock(self.clock.side or 0)
            case ["clock", "press"]:
                self.press_clock()
            case ["clock", "stop"]:
                self.run_clock(None)
            case ["clock", first, second]:
                self.set_clock(first, second)
            case ["clock", *_]:
                raise ValueError("neither two times nor start, press or stop after clock")
            case ["raw", text]:
                self.write(bytes.fromhex(text))
            case ["new" | "turn" as how]:
                self.is_turned ^= how == "turn"
                letters = dgt.Position.start().letters
                for square, piece in zip(dgt.SQUARES, letters[::-1 if self.is_turned else 1]):
                    self.board.change(square, piece)
            case ["off"]:
                self.board.line_lost()
            case ["gone"]:
                self.unplug()
            case ["back"]:
                self.plug()
            case ["half" | "lose" | "curt" | "mute" as fault]:
                self.faults.add(fault)
            case [square, piece]:
                self.board.change(square, piece)
            case [word] if move := MOVE.fullmatch(word):
                self.move(*move.groups())
            case _:
                raise ValueError("not a line that --help lists")

    def finish(self) -> None:
        """Answers the host until it has read everything, for half a second at least. SystemExit if
        it hasn't after ten seconds."""
        latest = time.monotonic() + 10
        self.serve(0.5)
        while select.select(self.ends[1:], [], [], 0)[0]:
            if time.monotonic() > latest:
                raise SystemExit("board.py: the host hasn't read everything")
            self.serve(0.05)


def main() -> None:
    for ending in (signal.SIGINT, signal.SIGPIPE):
        signal.signal(ending, signal.SIG_DFL)
    simulation = Simulation(words.link)
    simulation.say("ready")
    for happening in simulation.lines():
        try:
            simulation.obey(happening)
        except ValueError as wrong:
            print(f"board.py: {happening!r}: {wrong}", file=sys.stderr, flush=True)
        simulation.serve(0)
        simulation.say("ready")
    if words.link is None:
        simulation.finish()
    else:
        simulation.unplug()


if __name__ == "__main__":
    main()
