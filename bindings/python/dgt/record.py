"""Records the bytes between a host and a board, with their times.

Examples:
  $ dgt-record evening.txt
  $ dgt-record --pass /dev/ttyUSB0 evening.txt

The file is a session: each chunk of bytes is a line, with its time and its
direction. Each line that you type is added as a note: type what you do on the
board. Each new position and each fault of the line is noted, too. Press Ctrl-C
to stop. tests/sessions/README.md describes the file; dgt-replay plays it.

It follows the board by itself. With --pass it prints the name of a
pseudo-terminal instead. Let a program open that instead of the board's port:
the bytes in both directions are passed on and recorded.
"""

import argparse
import contextlib
import os
import signal
import sys
import threading
from typing import BinaryIO

from ._board_with_clock import PATIENCE
from ._manual import make_parser
from ._port import Port, has_input, stopping
from ._session import RecordedPort, Recorder
from ._simulated import open_terminal
from ._version import VERSION
from .board import Mode
from .following import Following
from .serial_ports import chosen_port

_PERIOD = 2.0
"""The seconds between two requests for all squares."""
_LONGEST = 3600.0
_CHUNK = 4096


class _Recorded(Following):
    """Follows a board, and records the session."""

    def __init__(self, port: str, recorder: Recorder) -> None:
        self._recorder = recorder
        super().__init__(port, _PERIOD, patience=PATIENCE, mode=Mode.UPDATE_NICE, confirm=True)

    def _open(self) -> Port:
        return RecordedPort(self._name, self._closing, self._recorder)


def _warn(text: str) -> None:
    print(f"dgt-record: {text}", file=sys.stderr)


def _follow(port: str, recorder: Recorder, stop: int) -> None:
    away: str | None = None
    with _Recorded(port, recorder) as board:
        while not has_input(stop, 0.0):
            view = board.wait(wakes=stop)
            if view and view.away != away:
                away = view.away
                _warn(f"{port}: {away or 'the board is back'}")


def _pass_on(port: str, recorder: Recorder, stop: int) -> None:
    """Passes bytes between the board and a program on a pseudo-terminal, until a signal. `OSError`
    once the port has disappeared."""
    program, terminal = open_terminal()
    line = RecordedPort(port, stop, recorder)
    print(os.ttyname(terminal), flush=True)
    while not has_input(stop, 0.0):
        chunk = line.exchange(_LONGEST, program)
        taken = 0
        with contextlib.suppress(BlockingIOError):
            taken = os.write(program, chunk)
        if taken < len(chunk):
            recorder.note(f"{len(chunk) - taken} bytes are lost: no program reads them")
        with contextlib.suppress(BlockingIOError):
            line.write(os.read(program, _CHUNK))


def _note_lines(recorder: Recorder) -> None:
    """Notes each typed line. It reads without a buffer, since the program may end meanwhile. In the
    background of a shell nothing can be typed, which is an `OSError`."""
    rest = b""
    with contextlib.suppress(OSError):
        while chunk := os.read(0, _CHUNK):
            *lines, rest = (rest + chunk).split(b"\n")
            for line in lines:
                recorder.note(f"did {line.decode(errors='replace')}")


def _record(args: argparse.Namespace, file: BinaryIO) -> None:
    def write(line: str) -> None:
        left = line.encode(errors="backslashreplace")
        try:
            while left:
                left = left[file.write(left):]
        except OSError as refused:
            raise SystemExit(f"dgt-record: {args.file}: {refused.strerror}") from None

    recorder = Recorder(write)
    recorder.note(f"dgt-record {VERSION} of {args.port}")
    threading.Thread(target=_note_lines, args=(recorder,), daemon=True).start()
    try:
        (_pass_on if args.passes else _follow)(args.port, recorder, stopping())
    finally:
        recorder.end()
        if recorder.is_empty:  # the port wasn't opened
            os.unlink(args.file)


def main(arguments: list[str] | None = None) -> None:
    """Runs the program `dgt-record` with these arguments, or those of the process."""
    parser = make_parser("dgt-record", __doc__)
    parser.add_argument("port", nargs="?", help="the board's serial port, such as /dev/ttyUSB0 "
                        "(that of the only board)")
    parser.add_argument("file", help="the file for the session; it must not exist yet")
    parser.add_argument("--pass", dest="passes", action="store_true",
                        help="let a program use the board through a pseudo-terminal")
    args = parser.parse_intermixed_args(arguments)  # a FILE after --pass is no second port
    args.port = chosen_port("dgt-record", args.port)
    signal.signal(signal.SIGTTIN, signal.SIG_IGN)  # or a read in the background stops the program
    what = args.file
    try:
        with open(args.file, "xb", buffering=0) as file:
            what = args.port
            _warn(f"recording {args.port} to {args.file} (stop with Ctrl-C)")
            _record(args, file)
    except OSError as refused:
        raise SystemExit(f"dgt-record: {what}: {refused.strerror}") from None
