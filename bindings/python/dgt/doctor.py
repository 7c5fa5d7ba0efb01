"""Examines a board: it requests everything, and asks you to do twelve things.

Example:
  $ dgt-doctor --report report.txt

Set up the pieces, play a move, press the clock, pull the cable, and so on: each
step says what to do, and is checked as it happens. Press s and Enter to skip a
step, and q and Enter to end early. Without a clock, its steps are left out.
Nothing is found only if every step was done.

The report is a text file for a bug report. It contains the board's model and
versions, what was found and what to do about it, the statements of
docs/PROTOCOL.md that held, and the whole session, byte by byte. So it also
contains the board's serial numbers.

Exit status: 0 if nothing was found, and 1 if something was, or if the port
can't be opened.
"""

import errno
import os
import platform
import statistics
import sys
import time
from collections.abc import Iterator
from typing import TextIO

from ._examination import LEFT_OUT, LONGEST, LOOK, Examination, Person, Stopped
from ._findings import FINDINGS, STATEMENTS
from ._manual import make_parser
from ._port import stopping
from ._session import Recorder
from ._steps import STEPS, do_step
from ._version import VERSION
from .commands import Ask, ClockId
from .events import Battery, Dump, Event, LongSerial, Serial, Trademark, Version
from .names import BatteryState
from .serial_ports import chosen_port, ports
from .values import NoClock, Times

_QUESTIONS: list[tuple[str, Ask, tuple[type[Event], ...]]] = [
    ("dump", Ask.DUMP, (Dump,)),
    ("version", Ask.VERSION, (Version,)),
    ("serial", Ask.SERIAL, (Serial,)),
    ("trademark", Ask.TRADEMARK, (Trademark,)),
    ("battery", Ask.BATTERY, (Battery,)),
    ("long serial", Ask.LONG_SERIAL, (LongSerial,)),
    ("clock", Ask.CLOCK, (Times, NoClock)),
]
_UNFINISHED = bytes([0x2B, 4, 3, ClockId.BEEP])
"""A beep without its duration, which zeros give, and without its end."""
_QUIET = 1.0
"""The seconds to wait for an answer that shouldn't come."""
_HOLDS = {True: "held", False: "did not hold", None: "not tried"}
_SIZES = {"draughts board", "wrong size of dump"}
_BUSY = (errno.EWOULDBLOCK, errno.EBUSY)


# ---- Without the person


def _is_there(board: Examination) -> bool:
    """Whether the board answers: at once, after zeros, or once it was switched off and on. If bytes
    come, but no message, it may be another device."""
    if board.dump(tries=1):
        return True
    if board.begin_anew() and board.is_understood:
        board.lose((Dump,), "the first dump")
        return True
    if board.has_heard:
        return any(board.ask(board.host.send(question), kinds, what)
                   for what, question, kinds in _QUESTIONS[1:4])
    board.person.say("The board doesn't answer. Switch it off and on, or pull its cable and plug "
                     "it in again; then press Enter (q and Enter: stop)")
    try:
        while board.person.typed() is None:
            board.hear(time.monotonic() + LONGEST, 0)
    except OSError:
        while not board.open():
            board.person.typed(LOOK)
    is_there = board.begin_anew() or board.begin_anew()
    board.find("bus mode" if is_there else "silent board")
    return is_there


def _ask_all(board: Examination) -> None:
    """Sends each request of the protocol, one by one and then all at once."""
    for what, question, kinds in _QUESTIONS:
        answer = (board.dump() if question == Ask.DUMP else
                  board.request(question, kinds, what))
        board.hold(what, answer is not None)
        board.person.say(f"{what}: {_shown(answer)}")
        if answer is not None and not isinstance(answer, NoClock):
            board.facts[what] = _shown(answer)
    for mode in (Ask.RESET, Ask.UPDATE_BOARD):
        board.set_mode(mode)
        board.hold("quiet", board.await_event((Dump, Version, Serial, Trademark), _QUIET) is None)
    known = [(question, kinds) for what, question, kinds in _QUESTIONS if what in board.facts]
    every = tuple(kind for _, kinds in known for kind in kinds)
    asked = b"".join(board.host.send(question) for question, _ in known)
    answers = [board.ask(b"" if at else asked, every, "several") for at in range(len(known))]
    if None in answers:
        board.find("lost answers", "several at once")
    else:
        board.hold("order", all(map(isinstance, answers, [kinds for _, kinds in known])))


def _shown(answer: Event | None) -> str:
    """An answer as text: its body as text if that is printable, and the battery's charge."""
    if isinstance(answer, (Trademark, LongSerial, Serial)) and answer.text is not None:
        return answer.text
    if isinstance(answer, Battery) and answer.state is not None:
        return f"{answer}, {_charge(answer.state)}"
    return "no answer" if answer is None else str(answer)


def _charge(state: BatteryState) -> str:
    said = ["charge unknown" if state.percent is None else f"{state.percent} %"]
    if state.hours_left is not None:
        said.append(f"{state.hours_left}:{state.minutes_left or 0:02} hours left")
    said += ["charging"] * state.charging + ["discharging"] * state.discharging
    return ", ".join(said)


def _examine(board: Examination) -> None:
    if not _is_there(board):
        return
    _ask_all(board)
    begins = board.begin_anew(_UNFINISHED)
    board.hold("zeros", begins)
    if not begins:
        board.find("new beginning")
    if "clock" in board.facts:
        if ack := board.send_clock(board.host.send_clock_version(), ClockId.VERSION):
            board.facts["clock version"] = f"{ack.ack[2] >> 4}.{ack.ack[2] & 15}"
    if "dump" not in board.facts and _SIZES & board.findings.keys():
        return
    board.set_mode(Ask.UPDATE_BOARD)
    board.person.say("Now do what each step says (s and Enter: skip it, q and Enter: stop)")
    for number, step in enumerate(STEPS, 1):
        name = f"step {number}, {step.name}"
        board.recorder.note(f"did {name}: {step.text}")
        prompt = f"step {number} of {len(STEPS)}, {step.name}: {step.text}"
        board.facts[name] = do_step(board, step, prompt)
        board.person.say(f"{name}: {board.facts[name]}")
        if board.facts[name] == LEFT_OUT:
            return


# ---- The report


def _report(board: Examination, begun: str) -> Iterator[str]:
    yield f"dgt-doctor {VERSION}, {begun}, {platform.platform()}, Python {sys.version.split()[0]}"
    path = os.path.realpath(board.name)
    known = [str(port) for port in ports() if os.path.realpath(port.path) == path]
    yield f"port: {', '.join(known) or board.name}"
    yield from (f"found: {name}{detail}: {FINDINGS[name]}"
                for name, detail in board.findings.items())
    yield from [] if board.findings else ["found: nothing"]
    yield from (f"{what}: {fact}" for what, fact in board.facts.items())
    for name, text in STATEMENTS.items():
        holds, detail = board.held.get(name, (None, ""))
        yield f"{_HOLDS[holds]}, {name}{detail}: {text}"
    for what, delays in board.delays.items():
        yield (f"time of {what}: {1000 * statistics.median(delays):.0f} ms, "
               f"at most {1000 * max(delays):.0f} ms, {len(delays)} times")


def _write(file: TextIO, lines: list[str]) -> bool:
    """Writes the report. Prints it if that fails."""
    text = "".join(lines)
    try:
        with file:
            file.write(text)
    except OSError as refused:
        print(f"dgt-doctor: {file.name}: {refused.strerror}. This is the report:\n{text}",
              flush=True)
        return False
    return True


def _run(name: str, file: TextIO, begun: str) -> bool:
    """Examines a board, and writes the report. Returns whether nothing was found."""
    lines, person = list[str](), Person()
    recorder = Recorder(lines.append)
    board = Examination(name, recorder, person, stopping())
    try:
        _examine(board)
    except Stopped:
        board.has_ended = True
    except OSError:
        board.find("port gone")
    finally:
        board.judge()
        recorder.end()
        report = (f"# {line}\n" for line in _report(board, begun))
        is_written = _write(file, [lines[0], *report, *lines[1:]])
    person.say(f"Found: {', '.join(board.findings) or 'nothing'}. The report is {file.name}")
    return is_written and not board.findings


def main(arguments: list[str] | None = None) -> None:
    """Runs the program `dgt-doctor` with these arguments, or those of the process."""
    begun = time.strftime("%Y-%m-%d %H:%M:%S UTC", time.gmtime())
    parser = make_parser("dgt-doctor", __doc__)
    parser.add_argument("port", nargs="?", help="the board's serial port, such as /dev/ttyUSB0 "
                        "(that of the only board)")
    parser.add_argument("--report", metavar="FILE", default=time.strftime(
        "dgt-doctor-%Y%m%d-%H%M%S.txt"), help="the file for the report; it must not exist yet "
        "(dgt-doctor-DATE-TIME.txt)")
    args = parser.parse_args(arguments)
    args.port, what = chosen_port("dgt-doctor", args.port), args.report
    try:
        file = open(args.report, "x", encoding="utf-8", errors="backslashreplace")
        what = args.port
        is_well = _run(args.port, file, begun)
    except OSError as refused:
        if what == args.port and not os.path.getsize(args.report):
            os.unlink(args.report)
        is_busy = what == args.port and refused.errno in _BUSY
        raise SystemExit(f"dgt-doctor: {what}: {'busy port: ' * is_busy}"
                         f"{refused.strerror}") from None
    sys.exit(not is_well)
