"""The twelve steps of dgt-doctor, and how each is checked."""

from __future__ import annotations

import contextlib
import time
from collections.abc import Callable
from dataclasses import dataclass

from ._examination import LEFT_OUT, LONGEST, LOOK, Examination
from .commands import Ask, ClockId
from .events import Ack, Event, Field
from .values import SQUARES, Position, Times

_PRESSED = (0x08, 0x88)
"""The second byte of an acknowledgement after a button was pressed."""
_WITH_TEXT = 2
"""The first main version of a clock that shows text."""
_NAMED = 6
"""The most squares that a text names with their pieces."""
_REST = 10.0
"""The seconds without a report after which wrong squares are named."""
_NO_ANSWER = "the board doesn't answer"


class Skipped(Exception):
    """The person skips a step."""


@dataclass(frozen=True, slots=True)
class Step:
    """What the person does."""

    name: str
    text: str
    advice: str
    """What to do if it fails."""
    do: Callable[[Examination, Step, Position], str]
    """Runs the step from this position. Returns what failed, or an empty text."""
    changes: str = ""
    """The changes of squares that have to be reported, such as `e2. e4P`."""
    needs: str = ""
    """The pieces that have to be on some squares before."""
    has_clock: bool = False
    """Whether it needs a clock."""
    note: Callable[[Event], str] = str
    """Returns what an event reports about the step, or an empty text."""
    is_typed: bool = False
    """Whether the person presses Enter when it is done."""


def _watch(board: Examination, is_done: Callable[[Event], bool],
           hint: Callable[[], str] = str) -> bool:
    """Prints events until the step is done or a line is typed, and the hint if nothing happens.
    Returns whether it is done."""
    has_seen, said = False, ""
    while True:
        event = board.hear(time.monotonic() + _REST, 0)
        if event is not None:
            board.person.say(f"  {event}")
            has_seen = is_done(event) or has_seen
        if has_seen and not board.has_more:
            return True
        if (line := board.person.typed()) is not None:
            if line == "s":
                raise Skipped
            return False
        if event is None and (text := hint()) not in ("", said):
            board.person.say(f"  {text}")
            said = text


def _pairs(text: str) -> list[tuple[str, str]]:
    return [(word[:2], word[2]) for word in text.split()]


def _differences(shown: Position, right: Position) -> str:
    """Returns the wrong squares as text."""
    if shown.letters == right.letters[::-1]:
        return "the board is turned: turn it round, and put the pieces where they were"
    wrong = shown.changes(right)
    if len(wrong) > _NAMED:
        return f"these squares show another piece or none: {' '.join(wrong)}"
    return ", ".join(f"{square} shows {shown[square]} instead of {letter}"
                     for square, letter in wrong.items())


def _twice(board: Examination, attempt: Callable[[], str], text: str = "") -> str:
    """Makes an attempt, and another one if it fails. Returns what is wrong at last."""
    if why := attempt():
        board.person.forget()
        board.person.say(f"  {why}. Try again{text}")
        why = attempt()
    return why


def _on_board(board: Examination, step: Step, before: Position) -> str:
    """Pieces are moved. The changes and the report of all squares have to agree."""
    after = dict(zip(SQUARES, before)) | dict(_pairs(step.changes))
    goal = Position.of_letters("".join(after.values())) if step.changes else Position.start()
    if not step.changes and before == goal:
        return ""
    return _twice(board, lambda: _move(board, step, goal),
                  f": {step.text}. Press Enter if nothing happens")


def _move(board: Examination, step: Step, goal: Position) -> str:
    """Waits until the board shows the result of the step. Returns what is wrong."""
    must = set(_pairs(step.changes))

    def hint() -> str:
        shown = board.host.picture
        if shown is None or shown == goal or must and not board.fields:
            return ""
        return f"{_differences(shown, goal)}. Press Enter if the pieces stand right"

    def is_done(_: object = None) -> bool:
        return board.host.picture == goal and must <= {*board.fields}

    is_noticed = _watch(board, is_done, hint)
    if not is_noticed:
        board.await_event((), LOOK)  # changes that are on their way
        is_noticed = is_done()
    dump = board.dump()
    if dump is None:
        return _NO_ANSWER
    if dump.position != goal and is_noticed:
        board.find("altered bytes", f"the changes and the report of all squares differ in "
                   f"{step.name}")
    if dump.position == goal:
        board.hold("fields", is_noticed, "" if is_noticed else step.name)
        if not is_noticed:
            board.miss()
            return "the board didn't report it by itself" if must else ""
    return _differences(dump.position, goal)


def _in_idle_mode(board: Examination, step: Step, before: Position) -> str:
    """A knight is lifted in idle mode, and put back."""
    [(square, _)] = _pairs(step.needs)
    return (_twice(board, lambda: _lift(board, square))
            or _twice(board, lambda: _put_back(board, before)))


def _lift(board: Examination, square: str) -> str:
    """Waits until the knight is lifted in idle mode. Returns what is wrong."""
    mode = board.mode
    board.set_mode(Ask.RESET)
    stood = board.dump()  # it shows that the board has read the mode command
    board.person.forget()
    board.person.say(f"  now lift the knight from {square}, and press Enter")
    has_come = _watch(board, lambda event: isinstance(event, Field))
    board.set_mode(mode)
    comes_later = board.await_event((Field,), 3 * LOOK) is not None
    lifted = board.dump()
    if lifted is None or lifted.position[square] != ".":
        return f"{square} isn't empty"
    board.hold("idle", not has_come)
    if not has_come and stood is not None and stood.position[square] != ".":
        board.hold("later", comes_later)
    return ""


def _put_back(board: Examination, before: Position) -> str:
    """Waits until the knight is back. Returns what is wrong."""
    board.person.forget()
    board.person.say("  now put it back")
    _watch(board, lambda _: board.host.picture == before)
    after = board.dump()
    return _differences(after.position, before) if after else _NO_ANSWER


# ---- The clock


def _on_clock(board: Examination, step: Step, before: Position) -> str:
    """The clock shows a text. The person confirms it."""
    has_text = int(board.facts.get("clock version", "1").partition(".")[0]) >= _WITH_TEXT
    shown = "hello" if has_text else "12-34"
    message = board.host.send_text(shown, 3) if has_text else board.host.send_display(shown, 0, 3)
    if board.send_clock(message, ClockId.TEXT if has_text else ClockId.DISPLAY) is None:
        return "the clock didn't acknowledge it"
    board.person.say(f"  does it show {shown}? (Enter: yes, n and Enter: no)")
    while (line := board.person.typed()) is None:
        board.hear(time.monotonic() + LONGEST, 0)
    board.send_clock(board.host.send_end(), ClockId.END)
    if line == "s":
        raise Skipped
    return "it wasn't shown" if line == "n" else ""


def _reported(board: Examination, step: Step, before: Position) -> str:
    """Waits for two different reports of the clock, or for any until a line is typed."""
    noted = dict[str, None]()

    def is_done(event: Event) -> bool:
        if what := step.note(event):
            noted[what] = None
        return len(noted) > 1 and not step.is_typed

    if board.host.clock:
        is_done(board.host.clock)
    if not _watch(board, is_done) and not (noted and step.is_typed):
        return "the clock reported nothing"
    board.hold(step.name, True, ", ".join(noted))
    return ""


def _running(event: Event) -> str:
    return str(event) if isinstance(event, Times) and event.running else ""


def _lever(event: Event) -> str:
    return f"{event.lever:d}" if isinstance(event, Times) else ""


def _button(event: Event) -> str:
    return event.ack.hex(" ") if isinstance(event, Ack) and event.ack[1] in _PRESSED else ""


# ---- The cable


def _away(board: Examination, step: Step, before: Position) -> str:
    """The board is disconnected, and comes back with the same pieces."""
    with contextlib.suppress(OSError):
        while board.dump(may_be_off=True):
            board.await_event((), LOOK)
            if (line := board.person.typed()) is not None:
                if line == "s":
                    raise Skipped
                return "it still answers"
    board.person.say("  it is disconnected. Now plug it in again, or switch it on")
    while not (board.open() and _is_back(board)):
        if board.person.typed(LOOK) == "s":
            raise Skipped
    return _differences(board.host.picture or before, before)


def _is_back(board: Examination) -> bool:
    with contextlib.suppress(OSError):
        return board.begin_anew()
    return False


_SEND = "attach the report to a bug report"
_CHOOSE = "switch the clock on, and choose its mode for a connected board"
STEPS = [
    Step("set up", "set up all pieces for a game", "each piece has its own code: check the pieces "
         "on these squares", _on_board),
    Step("e4", "play 1. e4", _SEND, _on_board, "e2. e4P", "e2P e4."),
    Step("lift", "lift the knight from g1, and put it back", _SEND, _on_board, "g1. g1N", "g1N"),
    Step("slide", "slide the bishop from f1 to c4, without lifting it", _SEND, _on_board,
         "f1. c4B", "f1B e2. d3. c4."),
    Step("take", "take the pawn on f7 with the bishop", _SEND, _on_board, "c4. f7B", "c4B f7p"),
    Step("idle", "wait until the board is in idle mode", _SEND, _in_idle_mode,
         needs="b1N"),
    Step("text", "watch the clock, which gets a text", _CHOOSE, _on_clock, has_clock=True),
    Step("start", "start the clock", _CHOOSE, _reported, has_clock=True, note=_running),
    Step("lever", "press the lever of the clock", _CHOOSE, _reported, has_clock=True, note=_lever),
    Step("buttons", "press each button of the clock, and then Enter", "older clocks report none",
         _reported, has_clock=True, note=_button, is_typed=True),
    Step("cable", "pull the cable out of the computer", "skip it for a Bluetooth board", _away),
    Step("power", "switch the board off", "skip it if the board has no switch", _away),
]
"""The steps in order."""


def do_step(board: Examination, step: Step, prompt: str) -> str:
    """Runs a step, once the board is ready for it. Returns the result as text."""
    if step.has_clock and "clock" not in board.facts:
        return "left out: no clock is connected"
    if step.has_clock:
        board.set_mode(Ask.UPDATE_NICE)
    dump = board.dump()
    if dump is None:
        return LEFT_OUT
    if any(dump.position[square] != piece for square, piece in _pairs(step.needs)):
        return f"left out: it needs other pieces on some squares ({step.needs})"
    board.fields.clear()
    board.person.forget()
    board.person.say(prompt)
    try:
        why = step.do(board, step, dump.position)
    except Skipped:
        return "skipped"
    return f"failed: {why}; {step.advice}" if why else "done"
