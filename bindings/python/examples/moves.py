#!/usr/bin/env python3
"""Prints the moves that are made on a board.

    game FEN      a game begins with this position; the side to move may not be
                  known yet
    e2e4          a move in UCI's notation
    undo e2e4     the last move is taken back, or is replaced by the one in the
                  next line
    gap 3         moves that the board didn't show, in an unknown order
    lost e4 e5    no moves lead to what the board shows on these squares
    found         the board shows a position of the game again
    result 1-0    the result, by the kings, mate or stalemate

A move is printed once the board has shown the position after it for 0.3
seconds, and has confirmed it with a report of all squares, or the other side
has answered. Pieces may be lifted in any order, slid, put on wrong squares and
corrected, and moves may be taken back. If the clock runs, the move waits up to
three seconds until it is pressed. docs/USING.md lists all waits.

A game begins when all pieces are on their first squares, also on a turned
board. Any other position begins one after a second, at the start, or later if
it is set up and the kings are placed last.

All squares are requested every ten seconds, after each move, and soon if the
line lost bytes. No move is printed until the board has answered. If the port
disappears, the program looks for it every two seconds. The game goes on once it
is back; moves that were made meanwhile are printed then. The program runs until
Ctrl-C, or until nobody reads its output.

Standard error shows the first position that the board reports, also after it
was away, and why it is away.

This is an example for your own programs. The command dgt-game of the package
prints moves in short notation with the players' times, and writes a PGN file.
"""

import argparse
import os
import pathlib
import signal
import sys
import time
from collections.abc import Iterator

# First, so that --help needs no library.
parser = argparse.ArgumentParser(
    description=__doc__, formatter_class=argparse.RawDescriptionHelpFormatter, allow_abbrev=False)
parser.add_argument("port", help="the board's serial port, such as /dev/ttyUSB0")
parser.add_argument("--fen", help="the position with which a game goes on")
words = parser.parse_args()

sys.path.insert(0, str(pathlib.Path(__file__).resolve().parents[1]))
try:
    import dgt
    from dgt.recogniser import (Back, Begun, Ended, Found, GameEvent, Gap, Lost, Made, Recogniser,
                                Unseen)
except ImportError as missing:
    sys.exit(f"moves.py: {missing}")


def warn(text: str) -> None:
    print(text, file=sys.stderr, flush=True)


def milliseconds() -> int:
    return round(1000 * time.monotonic())


def events(board: dgt.Following, recogniser: Recogniser) -> Iterator[GameEvent]:
    """Yields the events of the games on a board."""
    away, is_new = None, True
    while True:
        due = recogniser.due_at()
        view = board.wait(until=None if due is None else due / 1000)
        if view is None:
            yield from recogniser.due(milliseconds())
            continue
        if view.away and view.away != away:
            warn(f"moves.py: {words.port}: {view.away}")
        away, is_new = view.away, is_new or view.away is not None
        if is_new and view.picture and not view.in_doubt:
            warn(f"the board shows {view.picture}")
            is_new = False
        yield from recogniser.see(milliseconds(), None if view.away else view.picture,
                                  is_sure=not view.in_doubt, is_confirmed=view.confirmed)
        if not view.in_doubt and not view.confirmed:
            board.follower.ask_now()


def lines(event: GameEvent, told: list[list[str]]) -> list[str]:
    """The lines of an event. `told` are those of the moves that aren't taken back."""
    match event:
        case Begun(state):
            told.clear()
            return [f"game {state.fen}"]
        case Made(move):
            told.append([move])
        case Unseen(moves):
            told.append([*moves])
        case Gap(count):
            told.append([f"gap {count}"])
        case Back():
            return [f"undo {line}" for line in reversed(told.pop())] if told else ["undo"]
        case Ended(result):
            return [f"result {result}"]
        case Lost(squares):
            return [f"lost {' '.join(squares)}"]
        case Found():
            return ["found"]
    return told[-1]


def tell(board: dgt.Following, recogniser: Recogniser) -> None:
    """Prints the lines of all events. The program ends if nobody reads its output."""
    told = list[list[str]]()
    try:
        for event in events(board, recogniser):
            for line in lines(event, told):
                print(line, flush=True)
    except BrokenPipeError:
        os.dup2(os.open(os.devnull, os.O_WRONLY), 1)
        raise SystemExit(0) from None


def main() -> None:
    signal.signal(signal.SIGINT, signal.SIG_DFL)
    recogniser = Recogniser()
    try:
        if words.fen is not None:
            recogniser.go_on(dgt.GameState.parse(words.fen).chess)
        board = dgt.follow(words.port, confirm=True)
    except dgt.BadFen as wrong:
        raise SystemExit(f"moves.py: {wrong}") from None
    except OSError as refused:
        raise SystemExit(f"moves.py: {words.port}: {refused.strerror}") from None
    tell(board, recogniser)


if __name__ == "__main__":
    main()
