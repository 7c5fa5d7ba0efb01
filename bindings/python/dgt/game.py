"""Prints the moves that are made on a board, and keeps the games in a PGN file.

Examples:
  $ dgt-game --demo
  $ dgt-game --pgn games.pgn --white Ann --black Ben
  $ dgt-game /dev/ttyUSB0 --log --pgn games.pgn

Standard output gets a line for each event:

    game FEN                    a game begins with this position
    1. e4 e2e4 1:30:00 1:30:00  a move: its number, short and long notation, and
                                the times of White and Black, if the board has a
                                clock
    undo 1. e4 e2e4             a move was taken back, or is replaced by the one
                                in the next line
    kept 5                      five half-moves that were taken back stay in the
                                file, as the end of the game so far; the next
                                line is in another game, which begins with the
                                moves before them
    result 1-0 kings            the result, by the kings, mate or stalemate
    lost g3. g1N                the board rests in a position that no move leads
                                to, until these squares are put right: g3 empty,
                                a white knight on g1
    gap 3                       three moves were made in an order that the board
                                didn't show: the next one begins another game
    found                       a move leads on, or the pieces are put right
    broken off                  another game begins, and moves of this one are
                                missing: the PGN has a comment

A game begins when all pieces are on their starting squares, on either side of
the board. Any other position begins one if it rests for a second at the start,
or later for five seconds after both kings were taken off and put on last.
During a game, a position that no moves lead to begins one after a minute or
three further moves.

A move is printed once it has rested for 0.3 seconds and the board has confirmed
it with a report of all squares, or once it was answered. While the clock of its
player runs, it waits for three seconds. Pieces may be lifted in any order,
slid, and put right. Moves may be taken back: one or two that were made shortly
before are corrected. More of them, the last one after half a minute, and a mate
stay in the file, and the moves that follow instead are another game.

The players give the result with their kings. They lift both, and put them for a
second on

    e4 and d5             White wins
    e5 and d4             Black wins
    e4 and e5, or d4, d5  a draw

Either king may be on either square. The other pieces stand as in the game, but
for one, and may be lifted. Mate and stalemate end a game by themselves. After
the end no moves are recorded until a new game begins. Standard error says once
that the board goes on, after two half-moves: you analyse, or the result was a
mistake. Then start dgt-game again: the rest becomes another game.

The PGN file is written after each move. Its other contents stay, and games are
appended. If it can't be written, standard error says so, the game goes on, and
each move tries again.

While the line loses bytes, no move is recorded. The pictures in doubt show in
which order moves were made. If the port disappears, dgt-game looks for it every
two seconds. The game then goes on with up to four moves that were made
meanwhile, if only one order of them is possible. If the board shows another
position for five seconds, the game is broken off, and another begins with that
position.

When a flag of the clock falls, standard error says so once. The flag alone is
not a result.

With --log dgt-game reads the games that the board stored while no host
listened, if it keeps a log (the command 49). Such a log lists the pieces put on
squares, in order, and sometimes the time of a side of the clock. So:

- A game begins when the pieces are on their starting squares, on either side.
- The position is unknown before that: at the log's beginning, and after the
  board was switched on or restarted. Moves made there are in no game; standard
  error gives their number.
- A game ends before the next one. It has no result if the log ends, or the
  board was switched on or restarted. If changes are missing, or no moves lead
  to the next positions, it has the moves up to there, with a comment.
- A time belongs to the player who made the move before it. If its hours byte
  begins with 6, it is that of the clock's left side; with 7, of the right one.
- Unknown bytes are ignored, and standard error names them.

The date of these games is unknown. Reading a log twice adds its games twice. If
no byte arrives for five seconds, dgt-game says so and ends with status 1.
"""

import argparse
import contextlib
import os
import select
import sys
import time

from . import _demo
from ._board_with_clock import PATIENCE
from ._logged import LoggedGames, NoLog, Stopped, ask_for_log
from ._manual import make_parser
from ._pgn_file import PgnFile
from ._port import has_input, stopping
from .board import Mode
from .clock_side import SIDES
from .errors import BadFen
from .following import Following, follow
from .games import Games
from .serial_ports import chosen_port
from .uci import period
from .values import Position

_PERIOD = 2.0
"""The seconds between two requests for all squares."""
_OUTPUT_WAIT = 0.5
"""The seconds between two attempts to write to a blocked output."""
_TAGS = ("event", "site", "date", "round", "white", "black")


class _Output:
    """Writes lines to a file as soon as it takes them. No call waits for that, or fails."""

    def __init__(self, descriptor: int) -> None:
        self._descriptor, self._unsent = descriptor, b""
        self.fault, self.is_broken = "", False
        self._poll = select.poll()
        self._poll.register(descriptor, select.POLLOUT)

    def say(self, line: str) -> None:
        self._unsent += f"{line}\n".encode(errors="replace")
        self.send()

    def send(self, seconds: float = 0.0) -> bool:
        """Writes as much as the file takes within this number of seconds. Returns whether
        everything is written. If not, `fault` may say why; `is_broken` is true once nobody reads
        the file any more."""
        try:
            while self._unsent and self._poll.poll(1000 * seconds):
                count = os.write(self._descriptor, self._unsent[:select.PIPE_BUF])
                self._unsent = self._unsent[count:]
        except BrokenPipeError:
            self._unsent, self.is_broken = b"", True
        except OSError as refused:
            self.fault = refused.strerror or str(refused)
        return not self._unsent


def _record(board: Following, games: Games, output: _Output, notes: _Output,
            is_demo: bool) -> None:
    """Records the games on a board until a signal, or until nobody reads the output. A
    demonstration also ends with its game."""
    stop = stopping()
    asked: Position | None = None
    while not output.is_broken and not has_input(stop, 0.0):
        if is_demo and games.game and games.game.result != "*":
            break
        due = games.due
        if not all([output.send(), notes.send()]):
            later = time.monotonic() + _OUTPUT_WAIT
            due = later if due is None else min(due, later)
        view = board.wait(until=due, wakes=stop)
        if view is None:
            games.tick(time.monotonic())
        else:
            games.see(view, time.monotonic())
            if games.unconfirmed and view.picture != asked:
                asked = view.picture
                board.follower.ask_now()


def _read_args(arguments: list[str] | None) -> argparse.Namespace:
    parser = make_parser("dgt-game", __doc__)
    parser.add_argument("port", nargs="?", help="the board's serial port, such as /dev/ttyUSB0 "
                        "(that of the only board)")
    parser.add_argument("--demo", action="store_true",
                        help="without a port: play the Opera Game of 1858 on a simulated board")
    parser.add_argument("--fast", action="store_true", help="play it in 12 seconds, not in 50")
    parser.add_argument("--pgn", metavar="FILE", help="the file for the games")
    for name in _TAGS:
        said = " (today)" if name == "date" else ""
        parser.add_argument(f"--{name}", metavar="TEXT", help=f"a tag of each game{said}")
    parser.add_argument("--white-clock", choices=(*SIDES, "learn"), default="learn",
                        help="the side of the clock that has White's time (%(default)s). Left is "
                        "the side that the clock reports first. learn begins with left, and "
                        "changes if the right side counts when White is to move")
    parser.add_argument("--fen", help="the position with which the game begins")
    parser.add_argument("--period", type=period, metavar="SECONDS",
                        help=f"the time between two requests for all squares ({_PERIOD})")
    parser.add_argument("--log", action="store_true", help="read the games in the board's log, "
                        "without following the board")
    args = parser.parse_args(arguments)
    if args.demo and args.port is not None:
        parser.error("--demo takes no port")
    if args.demo and (args.fen or args.log) or args.fast and not args.demo:
        parser.error("--demo takes no --fen and no --log, and only --demo takes --fast")
    if args.log and (args.fen or args.period):
        parser.error("--log takes no --fen and no --period")
    return args


def _follow(args: argparse.Namespace, file: PgnFile | None, tags: dict[str, str],
            output: _Output, notes: _Output) -> bool:
    """Records the games on the board. Returns whether the file contains all of them."""
    games = Games(output.say, lambda text: notes.say(f"dgt-game: {text}"), file, tags,
                  args.white_clock, args.fen, args.port)
    try:
        with follow(args.port, args.period or _PERIOD, patience=PATIENCE, mode=Mode.UPDATE_NICE,
                    confirm=True) as board:
            _record(board, games, output, notes, args.demo)
    finally:
        is_whole = games.close()
    return is_whole


def _read_log(args: argparse.Namespace, file: PgnFile | None, tags: dict[str, str],
              output: _Output, notes: _Output) -> bool:
    """Reads the games of the board's log. Returns whether the file contains all of them."""
    stop = stopping()
    log = ask_for_log(args.port, stop)
    logged = LoggedGames(output.say, lambda text: notes.say(f"dgt-game: {text}"), tags,
                         args.white_clock)
    logged.read(log)
    while not output.send(_OUTPUT_WAIT) and not output.fault and not has_input(stop, 0.0):
        pass  # its reader is slow
    if file is None:
        return True
    for game in logged.games:
        file.put(game.text(), file.begin())
    try:
        file.save()
    except OSError as refused:
        notes.say(f"dgt-game: {file.name} can't be written: {refused.strerror or refused}\n"
                  f"dgt-game: {file.name} lacks this:\n{file.unsaved}")
        return False
    return True


def main(arguments: list[str] | None = None) -> None:
    """Runs the program `dgt-game` with these arguments, or those of the process."""
    args = _read_args(arguments)
    output, notes = _Output(1), _Output(2)
    tags = {name.capitalize(): value for name in _TAGS
            if (value := getattr(args, name)) is not None}
    what, is_whole = args.pgn, False
    try:
        file = None if args.pgn is None else PgnFile(args.pgn)
        with contextlib.ExitStack() as room:
            if args.demo:
                demo = room.enter_context(contextlib.closing(_demo.Demo(args.fast)))
                args.port, tags = demo.port, _demo.TAGS | tags
            what = args.port = chosen_port("dgt-game", args.port)
            is_whole = (_read_log if args.log else _follow)(args, file, tags, output, notes)
    except Stopped:
        pass
    except BadFen as wrong:
        notes.say(f"dgt-game: {wrong}")
    except NoLog as fault:
        notes.say(f"dgt-game: {what}: {fault}")
    except OSError as refused:
        notes.say(f"dgt-game: {what}: {refused.strerror or refused}")
    finally:
        if not output.send(1.0):
            notes.say(f"dgt-game: standard output: {output.fault or 'nobody reads it'}")
            is_whole = False
        notes.send(1.0)
    sys.exit(not is_whole)
