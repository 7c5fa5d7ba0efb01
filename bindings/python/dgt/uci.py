"""Plays the moves that you make on a board, as a UCI engine.

Example:
  $ xboard -fcp dgt-uci -fUCI -scp fairymax -mode TwoMachines

A chess program starts it like any engine: `dgt-uci`, or `python3 -m dgt uci`.
It opens the port when the chess program sends the first position, and closes it
at the end. Without a PORT it looks for the only board every two seconds.
Instructions appear as `info string` and on standard error. The board's clock
shows the other side's moves.

To promote, put the new piece on the last rank. A rook counts as a rook even
upside down. For a queen you may also leave the pawn there for two seconds.

Options that the chess program shows in its engine settings:

    Port     the board's serial port; without it, the only board's
    Turned   whether White's pieces begin on the board's ranks 8 and 7: no, yes,
             or auto, which decides by the position on the board
    Settle   the milliseconds that a move has to rest
    Clock    whether the clock shows the other side's moves
"""

import argparse
import contextlib
import errno
import os
import select
import signal
import time
from collections.abc import Callable

from . import _port, following
from ._board_with_clock import BoardWithClock
from ._manual import make_parser
from ._turn import Turn
from .errors import BadFen, IllegalMove
from .following import BoardView
from .rules import START_FEN, GameState
from .serial_ports import find_port

_PERIOD = 2.0
"""The seconds between two requests for all squares."""
_ASK_AGAIN = 0.2
"""The same while the board shows a legal move, since `stop` may arrive."""
_CONFIRMED = 0.25
"""The seconds for which a dump confirms a position when `stop` arrives."""
_STOP_WAIT = 0.04
"""The most seconds that `stop` waits for a dump."""
_LOOK = 2.0
"""The seconds between two looks for the only board."""
_LONGEST_LINE = 1 << 20
_EMPTY = "<empty>"
_TURNED = ("auto", "no", "yes")
_SETTLE = (50, 300, 5000)
"""The least, the default and the greatest rest of a move, in milliseconds."""
_WORDS = ("uci", "isready", "setoption", "ucinewgame", "position", "go", "stop", "ponderhit",
          "quit", "debug", "register")
_NO_MOVE = "0000"
_OWN_WORDS = {
    _port._ADVICE[errno.EACCES]: "this user may not open it (join the group dialout)",
    **{text: text for text in (following._GONE, following._SILENT, following._OTHER_SIZE)},
    **{text: text for number, text in _port._ADVICE.items() if number != errno.EACCES},
}
"""The texts for a board that is away. xboard ends an engine that prints a text of the system such
as `Permission denied`, so none of these is printed."""


def _why(away: str) -> str:
    return _OWN_WORDS.get(away, "it can't be opened")


def _print(line: str) -> None:
    """Prints a line at once. The program ends if nobody reads it."""
    try:
        print(line, flush=True)
    except BrokenPipeError:
        os.dup2(os.open(os.devnull, os.O_WRONLY), 1)
        raise SystemExit(0) from None


def _warn(text: str) -> None:
    """Prints a text on standard error, unless that is the same file as standard output or would
    block."""
    with contextlib.suppress(OSError):
        poll = select.poll()
        poll.register(2, select.POLLOUT)
        if not os.path.sameopenfile(1, 2) and poll.poll(0):
            os.write(2, f"dgt-uci: {text}\n".encode(errors="replace")[:select.PIPE_BUF])


def _time_text(milliseconds: str) -> str:
    seconds = max(0, int(milliseconds)) // 1000
    return f"{seconds // 3600}:{seconds // 60 % 60:02}:{seconds % 60:02}"


def _is_number(word: str) -> bool:
    digits = word.removeprefix("-")
    return digits.isascii() and digits.isdigit() and len(digits) < 16


class Game:
    """The position that the chess program has set, and the move before it."""

    def __init__(self) -> None:
        self.state: GameState | None = None
        self.before: GameState | None = None
        """The position before the last move, if that is known."""
        self.first: GameState | None = None
        self.last_move: str | None = None
        """The last move, if it is known."""
        self._fen, self._moves = "", list[str]()

    def set(self, words: list[str]) -> None:
        """Sets the position from the words after `position`. `BadFen` or `IllegalMove` if they
        aren't valid: then there is no position."""
        at = words.index("moves") if "moves" in words else len(words)
        where, moves = words[:at], words[at + 1:]
        fen = START_FEN if where[:1] == ["startpos"] else " ".join(where[1:])
        if where[:1] not in (["startpos"], ["fen"]):
            raise BadFen("neither startpos nor fen")
        if fen != self._fen or moves[:len(self._moves)] != self._moves or self.state is None:
            self.state = None
            self.first, self.before, self.last_move = GameState.parse(fen), None, None
            self._fen, self._moves, state = fen, [], self.first
        else:
            state, self.state = self.state, None
        for move in moves[len(self._moves):]:
            self.before, state, self.last_move = state, state.after(move), move
        self.state, self._moves = state, moves

    def forget(self) -> None:
        self.state = None


class Engine:
    """Obeys the lines of a chess program, and prints the answers. Times are those of
    `time.monotonic`."""

    def __init__(self, port: str = "", period: float = _PERIOD,
                 say: Callable[[str], None] = _print) -> None:
        self.port, self._period, self._say = port, period, say
        self.line: BoardWithClock | None = None
        self._name, self._look_at = "", float("-inf")
        self.is_over = False
        self._turn_setting, self._is_turned = "auto", False
        self._settle, self._shows_moves = _SETTLE[1] / 1000, True
        self._is_greeted, self._kept = False, list[str]()
        self._faulty = self._away = ""
        self._game, self._turn = Game(), None
        self._answered: GameState | None = None
        self._was_shown: set[str] = set()
        self._other: str | None = None
        self._begin()

    _turn: Turn | None

    def _begin(self) -> None:
        """Ends the search for a move."""
        self._goes = self._is_held = False
        self._asked_at = self._hit_at = float("-inf")
        self._told = ""

    # ---- Lines of the chess program

    def obey(self, text: str, now: float) -> None:
        """Obeys a line. Words before a known one are ignored, and a line without one is, too."""
        words = text.split()
        while words and words[0] not in _WORDS:
            words.pop(0)
        if not words:
            return
        word, *rest = words
        match word:
            case "uci":
                self._greet()
            case "isready":
                self._say("readyok")
            case "setoption":
                self._set_option(text.partition("setoption")[2])
            case "ucinewgame":
                self._begin()
                self._answered = None
            case "position":
                self._set_position(rest, now)
            case "go":
                self._go(rest, now)
            case "stop":
                self._stop()
            case "ponderhit":
                self._hit(now)
            case "quit":
                self.is_over = True

    def _greet(self) -> None:
        least, default, most = _SETTLE
        turned = " ".join(f"var {each}" for each in _TURNED)
        port = " ".join(self.port.split()) or _EMPTY
        for line in ("id name DGT board", "id author the authors of dgt",
                     f"option name Port type string default {port}",
                     f"option name Turned type combo default {_TURNED[0]} {turned}",
                     f"option name Settle type spin default {default} min {least} max {most}",
                     "option name Clock type check default true", "uciok"):
            self._say(line)
        self._is_greeted = True
        kept, self._kept = self._kept, []
        for text in kept:
            self._inform(text)

    def _set_option(self, text: str) -> None:
        name, _, value = text.partition(" name ")[2].partition(" value ")
        name, value = name.strip().lower(), value.strip()
        if name == "port":
            self._set_port("" if value == _EMPTY else value)
        elif name == "turned" and value.lower() in _TURNED:
            self._turn_setting = value.lower()
            self._is_turned = self._turn_setting == "yes"
        elif name == "settle" and _is_number(value) and _SETTLE[0] <= int(value) <= _SETTLE[2]:
            self._settle = int(value) / 1000
        elif name == "clock" and value.lower() in ("true", "false"):
            self._shows_moves = value.lower() == "true"
        else:
            self._inform(f"unknown option {name!r}, or wrong value {value!r}")

    def _set_port(self, port: str) -> None:
        if port != self.port:
            self.close()
            self.port, self._faulty, self._look_at = port, "", float("-inf")

    def _set_position(self, words: list[str], now: float) -> None:
        self._begin()
        self._turn = self._other = None
        self.open()
        try:
            self._game.set(words)
        except (BadFen, IllegalMove) as wrong:
            self._game.forget()
            self._answered = None
            self._inform(f"this position isn't understood: {str(wrong)[:200]}")
            return
        state, before, self._other = self._game.state, None, self._game.last_move
        assert state is not None
        # A program may send only a FEN: the changes then show the other side's move.
        if self._answered is not None:
            move = self._answered.chess.move_to(state.chess.position)
            if move and self._answered.white != state.white:
                self._other, before = move, self._answered.letters
        self._turn = Turn(state, self._settle, before)
        self._turn.is_set_up = state.letters in self._was_shown
        if self.line is not None:
            self._look(self.line.view, now)

    def _go(self, words: list[str], now: float) -> None:
        self._begin()
        if self._turn is None:
            self._inform("the chess program has requested a move, but no position is set")
            self._end(_NO_MOVE)
            return
        only = words[words.index("searchmoves") + 1:] if "searchmoves" in words else []
        self._turn.await_moves(tuple(only))
        self._turn.ask(now)
        self._goes, self._is_held = True, not {"infinite", "ponder"}.isdisjoint(words)
        self._tell_times(words)
        self._show_move()
        self.work(now)

    def _show_move(self) -> None:
        """Shows the other side's move on the clock while a move is requested."""
        if self._goes and self._other and self._shows_moves and self.line is not None:
            self.line.shown_move.show(self._other)

    def _tell_times(self, words: list[str]) -> None:
        """Prints the other side's move, and the remaining times."""
        pairs = dict(zip(words, words[1:]))
        times = [f"{side} {_time_text(pairs[word])}" for side, word in
                 (("white", "wtime"), ("black", "btime"), ("this move", "movetime"))
                 if _is_number(pairs.get(word, ""))]
        moved = f"the other side has moved {self._other}" if self._other else "make a move"
        if self._other or times:
            self._inform(f"{moved}{' (' + ', '.join(times) + ')' if times else ''}")

    def _stop(self) -> None:
        """Plays the move on the board, if the board has just confirmed it."""
        if not self._goes or self._turn is None:
            return
        if self._turn.shown and self.line is not None:
            for view in self.line.ask_until(time.monotonic() + _STOP_WAIT):
                self.see(view, time.monotonic())
        move = self._turn.shown
        if move is None:
            self._inform("no move was made on the board")
        elif not self._is_confirmed(time.monotonic()):
            self._inform(f"the board hasn't confirmed {move}")
            move = None
        self._end(move or _NO_MOVE)

    def _is_confirmed(self, now: float) -> bool:
        """Whether a dump has just confirmed the position."""
        line = self.line
        return bool(line and line.view.confirmed and now <= line.confirmed_at + _CONFIRMED)

    def _hit(self, now: float) -> None:
        """Requests the move that the program pondered. If it was made, it is confirmed again."""
        self._is_held, self._told, self._hit_at = False, "", now

    # ---- Messages

    def _inform(self, text: str) -> None:
        """Prints a message for the player, but nothing before `uciok`."""
        if not self._is_greeted:
            self._kept.append(text)
            return
        line = " ".join(text.split())
        self._say(f"info string {line}")
        _warn(line)

    def _end(self, move: str) -> None:
        """Answers `go`."""
        self._begin()
        legal = self._turn.legal if self._turn else {}
        self._answered = legal.get(move)
        self._was_shown.clear()
        if self.line is not None:
            self.line.shown_move.end()
        self._say(f"bestmove {move}")

    # ---- The board

    def open(self) -> None:
        """Opens the port, or that of the only board. Prints a fault once."""
        if self.line is not None:
            return
        self._name, fault = self.port, ""
        try:
            self._name = self.port or find_port()
            self.line = BoardWithClock(self._name, self._period)
        except OSError as refused:
            why = refused.strerror or ""
            fault = f"{self._name}: {_why(why)}" if self._name else \
                    f"{why} (start dgt-uci with it, or set the option Port)"
        except ValueError:
            fault = f"not the name of a port: {self.port!r}"
        if fault and fault != self._faulty:
            self._inform(fault)
        self._faulty, self._away = fault, ""

    def _look_for_board(self, now: float) -> float | None:
        """Opens the port of the only board, if it is there now and no port is named. Returns the
        time of the next look."""
        if self.port or self.line is not None or self._turn is None:
            return None
        if now >= self._look_at:
            self._look_at = now + _LOOK
            self.open()
            self._show_move()
        return None if self.line is not None else self._look_at

    def close(self) -> None:
        if self.line is not None:
            self.line.close()
            self.line = None

    def see(self, view: BoardView, now: float) -> None:
        away = view.away or ""
        if away != self._away:
            self._inform(f"{self._name}: {_why(away) if away else 'the board is back'}")
            self._away = away
        self._look(view, now)

    def _look(self, view: BoardView, now: float) -> None:
        if self._turn is None or view.picture is None:
            return
        letters = view.picture.letters
        if self._turn_setting == "auto" and not self._turn.is_set_up:
            self._orient(letters)
        letters = letters[::-1] if self._is_turned else letters
        self._was_shown.add(letters)
        self._turn.see(letters, now, not view.in_doubt)

    def _orient(self, letters: str) -> None:
        """Decides whether the board is turned: it is if it shows, turned, exactly the position, the
        one before the last move, or the first one of the game."""
        game = self._game
        known = [each.letters for each in (game.state, game.before, game.first) if each]
        if letters in known:
            self._is_turned = False
        elif letters[::-1] in known:
            self._is_turned = True

    # ---- Due actions

    def work(self, now: float) -> float | None:
        """Does everything due, and returns the time of the next call."""
        look = self._look_for_board(now)
        due = self._await_move(now) if self._goes else None
        clock = self.line.tend_clock(now) if self.line is not None else None
        return min((each for each in (look, due, clock) if each is not None), default=None)

    def _await_move(self, now: float) -> float | None:
        turn = self._turn
        assert turn is not None
        if not turn.legal:
            if not self._is_held:
                self._inform("mate" if turn.state.check else "stalemate")
                self._end(_NO_MOVE)
            return None
        if turn.due is not None:
            return self._confirm(turn, turn.due, now)
        text, due = turn.hint(now)
        if text:
            self._inform(text)
        return due

    def _confirm(self, turn: Turn, rested_at: float, now: float) -> float | None:
        """Plays the move on the board once it has rested and a later dump has confirmed it: the
        last messages may have been lost. While the program ponders, the move is only named. Dumps
        are requested all the time, since `stop` may arrive."""
        move, line, since = turn.shown, self.line, max(rested_at, self._hit_at)
        if move is None or line is None:
            return None
        if now >= since and line.has_confirmed(since) and self._told != move:
            if not self._is_held:
                self._end(move)
                return None
            self._told = move
            self._inform(f"{move} was made on the board")
        if now >= self._asked_at + _ASK_AGAIN or self._asked_at < since <= now:
            self._asked_at = now
            line.follower.ask_now()
        return min(each for each in (since, self._asked_at + _ASK_AGAIN) if each > now)


def _serve(engine: Engine) -> None:
    """Obeys the lines of standard input, and serves the board meanwhile."""
    rest = b""
    while not engine.is_over:
        due = engine.work(time.monotonic())
        if engine.line is None:
            left = 3600.0 if due is None else due - time.monotonic()
            _port.has_input(0, max(0.0, left))
        elif view := engine.line.wait(until=due, wakes=0):
            engine.see(view, time.monotonic())
        if not _port.has_input(0, 0.0):
            continue
        chunk = os.read(0, 65536)
        if not chunk:
            break
        *lines, rest = (rest + chunk).split(b"\n")
        rest = rest[-_LONGEST_LINE:]
        for line in lines:
            engine.obey(line.decode(errors="replace"), time.monotonic())
            if engine.is_over:
                break


def period(text: str) -> float:
    """Reads the seconds of `--period`."""
    with contextlib.suppress(ValueError):
        if 1 <= (seconds := float(text)) <= 3600:
            return seconds
    raise argparse.ArgumentTypeError(f"not a number of seconds from 1 to 3600: {text!r}")


def main(arguments: list[str] | None = None) -> None:
    """Runs the program `dgt-uci` with these arguments, or those of the process."""
    parser = make_parser("dgt-uci", __doc__)
    parser.add_argument("port", nargs="?", default="",
                        help="the board's serial port, such as /dev/ttyUSB0 (that of the only "
                        "board)")
    parser.add_argument("--period", type=period, default=_PERIOD, metavar="SECONDS",
                        help="the time between two requests for all squares (%(default)s)")
    args = parser.parse_args(arguments)
    signal.signal(signal.SIGINT, signal.SIG_DFL)
    engine = Engine(args.port, args.period)
    try:
        _serve(engine)
    finally:
        engine.close()
