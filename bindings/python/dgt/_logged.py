"""The log that a board keeps while no host listens, and the games in it."""

import time
from collections.abc import Callable, Sequence
from dataclasses import replace

from ._port import Port, has_input
from ._session import FAULTS
from .clock_side import SIDES, WhiteClock
from .decoder import Decoder
from .events import Other
from .following import BoardView
from .games import Games
from .pgn import PgnGame
from .rules import START_FEN
from .stored import STORED_REQUEST, Mark, StoredPiece, StoredTime, UnknownByte, read_stored
from .values import SQUARES, Position, Time, Times

_LOG = 0x0F
"""The code of a message with the log."""
_BEGINS = bytes(255) + b"\x40"
"""Ends an unfinished command, and stops all other reports."""
SILENCE = 5.0
"""After this many seconds without a byte the board sends no log, or has sent all of it."""
_AFTER = 1.0
"""The same once a message with a part of the log is complete: another may follow."""
_LONGEST = 60.0
"""The most seconds for a message with the log. The longest one takes 17."""
_LOOK = 0.1
"""The seconds between two looks for a signal."""
_TRIES = 3
_SLID, _STEP, _LONG_STEP, _REST = 0.1, 0.4, 1.0, 4.0
"""The assumed rest of a position, in seconds: before the piece that was put down last is lifted
again; before any other change or a time; the same if something is due until then; before the
position becomes unknown."""
_WHY = {Mark.POWER_UP: "broken off: the board was switched on after this",
        Mark.WATCHDOG: "broken off: the board restarted after this", Mark.END: ""}
_GAP = "broken off: the log lacks moves after this"
_UNTOLD = "no moves lead to the positions in the log after this"
_MOST_UNKNOWN = 20
_CENTRE = (27, 28, 35, 36)
"""The squares on which both kings give a result."""
_STARTS = {Mark.BEGIN: Position.start().letters, Mark.TURNED_BEGIN: Position.start().letters[::-1],
           Mark.EMPTY_BOARD: "." * 64}


# ---- Requesting it


class NoLog(Exception):
    """The board hasn't sent a complete log. The text says what to do."""


class Stopped(Exception):
    """A signal has stopped the program."""


def ask_for_log(name: str, stop: int) -> bytes:
    """Returns the log of the board on a port: the bodies of its messages, in order. If the line
    alters or loses bytes, the log is requested up to three times. `NoLog` if the board sends none,
    `Stopped` once the descriptor has something to read, `OSError` if the port can't be opened or
    disappears."""
    port = Port(name, stop)
    try:
        for _ in range(_TRIES):
            body, fault = _heard(port, stop)
            if not fault:
                return body
    finally:
        port.close()
    raise NoLog(f"the line altered or lost bytes in each of {_TRIES} attempts: {fault}. Try "
                "another cable or socket, without a hub")


def _heard(port: Port, stop: int) -> tuple[bytes, str]:
    """Requests the log. Returns it, and the fault that was noticed, if any."""
    decoder, bodies, fault = Decoder(), list[bytes](), ""
    port.write(_BEGINS + STORED_REQUEST)
    begun = heard = now = time.monotonic()
    while now < min(begun + _LONGEST,
                    heard + (_AFTER if bodies and not decoder.unread else SILENCE)):
        try:
            chunk = port.exchange(_LOOK)
        except OSError:
            if bodies and not decoder.unread:
                break  # the log was complete
            raise
        if has_input(stop, 0.0):
            raise Stopped
        now = time.monotonic()
        heard = now if chunk else heard
        for event in decoder.feed(chunk):
            if isinstance(event, Other) and event.code == _LOG:
                bodies.append(event.body)
                begun = now
            elif isinstance(event, FAULTS):
                fault = str(event)
        if port.is_disturbed(now):
            fault = "the system has counted errors"
    if decoder.unread:
        fault = fault or f"a message was cut off after {decoder.unread} bytes"
    if not bodies and not fault:
        raise NoLog(f"the board sent no log within {SILENCE:g} seconds. Not every board keeps one. "
                    "Switch it off and on, and try again; dgt-doctor checks whether it answers")
    return b"".join(bodies), fault


# ---- Its games


class LoggedGames:
    """Makes games from a log. `tell`, `warn` and `white_clock` are those of `Games`. `games` lists
    the games with a move or a result."""

    def __init__(self, tell: Callable[[str], None], warn: Callable[[str], None],
                 tags: dict[str, str], white_clock: str) -> None:
        self.games = list[PgnGame]()
        self._tell, self._warn, self._white_clock = tell, warn, white_clock
        self._tags = {"Date": "????.??.??", **tags}
        self._keeper: Games | None = None
        self._game: PgnGame | None = None
        self._letters = ""  # the pieces on the squares, or "" if unknown
        self._put = -1  # the square where a piece was put down last
        self._is_put = self._is_elsewhere = False
        self._now = self._shown_at = 0.0
        self._left = list[Time | None]([None, None])  # the time of each side of the clock
        self._begun_with: Sequence[Time | None] = self._left[:]
        self._learner = WhiteClock()
        self._outside, self._unknown = list[int](), list[str]()

    def read(self, body: bytes) -> None:
        """Makes the games of a complete log."""
        place = 0
        for stored in read_stored(body):
            if isinstance(stored, StoredPiece):
                self._change(SQUARES.index(stored.square), stored.piece, place)
            elif isinstance(stored, StoredTime):
                self._note_time(stored.time)
            elif isinstance(stored, UnknownByte):
                self._unknown.append(f"{stored.byte:02x} at {place}")
            elif stored in _WHY:
                self._end(_WHY[stored])
            elif stored in _STARTS and self._letters != _STARTS[stored]:
                self._end(_GAP)
                self._begin(_STARTS[stored])
            place += 2 if isinstance(stored, StoredPiece) else 3 if isinstance(stored, StoredTime) \
                else 1
        self._end("")
        self._report(place)

    def _report(self, size: int) -> None:
        """Warns of the parts of the log that are in no game."""
        if not size:
            self._warn("the log is empty")
        if self._unknown:
            more = len(self._unknown) - _MOST_UNKNOWN
            listed = ", ".join(self._unknown[:_MOST_UNKNOWN])
            self._warn(f"unknown bytes in the log were ignored: {listed}"
                       + (f" and {more} more" if more > 0 else ""))
        if self._outside:
            self._warn(f"{len(self._outside)} changes of squares belong to no game, from byte "
                       f"{self._outside[0]} of the log on: the position is unknown there")

    def _begin(self, letters: str) -> None:
        """The board shows this position, whatever it showed before."""
        # Only the usual starting position may begin a game.
        self._keeper = Games(self._tell_made, lambda _: None, None, self._tags, self._side,
                             START_FEN)
        self._letters, self._put = letters, -1
        self._now += _REST
        self._show()

    def _tell_made(self, line: str) -> None:
        """Prints a line of the keeper, but for those of games that begin elsewhere. No position is
        `lost` for its rest, which is assumed."""
        what, _, rest = line.partition(" ")
        if what == "game":
            self._finish("")
            self._is_elsewhere = rest != START_FEN
        if not self._is_elsewhere and what not in ("lost", "found", "gap", "broken"):
            self._tell(line)

    def _show(self) -> None:
        """Passes the position and the clock to the keeper."""
        assert self._keeper is not None
        first, second = self._left
        clock = Times(first, second) if first and second else None
        position = Position.of_letters(self._letters)
        self._keeper.see(BoardView(position, clock, confirmed=True), self._now)
        self._look()

    def _change(self, square: int, piece: str, place: int) -> None:
        if self._keeper is None:
            self._outside.append(place)
            return
        if square == self._put and piece == ".":
            self._wait(self._now + _SLID)
        else:
            self._step()
        self._letters = self._letters[:square] + piece + self._letters[square + 1:]
        self._is_put = piece != "."
        self._put = square if self._is_put else self._put
        self._shown_at = self._now
        self._show()
        if sum(self._letters[at] in "Kk" for at in _CENTRE) == 2:
            self._rest()

    def _wait(self, until: float) -> None:
        """Handles that nothing changes until this time."""
        keeper = self._keeper
        while keeper is not None and keeper.due is not None and keeper.due <= until:
            keeper.tick(keeper.due)
            self._look()
        self._now = max(self._now, until)

    def _step(self) -> None:
        """Lets the position rest: for longer if something is due, and a piece was put down last.
        Lifted pieces may look as if one had taken another."""
        due = self._keeper.due if self._keeper and self._is_put else None
        is_long = due is not None and due <= self._shown_at + _LONG_STEP
        self._wait(self._shown_at + (_LONG_STEP if is_long else _STEP))

    def _rest(self) -> None:
        """Lets the position rest for a long time, unless a piece is in the hand."""
        self._wait(self._shown_at + (_REST if self._is_put else _STEP))

    def _look(self) -> None:
        """Notes the game in progress."""
        assert self._keeper is not None
        game = None if self._is_elsewhere else self._keeper.game
        if game is not self._game:
            self._game, self._begun_with = game, self._left[:]
            self._learner = WhiteClock()

    def _note_time(self, left: Time) -> None:
        """Lets the position rest, and notes the time of one side of the clock. If a side's time has
        changed after a move, it is the side of the move's player."""
        self._step()
        side, left = left.flags - 6, replace(left, flags=0)
        if left == self._left[side]:
            return
        if self._game is not None and self._game.moves and self._left[side] is not None:
            self._learner._turns[len(self._game.moves)] = self._game.moves[-1].before.white, side
        self._left[side] = left
        if self._keeper is not None:
            if self._side != self._keeper.white_clock:
                self._keeper.white_clock = self._side
            self._show()

    @property
    def _side(self) -> str:
        """White's side of the clock."""
        is_learned = self._white_clock == "learn"
        return self._learner.side or SIDES[0] if is_learned else self._white_clock

    def _end(self, why: str) -> None:
        """Notes that the position is unknown from here on."""
        self._rest()
        self._finish(why)
        self._keeper, self._game, self._letters = None, None, ""

    def _finish(self, why: str) -> None:
        """Ends the game. Without a result, a comment says why."""
        game, self._game = self._game, None
        if game is None:
            return
        self._set_clocks(game)
        if game.result == "*":
            is_untold = game.comment or self._keeper and self._keeper._is_lost
            game.comment = _UNTOLD if is_untold else why if game.moves else ""
            if game.comment:
                self._tell("broken off")
        if game.moves or game.result != "*":
            self.games.append(game)

    def _set_clocks(self, game: PgnGame) -> None:
        """Sets each move's clock to its player's time, if that was stored after the move before:
        then it is another object."""
        before = self._begun_with
        for made in game.moves:
            of = int(made.before.white != (self._side == SIDES[0]))
            shown = [made.times.first, made.times.second] if made.times else before
            made.clock = None if shown[of] is before[of] else shown[of]
            before = shown
