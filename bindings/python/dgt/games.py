"""Makes games from the positions and the clock of a board."""

import time
from collections import deque
from collections.abc import Callable, Sequence
from dataclasses import replace
from typing import Protocol

from ._after_result import AfterResult
from ._handle import Uncopied
from ._turn import to_put
from ._watched import Watched
from .chess import State
from .clock_side import SIDES, WhiteClock
from .errors import BadValue
from .following import BoardView
from .pgn import RESULTS, PgnGame, PgnMove, _GameText, numbered
from .recogniser import Back, Begun, Ended, Found, GameEvent, Gap, Lost, Made, Unseen
from .rules import START_FEN, GameState
from .values import SQUARES, Clock, Time, Times, checked

_FINAL_WAIT = 10.0
"""The seconds in which the clock of a mate or stalemate may be pressed or stopped."""
_CLOCK_WAIT = 2.0
"""The seconds after which the last move's time is written to the file."""
_LOST_WAIT, _SETTING_UP_WAIT = 3.0, 10.0
"""The seconds after which a lost game is reported: later if more than `_MOST_WRONG` squares are
wrong, since somebody may be setting up pieces."""
_MOST_WRONG = 4
_MOST_SEEN = 256
_KEPT = 15
"""The half-moves before a result that are looked for afterwards, if they are taken back."""
_BROKEN_OFF = "broken off: the board was away, and came back with another position"
_LOST = "broken off: no move leads to the position after this"
_GAP = "broken off: the board did not show the order of the next {} half-moves"
_PARTED = "the next game goes on from the position {}"
_NEXT = " (start the program again to begin one here)"
_SOON = 1.5
"""The seconds within which hands that set up pieces go on."""
_START = GameState.start()


class GameStore(Protocol):
    """Stores the texts of a board's games: a `PgnFile`, or a similar object."""

    @property
    def name(self) -> str:
        """Its name in warnings."""

    @property
    def unsaved(self) -> str:
        """The games that have changed since `save`."""

    def begin(self) -> object:
        """Begins a game. From now on `put` sets the text of this one."""

    def put(self, text: str) -> None:
        """Sets the text of the game."""

    def save(self) -> None:
        """Stores the texts. `OSError` if that fails; the next move calls it again."""


class Games(Uncopied):
    """The games on a board. Pass each view of the board to `see`, from `follow` or another source,
    and call `tick` at the time `due`. Unconfirmed moves are reported later: see `unconfirmed`.
    `tell` gets the lines that `dgt-game` prints, and `warn` gets warnings.

    >>> lines = []
    >>> games = Games(lines.append, print)
    >>> start, lifted, put = (Position.parse(f"rnbqkbnr/pppppppp/8/8/{ranks}/RNBQKBNR") for ranks in
    ...                       ("8/8/PPPPPPPP", "8/8/PPPP1PPP", "4P3/8/PPPP1PPP"))
    >>> for time, position in enumerate((start, lifted, put)):
    ...     games.see(BoardView(position, confirmed=True), float(time))
    the board shows rnbqkbnr/pppppppp/8/8/8/8/PPPPPPPP/RNBQKBNR
    >>> games.tick(games.due)
    >>> lines[1:], games.game.moves[-1].san
    (['1. e4 e2e4'], 'e4')

    Times are in seconds, for instance of `time.monotonic`."""

    def __init__(self, tell: Callable[[str], None], warn: Callable[[str], None],
                 file: GameStore | None = None, tags: dict[str, str] | None = None,
                 white_clock: str = "left", fen: str | None = None, port: str = "") -> None:
        """`file` gets each game as PGN, with these tags. `white_clock` is the side of the clock
        that has White's time, `left` or `right`; with `learn` it is found for each game, and is
        left until then. With a FEN, the first game begins when the board shows its position, also
        turned. `port` names the board in warnings. `BadFen` if the FEN is invalid, `BadValue` if
        the side is."""
        self._is_white_left, self._learns = _is_left(white_clock), white_clock == "learn"
        self._learner, self._fallen = WhiteClock(), set[str]()
        self._watched = Watched()
        self._first = None if fen is None else GameState.parse(fen)
        self.game: PgnGame | None = None
        self._text = _GameText(PgnGame())
        self._port = port
        self._tell, self._warn, self._file, self._tags = tell, warn, file, tags or {}
        self._view, self._letters, self._changed_at, self._away = BoardView(), "", 0.0, ""
        self._clock: Times | None = None
        # The positions since the last move, with the clock of that time.
        self._seen: deque[tuple[str, Times | None]] = deque(maxlen=_MOST_SEEN)
        self._settled = 0  # the number of moves with a clock
        self._fixed = 0  # the number of moves with a final clock, whatever is taken back
        self._is_new, self._was_away, self._was_empty = True, False, False
        self._hidden = ""  # what the board shows, if a correction says something else
        self._over, self._final_at = "", 0.0  # why the game is over
        self._after: AfterResult | None = None  # until the board goes on after the result
        self._goes_on = False
        self._lost, self._advice, self._is_lost = dict[str, str](), "", False
        self._lost_at: float | None = None
        self._back = list[PgnMove]()  # moves that were taken back, the first one last
        self._held = 0  # how many moves the file keeps, whatever is taken back
        self._was = "*", ""  # the result before moves were taken back, and why
        self._is_back_now, self._back_at, self._is_left_soon = False, -_SOON, False
        self._is_branch = False
        # After the game's last move: half-moves in an unknown order, and the state after them.
        self._gaps: list[tuple[int, GameState]] = []
        self._save_at: float | None = None
        self._is_in_file, self._fault = False, ""

    @property
    def due(self) -> float | None:
        """The time at which to call `tick`."""
        times = [self._watched.due, self._save_at, self._lost_at,
                 self._after.due if self._after else None]
        return min((each for each in times if each is not None), default=None)

    @property
    def unconfirmed(self) -> bool:
        """Whether something waits for a confirmation of the picture. `Follower.ask_now` requests
        one at once. A source without confirmations has to mark each sure view as confirmed."""
        return self._watched.unconfirmed

    @property
    def turned(self) -> bool:
        """Whether White's pieces began on the ranks 8 and 7 of the board."""
        return self._watched.turned

    @property
    def lost(self) -> dict[str, str]:
        """The squares to put right, each with the letter of the piece that belongs there, or `.`,
        since the board has rested in a position that no move leads to. Empty if the game is over,
        or has gone on, or the board has shown its position again."""
        return {} if self._over else dict(self._lost)

    @property
    def is_branch(self) -> bool:
        """Whether the game goes on from moves of the one before, which the file keeps as it was
        before others were taken back."""
        return self._is_branch

    @property
    def goes_on(self) -> bool:
        """Whether two or more half-moves were made after the result. They are in no game: that is
        an analysis, or the result was a mistake. `end` with `*` takes it back."""
        return self._goes_on

    @property
    def advice(self) -> str:
        """What to put where while the game is `lost`, such as `put the white knight from g3 on f3`.
        Otherwise empty."""
        return self._advice if self.lost else ""

    def see(self, view: BoardView, now: float) -> None:
        """Notes the view from this time on. `TypeError` if it isn't a `BoardView`."""
        self._view = checked(view, BoardView)
        self._note_away(view)
        self._note_clock(view.clock, now)
        letters = view.picture.letters if view.picture else ""
        if letters and letters != self._letters:
            self._is_left_soon |= now < self._back_at + _SOON
            self._letters, self._changed_at = letters, now
            self._seen.append((letters, self._clock))
        is_sure = bool(letters) and not view.in_doubt and not view.away
        if is_sure and self._is_new:
            self._warn(f"the board shows {view.picture}")
            self._is_new = False
        self._was_away |= bool(view.away)
        self._look_for_first(is_sure, now)
        if self._first is None and (not self._hidden or letters != self._hidden):
            self._hidden = ""
            self._take(self._watched.see(view, now), now)
        if self._after is not None:
            self._note_going_on(self._after.see(view, now))
        if is_sure:
            if self._over == "arbiter" and self._was_empty and self._shown == _START.letters:
                self._begin_next([], now)  # for the recogniser nothing may have changed
            self._was_away &= not self._is_as_told
            self._was_empty |= self._has_no_kings
            self._learner.see(self._shown, self._clock)
        self._await_loss(is_sure)
        self._learn()

    def tick(self, now: float) -> None:
        """Notes that the board hasn't changed until this time."""
        self._take(self._watched.tick(now), now)
        if self._after is not None:
            self._note_going_on(self._after.tick(now))
        self._learn()
        if self._lost_at is not None and now >= self._lost_at:
            self._lost_at = None
            self._lose()
        if self._save_at is not None and now >= self._save_at:
            self._save()

    def set_tags(self, tags: dict[str, str], is_for_this: bool) -> None:
        """Sets tags of the games that begin from now on, and with `is_for_this` also of the present
        game. An empty text removes a tag."""
        self._tags = _with(self._tags, tags)
        if is_for_this and self.game is not None:
            self.game.tags = _with(self.game.tags, tags)
            self._save()

    @property
    def white_clock(self) -> str:
        """The side of the clock that has White's time, `left` or `right`. You may set it at any
        time, also to `learn`: it changes the clocks of all moves of the game. `BadValue` if it
        isn't a side."""
        return SIDES[not self._is_white_left]

    @white_clock.setter
    def white_clock(self, side: str) -> None:
        is_left, self._learns = _is_left(side), side == "learn"
        if not self._learns:
            self._set_side(is_left)
        self._learn()

    def _set_side(self, is_left: bool) -> None:
        self._is_white_left = is_left
        for made in self.game.moves if self.game else ():
            made.clock = self._left(made.times, made) or made.clock
        self._text.change(0)
        self._save()

    def replace(self, ply: int, count: int, moves: Sequence[str], now: float) -> None:
        """Replaces moves like `PgnGame.replace`, with its errors, and `BadValue` if there is no
        game. The board's position counts again from the next `see`. If moves are only deleted, or
        the board shows an earlier position, it counts once it changes."""
        game = self._under_way()
        if self._stays:
            replace(game, moves=[*game.moves]).replace(ply, count, moves)  # its errors
            self._part()
            game = self._under_way()
        was_final = not game.state.chess.can_move
        game.replace(ply, count, moves)
        self._go_on(ply, bool(moves), now)
        if self._over and self._is_as_told:
            self._watch_after(now)
        if not game.state.chess.can_move:
            winner = "0-1" if game.state.white else "1-0"
            self._end(winner if game.state.check else "1/2-1/2", self._why, now)
        elif was_final:
            self._resume()
        self._save()

    def end(self, result: str, now: float) -> None:
        """Ends the game with a result that the board doesn't show. With `*` the game goes on.
        `BadValue` if it isn't a result, or there is no game."""
        game = self._under_way()
        if result not in RESULTS:
            raise BadValue(f"result must be one of {', '.join(RESULTS)}: {result!r}")
        if result != "*":
            self._restore()
            self._end(result, "arbiter", now)
            return
        self._part()
        self._resume()
        self._go_on(len(game.moves), True, now)
        self._save()

    def close(self) -> bool:
        """Writes what isn't in the file yet. Returns whether the file is complete; a warning
        contains what it lacks."""
        self._save()
        if self._file is None or not self._fault:
            return True
        self._warn(f"{self._file.name} lacks this:\n{self._file.unsaved}")
        return False

    # ---- The view of the board

    @property
    def _shown(self) -> str:
        """The letters on the board, from White's point of view."""
        return self._watched.from_white(self._letters)

    @property
    def _has_no_kings(self) -> bool:
        return bool(self._letters) and not {"K", "k"} & {*self._letters}

    @property
    def _is_as_told(self) -> bool:
        state = self._watched.state
        return state is not None and self._shown == state.letters

    @property
    def _wrong(self) -> dict[str, str]:
        """The squares that differ from the game's position, each with the letter there."""
        state = self._watched.state
        return {} if state is None else {
            square: right for square, shown, right in zip(SQUARES, self._shown, state.letters)
            if shown != right}

    def _note_away(self, view: BoardView) -> None:
        away = view.away or ""
        if away != self._away and away:
            self._warn(f"{self._port}: {away}")
        self._away, self._is_new = away, self._is_new or bool(away)

    def _look_for_first(self, is_sure: bool, now: float) -> None:
        """Begins the game once the board shows the position of the FEN."""
        for turned in (False, True) if self._first and is_sure else ():
            if self._first and self._first.letters == self._letters[::-1 if turned else 1]:
                self._watched.go_on([self._first], turned, now)
                self._begin(self._first)
                self._first = None

    # ---- The clock

    def _note_clock(self, clock: Clock | None, now: float) -> None:
        self._clock = clock if isinstance(clock, Times) else None
        self._note_flags()
        if self.game is None or len(self.game.moves) == self._settled:
            return
        last = self.game.moves[-1]
        if self._over and (now >= self._final_at or self._runs_for(last)):
            return
        left = self._left(self._clock, last)
        if left is not None and left != last.clock and self._is_as_told:
            last.clock, last.times, self._save_at = left, self._clock, now + _CLOCK_WAIT
            self._text.change(len(self.game.moves) - 1)

    def _note_flags(self) -> None:
        """Warns once of a fallen flag. It isn't a result: the arbiter gives that."""
        if self._clock is None:
            return
        times = zip(SIDES, (self._clock.first, self._clock.second))
        fallen = {side for side, time in times if time.blocked or time.fallen}
        for side in sorted(fallen - self._fallen) if self.game and not self._over else ():
            colour = "White" if side == self.white_clock else "Black"
            self._warn(f"{colour}'s flag has fallen (that alone is not a result)")
        self._fallen = fallen

    def _learn(self) -> None:
        if self.game is None or not self._learns:
            return
        self._learner.look_at(self.game)
        side = self._learner.side
        if side is not None and side != self.white_clock:
            self._set_side(side == "left")
            self._warn(f"White's time is that of the clock's {side} side")

    def _runs_for(self, made: PgnMove) -> bool:
        """Whether the clock of the player who has made a move still runs. It does if the clock
        doesn't report the side to move."""
        clock = self._clock
        return clock is not None and clock.running and not (
            clock.black_turn if made.before.white else clock.white_turn)

    def _left(self, clock: Times | None, made: PgnMove) -> Time | None:
        """Returns the remaining time of the player who has made a move."""
        if clock is None:
            return None
        side = clock.first if made.before.white == self._is_white_left else clock.second
        return replace(side, flags=0)

    def _settle(self, after: str) -> None:
        """Finds the clock of the last move, now that the next one leads to the position `after`: it
        didn't change until the pieces of that next move were put down."""
        assert self.game is not None
        before, clock = self.game.state.letters, None
        changed = [square for square in range(64) if before[square] != after[square]]
        for number, (letters, shown) in enumerate(self._seen):
            shown_so = self._watched.from_white(letters)
            if all(shown_so[square] == after[square] for square in changed):
                clock = shown
                for _ in range(number + 1):
                    self._seen.popleft()
                break
        if self._settled < len(self.game.moves):
            last = self.game.moves[-1]
            if left := self._left(clock, last):
                last.clock, last.times = left, clock
            self._text.change(len(self.game.moves) - 1)
        self._settled = len(self.game.moves)

    # ---- What has happened

    def _take(self, events: list[GameEvent], now: float) -> None:
        if self._over == "arbiter":
            events = self._after_arbiter(events, now)
        self._is_back_now = False
        is_replaced = [type(event) for event in events] == [Back, Made]
        is_found = not any(isinstance(event, Begun | Gap) for event in events)
        for event in events:
            match event:
                case Begun(state):
                    self._begin(GameState._of(state))
                case Made(move):
                    self._make([move])
                case Unseen(moves):
                    self._make(moves)
                case Gap(count, state):
                    self._part()
                    self._gaps.append((count, GameState._of(state)))
                    self._note(f"gap {count}")
                case Back(count) if self._gaps:
                    self._gaps.pop()
                    self._find()
                case Back(count, stays) if self.game and count <= len(self.game.moves):
                    self._take_back(count, stays, is_replaced)
                case Back():  # to a position before this game
                    assert self._watched.state is not None
                    return self._begin(self._watched.state)
                case Ended(result):
                    self._restore()
                    self._end(result, self._why, now)
                case Lost():
                    self._is_lost = True
                    self._await_loss(True)
                case Found():
                    self._is_lost = False
                    if self._lost and is_found:
                        self._find()
        if self._over and self.game and not self.game.moves and self._is_as_told:
            self._begin(self.game.start)  # nobody came to the game before

    def _after_arbiter(self, events: list[GameEvent], now: float) -> list[GameEvent]:
        """Returns the events after a result by hand that count. The board may go on, until another
        position was set up. The initial one may be that of the game, with moves taken back."""
        for number, event in enumerate(events):
            if isinstance(event, Begun) and (event.state == State.start() or self._was_empty):
                return events[number:]
        state = self._watched.state
        if not events or state is None:
            return []
        moves = list[str]()
        for event in events:
            moves = [*moves, event.move] if isinstance(event, Made) else []
        if state.letters == _START.letters:
            self._begin_next([], now)
        elif moves and (states := _played(moves)) and states[-1].letters == state.letters:
            self._begin_next(moves, now)
        return []

    def _begin_next(self, moves: Sequence[str], now: float) -> None:
        """Begins a game after a result by hand, with these moves."""
        self._watched.go_on([_START, *_played(moves)], self.turned, now)
        self._begin(_START)
        self._make(moves)
        self._take(self._watched.see(self._view, now), now)

    def _begin(self, state: GameState) -> None:
        self._restore(self._is_left_soon)
        self._back.clear()
        game = self.game
        if game and not game.moves and not self._over and game.start.letters == state.letters:
            game.start = state  # the first move decides whose turn it was
            return
        if game and not self._over and (game.comment or self._was_away or state.fen != START_FEN):
            game.comment = game.comment or (_BROKEN_OFF if self._was_away else _LOST)
            self._report("broken off")
        self._save()
        tags = {"Date": time.strftime("%Y.%m.%d"), **self._tags}
        self.game = PgnGame(tags, state)
        self._text = _GameText(self.game)
        self._is_in_file = self._is_branch = False
        self._settled = self._fixed = self._held = 0
        self._resume()
        self._lost, self._advice, self._is_lost, self._was_empty = {}, "", False, False
        self._gaps.clear()
        self._seen.clear()
        self._learner.new_game()
        self._is_white_left |= self._learns
        if self._file is not None:
            self._file.begin()
        self._tell(f"game {state.fen}")

    def _make(self, moves: Sequence[str]) -> None:
        if self._gaps:
            self._begin(self._gaps[-1][1])
        assert self.game is not None
        for move in moves:
            if self._back and self._back[-1].move != move:
                self._part()
            is_played = self._clock is not None and self._clock.running
            is_as_before = self._is_back_now or self._stays and not is_played
            before = self._back.pop() if self._back else None
            self._settle(self.game.state.after(move).letters)
            made = self.game.add(move)
            made.clock, made.times = self._left(self._clock, made), self._clock
            if before is not None and is_as_before:  # only those after it are taken back
                made.clock, made.times = before.clock, before.times
                self._settled = self._fixed = len(self.game.moves)
            times = [self._clock.first, self._clock.second] if self._clock else []
            times = times if self._is_white_left else times[::-1]
            self._report(" ".join([numbered(made.before, made.san), made.move, *map(str, times)]))

    def _take_back(self, count: int, stays: bool, is_replaced: bool) -> None:
        """Takes back the last moves, which may stay in the file. If another replaces one, the piece
        was still moving, and the clock of the move before may have been pressed meanwhile.
        Otherwise that clock stays: both clocks may have run since then."""
        assert self.game is not None
        if not self._back:
            self._was = self.game.result, self._over
        if stays:
            self._held = len(self.game.moves) + len(self._back)
        self._is_back_now, self._back_at, self._is_left_soon = True, self._changed_at, False
        self._resume()
        for left in range(len(self.game.moves) - 1, len(self.game.moves) - 1 - count, -1):
            made = self.game.moves.pop()
            self._back.append(made)
            self._text.change(left)
            self._fixed = min(self._fixed, left) if is_replaced else left
            self._settled = max(self._fixed, min(self._settled, left - is_replaced))
            self._report(f"undo {numbered(made.before, made.san)} {made.move}")
        self._seen.clear()  # these positions led to the moves that were taken back

    # ---- What was taken back

    @property
    def _stays(self) -> bool:
        """Whether the file keeps the moves that were taken back."""
        return self.game is not None and self._held > len(self.game.moves)

    @property
    def _kept(self) -> PgnGame:
        """The game as the file keeps it."""
        assert self.game is not None
        if not self._stays:
            return self.game
        return replace(self.game, moves=[*self.game.moves, *reversed(self._back)],
                       result=self._was[0])

    def _part(self) -> None:
        """Notes that other moves follow than those that were taken back. If the file keeps these,
        the game ends with them, and another one goes on from here."""
        game, count, stays = self.game, len(self._back), self._stays
        if game is not None and stays:
            kept, last = self._kept, game.moves[-1] if game.moves else None
            after = f"after {numbered(last.before, last.san)}" if last else "before the first move"
            parted = replace(game, tags={**game.tags}, moves=[replace(each) for each in game.moves],
                             comment="")
            game.moves, game.result, game.comment = kept.moves, kept.result, _PARTED.format(after)
            self._back.clear()
            self._report(f"kept {count}")
            self.game, self._text, self._is_branch = parted, _GameText(parted), True
            self._is_in_file, self._held = False, 0
            if self._file is not None:
                self._file.begin()
        self._back.clear()

    def _restore(self, is_setting_up: bool = False) -> None:
        """Notes that nothing follows what was taken back. The game ends with it if the file keeps
        it, or if whoever took it back went on at once: he was setting up pieces."""
        self._back_at, self._is_left_soon = -_SOON, False
        if self.game is not None and (self._stays or is_setting_up and self._back):
            self.game.moves += self._back[::-1]
            self._back.clear()
            self.game.result, self._over = self._was
            self._settled = self._fixed = len(self.game.moves)

    @property
    def _why(self) -> str:
        """How the game has ended."""
        state = self._watched.state
        if state is None or state.chess.can_move:
            return "kings"
        return "mate" if state.check else "stalemate"

    def _end(self, result: str, why: str, now: float) -> None:
        assert self.game is not None
        self.game.result, self._over, self._was_empty = result, why, self._has_no_kings
        self._lost, self._advice, self._is_lost, self._lost_at = {}, "", False, None
        if why != "arbiter" and not self._gaps:
            self.game.comment = ""
        self._final_at = now + _FINAL_WAIT if why in ("mate", "stalemate") else now
        self._watch_after(now)
        self._report(f"result {result} {why}")

    def _resume(self) -> None:
        """Takes back the result."""
        assert self.game is not None
        self.game.result, self._over, self._after, self._goes_on = "*", "", None, False

    def _watch_after(self, now: float) -> None:
        """Looks from now on for moves after the result."""
        assert self.game is not None
        states = [*(made.before for made in self.game.moves[-_KEPT:]), self.game.state]
        self._after, self._goes_on = AfterResult(states, self.turned, now), False

    def _note_going_on(self, goes_on: bool) -> None:
        """Warns once if the board goes on after the result."""
        if goes_on and self.game is not None:
            self._after, self._goes_on = None, True
            self._warn(f"the board goes on after the result {self.game.result}: these moves are in "
                       f"no game{'' if self._over == 'arbiter' else _NEXT}")

    def _await_loss(self, is_sure: bool) -> None:
        """Notes when to report that the game is lost."""
        if self._over:
            return
        wrong = self._wrong if self._is_lost and is_sure else self._lost
        wait = _SETTING_UP_WAIT if len(wrong) > _MOST_WRONG else _LOST_WAIT
        self._lost_at = None if wrong == self._lost else self._changed_at + wait

    def _lose(self) -> None:
        """Reports what to put where so that the game goes on, unless pieces are only lifted."""
        state, shown = self._watched.state, self._shown
        if state is not None and any(
                each not in (".", right) for each, right in zip(shown, state.letters)):
            self._lost, self._advice = self._wrong, to_put(shown, state.letters)
            self._warn(f"no move leads to this: {self._advice}")
            self._note(f"lost {' '.join(map(''.join, self._lost.items()))}")

    def _find(self) -> None:
        """Reports that the board shows the game again."""
        self._lost, self._advice = {}, ""
        self._note("found")

    def _note(self, line: str) -> None:
        """Reports a line, once the comment says what is missing after the game's moves."""
        assert self.game is not None
        gap = _GAP.format(sum(count for count, _ in self._gaps)) if self._gaps else ""
        lost = (_BROKEN_OFF if self._was_away else _LOST) if self._lost else ""
        self.game.comment = gap or lost
        self._report(line)

    # ---- Corrections

    def _under_way(self) -> PgnGame:
        if self.game is None:
            raise BadValue("no game has begun")
        return self.game

    def _go_on(self, ply: int, is_new: bool, now: float) -> None:
        """Continues the game after its moves, which may have changed after `ply`."""
        assert self.game is not None
        self._back.clear()
        self._held = 0
        self._text.change(ply)
        self._settled = self._fixed = len(self.game.moves)
        self._seen.clear()
        self._gaps.clear()
        self._lost, self._advice, self._is_lost, self.game.comment = {}, "", False, ""
        self._watched.go_on([self.game.state], self.turned, now)  # no earlier move is taken back
        is_earlier = any(made.before.letters == self._shown for made in self.game.moves)
        self._hidden = self._letters if is_earlier or not is_new else ""

    # ---- The file

    def _report(self, line: str) -> None:
        """Reports what has happened, once the file contains it."""
        self._save()
        self._tell(line)

    def _save(self) -> None:
        """Writes the file if possible. A game without moves isn't written."""
        self._save_at = None
        if self._file is None or self.game is None:
            return
        self._is_in_file |= bool(self.game.moves) or self.game.result != "*"
        if self._is_in_file:
            self._file.put(self._kept.text() if self._stays else self._text.text())
        try:
            self._file.save()
        except OSError as refused:
            if (fault := refused.strerror or str(refused)) != self._fault:
                self._warn(f"{self._file.name} can't be written: {fault} (the game goes on, and "
                           "each move tries again)")
                self._fault = fault
        else:
            if self._fault:
                self._warn(f"{self._file.name} is written again")
            self._fault = ""


def _with(old: dict[str, str], new: dict[str, str]) -> dict[str, str]:
    """Tags with new ones, of which an empty text removes one."""
    return {name: text for name, text in {**old, **new}.items() if text or name not in new}


def _played(moves: Sequence[str]) -> list[GameState]:
    """Returns the states of a game after each of these moves, until one is illegal."""
    states = [_START]
    for move in moves:
        if not states[-1].chess.is_legal(move):
            break
        states.append(states[-1].after(move))
    return states[1:]


def _is_left(side: str) -> bool:
    """Returns whether White's time is the first one, also for `learn`. `BadValue` if it isn't a
    side."""
    if side not in (*SIDES, "learn"):
        raise BadValue(f"white_clock must be left, right or learn: {side!r}")
    return side != "right"
