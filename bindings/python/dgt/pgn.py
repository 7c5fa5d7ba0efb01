"""Games as text: moves in short algebraic notation (SAN), and games in PGN's export format."""

from collections.abc import Iterable, Iterator
from dataclasses import dataclass, field

from .errors import BadValue
from .rules import START_FEN, GameState
from .values import Time, Times, checked

RESULTS = ("1-0", "0-1", "1/2-1/2", "*")
"""The results of a game. `*` is a game that goes on, or was broken off."""

_WIDTH = 79
"""The most columns of a line of moves: PGN requires fewer than 80."""
_PART = 4096
"""The size of a finished part of a text."""
_TAGS = {"Event": "?", "Site": "?", "Date": "????.??.??", "Round": "?", "White": "?", "Black": "?"}
"""The required tags and their texts for an unknown value. `Result` is the seventh."""


def san(state: GameState, move: str) -> str:
    """Returns a legal move in short algebraic notation. `IllegalMove` if it isn't legal,
    `TypeError` if the state isn't one.

    >>> san(GameState.start(), "g1f3")
    'Nf3'
    >>> san(GameState.parse("3r3k/2P5/8/8/8/8/8/K7 w - - 0 1"), "c7d8n")
    'cxd8=N'
    """
    return checked(state, GameState).chess.san(move)


def numbered(state: GameState, text: str) -> str:
    """Returns the text of a move after its number in this state, such as `1. e4` or `1... e5`."""
    return f"{state.number}{'.' if state.white else '...'} {text}"


@dataclass(slots=True)
class PgnMove:
    """A move of a `PgnGame`."""

    move: str
    """The move, named as in UCI."""
    san: str
    before: GameState
    after: GameState
    clock: Time | None = None
    """The remaining time of the player who has made it, or `None`."""
    times: Times | None = None
    """The clock after the move, or `None`."""


@dataclass(slots=True)
class PgnGame:
    """A game to be written as PGN. `tags` are written in their order. You may omit the seven
    required tags; `Result`, `FEN` and `SetUp` are written automatically.

    >>> game = PgnGame({"White": "Ann", "Round": "3"})
    >>> game.add("e2e4", Time(1, 30)).san, game.add("e7e5").san
    ('e4', 'e5')
    >>> print(game.text(), end="")
    [Event "?"]
    [Site "?"]
    [Date "????.??.??"]
    [Round "3"]
    [White "Ann"]
    [Black "?"]
    [Result "*"]
    <BLANKLINE>
    1. e4 {[%clk 1:30:00]} 1... e5 *
    """

    tags: dict[str, str] = field(default_factory=dict)
    start: GameState = field(default_factory=GameState.start)
    """The position in which it begins. Any other than the usual one is written as `FEN`."""
    moves: list[PgnMove] = field(default_factory=list)
    result: str = "*"
    comment: str = ""
    """The comment after the last move."""

    @property
    def state(self) -> GameState:
        """The state after the last move."""
        return self.moves[-1].after if self.moves else self.start

    def add(self, move: str, clock: Time | None = None) -> PgnMove:
        """Adds a move. `IllegalMove` if it isn't legal, `TypeError` if the clock isn't a `Time`."""
        before = self.state
        clock = None if clock is None else checked(clock, Time)
        added = PgnMove(move, san(before, move), before, before.after(move), clock)
        self.moves.append(added)
        return added

    def replace(self, ply: int, count: int, moves: Iterable[str]) -> None:
        """Replaces `count` moves after the first `ply` moves. The moves after them stay. If the
        number is the same, the new moves keep the clocks. `IllegalMove` if one of the moves is then
        illegal, `BadValue` if there are fewer moves; the game is unchanged in both cases.

        >>> game = PgnGame()
        >>> for move in ("e2e4", "e7e5", "g1f3"):
        ...     _ = game.add(move)
        >>> game.replace(1, 1, ["c7c5"])
        >>> [each.san for each in game.moves]
        ['e4', 'c5', 'Nf3']
        """
        if not 0 <= ply <= ply + count <= len(self.moves):
            raise BadValue(f"there are no {count} moves after the first {ply}: the game has "
                           f"{len(self.moves)}")
        old = self.moves[ply:]
        state, kept, made = old[0].before if old else self.state, old[count:], list[PgnMove]()
        for name in [*moves, *(each.move for each in kept)]:
            made.append(PgnMove(name, san(state, name), state, state.after(name)))
            state = made[-1].after
        same = old if len(made) == len(old) else kept
        for each, before in zip(made[len(made) - len(same):], same):
            each.clock, each.times = before.clock, before.times
        self.moves[ply:] = made

    def text(self) -> str:
        """Returns the game in the export format: its tags, an empty line, and its moves in lines of
        fewer than 80 columns. `BadValue` if a tag's name or text, or the result, is invalid."""
        return _GameText(self).text()

    def _heads(self) -> list[str]:
        if self.result not in RESULTS:
            raise BadValue(f"result must be one of {', '.join(RESULTS)}: {self.result!r}")
        given = {name: value for name, value in {**self.tags}.items()
                 if name not in ("Result", "FEN", "SetUp")}
        tags = {**_TAGS, **{name: given.pop(name) for name in _TAGS if name in given},
                "Result": self.result, **given}
        if self.start.fen != START_FEN:
            tags |= {"FEN": self.start.fen, "SetUp": "1"}
        return [_head(name, value) for name, value in tags.items()]

    def _words(self, at: int) -> Iterator[str]:
        """Yields the words of a move. None of them is divided."""
        made = self.moves[at]
        if made.before.white or not at or self.moves[at - 1].clock is not None:
            yield from numbered(made.before, made.san).split()
        else:
            yield made.san
        if made.clock is not None:
            yield f"{{[%clk {made.clock}]}}"

    def _last_words(self) -> Iterator[str]:
        """Yields the words after the moves."""
        if self.comment:
            yield from f"{{{self.comment.replace('}', ')')}}}".split()
        yield self.result


class _GameText:
    """The text of a growing game. Each call of `text` adds the moves since the last call, and
    copies the text once. Call `change` if moves were taken back or have other clocks."""

    def __init__(self, game: PgnGame) -> None:
        self._game = game
        self._parts, self._column = [""], 0  # only the last part grows
        # Of each move that is written: how many parts there were before it, how long the last one
        # was, and how many columns of a line it had filled.
        self._marks: list[tuple[int, int, int]] = []

    def change(self, count: int) -> None:
        """Notes that only this number of moves is unchanged."""
        if count < len(self._marks):
            parts, length, self._column = self._marks[count]
            self._parts[parts - 1:] = [self._parts[parts - 1][:length]]
            del self._marks[count:]

    def text(self) -> str:
        """Returns the same as `PgnGame.text`."""
        game = self._game
        heads = "".join(f"{head}\n" for head in game._heads())
        for at in range(len(self._marks), len(game.moves)):
            self._marks.append((len(self._parts), len(self._parts[-1]), self._column))
            more, self._column = _filled(game._words(at), self._column)
            self._parts[-1] += more
            if len(self._parts[-1]) > _PART:
                self._parts.append("")
        last, _ = _filled(game._last_words(), self._column)
        return "".join([heads, "\n", *self._parts, last, "\n"])


def _head(name: str, value: str) -> str:
    """Returns the line of a tag. Its value has a backslash before each quote and backslash, and a
    space instead of each unprintable character."""
    letters = name.replace("_", "") if isinstance(name, str) else ""
    if not letters.isalnum() or not letters.isascii():
        raise BadValue(f"a tag's name must be letters, digits and underscores: {name!r}")
    if not isinstance(value, str):
        raise BadValue(f"the tag {name} must be a text: {value!r}")
    plain = "".join(each if each.isprintable() else " " for each in value)
    escaped = plain.replace("\\", "\\\\").replace('"', '\\"')
    return f'[{name} "{escaped}"]'


def _filled(words: Iterable[str], column: int) -> tuple[str, int]:
    """Fills lines with these words; the first line has this number of columns already. Returns the
    lines, and the columns of the last one."""
    text = ""
    for word in words:
        if column == 0:
            text, column = text + word, len(word)
        elif column + 1 + len(word) > _WIDTH:
            text, column = f"{text}\n{word}", len(word)
        else:
            text, column = f"{text} {word}", column + 1 + len(word)
    return text, column
