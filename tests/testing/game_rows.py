"""The rows of games.txt: what programs of tests/libraries/chess_rules are asked for each line of a
case, and what they have to report."""

import dataclasses
import pathlib
from collections.abc import Iterator

from games import START

FILE = pathlib.Path(__file__).with_name("games.txt")
SQUARES = [file + rank for rank in "87654321" for file in "abcdefgh"]
SIGHTS = {"sure": "s", "doubt": "d", "away": "a"}
ANSWERS = {"confirmed": "c", "unconfirmed": "u"}
CLOCKS = {"white-runs": "w", "black-runs": "b", "no-clock": "-"}


@dataclasses.dataclass(frozen=True)
class Moment:
    """A question, its time, and what has to be reported: each event with a semicolon after it."""

    line: str
    at: int
    question: str
    told: str


@dataclasses.dataclass(frozen=True)
class Row:
    """A case of the table."""

    name: str
    moments: tuple[Moment, ...]

    def fault(self, answers: list[str]) -> str | None:
        """The first line that isn't answered as it says, with the answer. What is reported without
        a new picture was due, and then nothing is due any more."""
        was_due = "-"
        for moment, answer in zip(self.moments, answers, strict=True):
            told, due, _ = answer.split("|")
            is_late = moment.question.startswith("due ") and told and not (
                was_due != "-" and int(was_due) <= moment.at)
            if told != moment.told or is_late or due != "-" and int(due) <= moment.at:
                return f"{self.name}: {moment.line} !! {answer}, due before at {was_due}"
            was_due = due
        return None


class Board:
    """A board, and what is known of it."""

    def __init__(self) -> None:
        self.letters = dict.fromkeys(SQUARES, ".")
        self.sight, self.answer, self.clock, self.is_turned = "s", "c", "-", False

    def place(self, placement: str) -> None:
        """Sets all pieces."""
        text = "".join("." * int(it) if it.isdigit() else it for it in placement if it != "/")
        self.letters = dict(zip(SQUARES, text, strict=True))

    def do(self, word: str) -> None:
        """Does what a word says."""
        self.sight = SIGHTS.get(word, self.sight)
        self.answer = ANSWERS.get(word, self.answer)
        self.clock = CLOCKS.get(word, self.clock)
        self.is_turned = self.is_turned or word == "turned"
        if word == "start":
            self.place(START.split()[0])
        elif "/" in word:
            self.place(word)
        elif word[2:3] == "-":
            self.letters[word[3:]], self.letters[word[:2]] = self.letters[word[:2]], "."
        elif word[:2] in self.letters:
            self.letters[word[:2]] = word[2]

    def question(self, at: int) -> str:
        """What a program is asked when it changes."""
        letters = [*self.letters.values()]
        if self.is_turned:
            letters.reverse()
        ranks = ["".join(letters[n : n + 8]).replace(".", "1") for n in range(0, 64, 8)]
        return f"board {at} {self.sight}{self.answer}{self.clock} {'/'.join(ranks)}"


def events(text: str) -> str:
    """The events of a line, as programs write them."""
    first = {"game": f"game {START}", "game turned": f"game {START} turned"}
    found = [it.strip().partition("*") for it in text.split(",") if it.strip()]
    return "".join(f"{first.get(it, it)};" * int(times or 1) for it, _, times in found)


def moments(lines: list[str]) -> Iterator[Moment]:
    """The moments of a case, and before them those that make its recogniser."""
    board = Board()
    yield Moment("", 0, "anew -", "")
    for line in lines:
        doing, _, told = line.partition("=>")
        doing, _, fen = doing.partition(" from ")
        at, *words = doing.split()
        for word in words:
            board.do(word)
        if fen:
            board.place(fen.split()[0])
            yield Moment(line, int(at), f"from {int(board.is_turned)} {fen.strip()}", "")
        question = board.question(int(at)) if words or fen else f"due {at}"
        yield Moment(line, int(at), question, events(told))


def read(path: pathlib.Path = FILE) -> list[Row]:
    """All cases of the table."""
    rows = []
    for case in path.read_text().split("\n## ")[1:]:
        name, *lines = case.replace("\n  ", " ").splitlines()
        timed = [it for line in lines if line[:1].isdigit() for it in line.split("; ")]
        rows.append(Row(name, tuple(moments(timed))))
    return rows
