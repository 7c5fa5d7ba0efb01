"""Reads the boards that the page of apps/broadcast/page shows in a browser."""

from __future__ import annotations

import dataclasses
import time
from collections.abc import Callable, Iterator
from typing import Any

Ask = Callable[[str], Any]  # evaluates an expression in the page
# Run first in the page. They find an element of a board, or nothing if it isn't seen.
PARTS = """
globalThis.part = (name, selector) => {
    const card = [...document.querySelectorAll("figure")].find(one => one.dataset.board === name);
    const found = card?.querySelector(selector);
    return found?.checkVisibility() && found.getBoundingClientRect().width ? found : null;
};
globalThis.text = (name, selector) => part(name, selector)?.textContent ?? null;
globalThis.box = (name, selector) => {
    const { left, top, right, bottom } = part(name, selector)?.getBoundingClientRect() ?? {};
    return [left, top, right, bottom];
};
// Of both players, White first.
globalThis.names = name => ["white", "black"].map(colour => text(name, `.${colour} .who`));
globalThis.times = name => ["white", "black"].map(colour => text(name, `.${colour} .time`));
globalThis.runs = name =>
    ["white", "black"].map(colour => Boolean(part(name, `.${colour} .time.runs`)));
"""
LINE = 'document.getElementById("line").textContent'
# Of each board what `Board` has. The square of a piece and of a mark is the one that it lies on.
BOARDS = """Object.fromEntries([...document.querySelectorAll("figure")].map(card => {
    const name = card.dataset.board, letters = Array(64).fill(".");
    const drawing = card.querySelector(".drawing").getBoundingClientRect();
    const squareOf = one => {
        const { left, top, width, height } = one.getBoundingClientRect();
        const [file, rank] = [left + width / 2 - drawing.left, top + height / 2 - drawing.top].map(
            length => Math.floor(8 * length / drawing.width));
        return file + 8 * rank;
    };
    for (const piece of card.querySelectorAll(".pieces path"))
        if (piece.getBoundingClientRect().width) letters[squareOf(piece)] = piece.dataset.letter;
    const marks = [...card.querySelectorAll(".mark")].filter(one => one.checkVisibility());
    return [name, {
        letters: letters.join(""),
        marks: marks.map(squareOf).map(at => "abcdefgh"[at % 8] + (8 - (at >> 3))),
        names: names(name), times: times(name), runs: runs(name),
        moves: [...card.querySelector(".moves").children].map(one =>
            one.textContent).reverse().join(" "),
        result: text(name, ".result") ?? "", state: text(name, ".state") ?? "",
    }];
}))"""
RESULTS = {"1-0": "1–0", "0-1": "0–1", "1/2-1/2": "½–½"}
SHOWN_MOVES = 12  # half-moves
CLOCK = ("names", "times", "runs", "state")  # what changes with no piece


def seconds(text: Any) -> int | None:
    """Reads a time as the page writes it."""
    if text is None:
        return None
    hours, minutes, rest = map(int, text.split(":"))
    return 3600 * hours + 60 * minutes + rest


def last_moves(words: list[str]) -> str:
    """The last moves of a game that begins with White's first, as the page writes them."""
    first = max(0, len(words) - SHOWN_MOVES)
    text = f"{first // 2 + 1}..." if first % 2 else ""
    return " ".join(filter(None, [text, *(
        word if at % 2 else f"{at // 2 + 1}. {word}"
        for at, word in enumerate(words[first:], first))]))


@dataclasses.dataclass
class Board:
    """A board on the page. The first of two players is White."""

    letters: str  # of the pieces on the 64 squares from a8 on, and a full stop for none
    marks: list[str]  # the squares of the last move
    names: list[str]
    times: list[int | None]  # seconds
    runs: list[bool]  # whether this time is marked as running
    moves: str
    result: str
    state: str  # nothing if the board is followed

    def differences(self, right: Board, fields: tuple[str, ...], most: int) -> Iterator[str]:
        """How these fields differ from what is right. The times may differ by a few seconds."""
        for field in fields:
            one, other = getattr(self, field), getattr(right, field)
            is_near = field == "times" and None not in one and all(
                abs(mine - its) <= most for mine, its in zip(one, other))
            if one != other and not is_near:
                yield f"{field}: {one!r} instead of {other!r}"


FIELDS = tuple(field.name for field in dataclasses.fields(Board))


def read(ask: Ask) -> dict[str, Board]:
    """What the page shows of each board now."""
    found = {name: Board(**one) for name, one in ask(BOARDS).items()}
    for board in found.values():
        board.times = [seconds(text) for text in board.times]
    return found


def compare(ask: Ask, right: dict[str, Callable[[], Board]], fields: tuple[str, ...] = FIELDS,
            most: int = 0) -> list[str]:
    """Waits until each of these boards was once shown as it should be then. Returns what still
    differs after 20 seconds."""
    end, left = time.monotonic() + 20, set(right)
    while True:
        shown = read(ask)
        wrong = {name: [*shown[name].differences(right[name](), fields, most)]
                 if name in shown else ["not on the page"] for name in left}
        left = {name for name in left if wrong[name]}
        if not left or time.monotonic() > end:
            return [f"board {name}, {each}" for name in sorted(left) for each in wrong[name]]
        time.sleep(0.1)
