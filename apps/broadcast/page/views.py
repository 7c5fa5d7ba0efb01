"""Games as JSON for pages."""

import json
from typing import Any

import dgt
from dgt.clock_side import in_seconds

SHOWN_MOVES = 12
COLOURS = ("White", "Black")
Summary = dict[str, Any]


def summary(games: dgt.Games) -> Summary | None:
    game = games.game
    if game is None:
        return None
    shown, state = game.moves[-SHOWN_MOVES:], game.state
    last = shown[-1].move if shown else ""
    return {
        "moves": [each.san for each in shown],
        "number": shown[0].before.number if shown else state.number,
        "to_move": "white" if state.white else "black",
        "last": [last[:2], last[2:4]] if last else None,
        "result": game.result,
        "goes_on": games.goes_on,
        "white_side": games.white_clock,
        "lost": {"squares": games.lost, "advice": games.advice} if games.lost else None,
        "players": players(game),
    }


def players(game: dgt.PgnGame) -> dict[str, str] | None:
    """The players of a game, once it has moves and their names are known."""
    is_known = game.moves and game.tags.get("White", "?") != "?"
    return named(game.tags) if is_known else None


def named(tags: dict[str, str]) -> dict[str, str]:
    """The players of a game's tags: their names, and their titles and ratings if it has some."""
    shown = {colour.lower(): tags.get(colour, "?") for colour in COLOURS}
    return shown | {f"{colour}_{kind}".lower(): tags[colour + kind] for colour in COLOURS
                    for kind in ("Title", "Elo") if tags.get(colour + kind)}


def player(players: dict[str, str], colour: str) -> str:
    """A player in words, such as `GM Carlsen 2839`."""
    parts = (players.get(f"{colour}{end}") for end in ("_title", "", "_elo"))
    return " ".join(filter(None, parts))


def written(game: dgt.PgnGame) -> bytes:
    """A game as JSON: its moves in short notation, the placement before the first and after each,
    and the player's remaining seconds."""
    moves = list(game.moves)  # the thread of the games may add some
    first = moves[0].before if moves else game.state
    clocks = [each.clock and in_seconds(each.clock) for each in moves]
    return json.dumps({
        "number": first.number, "is_white_first": first.white, "result": game.result,
        "moves": [each.san for each in moves], "clocks": clocks,
        "squares": [[each.move[:2], each.move[2:4]] for each in moves],
        "placements": [state.fen.split()[0] for state in (first, *(e.after for e in moves))],
    }).encode()
