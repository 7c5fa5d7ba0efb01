"""A table for the trials of the UCI engine: a virtual display, a board with a
player who makes random moves, and the engine with the chess program's command.
It also reads the games that a chess program has saved."""

import argparse
import os
import pathlib
import random
import re
import signal
import subprocess
import sys
import threading
import time

import running
from simulated_board import Hands
from wrong import Wrong

ROOT = pathlib.Path(__file__).resolve().parent.parent.parent
SCREEN = "1240x760x24"
# The engine as the chess program starts it. What both say is kept in two files.
ENGINE = """#!/bin/sh
export PYTHONPATH={root}/bindings/python PYTHONDONTWRITEBYTECODE=1
tee -a {room}/asked | {python} -m dgt uci "$@" | tee -a {room}/told
"""


class Player(threading.Thread):
    """Plays on a board: follows what the chess program asks the engine, and makes a move by chance
    each time. `made` has the games: of each, its moves."""

    def __init__(self, dgt, board, asked):
        super().__init__(daemon=True)
        self.dgt, self.board, self.asked = dgt, board, asked
        self.chance = random.Random(7)
        self.show = Hands(board).set_up
        self.state, self.made, self.is_over = None, [], False

    def run(self):
        asked = open(self.asked)
        rest = ""
        while not self.is_over:
            rest += asked.readline()
            if rest.endswith("\n"):
                self.hear(rest.split())
                rest = ""
            else:
                time.sleep(0.02)
        asked.close()

    def hear(self, words):
        if words[:1] == ["position"]:
            at = words.index("moves") if "moves" in words else len(words)
            self.state = self.dgt.GameState.parse(
                self.dgt.START_FEN if words[1] == "startpos" else " ".join(words[2:at]))
            if self.state.number == 1 and len(words[at + 1:]) < 2 and words[1] == "startpos":
                self.made.append([])
            for move in words[at + 1:]:
                self.state = self.state.after(move)
        elif words[:1] == ["go"] and self.state and (legal := self.state.moves()):
            self.show(self.state.letters)
            time.sleep(0.2)
            move = self.choose(legal)
            self.made[-1].append(move)
            self.show(legal[move].letters)

    def choose(self, legal):
        """A move by chance: if there is one, one that isn't answered by a mate."""
        for move in self.chance.sample(list(legal), len(legal)):
            if all(state.moves() or not state.check for state in legal[move].moves().values()):
                break
        return move


def read_games(dgt, text):
    """Of each game of a PGN: its heads, the moves of the side that the board played, and how many
    moves there were."""
    for game in re.split(r"(?=\[Event )", text)[1:]:
        heads = dict(re.findall(r'\[(\w+) "(.*?)"\]', game))
        body = re.sub(r"\{.*?\}", " ", re.sub(r"\[.*?\]\s", "", game), flags=re.S)
        moves = [word for word in re.sub(r"\d+\.+", " ", body).split()
                 if word not in ("1-0", "0-1", "1/2-1/2", "*")]
        is_white, state, own = "DGT" in heads["White"], dgt.GameState.start(), []
        for word in moves:
            move = state.chess.parse_san(word, lenient=True)
            if state.white == is_white:
                own.append(move)
            state = state.after(move)
        yield heads, own, len(moves)


class Table:
    """A display, a board with its player, and the engine as a program."""

    def __init__(self, dgt, room, name):
        self.room, self.name = room, name
        room.make_boards(1)
        (room.path / "asked").touch()
        (room.path / "told").touch()
        self.engine = room.path / "dgt-uci"
        self.port = room.boards[0].path
        self.engine.write_text(ENGINE.format(root=ROOT, room=room.path, python=sys.executable))
        self.engine.chmod(0o755)
        self.player = Player(dgt, room.boards[0], room.path / "asked")
        self.player.start()
        with open(room.path / "display", "w") as display:
            words = ["Xvfb", "-displayfd", "1", "-screen", "0", SCREEN, "-nolisten", "tcp"]
            room.runs.append(subprocess.Popen(words, stdout=display, stderr=room.log))
        running.wait("a display", lambda: (room.path / "display").read_text().endswith("\n"))
        self.display = ":" + (room.path / "display").read_text().strip()

    def start(self, *words, **environment):
        """Runs a program on the display, with a separate home."""
        environment["DISPLAY"] = self.display
        settings = [f"{name}={value}" for name, value in environment.items()]
        isolated = ROOT / "tests/trials/isolated"
        return self.room.start(isolated, self.room.path / "home", *settings, *words)

    def shot(self, name):
        if folder := os.environ.get("TRIAL_SHOTS"):
            pathlib.Path(folder).mkdir(parents=True, exist_ok=True)
            subprocess.run(["import", "-window", "root", f"{folder}/{name}.png"],
                           env=os.environ | {"DISPLAY": self.display}, check=False)

    def told(self):
        lines = (self.room.path / "told").read_text().splitlines()
        return [line.split()[1] for line in lines if line.startswith("bestmove")]

    def log(self):
        """What the programs have printed."""
        return (self.room.path / "log").read_text(errors="replace")


def sent_all(told, games):
    """Whether the engine has sent exactly these games' moves. After the last move of a game it may
    have sent 0000, too: PyChess asks for a move of the last position, which has none."""
    for moves in games:
        sent, told = told[:len(moves)], told[len(moves):]
        if sent != moves:
            return False
        while told[:1] == ["0000"]:
            told = told[1:]
    return not told


def compare(dgt, table, text):
    """Each game of this PGN has exactly the moves that were made on the board, and the engine has
    sent these. Returns the colours of the board."""
    made, colours = [moves for moves in table.player.made if moves], []
    for number, (heads, own, count) in enumerate(read_games(dgt, text)):
        print(f"{table.name}: {heads['White']} - {heads['Black']} {heads['Result']}, "
              f"{count} moves, {len(own)} on the board")
        if made[number:number + 1] != [own]:
            raise Wrong(f"the game has {own}, and made were {made[number:number + 1]}")
        colours.append("White" if "DGT" in heads["White"] else "Black")
    if len(colours) != len(made) or not sent_all(table.told(), made):
        raise Wrong(f"reported {table.told()}, made {made}")
    return colours


def begin(name, doc, packages):
    """Reads the words of a trial, and leaves it out if packages are missing. Returns the package
    for Python."""
    argparse.ArgumentParser(description=doc, allow_abbrev=False,
                            formatter_class=argparse.RawDescriptionHelpFormatter).parse_args()
    if packages:
        print(f"{name}: left out, for want of {', '.join(packages)}")
        sys.exit(os.environ.get("DGT_CHECKS") == "all")
    import dgt

    signal.signal(signal.SIGTERM, lambda *_: sys.exit(1))
    return dgt


def main(name, doc, needed, play):
    """Plays, if all that is needed is here."""
    dgt = begin(name, doc, running.absent(needed))
    with running.Room() as room:
        table = Table(dgt, room, name)
        try:
            play(dgt, table)
        except Wrong as wrong:
            table.shot("failed")
            sys.exit(f"{name}: {wrong}\n{table.log()[-500:]}")
        finally:
            table.player.is_over = True
