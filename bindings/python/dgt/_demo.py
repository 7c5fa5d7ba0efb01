"""Plays a famous game on a simulated board, for `dgt-game --demo`."""

import threading
import time

from ._simulated import PluggedBoard, PluggedBoards
from .chess import Colour, State

TAGS = {"Event": "Casual game", "Site": "Paris FRA", "Date": "1858.??.??", "Round": "?",
        "White": "Morphy, Paul", "Black": "Brunswick, Karl II:Isouard"}
_MOVES = """\
e4 e5 Nf3 d6 d4 Bg4 dxe5 Bxf3 Qxf3 dxe5 Bc4 Nf6 Qb3 Qe7 Nc3 c6 Bg5 b5 Nxb5 cxb5 Bxb5+ Nbd7
O-O-O Rd8 Rxd7 Rxd7 Rd1 Qe6 Bxd7+ Nxd7 Qb8+ Nxb8 Rd8#"""
_REST, _THINKING = 1.5, 300  # the seconds before the first move, and on each side of the clock
_HAND = 0.1  # the share of a move's time that a hand takes from one square to another


class Demo(PluggedBoards):
    """A simulated board on which both sides play."""

    def __init__(self, is_fast: bool) -> None:
        self.board, self.pace = PluggedBoard(), 0.25 if is_fast else 1.25
        super().__init__([self.board])
        self.port = self.board.plug()
        self.board.clock.left = [_THINKING, _THINKING]
        threading.Thread(target=self._play, daemon=True).start()

    def _play(self) -> None:
        time.sleep(_REST)
        state = State.start()
        self.board.run_clock(0)
        for move in _MOVES.split():
            time.sleep(self.pace)
            self.board.count_clock()
            state = state.play(state.parse_san(move))
            self.board.show(state.position.letters, _HAND * self.pace)
            self.board.run_clock(None if state.is_mate else int(state.turn == Colour.BLACK))
