"""What the recogniser of games of the package for Python, `dgt.recogniser`, refuses. move_cases.py
and games.txt have its games."""

import contextlib
import copy

import cases
import dgt
from dgt.chess import Colour
from dgt.recogniser import Recogniser
from wrong import wanted


class Recognised(cases.Case):
    def test_nothing_seen(self):
        games = Recogniser()
        wanted("a new one", (games.state, games.due_at(), games.due(0), games.see(5, None)),
               (None, None, [], []))
        position = dgt.Position.start()
        for wrong in (-1, 2**64, 1.5, None, "5"):
            self.assertRaises(dgt.BadValue, games.due, wrong)
            self.assertRaises(dgt.BadValue, games.see, wrong, position)
        for side in (2, -1, "white"):
            with self.assertRaises(dgt.BadValue):
                games.see(6, position, running=side)
        for call, value in ((games.go_on, None), (games.go_on, position), (games.go_on, "fen")):
            self.assertRaises(TypeError, call, value)
        self.assertRaises(TypeError, games.see, 6, "fen")
        self.assertRaises(TypeError, copy.copy, games)
        games.see(6, position, is_sure=False, is_confirmed=False, running=Colour.BLACK)
        with contextlib.closing(games):
            pass
        self.assertRaises(dgt.Closed, games.due, 7)
