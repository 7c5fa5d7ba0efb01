"""The rules of chess of the package for Python, `dgt.chess`: what tests/libraries/chess_rules
doesn't compare with other languages; and its `GameState` over them."""

import copy
import pickle

import cases
import dgt
from dgt import BadFen, BadSan, Impossible
from dgt.chess import Colour, SanFault, State, Why
from games import PERFT, START
from wrong import wanted

PLACED = START.split()[0]
PROMOTES = "1n5k/P7/8/8/8/8/8/K7 w - - 0 1"

# A state, some of its legal moves, and moves that aren't legal.
LEGAL = [
    (START, "e2e4 g1f3", "e2e5 e7e5 e1g1 e2e4q e2 e2e9 0000 E2E4"),
    (PROMOTES, "a7a8q a7a8r a7a8b a7a8n a7b8n a1b1", "a7a8 a7a8k a7a8p a7a8Q a7a8qq a1b1q"),
]
# A text, the field that is wrong, and the offset there.
NO_FENS = [("\u00e9", "placement", 0), (f"{START}\u00e9", "number", 56)]
IMPOSSIBLE = [("8/8/8/8/8/8/8/8 w - - 0 1", Why.BAD_KINGS),
              (f"{PLACED} w KQkq e3 0 1", Why.BAD_PASSED)]
REFUSED = [{"turn": 2}, {"turn": None}, {"rights": "QK"}, {"rights": "x"}, {"passed": "e9"},
           {"half_moves": -1}, {"half_moves": 65536}, {"number": 65536}, {"number": "1"}]


class Chess(cases.Case):
    def test_legal(self):
        for fen, legal, others in LEGAL:
            state = State.parse(fen)
            for move in legal.split() + others.split():
                right = move in legal.split()
                wanted(f"{move} in {fen}", (state.is_legal(move), move in state.moves()),
                       (right, right))
                if right:
                    wanted(f"to {move} in {fen}", state.move_to(state.play(move).position), move)
                else:
                    for call in (state.play, state.san):
                        self.assertRaises(dgt.IllegalMove, call, move)
            wanted(f"no move in {fen}", state.move_to(state.position), None)
        for wrong in (None, 5, b"e2e4", ["e2", "e4"]):
            wanted(f"{wrong!r}", State.start().is_legal(wrong), False)

    def test_fens(self):
        for text, field, at in NO_FENS:
            with self.assertRaises(BadFen) as raised:
                State.parse(text)
            wanted(text, (raised.exception.field, raised.exception.at), (field, at))
        for text, why in IMPOSSIBLE:
            with self.assertRaises(Impossible) as raised:
                State.parse(text)
            wanted(text, pickle.loads(pickle.dumps(raised.exception)).why, why)
        for text in ("\u00e94", "\ud800", "Rd8"):
            with self.assertRaises(BadSan) as raised:
                State.start().parse_san(text)
            why = pickle.loads(pickle.dumps(raised.exception)).why
            wanted(text, why, SanFault.NO_MOVE if text.isascii() else SanFault.BAD_TEXT)

    def test_repetitions(self):
        states = [State.start()]
        for move in "g1f3 g8f6 f3g1 f6g8".split():
            states.append(states[-1].play(move))
        wanted("counts", [each.repetitions(states) for each in states], [2, 1, 1, 1, 2])
        wanted("a pair", [states[0].is_repeated(states[at]) for at in (4, 1)], [True, False])

    def test_values(self):
        """A state is equal to its copies and to one of the same parts, and can't be changed."""
        for fen, _ in PERFT:
            state = State.parse(fen)
            parts = (state.position, state.turn, state.rights, state.passed, state.half_moves,
                     state.number)
            same = {state, State(*parts), copy.deepcopy(state), pickle.loads(pickle.dumps(state))}
            wanted(fen, (same, State(*parts[:-1], state.number + 1) in same), ({state}, False))
        for wrong in REFUSED:
            with self.assertRaises(dgt.BadValue):
                State(**{"position": dgt.Position.start(), "turn": Colour.WHITE} | wrong)
        for name in ("rights", "position", "other"):
            with self.assertRaises((AttributeError, TypeError)):
                setattr(State.start(), name, "")
        start = State.start()
        for call in (State.parse, start.parse_san, start.move_to, start.is_repeated,
                     lambda of: State(of, Colour.WHITE)):
            self.assertRaises(TypeError, call, None)


# A text, and the FEN of its state.
LOOSE = [
    ("4k3/8/8/8/8/8/4P3/4K3", "4k3/8/8/8/8/8/4P3/4K3 w - - 0 1"),
    ("4k2r/8/8/8/8/8/8/R3K3 b KQkq", "4k2r/8/8/8/8/8/8/R3K3 b Qk - 0 1"),
    ("4k3/8/8/8/8/8/8/4K3  w -  - 999999999 0", "4k3/8/8/8/8/8/8/4K3 w - - 65535 1"),
    (f"{PLACED} b kq -", f"{PLACED} b kq - 0 1"),
]


class GameStates(cases.Case):
    def test_moves(self):
        for fen, _ in PERFT:
            state, same = dgt.GameState.parse(fen), State.parse(fen)
            wanted("a FEN", (state.fen, state.chess, state.check), (fen, same, same.is_check))
            wanted(f"moves in {fen}", [*state.moves()], same.moves())
            for move, after in state.moves().items():
                wanted(f"after {move} in {fen}", (state.after(move), after.chess),
                       (after, same.play(move)))
                parts = (after.letters, after.white, after.castlings, after.passed, after.halfmoves,
                         after.number)
                wanted(f"its parts, after {move} in {fen}", dgt.GameState(*parts), after)
                wanted(f"its FEN, after {move} in {fen}", dgt.GameState.parse(after.fen), after)

    def test_loose(self):
        for text, fen in LOOSE:
            wanted(text, dgt.GameState.parse(text).fen, fen)
        placed = dgt.GameState.place(dgt.Position.parse("r3k3/8/8/8/8/8/8/4K2R").letters, False)
        wanted("placed", (placed.castlings, placed.white), ("Kq", False))

    def test_refusals(self):
        for fen in ["", START.replace("w", "x"), START.replace("KQkq", "HAha"),
                    START.replace("-", "e9"), START.replace("0", "-1"), f"{START} 1",
                    *(fen for fen, _ in IMPOSSIBLE)]:
            self.assertRaises(dgt.BadFen, dgt.GameState.parse, fen)
        for wrong in (None, 64 * ".", 64 * "?", PLACED, [*64 * "."]):
            self.assertRaises(dgt.BadFen, dgt.GameState.place, wrong, True)
        for move in ["", "e2e5", "e7e5", "e1g1", "e2e4q", "0000", "e2", None]:
            self.assertRaises(dgt.IllegalMove, dgt.GameState.start().after, move)
