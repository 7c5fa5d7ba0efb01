"""Checks the clock of bindings/python/examples/board.py, as seen by a host that follows this
board."""

import pathlib
import subprocess
import sys
import time

import cases
import dgt
from wrong import wanted

BOARD = pathlib.Path(__file__).resolve().parents[2] / "bindings/python/examples/board.py"
# Lines of its input, and the texts of the clock that follow them, in order.
ROWS = [
    (["clock 1:00:00 0:59:30"], ["times 1:00:00 0 0:59:30 0 00"]),
    (["clock start"], ["times 1:00:00 0 0:59:30 0 11", "times 0:59:59 0 0:59:30 0 11",
                       "times 0:59:58 0 0:59:30 0 11"]),
    (["clock stop"], ["times 0:59:58 0 0:59:30 0 10"]),
    (["clock start", "wait 0.1", "clock 9:59:59 0:00:00"],
     ["times 0:59:58 0 0:59:30 0 11", "times 9:59:59 0 0:00:00 0 00"]),
    (["clock 0:00:02 0:00:05", "wait 0.1", "clock start"],
     ["times 0:00:02 0 0:00:05 0 00", "times 0:00:02 0 0:00:05 0 11",
      "times 0:00:01 0 0:00:05 0 11", "times 0:00:00 0 0:00:05 0 10"]),
    (["clock 1:00:00 0:00:01", "wait 0.1", "clock start", "wait 0.1", "clock press"],
     ["times 1:00:00 0 0:00:01 0 00", "times 1:00:00 0 0:00:01 0 11",
      "times 1:00:00 0 0:00:01 0 09", "times 1:00:00 0 0:00:00 0 08"]),
]
# Lines that it refuses, and what it says of them.
REFUSED = [
    ("clock start", "the clock's first side has no time left"),
    ("clock press", "the clock doesn't run"),
    ("clock", "neither two times nor start, press or stop after clock"),
    ("clock go", "neither two times nor start, press or stop after clock"),
    ("clock 0:00:01 0:00:02 0:00:03", "neither two times nor start, press or stop after clock"),
    ("clock 0:00:01 10:00:00", "not a time from 0:00:00 to 9:59:59: 10:00:00"),
    ("clock 1:00 0:00:01", "not a time from 0:00:00 to 9:59:59: 1:00"),
    ("clock 1:60:00 0:00:01", "minutes must be a number from 0 to 59: 60"),
    ("clock 0:00:60 0:00:01", "seconds must be a number from 0 to 59: 60"),
]


def clocks(following, count, end):
    """The texts of the next changes of the clock, at most `count` of them, up to a time."""
    texts, shown = [], following.view.clock
    while len(texts) < count and (view := following.wait(until=end)):
        if view.clock != shown:
            shown = view.clock
            texts.append(str(shown))
    return texts


class SimulatedClock(cases.Case):
    def board(self):
        pipes = dict.fromkeys(["stdin", "stdout", "stderr"], subprocess.PIPE)
        return self.start(sys.executable, BOARD, text=True, bufsize=1, **pipes)

    def test_rows(self):
        """The clock shows what is right for the lines of each row, a second apart while it runs,
        and after that nothing else if it has stopped."""
        board = self.board()
        port = board.stdout.readline().strip()
        following = self.enterContext(dgt.follow(port, 60, mode=dgt.Mode.UPDATE_NICE))
        wanted("the clock at first, of zeros", following.wait(cases.SECONDS).clock, None)
        for lines, right in ROWS:
            begun = time.monotonic()
            board.stdin.write("".join(f"{line}\n" for line in lines))
            texts = clocks(following, len(right), begun + cases.SECONDS)
            passed = time.monotonic() - begun
            if texts == right and not right[-1].endswith("11"):
                texts += clocks(following, 1, time.monotonic() + 1.2)
            wanted(f"the clock after {lines}", texts, right)
            least = len({text.split()[1] for text in right if text.endswith("11")}) - 1
            self.assertGreater(passed, least - 0.1, lines)

    def test_refusals(self):
        _, told = self.board().communicate("".join(f"{line}\n" for line, _ in REFUSED),
                                           timeout=cases.SECONDS)
        right = [f"board.py: {line!r}: {said}" for line, said in REFUSED]
        wanted("what board.py says", told.splitlines(), right)
