"""The programs of the package, such as `python -m dgt game`."""

import sys
from collections.abc import Callable

from . import doctor, game, livechess, record, replay, serial_ports, uci

_PROGRAMS: dict[str, Callable[[list[str]], None]] = {
    "game": game.main, "uci": uci.main, "livechess": livechess.main, "ports": serial_ports.main,
    "doctor": doctor.main, "record": record.main, "replay": replay.main}
_USAGE = """\
usage: python -m dgt PROGRAM ..

  game [PORT]         prints the moves made on a board, and writes a PGN file
  game --demo         does so with a simulated board
  uci [PORT]          plays in chess programs, as a UCI engine
  livechess [PORT]    plays on lichess.org and other sites that use LiveChess
  ports               lists the serial ports that may be boards
  doctor [PORT]       examines a board, and writes a report
  record [PORT] FILE  records what a board and a program send
  replay FILE         plays a recorded session

Without a PORT they use the only board. `python -m dgt PROGRAM --help` describes
a program."""

if __name__ == "__main__":
    if sys.argv[1:2] and sys.argv[1] in _PROGRAMS:
        _PROGRAMS[sys.argv[1]](sys.argv[2:])
    elif sys.argv[1:] in (["--help"], ["-h"]):
        print(_USAGE)
    else:
        print(_USAGE, file=sys.stderr)
        sys.exit(2)
