#!/usr/bin/env python3
"""Follows a board on a serial port: prints the position after each change and each time of its
clock, and shows the number of changes on the clock. It waits for a port that disappears."""

import argparse
import pathlib
import signal
import sys

sys.path.insert(0, str(pathlib.Path(__file__).resolve().parents[1]))
import dgt


def train(port: str) -> None:
    last, shown, changes = dgt.BoardView(), dgt.BoardView(), 0
    with dgt.follow(port, clock=True, wait_for_port=True) as board:
        for view in board:
            if view.away and view.away != last.away:
                print(f"{port}: {view.away}", file=sys.stderr)
            if isinstance(view.clock, dgt.Times) and view.clock != last.clock:
                print("clock", view.clock.first, view.clock.second, flush=True)
            if view.picture and view.picture != shown.picture and not view.in_doubt:
                print(view.picture, flush=True)
                shown, changes = view, changes + 1
                board.send_text(str(changes))
            last = view


if __name__ == "__main__":
    signal.signal(signal.SIGINT, signal.SIG_DFL)
    parser = argparse.ArgumentParser(description=__doc__)
    parser.add_argument("port")
    train(parser.parse_args().port)
