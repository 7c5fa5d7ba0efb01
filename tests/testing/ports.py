"""What is expected of those who follow the boards of simulated_board.py: their views, and what they
say of a port."""

import time

from wrong import Wrong, wanted

START = "rnbqkbnr/pppppppp/8/8/8/8/PPPPPPPP/RNBQKBNR"
LIFTED = "rnbqkbnr/pppppppp/8/8/8/8/PPPP1PPP/RNBQKBNR"
BOTH = "rnbqkbnr/pppppppp/8/8/4P3/8/PPPPPPPP/RNBQKBNR"
PUT = "rnbqkbnr/pppppppp/8/8/4P3/8/PPPP1PPP/RNBQKBNR"
GONE = "the port has gone; it is looked for every two seconds"
IN_USE = "in use by another program (end that one first)"
NO_PORT = "no such port (plug the board in; /dev/serial/by-id lists the ports)"
SILENT = "the board doesn't answer (switch it off and on; dgt-doctor finds out more)"
DRAUGHTS = "the board doesn't report 64 squares (is it for draughts? dgt-doctor finds out more)"
SECONDS = 120
# What a machine that is busy with other things may add to a time.
LATE = 20.0


def see(view):
    """What a view says, but for its clock and its bytes."""
    wanted("whether it is silent", view.silent, view.away in (SILENT, DRAUGHTS))
    return view.picture and view.picture.placement, view.in_doubt, view.away


def expect(what, board, *right):
    for number, each in enumerate(right):
        view = board.wait(SECONDS)
        wanted(f"{what}, {number}", view and see(view), each)
    return view


def expect_at_last(what, board, right):
    """One of the next views says this. Returns all of them."""
    views, end = [], time.monotonic() + SECONDS
    while not views or views[-1] != right:
        view = board.wait(until=end)
        if view is None:
            raise Wrong(f"{what}: {views} without {right} at last")
        views.append(see(view))
    return views
