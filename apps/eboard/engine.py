#!/usr/bin/env python3
"""A player for eboard's other side, in the protocol of xboard. It plays the moves of ENGINE_MOVES,
one after another, and writes to ENGINE_LOG what it hears and says: what eboard took for a move of
its own player is what it sends here."""

import os
import re

MOVE = re.compile("[a-h][1-8][a-h][1-8][qrbn]?")
FEATURES = "usermove=0 san=0 ping=1 setboard=1 colors=1 sigint=0 sigterm=0 done=1"


def main() -> None:
    moves = os.environ["ENGINE_MOVES"].split()
    with open(os.environ["ENGINE_LOG"], "a", buffering=1) as log:

        def say(text: str) -> None:
            print(text, flush=True)
            log.write(f"engine: {text}\n")

        while True:
            try:
                heard = input().strip()
            except EOFError:
                return
            log.write(f"eboard: {heard}\n")
            if heard.startswith("protover"):
                say(f'feature myname="Player" {FEATURES}')
            elif heard.startswith("ping"):
                say("pong" + heard[4:])
            elif heard == "quit":
                return
            elif moves and (heard == "go" or MOVE.fullmatch(heard)):
                say("move " + moves.pop(0))


if __name__ == "__main__":
    main()
