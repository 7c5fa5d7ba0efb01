"""A client of `dgt-livechess` that behaves like the page lichess.org/dgt, as far as is known.

It lists the boards, subscribes to one, and sets up the position of the game. The moves that a list
has in addition to the list before are new. It sends those of its own side to the server. Those of
the other side are the moves that the player has made on the board.
"""

import asyncio
import json

from cases import SECONDS
from wrong import Wrong, wanted

ORIGIN = "https://lichess.org"
SETUP = 3  # the id of each setup


class Lichess:
    """The page. `lists` has each list of moves that came since the position was set up, `sent` the
    moves that it has sent to the server, and `refused` what it can't make a move of. `expected` is
    the last move of the other side."""

    def __init__(self, dgt, socket):
        self.dgt, self.socket = dgt, socket
        self.lists, self.sent, self.events, self.replies = [], [], [], {}
        self.state, self.is_white, self.number = None, True, 3
        self.expected, self.refused = None, []
        self.news = asyncio.Condition()
        self.hearing = asyncio.create_task(self.hear())

    async def close(self):
        await self.socket.close()
        await self.hearing

    async def say(self, message):
        await self.socket.send(json.dumps(message, separators=(",", ":")))

    async def ask(self, call, param=None):
        """Makes a call, and returns the reply."""
        self.number += 1
        number = self.number
        await self.say({"id": number, "call": call, "param": param})
        await self.until(f"a reply to {call}", lambda: number in self.replies)
        return self.replies.pop(number)

    async def boards(self):
        return (await self.ask("eboards"))["param"]

    async def subscribe(self, serial, feed=1):
        return await self.ask("subscribe", {"feed": "eboardevent", "id": feed,
                                            "param": {"serialnr": serial}})

    async def set_up(self, state, is_white=True, feed=1):
        """Begins to play from this state."""
        self.state, self.is_white = state, is_white
        await self.say({"id": SETUP, "call": "call", "param": {
            "id": feed, "method": "setup", "param": {"fen": state.fen}}})
        await self.until("a reply to setup", lambda: SETUP in self.replies)
        return self.replies.pop(SETUP)

    async def hear(self):
        async for text in self.socket:
            message = json.loads(text)
            wanted("the parts of a message", set(message), {"response", "id", "param", "time"})
            async with self.news:
                if message["response"] == "feed":
                    self.take(message["param"])
                else:
                    self.replies[message["id"]] = message
                    if message["id"] == SETUP:  # what came before is about another position
                        self.lists, self.events = [], []
                self.news.notify_all()
        async with self.news:
            self.news.notify_all()

    def take(self, event):
        """Notes what is known of the board."""
        self.events.append(event)
        if (moves := event.get("san")) is None or self.lists and moves == self.lists[-1]:
            return
        count = len(moves) - len(self.lists[-1] if self.lists else [])
        self.lists.append(moves)
        for text in moves[len(moves) - count:] if count > 0 and self.state else []:
            self.move(text)

    def move(self, text):
        """A new move of the list. A move of its side is sent, and one of the other side has to be
        the one that the server has named."""
        named = {self.dgt.san(self.state, move): move for move in self.state.moves()}
        is_own, move = self.state.white == self.is_white, named.get(text)
        if move is None or not is_own and move != self.expected:
            self.refused.append(text)
            return
        if is_own:
            self.sent.append(move)
        self.state = self.state.after(move)

    @property
    def last(self):
        return self.events[-1] if self.events else {}

    async def until(self, what, holds):
        try:
            async with asyncio.timeout(SECONDS), self.news:
                while not holds():
                    if self.hearing.done():
                        self.hearing.result()
                        raise Wrong(f"{what}: the connection has ended")
                    await self.news.wait()
        except TimeoutError:
            raise Wrong(f"{what}: not in {SECONDS} s; the last event is {self.last}") from None

    async def moves(self, what, right):
        """Waits until the list is this, and the board shows the position after it."""
        await self.until(f"{what}, moves {right}", lambda: self.last.get("san") == right
                         and self.last["match"])
