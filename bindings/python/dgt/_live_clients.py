"""The clients of `dgt-livechess`, and the messages between them and the server.

Each text message of the WebSocket ws://localhost:1982/api/v1.0 is one JSON object. A client calls,
and the server responds. After `subscribe` the server also sends a message at once and after each
change:

    {"id":1,"call":"eboards"}
    {"response":"call","id":1,"param":[{"serialnr":"12345","state":"ACTIVE",..}],"time":..}
    {"id":2,"call":"subscribe","param":{"feed":"eboardevent","id":1,"param":{"serialnr":"12345"}}}
    {"response":"call","id":2,"param":null,"time":..}
    {"response":"feed","id":1,"param":{"serialnr":"12345","flipped":false,"board":"rnbq..",
        "clock":..,"match":true,"san":["e4"]},"time":..}
    {"id":3,"call":"call","param":{"id":1,"method":"setup","param":{"fen":"rnbq.. w KQkq - 0 1"}}}
    {"id":4,"call":"unsubscribe","param":{"id":1}}
    {"response":"error","id":..,"param":TEXT,..}

`serialnr` is the board's number, or the name of its port before the number is known; `subscribe`
also takes the path of the port, which `source` contains. A feed that names a board by its number
follows it to another port; so does one that names the port, once the number is known. A feed that
names the path stays there. `board` is null until the board has reported its squares and its number,
or no number for 5 seconds, and while another board is on its port, or one that reports no number.

Each feed has its own game, which begins without moves. `setup` begins a new list of moves:

- If the game has reached this position, or one a move before it, its moves so far stay known. If
  they are taken back, there is no `san` until the board shows the position again.
- Otherwise the game waits for the position, also on a turned board. Until then there is no `san`.
- If the board rests in a position that up to four legal moves lead to, in one order, the list
  contains them: they were made while the page or the program was away. After a restart of the
  program the last one has to be a capture, a pawn's move or castling: otherwise the site's last
  moves may be missing on the board.

The maker's description of the interface was not available: this is from knowledge of it, and of the
code of lichess.org. These are certain:

- path, port, calls and their parameters, `response`, `id`, and that `serialnr` is a text
- `board` from White's point of view, and `time` in milliseconds since 1970
- `state` ACTIVE or INACTIVE (the port is disconnected)
- that `san` contains all moves since `setup`, and gets shorter if moves are taken back

The names `flipped` (White's pieces began on the ranks 8 and 7), `source`, `battery` and `comment`
(null) are likely. These are uncertain:

- when `san` is empty and when absent, and whether `board` turns with the board
- the meaning of `match`: here, that the board shows the position after `san`
- `state` DELAYED (in doubt) or NOTRESPONDING
- `clock`: `white` and `black` in seconds, `run`, `time`; lichess.org doesn't read it
- the form of errors, which are the reply to other calls, feeds and methods

A site that may not connect gets the status 403. A connection is closed with the code 1013 if there
are too many clients or the client doesn't read its messages. The code is 1009 after a message that
is too long.
"""

from __future__ import annotations

import asyncio
import contextlib
import importlib
import json
import time
from typing import Any

from ._live_boards import Board, Game, Json
from .errors import BadFen
from .rules import GameState

_MOST_FEEDS, _MOST_WAITING = 8, 256
_MOST_ID = 100
"""The most characters of an id."""
TRY_LATER = 1013
"""The close code for too many clients, and for a client that reads nothing."""


class Refused(Exception):
    """A call that can't be performed."""


class Feed:
    """Sends a client the changes of a board."""

    def __init__(self, client: Client, number: int | str, serial: str, board: Board) -> None:
        self.number, self.serial, self.board = number, serial, board
        self.game: Game = board.new_game()
        self._client = client
        self._last: Json = {}
        self._stays, self._is_by_number = serial == board.source, False
        self._note_number()

    def _note_number(self) -> None:
        """Notes the number of the board, once it is known. Boards that share one stay on their
        ports."""
        number = self.board.view.serial
        if number is None or self._stays or self._is_by_number:
            return
        self._is_by_number = len(self._client.boards_of(number)) < 2
        self._stays = not self._is_by_number
        self.serial = number if self._is_by_number else self.serial

    def is_of(self, board: Board) -> bool:
        """Whether this is still the board with its number: another one may be on its port."""
        return not self._is_by_number or board.view.serial == self.serial

    def _find(self) -> None:
        """Follows the board to its present port."""
        boards = self._client.boards_of(self.serial)
        if boards and self.board not in boards:
            [board, *_] = boards
            self.close()
            self.board = board
            board.watchers.append(self)
            self.game.see(board.view, time.monotonic())
            asyncio.get_running_loop().call_soon(board.turn)

    def look(self) -> None:
        """Sends the state of the board if it has changed."""
        self._note_number()
        if self._is_by_number and (self.board.view.away or not self.is_of(self.board)):
            self._find()
        known = self.board.event(self.game) if self.is_of(self.board) else {
            "flipped": self.game.turned, "board": None, "clock": None, "match": False}
        event = {"serialnr": self.serial, **known}
        if event != self._last:
            self._last = event
            self._client.send("feed", self.number, event)

    def set_up(self, state: GameState) -> None:
        """Continues the game from this state, and sends the result even if nothing has changed."""
        self.board.set_up(self.game, state)
        self._last = {}

    def close(self) -> None:
        self.board.watchers.remove(self)


class Client:
    def __init__(self, boards: list[Board], socket: Any) -> None:
        self._boards, self._socket = boards, socket
        self._feeds = dict[int | str, Feed]()
        self._waiting = asyncio.Queue[str](_MOST_WAITING)
        self._closing: asyncio.Task[None] | None = None

    def send(self, response: str, number: object, param: object) -> None:
        """Queues a message. If the queue is full, the client doesn't read: disconnects it."""
        message = {"response": response, "id": number, "param": param,
                   "time": round(1000 * time.time())}
        try:
            self._waiting.put_nowait(json.dumps(message))
        except asyncio.QueueFull:
            self.close_feeds()
            if self._closing is None:
                self._closing = asyncio.create_task(
                    self._socket.close(TRY_LATER, "too many messages wait"))

    def close_feeds(self) -> None:
        while self._feeds:
            self._feeds.popitem()[1].close()

    async def serve(self) -> None:
        """Answers the client until it disconnects."""
        sending = asyncio.create_task(self._send_all())
        try:
            async for text in self._socket:
                self._hear(text)
        finally:
            sending.cancel()
            self.close_feeds()
            if self._closing is not None:
                await self._closing

    async def _send_all(self) -> None:
        with contextlib.suppress(importlib.import_module("websockets").ConnectionClosed):
            while True:
                await self._socket.send(await self._waiting.get())

    def _hear(self, text: str | bytes) -> None:
        number = None
        try:
            asked = json.loads(text)
            number = _read_id(asked.get("id"))
            answer = self._call(asked.get("call"), asked.get("param") or {})
        except (ValueError, AttributeError, TypeError, KeyError, RecursionError):
            self.send("error", number, "not understood")
        except Refused as why:
            self.send("error", number, str(why)[:200])
        else:
            self.send("call", number, answer)
            for board in {feed.board for feed in self._feeds.values()}:
                board.turn()

    def _call(self, call: object, param: Json) -> object:
        match call:
            case "eboards":
                return [{"serialnr": serial, **board.listed()}
                        for serial, board in self._named().items()]
            case "subscribe":
                self._subscribe(_read_id(param["id"]), param["feed"], param.get("param") or {})
            case "unsubscribe":
                feed = self._feed(param)
                feed.close()
                del self._feeds[feed.number]
            case "call":
                self._set_up(self._feed(param), param["method"], param.get("param") or {})
            case _:
                raise Refused(f"unknown call: {call!r}")
        return None

    def _named(self) -> dict[str, Board]:
        """Returns the boards by their numbers, connected ones first: clients may take the first.
        Those of a broker are sorted by name. If two have the same number, the second one is listed
        by its source."""
        named = dict[str, Board]()
        for board in sorted(self._boards, key=lambda each: (bool(each.view.away), each.rank)):
            named[board.source if board.serial in named else board.serial] = board
        return named

    def boards_of(self, serial: str) -> list[Board]:
        """Returns the connected boards with this number."""
        return [board for board in self._boards
                if board.view.serial == serial and not board.view.away]

    def _subscribe(self, number: int | str | None, feed: object, param: Json) -> None:
        serial, named = param.get("serialnr"), self._named()
        if feed != "eboardevent":
            raise Refused(f"unknown feed: {feed!r}")
        if number is None:
            raise Refused("the id is missing")
        if number in self._feeds:
            raise Refused(f"a feed with the id {number!r} exists already")
        if len(self._feeds) >= _MOST_FEEDS:
            raise Refused(f"there are {_MOST_FEEDS} feeds already")
        board = named.get(str(serial)) or next(
            (each for each in self._boards if serial in (each.name, each.source)), None)
        if board is None:
            raise Refused(f"unknown board: {serial!r}")
        self._feeds[number] = Feed(self, number, str(serial), board)
        board.watchers.append(self._feeds[number])

    def _feed(self, param: Json) -> Feed:
        number = _read_id(param["id"])
        if number is None or (feed := self._feeds.get(number)) is None:
            raise Refused(f"no feed has the id {number!r}")
        return feed

    def _set_up(self, feed: Feed, method: object, param: Json) -> None:
        if method != "setup":
            raise Refused(f"unknown method: {method!r}")
        try:
            feed.set_up(GameState.parse(param["fen"]))
        except BadFen as wrong:
            raise Refused(str(wrong)) from None


def _read_id(held: object) -> int | str | None:
    """Returns an id. `Refused` if it isn't one."""
    if held is None or (isinstance(held, (int, str)) and not isinstance(held, bool)
                        and len(str(held)) <= _MOST_ID):
        return held
    raise Refused("an id must be a number or a short text")
