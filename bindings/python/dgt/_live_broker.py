"""The boards of `dgt-livechess` that `dgt-broadcast` publishes to a broker."""

import asyncio
import contextlib
import re
from typing import Any

from . import _mqtt, following
from ._live_boards import Board, say
from .errors import BadValue
from .following import BoardView
from .values import Clock, NoClock, Position, Time, Times

_MOST_BOARDS = 1024
_MOST_BYTES = 500
"""The greatest length of a message."""
_TOPICS = [("boards/+/state", 1), ("boards/+/confirmed", 1), ("boards/+", 1), ("boards/+/clock", 1)]
"""A new subscriber gets the last message of each topic, in this order."""
_AWAY = {"silent": following._SILENT, "gone": following._GONE,
         "ended": "nobody publishes the board any more", "unheard": "the broker has gone"}
_CLOCK = re.compile(r"clock (\d+):(\d+):(\d+) (\d+):(\d+):(\d+) (running|stopped) (\S+)( low)?"
                    r"((?: (?:left|right)(?:blocked|permove|fallen))*)")
_FLAGS = ("blocked", "permove", "fallen")
_TURNS = {"white": 0x10, "black": 0x08}


def read_clock(text: str) -> Clock:
    """Reads a text such as `clock 1:30:00 1:29:55 running white`; any other is a `NoClock`.
    `BadValue` if a number is too great."""
    if not (found := _CLOCK.fullmatch(text)):
        return NoClock()
    words = found[10].split()
    left, right = (
        Time(int(found[at]), int(found[at + 1]), int(found[at + 2]),
             sum(1 << bit for bit, flag in enumerate(_FLAGS) if side + flag in words))
        for at, side in ((1, "left"), (4, "right")))
    return Times(left, right, (found[7] == "running") | _TURNS.get(found[8], 0))


class BrokerBoard(Board):
    """A published board. Its name replaces the serial number."""

    def __init__(self, name: str) -> None:
        super().__init__(name, f"boards/{name}")
        self.rank = (int(name), "") if name.isdecimal() else (_MOST_BOARDS, name)
        self._texts = dict.fromkeys(("", "confirmed", "clock", "state"), "")

    def note(self, topic: str, text: str) -> None:
        """Notes a message of one of its topics, without the number of bytes at its beginning.
        `BadValue` if it isn't valid for this topic."""
        texts = {**self._texts, topic: text}
        picture = Position.parse(texts[""]) if texts[""] else None
        view = BoardView(picture, read_clock(texts["clock"]), texts["state"] != "following",
                         _AWAY.get(texts["state"]), texts["confirmed"] == texts[""])
        self._texts = texts
        self.see(view)
        self.turn()


class Broker:
    """Receives a broker's messages in a separate thread, and passes them to the loop. It reconnects
    by itself."""

    def __init__(self, boards: list[Board], host: str, port: int, user: str | None) -> None:
        """`SystemExit` if a module is missing."""
        self._boards, self._known = boards, dict[str, BrokerBoard]()
        self._place, self._said, call = f"{host} port {port}", "", self._call
        client = _mqtt.make_client(_mqtt.load("dgt-livechess"), user)
        client.on_connect = lambda _client, _data, _flags, refused, *_: call(
            self._connected, client, "" if refused == 0 else str(refused))
        client.on_connect_fail = lambda *_: call(self._say, "doesn't answer (start it)")
        client.on_disconnect = lambda *_: call(self._lose)
        client.on_message = lambda _client, _data, message: call(
            self._hear, message.topic, message.payload)
        self._loop = asyncio.get_running_loop()
        _mqtt.begin(client, host, port, lambda text: call(say, text))

    def _call(self, function: Any, *words: Any) -> None:
        with contextlib.suppress(RuntimeError):  # the loop has ended
            self._loop.call_soon_threadsafe(function, *words)

    def _say(self, text: str) -> None:
        """Prints the broker's state if it has changed."""
        if text != self._said:
            say(f"the broker at {self._place} {text}")
        self._said = text

    def _connected(self, client: Any, refused: str) -> None:
        self._say(f"refuses: {refused} (see --user)" if refused else "is there")
        client.subscribe(_TOPICS)

    def _lose(self) -> None:
        if self._said == "is there":
            self._say("has gone; it is tried again until it answers")
        for board in self._known.values():
            board.note("state", "unheard")  # until the broker sends the state again

    def _hear(self, topic: str, payload: bytes) -> None:
        _, name, *below = topic.split("/")
        if len(payload) > _MOST_BYTES or (name not in self._known
                                          and len(self._known) >= _MOST_BOARDS):
            return
        if name not in self._known:
            self._known[name] = BrokerBoard(name)
            self._boards.append(self._known[name])
        text = re.sub(r"^\d+ ", "", payload.decode("ascii", "replace"))
        with contextlib.suppress(BadValue):
            self._known[name].note("".join(below), text)
