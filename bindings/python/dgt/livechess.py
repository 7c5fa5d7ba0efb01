"""Serves boards to lichess.org and other sites that use the program LiveChess.

Examples:
  $ dgt-livechess
  $ dgt-livechess /dev/ttyUSB0 --clock

It replaces LiveChess, the program of the boards' maker, and opens the same
WebSocket on this machine: ws://localhost:1982/api/v1.0. A site such as
https://lichess.org/dgt connects to it, and gets each move that is made on the
board. The section "Play on Lichess" of GUIDE.md is for players.

Without a PORT it follows each serial port with a USB device that is likely a
board, even one that is plugged in later. With --broker it gets the boards that
dgt-broadcast publishes, so that dgt-page and other programs can show them, too.

A move is sent once it has rested and the board has confirmed it. If it is taken
back, the list of moves gets shorter. A position that a site sets up continues
the moves so far, or begins a game once the board shows it.

Of web pages only those of https://lichess.org may connect (but see --origin).

Limits: 32 clients, 8 feeds for each, 256 messages that wait for a client to
read them, and 65536 bytes for a message of a client.
"""

import argparse
import asyncio
import contextlib
import importlib
import inspect
import logging
import signal
import sys
import urllib.parse
from collections.abc import Sequence
from typing import Any

from ._live_boards import Board, say
from ._live_broker import Broker
from ._live_clients import TRY_LATER, Client
from ._live_ports import PortBoard, look_for_ports
from ._manual import make_parser

_PATH, _PORT = "/api/v1.0", 1982
_ORIGINS = ("https://lichess.org", None)
"""The sites that may connect; the others are refused. `None` is a program that names no site."""
_DEFAULT_PORTS = {"https": 443, "http": 80}
_MOST_CLIENTS, _MOST_BYTES, _MOST_SENT = 32, 1 << 16, 16
_NO_SUCH_PATH = 1008
_MOST_OPENING, _OPEN_WAIT = 64, 5.0
"""The most connections without a handshake, and the seconds that each may last."""
_SAID_AGAIN = 60.0
"""The seconds after which a lack of file descriptors is printed again."""
_LAST_WAIT = 3.0
"""The seconds to wait for clients at the end."""


class Server:
    """The WebSocket, and the boards."""

    def __init__(self, args: argparse.Namespace) -> None:
        """`SystemExit` if a module is missing."""
        self._args, self._boards, self._count = args, list[Board](), 0
        self._opening, self._lacked_at = list[Any](), float("-inf")
        try:
            self._websockets: Any = importlib.import_module("websockets")
        except ImportError:
            sys.exit("dgt-livechess: no module websockets (install Debian's python3-websockets)")

    async def run(self) -> None:
        """Serves until a signal arrives. `SystemExit` if the port can't be opened."""
        args, stop, loop = self._args, asyncio.Event(), asyncio.get_running_loop()
        for number in (signal.SIGINT, signal.SIGTERM, signal.SIGHUP):
            if signal.getsignal(number) is not signal.SIG_IGN:
                loop.add_signal_handler(number, stop.set)
        loop.set_exception_handler(self._note_fault)
        try:
            server = await self._serve()
        except OSError as fault:
            sys.exit(f"dgt-livechess: port {args.port}: {fault} (end LiveChess and other programs "
                     "that use it, or see --port)")
        say(f"ws://localhost:{args.port}{_PATH} (stop with Ctrl-C)")
        looking = self._follow()
        await stop.wait()
        if looking is not None:
            looking.cancel()
        await self._leave_all()
        server.close()
        with contextlib.suppress(TimeoutError):
            await asyncio.wait_for(server.wait_closed(), _LAST_WAIT)
        for board in self._boards:
            board.close()

    async def _serve(self) -> Any:
        serve, origins = self._websockets.serve, [*_ORIGINS, *self._args.origin]
        has_protocols = "create_protocol" in inspect.signature(serve).parameters
        how: dict[str, Any] = {"open_timeout": _OPEN_WAIT}
        if has_protocols:
            how = {"create_protocol": self._open}
        return await serve(self._visit, "localhost", self._args.port, origins=origins,
                           max_size=_MOST_BYTES, max_queue=_MOST_SENT, compression=None,
                           close_timeout=2, **how)

    def _open(self, *words: Any, **names: Any) -> Any:
        """Makes the object that serves a connection, and drops one without a handshake: versions of
        the module up to 13 wait for it for ever."""
        made = self._websockets.WebSocketServerProtocol(*words, **names)
        self._opening.append(made)
        asyncio.get_running_loop().call_later(_OPEN_WAIT, self._leave, made)
        if len(self._opening) > _MOST_OPENING:
            self._leave(self._opening[0])
        return made

    def _leave(self, made: Any) -> None:
        """Ends a connection that is still without a handshake."""
        if made in self._opening and not hasattr(made, "transport"):  # not connected yet
            asyncio.get_running_loop().call_soon(self._leave, made)
        elif made in self._opening:
            self._opening.remove(made)
            if not made.open:
                made.transport.abort()

    async def _leave_all(self) -> None:
        """Ends all of them, and waits: the module fails if it is closed while one of them ends."""
        ending = [made.handler_task for made in self._opening
                  if hasattr(made, "handler_task") and not made.open]
        for made in self._opening.copy():
            self._leave(made)
        if ending:
            await asyncio.wait(ending, timeout=_LAST_WAIT)

    def _note_fault(self, loop: asyncio.AbstractEventLoop, context: dict[str, Any]) -> None:
        """Prints an exception that nobody has caught. A failure to accept a connection is tried
        again each second, and printed once."""
        fault, now = context.get("exception"), loop.time()
        if not isinstance(fault, OSError) or "accept" not in context["message"]:
            loop.default_exception_handler(context)
        elif now > self._lacked_at + _SAID_AGAIN:
            say(f"can't accept more connections now: {fault.strerror} (trying again)")
            self._lacked_at = now

    def _follow(self) -> asyncio.Task[None] | None:
        """Begins to follow the boards. Returns the task that looks for more of them."""
        args, shows = self._args, (self._args.clock, self._args.leds)
        if args.broker:
            Broker(self._boards, args.broker, args.broker_port, args.user)
        elif not args.ports:
            return asyncio.create_task(look_for_ports(self._boards, *shows))
        for port in args.ports:
            try:
                self._boards.append(PortBoard(port, *shows))
            except OSError as fault:
                sys.exit(f"dgt-livechess: {port}: {fault.strerror}")
        return None

    async def _visit(self, socket: Any) -> None:
        request = getattr(socket, "request", socket)  # since version 13 of the module
        headers = getattr(request, "headers", None) or socket.request_headers
        if request.path.rstrip("/") != _PATH:
            await socket.close(_NO_SUCH_PATH, f"the path must be {_PATH}")
        elif self._count >= _MOST_CLIENTS:
            await socket.close(TRY_LATER, f"{_MOST_CLIENTS} clients are connected already")
        else:
            who = headers.get("Origin") or "a program"
            say(f"{who} is connected")
            self._count += 1
            try:
                await Client(self._boards, socket).serve()
            except self._websockets.ConnectionClosed:
                pass
            finally:
                self._count -= 1
                say(f"{who} is no longer connected")


def _a_port(text: str) -> int:
    if text.isdecimal() and 0 < int(text) < 65536:
        return int(text)
    raise argparse.ArgumentTypeError(f"not a number from 1 to 65535: {text!r}")


def _an_origin(text: str) -> str:
    """Returns an origin as browsers send it."""
    with contextlib.suppress(ValueError):
        parts = urllib.parse.urlsplit(text.strip())
        port = parts.port if parts.port != _DEFAULT_PORTS.get(parts.scheme) else None
        if parts.scheme in _DEFAULT_PORTS and parts.hostname and (
                parts.path in ("", "/") and "@" not in parts.netloc
                and not parts.query and not parts.fragment):
            host = f"[{parts.hostname}]" if ":" in parts.hostname else parts.hostname
            return f"{parts.scheme}://{host}" + ("" if port is None else f":{port}")
    raise argparse.ArgumentTypeError(f"not an origin such as https://example.org: {text!r}")


def _read_words(arguments: Sequence[str] | None) -> argparse.Namespace:
    parser = make_parser("dgt-livechess", __doc__)
    parser.add_argument("ports", nargs="*", metavar="PORT",
                        help="a board's serial port, such as /dev/ttyUSB0")
    parser.add_argument("--broker", metavar="HOST",
                        help="the broker to which dgt-broadcast publishes the boards")
    parser.add_argument("--broker-port", type=_a_port, default=1883, metavar="PORT",
                        help="the broker's port (%(default)s)")
    parser.add_argument("--user", help="a user of the broker; MQTT_PASSWORD contains the password")
    parser.add_argument("--port", type=_a_port, default=_PORT, metavar="PORT",
                        help="the port of the WebSocket (%(default)s)")
    parser.add_argument("--origin", action="append", type=_an_origin, default=[], metavar="ORIGIN",
                        help="another site that may connect, such as https://example.org")
    parser.add_argument("--clock", action="store_true",
                        help="the board's clock shows a move that a site has set up, until it "
                        "is made on the board")
    parser.add_argument("--leds", action="store_true", help="the board's lights show it, too")
    args = parser.parse_args(arguments)
    if args.broker and (args.ports or args.clock or args.leds):
        parser.error("--broker can't be combined with a PORT, --clock or --leds")
    return args


def main(arguments: Sequence[str] | None = None) -> None:
    """Runs the program `dgt-livechess` with these arguments, or those of the process."""
    server = Server(_read_words(arguments))
    logging.getLogger("websockets").setLevel(logging.CRITICAL)  # ignore faults of clients
    asyncio.run(server.run())
