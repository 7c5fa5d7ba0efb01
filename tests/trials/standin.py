"""A stand-in for the server of apps/broadcast/page: it serves the page, and sends given events. So
the page is tried without a broker and without boards."""

import contextlib
import http.server
import json
import pathlib
import queue
import sys
import threading
import time
import urllib.parse
from typing import Any

sys.path.append(str(pathlib.Path(__file__).resolve().parents[1] / "testing"))
import cases  # the path of the package
import dgt
import pgn_games

PAGE = cases.ROOT / "apps/broadcast/page"
Said = dict[str, Any]
KEPT = pgn_games.read(dgt, (PAGE / "games.pgn").read_text())
# Three games with the names of their players.
OPERA = ("Paul Morphy", "Karl II. and Count Isouard", KEPT[2])
GAMES = (OPERA, ("Adolf Anderssen", "Lionel Kieseritzky", KEPT[0]),
         ("Adolf Anderssen", "Jean Dufresne", KEPT[1]))


def clock(left: int, right: int, **more: Any) -> Said:
    """A clock that runs on White's side, which is the left one. It showed these times `age` ms
    ago."""
    times = {"left": left, "right": right, "running": True, "turn": "white", "low": False,
             "fallen": [], "at": now() - more.pop("age", 0)} | more
    sides = {"white": "left", "black": "right"}
    return {"runs": sides[times["turn"]] if times["running"] else None} | times


def now() -> int:
    """The server's time, in milliseconds."""
    return round(1000 * time.time())


def board(name: str, **more: Any) -> Said:
    """A board in the starting position, of which nothing else is known."""
    said = {"board": name, "count": 67, "placement": dgt.Position.start().placement,
            "state": "following", "players": None, "clock": None, "game": None}
    return {**said, **more}


def in_game(name: str, number: int, plies: int, **more: Any) -> Said:
    """A board after some plies of one of the games, with a clock that runs."""
    white, black, kept = GAMES[number % len(GAMES)]
    played, state = kept.moves[:plies], dgt.GameState.start()
    for move in played:
        state = state.after(move)
    last = [played[-1][:2], played[-1][2:4]] if played else None
    is_white, first = plies % 2 == 0, max(0, plies - 12)
    game = {"moves": kept.san[first:plies], "number": first // 2 + 1, "last": last,
            "to_move": "white" if is_white else "black", "white_side": "left",
            "result": "1-0" if plies == len(kept.moves) else "*"}
    times = clock(5400 - 67 * plies, 5400 - 59 * plies, running=game["result"] == "*",
                  turn=game["to_move"])
    known = {"players": {"white": white, "black": black}, "clock": times, "game": game}
    placement = dgt.Position.of_letters(state.letters).placement
    return board(name, count=67 + 10 * plies, placement=placement, **known) | more


def record(number: int, plies: int) -> Said:
    """The whole game of a board that is `in_game`."""
    known = [in_game("", number, count) for count in range(plies + 1)]
    return {"number": 1, "is_white_first": True, "result": known[-1]["game"]["result"],
            "moves": GAMES[number % len(GAMES)][2].san[:plies],
            "clocks": [5400 - 30 * ply for ply in range(plies)],
            "squares": [one["game"]["last"] for one in known[1:]],
            "placements": [one["placement"] for one in known]}


class StandIn:
    """The server. Its events are those of `known` and then each that is sent."""

    def __init__(self, *known: Said) -> None:
        self.known = {one["board"]: one for one in known}
        self.broker, self.pages, self.lock = True, set[queue.Queue[Said | None]](), threading.Lock()
        self.records: dict[str, Said] = {}
        self.event = self.round = ""
        self.quiet = 15.0  # seconds after which a page is sent something, as by web.py
        self.late = 0  # milliseconds that what a page begins with is late
        self.server: http.server.ThreadingHTTPServer | None = None
        self.port = 0
        self.start()

    @property
    def url(self) -> str:
        return f"http://127.0.0.1:{self.port}/"

    def start(self) -> None:
        """Serves, at the port of before if there was one."""
        stand_in = self

        class Visit(http.server.BaseHTTPRequestHandler):
            def do_GET(self) -> None:
                stand_in.visit(self)

            def log_message(self, *_: Any) -> None:
                pass

        self.server = http.server.ThreadingHTTPServer(("127.0.0.1", self.port), Visit)
        self.server.daemon_threads = True
        self.port = self.server.server_port
        threading.Thread(target=self.server.serve_forever, args=(0.05,), daemon=True).start()

    def stop(self) -> None:
        if self.server:
            self.server.shutdown()
            self.server.server_close()
            self.server = None
        with self.lock:
            for page in self.pages:
                page.put(None)
            self.pages.clear()

    def visit(self, asked: http.server.BaseHTTPRequestHandler) -> None:
        path, _, query = asked.path.partition("?")
        kind = {"/": "text/html; charset=utf-8", "/events": "text/event-stream",
                "/game.json": "application/json"}.get(path)
        asked.send_response(200 if kind else 404)
        asked.send_header("Content-Type", kind or "text/plain")
        asked.end_headers()
        if path == "/":
            asked.wfile.write((PAGE / "index.html").read_bytes())
        elif path == "/game.json":
            name = urllib.parse.parse_qs(query)["board"][0]
            asked.wfile.write(json.dumps(self.records.get(name)).encode())
        elif kind:
            self.send_events(asked)

    def send_events(self, asked: http.server.BaseHTTPRequestHandler) -> None:
        page = queue.Queue[Said | None]()
        with self.lock:
            page.put(self.first())
            self.pages.add(page)
        with contextlib.suppress(OSError):  # the page was closed
            asked.wfile.write(b"retry: 500\n\n")
            while event := self.next(page):
                asked.wfile.write(event)
        with self.lock:
            self.pages.discard(page)

    def next(self, page: queue.Queue[Said | None]) -> bytes:
        """What a page is sent next: also something if nothing is new, or nothing at the end."""
        try:
            event = page.get(timeout=self.quiet)
        except queue.Empty:
            return b"event: quiet\ndata:\n\n"
        return b"data: " + json.dumps(event).encode() + b"\n\n" if event else b""

    def first(self) -> Said:
        return {"broker": self.broker, "now": now() - self.late, "event": self.event,
                "round": self.round, "boards": list(self.known.values())}

    def tell(self, event: Said) -> None:
        event = {"now": now(), **event}
        with self.lock:
            for page in self.pages:
                page.put(event)

    def send(self, *changed: Said) -> None:
        """Boards that have changed."""
        for one in changed:
            self.known[one["board"]] = one
            self.tell(one)

    def replace(self, *known: Said) -> None:
        """Sends all boards again, as after a return of the broker."""
        self.known = {one["board"]: one for one in known}
        self.tell(self.first())

    def set_broker(self, is_there: bool) -> None:
        self.broker = is_there
        self.tell(self.first())
