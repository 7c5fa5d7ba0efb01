"""Reads all that a page gives out: answers, events, files and pushes. Compares it with the moves
that were made so far."""

import collections
import contextlib
import http.client
import http.server
import json
import random
import re
import threading
import time

import pgn_games

PATHS = ("games.pgn", "boards.json", "game.json")
FILES = {"the file of the round": "rounds/round-1.pgn", "the file of --pgn": "games.pgn"}
TOKEN = "token-of-a-trial"
ANSWERS = (*PATHS, "events")


class Pushed(http.server.BaseHTTPRequestHandler):
    """An address of pushes, which takes one after the other."""

    def do_POST(self):
        size = int(self.headers["Content-Length"])
        text = self.rfile.read(size)
        self.send_response(200)
        self.end_headers()
        if len(text) == size:  # else the page was killed meanwhile
            self.server.hear(text.decode())

    def log_message(self, *_):
        pass


class Outlets:
    """What `seats` are playing, and what a page says of it. `wrong` has what isn't so."""

    def __init__(self, path, port, count):
        self.path, self.port, self.seats, self.is_over = path, port, {}, False
        self.names = [str(number) for number in range(1, count + 1)]
        # The most half-moves that each board has had in an outlet, and in any answer before the
        # page was killed last.
        self.most = collections.defaultdict(lambda: dict.fromkeys(self.names, 0))
        self.least = dict.fromkeys(self.names, 0)
        self.wrong, self.broken, self.counts = [], set(), collections.Counter()
        self.server = http.server.HTTPServer(("127.0.0.1", 0), Pushed)
        self.server.hear = lambda text: self.check("pushes", self.games(text))
        (path / "token").write_text(TOKEN)
        (path / "token").chmod(0o600)
        self.words = ["--round", "1", "--rounds", "rounds", "--push-token", "token", "--push",
                      f"http://127.0.0.1:{self.server.server_port}/"]

    def begin(self, seats):
        self.seats = {str(seat.number): seat for seat in seats}
        for run in (self.server.serve_forever, self.ask, self.hear_events, self.read_files):
            threading.Thread(target=run, daemon=True).start()

    def end(self):
        self.is_over = True
        self.server.shutdown()
        self.server.server_close()

    def note_kill(self):
        """The page was killed: what was answered before has to be in each later answer."""
        for outlet in ANSWERS:
            for name in self.names:
                self.least[name] = max(self.least[name], self.most[outlet][name])

    # ---- Comparing

    def check(self, outlet, found, least=None):
        """Compares boards with what was made: each has a number of half-moves, and the last of
        them."""
        self.counts[outlet] += 1
        for name, (count, words) in found.items():
            if name in self.broken:
                continue
            made = self.seats[name].words
            most = max(self.most[outlet][name], (least or {}).get(name, 0))
            if words != made[count - len(words):count]:
                self.refuse(f"{outlet}: board {name} has {words[-4:]} after {count - len(words)} "
                            f"half-moves instead of {made[count - len(words):count]}")
            elif count < most:
                self.refuse(f"{outlet}: board {name} has {count} half-moves after {most}")
            self.most[outlet][name] = max(self.most[outlet][name], count)

    def refuse(self, why):
        if len(self.wrong) < 20:
            self.wrong.append(f"{time.strftime('%H:%M:%S')} {why}")

    def games(self, text):
        """The half-moves of each board in a PGN. All boards that had some have to be there."""
        found = dict.fromkeys(self.names, (0, []))
        for tags, words in pgn_games.split(text):
            name = tags["Board"]
            if name not in self.broken and (found[name][0] or "FEN" in tags):
                self.broken.add(name)
                self.refuse(f"the game on board {name} is broken off")
            moves = [word for word in words if not re.match(r"\d|\{|\*", word)]
            found[name] = len(moves), moves
        return found

    def board(self, event):
        """The half-moves of a board's event."""
        game = event["game"]
        if not game:
            return {event["board"]: (0, [])}
        moves = game["moves"]
        is_black_first = (len(moves) % 2 == 0) == (game["to_move"] == "black")
        return {event["board"]: (2 * (game["number"] - 1) + is_black_first + len(moves), moves)}

    def boards(self, events):
        found = dict.fromkeys(self.names, (0, []))
        for event in events:
            found |= self.board(event)
        return found

    # ---- Reading

    def ask(self):
        """Asks for everything, all the time."""
        chance = random.Random(1)
        while not self.is_over:
            for path in PATHS:
                least, name = dict(self.least), chance.choice(self.names)
                with contextlib.suppress(OSError, http.client.HTTPException):
                    text = self.get(f"/{path}?board={name}" if path == "game.json" else f"/{path}")
                    found = (self.games(text) if path == "games.pgn"
                             else self.boards(json.loads(text)["boards"]) if path == "boards.json"
                             else {name: self.record(json.loads(text))})
                    self.check(path, found, least)
            time.sleep(0.1)

    def record(self, game):
        return (len(game["moves"]), game["moves"]) if game else (0, [])

    def get(self, path):
        with contextlib.closing(http.client.HTTPConnection("127.0.0.1", self.port,
                                                           timeout=60)) as link:
            link.request("GET", path)
            answer = link.getresponse()
            if answer.status != 200:
                self.refuse(f"{path}: the status {answer.status}")
            return answer.read().decode()

    def hear_events(self):
        """Is an open page, which connects again."""
        while not self.is_over:
            least = dict(self.least)
            with contextlib.suppress(OSError, http.client.HTTPException), contextlib.closing(
                    http.client.HTTPConnection("127.0.0.1", self.port, timeout=60)) as link:
                link.request("GET", "/events")
                for line in link.getresponse():
                    if line.startswith(b"data: "):
                        event = json.loads(line[6:])
                        found = (self.boards(event["boards"]) if "boards" in event
                                 else self.board(event) if "board" in event else {})
                        self.check("events", found, least)
            time.sleep(0.05)

    def read_files(self):
        """Reads the file of the round and that of --pgn, once they are there."""
        while not self.is_over:
            for outlet, name in FILES.items():
                with contextlib.suppress(FileNotFoundError):
                    self.check(outlet, self.games((self.path / name).read_text()))
            time.sleep(0.2)

    def line(self):
        """How much was compared."""
        return ", ".join(f"{count:,} of {outlet}" for outlet, count in sorted(self.counts.items()))
