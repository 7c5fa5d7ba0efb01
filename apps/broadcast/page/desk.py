"""The arbiter's desk: a page at a separate address, which shows all boards without the delay and
takes corrections."""

import base64
import binascii
import hashlib
import hmac
import html
import pathlib
import re
import secrets
import string
import threading
import time
import urllib.parse
from collections.abc import Callable
from dataclasses import dataclass, field
from typing import Any

import dgt

import collector
import corrected_games
import corrections
import pairings
import topics
import views
import web
from corrections import RESULTS, Refused
from corrected_games import Wanted

TEMPLATE = pathlib.Path(__file__).resolve().parent / "desk.html"
WAIT = 1.0  # seconds before a wrong password is refused
# All browsers together may send this many wrong passwords, and then one each time this many
# seconds have passed.
MOST_WRONG, EACH = 20, 12.0
SHOWN = 20  # corrections
# What is said of a board with moves after a result.
GOES_ON = "goes on after the result"
GOES_ON_ADVICE = ("these moves are in no game. If the result was a mistake, keep the result *, and "
                  "add the moves that are missing.")
FIELDS = {  # of each form, besides `board` and `game`
    "result": ("result", "why"), "moves": ("before", "moves"), "tags": ("White", "Black", "Round"),
    "clock": ("side",), "swap": ("other",), "round": ("round",)}
LOCAL = ("localhost", "127.0.0.1", "[::1]")
HEADS = {"Cache-Control": "no-store", "X-Content-Type-Options": "nosniff",
         "X-Frame-Options": "DENY", "Referrer-Policy": "same-origin"}
PIECES = {ord(letter): f"{chr(0x2654 + at)}\ufe0e" for at, letter in enumerate("KQRBNPkqrbnp")}
Form = dict[str, str]
quoted = html.escape


class Tries:
    """The wrong passwords that browsers may still send."""

    def __init__(self) -> None:
        self.lock, self.left, self.at = threading.Lock(), float(MOST_WRONG), time.monotonic()

    def take(self) -> bool:
        """Takes one, if any is left."""
        with self.lock:
            now = time.monotonic()
            self.left, self.at = min(MOST_WRONG, self.left + (now - self.at) / EACH), now
            is_left = self.left >= 1
            self.left -= is_left
            return is_left

    def give_back(self) -> None:
        with self.lock:
            self.left += 1


@dataclass
class Source:
    """The boards and games of the desk, and the store of corrections. `status` yields lines about
    the server."""

    boards: Any
    games: corrected_games.CorrectedGames
    password: str | None
    status: Callable[[], list[tuple[str, bool]]]
    metrics: Callable[[], str]
    rounds: pairings.Rounds | None = None
    tries: Tries = field(default_factory=Tries)

    def __post_init__(self) -> None:
        key = self.password.encode() if self.password else secrets.token_bytes()
        self.token, self.cookie = (hmac.digest(key, what, "sha256").hex() for what in (
            b"a form of the desk", b"a browser that knows the password"))


class Desk(web.Visit):
    """One request of an arbiter's browser."""

    source: Source
    heads: dict[str, str] = {}

    def do_GET(self) -> None:
        path, _, query = self.path.partition("?")
        if "Content-Length" in self.headers or "Transfer-Encoding" in self.headers:
            self.close_connection = True  # the rest isn't read, and isn't another request
        if not self.is_let_in():
            return
        if path in ("/", "/desk"):
            self.show(dict(urllib.parse.parse_qsl(query)))
        elif path == "/metrics":
            self.answer(200, "text/plain; version=0.0.4", self.source.metrics())
        elif path == "/games.pgn":
            self.answer(200, "application/x-chess-pgn",
                        self.source.games.shelf.pgn()[0].decode(errors="replace"))
        else:
            self.answer(404, "text/plain", "page not found\n")

    def do_POST(self) -> None:
        length = self.headers.get("Content-Length", "")
        self.close_connection = True
        if not length.isdecimal() or int(length) > web.MOST_BODY:
            return self.answer(413, "text/plain",
                               f"not kept: a form has at most {web.MOST_BODY:,} bytes\n")
        body = self.rfile.read(int(length))
        if not self.is_let_in():
            return
        form = dict(urllib.parse.parse_qsl(body.decode(errors="replace"), keep_blank_values=True))
        if not self.is_of_desk(form):
            return self.answer(403, "text/plain", "this form isn't the desk's: open it again\n")
        fields = ("board", "game", *FIELDS.get(form.get("kind", ""), ("kind",)))
        if lacks := [each for each in fields if each not in form]:
            return self.answer(400, "text/plain", f"not kept: the form lacks {', '.join(lacks)}\n")
        place = {name: form[name] for name in ("board", "game") if form[name]}
        try:
            self.correct(form)
        except (Refused, dgt.DgtError) as fault:
            return self.show(place, str(fault), form)
        self.answer(303, "text/plain", "", Location=f"/desk?{urllib.parse.urlencode(place)}"
                    f"&kept={urllib.parse.quote(form['kind'])}")

    # ---- Access

    def is_let_in(self) -> bool:
        """Whether the browser knows the password; without one, whether it uses this machine's own
        name, which no page from elsewhere can."""
        password, given = self.source.password, self.headers.get("Authorization", "")
        if password is None:
            host = self.headers.get("Host", "")
            if (host.rpartition(":")[0] or host) in LOCAL or host in LOCAL:
                return True
            self.answer(403, "text/plain", "the desk is at http://localhost\n")
            return False
        asks = {"WWW_Authenticate": 'Basic realm="desk", charset="UTF-8"'}
        if not given:
            return self.refuse(401, "the desk needs a password\n", **asks)
        tries, is_known = self.source.tries, self.is_known()
        if not is_known and not tries.take():
            return self.refuse(429, "too many wrong passwords: try again in a minute\n",
                               Retry_After="60")
        if not is_password(given, password):
            collector.report(f"the desk: a wrong password from {self.client_address[0]}")
            self.pause = WAIT
            return self.refuse(401, "the desk needs a password\n", **asks)
        if not is_known:
            tries.give_back()
        self.heads = {"Set-Cookie": f"desk={self.source.cookie}; HttpOnly; SameSite=Strict"}
        return True

    def is_known(self) -> bool:
        """Whether the browser has sent the right password before: others' wrong ones don't keep it
        out."""
        right = f"desk={self.source.cookie}".encode()
        return any(hmac.compare_digest(each.strip().encode(), right)
                   for each in self.headers.get("Cookie", "").split(";"))

    def refuse(self, status: int, text: str, **heads: str) -> bool:
        self.close_connection = True
        self.answer(status, "text/plain", text, **heads)
        return False

    def is_of_desk(self, form: Form) -> bool:
        """Whether a form belongs to this desk, and not to another page."""
        origin = self.headers.get("Origin")
        is_own = origin is None or (urllib.parse.urlsplit(origin).netloc
                                    == self.headers.get("Host", ""))
        site = self.headers.get("Sec-Fetch-Site", "same-origin")
        token = form.get("token", "").encode()
        return (is_own and site in ("same-origin", "none")
                and hmac.compare_digest(token, self.source.token.encode()))

    def answer(self, status: int, kind: str, text: str, **heads: str) -> None:
        more = {name.replace("_", "-"): value for name, value in heads.items()}
        own = HEADS | self.heads | {"Content-Type": f"{kind}; charset=utf-8"}
        self.reply(status, own | more, text.encode(errors="replace"))

    # ---- The pages

    def show(self, query: Form, fault: str = "", form: Form | None = None) -> None:
        """Sends the page of all boards, or of one. A refused form contains the typed text."""
        nonce, name = secrets.token_urlsafe(16), query.get("board", "")
        said = ""
        if fault:
            said = f'<p role="alert" class="bad">Not kept: {quoted(fault)}</p>'
        elif "kept" in query:
            said = f'<p role="status" class="good">Kept: {quoted(query["kept"][:20])}</p>'
        try:
            title, live, forms = (self.board(name, query.get("game", ""), form or {}) if name
                                  else ("Desk", self.overview(), self.form_of_rounds()))
        except Refused as missing:
            fault, title, forms = str(missing), "Desk", ""
            live = f'<p class="bad">{quoted(fault)}</p>{self.overview()}'
        page = string.Template(TEMPLATE.read_text()).substitute(
            nonce=nonce, title=quoted(title), said=said, live=live, forms=forms)
        policy = (f"default-src 'none'; style-src 'nonce-{nonce}'; script-src 'nonce-{nonce}'; "
                  "connect-src 'self'; form-action 'self'; base-uri 'none'; frame-ancestors 'none'")
        self.answer(409 if fault else 200, "text/html", page, Content_Security_Policy=policy)

    def overview(self) -> str:
        lines = "".join(f"<p{' class=bad' if is_bad else ''}>{quoted(text)}</p>"
                        for text, is_bad in self.source.status())
        events = sorted(self.source.boards.now()["boards"],
                        key=lambda event: collector.natural(event["board"]))
        rows = "".join(map(self.row, events))
        heads = "".join(f'<th scope="col"{more}>{head}</th>' for head, more in (
            ("Board", ""), ("White", ""), ("Black", ""), ("Clock", ""),
            ("Last moves", ' class="more"'), ("Result", ""), ("State", "")))
        return (f'{lines}<div class="wide"><table><caption>Boards</caption><thead><tr>{heads}</tr>'
                f"</thead><tbody>{rows}</tbody></table></div>{self.corrections()}")

    def row(self, event: dict[str, Any]) -> str:
        name, game, players = event["board"], event["game"], event["players"]
        link = (f'<a href="/desk?{urllib.parse.urlencode({"board": name})}" '
                f'aria-label="Board {quoted(name)}">{quoted(name)}</a>')
        white, black = (views.player(players, each) if players else "?"
                        for each in ("white", "black"))
        state, advice = event["state"], advice_of(game)
        if advice and state in ("following", "unknown"):
            state = f"lost: {advice}"
        elif game and game["goes_on"] and state in ("following", "unknown"):
            state = GOES_ON
        mark = "" if state == "following" else ' class="bad"'
        return (f'<tr><th scope="row">{link}</th><td>{quoted(white)}</td><td>{quoted(black)}</td>'
                f'<td>{self.clocks(event)}</td>'
                f'<td class="more">{quoted(last_moves(game))}</td>'
                f'<td>{quoted(game["result"] if game else "no game")}</td>'
                f'<td{mark}>{quoted(state)}</td></tr>')

    def clocks(self, event: dict[str, Any]) -> str:
        return clocks(event, self.source.boards.broker)

    def corrections(self) -> str:
        items = "".join(
            f"<li>{time.strftime('%H:%M:%S', time.localtime(at))} "
            f"{quoted(f'board {board}: ' if board else '')}{quoted(described(entry))}</li>"
            for board, at, entry in self.source.games.state.corrections(SHOWN))
        return f"<h2>Last corrections</h2><ul>{items}</ul>" if items else ""

    def board(self, name: str, number: str, form: Form) -> tuple[str, str, str]:
        """The title, the live part, and the forms of a board."""
        games = self.source.games
        table = games.tables.get(name)
        last = table.place.count if table else games.counts.get(name, 0)
        chosen = number_of(number) if number else last
        game = games.game(name, chosen) if chosen else None
        event = next((each for each in self.source.boards.now()["boards"]
                      if each["board"] == name), None)
        links = " ".join(
            f'<a href="/desk?{urllib.parse.urlencode({"board": name, "game": each})}"'
            f'{current(each == chosen)}>Game {each}</a>' for each in range(1, last + 1))
        now = "" if event is None or chosen != last else (
            f'<p>{quoted(event["state"])}</p><p>{self.clocks(event)}</p>'
            f"{diagram(event['placement'])}")
        if now and event and (advice := advice_of(event["game"])):
            now += f'<p class="bad">No move leads to this: {quoted(advice)}</p>'
        if now and event and event["game"] and event["game"]["goes_on"]:
            now += f'<p class="bad">The board {GOES_ON}: {GOES_ON_ADVICE}</p>'
        told = shown(game) if game else "No game has begun on this board."
        live = f'<p><a href="/desk">All boards</a> {links}</p>{now}<p>{quoted(told)}</p>'
        title = f"Board {name}, game {chosen}" if game else f"Board {name}"
        parts = self.forms_of_game(name, chosen, game, form) if game else []
        parts += self.forms_of_board(name, chosen) if chosen == last else []
        return title, live, "".join(parts)

    def form(self, place: Form, kind: str, head: str, fields: str) -> str:
        hidden = "".join(
            f'<input type="hidden" name="{name}" value="{quoted(value)}">'
            for name, value in {"token": self.source.token, "kind": kind, **place}.items())
        return (f'<form method="post" action="/desk?{quoted(urllib.parse.urlencode(place))}" '
                f'aria-label="{head}"><h2>{head.capitalize()}</h2>{hidden}{fields}'
                f"<button>Keep: {head}</button></form>")

    def forms_of_game(self, name: str, number: int, game: dgt.PgnGame, typed: Form) -> list[str]:
        place, tags = {"board": name, "game": str(number)}, game.tags
        moves = typed["moves"] if typed.get("kind") == "moves" else moves_of(game)
        return [
            self.form(place, "result", "result", select("Result", "result", RESULTS, game.result)
                      + select("Reason", "why", corrections.REASONS,
                               tags.get("Termination", "normal"))),
            self.form(place, "moves", "moves", '<label class="wide">Moves, corrected as they were '
                      f'played<textarea name="moves" rows="6" spellcheck="false">{quoted(moves)}'
                      '</textarea></label>'
                      f'<input type="hidden" name="before" value="{mark_of(game)}">'),
            self.form(place, "tags", "players", "".join(
                f'<label>{each} <input name="{each}" value="{quoted(tags.get(each, "?"))}"></label>'
                for each in ("White", "Black", "Round"))),
        ]

    def form_of_rounds(self) -> str:
        if (rounds := self.source.rounds) is None:
            return ""
        return self.form({"board": "", "game": ""}, "round", "next round", (
            f'<label>Round <input name="round" value="{quoted(rounds.following)}"></label> '
            "Games that begin from now on belong to it."))

    def forms_of_board(self, name: str, number: int) -> list[str]:
        place = {"board": name, "game": str(number)}
        others = sorted((each["board"] for each in self.source.boards.now()["boards"]
                         if each["board"] != name), key=collector.natural)
        parts = [self.form(place, "clock", "clock", select(
            "Side with White's time", "side", corrections.SIDES, self.source.games.side(name)))]
        if others and number:
            parts.append(self.form(place, "swap", "other board", select(
                "The game goes on at board", "other", others, "")))
        return parts

    # ---- Corrections

    def correct(self, form: Form) -> None:
        """Stores the correction of a form. Refused if it isn't valid."""
        games, kind, board = self.source.games, form["kind"], form["board"]
        if kind == "round" and self.source.rounds:
            return self.source.rounds.begin(form["round"].strip())
        number = number_of(form["game"])
        entry: dict[str, Any] = {"game": number}
        if kind == "result":
            if form["result"] not in RESULTS or form["why"] not in corrections.REASONS:
                raise Refused("not a result")
            entry |= {"result": form["result"], "why": form["why"]}
        elif kind == "moves":
            game = games.game(board, number)
            if form["before"] != mark_of(game):
                raise Refused("the game went on meanwhile: look at it, and correct it again")
            entry |= corrections.spliced(game, form["moves"])
        elif kind == "tags":
            tags = {each: form[each].strip() for each in ("White", "Black", "Round")}
            if not all(0 < len(each) <= 200 and each.isprintable() for each in tags.values()):
                raise Refused("both players need a name")
            entry |= {"tags": tags}
        elif kind == "clock" and form["side"] in corrections.SIDES:
            board, entry = "", {"clock": {board: form["side"]}}
        elif kind == "swap":
            swap = board, form["other"]
            keep = self.source.boards.swap
            return games.ask(Wanted("", {"swap": swap}, keep))
        else:
            raise Refused("not a form of the desk")
        games.ask(Wanted(board, entry))


def is_password(given: str, password: str) -> bool:
    """Whether an HTTP header contains the password, for any user. A wrong one takes the same
    time."""
    kind, _, code = given.partition(" ")
    try:
        _, _, said = base64.b64decode(code, validate=True).partition(b":")
    except (binascii.Error, ValueError):
        said = b""
    one, other = (hashlib.sha256(each).digest() for each in (said, password.encode()))
    return hmac.compare_digest(one, other) and kind.lower() == "basic"


def current(is_it: bool) -> str:
    return ' aria-current="page"' if is_it else ""


def select(label: str, name: str, values: Any, chosen: str) -> str:
    options = "".join(f'<option{" selected" if each == chosen else ""}>{quoted(each)}</option>'
                      for each in values)
    return f'<label>{label} <select name="{name}">{options}</select></label>'


def clocks(event: dict[str, Any], is_live: bool) -> str:
    """The players' times in HTML, or those of the sides if White's isn't known. The running one is
    counted down, as on the page."""
    clock, game = event["clock"], event["game"]
    if not clock or clock.get("none"):
        return "none"
    white = (game and game["white_side"]) or ""
    names = {"left": {"left": "White", "right": "Black"}, "right": {"right": "White",
             "left": "Black"}}.get(white, {"left": "Left", "right": "Right"})
    runs = clock["runs"] if is_live and event["state"] == "following" else None
    passed = max(0, topics.moment(time.monotonic()) - clock["at"]) // 1000
    parts = []
    for side, name in sorted(names.items(), key=lambda each: each[1] in ("Black", "Right")):
        rest = max(0, clock[side] - (passed if side == runs else 0))
        text = f"{name} {rest // 3600}:{rest // 60 % 60:02}:{rest % 60:02}"
        fallen = " flag fallen" if side in clock["fallen"] else ""
        parts.append(f"<b>{text}{fallen} runs</b>" if side == runs else f"{text}{fallen}")
    return "<br>".join(parts)


def diagram(placement: str) -> str:
    """A board in HTML, White at the bottom."""
    squares = [square for rank in placement.split("/")
               for square in re.sub("[0-9]", lambda found: int(found[0]) * " ", rank)]
    cells = [f"<td>{quoted(each.translate(PIECES))}</td>" for each in squares]
    rows = "".join(f"<tr>{''.join(cells[at:at + 8])}</tr>" for at in range(0, len(cells), 8))
    return (f'<table class="board" role="img" aria-label="On the board: {quoted(placement)}">'
            f"{rows}</table>")


def advice_of(game: dict[str, Any] | None) -> str:
    """What to put where, if no move leads to the position on the board."""
    return str(game["lost"]["advice"]) if game and game["lost"] else ""


def last_moves(game: dict[str, Any] | None) -> str:
    if not game or not game["moves"]:
        return ""
    is_black = (len(game["moves"]) % 2 == 0) == (game["to_move"] == "black")
    words, number = [], game["number"]
    for at, move in enumerate(game["moves"]):
        if (at % 2 == 1) == is_black:
            words.append(f"{number}.")
        elif not at:
            words.append(f"{number}...")
        number += (at % 2 == 0) == is_black
        words.append(move)
    return " ".join(words[-8:])


def moves_of(game: dgt.PgnGame) -> str:
    """The moves of a game without clocks."""
    words = []
    for made in game.moves:
        words += [f"{made.before.number}."] if made.before.white else []
        words.append(made.san)
    return " ".join(words)


def mark_of(game: dgt.PgnGame) -> str:
    """A short text that is another one once a game has other moves."""
    return hashlib.sha256(moves_of(game).encode()).hexdigest()[:20]


def number_of(text: str) -> int:
    """The number of a game. Refused if it isn't one."""
    if text.isascii() and text.isdecimal() and len(text) < 10:
        return int(text)
    raise Refused(f"not the number of a game: {text[:20]!r}")


def shown(game: dgt.PgnGame) -> str:
    tags = game.tags
    why = f" ({tags['Termination']})" if "Termination" in tags else ""
    return (f"{tags.get('White', '?')} - {tags.get('Black', '?')}, round {tags.get('Round', '?')}. "
            f"{game.result}{why}. {len(game.moves)} half-moves: {moves_of(game)}")


def described(entry: dict[str, Any]) -> str:
    """A correction in words."""
    game = f"game {entry['game']}, " if "game" in entry else ""
    if "result" in entry:
        return f"{game}result {entry['result']}, {entry['why']}"
    if "ply" in entry:
        return (f"{game}after {entry['ply']} half-moves: {' '.join(entry['new']) or 'nothing'} in "
                f"place of {' '.join(entry['old']) or 'nothing'}")
    if "tags" in entry:
        return game + ", ".join(f"{name} {value}" for name, value in entry["tags"].items())
    if "clock" in entry:
        return "; ".join(f"White's clock of board {name}: {side}"
                         for name, side in entry["clock"].items())
    if "swap" in entry:
        return "boards {} and {} swapped".format(*entry["swap"])
    if "pairings" in entry:
        return f"the file of pairings, round {entry['pairings']['round'] or '?'}"
    return f"the file of names, round {entry['names']['tags'].get('Round', '?')}"
