"""Sends the games of a round to an address with a token, and writes each round into a file."""

import contextlib
import email.utils
import http.client
import os
import pathlib
import re
import stat
import threading
import time
import urllib.error
import urllib.parse
import urllib.request
from collections.abc import Callable
from typing import Any

import collector
from corrections import Refused, check_address

TIMEOUT = 10.0  # seconds for a request and its answer
LEAST, MOST = 1.0, 60.0  # seconds between two attempts: they double
PAUSE = 1.0  # seconds after which games are sent again
MOST_ASKED = 900.0  # the most seconds that an address may ask to wait
ROUND = re.compile(r'(?m)^\[Round "((?:[^"\\]|\\.)*)"\]$')


class Unreadable(Exception):
    """A file contains no secret, and why."""


def read_secret(path: str) -> str:
    """The first line of a file that others can't read. Unreadable if it isn't a secret."""
    try:
        with open(path, "rb") as opened:
            if os.fstat(opened.fileno()).st_mode & stat.S_IRWXO:
                raise Unreadable(f"{path}: others may read it (chmod o= prevents that)")
            secret = opened.read(4097).decode().partition("\n")[0].strip()
    except OSError as fault:
        raise Unreadable(f"{path}: {fault.strerror or fault}") from None
    except UnicodeDecodeError:
        raise Unreadable(f"{path}: it isn't text") from None
    if not 0 < len(secret) <= 4096 or not secret.isascii() or not secret.isprintable():
        raise Unreadable(f"{path}: its first line isn't a secret")
    return secret


def round_of(text: str) -> str:
    found = ROUND.search(text)
    return re.sub(r"\\(.)", r"\1", found[1]) if found else "?"


def by_round(shelf: collector.Shelf) -> dict[str, bytes]:
    """The games of each round, as PGN."""
    rounds: dict[str, list[str]] = {}
    with shelf.lock:
        for text in shelf.texts():
            rounds.setdefault(round_of(text), []).append(text)
    return {name: "\n".join(texts).encode(errors="replace") for name, texts in rounds.items()}


class Out:
    """A thread that does something with the games after each change. On failure it tries again,
    with growing waits. Its name is that of what gets the games."""

    name: str

    def __init__(self, shelf: collector.Shelf) -> None:
        self.shelf, self.changed = shelf, threading.Event()
        self.fault, self.done_at, self.pause = "", 0.0, LEAST
        self.changed.set()
        shelf.watchers.append(self.changed)

    def start(self) -> None:
        threading.Thread(target=self.run, daemon=True).start()

    def run(self) -> None:
        while True:
            self.changed.wait()
            self.changed.clear()
            while (wait := self.turn()) is not None:
                time.sleep(wait)
            time.sleep(PAUSE)

    def turn(self) -> float | None:
        """Does it. Returns the seconds until another attempt, if that is needed."""
        fault, asked = self.do()
        if fault and fault != self.fault:
            collector.report(f"{fault} (trying again)")
        elif self.fault and not fault:
            collector.report(f"{self.name} has all games again")
        self.fault = fault
        if not fault:
            self.done_at, self.pause = time.time(), LEAST
            return None
        wait, self.pause = max(self.pause, asked), min(MOST, 2 * self.pause)
        return wait

    def do(self) -> tuple[str, float]:
        """Returns what is wrong, and for how many seconds one was asked to wait."""
        raise NotImplementedError


class Files(Out):
    """A file for each round, in a folder, which is made if it is missing."""

    def __init__(self, shelf: collector.Shelf, folder: str) -> None:
        super().__init__(shelf)
        self.folder, self.written = pathlib.Path(folder), dict[str, bytes]()
        self.name = str(self.folder)

    def do(self) -> tuple[str, float]:
        try:
            self.folder.mkdir(exist_ok=True)
            for name, text in by_round(self.shelf).items():
                if self.written.get(name) != text:
                    shown = re.sub(r"[^\w.-]", "_", name).encode()[:200].decode(errors="ignore")
                    self.write(f"round-{shown}.pgn", text)
                    self.written[name] = text
        except (OSError, UnicodeError) as fault:
            return f"{self.folder} doesn't get the games: {getattr(fault, 'strerror', fault)}", 0.0
        return "", 0.0

    def write(self, name: str, text: bytes) -> None:
        path, new = self.folder / name, self.folder / f".{name}.new"
        try:
            with open(new, "wb") as opened:
                opened.write(text)
                opened.flush()
                os.fsync(opened.fileno())
            os.replace(new, path)
        except OSError:
            with contextlib.suppress(OSError):
                new.unlink()
            raise


class Still(urllib.request.HTTPRedirectHandler):
    """Follows no redirection: another address must not get the token."""

    def redirect_request(self, *_: Any) -> None:
        return None


class Push(Out):
    """Sends the games of a round to an address, by POST with a token. `targets` has the round of
    each address, or `None` for all games."""

    name = "the address of --push"

    def __init__(self, shelf: collector.Shelf, token: str,
                 targets: Callable[[], dict[str, str | None]]) -> None:
        super().__init__(shelf)
        self.token, self.targets, self.sent = token, targets, dict[str, bytes]()
        self.opener = urllib.request.build_opener(Still)

    def do(self) -> tuple[str, float]:
        rounds, faults, asked = by_round(self.shelf), [], 0.0
        for url, name in self.targets().items():
            text = self.shelf.pgn()[0] if name is None else rounds.get(name, b"")
            if text and self.sent.get(url) != text:
                fault, seconds = self.send(url, text)
                if fault:
                    plain = urllib.parse.urlsplit(url)._replace(query="", fragment="").geturl()
                    faults.append(f"{plain} doesn't take the games: {fault}")
                    asked = max(asked, seconds)
                else:
                    self.sent[url] = text
        return "; ".join(faults), asked

    def send(self, url: str, text: bytes) -> tuple[str, float]:
        """Returns what is wrong, and for how many seconds one was asked to wait."""
        try:
            words = {"Authorization": f"Bearer {read_secret(self.token)}",
                     "Content-Type": "text/plain; charset=utf-8", "User-Agent": "dgt-page"}
            asked = urllib.request.Request(check_address(url), text, words, method="POST")
            with self.opener.open(asked, timeout=TIMEOUT) as answer:
                answer.read1(4096)
        except (Unreadable, Refused) as fault:
            return str(fault), 0.0
        except urllib.error.HTTPError as fault:
            with fault:
                return f"{fault.code} {fault.reason}"[:200], seconds_of(fault.headers)
        except (OSError, ValueError) as fault:  # such as URLError, timeouts and no host's name
            return str(getattr(fault, "reason", fault))[:200] or type(fault).__name__, 0.0
        except http.client.HTTPException as fault:
            return f"no HTTP answer: {type(fault).__name__}", 0.0
        return "", 0.0


def seconds_of(heads: Any) -> float:
    """The seconds that an answer asks to wait."""
    text = str(heads.get("Retry-After", ""))
    if text.isdecimal() and len(text) < 9:
        return min(MOST_ASKED, float(text))
    with contextlib.suppress(TypeError, ValueError):
        until = email.utils.parsedate_to_datetime(text).timestamp()
        return min(MOST_ASKED, max(0.0, until - time.time()))
    return 0.0
