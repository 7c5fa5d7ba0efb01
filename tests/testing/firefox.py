"""A headless Firefox with one page, controlled with WebDriver BiDi over a separate socket.

It has the members of chromium.Chromium of tests/trials that tests/apps/web uses."""

import json
import os
import pathlib
import re
import shutil
import signal
import socket
import subprocess
import tempfile
import time
from typing import Any

import cases

NAMES = ["firefox-esr", "firefox"]
ISOLATED = pathlib.Path(__file__).parents[2] / "tests/trials/isolated"
GREETING = ("GET /session HTTP/1.1\r\nHost: 127.0.0.1:{}\r\nUpgrade: websocket\r\n"
            "Connection: Upgrade\r\nSec-WebSocket-Key: AAAAAAAAAAAAAAAAAAAAAA==\r\n"
            "Sec-WebSocket-Version: 13\r\n\r\n")


def find() -> str | None:
    """The browser's name, or nothing if there is none."""
    return next(filter(shutil.which, NAMES), None)


def plain(remote: dict[str, Any]) -> Any:
    """The value of the page that this describes."""
    value: Any = remote.get("value")
    if remote["type"] == "array":
        return [plain(each) for each in value]
    if remote["type"] == "object":
        return {name: plain(each) for name, each in value}
    return value


class Firefox:
    """Commands and answers are JSON, each in a frame of a WebSocket."""

    began_by = [str(find()), "--headless"]

    def __init__(self) -> None:
        self.folder = tempfile.TemporaryDirectory(ignore_cleanup_errors=True)
        words = [*self.began_by, "--no-remote", "--profile", self.folder.name,
                 "--remote-debugging-port", "0", "data:text/html,"]
        nothing: Any = dict.fromkeys(["stdin", "stdout", "stderr"], subprocess.DEVNULL)
        self.ran = subprocess.Popen([ISOLATED, self.folder.name, *words], start_new_session=True,
                                    **nothing)
        self.number = 0
        self.errors: list[str] = []
        port = self.port()
        self.socket = socket.create_connection(("127.0.0.1", port))
        self.stream = self.socket.makefile("rb")
        self.socket.sendall(GREETING.format(port).encode())
        while self.stream.readline().strip():
            pass
        self.do("session.new", capabilities={})
        self.context = self.do("browsingContext.getTree")["contexts"][0]["context"]
        self.do("session.subscribe", events=["log.entryAdded"])

    def port(self) -> int:
        """The port of its WebSocket, once it has one."""
        file = pathlib.Path(self.folder.name, "WebDriverBiDiServer.json")
        end = time.monotonic() + 60
        while time.monotonic() < end:
            try:
                return int(json.loads(file.read_text())["ws_port"])
            except (OSError, ValueError):
                time.sleep(.05)
        self.kill()
        raise RuntimeError("firefox doesn't begin")

    def receive(self) -> dict[str, Any]:
        """The next answer or event."""
        head = self.stream.read(2)
        if len(head) < 2 or head[0] & 15 == 8:
            raise RuntimeError("the browser has gone")
        size = head[1]
        if size > 125:
            size = int.from_bytes(self.stream.read(2 if size == 126 else 8), "big")
        found: dict[str, Any] = json.loads(self.stream.read(size))
        return found

    def do(self, method: str, **params: object) -> Any:
        self.number += 1
        text = json.dumps({"id": self.number, "method": method, "params": params}).encode()
        size = len(text)
        sized = (bytes([128 + size]) if size < 126 else b"\xfe" + size.to_bytes(2, "big")
                 if size < 65536 else b"\xff" + size.to_bytes(8, "big"))
        # A text in one frame. Firefox takes no mask of zeros.
        self.socket.sendall(b"\x81" + sized + b"\1\1\1\1" + bytes(each ^ 1 for each in text))
        while True:
            answer = self.receive()
            if answer["type"] == "event" and answer["params"]["level"] == "error":
                self.errors.append(answer["params"]["text"])
            if answer.get("id") == self.number:
                if answer["type"] == "error":
                    raise RuntimeError(f"{method}: {answer['error']}: {answer['message']}")
                return answer["result"]

    def open(self, url: str, first: str = "") -> None:
        if first:
            self.do("script.addPreloadScript", functionDeclaration=f"() => {{ {first} }}")
        self.do("browsingContext.navigate", context=self.context, url=url, wait="none")

    def ask(self, expression: str) -> Any:
        answer = self.do("script.evaluate", expression=expression, awaitPromise=True,
                         target={"context": self.context})
        if answer["type"] == "exception":
            raise RuntimeError(answer["exceptionDetails"]["text"])
        return plain(answer["result"])

    def wait(self, expression: str, seconds: float = 20) -> bool:
        return cases.holds(lambda: self.ask(expression), seconds)

    def resize(self, width: int, height: int) -> None:
        self.do("browsingContext.setViewport", context=self.context,
                viewport={"width": width, "height": height})

    def be_phone(self, width: int, height: int) -> None:
        self.resize(width, height)

    def act(self, *actions: Any, **source: object) -> None:
        """A source of input does this."""
        self.do("input.performActions", context=self.context, actions=[
            source | {"id": str(source), "actions": actions}])

    def point(self, act: str, x: float, y: float, with_touch: bool = False) -> None:
        press: list[Any] = ([] if act == "move" else
                            [{"type": f"pointer{act.capitalize()}", "button": 0}])
        self.act({"type": "pointerMove", "x": round(x), "y": round(y)}, *press, type="pointer",
                 parameters={"pointerType": "touch" if with_touch else "mouse"})

    def enter(self, text: str) -> None:
        self.act(*({"type": f"key{way}", "value": key} for key in f"{text}\ue007"
                   for way in ("Down", "Up")), type="key")

    def named(self, sought: list[tuple[str, str]]) -> list[tuple[str, str]]:
        """What a screen reader finds of the roles of these nodes: of each its role and name. A name
        that isn't sought is empty."""
        def count(**value: str) -> int:
            locator = {"type": "accessibility", "value": value}
            return len(self.do("browsingContext.locateNodes", context=self.context,
                               locator=locator)["nodes"])
        found = [pair for pair in sought for _ in range(count(role=pair[0], name=pair[1]))]
        for role in {role for role, _ in sought}:
            others = count(role=role) - sum(role == each for each, _ in found)
            found += [(role, "")] * others
        return found

    def kill(self) -> None:
        os.killpg(self.ran.pid, signal.SIGKILL)
        self.ran.wait()

    def close(self) -> None:
        try:
            self.do("browser.close")
            self.ran.wait(10)
        except (RuntimeError, OSError, subprocess.TimeoutExpired):
            self.kill()
        self.socket.close()
        self.folder.cleanup()


# It has to be there before the window is, and a user can have only one. Without line buffering,
# what it says would be in the file only later.
BEGIN_ORCA = """while pgrep -x orca; do sleep .1; done
mkdir -p "$HOME/.local/share/orca"
echo "import orca.debug; orca.debug.debugFile.reconfigure(line_buffering=True)" \
    >"$HOME/.local/share/orca/orca-customizations.py"
orca --debug-file="$HOME/said" &
until grep -qs window:activate "$HOME/said"; do sleep .1; done
"$@"
kill $!
wait"""


class Spoken(Firefox):
    """One in a window, whose screen reader is Orca. It has nobody to speak to, and notes what it
    would say."""

    began_by = ["NO_AT_BRIDGE=0", "GNOME_ACCESSIBILITY=1", "xvfb-run", "-a", "dbus-run-session",
                "--", "sh", "-c", BEGIN_ORCA, "sh", str(find())]

    def said(self) -> list[str]:
        """What it has said."""
        try:
            log = pathlib.Path(self.folder.name, "said").read_text()
        except FileNotFoundError:
            return []
        return re.findall(r"SPEECH OUTPUT: '\s*(.*?)\s*'(?:{.*)?$", log, re.MULTILINE)
