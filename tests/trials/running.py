"""Runs a broker, published boards and the page for the trials."""

import contextlib
import os
import pathlib
import shutil
import signal
import socket
import struct
import subprocess
import sys
import tempfile
import threading
import time
import urllib.request

sys.path.append(str(pathlib.Path(__file__).resolve().parents[1] / "testing"))
import chromium
import simulated_board
from cases import SECONDS, holds, wait
from wrong import Wrong, wanted

EXAMPLES = pathlib.Path(__file__).resolve().parents[2] / "apps/broadcast"
PYTHON = "/usr/bin/python3"  # Debian's, which has Debian's modules
# Debian has the broker in /usr/sbin, and eboard in /usr/games.
ALIVE = "/usr/sbin:/usr/games:" + os.environ["PATH"]


def absent(packages):
    """Which of these packages of Debian aren't here, each known by a program."""
    return [name for name, program in packages.items() if not shutil.which(program, path=ALIVE)]


def has_module(name, python=PYTHON):
    """Whether a Python is here and has this module."""
    words = [python, "-c", f"import {name}"]
    return bool(shutil.which(python)) and not subprocess.run(words, capture_output=True).returncode


def missing():
    """The packages of Debian that aren't here, and that the page's server needs."""
    found = absent({"mosquitto": "mosquitto"})
    return found + ([] if has_module("paho.mqtt.client") else ["python3-paho-mqtt"])


def missing_for_sites():
    """Those that aren't here, and that a page needs which connects to dgt-livechess."""
    found = absent({"openssl": "openssl"}) + ([] if chromium.find() else ["chromium"])
    return found + ([] if has_module("websockets") else ["python3-websockets"])


def free_port():
    with socket.socket() as found:
        found.bind(("127.0.0.1", 0))
        return found.getsockname()[1]


def is_open(port):
    """Somebody listens at this port of the machine."""
    with socket.socket() as tried:
        return tried.connect_ex(("127.0.0.1", port)) == 0


def family(pid):
    """A process and all below it."""
    found = [pid]
    for parent in found:
        with contextlib.suppress(OSError):  # it has ended meanwhile
            tasks = pathlib.Path(f"/proc/{parent}/task").iterdir()
            found += [int(n) for task in tasks for n in (task / "children").read_text().split()]
    return found


def processor(pid):
    """Seconds of processor time of a process."""
    tasks = pathlib.Path(f"/proc/{pid}/task").glob("*/schedstat")
    return sum(int(task.read_text().split()[0]) for task in tasks) / 1e9


def alive(pids):
    """Those of these processes that haven't ended."""
    return [pid for pid in pids if os.path.exists(f"/proc/{pid}/exe")]


def becomes(what, get, right, seconds=SECONDS):
    """Waits until a value is the right one, in time."""
    holds(lambda: get() == right, seconds)
    wanted(what, get(), right)


class Room(contextlib.ExitStack):
    """A folder, and what was started in it."""

    def __init__(self):
        super().__init__()
        folder = tempfile.TemporaryDirectory(ignore_cleanup_errors=True)
        self.path = pathlib.Path(self.enter_context(folder))
        self.log = self.enter_context(open(self.path / "log", "ab"))
        self.runs, self.boards, self.browser = [], None, None
        self.broker_port, self.page_port = free_port(), free_port()
        self.url = f"http://127.0.0.1:{self.page_port}/"
        self.callback(self.end)

    def end(self):
        if self.browser:
            self.browser.close()
        for act in (subprocess.Popen.terminate, self.stop):
            for ran in reversed(self.runs):
                act(ran)
        if self.boards:
            self.boards.close()

    def start(self, *words):
        how = {"stdin": subprocess.DEVNULL, "stdout": self.log, "stderr": self.log}
        environment = os.environ | {"PATH": ALIVE}
        ran = subprocess.Popen([*map(str, words)], env=environment, cwd=self.path, **how)
        self.runs.append(ran)
        return ran

    def stop(self, ran):
        """Ends a run as a user does, and returns which of its processes are left."""
        if ran.poll() is not None:
            return []
        below = family(ran.pid)
        ran.terminate()
        with contextlib.suppress(subprocess.TimeoutExpired):
            ran.wait(20)
        left = alive(below)
        for pid in left:
            os.kill(pid, signal.SIGKILL)
        ran.wait()
        return left

    def start_broker(self):
        text = f"listener {self.broker_port} 127.0.0.1\nallow_anonymous true\n"
        (self.path / "broker.conf").write_text(text)
        self.broker = self.start("mosquitto", "-c", "broker.conf")
        wait("the broker", lambda: is_open(self.broker_port))

    def make_boards(self, count):
        (self.path / "ports").mkdir()
        self.boards = simulated_board.Boards(self.path / "ports", count)

    @property
    def at_broker(self):
        return ["--broker", "127.0.0.1", "--broker-port", self.broker_port]

    def broadcast(self, names, period=10):
        """Has all boards published, under these names."""
        (self.path / "boards").write_text("\n".join(names))
        words = ["--all", "ports", "--names", "boards", "--period", period]
        return self.start(EXAMPLES / "broadcast", *words, *self.at_broker)

    def serve(self, *words):
        words = [*self.at_broker, "--port", self.page_port, *words]
        return self.start(EXAMPLES / "page" / "serve", *words)

    def open_page(self, first=""):
        self.browser = chromium.Chromium()
        self.browser.open(self.url, first)

    def get(self, path):
        """A text of the page's server."""
        with urllib.request.urlopen(self.url + path, timeout=20) as got:
            return got.read().decode()

    def picture(self, name, width, height):
        """The page in a window of this size, if there is a browser and TRIAL_SHOTS a folder."""
        if self.browser and (folder := os.environ.get("TRIAL_SHOTS")):
            pathlib.Path(folder).mkdir(parents=True, exist_ok=True)
            self.browser.screenshot(pathlib.Path(folder, f"{name}.png"), width, height)

    def count_clocks(self, goes_on):
        """All clocks count, each second, while this holds."""
        def count():
            due = time.monotonic()
            while goes_on():
                due += 1
                time.sleep(max(0.0, due - time.monotonic()))
                for board in self.boards:
                    board.count_clock()

        threading.Thread(target=count, daemon=True).start()


def length(number):
    """A length as MQTT has it: seven bits a byte, the last ones first."""
    low, high = number % 128, number // 128
    return bytes([low]) if not high else bytes([low | 128]) + length(high)


class Publisher:
    """Publishes retained messages to the broker."""

    def __init__(self, port):
        self.broker = socket.create_connection(("127.0.0.1", port), 20)
        self.broker.sendall(b"\x10\x0c\0\4MQTT\4\2\0\0\0\0")
        if self.broker.recv(4) != b"\x20\2\0\0":
            raise RuntimeError("the broker refuses")

    def say(self, topic, payload):
        said = struct.pack(">H", len(topic)) + topic.encode() + payload
        self.broker.sendall(b"\x31" + length(len(said)) + said)


def main(name, lacking, play):
    """Plays in a room, if nothing is lacking. A fault is printed with the end of the log."""
    if lacking:
        sys.exit(f"{name}: not here: {' '.join(lacking)}")
    with Room() as room:
        try:
            play(room)
        except (Wrong, RuntimeError, OSError) as wrong:
            print((room.path / "log").read_text(errors="replace")[-5000:], file=sys.stderr)
            sys.exit(f"{name}: {wrong}")
