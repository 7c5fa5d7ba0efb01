"""A program under test, such as a UCI engine, and what it prints."""

import os
import pathlib
import subprocess
import sys
import threading
import time

from cases import ROOT, SECONDS
from wrong import Wrong, wanted

PROGRAM = [sys.executable, "-m", "dgt"]
WORDS = [*PROGRAM, "uci"]
ENVIRONMENT = os.environ | {"PYTHONPATH": str(ROOT / "bindings/python"),
                            "PYTHONDONTWRITEBYTECODE": "1"}
# What xboard takes for the death of an engine, and what a system says of a fault.
DEADLY = ["unknown host", "no remote directory", "not found", "no such file", "can't alloc",
          "permission denied", "errno", "traceback", "resource temporarily"]


def with_ports(*found, script=None):
    """The command for a program of the package, or a script, on a machine with these ports if they
    exist: each is the words of a `SerialPort`."""
    runs = f"run_path({str(script)!r}" if script else "run_module('dgt'"
    return [sys.executable, "-c", f"""import os, runpy, sys
sys.path.insert(0, {str(ROOT / "bindings/python")!r})
from dgt import SerialPort, serial_ports
serial_ports.ports = lambda **_: [
    SerialPort(*each) for each in {found!r} if os.path.exists(each[0])]
sys.argv[0] = {str(script)!r}
runpy.{runs}, run_name="__main__")"""]


NO_BOARD = [
    ((), "no board: plug it in, or name its port"),
    ((("/dev/zero", "Prolific"), ("/dev/null",)),
     "no port is likely a board's. If one of these is, name it: /dev/zero Prolific; /dev/null"),
    ((("/dev/null", "DGT"), ("/dev/zero",), ("/dev/full", "FTDI", None, None, "0403:6001")),
     "several boards: name the port of one of them: /dev/null DGT; /dev/full FTDI 0403:6001")]
"""Ports of machines on which no board is found, and what is printed."""


def check_no_board(*words):
    """A program without a port ends if there is no likely board, or if there are several."""
    for found, said in NO_BOARD:
        check_ends([(words, 1, f"dgt-{words[0]}: {said}")], program=with_ports(*found))


def run(*words, before=(), program=PROGRAM, **environment):
    """Runs a program of the package to its end, and gives its status and both outputs."""
    words = [*before, *program, *map(str, words)]
    ran = subprocess.run(words, capture_output=True, text=True, timeout=SECONDS, check=False,
                         stdin=subprocess.DEVNULL, cwd="/", env=ENVIRONMENT | environment)
    wanted(f"a traceback of {words}: {ran.stderr}", "Traceback" in ran.stderr, False)
    return ran


def check_ends(rows, **how):
    """Each program with its words ends with a status. A part of what it then prints is given: on
    standard error, or on standard output if nothing is wrong. Returns what each prints there."""
    told = []
    for words, status, part in rows:
        ran = run(*words, **how)
        told.append(ran.stderr if status else ran.stdout)
        wanted(f"{words}: {told[-1]}", (ran.returncode, part in told[-1]), (status, True))
        wanted(f"the output of {words}", bool(ran.stdout), status == 0)
    return told


class Engine:
    """An engine, and all lines that it has printed, each with its time."""

    def __init__(self, *words, before=(), command=WORDS, options=(), **how):
        piped = dict.fromkeys(["stdin", "stdout", "stderr"], subprocess.PIPE) | how
        words = [*before, *command, *map(str, words)]
        self.ran = subprocess.Popen(words, text=True, bufsize=1, env=ENVIRONMENT, cwd="/", **piped)
        self.lines, self.warned, self.come = [], [], threading.Condition()
        self.seen, self.said = 0, []
        self.threads = [threading.Thread(target=each, daemon=True)
                        for each in (self.hear, self.hear_warnings)]
        for thread in self.threads:
            thread.start()
        if options is not None:
            self.say("uci", *(f"setoption name {name} value {value}" for name, value in options))
            try:
                self.expect("uciok")
            except Wrong:
                self.ran.kill()
                raise

    def hear(self):
        for line in self.ran.stdout or ():
            with self.come:
                self.lines.append((time.monotonic(), line.rstrip("\n")))
                self.come.notify_all()

    def hear_warnings(self):
        self.warned += self.ran.stderr

    def say(self, *lines):
        self.said += lines
        self.ran.stdin.write("".join(f"{line}\n" for line in lines))

    def expect(self, *beginnings, seconds=SECONDS, least=None):
        """Returns the next line that begins so, and passes over those before it. With `least` it is
        sought among the lines from this number on."""
        end, at = time.monotonic() + seconds, self.seen if least is None else least
        with self.come:
            while True:
                for number in range(at, len(self.lines)):
                    if self.lines[number][1].startswith(beginnings):
                        self.seen = number + 1
                        return self.lines[number][1]
                at = max(at, len(self.lines))
                left = end - time.monotonic()
                if left <= 0:
                    last = [line for _, line in self.lines[-4:]]
                    raise Wrong(f"no {beginnings} in {seconds} s, but {last}; "
                                f"said {self.said[-2:]}, {''.join(self.warned[-3:])!r}")
                self.come.wait(left)

    def inform(self, *beginnings, **how):
        """Returns the text of the next `info string` that begins so."""
        line = self.expect(*(f"info string {each}" for each in beginnings), **how)
        return line.removeprefix("info string ")

    def move(self, **how):
        return self.expect("bestmove", **how).split()[1]

    def none(self, beginning, seconds):
        """No line that begins so comes in this time."""
        try:
            line = self.expect(beginning, seconds=seconds)
        except Wrong:
            return
        raise Wrong(f"{line!r} came")

    def delay(self):
        """Returns how long an answer takes."""
        begun = time.monotonic()
        self.say("isready")
        self.expect("readyok")
        return time.monotonic() - begun

    def check_rests(self, what):
        """It takes next to no time of the processor for two seconds."""
        def used():
            stat = pathlib.Path(f"/proc/{self.ran.pid}/stat").read_text()
            return sum(map(int, stat.rpartition(")")[2].split()[11:13]))

        before = used()
        time.sleep(2)
        wanted(f"ticks of the processor in 2 s, {what}", used() - before <= 3, True)

    def finish(self):
        """Waits until it has ended. Returns its status, and what standard error got."""
        status = self.ran.wait(SECONDS)
        for thread in self.threads:
            thread.join(SECONDS)
        return status, "".join(self.warned)

    def end(self, status=0):
        """Ends the engine, and looks through what it has printed."""
        try:
            if self.ran.poll() is None:
                self.ran.stdin.close()
            got = self.ran.wait(SECONDS)
        finally:
            self.ran.kill()
            for thread in self.threads:
                thread.join(SECONDS)
            self.ran.stdout.close()
            self.ran.stderr.close()
        text = "".join(line.lower() for _, line in self.lines) + "".join(self.warned).lower()
        wanted(f"deadly words, {text}", [word for word in DEADLY if word in text], [])
        lines = [line for _, line in self.lines]
        early = lines[:lines.index("uciok")] if "uciok" in lines else lines
        wanted("lines before uciok", [line for line in early if line.startswith("info")], [])
        known = ("id ", "option ", "uciok", "readyok", "info string ", "bestmove ")
        wanted("other lines", [line for line in lines if not line.startswith(known)], [])
        wanted("its status", got, status)
