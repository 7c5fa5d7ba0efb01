"""Programs that follow a board on a port: the trainers and the programs of the pages, in each
language. tests/libraries/c_library, tests/libraries/cargo, tests/apps/examples and tests/apps/web
run these cases. The board's line is that of simulated_board.py; clocks are shown with board.py."""

import contextlib
import pathlib
import re
import signal
import subprocess
import sys
import threading
import time

from ports import BOTH, LIFTED, PUT, SECONDS, START
from wrong import Wrong, wanted

ANSWERED = PUT.replace("pppppppp/8/8", "ppp1pppp/8/3p4")
FIELD = bytes([0x8E, 0, 5, 36, 1])  # a pawn on e4
# A dump, and a field: the pawn is taken from e2.
MESSAGES = bytes.fromhex("860043 08090a0c0b0a0908" + "07" * 8 + "00" * 32 + "01" * 8
                         + "0203040605040302 8e00053400")
ASKED_FIRST = bytes(255) + b"\x44\x42\x4b\x41"
CLOCK = "clock 1:00:00 0:59:30"
ROOT = pathlib.Path(__file__).resolve().parents[2]
PORT = "/dev/ttyUSB0"
BOARD = ROOT / "bindings/python/examples/board.py"
# Lines of its input, and what a clock display prints after each.
SHOWN = [
    ("wait 0", f"{START} 1:30:00 1:29:55 -"),
    ("e2e4", f"{LIFTED} 1:30:00 1:29:55 -", f"{PUT} 1:30:00 1:29:55 -"),
    ("clock start", f"{PUT} 1:30:00 1:29:55 white", f"{PUT} 1:29:59 1:29:55 white"),
]


class Program(contextlib.ExitStack):
    """A program that follows the board of a line, or is ended after a minute."""

    def __init__(self, line, words, **how):
        super().__init__()
        self.line, pipes = line, dict.fromkeys(["stdout", "stderr"], subprocess.PIPE)
        how = {"stdin": subprocess.DEVNULL, "text": True} | pipes | how
        self.ran = self.enter_context(subprocess.Popen([*map(str, words)], **how))
        late = threading.Timer(60, self.ran.kill)
        late.start()
        self.callback(late.cancel)
        self.callback(self.ran.kill)

    def lines_until(self, *last):
        """Waits until it has printed these lines: all that it has printed since."""
        lines = []
        while not set(last) <= set(lines):
            lines.append(self.ran.stdout.readline().rstrip("\n"))
            if not lines[-1]:
                raise Wrong(f"{self.ran.args} prints {lines}, and not {last}")
        return lines

    def expect(self, *right):
        lines = [self.ran.stdout.readline().rstrip("\n") for _ in right]
        wanted(f"lines of {self.ran.args}", lines, [*right])

    def expect_told(self, why):
        """Waits until it says this of its port. All that it says is of its port."""
        said = ""
        while why not in said:
            said = self.ran.stderr.readline()
            if not said.startswith(f"{self.line.path}: "):
                raise Wrong(f"{self.ran.args} says {said!r}, and not {why!r}")

    def expect_asked(self, right):
        """Waits until it has asked the board this."""
        end = time.monotonic() + SECONDS
        while right not in (asked := b"".join(each for _, each in self.line.asked)):
            if time.monotonic() > end:
                raise Wrong(f"{self.ran.args} asks {asked.hex()}, and not {right.hex()}")
            time.sleep(0.05)

    def end(self, status=None):
        """It has printed no more, and ends by itself with a status, or else by a signal."""
        if status is None:
            self.ran.terminate()
        rest, told = self.ran.communicate()
        wanted(f"the end of {self.ran.args}: {told}", (rest, self.ran.returncode),
               ("", -signal.SIGTERM if status is None else status))


# ---- Trainers


def text_of(number):
    """The message that has a clock show a number: a text of eight letters, and no beep."""
    return b"\x2b\x0c\x03\x0c" + f"{number:<8}".encode() + b"\0\0"


def set_clock(dgt, line, seconds):
    with line.lock:
        line.board.hand_clock(dgt.Times(dgt.Time(*divmod(seconds // 60, 60), seconds % 60),
                                        dgt.Time(0, 59, 30)))
    line.put()


def a_trainer(dgt, line, words):
    """It shows each change, and the clock, has the port alone, and goes on after the port was
    away."""
    set_clock(dgt, line, 3600)
    with Program(line, [*words, line.path]) as trainer:
        trainer.expect(START, CLOCK)
        trainer.expect_asked(text_of(1))
        asked = b"".join(each for _, each in line.asked)
        wanted("what it asks first", asked[:len(ASKED_FIRST)], ASKED_FIRST)
        with Program(line, [*words, line.path]) as second:
            second.expect_told("in use")
        line.put(("e2", "."))
        trainer.expect(LIFTED)
        line.put(("e4", "P"))
        trainer.expect(PUT)
        trainer.expect_asked(text_of(3))
        set_clock(dgt, line, 3599)
        trainer.expect("clock 0:59:59 0:59:30")
        line.unplug()
        trainer.expect_told("")
        line.put(("d7", "."), ("d5", "p"))
        line.plug()
        trainer.expect(ANSWERED)
        trainer.expect_asked(text_of(4))
        trainer.end()


def a_trainer_waits(dgt, line, words):
    """It waits for a port that isn't there yet. What the line spoils isn't shown."""
    set_clock(dgt, line, 3600)
    line.unplug()
    with Program(line, [*words, line.path]) as trainer:
        trainer.expect_told(" such ")  # file, or port
        line.plug()
        trainer.expect(START, CLOCK)
        line.spoil = lambda message: b"" if len(message) == 5 else message
        line.put(("e2", "."))
        line.spoil = bytes
        with line.lock:
            line.send([b"\x41"])
        line.put(("e4", "P"))
        trainer.expect(PUT)  # after an asking
        line.spoil = lambda message: message[:-1]
        line.put(("d7", "."))
        line.spoil = bytes
        line.put(("d5", "p"))
        trainer.expect(ANSWERED)
        trainer.end()


# ---- The programs of the pages


def blocks_of(page, language):
    """The blocks of a page in a language. The page may be the front page of a crate."""
    text = re.sub(r"^//! ?", "", (ROOT / page).read_text(), flags=re.M)
    return re.findall(rf"^```{language}\n(.*?)^```", text, re.M | re.S)


def block_of(language):
    """The block of docs/USING.md in a language that names neither a port nor the rules of chess."""
    [block] = [block for block in blocks_of("docs/USING.md", language)
               if PORT not in block and "chess" not in block]
    return block


def first_program(language, port, with_clock=False):
    """The first program of README.md and docs/USING.md in a language that names a port, for this
    port: of those without a clock, or with one."""
    blocks = [*blocks_of("README.md", language), *blocks_of("docs/USING.md", language)]
    found = (each for each in blocks if PORT in each and ("clock" in each) == with_clock)
    program = next(found, "")
    wanted(f"ports in the program in {language}", program.count(PORT), 1)
    return program.replace(PORT, str(port))


def a_first_program(_, line, words, status=None):
    """It prints the position at first, after two changes that arrive at once, and after a field
    that changes nothing, a stray byte and two more changes. Then the port disappears. It ends with
    a status, or continues once the port is back."""
    with Program(line, words) as program:
        program.expect(START)
        line.put(("e2", "."), ("e4", "P"))
        program.expect(BOTH, PUT)
        with line.lock:
            line.send([FIELD, b"\x41"])
        line.put(("d7", "."), ("d5", "p"))
        program.expect(ANSWERED)
        line.unplug()
        if status is None:
            line.put(("g1", "."))
            line.plug()
            program.expect(ANSWERED.replace("BNR", "B1R"))
        program.end(status)


@contextlib.contextmanager
def simulated(path):
    """board.py at this path: a function that passes a line to it."""
    how = {"stdin": subprocess.PIPE, "stdout": subprocess.PIPE, "text": True, "bufsize": 1}
    with subprocess.Popen([sys.executable, BOARD, path], **how) as board:
        def tell(line):
            board.stdin.write(f"{line}\n")
            while (said := board.stdout.readline()) != "ready\n":
                if not said:
                    raise Wrong(f"board.py ends after {line!r}")

        board.stdout.readline()
        yield tell
        board.stdin.close()


def a_clock_display(path, words):
    """It prints position, both times and the player to move, once one of them has changed."""
    with simulated(path) as tell:
        tell("clock 1:30:00 1:29:55")
        with Program(None, words) as display:
            last = ""
            for line, *right in SHOWN:
                tell(line)
                for each in right:
                    while (shown := display.ran.stdout.readline().rstrip("\n")) == last and shown:
                        pass
                    wanted(f"what {display.ran.args} prints after {line}", shown, each)
                    last = shown
