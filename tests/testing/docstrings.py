"""Runs the examples of the docstrings of the package for Python, and of its README.md.

Stand-ins replace pyserial, pyserial-asyncio and the ports that the package opens itself, with a
board at the other side. As in pyserial, `read` waits for all the bytes that it is asked for, or for
the timeout.
"""

import asyncio
import doctest
import importlib
import pathlib
import pkgutil
import socket
import subprocess
import sys
import types
import unittest.mock

import cases
import dgt
from simulated_board import SerialPort
from wrong import Wrong, wanted

PACKAGE = pathlib.Path(dgt.__file__).resolve().parents[1]
HAPPENINGS = [("e2", "."), ("e4", "P")]


class Port(SerialPort):
    """A port of pyserial. A pawn of the board goes from e2 to e4 while a read waits for bytes, and
    then the port closes."""

    def __init__(self, board, timeout=None):
        super().__init__(board, timeout)
        self.happenings = list(HAPPENINGS)

    def read(self, size=1):
        if not self.is_open:
            raise Wrong("an example reads from a closed port")
        while len(self.sent) < size and self.happenings:
            self.board.change(*self.happenings.pop(0))
            self.sent += b"".join(self.board.messages())
        if len(self.sent) < size:
            if self.timeout is None:
                raise Wrong("an example waits for ever")
            self.is_open = False
        return self.take(size)


class OwnPort(Port):
    """A port that the package opens itself. Its `exchange` waits as `read` does. Its descriptor can
    always be read."""

    is_unsent = False

    def __init__(self, board):
        super().__init__(board)
        self._ends = socket.socketpair()
        self._ends[1].send(b"1")
        self.descriptor = self._ends[0].fileno()

    def ask(self, chunk):
        self.write(chunk)

    def is_disturbed(self, _):
        return False

    def exchange(self, seconds, wakes=None):
        self.timeout = seconds
        return self.read(self.in_waiting or 1)

    def close(self):
        self.is_open = False
        for end in self._ends:
            end.close()


async def serve(board, reader, writer):
    """Answers a host, and moves the pawn once the host has asked."""
    for message in board.answers(await reader.read(1000)):
        writer.write(message)
    for square, piece in HAPPENINGS:
        board.change(square, piece)
        writer.writelines(board.messages())
    writer.close()


def stand_ins():
    """Modules in the place of pyserial and pyserial-asyncio."""
    tasks = set()

    async def open_connection(url, baudrate=9600):
        theirs, ours = socket.socketpair()
        streams = await asyncio.open_connection(sock=theirs)
        tasks.add(asyncio.create_task(serve(dgt.Board(), *streams)))
        return await asyncio.open_connection(sock=ours)

    serial, serial_asyncio = map(types.ModuleType, ["serial", "serial_asyncio"])
    serial.Serial = lambda port, baudrate=9600, timeout=None: Port(dgt.Board(), timeout)
    serial_asyncio.open_serial_connection = open_connection
    return {"serial": serial, "serial_asyncio": serial_asyncio}


def examples(readme):
    """The examples of each docstring and of README.md, with the names of the package."""
    names = {name: getattr(dgt, name) for name in dgt.__all__} | {"dgt": dgt}
    modules = [dgt] + [importlib.import_module(f"dgt.{each.name}")
                       for each in pkgutil.iter_modules(dgt.__path__)]
    finder = doctest.DocTestFinder(exclude_empty=True)
    for module in modules:
        yield from finder.find(module, module.__name__, globs=names)
    text = readme.read_text()
    yield doctest.DocTestParser().get_doctest(text, names, readme.name, str(readme), 1)


class Named(OwnPort):
    """The port that a name stands for."""

    def __init__(self, *_):
        super().__init__(dgt.Board())


def run_all():
    """Runs all examples, of which none that a file shows is left out. Returns what is wrong."""
    readme, runner, told = PACKAGE / "README.md", doctest.DocTestRunner(verbose=False), []
    with (unittest.mock.patch.dict(sys.modules, stand_ins()),
          unittest.mock.patch("dgt.following.Port", Named)):
        for example in examples(readme):
            runner.run(example, out=told.append)
    shown = sum(line.lstrip().startswith(">>> ")
                for source in [readme, *PACKAGE.glob("dgt/*.py")]
                for line in source.read_text().splitlines())
    if runner.tries != shown:
        told.append(f"{runner.tries} examples were run, of {shown}")
    return "".join(told)


class Docstrings(cases.Case):
    def test_examples(self):
        """In a process of its own: it replaces modules, and catches what examples print."""
        ran = subprocess.run([sys.executable, __file__], capture_output=True, text=True)
        wanted("examples that fail", (ran.returncode, ran.stderr), (0, ""))


if __name__ == "__main__":
    sys.exit(run_all() or 0)
