"""How the package for Python follows boards: on ports, on lines that it gets from others, and on
streams."""

import asyncio
import contextlib
import errno
import fcntl
import os
import pathlib
import signal
import socket
import struct
import subprocess
import sys
import termios
import threading
import time

import cases
import dgt
from ports import (BOTH, DRAUGHTS, GONE, IN_USE, LATE, LIFTED, NO_PORT, PUT, SECONDS, SILENT, START,
                   expect, expect_at_last, see)
from simulated_board import SerialPort, a_line
from wrong import Wrong, wanted

CLOSED = "the line was closed"
TIOCGEXCL = 0x80045440  # of Linux: whether later openers are refused; termios doesn't name it


def no_more(what, board, seconds=0.3):
    wanted(f"{what}, what comes next", board.wait(seconds), None)


class OnALine(cases.Case):
    def setUp(self):
        self.line = self.enterContext(a_line())


class Ports(OnALine):
    def test_changes(self):
        """Each change comes by itself, also if several come at once."""
        with dgt.follow(self.line.path, 60) as board:
            view = expect("at first", board, (START, False, None))
            wanted("its other fields", (view.clock, view.bytes_heard, board.view), (None, 67, view))
            # the board reports them in the order of squares
            self.line.put(("e2", "."), ("e4", "P"))
            wanted("bytes", expect("put", board, (BOTH, False, None)).bytes_heard, 72)
            wanted("bytes", expect("lifted", board, (PUT, False, None)).bytes_heard, 77)
            self.line.put(("e4", "P"))
            no_more("no change", board)
            board.write(board.follower.send(dgt.Ask.CLOCK))
            wanted("a clock without a reading", self.line.board.clock, dgt.Times())
            no_more("its report", board)
            self.line.board.hand_clock(dgt.Times(dgt.Time(1)))
            board.write(board.follower.send(dgt.Ask.CLOCK))
            view = board.wait(SECONDS)
            wanted("the clock", view and view.clock, self.line.board.clock)
            self.line.put(("e4", "."))
            wanted("as an iterator", next(board).picture, self.line.board.position)

    def test_lights(self):
        with dgt.follow(self.line.path, 60) as board:
            expect("at first", board, (START, False, None))
            self.line.asked.clear()
            board.light("e2", "e4")
            board.light()
            cases.wait("frames", lambda: sum(len(asked) for _, asked in self.line.asked) >= 14)
            wanted("frames", b"".join(asked for _, asked in self.line.asked).hex(),
                   "600401342400" "44" "600400404000" "44")

    def test_identifies(self):
        """The serial number comes once all squares have, and stays known while the port is away."""
        with dgt.follow(self.line.path, 60, identify=True) as board:
            view = expect("at first", board, *[(START, False, None)] * 2)
            wanted("its number", view.serial, "00001")
            self.line.unplug()
            wanted("its number", expect("gone", board, (START, True, GONE)).serial, "00001")

    def test_asks_when_due(self):
        with dgt.follow(self.line.path, 1.0, patience=3) as board:
            expect("at first", board, (START, False, None))
            view = expect("a period later", board, (START, False, None))
            wanted("whether it is confirmed", view.confirmed, True)
            no_more("more periods later", board, 4.5)
        times, asked = zip(*self.line.asked)
        wanted("bytes asked", [len(each) for each in asked[:6]], [258, 2, 2, 2, 258, 2])
        gaps = [later - earlier for earlier, later in zip(times, times[1:])]
        # A board that hears one late hears the next one sooner after it.
        wanted(f"the time between two askings: {gaps}", [0.6 < gap < 1.0 + LATE for gap in gaps],
               [True] * len(gaps))
        wanted(f"askings: {len(times)}", len(times) <= 8, True)

    def test_heals(self):
        with dgt.follow(self.line.path, 1.0) as board:
            expect("at first", board, (START, False, None))
            self.line.spoil = lambda message: b"" if len(message) == 5 else message
            self.line.put(("e2", "."))
            # The next dump is another picture than was known. A new beginning and its dump remove
            # the doubt.
            expect("a message that was lost", board, (LIFTED, True, None), (LIFTED, False, None))
            self.line.spoil = lambda message: message[:4] if len(message) == 5 else message
            self.line.put(("e4", "P"), ("d2", "."))
            expect("messages that were cut", board, (LIFTED, True, None))
            self.line.spoil = bytes
            right = self.line.board.position.placement, False, None
            wanted("healed", expect_at_last("healed", board, right)[-1], right)

    def test_confirms(self):
        """What a board shows at first, and each change, is confirmed about a second later."""
        with dgt.follow(self.line.path, 60, confirm=True) as board:
            for what, right in [("at first", START), ("lifted", LIFTED)]:
                begun = time.monotonic()
                if right == LIFTED:
                    self.line.put(("e2", "."))
                views = [board.wait(until=begun + SECONDS) for _ in range(2)]
                wanted(what, [view and (*see(view), view.confirmed) for view in views],
                       [(right, False, None, False), (right, False, None, True)])
                passed = time.monotonic() - begun
                wanted(f"how long, {what}: {passed}", 0.9 < passed < 1 + LATE, True)
            no_more("confirmed", board, 1.5)
        wanted("bytes asked", [len(each) for _, each in self.line.asked], [258, 2, 2])

    def test_clock_heals(self):
        """The line loses a reading of the clock without a trace, and the next asking brings
        another. While the clock shows no digits it is unknown, and while the port has gone it is
        the last."""
        early, late = dgt.Times(dgt.Time(0, 5, 0)), dgt.Times(dgt.Time(0, 4, 59))
        self.line.board.hand_clock(early)
        with dgt.follow(self.line.path, 1.5, mode=dgt.Mode.UPDATE_NICE) as board:
            view = expect("at first", board, *[(START, False, None)] * 2)
            wanted("its clock", view.clock, early)
            with self.line.lock:
                self.line.board.hand_clock(late)
                lost = list(self.line.board.messages())
            wanted("readings that are lost", len(lost), 1)
            no_more("after a reading was lost", board)
            view = expect("after the next asking", board, *[(START, False, None)] * 2)
            wanted("its clock", view.clock, late)
            for reading in ("017f0304050601", "00000000000000"):
                self.line.send([bytes.fromhex("8d000a" + reading)])
                for right in (None, late):
                    view = expect("no reading, and one again", board, (START, False, None))
                    wanted("its clock", view.clock, right)
            self.line.unplug()
            wanted("its clock", expect("gone", board, (START, True, GONE)).clock, late)
            self.line.plug()
        wanted("bytes asked", [len(each) for _, each in self.line.asked[:2]], [259, 3])

    def test_loses_an_end(self):
        """The line loses the end of a message, and nothing comes after it."""
        with dgt.follow(self.line.path, 4.0) as board:
            expect("at first", board, (START, False, None))
            began = time.monotonic()
            self.line.send([bytes.fromhex("8e000534")])
            expect("a message without its end", board, (START, True, None))
            wanted("whether a second passed", 0.9 < time.monotonic() - began < 1 + LATE, True)
            expect("after the next asking", board, (START, False, None))
        wanted("bytes asked", [len(each) for _, each in self.line.asked[:2]], [258, 258])

    def test_counts_faults(self):
        """The line loses a whole message. The picture is in doubt if the port counts lost bytes."""
        dgt._port.fcntl = counting = Counting(os.ttyname(self.line.ends[1]))
        try:
            with dgt.follow(self.line.path, 1.0, confirm=True) as board:
                expect("at first", board, (START, False, None))
                self.line.spoil = lambda message: b"" if message[3:4] == bytes([52]) else message
                # errors of framing, overruns, of parity, breaks, full buffers
                for at in range(6, 11):
                    counting.counts[at] += 1
                    self.line.put(("e2", ".P"[at % 2]), ("e4", ".P"[at % 2]))
                    right = self.line.board.position.placement, False, None
                    views = expect_at_last("healed", board, right)
                    wanted(f"doubts by count {at}", [doubt for _, doubt, _ in views][:-1],
                           [True] * 2)
                for at in range(6):  # what isn't lost
                    counting.counts[at] += 1
                    self.line.put(("d4", ".P"[at % 2]))
                    expect("no fault", board, (self.line.board.position.placement, False, None))
        finally:
            dgt._port.fcntl = fcntl

    def test_silence(self):
        self.line.is_on = False
        with dgt.follow(self.line.path, 1.0) as board:
            expect("a board that is off", board, (None, True, SILENT))
            self.line.is_on = True
            expect_at_last("a board that is on", board, (START, False, None))
            while board.wait(1.6):
                pass  # it answers each of the earlier askings
            wanted("a board that is on", see(board.view), (START, False, None))
            self.line.is_on = False
            self.line.put(("e2", "."))
            self.line.board.line_lost()
            expect_at_last("off again", board, (START, True, SILENT))
            self.line.is_on = True
            expect_at_last("on again", board, (LIFTED, False, None))

    def test_of_draughts(self):
        """A board that reports 100 squares, and then one that reports 64."""
        self.line.spoil = lambda message: b"\x86\x00\x67" + bytes(100)
        with dgt.follow(self.line.path, 1.0) as board:
            expect_at_last("100 squares", board, (None, True, DRAUGHTS))
            self.line.spoil = bytes
            expect_at_last("64 squares", board, (START, False, None))

    def test_goes_and_comes(self):
        """The port goes in the middle of a message, and comes back, twice."""
        with dgt.follow(self.line.path, 60) as board:
            expect("at first", board, (START, False, None))
            self.line.send([b"\x86\x00\x43" + bytes(20)])
            self.line.unplug()
            expect("gone", board, (START, True, GONE))
            no_more("gone for some time", board, 2.5)
            self.line.put(("e2", "."))
            self.line.plug()
            view = expect("back", board, (START, True, None), (LIFTED, False, None))
            wanted("bytes after it came back", view.bytes_heard, 67)
            self.line.unplug()
            self.line.plug()
            expect("gone and back at once", board, (LIFTED, True, GONE))
            gone = time.monotonic()
            expect("back", board, (LIFTED, True, None), (LIFTED, False, None))
            wanted("whether some time passed", time.monotonic() - gone > 1, True)

    def test_comes_late(self):
        self.line.unplug()
        with dgt.follow(self.line.path, 60, wait_for_port=True) as board:
            expect("no port", board, (None, True, NO_PORT))
            self.line.plug()
            expect("there", board, (None, False, None), (START, False, None))
            self.line.unplug()
            expect("gone", board, (START, True, GONE))
            self.line.path.symlink_to("/dev/null")
            expect("another file in its place", board, (START, True, "not a serial port"))
            self.line.path.unlink()
            self.line.plug()

    def test_faults(self):
        """A port that can't be opened says why, and what to do."""
        absent = self.line.path.parent / "absent"
        for path, number, said in [(str(absent), errno.ENOENT, NO_PORT),
                                   ("/dev/null", errno.ENOTTY, "not a serial port")]:
            fault = refused(path, lambda: dgt.follow(path), number)
            wanted(path, (fault.strerror, fault.filename), (said, path))
        refused("/dev/null", lambda: dgt.follow("/dev/null", wait_for_port=True), errno.ENOTTY)
        for period in (0, 0.999, -1, float("nan"), float("inf")):
            self.assertRaises(dgt.BadValue, dgt.follow, self.line.path, period)
        with dgt.follow(self.line.path):
            wanted("whether others are refused", is_exclusive(self.line.ends[1]), True)
            in_use = refused("a second reader", lambda: dgt.follow(self.line.path),
                             errno.EWOULDBLOCK)
            wanted("it", in_use.strerror, IN_USE)
            with dgt.follow(self.line.path, wait_for_port=True) as board:
                expect("a second one that waits", board, (None, True, in_use.strerror))

    def test_closing(self):
        """It ends, and others may have the port, even if a child has a copy of its descriptor."""
        board = dgt.follow(self.line.path)
        expect("at first", board, (START, False, None))
        self.line.put(("e2", "."), ("e4", "P"))
        next(board)
        self.addCleanup(os.close, os.dup(board.descriptor))
        board.close()
        board.close()
        wanted("what comes after it", list(board), [])
        self.assertRaises(dgt.Closed, board.wait)
        self.assertRaises(dgt.Closed, board.write, b"B")
        port = os.open(self.line.path, os.O_RDWR | os.O_NOCTTY)
        fcntl.flock(port, fcntl.LOCK_EX | fcntl.LOCK_NB)
        held = is_exclusive(port)
        os.close(port)
        wanted("whether others are refused", held, False)
        with dgt.follow(self.line.path) as board:
            expect("once more", board, (PUT, False, None))

    def test_leaving(self):
        """A loop that is left without `with` leaves the port to others at once."""
        def is_held():
            return is_exclusive(self.line.ends[1])

        for _ in dgt.follow(self.line.path):
            wanted("in a loop", is_held(), True)
            break
        wanted("after a break", is_held(), False)
        with contextlib.suppress(ZeroDivisionError):
            for _ in dgt.follow(self.line.path):
                1 / 0
        wanted("after an exception", is_held(), False)
        path = {"PYTHONPATH": str(pathlib.Path(dgt.__file__).parent.parent)}
        with subprocess.Popen([sys.executable, "-c", FOLLOWS, self.line.path],
                              env=os.environ | path,
                              stdin=subprocess.PIPE, stdout=subprocess.PIPE,
                              stderr=subprocess.DEVNULL) as ran:
            ran.stdout.readline()
            wanted("in another program", is_held(), True)
            time.sleep(0.5)  # until it waits
            ran.send_signal(signal.SIGINT)
            ran.stdout.readline()
            wanted("after Ctrl-C, whose traceback is kept", is_held(), False)
            ran.stdin.write(b"\n")
            ran.stdin.flush()
            ran.stdout.readline()
            wanted("once more", is_held(), True)
            ran.send_signal(signal.SIGINT)
        wanted("after Ctrl-C that ends it", (ran.returncode, is_held()), (-signal.SIGINT, False))

    def test_closing_elsewhere(self):
        """Another thread ends a wait at once, with a port and without."""
        for what in ("a port that is there", "a port that has gone"):
            board = dgt.follow(self.line.path, 60)
            expect("at first", board, (START, False, None))
            if what == "a port that has gone":
                self.line.unplug()
                expect("gone", board, (START, True, GONE))
            closer = threading.Timer(0.3, board.close)
            closer.start()
            begun = time.monotonic()
            wanted(what, list(board), [])
            wanted(f"how long, {what}", 0.25 < time.monotonic() - begun < 0.3 + LATE, True)
            closer.join()
            wanted("whether others are refused", any(map(is_exclusive, self.line.ends[1:])), False)
        self.line.plug()

    def test_settings(self):
        """What another program left of the port's settings is set right."""
        port = self.line.ends[1]
        others = [termios.INLCR | termios.IXON, termios.OPOST, termios.CS7 | termios.PARENB
                  | termios.CSTOPB | termios.CRTSCTS, termios.ECHO | termios.ICANON]
        termios.tcsetattr(port, termios.TCSANOW, others + [termios.B1200] * 2
                          + termios.tcgetattr(port)[6:])
        with dgt.follow(self.line.path, 60) as board:
            how = termios.tcgetattr(port)
            # Squares 10, 13, 17 and 19: bytes that a terminal may alter or keep.
            self.line.put(("c7", "."), ("f7", "."), ("b6", "p"), ("d6", "p"))
            expect_at_last("it", board, (self.line.board.position.placement, False, None))
        control = termios.CS8 | termios.CREAD | termios.CLOCAL
        wanted("its settings", (how[:2], how[2] & ~0o10017, how[3:6]),
               ([0, 0], control, [0, termios.B9600, termios.B9600]))

    def test_asks_for_the_clock(self):
        """With `clock` the clock is known soon, and otherwise not."""
        times = dgt.Times(dgt.Time(1, 30), dgt.Time(1, 29, 55), 0x11)
        self.line.board.hand_clock(times)
        for how, right in (({}, None), ({"clock": True}, times)):
            with dgt.follow(self.line.path, 60, **how) as board:
                while board.wait(0.5):
                    pass
                wanted(f"the clock, {how}", board.view.clock, right)
        for wrong in ({"clock": True, "mode": dgt.Mode.UPDATE}, {"mode": dgt.Mode.IDLE}):
            self.assertRaises(dgt.BadValue, dgt.follow, self.line.path, 60, **wrong)

    def test_waits(self):
        """It waits until a time, and no longer, and takes no time of the processor meanwhile."""
        with dgt.follow(self.line.path, 60) as board:
            expect("at first", board, (START, False, None))
            used = {"a port that is there": how_it_waits(board)}
            wanted("a time that is over", [board.wait(0), board.wait(until=0.0)], [None, None])
            self.line.put(("e2", "."))
            time.sleep(0.2)
            wanted("a time that is over, and a change", see(board.wait(0)), (LIFTED, False, None))
            begun = time.monotonic()
            wanted("a timeout", (board.wait(0.5), board.wait(timeout=0.5)), (None, None))
            wanted("how long", 1 <= time.monotonic() - begun < 1 + LATE, True)
            for wrong in ({"timeout": 1, "until": begun}, {"timeout": "1"},
                          {"until": float("nan")}):
                with self.assertRaises(dgt.BadValue):
                    board.wait(**wrong)
            self.line.unplug()
            expect("gone", board, (LIFTED, True, GONE))
            used["a port that has gone"] = how_it_waits(board)
            self.line.plug()
        for what, (passed, processor) in used.items():
            wanted(f"how long it waits, {what}: {passed}", 3 <= passed < 3 + LATE, True)
            wanted(f"what it uses, {what}: {processor}", processor < 0.03, True)

    def test_wakes(self):
        """A wait ends once another descriptor has something to read, with a port and without."""
        readable, writable = os.pipe()
        with dgt.follow(self.line.path, 60) as board:
            expect("at first", board, (START, False, None))
            for what in ("a port that is there", "a port that has gone"):
                wake = threading.Timer(0.3, os.write, (writable, b"w"))
                wake.start()
                begun = time.monotonic()
                wanted(what, board.wait(until=begun + 10, wakes=readable), None)
                wanted(f"how long, {what}", 0.25 < time.monotonic() - begun < 0.3 + LATE, True)
                wanted(f"it, again, {what}", board.wait(wakes=readable), None)
                os.read(readable, 1)
                if what == "a port that is there":
                    self.line.put(("e2", "."))
                    wanted("a change first", see(board.wait(wakes=readable)), (LIFTED, False, None))
                    self.line.unplug()
                    expect("gone", board, (LIFTED, True, GONE))
            self.line.plug()
        with dgt.follow(Handed(self.line.board)) as board:
            self.assertRaises(dgt.BadValue, board.wait, wakes=readable)
        os.close(readable)
        os.close(writable)

    def test_takes_nothing(self):
        """A port that takes nothing holds nobody up, and is sent what is due once it does."""
        with self.line.lock:
            self.line.is_on, port = False, self.line.ends[1]
            os.set_blocking(port, False)
            for _ in range(5):  # a full port takes some more in a while
                with contextlib.suppress(BlockingIOError):
                    while os.write(port, bytes(1000)):
                        pass
                time.sleep(0.1)
        with dgt.follow(self.line.path, 1.0) as board:
            begun, used = time.monotonic(), time.thread_time()
            expect_at_last("a port that takes nothing", board, (None, True, SILENT))
            no_more("it", board, 3.0)
            wanted("time of the processor", time.thread_time() - used < 0.1, True)
            wanted("the time that passed", time.monotonic() - begun < 3.5 + LATE, True)
            unsent = len(board._line._unsent)
            wanted(f"bytes that wait for the port: {unsent}", unsent <= 258, True)
            self.line.is_on = True
            expect_at_last("it, later", board, (START, False, None))


class Counting:
    """The module fcntl, by which a port counts what happens to it, as `counts` says."""

    def __init__(self, name):
        self.name, self.counts = name, [7] * 11

    def __getattr__(self, name):
        return getattr(fcntl, name)

    def ioctl(self, port, request, *words):
        if request == termios.TIOCGICOUNT and os.ttyname(port) == self.name:
            return struct.pack("11i36x", *self.counts)
        return fcntl.ioctl(port, request, *words)


def refused(what, call, number):
    try:
        call()
    except OSError as fault:
        wanted(what, fault.errno, number)
        return fault
    raise Wrong(f"{what}: it was opened")


def is_exclusive(port):
    return fcntl.ioctl(port, TIOCGEXCL, bytes(4)) != bytes(4)


FOLLOWS = """
import signal, sys, dgt
signal.signal(signal.SIGINT, signal.default_int_handler)
try:
    for view in dgt.follow(sys.argv[1]):
        print(flush=True)
except KeyboardInterrupt as fault:
    kept = fault
print(flush=True)
input()
for view in dgt.follow(sys.argv[1]):
    print(flush=True)
"""


def how_it_waits(board):
    """How long it waits for 3 seconds, and for how long it uses the processor."""
    begun, used = time.monotonic(), time.thread_time()
    wanted("waiting", board.wait(until=begun + 3), None)
    return time.monotonic() - begun, time.thread_time() - used


# ---- Other lines


class Handed(SerialPort):
    """A port that is closed after some reads, and fails later."""

    def __init__(self, board):
        super().__init__(board)
        self.waited = []

    def read(self, size):
        self.sent += b"".join(self.board.messages())
        self.waited.append((size, self.timeout))
        if len(self.sent) < size:
            if len(self.waited) > 5:
                raise OSError(errno.EIO, "this one fails")
            self.is_open = len(self.waited) < 4
        return self.take(size)


class Waiting(SerialPort):
    """A port from which nothing can be read while it is late."""

    is_late = True

    @property
    def in_waiting(self):
        return 0 if self.is_late else len(self.sent)

    def read(self, size):
        return b"" if self.is_late else self.take(size)


class Lines(OnALine):
    def test_handed(self):
        """A line that is passed to it ends it when it is closed, and is left open by it."""
        port = Handed(self.line.board)
        with dgt.follow(port, 60) as board:
            expect("a line", board, (START, False, None))
            self.line.board.change("e2", ".")
            wanted("it, changed", see(next(board)), (LIFTED, False, None))
            wanted("once it is closed", [see(view) for view in board], [(LIFTED, True, CLOSED)])
            self.assertRaises(dgt.Closed, board.wait)
        wanted("how much was read", [size for size, _ in port.waited], [67, 1, 4, 1])
        most = [60, 1, 60]  # a message that is unfinished disturbs after a second
        limits = [each - 1 < wait < each + 0.001 for each, (_, wait) in zip(most, port.waited[1:])]
        wanted(f"for how long: {port.waited}", limits, [True] * 3)
        port.is_open = True
        with dgt.follow(port) as board:
            expect("a line", board, (LIFTED, False, None))
        wanted("whether it is open", port.is_open, True)
        wanted("a fault of its own", [see(view) for view in dgt.follow(port)],
               [(LIFTED, False, None), (LIFTED, True, "this one fails")])

    def test_late_caller(self):
        """An answer that has waited in the port for its reader doesn't make the board silent."""
        port = Waiting(self.line.board)
        with dgt.follow(port, 60) as board:
            wanted("before the answer", board.wait(0), None)
            port.is_late = False
            time.sleep(1.1)  # the request is repeated after a second
            expect("an answer that was there", board, (START, False, None))
            wanted("more", board.wait(0), None)

    def test_handed_fails(self):
        """A line that is closed or fails ends in doubt, and so does its iteration. A fault of
        another kind of a line that stays open is the caller's."""
        unplugged = OSError("device reports readiness to read but returned no data")
        none = TypeError("'NoneType' object cannot be interpreted as an integer")
        for fault, call, closes, why in [
                (none, "read", True, CLOSED), (none, "in_waiting", True, CLOSED),
                (OSError(errno.EBADF, "it is closed"), "read", True, CLOSED),
                (unplugged, "read", False, str(unplugged)),
                (OSError(errno.EIO, "Input/output error"), "in_waiting", False,
                 "Input/output error")]:
            board = dgt.follow(Failing(dgt.Board(), fault, call, closes), 1.0)
            wanted(f"{fault!r} of {call}", [see(view) for view in board],
                   [(START, False, None), (START, True, why)])
        board = dgt.follow(Failing(dgt.Board(), unplugged, "write", False), 1.0)
        expect("a write that fails", board, (START, False, None), (START, True, SILENT),
               (START, False, None))
        board = dgt.follow(Failing(dgt.Board(), none, "read", False), 1.0)
        expect("a port that is open", board, (START, False, None))
        self.assertRaises(TypeError, board.wait)


class Failing(SerialPort):
    """A port that closes, or fails with an exception, after a number of calls. So does pyserial,
    which raises a TypeError if another thread has closed it."""

    def __init__(self, board, fault, call, closes):
        super().__init__(board)
        self.fault, self.call, self.closes, self.calls = fault, call, closes, 0

    def reach(self, call):
        self.calls += call == self.call
        if call == self.call and self.calls == 2:
            self.is_open = not self.closes
            raise self.fault

    @property
    def in_waiting(self):
        self.reach("in_waiting")
        return super().in_waiting

    def write(self, chunk):
        self.reach("write")
        super().write(chunk)

    def read(self, size):
        self.reach("read")
        if len(self.sent) < size:
            time.sleep(min(self.timeout, 0.05))
        return self.take(size)


async def hear_streams(board):
    reader, writer, views, _ = await joined(2.0)
    first = asyncio.create_task(anext(views))
    for message in board.answers(await reader.read(1000)):
        for byte in message:
            writer.write(bytes([byte]))
            await asyncio.sleep(0)
    seen = [await first]
    writer.write(b"\x8e\x00\x05\x00")
    writer.write(b"\x8e")
    seen.append(await anext(views))
    later = asyncio.create_task(anext(views))
    asked = await reader.read(1000)
    board.change("e2", ".")
    writer.writelines(board.answers(asked))
    seen += [await later, await anext(views)]
    writer.close()
    seen += [view async for view in views]
    return [see(view) for view in seen]


async def joined(*words):
    """The streams of a board, and the views of a host that follows it on others, which are given,
    too."""
    theirs, ours = [await asyncio.open_connection(sock=end) for end in socket.socketpair()]
    return *theirs, dgt.follow_async(tuple(ours), *words), ours


async def hear_full_stream(board):
    """What a host sends isn't taken, and it hears the board all the same."""
    _, writer, views, (_, ours) = await joined(1.0)
    ours.write(bytes(3_000_000))
    writer.writelines(board.answers(b"\x44\x42"))
    await asyncio.sleep(0)
    seen, unsent = [await anext(views)], ours.transport.get_write_buffer_size
    first = unsent()
    for square in ("e2", "d2", "c2"):
        await asyncio.sleep(0.7)
        board.change(square, ".")
        writer.writelines(board.messages())
        while view := await anext(views):
            if view.picture[square] == ".":
                break
        seen.append(view)
    await views.aclose()
    return [view.picture["e2"] for view in seen], unsent() <= first


async def answer(board, reader, writer, asked):
    """Answers a host, and notes when it has asked."""
    while chunk := await reader.read(1000):
        asked.append(time.monotonic())
        writer.writelines(board.answers(chunk))


async def hear_late(board):
    """The loop over the views waits for two seconds, in which the board changes 20 times, and is
    asked. Returns the squares of a pawn in the views then, and how often it was asked."""
    reader, writer, views, _ = await joined(1.0)
    asked = []
    served = asyncio.create_task(answer(board, reader, writer, asked))
    await anext(views)
    begun = time.monotonic()
    for number in range(20):
        board.change("e2", "P."[number % 2])
        board.change(dgt.SQUARES[16 + number], "P")
        writer.writelines(board.messages())
        await asyncio.sleep(0.1)
    seen = [await anext(views)]
    while seen[-1].picture != board.position:
        seen.append(await anext(views))
    await views.aclose()
    served.cancel()
    return [sum(each == "P" for each in view.picture[16:36]) for view in seen], len(
        [each for each in asked if begun < each])


class Streams(OnALine):
    def test_streams(self):
        seen = asyncio.run(asyncio.wait_for(hear_streams(self.line.board), SECONDS))
        wanted("streams", seen, [(START, False, None), (START, True, None), (LIFTED, True, None),
                                 (LIFTED, False, None), (LIFTED, True, CLOSED)])

    def test_slow_streams(self):
        seen, is_bounded = asyncio.run(asyncio.wait_for(hear_full_stream(self.line.board), SECONDS))
        wanted("a stream that takes nothing", (seen, is_bounded), (["P", ".", ".", "."], True))
        counts, asked = asyncio.run(asyncio.wait_for(hear_late(dgt.Board()), SECONDS))
        wanted(f"views after two seconds: {counts}", (counts == sorted(counts), counts[-1]),
               (True, 20))
        wanted(f"the first of them: {counts}", counts[0] > 8, True)
        wanted(f"askings meanwhile: {asked}", asked > 0, True)

    def test_with_asyncio(self):
        seen = asyncio.run(asyncio.wait_for(follow_port(self.line), 2 * SECONDS))
        wanted("the first and the last two", (seen[0], seen[-2:]),
               ((START, False, None), [(PUT, True, GONE), (PUT, False, None)]))


async def follow_port(line):
    """A port with asyncio: it disappears and comes back; the clock and the lights obey."""
    with contextlib.suppress(OSError):
        dgt.follow_async(f"{line.path}x")
        raise Wrong("a port that isn't there is followed")
    seen = []
    async with dgt.follow_async(line.path, 2.0, confirm=True) as board:
        seen.append(see(await board.wait(SECONDS)))
        other = asyncio.create_task(anext(board))
        line.put(("e2", "."), ("e4", "P"))
        seen.append(see(await other))
        while not board.view.confirmed:
            await board.wait(SECONDS)
        wanted("nothing", (await board.wait(0.2), await board.wait(0)), (None, None))
        board.send_text("hello")
        board.light("e2", "e4")
        await asyncio.sleep(0.3)
        sent = b"".join(asked for _, asked in line.asked)
        wanted("the text", b"\x0chello   " in sent, True)
        wanted("the lights", bytes([0x60, 4, 1, 52, 36, 0]) in sent, True)
        line.is_on = False  # it takes nothing more
        board.write(bytes(200_000))
        await asyncio.sleep(0.2)
        line.unplug()
        line.is_on = True
        seen.append(see(await board.wait(SECONDS)))
        line.plug()
        while (view := await board.wait(SECONDS)).in_doubt:
            pass
        seen.append(see(view))
        board.write(bytes(200_000))  # more than the port takes at once
        line.put(("d2", "."))
        while (await board.wait(SECONDS)).picture["d2"] != ".":
            pass
        last = asyncio.create_task(board.wait())
        await asyncio.sleep(0.05)
        await board.aclose()
        try:
            await last
            raise Wrong("a wait of a closed board returns")
        except dgt.Closed:
            pass
    wanted("views after the end", [view async for view in board], [])
    async for view in dgt.follow_async(line.path):  # it ends with the loop
        break
    for _ in range(100):
        await asyncio.sleep(0.05)
        with contextlib.suppress(OSError), dgt.follow(line.path):
            return seen
    raise Wrong("the port isn't free after a break")
