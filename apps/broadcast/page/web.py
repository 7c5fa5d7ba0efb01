"""A web server for many open pages. It has one loop, so that a slow browser delays no other."""

from __future__ import annotations

import asyncio
import collections
import contextlib
import http.server
import io
import ipaddress
import itertools
import math
import re
import resource
import socket
import threading
import traceback
from collections.abc import Callable
from typing import Any

SECONDS = 10.0  # for a whole request; its answer has the same time, plus a second per RATE bytes
RATE = 10_000
MOST_HEAD, MOST_BODY = 1 << 14, 1 << 16  # bytes of a request
# The most connections, of all addresses and of each: open pages, and those that wait for a request
# or haven't taken their answer. Too many of these drop the oldest, and too many pages get the
# answer 503.
MOST_PAGES, MOST_PAGES_OF_ONE = 4096, 2048
MOST_WAITING, MOST_WAITING_OF_ONE = 1024, 256
# A page that hasn't taken this many events is dropped. It reconnects and starts again.
BEHIND = 10_000
AT_ONCE = 100  # the most events of one write
PAUSE = 0.1  # seconds between two writes to all pages
QUIET = 15.0  # seconds after which a page is sent something, to check that it is there
STUCK = 60.0  # seconds after which a page that takes nothing is dropped
UNSENT = 1 << 17  # bytes of a connection that the kernel may hold
# The bytes that a connection gets at once, and those of all texts that somebody hasn't taken yet.
SLICE, MOST_HELD = 1 << 14, 1 << 26
NOTHING = memoryview(b"")  # one for all: to look at a page's own would take as long as to write
END = re.compile(rb"\r?\n\r?\n")
LENGTH = re.compile(rb"(?i)\ncontent-length:[ \t]*(\d{1,9})[ \t\r]*$", re.M)


def network(address: str) -> str:
    """The user's address: in IPv6 a user has all addresses with the same first 64 bits."""
    found = ipaddress.ip_address(address.partition("%")[0])
    if isinstance(found, ipaddress.IPv4Address):
        return str(found)
    return str(found.ipv4_mapped or int(found) >> 64)


class Events:
    """The events for all open pages. Each is encoded once, and each page has a place among them."""

    def __init__(self) -> None:
        self.lock = threading.Lock()
        self.kept: collections.deque[bytes] = collections.deque(maxlen=BEHIND)
        self.end = 0
        self.wake: Callable[[], None] | None = None

    def add(self, event: bytes) -> None:
        with self.lock:
            self.kept.append(b"data: " + event + b"\n\n")
            self.end += 1
        if wake := self.wake:
            wake()

    def since(self, place: int) -> tuple[bytes, int]:
        """Some events from a place on, and the place after them. LookupError if it is too old."""
        with self.lock:
            first = place - self.end + len(self.kept)
            if first < 0:
                raise LookupError
            some = list(itertools.islice(self.kept, first, first + AT_ONCE))
        return b"".join(some), place + len(some)


class Visit(http.server.BaseHTTPRequestHandler):
    """A complete request, which is answered at once: with what is in `wfile`, and `text`, which
    several answers share. `place` is that of a page: it gets all events from there on."""

    protocol_version = "HTTP/1.1"
    server: Any
    wfile: io.BytesIO
    text = b""
    place: int | None = None
    pause = 0.0  # seconds before the answer is sent

    def setup(self) -> None:
        self.rfile, self.wfile = io.BytesIO(self.request), io.BytesIO()

    def handle(self) -> None:
        self.close_connection = True
        self.handle_one_request()

    def finish(self) -> None:
        pass

    def parse_request(self) -> bool:
        """Refuses a head with lines that are no fields, or with one of these twice: something else
        may read them otherwise."""
        if not super().parse_request():
            return False
        is_wrong = self.headers.defects or any(
            len(self.headers.get_all(name, [])) > 1 for name in ("Host", "Content-Length"))
        if is_wrong:
            self.send_error(400)
        return not is_wrong

    def log_message(self, *_: Any) -> None:
        pass

    def reply(self, status: int, heads: dict[str, str], content: bytes | None = None) -> None:
        """Sends an answer. HEAD gets no content, but its length."""
        self.send_response(status)
        length = {} if content is None else {"Content-Length": str(len(content))}
        for name, value in (heads | length).items():
            self.send_header(name, value)
        self.end_headers()
        if content and self.command != "HEAD":
            self.text = content


class Connection(asyncio.Protocol):
    """A browser's connection: one request after another, or the events of a page."""

    transport: asyncio.Transport
    address = ""

    def __init__(self, server: Server) -> None:
        self.server, self.unread, self.due = server, b"", math.inf
        self.working: asyncio.Task[None] | None = None
        self.place: int | None = None  # of a page, among the events
        self.rest = NOTHING  # of an answer, or of events
        self.is_last = False  # no other request follows
        self.is_full = False
        self.written = 0.0

    def connection_made(self, transport: asyncio.BaseTransport) -> None:
        assert isinstance(transport, asyncio.Transport)
        self.transport = transport
        transport.set_write_buffer_limits(0)
        transport.get_extra_info("socket").setsockopt(socket.SOL_SOCKET, socket.SO_SNDBUF, UNSENT)
        self.address = network(transport.get_extra_info("peername")[0])
        self.server.all.add(self)
        self.wait()

    def connection_lost(self, _: Exception | None) -> None:
        self.server.forget(self)

    def drop(self) -> None:
        self.rest = NOTHING
        self.server.forget(self)
        self.transport.abort()

    def wait(self) -> None:
        self.due = self.server.loop.time() + SECONDS
        self.server.let_wait(self)

    def data_received(self, chunk: bytes) -> None:
        if self.place is None:  # a page sends nothing
            self.unread += chunk
            self.read()

    def read(self) -> None:
        """Answers each complete request, once the browser has taken the answer before."""
        while self.unread and not self.is_full and not self.transport.is_closing():
            found = END.search(self.unread)
            size = found.end() if found else 0
            if self.unread.startswith(b"POST ") and (length := LENGTH.search(self.unread, 0, size)):
                size += int(length[1])
            if size > MOST_HEAD + MOST_BODY or (found.end() if found else len(
                    self.unread)) > MOST_HEAD:
                self.drop()
                break
            if not size or len(self.unread) < size:
                break
            request, self.unread = self.unread[:size], self.unread[size:]
            self.answer(request)
        if len(self.unread) > MOST_HEAD + MOST_BODY:
            self.drop()

    def answer(self, request: bytes) -> None:
        self.server.end_wait(self)
        if request.startswith(b"POST "):
            self.is_full, self.due = True, math.inf  # stop reading
            self.working = self.server.loop.create_task(self.work(request))
        else:
            self.finish(self.visit(request))

    async def work(self, request: bytes) -> None:
        """Answers a request that changes something, in a thread: others are answered meanwhile."""
        self.finish(await asyncio.to_thread(self.visit, request))

    def visit(self, request: bytes) -> Visit | None:
        """The answer, or nothing if that fails."""
        try:
            return self.server.visit(request, (self.address, 0), self.server)
        except Exception:
            self.server.report(f"a request failed\n{traceback.format_exc()}")
            return None

    def finish(self, visit: Visit | None) -> None:
        """Sends an answer, after its pause."""
        if visit is None:
            self.drop()
        elif visit.pause:
            self.is_full, self.due = True, math.inf  # stop reading
            self.server.loop.call_later(visit.pause, self.send_answer, visit)
        else:
            self.send_answer(visit)

    def send_answer(self, visit: Visit) -> None:
        head, self.rest, self.is_full = visit.wfile.getvalue(), memoryview(visit.text), False
        self.due = self.server.loop.time() + SECONDS + len(self.rest) / RATE
        self.is_last, self.place = visit.close_connection, visit.place
        self.transport.write(head)
        if self.place is not None:
            self.unread = b""
            self.server.add_page(self)
        else:
            self.go_on()

    def go_on(self) -> None:
        """Sends the rest of an answer, and waits for another request."""
        self.send_rest()
        if self.transport.is_closing():
            return
        if self.is_full:
            self.server.let_take(self)
        elif self.is_last:
            self.transport.close()
        else:
            self.wait()

    def send_rest(self) -> None:
        """Sends as much as the browser takes: what the transport keeps is a copy."""
        while self.rest and not self.is_full:
            self.transport.write(self.rest[:SLICE])
            self.rest = self.rest[SLICE:] or NOTHING

    def pause_writing(self) -> None:
        self.is_full = True
        if self.place is not None:
            self.due = self.server.loop.time() + STUCK

    def resume_writing(self) -> None:
        self.is_full = False
        if self.place is not None:
            self.catch_up()
        elif not self.transport.is_closing():
            self.go_on()
            self.read()

    def catch_up(self) -> None:
        assert self.place is not None
        server, self.due = self.server, math.inf
        if self.rest is not NOTHING:
            self.send_rest()
        while self.place < server.events.end and not self.is_full:
            try:
                text, self.place = server.some.get(self.place) or server.since(self.place)
            except LookupError:
                self.drop()
                return
            self.written = server.loop.time()
            if len(text) > SLICE:
                self.rest = memoryview(text)
                self.send_rest()
            else:
                self.transport.write(text)


class Server:
    """Listens at a socket, and answers each request with a `Visit`. `report` prints a fault."""

    loop: asyncio.AbstractEventLoop

    def __init__(self, listening: socket.socket, visit: Callable[..., Visit], events: Events,
                 report: Callable[[str], None]) -> None:
        self.socket, self.visit, self.events, self.report = listening, visit, events, report
        self.address, self.port = listening.getsockname()[:2]
        self.all: set[Connection] = set()
        # The oldest first, of all addresses, and of each one.
        self.waiting: dict[Connection, None] = {}
        self.waiting_of: dict[str, dict[Connection, None]] = collections.defaultdict(dict)
        self.pages: dict[Connection, None] = {}
        self.of_one: collections.Counter[str] = collections.Counter()  # pages of an address
        self.some: dict[int, tuple[bytes, int]] = {}  # events from a place on, for all pages
        self.is_woken, self.written = False, 0.0
        self.ended: asyncio.Event | None = None
        self.is_over = False
        self.most_pages, self.most_waiting = MOST_PAGES, MOST_WAITING

    def serve_forever(self, begun: Callable[[], object] = lambda: None) -> None:
        """Serves until `shutdown`, and calls `begun` at the start. With few descriptors it allows
        fewer connections."""
        count, most = resource.getrlimit(resource.RLIMIT_NOFILE)
        with contextlib.suppress(OSError, ValueError):  # if that is forbidden
            resource.setrlimit(resource.RLIMIT_NOFILE, (most, most))
            count = most
        if count != resource.RLIM_INFINITY:
            self.most_waiting = min(MOST_WAITING, count // 4)
            self.most_pages = min(MOST_PAGES, count - self.most_waiting - 100)
        asyncio.run(self.serve(begun))

    def shutdown(self) -> None:
        """Stops serving, from another thread."""
        self.is_over = True
        if self.ended and not self.loop.is_closed():
            self.loop.call_soon_threadsafe(self.ended.set)

    async def serve(self, begun: Callable[[], object]) -> None:
        self.loop, self.ended = asyncio.get_running_loop(), asyncio.Event()
        if self.is_over:  # a thread has failed before
            self.ended.set()
        self.loop.set_exception_handler(self.hear_fault)
        listening = await self.loop.create_server(lambda: Connection(self), sock=self.socket)
        watching = self.loop.create_task(self.watch())
        self.events.wake = self.wake
        try:
            begun()
            await self.ended.wait()
        finally:
            self.events.wake = None
            watching.cancel()
            listening.close()

    def hear_fault(self, _: Any, context: dict[str, Any]) -> None:
        """Handles a fault of the loop. Without a descriptor for a connection, half of the waiting
        ones are dropped."""
        if "accept" in context["message"]:
            for one in list(self.waiting)[:len(self.waiting) // 2]:
                one.drop()
        elif not isinstance(fault := context.get("exception"), ConnectionError):
            lines = traceback.format_exception(fault) if fault else []
            self.report(f"{context['message']}\n{''.join(lines)}".rstrip())

    def let_wait(self, one: Connection) -> None:
        self.end_wait(one)
        same = self.waiting_of[one.address]
        same[one] = self.waiting[one] = None
        if len(same) > MOST_WAITING_OF_ONE:
            next(iter(same)).drop()
        elif len(self.waiting) > self.most_waiting:
            next(iter(self.waiting)).drop()

    def end_wait(self, one: Connection) -> None:
        if one in self.waiting:
            del self.waiting[one], self.waiting_of[one.address][one]
            if not self.waiting_of[one.address]:
                del self.waiting_of[one.address]

    def let_take(self, one: Connection) -> None:
        """Lets one wait that hasn't taken its answer yet. If all such answers are too long, the
        oldest are dropped. Those that share a text share its bytes."""
        self.let_wait(one)
        due = [each for each in self.waiting if each.rest]
        while sum({id(each.rest.obj): memoryview(each.rest.obj).nbytes
                   for each in due}.values()) > MOST_HELD:
            due.pop(0).drop()

    def has_room(self, address: str) -> bool:
        """Whether an address may open another page."""
        return len(self.pages) < self.most_pages and self.of_one[address] < MOST_PAGES_OF_ONE

    def add_page(self, page: Connection) -> None:
        self.pages[page] = None
        self.of_one[page.address] += 1
        page.written = self.loop.time()
        if page.is_full:
            page.pause_writing()
        else:
            page.catch_up()

    def forget(self, one: Connection) -> None:
        self.all.discard(one)
        self.end_wait(one)
        if one in self.pages:
            del self.pages[one]
            self.of_one -= collections.Counter([one.address])

    def since(self, place: int) -> tuple[bytes, int]:
        """Like `Events`; pages at the same place get the same bytes from `some`."""
        found = self.some[place] = self.events.since(place)
        return found

    def wake(self) -> None:
        """Notes that there are events. Call it in any thread."""
        if not self.is_woken:
            self.is_woken = True
            with contextlib.suppress(RuntimeError):  # the loop has ended
                self.loop.call_soon_threadsafe(self.ask_write)

    def ask_write(self) -> None:
        self.loop.call_at(self.written + PAUSE, self.write)

    def write(self) -> None:
        self.written, self.is_woken = self.loop.time(), False
        self.some.clear()
        for page in list(self.pages):
            if not page.is_full:
                page.catch_up()

    async def watch(self) -> None:
        """Ends requests and answers that take too long."""
        while True:
            await asyncio.sleep(1)
            now = self.loop.time()
            for one in [each for each in self.all if each.due < now]:
                one.drop()
            for page in [each for each in self.pages if each.written + QUIET < now]:
                if not page.is_full:
                    page.written = now
                    page.transport.write(b"event: quiet\ndata:\n\n")
