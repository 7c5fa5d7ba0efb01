"""Readers of a board's bytes and of a host's."""

import ctypes
from collections.abc import Callable, Iterator
from ctypes import byref, c_size_t, c_uint64
from typing import Any

from ._c import EVENT_FIELD, MAX_BODY, MAX_WORD, CommandStruct, EventStruct
from ._handle import Bytes, Handle, readable, writable
from ._library import dgt
from .commands import Word, read_word
from .events import FIELDS, KIND, PIECE, SQUARE, Event, read_event, read_events, read_offsets


class EventReader(Handle):
    """Reads events from chunks of bytes: a host, a follower or a decoder."""

    _feed_name: str
    _chunk_name: str
    _most = 256  # events that one call of the library reports

    def __init__(self) -> None:
        super().__init__()
        self._offset = 0
        self._events, self._events_at = writable(self._most * ctypes.sizeof(EventStruct))
        self._told = EventStruct.from_buffer(self._events)
        self._body, self._body_at = writable(MAX_BODY)
        self._feed = getattr(dgt, f"{self._prefix}_{self._feed_name}")
        self._feed_chunk = getattr(dgt, f"{self._prefix}_{self._chunk_name}")

    @property
    def offset(self) -> int:
        """The number of bytes read since the object was made or reset. In a loop over `feed_each`
        or `hear_each` it is the offset that `dgt monitor` prints for the event."""
        return self._call(lambda at: self._offset)

    def _all(self, chunk: Bytes) -> list[Event]:
        held, address = readable(chunk)
        return self._call(self._read_all, address, address + len(held), None)

    def _placed(self, chunk: Bytes) -> list[tuple[int, Event]]:
        held, address = readable(chunk)
        offsets: list[int] = []
        events = self._call(self._read_all, address, address + len(held), offsets)
        return list(zip(offsets, events))

    def _read_all(self, at: int, address: int, end: int, offsets: list[int] | None) -> list[Event]:
        events: list[Event] = []
        while address < end:
            # One call reports all events of a chunk, unless there are many, or one has a body.
            told = self._feed_chunk(at, address, end - address, self._events_at, self._most,
                                    self._body_at, MAX_BODY)
            address += told.used
            if offsets is not None:
                offsets += read_offsets(self._events, told.count, self._offset)
            self._offset += told.used
            events += read_events(self._events, told.count, self._body)
        return events

    def _made_new(self, at: int, make: Callable[[int], Any]) -> Any:
        """Calls `make`, which resets the object, and returns its result."""
        made = make(at)
        self._offset = 0
        return made

    def _each(self, chunk: Bytes, *time: int) -> Iterator[Event]:
        held = readable(chunk)
        self._check_open()
        return self._steps(*held, *time)

    def _steps(self, held: bytes, address: int, *time: int) -> Iterator[Event]:
        end, left, room = address + len(held), c_size_t(), c_size_t(MAX_BODY)
        feed, told, told_at, body_at = self._feed, self._events, self._events_at, self._body_at
        times = [c_uint64(each) for each in time]  # ctypes converts other numbers at each call
        while address < end:
            left.value = end - address
            # The body of `_call`: calling it for each event would take 50 % longer.
            with self._lock:
                if self._running or not self._at:
                    self._refuse()
                self._running = True
                try:
                    used = feed(self._at, *times, address, left, told_at, body_at, room)
                    address += used
                    self._offset += used
                    kind = told[KIND]
                    # Most events are fields: no call, and no member of a struct, for these.
                    event = (FIELDS[told[SQUARE]][told[PIECE]] if kind == EVENT_FIELD
                             else read_event(self._told, self._body) if kind else None)
                finally:
                    self._running = False
            if event is not None:
                yield event


class Decoder(EventReader):
    r"""Reads a board's bytes, in chunks of any length, and returns their events. It keeps no
    picture.

    >>> decoder = Decoder()
    >>> decoder.feed(b"\x8e\x00\x05\x24")
    []
    >>> decoder.unread
    4
    >>> decoder.feed(b"\x01")
    [Field(square='e4', piece='P')]
    """

    _prefix, _feed_name, _chunk_name = "dgt_decoder", "feed", "feed_many"

    def feed(self, chunk: Bytes) -> list[Event]:
        """Returns the events of a chunk of bytes."""
        return self._all(chunk)

    def feed_placed(self, chunk: Bytes) -> list[tuple[int, Event]]:
        r"""Returns the same events, each with its offset: the number of bytes fed since the decoder
        was made or reset.

        >>> Decoder().feed_placed(b"\x8e\x00\x05\x34\x00\x8e\x00\x05\x24\x01")
        [(5, Field(square='e2', piece='.')), (10, Field(square='e4', piece='P'))]
        """
        return self._placed(chunk)

    def feed_each(self, chunk: Bytes) -> Iterator[Event]:
        """Yields the same events. A byte is read once you have taken the event before it."""
        return self._each(chunk)

    @property
    def unread(self) -> int:
        """The number of bytes received of an unfinished message."""
        return int(self._call(dgt.dgt_decoder_unread))

    def finish(self) -> int:
        """Returns `unread` at the end of the bytes, and resets the decoder."""
        return int(self._call(self._made_new, dgt.dgt_decoder_finish))

    def reset(self) -> None:
        """Drops an unfinished message, and sets the offset to 0."""
        self._call(self._made_new, dgt.dgt_decoder_reset)


class CommandDecoder(Handle):
    r"""Reads a host's bytes, in chunks of any length, and returns their commands and faults.

    >>> CommandDecoder().feed(b"\x42\x99")
    [Asked(ask=<Ask.DUMP: 66>), StrayByte(byte=153)]
    """

    _prefix = "dgt_command_decoder"

    def __init__(self) -> None:
        super().__init__()
        self._told = CommandStruct()
        self._word, self._word_at = writable(MAX_WORD)

    def feed(self, chunk: Bytes) -> list[Word]:
        """Returns the commands and faults of a chunk of bytes."""
        held, address = readable(chunk)
        return self._call(self._words, address, address + len(held))

    def _words(self, at: int, address: int, end: int) -> list[Word]:
        words: list[Word] = []
        while address < end:
            used, word = self._step(at, address, end)
            address += used
            if word is not None:
                words.append(word)
        return words

    def feed_each(self, chunk: Bytes) -> Iterator[Word]:
        """Yields the same commands and faults. A byte is read once you have taken the one before
        it."""
        held = readable(chunk)
        self._check_open()
        return self._steps(*held)

    def _steps(self, held: bytes, address: int) -> Iterator[Word]:
        end = address + len(held)
        while address < end:
            used, word = self._call(self._step, address, end)
            address += used
            if word is not None:
                yield word

    def _step(self, at: int, address: int, end: int) -> tuple[int, Word | None]:
        used = dgt.dgt_command_decoder_feed(at, address, end - address, byref(self._told),
                                            self._word_at, MAX_WORD)
        return used, read_word(self._told, self._word) if self._told.kind else None

    @property
    def unread(self) -> int:
        """The number of bytes received of an unfinished command."""
        return int(self._call(dgt.dgt_command_decoder_unread))

    def finish(self) -> int:
        """Returns `unread` at the end of the bytes, and resets the reader."""
        return int(self._call(dgt.dgt_command_decoder_finish))

    def reset(self) -> None:
        """Drops an unfinished command, and sets the offset to 0."""
        self._call(dgt.dgt_command_decoder_reset)
