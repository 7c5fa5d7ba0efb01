"""Reads and simulates DGT electronic chess boards.

A host reads a board's bytes and keeps a picture of the board. `follow` opens a serial port, and a
host then requests the position again and again. This program shows it after each change:

    >>> import dgt
    >>> with dgt.follow("/dev/ttyUSB0") as board:
    ...     for view in board:
    ...         print(view.picture)
    ...         if view.picture and view.picture["e4"] == "P":
    ...             break
    rnbqkbnr/pppppppp/8/8/8/8/PPPPPPPP/RNBQKBNR
    rnbqkbnr/pppppppp/8/8/8/8/PPPP1PPP/RNBQKBNR
    rnbqkbnr/pppppppp/8/8/4P3/8/PPPP1PPP/RNBQKBNR

Nothing else in this package opens a port. A `Host` returns the events in the bytes that you pass to
it. With pyserial:

    >>> import serial
    >>> line = serial.Serial("/dev/ttyUSB0", 9600, timeout=1)
    >>> host = dgt.Host()
    >>> sent = line.write(host.restart())
    >>> while line.is_open:
    ...     chunk = line.read(line.in_waiting or 1)
    ...     for event in host.hear_each(chunk):
    ...         print(type(event).__name__, host.placement)
    Dump rnbqkbnr/pppppppp/8/8/8/8/PPPPPPPP/RNBQKBNR
    Field rnbqkbnr/pppppppp/8/8/8/8/PPPP1PPP/RNBQKBNR
    Field rnbqkbnr/pppppppp/8/8/4P3/8/PPPP1PPP/RNBQKBNR

`read` waits until it has the requested number of bytes, or until the timeout. The loop therefore
reads the bytes that have arrived (`in_waiting`), or else one. `hear_each` hears a byte once you
have taken the event before it, so the picture is the picture after that event. `hear` hears the
whole chunk first.

The package contains::

    follow          follows the board on a port; follow_async uses asyncio
    find_port       finds the port of the only board; ports lists the ports
    Host            makes commands, takes in a board's bytes, keeps the picture and the clock
    Follower        is a host that repeats its requests, so that its picture becomes right again
    Decoder         turns a board's bytes into events; CommandDecoder a host's into commands
    Board, World    simulate a board, and a board and a host on lines that may fail
    encode_message  and view_message, encode_command, view_command convert to bytes and back
    ClockCommands   are the calls of `follow`, Host and Follower for the board's clock
    chess.State     applies the rules of chess: legal moves, draws, FEN, SAN
    recogniser      has a Recogniser, which reports the games that are played on a board
    Games, PgnFile  make games from the pictures, and keep them in a file; PgnGame, san write PGN
    WhiteClock      learns which side of the clock is White's
    is_proved       is False for a library that bindings/c/build only compiled

A Host, Follower, Decoder, CommandDecoder, Board and Recogniser is one of the library libdgt, in
memory that Python owns. The Rattle code of libdgt is proved; all else, such as World, is written in
Python and tested. Each object has a lock, so that threads may share it: a call waits for a call of
another thread, and raises `Nested` within a call of its own thread. A process that was forked while
another thread was in a call of an object must not use that object: its calls would wait for ever.
"""

from ._library import is_proved
from ._pgn_file import KeptGame, PgnFile
from ._version import VERSION
from .board import Board, Identity, Mode
from .clock_commands import ClockCommands
from .clock_side import WhiteClock
from .commands import (Ask, Asked, BadEnd, BadSize, BadStart, ClockId, ClockMessage, Command, Leds,
                       StrayByte, Word)
from .decoder import CommandDecoder, Decoder
from .encoding import encode_command, encode_message, view_command, view_message
from .errors import (BadFen, BadPlacement, BadSan, BadValue, Busy, Closed, DgtError, IllegalMove,
                     Impossible, Nested, NoSuchCommand, TooManyAwaited)
from .events import (Ack, BadLength, Battery, Cut, Dump, Event, Fault, Field, LongSerial, Message,
                     Other, Refused, Serial, Stray, Trademark, Version)
from .follower import Follower
from .following import BoardView, Following, SerialLine, follow
from .following_async import AsyncFollowing, follow_async
from .games import Games, GameStore
from .host import Host
from .logging_board import LoggingBoard
from .names import BatteryState, Button, ClockVersion, Done, Off, Pressed, Ready, Signal
from .pgn import PgnGame, PgnMove, san
from .rules import START_FEN, GameState
from .serial_ports import SerialPort, find_port, ports
from .stored import (STORED_REQUEST, Mark, Stored, StoredPiece, StoredTime, UnknownByte,
                     read_stored)
from .values import (LETTERS, SQUARES, Clock, NoClock, Position, Time, Times, piece_code, segment,
                     square_number)
from .world import Outcome, World

__version__ = VERSION

__all__ = [
    "Ack", "Ask", "Asked", "AsyncFollowing", "BadEnd", "BadFen", "BadLength", "BadPlacement",
    "BadSan", "BadSize", "BadStart", "BadValue", "Battery", "BatteryState", "Board", "BoardView",
    "Busy", "Button", "Clock", "ClockCommands", "ClockId", "ClockMessage", "ClockVersion", "Closed",
    "Command", "CommandDecoder", "Cut", "Decoder", "DgtError", "Done", "Dump", "Event", "Fault",
    "Field", "Follower", "Following", "GameState", "GameStore", "Games", "Host", "Identity",
    "IllegalMove", "Impossible", "KeptGame", "LETTERS", "Leds", "LoggingBoard", "LongSerial",
    "Mark", "Message", "Mode", "Nested", "NoClock", "NoSuchCommand", "Off", "Other", "Outcome",
    "PgnFile", "PgnGame", "PgnMove", "Position", "Pressed", "Ready", "Refused", "SQUARES",
    "START_FEN", "STORED_REQUEST", "Serial", "SerialLine", "SerialPort", "Signal", "Stored",
    "StoredPiece", "StoredTime", "Stray", "StrayByte", "Time", "Times", "TooManyAwaited",
    "Trademark", "UnknownByte", "Version", "WhiteClock", "Word", "World", "encode_command",
    "encode_message", "find_port", "follow", "follow_async", "is_proved", "piece_code", "ports",
    "read_stored", "san", "segment", "square_number", "view_command", "view_message",
]
