"""What dgt.h declares. Made from it by tools/c_boundary: don't edit it."""

from ctypes import POINTER, Structure, c_bool, c_char
from ctypes import c_size_t as size, c_uint8 as u8, c_uint16 as u16, c_uint32 as u32
from ctypes import c_uint64 as u64, c_void_p as place
from enum import IntEnum
from typing import Any

MAX_BODY = 16380
MAX_WORD = 257
MAX_PAYLOAD = 252
MAX_LEDS = 255
MAX_AWAITED = 16
RESTART_LENGTH = 257
MAX_ASKING = 259
LEAST_PERIOD = 1000
MAX_OWED = 8
MAX_SENT = 67
MAX_KEPT = 64
PLACEMENT_ROOM = 72
MAX_UNSEEN = 4
HOST_SIZE = 22528
FOLLOWER_SIZE = 23552
DECODER_SIZE = 21504
COMMAND_DECODER_SIZE = 512
BOARD_SIZE = 1280
RECOGNISER_SIZE = 16384
CLOCK_UNKNOWN = 0
CLOCK_TIMES = 1
CLOCK_NONE = 2
STATUS_RUNNING = 0x01
STATUS_LEVER = 0x02
STATUS_BATTERY_LOW = 0x04
STATUS_BLACK_TURN = 0x08
STATUS_WHITE_TURN = 0x10
STATUS_ABSENT = 0x20
EVENT_NONE = 0
EVENT_DUMP = 1
EVENT_FIELD = 2
EVENT_TIMES = 3
EVENT_NO_CLOCK = 4
EVENT_ACK = 5
EVENT_SERIAL = 6
EVENT_TRADEMARK = 7
EVENT_VERSION = 8
EVENT_BATTERY = 9
EVENT_LONG_SERIAL = 10
EVENT_OTHER = 11
EVENT_REFUSED = 12
EVENT_CUT = 13
EVENT_BAD_LENGTH = 14
EVENT_STRAY = 15
NO_FAULT = 0
NO_WORD = 0
COMMAND = 1
BAD_SIZE = 2
BAD_START = 3
BAD_END = 4
STRAY_BYTE = 5
SEND_CLOCK_MESSAGE = 0x2b
SEND_LEDS = 0x60
DONE = 0
TOO_MANY_AWAITED = 1
NO_ROOM = 2
REFUSED = 3
STARTED = 0
START_BAD_PIECES = 1
START_BAD_CLOCK = 2
START_BAD_IDENTITY = 3
NOTHING = 0
WROTE = 1
STORED_PIECE = 1
STORED_TIME = 2
STORED_MARK = 3
STORED_UNKNOWN = 4
SIGNAL_DONE = 1
SIGNAL_VERSION = 2
SIGNAL_PRESSED = 3
SIGNAL_OFF = 4
SIGNAL_READY = 5
FLAG_BLOCKED = 0x01
FLAG_PER_MOVE = 0x02
FLAG_FALLEN = 0x04
BATTERY_UNKNOWN = 127
NO_SUCH = 255
CHESS_FEN_ROOM = 96
CHESS_SAN_ROOM = 16
CHESS_DONE = 0
CHESS_BAD_MEMBER = 8
SIGHT_SURE = 0
SIGHT_DOUBTED = 1
SIGHT_AWAY = 2
SEEN = 0
SEE_BAD_PIECES = 1
SEE_BAD_SIGHT = 2
SEE_BAD_SIDE = 3
SEE_STILL_DUE = 4
GAME_BEGUN = 1
GAME_MADE = 2
GAME_UNSEEN = 3
GAME_GAP = 4
GAME_BACK = 5
GAME_ENDED = 6
GAME_LOST = 7
GAME_FOUND = 8
RESULT_WHITE_WINS = 1
RESULT_BLACK_WINS = 2
RESULT_DRAW = 3


class Fault(IntEnum):
    """Why a body was refused."""

    __module__ = "dgt.events"

    WRONG_SIZE = 1
    BAD_PIECE = 2
    BAD_SQUARE = 3
    BAD_READING = 4


class Ask(IntEnum):
    """The commands of one byte. A later version may have more."""

    __module__ = "dgt.commands"

    RESET = 0x40
    CLOCK = 0x41
    DUMP = 0x42
    UPDATE = 0x43
    UPDATE_BOARD = 0x44
    SERIAL = 0x45
    TRADEMARK = 0x47
    UPDATE_NICE = 0x4b
    BATTERY = 0x4c
    VERSION = 0x4d
    LONG_SERIAL = 0x55


class ClockId(IntEnum):
    """The ids of clock messages. A later version may have more."""

    __module__ = "dgt.commands"

    DISPLAY = 0x01
    ICONS = 0x02
    END = 0x03
    BUTTON = 0x08
    VERSION = 0x09
    SET_AND_RUN = 0x0a
    BEEP = 0x0b
    TEXT = 0x0c


class Mode(IntEnum):
    """Which changes a board reports unasked."""

    __module__ = "dgt.board"

    IDLE = 0
    UPDATE = 1
    UPDATE_BOARD = 2
    UPDATE_NICE = 3


class Mark(IntEnum):
    """A byte that is stored by itself."""

    __module__ = "dgt.stored"

    NOTHING = 0x00
    POWER_UP = 0x6a
    END = 0x6b
    FOUR_ROWS = 0x6c
    EMPTY_BOARD = 0x6d
    DOWNLOADED = 0x6e
    BEGIN = 0x6f
    TURNED_BEGIN = 0x7a
    TAG = 0x7b
    WATCHDOG = 0x7c
    ERASED = 0x7f


class Button(IntEnum):
    """A button of a clock."""

    __module__ = "dgt.names"

    BACK = 0x31
    PLUS = 0x32
    RUN = 0x33
    MINUS = 0x34
    OK = 0x35


class Colour(IntEnum):
    """A side."""

    __module__ = "dgt.chess"

    WHITE = 0
    BLACK = 1


class Why(IntEnum):
    """Why no game reaches a state."""

    __module__ = "dgt.chess"

    BAD_KINGS = 1
    EXTRA_PIECE = 2
    BAD_PAWN = 3
    IN_CHECK = 4
    BAD_RIGHTS = 5
    BAD_PASSED = 6
    BAD_NUMBER = 7


class SanFault(IntEnum):
    """Why a text isn't read as a legal move."""

    __module__ = "dgt.chess"

    BAD_TEXT = 9
    NO_MOVE = 10
    AMBIGUOUS = 11


class TimeStruct(Structure):
    _fields_ = [("hours", u8), ("minutes", u8), ("seconds", u8), ("flags", u8)]


class ClockStruct(Structure):
    _fields_ = [("kind", u8), ("status", u8), ("raw", u8 * 6), ("first", TimeStruct),
                ("second", TimeStruct)]


class EventStruct(Structure):
    _fields_ = [("kind", u8), ("unasked", u8), ("code", u8), ("square", u8), ("piece", u8),
                ("main_number", u8), ("sub_number", u8), ("byte", u8), ("fault", u8),
                ("ack_status", u8), ("ack", u8 * 4), ("serial", u8 * 5), ("clock", ClockStruct),
                ("pieces", u8 * 64), ("reserved", u8 * 29), ("have", size), ("at", size),
                ("body_len", size), ("place", size)]


class CommandStruct(Structure):
    _fields_ = [("kind", u8), ("code", u8), ("id", u8), ("byte", u8), ("reserved", u8 * 4),
                ("word_len", size)]


class ToldStruct(Structure):
    _fields_ = [("used", size), ("count", size)]


class SentStruct(Structure):
    _fields_ = [("status", u8), ("bytes", size)]


class BodyStruct(Structure):
    _fields_ = [("len", size), ("bytes", u8 * MAX_KEPT)]


class IdentityStruct(Structure):
    _fields_ = [("serial", u8 * 5), ("main_number", u8), ("sub_number", u8), ("clock_version", u8),
                ("trademark", BodyStruct), ("battery", BodyStruct), ("long_serial", BodyStruct),
                ("reserved", u8 * 32)]


class TakenStruct(Structure):
    _fields_ = [("busy", c_bool), ("used", size)]


class PolledStruct(Structure):
    _fields_ = [("status", u8), ("bytes", size)]


class EncodedStruct(Structure):
    _fields_ = [("status", u8), ("bytes", size)]


class StoredStruct(Structure):
    _fields_ = [("kind", u8), ("square", u8), ("piece", u8), ("bit", u8), ("byte", u8),
                ("time", TimeStruct), ("reserved", u8 * 7)]


class SignalStruct(Structure):
    _fields_ = [("kind", u8), ("id", u8), ("main_number", u8), ("sub_number", u8), ("button", u8),
                ("reserved", u8 * 3)]


class BatteryStruct(Structure):
    _fields_ = [("percent", u8), ("hours_left", u8), ("minutes_left", u8), ("hours_on", u8),
                ("minutes_on", u8), ("days_resting", u8), ("hours_resting", u8),
                ("minutes_resting", u8), ("charging", u8), ("discharging", u8),
                ("reserved", u8 * 6)]


class ParsedStruct(Structure):
    _fields_ = [("ok", c_bool), ("at", size)]


class ChessStateStruct(Structure):
    _fields_ = [("pieces", u8 * 64), ("half_moves", u16), ("number", u16), ("turn", u8),
                ("rights", u8 * 4), ("passed", u8), ("reserved", u8 * 6)]


class ChessMoveStruct(Structure):
    _fields_ = [("from", u8), ("to", u8), ("promotion", u8), ("reserved", u8)]


class ChessFenReadStruct(Structure):
    _fields_ = [("status", u8), ("field", u8), ("at", size)]


class GameEventStruct(Structure):
    _fields_ = [("kind", u8), ("count", u8), ("result", u8), ("turned", u8),
                ("moves", ChessMoveStruct * MAX_UNSEEN), ("state", ChessStateStruct), ("stays", u8),
                ("reserved", u8 * 19), ("squares", u64)]


# How many bytes each handle takes.
SIZES = {"dgt_host": HOST_SIZE, "dgt_follower": FOLLOWER_SIZE, "dgt_decoder": DECODER_SIZE,
         "dgt_command_decoder": COMMAND_DECODER_SIZE, "dgt_board": BOARD_SIZE,
         "dgt_recogniser": RECOGNISER_SIZE}

# What each call returns, and what it takes.
CALLS: dict[str, tuple[Any, ...]] = {
    "dgt_version": (u32,),
    "dgt_host_size": (size,),
    "dgt_host_make": (None, place),
    "dgt_host_hear": (size, place, place, size, place, place, size),
    "dgt_host_hear_many": (ToldStruct, place, place, size, place, size, place, size),
    "dgt_host_follow": (SentStruct, place, place, size),
    "dgt_host_restart": (SentStruct, place, place, size),
    "dgt_host_send": (SentStruct, place, u8, place, size),
    "dgt_host_send_clock": (SentStruct, place, u8, place, size, place, size),
    "dgt_host_send_display": (SentStruct, place, place, u8, u8, place, size),
    "dgt_host_send_text": (SentStruct, place, place, u8, place, size),
    "dgt_host_send_beep": (SentStruct, place, u8, place, size),
    "dgt_host_send_set_and_run": (SentStruct, place, place, place, u8, place, size),
    "dgt_host_send_icons": (SentStruct, place, place, size, place, size),
    "dgt_host_send_end": (SentStruct, place, place, size),
    "dgt_host_send_button": (SentStruct, place, place, size),
    "dgt_host_send_clock_version": (SentStruct, place, place, size),
    "dgt_host_send_leds": (SentStruct, place, place, size, place, size),
    "dgt_host_picture": (c_bool, place, place),
    "dgt_host_placement": (c_bool, place, place),
    "dgt_host_clock": (None, place, POINTER(ClockStruct)),
    "dgt_host_awaited": (size, place, place),
    "dgt_host_give_up_awaited": (size, place),
    "dgt_host_unread": (size, place),
    "dgt_host_line_lost": (None, place),
    "dgt_follower_size": (size,),
    "dgt_follower_make": (None, place),
    "dgt_follower_start": (None, place, u64, u32),
    "dgt_follower_hear": (size, place, u64, place, size, place, place, size),
    "dgt_follower_hear_all": (None, place, u64, place, size),
    "dgt_follower_ask": (SentStruct, place, u64, place, size),
    "dgt_follower_due_at": (c_bool, place, POINTER(u64)),
    "dgt_follower_mode": (u8, place),
    "dgt_follower_set_mode": (c_bool, place, u8),
    "dgt_follower_ask_now": (None, place),
    "dgt_follower_set_confirm": (None, place, c_bool),
    "dgt_follower_set_identify": (None, place, c_bool),
    "dgt_follower_send": (SentStruct, place, u8, place, size),
    "dgt_follower_send_clock": (SentStruct, place, u8, place, size, place, size),
    "dgt_follower_send_display": (SentStruct, place, place, u8, u8, place, size),
    "dgt_follower_send_text": (SentStruct, place, place, u8, place, size),
    "dgt_follower_send_beep": (SentStruct, place, u8, place, size),
    "dgt_follower_send_set_and_run": (SentStruct, place, place, place, u8, place, size),
    "dgt_follower_send_icons": (SentStruct, place, place, size, place, size),
    "dgt_follower_send_end": (SentStruct, place, place, size),
    "dgt_follower_send_button": (SentStruct, place, place, size),
    "dgt_follower_send_clock_version": (SentStruct, place, place, size),
    "dgt_follower_send_leds": (SentStruct, place, place, size, place, size),
    "dgt_follower_picture": (c_bool, place, place),
    "dgt_follower_placement": (c_bool, place, place),
    "dgt_follower_clock": (None, place, POINTER(ClockStruct)),
    "dgt_follower_unread": (size, place),
    "dgt_follower_in_doubt": (c_bool, place),
    "dgt_follower_confirmed": (c_bool, place),
    "dgt_follower_serial": (c_bool, place, place),
    "dgt_follower_last_heard": (c_bool, place, POINTER(u64)),
    "dgt_follower_heartbeats_left": (u32, place),
    "dgt_follower_line_disturbed": (None, place),
    "dgt_follower_line_lost": (None, place),
    "dgt_decoder_size": (size,),
    "dgt_decoder_make": (None, place),
    "dgt_decoder_feed": (size, place, place, size, place, place, size),
    "dgt_decoder_feed_many": (ToldStruct, place, place, size, place, size, place, size),
    "dgt_decoder_unread": (size, place),
    "dgt_decoder_finish": (size, place),
    "dgt_decoder_reset": (None, place),
    "dgt_command_decoder_size": (size,),
    "dgt_command_decoder_make": (None, place),
    "dgt_command_decoder_feed": (size, place, place, size, POINTER(CommandStruct), place, size),
    "dgt_command_decoder_unread": (size, place),
    "dgt_command_decoder_finish": (size, place),
    "dgt_command_decoder_reset": (None, place),
    "dgt_board_size": (size,),
    "dgt_board_make": (None, place),
    "dgt_board_start": (u8, place, place, POINTER(ClockStruct), POINTER(IdentityStruct)),
    "dgt_board_change": (c_bool, place, u8, u8),
    "dgt_board_hand_clock": (c_bool, place, POINTER(ClockStruct)),
    "dgt_board_line_lost": (None, place),
    "dgt_board_take": (TakenStruct, place, place, size, POINTER(CommandStruct), place, size),
    "dgt_board_poll": (PolledStruct, place, place, size),
    "dgt_board_owes": (c_bool, place),
    "dgt_board_owed_len": (size, place),
    "dgt_board_unread": (size, place),
    "dgt_board_mode": (u8, place),
    "dgt_board_position": (None, place, place),
    "dgt_board_clock": (None, place, POINTER(ClockStruct)),
    "dgt_encode_message": (EncodedStruct, place, place, size, place, size),
    "dgt_view_message": (c_bool, u8, place, size, place),
    "dgt_event_text": (EncodedStruct, place, place, size, place, size),
    "dgt_encode_command": (EncodedStruct, u8, u8, place, size, place, size),
    "dgt_view_command": (c_bool, place, size, POINTER(CommandStruct)),
    "dgt_stored_first": (size, place, size, POINTER(StoredStruct)),
    "dgt_signal_of": (c_bool, place, POINTER(SignalStruct)),
    "dgt_battery_of": (c_bool, place, size, POINTER(BatteryStruct)),
    "dgt_is_text": (c_bool, place, size),
    "dgt_piece_letter": (c_char, u8),
    "dgt_piece_code": (u8, u8),
    "dgt_square_name": (c_bool, u8, place),
    "dgt_square_number": (u8, u8, u8),
    "dgt_placement": (c_bool, place, place),
    "dgt_differ": (c_bool, place, place, POINTER(u64)),
    "dgt_parse_placement": (ParsedStruct, place, size, place),
    "dgt_segment": (u8, u8),
    "dgt_chess_start": (None, place),
    "dgt_chess_check": (u8, place),
    "dgt_chess_is_legal": (c_bool, place, place),
    "dgt_chess_play": (c_bool, place, place),
    "dgt_chess_goals": (c_bool, place, POINTER(u64)),
    "dgt_chess_move_to": (c_bool, place, place, place),
    "dgt_chess_is_check": (c_bool, place),
    "dgt_chess_can_move": (c_bool, place),
    "dgt_chess_is_mate": (c_bool, place),
    "dgt_chess_is_stalemate": (c_bool, place),
    "dgt_chess_is_dead": (c_bool, place),
    "dgt_chess_is_fifty_moves": (c_bool, place),
    "dgt_chess_is_seventy_five_moves": (c_bool, place),
    "dgt_chess_is_repeated": (c_bool, place, place),
    "dgt_chess_parse_fen": (ChessFenReadStruct, place, size, place),
    "dgt_chess_fen": (c_bool, place, place),
    "dgt_chess_san": (c_bool, place, place, place),
    "dgt_chess_parse_san": (u8, place, place, size, place),
    "dgt_chess_parse_san_leniently": (u8, place, place, size, place),
    "dgt_recogniser_size": (size,),
    "dgt_recogniser_make": (None, place),
    "dgt_recogniser_see": (u8, place, u64, place, u8, c_bool, u8),
    "dgt_recogniser_due_at": (c_bool, place, POINTER(u64)),
    "dgt_recogniser_due": (c_bool, place, u64, place),
    "dgt_recogniser_state": (c_bool, place, place),
    "dgt_recogniser_go_on": (u8, place, place, c_bool),
}
