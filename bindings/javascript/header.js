// What dgt.h declares. Made from it by tools/c_boundary: don't edit it.

export const VERSION = 1000000;
export const CLOCKS = Object.freeze({ unknown: 0, times: 1, none: 2 });
export const STATUS = Object.freeze({ running: 0x01, lever: 0x02, batteryLow: 0x04, blackTurn: 0x08,
                                      whiteTurn: 0x10, absent: 0x20 });
export const EVENTS = Object.freeze({ none: 0, dump: 1, field: 2, times: 3, noClock: 4, ack: 5,
                                      serial: 6, trademark: 7, version: 8, battery: 9,
                                      longSerial: 10, other: 11, refused: 12, cut: 13,
                                      badLength: 14, stray: 15 });
export const FAULTS = Object.freeze({ noFault: 0, wrongSize: 1, badPiece: 2, badSquare: 3,
                                      badReading: 4 });
export const WORDS = Object.freeze({ noWord: 0, command: 1, badSize: 2, badStart: 3, badEnd: 4,
                                     strayByte: 5 });
export const ASK = Object.freeze({ clockMessage: 0x2b, reset: 0x40, clock: 0x41, dump: 0x42,
                                   update: 0x43, updateBoard: 0x44, serial: 0x45, trademark: 0x47,
                                   updateNice: 0x4b, battery: 0x4c, version: 0x4d, longSerial: 0x55,
                                   leds: 0x60 });
export const IDS = Object.freeze({ display: 0x01, icons: 0x02, end: 0x03, button: 0x08,
                                   version: 0x09, setAndRun: 0x0a, beep: 0x0b, text: 0x0c });
export const MODES = Object.freeze({ idle: 0, update: 1, updateBoard: 2, updateNice: 3 });
export const STORED = Object.freeze({ piece: 1, time: 2, mark: 3, unknown: 4 });
export const MARKS = Object.freeze({ nothing: 0x00, powerUp: 0x6a, end: 0x6b, fourRows: 0x6c,
                                     emptyBoard: 0x6d, downloaded: 0x6e, begin: 0x6f,
                                     turnedBegin: 0x7a, tag: 0x7b, watchdog: 0x7c, erased: 0x7f });
export const SIGNALS = Object.freeze({ done: 1, version: 2, pressed: 3, off: 4, ready: 5 });
export const BUTTONS = Object.freeze({ back: 0x31, plus: 0x32, run: 0x33, minus: 0x34, ok: 0x35 });
export const FLAGS = Object.freeze({ blocked: 0x01, perMove: 0x02, fallen: 0x04 });
export const TURNS = Object.freeze({ white: 0, black: 1 });
export const CHESS = Object.freeze({ done: 0, badKings: 1, extraPiece: 2, badPawn: 3, inCheck: 4,
                                     badRights: 5, badPassed: 6, badNumber: 7, badMember: 8,
                                     badText: 9, noMove: 10, ambiguous: 11 });
export const SIGHTS = Object.freeze({ sure: 0, doubted: 1, away: 2 });
export const SEE = Object.freeze({ seen: 0, badPieces: 1, badSight: 2, badSide: 3, stillDue: 4 });
export const GAMES = Object.freeze({ begun: 1, made: 2, unseen: 3, gap: 4, back: 5, ended: 6,
                                     lost: 7, found: 8 });
export const RESULTS = Object.freeze({ whiteWins: 1, blackWins: 2, draw: 3 });
export const MAX_BODY = 16380;
export const MAX_WORD = 257;
export const MAX_PAYLOAD = 252;
export const MAX_LEDS = 255;
export const MAX_AWAITED = 16;
export const RESTART_LENGTH = 257;
export const MAX_ASKING = 259;
export const LEAST_PERIOD = 1000;
export const MAX_OWED = 8;
export const MAX_SENT = 67;
export const MAX_KEPT = 64;
export const PLACEMENT_ROOM = 72;
export const MAX_UNSEEN = 4;
export const HOST_SIZE = 22528;
export const FOLLOWER_SIZE = 23552;
export const DECODER_SIZE = 21504;
export const COMMAND_DECODER_SIZE = 512;
export const BOARD_SIZE = 1280;
export const RECOGNISER_SIZE = 16384;
export const DONE = 0;
export const TOO_MANY_AWAITED = 1;
export const NO_ROOM = 2;
export const REFUSED = 3;
export const STARTED = 0;
export const START_BAD_PIECES = 1;
export const START_BAD_CLOCK = 2;
export const START_BAD_IDENTITY = 3;
export const NOTHING = 0;
export const WROTE = 1;
export const BATTERY_UNKNOWN = 127;
export const NO_SUCH = 255;
export const CHESS_FEN_ROOM = 96;
export const CHESS_SAN_ROOM = 16;

// Of each struct: its size, and of each member its name, its place and its type.
// That is a number of bytes or a word. `wide` is 64 bits: a number or a pointer.
export const STRUCTS = /** @type {const} */ ({
  host: { size: 22528, members: [] },
  follower: { size: 23552, members: [] },
  decoder: { size: 21504, members: [] },
  command_decoder: { size: 512, members: [] },
  board: { size: 1280, members: [] },
  recogniser: { size: 16384, members: [] },
  time: { size: 4, members: [["hours", 0, "u8"], ["minutes", 1, "u8"], ["seconds", 2, "u8"],
                             ["flags", 3, "u8"]] },
  clock: { size: 16, members: [["kind", 0, "u8"], ["status", 1, "u8"], ["raw", 2, 6],
                               ["first", 8, "time"], ["second", 12, "time"]] },
  event: { size: 160, members: [["kind", 0, "u8"], ["unasked", 1, "u8"], ["code", 2, "u8"],
                                ["square", 3, "u8"], ["piece", 4, "u8"], ["mainNumber", 5, "u8"],
                                ["subNumber", 6, "u8"], ["byte", 7, "u8"], ["fault", 8, "u8"],
                                ["ackStatus", 9, "u8"], ["ack", 10, 4], ["serial", 14, 5],
                                ["clock", 19, "clock"], ["pieces", 35, 64], ["have", 128, "wide"],
                                ["at", 136, "wide"], ["bodyLen", 144, "wide"],
                                ["place", 152, "wide"]] },
  command: { size: 16, members: [["kind", 0, "u8"], ["code", 1, "u8"], ["id", 2, "u8"],
                                 ["byte", 3, "u8"], ["wordLen", 8, "wide"]] },
  told: { size: 16, members: [["used", 0, "wide"], ["count", 8, "wide"]] },
  sent: { size: 16, members: [["status", 0, "u8"], ["bytes", 8, "wide"]] },
  body: { size: 72, members: [["len", 0, "wide"], ["bytes", 8, 64]] },
  identity: { size: 256, members: [["serial", 0, 5], ["mainNumber", 5, "u8"],
                                   ["subNumber", 6, "u8"], ["clockVersion", 7, "u8"],
                                   ["trademark", 8, "body"], ["battery", 80, "body"],
                                   ["longSerial", 152, "body"]] },
  taken: { size: 16, members: [["busy", 0, "bool"], ["used", 8, "wide"]] },
  polled: { size: 16, members: [["status", 0, "u8"], ["bytes", 8, "wide"]] },
  encoded: { size: 16, members: [["status", 0, "u8"], ["bytes", 8, "wide"]] },
  stored: { size: 16, members: [["kind", 0, "u8"], ["square", 1, "u8"], ["piece", 2, "u8"],
                                ["bit", 3, "u8"], ["byte", 4, "u8"], ["time", 5, "time"]] },
  signal: { size: 8, members: [["kind", 0, "u8"], ["id", 1, "u8"], ["mainNumber", 2, "u8"],
                               ["subNumber", 3, "u8"], ["button", 4, "u8"]] },
  battery: { size: 16, members: [["percent", 0, "u8"], ["hoursLeft", 1, "u8"],
                                 ["minutesLeft", 2, "u8"], ["hoursOn", 3, "u8"],
                                 ["minutesOn", 4, "u8"], ["daysResting", 5, "u8"],
                                 ["hoursResting", 6, "u8"], ["minutesResting", 7, "u8"],
                                 ["charging", 8, "u8"], ["discharging", 9, "u8"]] },
  parsed: { size: 16, members: [["ok", 0, "bool"], ["at", 8, "wide"]] },
  chess_state: { size: 80, members: [["pieces", 0, 64], ["halfMoves", 64, "u16"],
                                     ["number", 66, "u16"], ["turn", 68, "u8"], ["rights", 69, 4],
                                     ["passed", 73, "u8"]] },
  chess_move: { size: 4, members: [["from", 0, "u8"], ["to", 1, "u8"], ["promotion", 2, "u8"]] },
  chess_fen_read: { size: 16, members: [["status", 0, "u8"], ["field", 1, "u8"], ["at", 8, "wide"]]
                                        },
  game_event: { size: 128, members: [["kind", 0, "u8"], ["count", 1, "u8"], ["result", 2, "u8"],
                                     ["turned", 3, "u8"], ["moves", 4, 16],
                                     ["state", 20, "chess_state"], ["stays", 100, "u8"],
                                     ["squares", 120, "wide"]] },
});

// What each call returns, and what it takes.
export const CALLS = /** @type {const} */ ({
  dgt_version: "u32",
  dgt_host_size: "wide",
  dgt_host_make: "void,wide",
  dgt_host_hear: "wide,wide,wide,wide,wide,wide,wide",
  dgt_host_hear_many: "told,wide,wide,wide,wide,wide,wide,wide",
  dgt_host_follow: "sent,wide,wide,wide",
  dgt_host_restart: "sent,wide,wide,wide",
  dgt_host_send: "sent,wide,u8,wide,wide",
  dgt_host_send_clock: "sent,wide,u8,wide,wide,wide,wide",
  dgt_host_send_display: "sent,wide,wide,u8,u8,wide,wide",
  dgt_host_send_text: "sent,wide,wide,u8,wide,wide",
  dgt_host_send_beep: "sent,wide,u8,wide,wide",
  dgt_host_send_set_and_run: "sent,wide,wide,wide,u8,wide,wide",
  dgt_host_send_icons: "sent,wide,wide,wide,wide,wide",
  dgt_host_send_end: "sent,wide,wide,wide",
  dgt_host_send_button: "sent,wide,wide,wide",
  dgt_host_send_clock_version: "sent,wide,wide,wide",
  dgt_host_send_leds: "sent,wide,wide,wide,wide,wide",
  dgt_host_picture: "bool,wide,wide",
  dgt_host_placement: "bool,wide,wide",
  dgt_host_clock: "void,wide,wide",
  dgt_host_awaited: "wide,wide,wide",
  dgt_host_give_up_awaited: "wide,wide",
  dgt_host_unread: "wide,wide",
  dgt_host_line_lost: "void,wide",
  dgt_follower_size: "wide",
  dgt_follower_make: "void,wide",
  dgt_follower_start: "void,wide,wide,u32",
  dgt_follower_hear: "wide,wide,wide,wide,wide,wide,wide,wide",
  dgt_follower_hear_all: "void,wide,wide,wide,wide",
  dgt_follower_ask: "sent,wide,wide,wide,wide",
  dgt_follower_due_at: "bool,wide,wide",
  dgt_follower_mode: "u8,wide",
  dgt_follower_set_mode: "bool,wide,u8",
  dgt_follower_ask_now: "void,wide",
  dgt_follower_set_confirm: "void,wide,bool",
  dgt_follower_set_identify: "void,wide,bool",
  dgt_follower_send: "sent,wide,u8,wide,wide",
  dgt_follower_send_clock: "sent,wide,u8,wide,wide,wide,wide",
  dgt_follower_send_display: "sent,wide,wide,u8,u8,wide,wide",
  dgt_follower_send_text: "sent,wide,wide,u8,wide,wide",
  dgt_follower_send_beep: "sent,wide,u8,wide,wide",
  dgt_follower_send_set_and_run: "sent,wide,wide,wide,u8,wide,wide",
  dgt_follower_send_icons: "sent,wide,wide,wide,wide,wide",
  dgt_follower_send_end: "sent,wide,wide,wide",
  dgt_follower_send_button: "sent,wide,wide,wide",
  dgt_follower_send_clock_version: "sent,wide,wide,wide",
  dgt_follower_send_leds: "sent,wide,wide,wide,wide,wide",
  dgt_follower_picture: "bool,wide,wide",
  dgt_follower_placement: "bool,wide,wide",
  dgt_follower_clock: "void,wide,wide",
  dgt_follower_unread: "wide,wide",
  dgt_follower_in_doubt: "bool,wide",
  dgt_follower_confirmed: "bool,wide",
  dgt_follower_serial: "bool,wide,wide",
  dgt_follower_last_heard: "bool,wide,wide",
  dgt_follower_heartbeats_left: "u32,wide",
  dgt_follower_line_disturbed: "void,wide",
  dgt_follower_line_lost: "void,wide",
  dgt_decoder_size: "wide",
  dgt_decoder_make: "void,wide",
  dgt_decoder_feed: "wide,wide,wide,wide,wide,wide,wide",
  dgt_decoder_feed_many: "told,wide,wide,wide,wide,wide,wide,wide",
  dgt_decoder_unread: "wide,wide",
  dgt_decoder_finish: "wide,wide",
  dgt_decoder_reset: "void,wide",
  dgt_command_decoder_size: "wide",
  dgt_command_decoder_make: "void,wide",
  dgt_command_decoder_feed: "wide,wide,wide,wide,wide,wide,wide",
  dgt_command_decoder_unread: "wide,wide",
  dgt_command_decoder_finish: "wide,wide",
  dgt_command_decoder_reset: "void,wide",
  dgt_board_size: "wide",
  dgt_board_make: "void,wide",
  dgt_board_start: "u8,wide,wide,wide,wide",
  dgt_board_change: "bool,wide,u8,u8",
  dgt_board_hand_clock: "bool,wide,wide",
  dgt_board_line_lost: "void,wide",
  dgt_board_take: "taken,wide,wide,wide,wide,wide,wide",
  dgt_board_poll: "polled,wide,wide,wide",
  dgt_board_owes: "bool,wide",
  dgt_board_owed_len: "wide,wide",
  dgt_board_unread: "wide,wide",
  dgt_board_mode: "u8,wide",
  dgt_board_position: "void,wide,wide",
  dgt_board_clock: "void,wide,wide",
  dgt_encode_message: "encoded,wide,wide,wide,wide,wide",
  dgt_view_message: "bool,u8,wide,wide,wide",
  dgt_event_text: "encoded,wide,wide,wide,wide,wide",
  dgt_encode_command: "encoded,u8,u8,wide,wide,wide,wide",
  dgt_view_command: "bool,wide,wide,wide",
  dgt_stored_first: "wide,wide,wide,wide",
  dgt_signal_of: "bool,wide,wide",
  dgt_battery_of: "bool,wide,wide,wide",
  dgt_is_text: "bool,wide,wide",
  dgt_piece_letter: "char,u8",
  dgt_piece_code: "u8,u8",
  dgt_square_name: "bool,u8,wide",
  dgt_square_number: "u8,u8,u8",
  dgt_placement: "bool,wide,wide",
  dgt_differ: "bool,wide,wide,wide",
  dgt_parse_placement: "parsed,wide,wide,wide",
  dgt_segment: "u8,u8",
  dgt_chess_start: "void,wide",
  dgt_chess_check: "u8,wide",
  dgt_chess_is_legal: "bool,wide,wide",
  dgt_chess_play: "bool,wide,wide",
  dgt_chess_goals: "bool,wide,wide",
  dgt_chess_move_to: "bool,wide,wide,wide",
  dgt_chess_is_check: "bool,wide",
  dgt_chess_can_move: "bool,wide",
  dgt_chess_is_mate: "bool,wide",
  dgt_chess_is_stalemate: "bool,wide",
  dgt_chess_is_dead: "bool,wide",
  dgt_chess_is_fifty_moves: "bool,wide",
  dgt_chess_is_seventy_five_moves: "bool,wide",
  dgt_chess_is_repeated: "bool,wide,wide",
  dgt_chess_parse_fen: "chess_fen_read,wide,wide,wide",
  dgt_chess_fen: "bool,wide,wide",
  dgt_chess_san: "bool,wide,wide,wide",
  dgt_chess_parse_san: "u8,wide,wide,wide,wide",
  dgt_chess_parse_san_leniently: "u8,wide,wide,wide,wide",
  dgt_recogniser_size: "wide",
  dgt_recogniser_make: "void,wide",
  dgt_recogniser_see: "u8,wide,wide,wide,u8,bool,u8",
  dgt_recogniser_due_at: "bool,wide,wide",
  dgt_recogniser_due: "bool,wide,wide,wide",
  dgt_recogniser_state: "bool,wide,wide",
  dgt_recogniser_go_on: "u8,wide,wide,bool",
});
