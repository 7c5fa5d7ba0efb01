/*
 * dgt.h: a host, a follower, a decoder, a decoder of commands and a board for the DGT electronic
 * chess board, the rules of chess, and a recogniser of games.
 *
 * Nothing here opens a line, allocates memory or waits. You read bytes from the serial line and
 * pass them in chunks of any length; you send the bytes that a call wrote into your buffer. You
 * provide all memory. (dgt_port.h opens a serial port and waits for its bytes. dgt.hpp contains
 * classes for C++.) This program follows a board on a serial line, with times in milliseconds:
 *
 *     static dgt_follower follower;                 // 23 KiB
 *     uint8_t out[DGT_MAX_ASKING], chunk[256];
 *     uint64_t due;
 *     if (!dgt_follower_init(&follower, 10000, 6)) return 1; // header and library don't match
 *     for (;;) {
 *         dgt_sent asked = dgt_follower_ask(&follower, now(), out, sizeof out);
 *         write(line, out, asked.bytes);            // 0 bytes if none is due
 *         if (!dgt_follower_due_at(&follower, &due)) return 1; // so long a period never ends
 *         ...                                       // wait for bytes until `due`, and read n
 *         dgt_follower_hear_all(&follower, now(), chunk, n);
 *     }
 *
 * A follower asks again by itself. A host asks only when you call it.
 *
 * WHAT IS PROVED, AND YOUR PART. The Rattle code of the library is proved to keep its contracts: if
 * you keep to the rules below, each call returns, and accesses only its stack and the memory you
 * pass, whatever the bytes. This header's comments and inline functions, such as dgt_host_init, are
 * tested and not proved. If you break a rule, nothing is guaranteed. Unless NDEBUG is defined, each
 * call asserts that its handle is where it was made. Nothing checks the other rules at run time.
 *
 *  - A pointer may be NULL if its length, the next parameter, is 0. No other pointer is null. Each
 *    pointer is aligned for its type. A length is at most 2^63 - 1, and all of that memory may be
 *    read or written: for an array of events, `capacity` times sizeof(dgt_event) bytes. An array
 *    parameter has its declared length. Everything that a call reads is initialised.
 *  - A handle is a dgt_host, a dgt_follower, a dgt_decoder, a dgt_command_decoder, a dgt_board or a
 *    dgt_recogniser. Its _init or its _make is called before any other call. Afterwards it is never
 *    copied or moved, neither by assignment nor by memcpy or realloc: it points into itself. Don't
 *    touch its members. There is nothing to free: stop using it, and its memory is yours again.
 *  - The arguments of one call don't overlap: not a slice and a struct, not a slice and the handle.
 *    Until the call returns, nobody else writes to its arguments, or reads what it writes.
 *  - Two calls with the same handle never run at once: neither in two threads without a lock
 *    between them, nor in a signal handler. Different handles are independent. A handle may pass to
 *    another thread under a lock, or by starting or joining that thread.
 *  - Each call has 80 KiB of free stack. That this suffices is tested, not proved.
 *
 * Calls that only read still take a handle that isn't const, because they need exclusive access to
 * it. A struct or a slice that a call writes may be uninitialised; the bytes of a slice after those
 * written are unchanged.
 *
 * PLATFORM: Linux on x86-64 and on 64-bit ARM processors, with pointers of 64 bits (not x32, not
 * ILP32). All sizes are the same on both. bindings/c/build compiles the library for any of these
 * processors, including the first ones. On other platforms, sizes and calls would differ.
 *
 * VERSIONS. DGT_VERSION is the version of this header. The soname of the shared library contains
 * its first number: libdgt.so.1. A program that was compiled with this header runs with each
 * library of this soname that isn't older. In all versions with one soname
 *
 *  - each call keeps its name, its parameters and its behaviour as documented here;
 *  - each struct and each handle keeps its size, its alignment and its members. Only bytes of a
 *    member `reserved` may become members. Therefore set them to zero, as `= {0}` does, and don't
 *    rely on zeros in results;
 *  - each constant keeps its number. No call returns a number that isn't listed here for it, except
 *    for the kinds and codes of the next paragraph.
 *
 * A later version may report new events and commands. The kind of such a dgt_event or dgt_command
 * is the next free number, or the code of the dgt_command is new. A message that is now a
 * DGT_EVENT_OTHER may get its own kind, which dgt_encode_message then accepts. It still sets `code`
 * and `body_len`, and its body is copied. An event that isn't a message has a `body_len` of 0.
 * Therefore treat an unknown kind of event as DGT_EVENT_OTHER, and an unknown kind or code of a
 * command as DGT_STRAY_BYTE.
 *
 * A version with new calls, and constants and structs for them, has a greater second number. A
 * correction has a greater third number. A version that breaks one of these rules has another first
 * number, and therefore another soname.
 *
 * Squares are numbered rank by rank from the eighth down: a8 is 0, b8 is 1, h8 is 7, a7 is 8 and h1
 * is 63. Pieces have the numbers of the protocol. White pawn, rook, knight, bishop, king and queen
 * are 1 to 6, and the black ones 7 to 12. 0 is no piece, and 13 to 15 are three extra pieces
 * without a meaning.
 */
#ifndef DGT_H
#define DGT_H

#include <stdbool.h>
#include <stddef.h>
#include <stdint.h>
#ifndef NDEBUG
#include <assert.h>
#endif

#ifdef __cplusplus
extern "C" {
#endif

/* ---- Attributes for compilers that have them. Names that end with _ are only for this header. */

#ifdef __has_attribute
#define DGT_HAS_(attribute) __has_attribute(attribute)
#else
#define DGT_HAS_(attribute) 0
#endif

#if DGT_HAS_(nonnull) /* these arguments are not null */
#define DGT_NONNULL_(...) __attribute__((nonnull(__VA_ARGS__)))
#else
#define DGT_NONNULL_(...)
#endif

#if DGT_HAS_(warn_unused_result) /* the result says how much was done, or whether it was */
#define DGT_MUST_USE_ __attribute__((warn_unused_result))
#else
#define DGT_MUST_USE_
#endif

#if DGT_HAS_(access) /* an argument is read or written; a second one is its length */
#define DGT_READS_(...) __attribute__((access(read_only, __VA_ARGS__)))
#define DGT_WRITES_(...) __attribute__((access(write_only, __VA_ARGS__)))
#else
#define DGT_READS_(...)
#define DGT_WRITES_(...)
#endif

#ifdef __cplusplus /* an array parameter has this length or more */
#define DGT_LEAST_
#else
#define DGT_LEAST_ static
#endif

/* ---- The versions of this header, for conditional compilation, and of the library. */

#define DGT_VERSION_MAJOR 1
#define DGT_VERSION_MINOR 0
#define DGT_VERSION_PATCH 0
#define DGT_VERSION \
    (DGT_VERSION_MAJOR * 1000000 + DGT_VERSION_MINOR * 1000 + DGT_VERSION_PATCH)

/* The version of the linked library as one number, with three digits a part: 1.2.3 is 1002003. If
 * it is DGT_VERSION or more, with the same first part, it provides all of this header. */
uint32_t dgt_version(void);

/* ---- Limits. */

#define DGT_MAX_BODY 16380      /* the most bytes of a message's body */
#define DGT_MAX_WORD 257        /* the most bytes of a command */
#define DGT_MAX_PAYLOAD 252     /* the most bytes that a clock message carries */
#define DGT_MAX_LEDS 255        /* the most bytes that an LED frame carries */
#define DGT_MAX_AWAITED 16      /* the most replies that a host awaits */
#define DGT_RESTART_LENGTH 257  /* how many bytes dgt_host_restart writes */
#define DGT_MAX_ASKING 259      /* the most bytes that a follower writes at once */
#define DGT_LEAST_PERIOD 1000   /* the least period of a follower, in milliseconds */
#define DGT_MAX_OWED 8          /* the most replies that a board owes */
#define DGT_MAX_SENT 67         /* the most bytes that dgt_board_poll writes */
#define DGT_MAX_KEPT 64         /* the most bytes of a trademark, a battery body or a long serial
                                   number that a board keeps */
#define DGT_PLACEMENT_ROOM 72   /* room for any placement and its final zero byte */
#define DGT_MAX_UNSEEN 4        /* the most moves of a dgt_game_event */

/* ---- Handles. Their members are private. */

/* Their sizes in bytes, as the linked library's dgt_host_size() and the other such calls return
 * them, and as each _init checks. They are more than the library needs today, so that a handle can
 * grow within its size. */
#define DGT_HOST_SIZE 22528
#define DGT_FOLLOWER_SIZE 23552
#define DGT_DECODER_SIZE 21504
#define DGT_COMMAND_DECODER_SIZE 512
#define DGT_BOARD_SIZE 1280
#define DGT_RECOGNISER_SIZE 16384

typedef struct dgt_host {
    void *at_;
    uint64_t room_[(DGT_HOST_SIZE - 8) / 8];
} dgt_host;

typedef struct dgt_follower {
    void *at_;
    uint64_t room_[(DGT_FOLLOWER_SIZE - 8) / 8];
} dgt_follower;

typedef struct dgt_decoder {
    void *at_;
    uint64_t room_[(DGT_DECODER_SIZE - 8) / 8];
} dgt_decoder;

typedef struct dgt_command_decoder {
    void *at_;
    uint64_t room_[(DGT_COMMAND_DECODER_SIZE - 8) / 8];
} dgt_command_decoder;

typedef struct dgt_board {
    void *at_;
    uint64_t room_[(DGT_BOARD_SIZE - 8) / 8];
} dgt_board;

typedef struct dgt_recogniser {
    void *at_;
    uint64_t room_[(DGT_RECOGNISER_SIZE - 8) / 8];
} dgt_recogniser;

/* ---- What a clock shows. */

/* The time of one side of a clock. */
typedef struct dgt_time {
    uint8_t hours;   /* 0 to 9 */
    uint8_t minutes; /* 0 to 59 */
    uint8_t seconds; /* 0 to 59 */
    uint8_t flags;   /* 0 to 7: D4 to D6 of the byte of the hours, such as DGT_FLAG_BLOCKED */
} dgt_time;

/* dgt_clock.kind */
enum {
    DGT_CLOCK_UNKNOWN = 0, /* nothing was reported: all members are 0 */
    DGT_CLOCK_TIMES = 1,   /* the times of both sides, and the status; raw is 0 */
    DGT_CLOCK_NONE = 2     /* no clock is connected: raw and the status; the times are 0 */
};

/* The bits of a clock's status. */
enum {
    DGT_STATUS_RUNNING = 0x01,
    DGT_STATUS_LEVER = 0x02,
    DGT_STATUS_BATTERY_LOW = 0x04,
    DGT_STATUS_BLACK_TURN = 0x08,
    DGT_STATUS_WHITE_TURN = 0x10,
    DGT_STATUS_ABSENT = 0x20 /* set if the kind is DGT_CLOCK_NONE, and only then */
};

/* A report of a clock. `first` and `second` are the clock's two sides, in the order of the message.
 * They don't say which colour is on which side. Calls that read the struct ignore members that its
 * kind doesn't set. */
typedef struct dgt_clock {
    uint8_t kind;
    uint8_t status; /* 0 to 127 */
    uint8_t raw[6]; /* each 0 to 127; the low four bits of raw[0] and raw[3] are not 0a */
    dgt_time first;
    dgt_time second;
} dgt_clock;

/* ---- The events in a board's bytes. */

/* dgt_event.kind, and which members it sets in addition to `unasked` and `place`. The other members
 * are 0. DGT_EVENT_DUMP to DGT_EVENT_OTHER are messages. Kinds of later versions are numbered from
 * 16 on: treat an unknown one as DGT_EVENT_OTHER. */
enum {
    DGT_EVENT_NONE = 0,         /* nothing yet: all bytes were used */
    DGT_EVENT_DUMP = 1,         /* all squares were reported: pieces */
    DGT_EVENT_FIELD = 2,        /* one square was reported: square, piece */
    DGT_EVENT_TIMES = 3,        /* the clock's times: clock */
    DGT_EVENT_NO_CLOCK = 4,     /* no clock is connected: clock */
    DGT_EVENT_ACK = 5,          /* the reply to a clock message: ack, ack_status */
    DGT_EVENT_SERIAL = 6,       /* the serial number: serial */
    DGT_EVENT_TRADEMARK = 7,    /* the trademark: code, body_len, and the body */
    DGT_EVENT_VERSION = 8,      /* the version of the board's firmware: main_number, sub_number */
    DGT_EVENT_BATTERY = 9,      /* the state of the battery: code, body_len, and the body */
    DGT_EVENT_LONG_SERIAL = 10, /* the long serial number: code, body_len, and the body */
    DGT_EVENT_OTHER = 11,       /* a message that is carried unread: code, body_len, and the body */
    DGT_EVENT_REFUSED = 12,     /* a whole message with an invalid body: code, fault, at */
    DGT_EVENT_CUT = 13,         /* the next message begins here and cuts off one: have */
    DGT_EVENT_BAD_LENGTH = 14,  /* the length of a message is less than 3, the size of its header */
    DGT_EVENT_STRAY = 15        /* a byte that belongs to no message: byte */
};

/* dgt_event.fault */
enum {
    DGT_NO_FAULT = 0,
    DGT_WRONG_SIZE = 1,  /* the body doesn't have the size that its code fixes */
    DGT_BAD_PIECE = 2,   /* the byte of the body at `at` is not a piece */
    DGT_BAD_SQUARE = 3,  /* it is not a square */
    DGT_BAD_READING = 4  /* it contains a digit that a clock's time never contains */
};

typedef struct dgt_event {
    uint8_t kind;
    uint8_t unasked;      /* only set by a host or a follower: 1 if the message is a reply, but not
                             of the kind that is awaited first, and otherwise 0 */
    uint8_t code;         /* of the message, 0 to 127 */
    uint8_t square;
    uint8_t piece;
    uint8_t main_number;  /* 0 to 127 */
    uint8_t sub_number;   /* 0 to 127 */
    uint8_t byte;         /* 0 to 127 */
    uint8_t fault;
    uint8_t ack_status;   /* 0 to 127 */
    uint8_t ack[4];
    uint8_t serial[5];    /* each 0 to 127 */
    dgt_clock clock;
    uint8_t pieces[64];
    uint8_t reserved[29]; /* each 0 */
    size_t have;          /* how many bytes of the message were received, at least 1 */
    size_t at;            /* the place in the body, from 0 on */
    size_t body_len;      /* the length of the body, even if not all of it was copied */
    size_t place;         /* how many bytes of the call there are up to and including the event's
                             last one: at least 1. It is 0 if the kind is DGT_EVENT_NONE, and in
                             an event of dgt_view_message */
} dgt_event;

/* ---- The commands in a host's bytes. */

/* dgt_command.kind, and which members it sets. The other members are 0. Kinds of later versions are
 * numbered from 6 on: treat an unknown one as DGT_STRAY_BYTE. */
enum {
    DGT_NO_WORD = 0,   /* nothing yet: all bytes were used */
    DGT_COMMAND = 1,   /* a command: code, id of a clock message, word_len, and the word */
    DGT_BAD_SIZE = 2,  /* the second byte of a clock message, its size, is below 3 */
    DGT_BAD_START = 3, /* the third byte of a clock message isn't 03 */
    DGT_BAD_END = 4,   /* the last byte of a clock message isn't 00 */
    DGT_STRAY_BYTE = 5 /* a byte that doesn't begin a command: byte */
};

/* The first byte of each command, dgt_command.code. Treat a command with an unknown code, of a
 * later version, as a DGT_STRAY_BYTE. */
enum {
    DGT_SEND_CLOCK_MESSAGE = 0x2b, /* word[3] is the id, and word[4] to word[word_len - 2] the
                                      payload */
    DGT_SEND_RESET = 0x40,         /* go to the idle mode */
    DGT_SEND_CLOCK = 0x41,         /* send the clock's times */
    DGT_SEND_DUMP = 0x42,          /* send all squares */
    DGT_SEND_UPDATE = 0x43,        /* from now on, send each change and the clock's times */
    DGT_SEND_UPDATE_BOARD = 0x44,  /* from now on, send each change */
    DGT_SEND_SERIAL = 0x45,        /* send the serial number */
    DGT_SEND_TRADEMARK = 0x47,     /* send the trademark */
    DGT_SEND_UPDATE_NICE = 0x4b,   /* from now on, send each change and changed times */
    DGT_SEND_BATTERY = 0x4c,       /* send the state of the battery */
    DGT_SEND_VERSION = 0x4d,       /* send the version */
    DGT_SEND_LONG_SERIAL = 0x55,   /* send the long serial number */
    DGT_SEND_LEDS = 0x60           /* word[2] to word[word_len - 1] are the LEDs' bytes */
};

/* The ids of clock messages, and their payloads. */
enum {
    DGT_ID_DISPLAY = 0x01,     /* segments of the places 3, 2, 1, 6, 5, 4 from the left, dots,
                                     beep: 8 bytes */
    DGT_ID_ICONS = 0x02,       /* any bytes */
    DGT_ID_END = 0x03,         /* empty: show the times again */
    DGT_ID_BUTTON = 0x08,      /* empty */
    DGT_ID_VERSION = 0x09,     /* empty: the reply is a DGT_EVENT_ACK */
    DGT_ID_SET_AND_RUN = 0x0a, /* hours, minutes, seconds left and right, control: 7 bytes */
    DGT_ID_BEEP = 0x0b,        /* the duration: 1 byte */
    DGT_ID_TEXT = 0x0c         /* eight letters and beep: 9 bytes */
};

typedef struct dgt_command {
    uint8_t kind;
    uint8_t code;
    uint8_t id;
    uint8_t byte;
    uint8_t reserved[4]; /* each 0 */
    size_t word_len;     /* the length of the command, even if not all of it was copied */
} dgt_command;

/* ---- A host: sends commands, and tracks the board's position from the messages that it hears. */

/* Its events, one by one:
 *
 *     static dgt_host host;                         // 22 KiB
 *     uint8_t out[DGT_RESTART_LENGTH], body[DGT_MAX_BODY];
 *     dgt_event event;
 *     if (!dgt_host_init(&host)) return 1;           // header and library don't match
 *     dgt_sent sent = dgt_host_restart(&host, out, sizeof out);
 *     write(line, out, sent.bytes);
 *     while ((n = read(line, chunk, sizeof chunk)) > 0)
 *         for (size_t at = 0; at < n;) {
 *             at += dgt_host_hear(&host, chunk + at, n - at, &event, body, sizeof body);
 *             if (event.kind == DGT_EVENT_FIELD) ...
 *         }
 *
 * After a fault of the line you have to ask the board again: a follower does that by itself. */

/* The size of a dgt_host in bytes, according to the linked library. */
size_t dgt_host_size(void);

/* Makes a host in the memory at `host`: dgt_host_size() bytes, aligned to 8. It knows nothing and
 * awaits nothing. dgt_host_init compares the sizes first. */
void dgt_host_make(dgt_host *host) DGT_NONNULL_(1);

/* The same for a dgt_host of this header. Returns false and does nothing if the linked library's
 * size is different. */
DGT_MUST_USE_ DGT_NONNULL_(1)
static inline bool dgt_host_init(dgt_host *host) {
    if (dgt_host_size() != sizeof *host) return false;
    dgt_host_make(host);
    return true;
}

/* Uses the bytes up to and including the first that completes an event, or all of them, and returns
 * how many: at least 1 if n > 0. Writes the event to `event`, and as much of its body as fits to
 * the beginning of `body`. A dump sets the picture, a field update one square of a known picture,
 * and a reading of the clock the clock. The first awaited reply is then no longer awaited; any
 * other reply is `unasked`. Call again with the remaining bytes. */
size_t dgt_host_hear(dgt_host *host, const uint8_t *bytes, size_t n, dgt_event *event,
                     uint8_t *body, size_t room)
    DGT_MUST_USE_ DGT_NONNULL_(1, 4) DGT_READS_(2, 3) DGT_WRITES_(4) DGT_WRITES_(5, 6);

/* The result of dgt_host_hear_many and dgt_decoder_feed_many. */
typedef struct dgt_told {
    size_t used;  /* how many bytes of the chunk were used */
    size_t count; /* how many events there were: the first ones of `events` */
} dgt_told;

/* Hears a whole chunk, as dgt_host_hear does event by event, and writes the events in order to
 * `events`, which has room for `capacity` of them. The offset of an event in all bytes of a board,
 * as `dgt monitor` prints it, is its `place` plus the bytes used by earlier calls.
 * The call ends before the chunk does in two cases: after the event that fills the array, and after
 * an event with a body (body_len > 0). As much of that body as fits is written to the beginning of
 * `body`. Call again with the remaining bytes: at least 1 is used if n > 0 and capacity > 0. The
 * structs after those written are unchanged, and so is `body` if no event has a body. */
dgt_told dgt_host_hear_many(dgt_host *host, const uint8_t *bytes, size_t n, dgt_event *events,
                           size_t capacity, uint8_t *body, size_t room)
    DGT_MUST_USE_ DGT_NONNULL_(1) DGT_READS_(2, 3) DGT_WRITES_(4, 5) DGT_WRITES_(6, 7);

/* The status of a dgt_sent or a dgt_encoded. A dgt_polled may also be DGT_NO_ROOM. */
enum {
    DGT_DONE = 0,             /* `bytes` bytes were written at the beginning of the buffer */
    DGT_TOO_MANY_AWAITED = 1, /* 16 replies are awaited already: nothing changed, and bytes is 0 */
    DGT_NO_ROOM = 2,          /* the buffer is shorter than `bytes` bytes: nothing changed */
    DGT_REFUSED = 3           /* there is no such command or message: nothing changed, and bytes is
                                 0 */
};

/* The result of a call that sends: write these bytes to the line. */
typedef struct dgt_sent {
    uint8_t status;
    size_t bytes;
} dgt_sent;

/* Requests each change from now on, and all squares: writes 44 42. A dump is then awaited.
 * DGT_TOO_MANY_AWAITED is checked before DGT_NO_ROOM, here and below. */
dgt_sent dgt_host_follow(dgt_host *host, uint8_t *out, size_t n)
    DGT_MUST_USE_ DGT_NONNULL_(1) DGT_WRITES_(2, 3);

/* The same after 255 zeros, which complete any unfinished command of the board: writes
 * DGT_RESTART_LENGTH bytes. Use it on a line that another program may have used. */
dgt_sent dgt_host_restart(dgt_host *host, uint8_t *out, size_t n)
    DGT_MUST_USE_ DGT_NONNULL_(1) DGT_WRITES_(2, 3);

/* Sends the command of the single byte `code`, DGT_SEND_RESET to DGT_SEND_LONG_SERIAL. A requested
 * dump, serial number, trademark, battery state, version or long serial number is then awaited.
 * DGT_REFUSED is checked first. */
dgt_sent dgt_host_send(dgt_host *host, uint8_t code, uint8_t *out, size_t n)
    DGT_MUST_USE_ DGT_NONNULL_(1) DGT_WRITES_(3, 4);

/* Sends the clock message with this id and this payload; dgt_host_send with DGT_SEND_CLOCK requests
 * the times. Returns DGT_REFUSED if the payload is longer than DGT_MAX_PAYLOAD bytes. */
dgt_sent dgt_host_send_clock(dgt_host *host, uint8_t id, const uint8_t *payload, size_t payload_len,
                             uint8_t *out, size_t n)
    DGT_MUST_USE_ DGT_NONNULL_(1) DGT_READS_(3, 4) DGT_WRITES_(5, 6);

/* Clock messages by their meaning. Each number is sent as it is: the clock interprets `dots`,
 * `beep`, `duration` and `control`. A board with a clock acknowledges each by a DGT_EVENT_ACK. */

/* Shows six digits, spaces and hyphens, from left to right. Returns DGT_REFUSED for any other
 * character, before all other checks. It reads six bytes without a final zero byte:
 * dgt_host_show_digits takes a text such as "12-34". */
dgt_sent dgt_host_send_display(dgt_host *host, const uint8_t text[DGT_LEAST_ 6], uint8_t dots,
                               uint8_t beep, uint8_t *out, size_t n)
    DGT_MUST_USE_ DGT_NONNULL_(1, 2) DGT_READS_(2) DGT_WRITES_(5, 6);

/* Shows eight characters, from left to right, a byte each. It reads eight bytes without a final
 * zero byte: dgt_host_show_text takes a text such as "hello". */
dgt_sent dgt_host_send_text(dgt_host *host, const uint8_t text[DGT_LEAST_ 8], uint8_t beep,
                            uint8_t *out, size_t n)
    DGT_MUST_USE_ DGT_NONNULL_(1, 2) DGT_READS_(2) DGT_WRITES_(4, 5);

/* Copies a text, and fills the room after it with spaces. Returns false if it is too long or not
 * ASCII. */
static inline bool dgt_pad_(const char *text, uint8_t *padded, size_t room) {
    for (size_t at = 0; at < room; at++) {
        char each = *text != '\0' ? *text++ : ' ';
        padded[at] = each & 0x7f;
        if (padded[at] != each) return false;
    }
    return *text == '\0';
}

/* Shows a text of at most six digits, spaces and hyphens, which ends with a zero byte. Spaces are
 * added after a short one. Returns DGT_REFUSED if it is longer or contains another character,
 * before all other checks. */
DGT_MUST_USE_ DGT_NONNULL_(1, 2) DGT_WRITES_(5, 6)
static inline dgt_sent dgt_host_show_digits(dgt_host *host, const char *text, uint8_t dots,
                                            uint8_t beep, uint8_t *out, size_t n) {
    const dgt_sent refused = {DGT_REFUSED, 0};
    uint8_t padded[6];
    if (!dgt_pad_(text, padded, sizeof padded)) return refused;
    return dgt_host_send_display(host, padded, dots, beep, out, n);
}

/* Shows a text of at most eight ASCII characters, which ends with a zero byte. Spaces are added
 * after a short one. Returns DGT_REFUSED if it is longer or not ASCII, before other checks. */
DGT_MUST_USE_ DGT_NONNULL_(1, 2) DGT_WRITES_(4, 5)
static inline dgt_sent dgt_host_show_text(dgt_host *host, const char *text, uint8_t beep,
                                          uint8_t *out, size_t n) {
    const dgt_sent refused = {DGT_REFUSED, 0};
    uint8_t padded[8];
    if (!dgt_pad_(text, padded, sizeof padded)) return refused;
    return dgt_host_send_text(host, padded, beep, out, n);
}

/* Beeps for this duration. */
dgt_sent dgt_host_send_beep(dgt_host *host, uint8_t duration, uint8_t *out, size_t n)
    DGT_MUST_USE_ DGT_NONNULL_(1) DGT_WRITES_(3, 4);

/* Sets the times of both sides, in hours, minutes and seconds, and sends `control` to the clock. */
dgt_sent dgt_host_send_set_and_run(dgt_host *host, const uint8_t left[3], const uint8_t right[3],
                                   uint8_t control, uint8_t *out, size_t n)
    DGT_MUST_USE_ DGT_NONNULL_(1, 2, 3) DGT_READS_(2) DGT_READS_(3) DGT_WRITES_(5, 6);

/* Shows the icons of these bytes. Returns DGT_REFUSED for more than DGT_MAX_PAYLOAD bytes. */
dgt_sent dgt_host_send_icons(dgt_host *host, const uint8_t *icons, size_t icons_len, uint8_t *out,
                             size_t n)
    DGT_MUST_USE_ DGT_NONNULL_(1) DGT_READS_(2, 3) DGT_WRITES_(4, 5);

/* Ends the display of a text or icons: the clock shows its times again. */
dgt_sent dgt_host_send_end(dgt_host *host, uint8_t *out, size_t n)
    DGT_MUST_USE_ DGT_NONNULL_(1) DGT_WRITES_(2, 3);

/* Requests the state of the clock's buttons. */
dgt_sent dgt_host_send_button(dgt_host *host, uint8_t *out, size_t n)
    DGT_MUST_USE_ DGT_NONNULL_(1) DGT_WRITES_(2, 3);

/* Requests the version of the clock. */
dgt_sent dgt_host_send_clock_version(dgt_host *host, uint8_t *out, size_t n)
    DGT_MUST_USE_ DGT_NONNULL_(1) DGT_WRITES_(2, 3);

/* Sends an LED frame, such as that of dgt_lighting. Returns DGT_REFUSED for more than
 * DGT_MAX_LEDS bytes. */
dgt_sent dgt_host_send_leds(dgt_host *host, const uint8_t *leds, size_t leds_len, uint8_t *out,
                            size_t n)
    DGT_MUST_USE_ DGT_NONNULL_(1) DGT_READS_(2, 3) DGT_WRITES_(4, 5);

/* The pieces on the squares, by square number. Returns false and writes nothing before the first
 * dump. */
bool dgt_host_picture(dgt_host *host, uint8_t pieces[64])
    DGT_MUST_USE_ DGT_NONNULL_(1, 2) DGT_WRITES_(2);

/* The same as the placement of a FEN, which ends with a zero byte. */
bool dgt_host_placement(dgt_host *host, char text[DGT_PLACEMENT_ROOM])
    DGT_MUST_USE_ DGT_NONNULL_(1, 2) DGT_WRITES_(2);

/* The clock as last reported. */
void dgt_host_clock(dgt_host *host, dgt_clock *clock) DGT_NONNULL_(1, 2) DGT_WRITES_(2);

/* How many replies are awaited. The codes of the commands that request them, such as DGT_SEND_DUMP,
 * are written at the beginning of `codes`, the next one first. */
size_t dgt_host_awaited(dgt_host *host, uint8_t codes[DGT_MAX_AWAITED])
    DGT_NONNULL_(1, 2) DGT_WRITES_(2);

/* Removes all awaited replies from the list, and returns how many there were. Nothing else changes:
 * the host keeps its picture, its clock and the bytes of an unfinished message. Call it when a
 * reply is overdue. A lost reply stays the next one awaited: each reply after it is `unasked`, and
 * once 16 are awaited, each further request returns DGT_TOO_MANY_AWAITED. A reply that arrives
 * after this call is `unasked` as well. Ask again next, with dgt_host_restart or dgt_host_send. */
size_t dgt_host_give_up_awaited(dgt_host *host) DGT_NONNULL_(1);

/* How many bytes of an unfinished message were heard: at most 16382. */
size_t dgt_host_unread(dgt_host *host) DGT_NONNULL_(1);

/* Reports that the line was lost, with all bytes under way: the host is as new. Follow the board
 * again when the line is back. */
void dgt_host_line_lost(dgt_host *host) DGT_NONNULL_(1);

/* ---- A follower: a host that requests the whole board again and again. */

/* A follower requests all squares from the board once in each period, as the program at the top of
 * this file does. You pass the time, as milliseconds of a clock that doesn't go back, and send the
 * bytes that it writes.
 *
 * A request is a heartbeat or a new start. A heartbeat is the command of the mode and
 * DGT_SEND_DUMP, 2 bytes. To start over, the follower writes 258 bytes: 255 zeros, which complete
 * any unfinished command of the board, 44 42 and the command of the mode. The host then gives up
 * the replies that it awaits. A heartbeat is enough if an awaited dump was heard since the last
 * request, without a disturbance since then, fewer than 16 replies are awaited, and patience is
 * left.
 *
 * Disturbances are a cut or refused message, a bad length, a stray byte, an unasked message, and a
 * dump that differs from the known picture. So is a message that is unfinished for a second after
 * its last byte. A clock without digits, as while it is being set (DGT_BAD_READING), is not a
 * disturbance. Neither is an unasked message between a calm new start and the next request: it may
 * answer a request of yours that was given up. A new start is calm if the request before it was
 * answered, without a disturbance since.
 *
 * In a mode that reports the clock, DGT_MODE_UPDATE or DGT_MODE_UPDATE_NICE, a request ends with
 * DGT_SEND_CLOCK, which requests a reading of the clock. A heartbeat is then 3 bytes long, and a
 * new start DGT_MAX_ASKING. The reading is not awaited: if it doesn't arrive, the follower doesn't
 * start over for that.
 *
 * A picture is in doubt, confirmed or neither.
 *
 *  - In doubt: since the last awaited dump there was a disturbance, or dgt_follower_ask found an
 *    answer a second late. The picture may be wrong, and is requested again.
 *  - Confirmed: an awaited dump repeated it. Since then there was no change, no unasked message
 *    and no disturbance, and no answer was found late. It is then what the board had reported, up
 *    to that dump or including it, if at most one message was altered, lost or inserted since the
 *    last whole dump before it. Two faults that agree can make it wrong, and so can one in a dump
 *    that is the first to report a change. The next dump shows it.
 *  - Neither: it was just reported or changed, and no dump has repeated it yet. One altered message
 *    is enough to make it wrong. After dgt_follower_set_confirm it is confirmed soon. */

/* The size of a dgt_follower in bytes, according to the linked library. */
size_t dgt_follower_size(void);

/* Makes a follower that has sent no request in the memory at `follower`: dgt_follower_size() bytes,
 * aligned to 8. It has a period of 10000 milliseconds, a patience of 6, and the mode
 * DGT_MODE_UPDATE_BOARD. */
void dgt_follower_make(dgt_follower *follower) DGT_NONNULL_(1);

/* Makes a follower as new: it has sent no request, knows no picture, and has this period, this
 * patience and the mode DGT_MODE_UPDATE_BOARD. It neither confirms nor identifies. `period` is the
 * time from one request to the next, in milliseconds. One below DGT_LEAST_PERIOD counts as that.
 * `patience` is how many heartbeats may follow one another before the follower starts over,
 * whatever it has heard; with 0 it always starts over. */
void dgt_follower_start(dgt_follower *follower, uint64_t period, uint32_t patience) DGT_NONNULL_(1);

/* Both calls. Returns false and does nothing if the sizes differ, as with dgt_host_init, or if the
 * period is below DGT_LEAST_PERIOD: it may be in seconds. */
DGT_MUST_USE_ DGT_NONNULL_(1)
static inline bool dgt_follower_init(dgt_follower *follower, uint64_t period, uint32_t patience) {
    if (dgt_follower_size() != sizeof *follower || period < DGT_LEAST_PERIOD) return false;
    dgt_follower_make(follower);
    dgt_follower_start(follower, period, patience);
    return true;
}

/* Uses the bytes, received at this time, up to and including the first that completes an event, or
 * all of them, and returns how many: at least 1 if n > 0. The event is written to `event`, and its
 * body copied, as dgt_host_hear does. Call again with the remaining bytes. */
size_t dgt_follower_hear(dgt_follower *follower, uint64_t now, const uint8_t *bytes, size_t n,
                         dgt_event *event, uint8_t *body, size_t room)
    DGT_MUST_USE_ DGT_NONNULL_(1, 5) DGT_READS_(3, 4) DGT_WRITES_(5) DGT_WRITES_(6, 7);

/* Uses all bytes, as dgt_follower_hear does event by event, and reports no events. However bytes
 * received at one time are cut into chunks, the follower is the same afterwards. */
void dgt_follower_hear_all(dgt_follower *follower, uint64_t now, const uint8_t *bytes, size_t n)
    DGT_NONNULL_(1) DGT_READS_(3, 4);

/* Writes a request, if one is due at this time. DGT_DONE: `bytes` bytes are at the beginning of the
 * buffer, 0 if none is due. DGT_NO_ROOM: the buffer is shorter than the `bytes` bytes of the
 * request, and nothing changed. There is no other status. The picture stays known, and a dump is
 * then awaited (or a serial number, see dgt_follower_set_identify). The first request is due at any
 * time. Each other one is due a period after the last request, or earlier:
 *  - after a disturbance, half a second after the last request;
 *  - if the last request has no answer, a second after it. On a silent line this doubles with each
 *    request, up to the period, until an event is heard;
 *  - if the picture is to be confirmed, a second after it changed and after the last request;
 *  - after dgt_follower_ask_now, at once, or once the last request is answered;
 *  - if `now` is before the last request, since your clock was set back.
 * So two requests are at least half a second apart, except in the last two cases and for the serial
 * number. In that time a line of 9600 baud carries 480 bytes. The longest request and its replies
 * are 336, so they never pile up.
 * If an answer is a second late, the next call puts the picture in doubt, whether it writes or not,
 * unless it returns DGT_NO_ROOM. The same happens if a message is unfinished for a second, which is
 * also a disturbance; the rest of it is still heard if it arrives later. */
dgt_sent dgt_follower_ask(dgt_follower *follower, uint64_t now, uint8_t *out, size_t n)
    DGT_MUST_USE_ DGT_NONNULL_(1) DGT_WRITES_(3, 4);

/* The first time at which dgt_follower_ask writes, or finds an answer or the rest of a message
 * overdue. It assumes that nothing is heard before, and is 0 if a request is due at once. Returns
 * false and writes nothing if that time is above UINT64_MAX: then no request is ever due. */
bool dgt_follower_due_at(dgt_follower *follower, uint64_t *time)
    DGT_MUST_USE_ DGT_NONNULL_(1, 2) DGT_WRITES_(2);

/* Which changes the board is asked to report by itself: DGT_MODE_UPDATE_BOARD, DGT_MODE_UPDATE or
 * DGT_MODE_UPDATE_NICE, which are declared with dgt_board_mode. The last two include the clock. */
uint8_t dgt_follower_mode(dgt_follower *follower) DGT_NONNULL_(1);

/* Sets the mode that each later request asks for. It doesn't change when the next one is due.
 * Returns false and changes nothing if `mode` is not one of the three. */
bool dgt_follower_set_mode(dgt_follower *follower, uint8_t mode) DGT_NONNULL_(1);

/* Makes a request due at once, or once the last one is answered. Its answer is no older than this
 * call, unless answers to earlier requests were late. */
void dgt_follower_ask_now(dgt_follower *follower) DGT_NONNULL_(1);

/* Sets whether a picture that isn't confirmed is requested again: by a heartbeat a second after its
 * last change, and a second after the last request, until it is confirmed. */
void dgt_follower_set_confirm(dgt_follower *follower, bool confirm) DGT_NONNULL_(1);

/* Sets whether the serial number of the board is requested while it is unknown. Once after each
 * answered request, at most three times until the line is lost, dgt_follower_ask then writes
 * DGT_SEND_SERIAL, 1 byte: at once, and before a heartbeat or a new start that is due. No dump is
 * awaited for it, and it doesn't change when those are due. After a disturbance it isn't written,
 * and while 16 replies are awaited a new start is, at once. A lost reply is noticed like any other,
 * because the next dump is then unasked. */
void dgt_follower_set_identify(dgt_follower *follower, bool identify) DGT_NONNULL_(1);

/* Sends the command of the single byte `code`, as dgt_host_send does. It doesn't count as a request
 * of the follower's. After DGT_SEND_RESET the board reports no change until the next request, LED
 * frame or message to the clock. */
dgt_sent dgt_follower_send(dgt_follower *follower, uint8_t code, uint8_t *out, size_t n)
    DGT_MUST_USE_ DGT_NONNULL_(1) DGT_WRITES_(3, 4);

/* Sends a message to the clock, as dgt_host_send_clock does. The mode's command follows it, as one
 * byte more: if a byte of the message is lost, the board may read others of it as commands, such as
 * DGT_SEND_RESET, after which it reports nothing. So do the calls below. */
dgt_sent dgt_follower_send_clock(dgt_follower *follower, uint8_t id, const uint8_t *payload,
                                 size_t payload_len, uint8_t *out, size_t n)
    DGT_MUST_USE_ DGT_NONNULL_(1) DGT_READS_(3, 4) DGT_WRITES_(5, 6);

/* The same as the calls for a host. */
dgt_sent dgt_follower_send_display(dgt_follower *follower, const uint8_t text[DGT_LEAST_ 6],
                                   uint8_t dots, uint8_t beep, uint8_t *out, size_t n)
    DGT_MUST_USE_ DGT_NONNULL_(1, 2) DGT_READS_(2) DGT_WRITES_(5, 6);
dgt_sent dgt_follower_send_text(dgt_follower *follower, const uint8_t text[DGT_LEAST_ 8],
                                uint8_t beep, uint8_t *out, size_t n)
    DGT_MUST_USE_ DGT_NONNULL_(1, 2) DGT_READS_(2) DGT_WRITES_(4, 5);
DGT_MUST_USE_ DGT_NONNULL_(1, 2) DGT_WRITES_(5, 6)
static inline dgt_sent dgt_follower_show_digits(dgt_follower *follower, const char *text,
                                                uint8_t dots, uint8_t beep, uint8_t *out,
                                                size_t n) {
    const dgt_sent refused = {DGT_REFUSED, 0};
    uint8_t padded[6];
    if (!dgt_pad_(text, padded, sizeof padded)) return refused;
    return dgt_follower_send_display(follower, padded, dots, beep, out, n);
}
DGT_MUST_USE_ DGT_NONNULL_(1, 2) DGT_WRITES_(4, 5)
static inline dgt_sent dgt_follower_show_text(dgt_follower *follower, const char *text,
                                              uint8_t beep, uint8_t *out, size_t n) {
    const dgt_sent refused = {DGT_REFUSED, 0};
    uint8_t padded[8];
    if (!dgt_pad_(text, padded, sizeof padded)) return refused;
    return dgt_follower_send_text(follower, padded, beep, out, n);
}
dgt_sent dgt_follower_send_beep(dgt_follower *follower, uint8_t duration, uint8_t *out, size_t n)
    DGT_MUST_USE_ DGT_NONNULL_(1) DGT_WRITES_(3, 4);
dgt_sent dgt_follower_send_set_and_run(dgt_follower *follower, const uint8_t left[3],
                                       const uint8_t right[3], uint8_t control, uint8_t *out,
                                       size_t n)
    DGT_MUST_USE_ DGT_NONNULL_(1, 2, 3) DGT_READS_(2) DGT_READS_(3) DGT_WRITES_(5, 6);
dgt_sent dgt_follower_send_icons(dgt_follower *follower, const uint8_t *icons, size_t icons_len,
                                 uint8_t *out, size_t n)
    DGT_MUST_USE_ DGT_NONNULL_(1) DGT_READS_(2, 3) DGT_WRITES_(4, 5);
dgt_sent dgt_follower_send_end(dgt_follower *follower, uint8_t *out, size_t n)
    DGT_MUST_USE_ DGT_NONNULL_(1) DGT_WRITES_(2, 3);
dgt_sent dgt_follower_send_button(dgt_follower *follower, uint8_t *out, size_t n)
    DGT_MUST_USE_ DGT_NONNULL_(1) DGT_WRITES_(2, 3);
dgt_sent dgt_follower_send_clock_version(dgt_follower *follower, uint8_t *out, size_t n)
    DGT_MUST_USE_ DGT_NONNULL_(1) DGT_WRITES_(2, 3);

/* Sends an LED frame, as dgt_host_send_leds does, and the mode's command. */
dgt_sent dgt_follower_send_leds(dgt_follower *follower, const uint8_t *leds, size_t leds_len,
                                uint8_t *out, size_t n)
    DGT_MUST_USE_ DGT_NONNULL_(1) DGT_READS_(2, 3) DGT_WRITES_(4, 5);

/* The pieces on the squares, by square number. Returns false and writes nothing before the first
 * dump. The picture stays known during requests, even if the follower starts over. */
bool dgt_follower_picture(dgt_follower *follower, uint8_t pieces[64])
    DGT_MUST_USE_ DGT_NONNULL_(1, 2) DGT_WRITES_(2);

/* The same as the placement of a FEN, which ends with a zero byte. */
bool dgt_follower_placement(dgt_follower *follower, char text[DGT_PLACEMENT_ROOM])
    DGT_MUST_USE_ DGT_NONNULL_(1, 2) DGT_WRITES_(2);

/* The clock as last reported. It stays unknown until it is requested: by DGT_SEND_CLOCK, or in a
 * mode that reports the clock (dgt_follower_set_mode). It is also unknown if the last report
 * contains no reading: either the clock shows no digits, and the report was refused, or all its
 * bytes are zero, as before its first reading. */
void dgt_follower_clock(dgt_follower *follower, dgt_clock *clock) DGT_NONNULL_(1, 2) DGT_WRITES_(2);

/* How many bytes of an unfinished message were heard: at most 16382. */
size_t dgt_follower_unread(dgt_follower *follower) DGT_NONNULL_(1);

/* Whether the picture is in doubt, as described above. */
bool dgt_follower_in_doubt(dgt_follower *follower) DGT_NONNULL_(1);

/* Whether the picture is confirmed, as described above. Then it is not in doubt. The first awaited
 * dump after a new start confirms nothing: it may be a late answer to an earlier request. */
bool dgt_follower_confirmed(dgt_follower *follower) DGT_NONNULL_(1);

/* The serial number of the board: five bytes, each 0 to 127. Returns false and writes nothing if
 * none was reported since the line was last lost. */
bool dgt_follower_serial(dgt_follower *follower, uint8_t serial[5])
    DGT_MUST_USE_ DGT_NONNULL_(1, 2) DGT_WRITES_(2);

/* The time of the last whole message. Returns false and writes nothing if none was heard. */
bool dgt_follower_last_heard(dgt_follower *follower, uint64_t *time)
    DGT_MUST_USE_ DGT_NONNULL_(1, 2) DGT_WRITES_(2);

/* How many more heartbeats the patience allows. */
uint32_t dgt_follower_heartbeats_left(dgt_follower *follower) DGT_NONNULL_(1);

/* Reports that bytes from the board were lost or altered. The reader of the line may know it:
 * serial ports count overruns and framing errors (dgt_port.h reads these counts). It is a
 * disturbance. Let the follower hear the bytes before the fault first. */
void dgt_follower_line_disturbed(dgt_follower *follower) DGT_NONNULL_(1);

/* Reports that the line was lost, with all bytes under way: the follower is as new, but keeps its
 * period, its patience, its mode, and whether it confirms and identifies. It knows no picture and
 * no serial number, and its next request is due at once. */
void dgt_follower_line_lost(dgt_follower *follower) DGT_NONNULL_(1);

/* ---- A decoder: reports the events in a board's bytes, and keeps no picture. */

/* The size of a dgt_decoder in bytes, according to the linked library. */
size_t dgt_decoder_size(void);

/* Makes a decoder that holds nothing at `decoder`: dgt_decoder_size() bytes, aligned to 8. */
void dgt_decoder_make(dgt_decoder *decoder) DGT_NONNULL_(1);

/* The same. Returns false and does nothing if the sizes differ, as with dgt_host_init. */
DGT_MUST_USE_ DGT_NONNULL_(1)
static inline bool dgt_decoder_init(dgt_decoder *decoder) {
    if (dgt_decoder_size() != sizeof *decoder) return false;
    dgt_decoder_make(decoder);
    return true;
}

/* The same as dgt_host_hear, without the state of a host. `unasked` is 0. */
size_t dgt_decoder_feed(dgt_decoder *decoder, const uint8_t *bytes, size_t n, dgt_event *event,
                        uint8_t *body, size_t room)
    DGT_MUST_USE_ DGT_NONNULL_(1, 4) DGT_READS_(2, 3) DGT_WRITES_(4) DGT_WRITES_(5, 6);

/* The same as dgt_host_hear_many, without the state of a host. `unasked` is 0 in each event. */
dgt_told dgt_decoder_feed_many(dgt_decoder *decoder, const uint8_t *bytes, size_t n,
                              dgt_event *events, size_t capacity, uint8_t *body, size_t room)
    DGT_MUST_USE_ DGT_NONNULL_(1) DGT_READS_(2, 3) DGT_WRITES_(4, 5) DGT_WRITES_(6, 7);

/* How many bytes of an unfinished message were received: at most 16382. */
size_t dgt_decoder_unread(dgt_decoder *decoder) DGT_NONNULL_(1);

/* The same, at the end of the bytes. The decoder is then as new. */
size_t dgt_decoder_finish(dgt_decoder *decoder) DGT_NONNULL_(1);

/* Returns it to its initial state. */
void dgt_decoder_reset(dgt_decoder *decoder) DGT_NONNULL_(1);

/* ---- A decoder of commands: reports the commands in a host's bytes. */

/* The size of a dgt_command_decoder in bytes, according to the linked library. */
size_t dgt_command_decoder_size(void);

/* Makes a decoder of commands that holds nothing in the memory at `decoder`:
 * dgt_command_decoder_size() bytes, aligned to 8. */
void dgt_command_decoder_make(dgt_command_decoder *decoder) DGT_NONNULL_(1);

/* The same. Returns false and does nothing if the sizes differ, as with dgt_host_init. */
DGT_MUST_USE_ DGT_NONNULL_(1)
static inline bool dgt_command_decoder_init(dgt_command_decoder *decoder) {
    if (dgt_command_decoder_size() != sizeof *decoder) return false;
    dgt_command_decoder_make(decoder);
    return true;
}

/* Uses the bytes up to and including the first that completes a command or a fault, or all of them,
 * and returns how many: at least 1 if n > 0. Writes the result to `command`. Of a command's word,
 * its bytes from the first to the last, it writes as many as fit to the beginning of `word`. */
size_t dgt_command_decoder_feed(dgt_command_decoder *decoder, const uint8_t *bytes, size_t n,
                                dgt_command *command, uint8_t *word, size_t room)
    DGT_MUST_USE_ DGT_NONNULL_(1, 4) DGT_READS_(2, 3) DGT_WRITES_(4) DGT_WRITES_(5, 6);

/* How many bytes of an unfinished command were received: at most 256. */
size_t dgt_command_decoder_unread(dgt_command_decoder *decoder) DGT_NONNULL_(1);

/* The same, at the end of the bytes. The decoder is then as new. */
size_t dgt_command_decoder_finish(dgt_command_decoder *decoder) DGT_NONNULL_(1);

/* Returns it to its initial state. */
void dgt_command_decoder_reset(dgt_command_decoder *decoder) DGT_NONNULL_(1);

/* ---- A simulated board. */

/* The size of a dgt_board in bytes, according to the linked library. */
size_t dgt_board_size(void);

/* Makes a board in the memory at `board`: dgt_board_size() bytes, aligned to 8. It has the starting
 * position, a clock that shows 0:00:00 twice, and the identity of a simulated board. */
void dgt_board_make(dgt_board *board) DGT_NONNULL_(1);

/* The same. Returns false and does nothing if the sizes differ, as with dgt_host_init. */
DGT_MUST_USE_ DGT_NONNULL_(1)
static inline bool dgt_board_init(dgt_board *board) {
    if (dgt_board_size() != sizeof *board) return false;
    dgt_board_make(board);
    return true;
}

/* Bytes of a body, each below 128: the first `len` of `bytes`, at most 64. */
typedef struct dgt_body {
    size_t len;
    uint8_t bytes[DGT_MAX_KEPT];
} dgt_body;

/* What a board reports of itself. */
typedef struct dgt_identity {
    uint8_t serial[5];     /* each 0 to 127 */
    uint8_t main_number;   /* 0 to 127 */
    uint8_t sub_number;    /* 0 to 127 */
    uint8_t clock_version; /* of the clock: the main number in the high four bits, the sub number in
                              the low four */
    dgt_body trademark;
    dgt_body battery;
    dgt_body long_serial;
    uint8_t reserved[32];  /* each 0 */
} dgt_identity;

/* The results of dgt_board_start. */
enum {
    DGT_STARTED = 0,
    DGT_START_BAD_PIECES = 1,   /* a number above 15 */
    DGT_START_BAD_CLOCK = 2,    /* a member that the clock's kind sets is out of range, or the kind
                                   is neither DGT_CLOCK_TIMES nor DGT_CLOCK_NONE */
    DGT_START_BAD_IDENTITY = 3  /* a member of the identity is out of range */
};

/* Makes the board as new, with these pieces, this clock and this identity: idle, with its squares
 * reported and its clock not, and with nothing owed. If a value is out of range, the first such
 * result is returned, and nothing changes. */
uint8_t dgt_board_start(dgt_board *board, const uint8_t pieces[64], const dgt_clock *clock,
                        const dgt_identity *identity)
    DGT_NONNULL_(1, 2, 3, 4) DGT_READS_(2) DGT_READS_(3) DGT_READS_(4);

/* Puts a piece, or 0 for none, on a square. False, and nothing changed, if square > 63 or piece >
 * 15. */
bool dgt_board_change(dgt_board *board, uint8_t square, uint8_t piece) DGT_NONNULL_(1);

/* Sets what the clock shows. Returns false and changes nothing if dgt_board_start would return
 * DGT_START_BAD_CLOCK. */
bool dgt_board_hand_clock(dgt_board *board, const dgt_clock *clock)
    DGT_NONNULL_(1, 2) DGT_READS_(2);

/* Simulates a lost line, with all bytes under way: the board keeps its squares, its clock and its
 * identity, and is otherwise as new. */
void dgt_board_line_lost(dgt_board *board) DGT_NONNULL_(1);

typedef struct dgt_taken {
    bool busy;   /* eight replies are owed: poll first. No byte was used; the board is as before */
    size_t used; /* how many bytes were used: at least 1 if it isn't busy and n > 0 */
} dgt_taken;

/* Uses the bytes up to and including the first that completes a command or a fault, or all of them.
 * A command takes effect, and is reported as by dgt_command_decoder_feed. If the board is busy,
 * DGT_NO_WORD is reported. */
dgt_taken dgt_board_take(dgt_board *board, const uint8_t *bytes, size_t n, dgt_command *command,
                         uint8_t *word, size_t room)
    DGT_MUST_USE_ DGT_NONNULL_(1, 4) DGT_READS_(2, 3) DGT_WRITES_(4) DGT_WRITES_(5, 6);

/* The status of a dgt_polled: one of these, or DGT_NO_ROOM. */
enum {
    DGT_NOTHING = 0, /* nothing is to be sent, and bytes is 0 */
    DGT_WROTE = 1    /* `bytes` bytes at the beginning of the buffer are a message: write them to
                        the line */
};

typedef struct dgt_polled {
    uint8_t status;
    size_t bytes;
} dgt_polled;

/* Writes the next message, and counts it as sent. The order is: the owed replies in their order,
 * then the squares that differ from what was reported, if the mode reports them, then the clock if
 * it is to be sent. DGT_MAX_SENT bytes are room for any message. If no other call changes the
 * board, DGT_NOTHING follows after at most 73 messages. */
dgt_polled dgt_board_poll(dgt_board *board, uint8_t *out, size_t n)
    DGT_MUST_USE_ DGT_NONNULL_(1) DGT_WRITES_(2, 3);

/* Takes a host's bytes, and writes the next message to be sent: first those that were pending, and
 * after each command those that answer it. Returns its length, at most DGT_MAX_SENT, or 0 once all
 * bytes are used and nothing is to be sent. `used` is how many of the n bytes were used: set it to
 * 0 first, and call again with the same bytes until the result is 0.
 *
 *     size_t used = 0, length;
 *     while ((length = dgt_board_answer(&board, bytes, n, &used, out)) > 0)
 *         write(line, out, length);
 *
 * A command is taken once each message before it was written. */
DGT_MUST_USE_ DGT_NONNULL_(1, 4, 5) DGT_READS_(2, 3)
static inline size_t dgt_board_answer(dgt_board *board, const uint8_t *bytes, size_t n,
                                      size_t *used, uint8_t out[DGT_LEAST_ DGT_MAX_SENT]) {
    for (;;) {
        dgt_command command;
        dgt_polled polled = dgt_board_poll(board, out, DGT_MAX_SENT);
        if (polled.status == DGT_WROTE || *used >= n) return polled.bytes;
        *used += dgt_board_take(board, bytes + *used, n - *used, &command, NULL, 0).used;
    }
}

/* Whether there is anything to send. */
bool dgt_board_owes(dgt_board *board) DGT_NONNULL_(1);

/* How many replies are owed: at most DGT_MAX_OWED. */
size_t dgt_board_owed_len(dgt_board *board) DGT_NONNULL_(1);

/* How many bytes of an unfinished command were received: at most 256. */
size_t dgt_board_unread(dgt_board *board) DGT_NONNULL_(1);

/* The results of dgt_board_mode: which changes the board reports by itself. */
enum {
    DGT_MODE_IDLE = 0,
    DGT_MODE_UPDATE = 1,       /* each changed square, and each reading of the clock */
    DGT_MODE_UPDATE_BOARD = 2, /* each changed square */
    DGT_MODE_UPDATE_NICE = 3   /* each changed square, and the clock if it changed */
};

/* The mode, one of these. */
uint8_t dgt_board_mode(dgt_board *board) DGT_NONNULL_(1);

/* The pieces on the squares, by their numbers. */
void dgt_board_position(dgt_board *board, uint8_t pieces[64]) DGT_NONNULL_(1, 2) DGT_WRITES_(2);

/* What the clock shows. */
void dgt_board_clock(dgt_board *board, dgt_clock *clock) DGT_NONNULL_(1, 2) DGT_WRITES_(2);

/* ---- Messages and commands, encoded and viewed without a handle. */

typedef struct dgt_encoded {
    uint8_t status; /* DGT_DONE, DGT_NO_ROOM or DGT_REFUSED */
    size_t bytes;
} dgt_encoded;

/* Writes the message in `message`, a struct like that of an event: a message's kind, and the
 * members that this kind sets. There are three differences. A body is the `body_len` bytes at
 * `body`, and message->body_len is ignored. `code` is read only for a DGT_EVENT_OTHER. The kind of
 * `clock` has to be that of the event. A message takes 3 to 16383 bytes: DGT_MAX_BODY + 3 bytes are
 * room for any. An acknowledgement has several encodings: this is the one with both marks, and
 * without D6 in them.
 * DGT_REFUSED is checked before DGT_NO_ROOM. It is returned if the kind isn't a message's, if
 * a member is out of range, or if dgt_board_start would refuse `clock`. It is returned if a body
 * has more than DGT_MAX_BODY bytes, or a byte above 127. It is also returned if the code of a
 * DGT_EVENT_OTHER is above 127, or belongs to another kind. */
dgt_encoded dgt_encode_message(const dgt_event *message, const uint8_t *body, size_t body_len,
                               uint8_t *out, size_t n)
    DGT_MUST_USE_ DGT_NONNULL_(1) DGT_READS_(1) DGT_READS_(2, 3) DGT_WRITES_(4, 5);

/* Writes the message with this code and this body to `event`, or a DGT_EVENT_REFUSED with the fault
 * of the body. The code is the first byte of the message without its top bit; the body is its bytes
 * from the fourth on. `unasked` and `place` are 0. Returns false and writes nothing if the code or
 * a byte is above 127, or there are more than DGT_MAX_BODY bytes. */
bool dgt_view_message(uint8_t code, const uint8_t *body, size_t body_len, dgt_event *event)
    DGT_MUST_USE_ DGT_NONNULL_(4) DGT_READS_(2, 3) DGT_WRITES_(4);

/* Writes the text of an event, such as "field e4 P", and a zero byte: the text that `dgt monitor`
 * prints after the offset of the event. The event is read as dgt_encode_message reads it, and may
 * also be a fault. 80 bytes are room for any event without a body; each byte of a body takes two
 * more. `bytes` counts the zero byte. DGT_REFUSED is checked before DGT_NO_ROOM. It is
 * returned for the kind DGT_EVENT_NONE, for a kind that isn't listed here, and for a member out of
 * range. */
dgt_encoded dgt_event_text(const dgt_event *event, const uint8_t *body, size_t body_len, char *text,
                           size_t n)
    DGT_MUST_USE_ DGT_NONNULL_(1) DGT_READS_(1) DGT_READS_(2, 3) DGT_WRITES_(4, 5);

/* Writes the command that begins with the byte `code`, DGT_SEND_CLOCK_MESSAGE to DGT_SEND_LEDS. It
 * carries `carried_len` bytes: the payload of the clock message with this id, at most
 * DGT_MAX_PAYLOAD; the bytes of an LED frame, at most DGT_MAX_LEDS; and none in every other
 * command. The id is ignored except for a clock message. DGT_MAX_WORD bytes are room for any
 * command. DGT_REFUSED is checked before DGT_NO_ROOM. It is returned if no command has this
 * code, or if there are more bytes than it can carry. No reply is awaited: for that use
 * dgt_host_send and the other calls of a host. */
dgt_encoded dgt_encode_command(uint8_t code, uint8_t id, const uint8_t *carried,
                               size_t carried_len, uint8_t *out, size_t n)
    DGT_MUST_USE_ DGT_READS_(3, 4) DGT_WRITES_(5, 6);

/* Writes the command with exactly these bytes to `command`, as dgt_command_decoder_feed does.
 * Returns false and writes nothing if there is no such command. */
bool dgt_view_command(const uint8_t *word, size_t word_len, dgt_command *command)
    DGT_MUST_USE_ DGT_NONNULL_(3) DGT_READS_(1, 2) DGT_WRITES_(3);

/* ---- What a board has stored, and the meaning of bytes that messages carry unread.
 * The published protocol leaves these bytes open: these calls read them as other programs do. They
 * were not tested with a clock or a board. */

/* A board stores its pieces and its clock while no host is connected. It sends all that after the
 * byte 49, for which there is no call: write the byte to the line. The reply is a DGT_EVENT_OTHER
 * with the code 0f. */

/* dgt_stored.kind, and which members it sets. The other members are 0. */
enum {
    DGT_STORED_PIECE = 1,  /* this piece, or none, is now on this square: square, piece, bit */
    DGT_STORED_TIME = 2,   /* the time of one player: time; its flags are 6 for one and 7 for the
                              other */
    DGT_STORED_MARK = 3,   /* an item of one byte, one of the marks: byte */
    DGT_STORED_UNKNOWN = 4 /* any other byte, or the first of an item that is cut off: byte */
};

/* The marks. */
enum {
    DGT_MARK_NOTHING = 0x00,      /* nothing is stored here */
    DGT_MARK_POWER_UP = 0x6a,     /* the board was switched on */
    DGT_MARK_END = 0x6b,          /* the end of what is stored */
    DGT_MARK_FOUR_ROWS = 0x6c,    /* the pieces are on four ranks, as before a game */
    DGT_MARK_EMPTY_BOARD = 0x6d,  /* the board is empty */
    DGT_MARK_DOWNLOADED = 0x6e,   /* everything before this was sent to a host */
    DGT_MARK_BEGIN = 0x6f,        /* the pieces are in the initial position of a game */
    DGT_MARK_TURNED_BEGIN = 0x7a, /* the same, with the board turned */
    DGT_MARK_TAG = 0x7b,          /* a tag */
    DGT_MARK_WATCHDOG = 0x7c,     /* the board restarted by itself */
    DGT_MARK_ERASED = 0x7f        /* nothing was ever stored here */
};

typedef struct dgt_stored {
    uint8_t kind;
    uint8_t square;
    uint8_t piece;
    uint8_t bit;  /* D4 of the byte of the piece: 0 or 1 */
    uint8_t byte;
    dgt_time time;
    uint8_t reserved[7]; /* each 0 */
} dgt_stored;

/* Writes the first item of a body to `stored`, and returns how many bytes it takes, 1 to 3. Call
 * again with the remaining bytes. Returns 0 and writes nothing if there are none. */
size_t dgt_stored_first(const uint8_t *body, size_t body_len, dgt_stored *stored)
    DGT_MUST_USE_ DGT_NONNULL_(3) DGT_READS_(1, 2) DGT_WRITES_(3);

/* dgt_signal.kind, and which members it sets. The other members are 0. */
enum {
    DGT_SIGNAL_DONE = 1,    /* the clock has executed the message with this id: id */
    DGT_SIGNAL_VERSION = 2, /* the version of the clock: main_number, sub_number */
    DGT_SIGNAL_PRESSED = 3, /* this button was pressed, even if no message asked for it: button */
    DGT_SIGNAL_OFF = 4,     /* Ok was pressed together with Back, which switches a clock off */
    DGT_SIGNAL_READY = 5    /* the clock was switched on, and is ready */
};

/* The buttons. On a DGT 3000 they are, from left to right, Back, Minus, Run, Plus and Ok. */
enum {
    DGT_BUTTON_BACK = 0x31,
    DGT_BUTTON_PLUS = 0x32,
    DGT_BUTTON_RUN = 0x33,
    DGT_BUTTON_MINUS = 0x34,
    DGT_BUTTON_OK = 0x35
};

typedef struct dgt_signal {
    uint8_t kind;
    uint8_t id; /* one of the ids of clock messages */
    uint8_t main_number;
    uint8_t sub_number;
    uint8_t button;
    uint8_t reserved[3]; /* each 0 */
} dgt_signal;

/* Writes the meaning of the bytes of an acknowledgement, dgt_event.ack, to `signal`. Returns false
 * and writes nothing if it is unknown, or if the first byte isn't 10, which means success. */
bool dgt_signal_of(const uint8_t ack[4], dgt_signal *signal)
    DGT_MUST_USE_ DGT_NONNULL_(1, 2) DGT_READS_(1) DGT_WRITES_(2);

/* The bits of dgt_time.flags in the times of a clock. */
enum {
    DGT_FLAG_BLOCKED = 0x01,  /* the flag has fallen, and the clock stays at zero */
    DGT_FLAG_PER_MOVE = 0x02, /* the time is per move */
    DGT_FLAG_FALLEN = 0x04    /* the flag has fallen, and the clock shows that */
};

#define DGT_BATTERY_UNKNOWN 127 /* one of the first three numbers of a battery is unknown */

typedef struct dgt_battery {
    uint8_t percent;      /* the charge left */
    uint8_t hours_left;   /* the time until it is empty, or until it is charged */
    uint8_t minutes_left;
    uint8_t hours_on;     /* how long the board has been on */
    uint8_t minutes_on;
    uint8_t days_resting; /* how long it has been idle */
    uint8_t hours_resting;
    uint8_t minutes_resting;
    uint8_t charging;     /* 1 if it is, and otherwise 0 */
    uint8_t discharging;
    uint8_t reserved[6];  /* each 0 */
} dgt_battery;

/* Writes the meaning of the body of a DGT_EVENT_BATTERY to `battery`. Returns false and writes
 * nothing if the body isn't nine bytes long. */
bool dgt_battery_of(const uint8_t *body, size_t body_len, dgt_battery *battery)
    DGT_MUST_USE_ DGT_NONNULL_(3) DGT_READS_(1, 2) DGT_WRITES_(3);

/* Whether bytes, such as those of a serial number or a trademark, are a text: at least one byte,
 * and each a printable ASCII character. */
bool dgt_is_text(const uint8_t *bytes, size_t n) DGT_READS_(1, 2);

/* ---- Helpers. */

#define DGT_NO_SUCH 255 /* no piece, no square, no segments */

/* "PRNBKQ" white, "prnbkq" black, '.' none, 'X' 'Y' 'Z' extra pieces; 0 if piece > 15. */
char dgt_piece_letter(uint8_t piece);

/* The piece with this letter, or DGT_NO_SUCH. */
uint8_t dgt_piece_code(uint8_t letter);

/* Writes a name such as "e4". Returns false and writes nothing if square > 63. */
bool dgt_square_name(uint8_t square, char name[3]) DGT_NONNULL_(2) DGT_WRITES_(2);

/* The square with this file, 'a' to 'h', and this rank, '1' to '8', or DGT_NO_SUCH. */
uint8_t dgt_square_number(uint8_t file, uint8_t rank);

/* Writes the placement of a FEN, with a final zero byte. Returns false and writes nothing if a
 * piece is above 15. */
bool dgt_placement(const uint8_t pieces[64], char text[DGT_PLACEMENT_ROOM])
    DGT_NONNULL_(1, 2) DGT_READS_(1) DGT_WRITES_(2);

/* The squares on which two positions differ: bit n of the mask is set if square n differs, and
 * otherwise clear. Returns false and writes nothing if a piece is above 15. */
bool dgt_differ(const uint8_t pieces[64], const uint8_t others[64], uint64_t *squares)
    DGT_MUST_USE_ DGT_NONNULL_(1, 2, 3) DGT_READS_(1) DGT_READS_(2) DGT_WRITES_(3);

/* Writes the bytes of an LED frame that lights two squares, such as those of a move (n is 2), or
 * none (n is 0): pass them to dgt_host_send_leds. Returns false and writes nothing for another
 * number of squares, or if one is above 63. Other programs encode it this way; no board with lights
 * was tried. */
DGT_MUST_USE_ DGT_NONNULL_(3) DGT_READS_(1, 2)
static inline bool dgt_lighting(const uint8_t *squares, size_t n, uint8_t leds[4]) {
    const bool is_lit = n == 2;
    if (n != 0 && (!is_lit || squares[0] > 63 || squares[1] > 63)) return false;
    leds[0] = is_lit ? 1 : 0;
    leds[1] = is_lit ? squares[0] : 64;
    leds[2] = is_lit ? squares[1] : 64;
    leds[3] = 0;
    return true;
}

typedef struct dgt_parsed {
    bool ok;
    size_t at; /* if it is not ok: the offset of the first wrong byte of the text, or its length
                  if it is only too short; otherwise 0 */
} dgt_parsed;

/* Reads the placement of a FEN. Two digits may be adjacent. If it is not ok, nothing is written. */
dgt_parsed dgt_parse_placement(const char *text, size_t n, uint8_t pieces[64])
    DGT_MUST_USE_ DGT_NONNULL_(3) DGT_READS_(1, 2) DGT_WRITES_(3);

/* The segments of a digit, a space or a hyphen on the clock's display, or DGT_NO_SUCH. From bit 0
 * on: top, right top, right bottom, bottom, left bottom, left top, middle. */
uint8_t dgt_segment(uint8_t character);

/* ---- The rules of chess: which moves are legal, the state after one, draws, and texts. They are
 * those of the FIDE Laws of Chess of 2023. A state is a position, the side to move, and what the
 * rules remember of earlier moves. */

#define DGT_CHESS_FEN_ROOM 96 /* room for the FEN of any state and its final zero byte */
#define DGT_CHESS_SAN_ROOM 16 /* the same for the text of any move */

/* No attribute says that a call reads or writes a state: gcc 12 takes one for its first member, and
 * would warn of the others. */

/* dgt_chess_state.turn */
enum {
    DGT_CHESS_WHITE = 0,
    DGT_CHESS_BLACK = 1
};

/* Its members are those of a FEN. Fill it with dgt_chess_start or dgt_chess_parse_fen, or by
 * yourself. Each call checks it: if no game reaches it, the call returns false or the reason, and
 * writes nothing. Two states are the same if memcmp finds no difference. */
typedef struct dgt_chess_state {
    uint8_t pieces[64];
    uint16_t half_moves; /* of either side since the last capture or move of a pawn, or 65535 if
                            there are more */
    uint16_t number;     /* of the move: 1 at the beginning, and one more after each move of Black.
                            It ends at 65535 */
    uint8_t turn;        /* the side to move */
    uint8_t rights[4];   /* to castle: White on the king's side, White on the queen's, and Black. 1
                            unless an earlier move has ruled it out, and otherwise 0 */
    uint8_t passed;      /* the square that a pawn passed over by a double step in the last move,
                            whether or not it can be captured there, or DGT_NO_SUCH */
    uint8_t reserved[6]; /* each 0 */
} dgt_chess_state;

/* A castling is the move of its king. */
typedef struct dgt_chess_move {
    uint8_t from;
    uint8_t to;
    uint8_t promotion; /* the number of the white piece of the kind that a pawn becomes, for Black
                          too: 2 rook, 3 knight, 4 bishop, 6 queen. Otherwise 0 */
    uint8_t reserved;  /* 0 */
} dgt_chess_move;

/* Why no game reaches a state (1 to 8; the least one that holds is returned, but for 8, which comes
 * first), and why a text isn't read. */
enum {
    DGT_CHESS_DONE = 0,        /* a game may reach it; the text was read */
    DGT_CHESS_BAD_KINGS = 1,   /* a side doesn't have exactly one king */
    DGT_CHESS_EXTRA_PIECE = 2, /* a piece isn't a chess piece */
    DGT_CHESS_BAD_PAWN = 3,    /* a pawn is on the first or the eighth rank */
    DGT_CHESS_IN_CHECK = 4,    /* the side that isn't to move is in check */
    DGT_CHESS_BAD_RIGHTS = 5,  /* a right to castle lacks its king or its rook */
    DGT_CHESS_BAD_PASSED = 6,  /* the passed square isn't one over which a pawn has just made a
                                  double step */
    DGT_CHESS_BAD_NUMBER = 7,  /* the number of the move is 0 */
    DGT_CHESS_BAD_MEMBER = 8,  /* a member has a value that isn't listed for it */
    DGT_CHESS_BAD_TEXT = 9,    /* not FEN; not the text of a move in any state */
    DGT_CHESS_NO_MOVE = 10,    /* the text of a move, but of no legal one */
    DGT_CHESS_AMBIGUOUS = 11   /* several legal moves fit the text */
};

/* Writes the state in which a game begins. */
void dgt_chess_start(dgt_chess_state *state) DGT_NONNULL_(1);

/* Returns DGT_CHESS_DONE if a game may reach the state, and otherwise why none does: 1 to 8. */
uint8_t dgt_chess_check(const dgt_chess_state *state)
    DGT_MUST_USE_ DGT_NONNULL_(1);

/* Whether a move of the side to move is legal. */
bool dgt_chess_is_legal(const dgt_chess_state *state, const dgt_chess_move *move)
    DGT_NONNULL_(1, 2) DGT_READS_(2);

/* Makes a legal move. Returns false for any other, and then writes nothing. */
bool dgt_chess_play(dgt_chess_state *state, const dgt_chess_move *move)
    DGT_MUST_USE_ DGT_NONNULL_(1, 2) DGT_READS_(2);

/* The squares to which the pieces may move: bit n of goals[from] is set if a legal move goes from
 * there to square n. Returns false and writes nothing if the state isn't one of a game. */
bool dgt_chess_goals(const dgt_chess_state *state, uint64_t goals[64])
    DGT_MUST_USE_ DGT_NONNULL_(1, 2) DGT_WRITES_(2);

/* Writes the legal move that leads to these pieces; there is only one. Returns false and writes
 * nothing if there is none. */
bool dgt_chess_move_to(const dgt_chess_state *state, const uint8_t pieces[64], dgt_chess_move *move)
    DGT_MUST_USE_ DGT_NONNULL_(1, 2, 3) DGT_READS_(2) DGT_WRITES_(3);

/* Whether the side to move is in check, has a legal move, is checkmated, or has no legal move and
 * isn't in check. */
bool dgt_chess_is_check(const dgt_chess_state *state) DGT_NONNULL_(1);
bool dgt_chess_can_move(const dgt_chess_state *state) DGT_NONNULL_(1);
bool dgt_chess_is_mate(const dgt_chess_state *state) DGT_NONNULL_(1);
bool dgt_chess_is_stalemate(const dgt_chess_state *state) DGT_NONNULL_(1);

/* Whether no moves can lead to checkmate, because only kings are left, or also one knight, or also
 * bishops that all stand on squares of one colour. Other such positions aren't found. */
bool dgt_chess_is_dead(const dgt_chess_state *state) DGT_NONNULL_(1);

/* Whether the last 50 moves of each side moved no pawn and captured nothing: the side to move may
 * claim a draw. */
bool dgt_chess_is_fifty_moves(const dgt_chess_state *state) DGT_NONNULL_(1);

/* Whether the last 75 moves of each side did: a draw, unless the last one was checkmate. */
bool dgt_chess_is_seventy_five_moves(const dgt_chess_state *state) DGT_NONNULL_(1);

/* Whether two states have the same position with the same side to move, in which the same moves are
 * possible. If three states of a game do, the side to move may claim a draw. */
bool dgt_chess_is_repeated(const dgt_chess_state *state, const dgt_chess_state *other)
    DGT_NONNULL_(1, 2);

typedef struct dgt_chess_fen_read {
    uint8_t status; /* DGT_CHESS_DONE, 1 to 7 or DGT_CHESS_BAD_TEXT */
    uint8_t field;  /* of a bad text: where it is wrong, from 0 for the pieces to 5 for the number
                       of the move. Otherwise 0 */
    size_t at;      /* of a bad text: the offset of the first wrong byte, or the text's length if it
                       is only too short. Otherwise 0 */
} dgt_chess_fen_read;

/* Reads a text in Forsyth-Edwards Notation: six fields with one space between two, and nothing
 * else. Numbers have no leading zeros. The passed square may be given whether or not a pawn can
 * capture there. Writes nothing unless the status is DGT_CHESS_DONE. */
dgt_chess_fen_read dgt_chess_parse_fen(const char *text, size_t n, dgt_chess_state *state)
    DGT_MUST_USE_ DGT_NONNULL_(3) DGT_READS_(1, 2);

/* Writes the state in this notation, with a final zero byte. The passed square is written only if a
 * legal move captures the pawn there. */
bool dgt_chess_fen(const dgt_chess_state *state, char text[DGT_CHESS_FEN_ROOM])
    DGT_MUST_USE_ DGT_NONNULL_(1, 2) DGT_WRITES_(2);

/* Writes a legal move in Standard Algebraic Notation, as PGN files contain it, with a final zero
 * byte. Returns false and writes nothing for any other move. */
bool dgt_chess_san(const dgt_chess_state *state, const dgt_chess_move *move,
                   char text[DGT_CHESS_SAN_ROOM])
    DGT_MUST_USE_ DGT_NONNULL_(1, 2, 3) DGT_READS_(2) DGT_WRITES_(3);

/* Writes the legal move whose text dgt_chess_san writes so. Returns a status; unless it is
 * DGT_CHESS_DONE, nothing is written. */
uint8_t dgt_chess_parse_san(const dgt_chess_state *state, const char *text, size_t n,
                            dgt_chess_move *move)
    DGT_MUST_USE_ DGT_NONNULL_(1, 4) DGT_READS_(2, 3) DGT_WRITES_(4);

/* The same for texts of other programs, if only one legal move fits. The sign of check or mate may
 * be missing, and so may the = of a promotion. The file and the rank that the move leaves are each
 * written or left out. Castling is written with the letter O or with zeros. */
uint8_t dgt_chess_parse_san_leniently(const dgt_chess_state *state, const char *text, size_t n,
                                      dgt_chess_move *move)
    DGT_MUST_USE_ DGT_NONNULL_(1, 4) DGT_READS_(2, 3) DGT_WRITES_(4);

/* ---- A recogniser: reports the games that are played on a board.
 *
 * Pass it what the board shows, whenever that changes. It waits until pieces rest, so it also has
 * something to do at times when nothing changes:
 *
 *     static dgt_recogniser recogniser;             // 16 KiB
 *     dgt_game_event event;
 *     uint64_t time;
 *     if (!dgt_recogniser_init(&recogniser)) return 1;
 *     for (;;) {
 *         uint64_t at = now();                      // in milliseconds
 *         while (dgt_recogniser_due(&recogniser, at, &event)) show(&event);
 *         if (changed && dgt_recogniser_see(&recogniser, at, pieces, DGT_SIGHT_SURE, confirmed,
 *                                           DGT_NO_SUCH) != DGT_SEEN) return 1;
 *         if (!dgt_recogniser_due_at(&recogniser, &time)) time = UINT64_MAX;
 *         ...                                       // wait until `time`, or for the next change
 *     }
 *
 * It sees the board as the host does, and finds out by itself whether the board is turned. Its
 * events are about the game: a state and a move are those of White's side at the bottom. */

/* The kinds of sight that dgt_recogniser_see takes. */
enum {
    DGT_SIGHT_SURE = 0,    /* the board shows these pieces */
    DGT_SIGHT_DOUBTED = 1, /* it does, unless something was lost on the line */
    DGT_SIGHT_AWAY = 2     /* the board can't be heard: the pieces are ignored */
};

/* What dgt_recogniser_see returns. */
enum {
    DGT_SEEN = 0,
    DGT_SEE_BAD_PIECES = 1, /* a byte isn't a piece */
    DGT_SEE_BAD_SIGHT = 2,  /* there is no such sight */
    DGT_SEE_BAD_SIDE = 3,   /* `running` isn't a side */
    DGT_SEE_STILL_DUE = 4   /* something is due until then: call dgt_recogniser_due with this time
                               until it returns false, and then this again */
};

/* dgt_game_event.kind, and which members it sets. The other members are 0. */
enum {
    DGT_GAME_BEGUN = 1,  /* a game begins with a state: state, turned. The one before is broken off,
                            if it hasn't ended */
    DGT_GAME_MADE = 2,   /* a move was made: moves[0]; count is 1 */
    DGT_GAME_UNSEEN = 3, /* moves were made, of which only the position after the last was shown:
                            count, moves. No other legal line of as many leads there */
    DGT_GAME_GAP = 4,    /* moves were made, but it isn't known which. Some legal line of as many
                            leads to the state, whose position was shown: count, state */
    DGT_GAME_BACK = 5,   /* moves are taken back, of the last DGT_GAME_MADE, DGT_GAME_UNSEEN or
                            DGT_GAME_GAP: count, stays */
    DGT_GAME_ENDED = 6,  /* the game has ended: result */
    DGT_GAME_LOST = 7,   /* no moves lead to what the board shows: squares */
    DGT_GAME_FOUND = 8   /* the board shows a position of the game again */
};

/* dgt_game_event.result */
enum {
    DGT_RESULT_WHITE_WINS = 1,
    DGT_RESULT_BLACK_WINS = 2,
    DGT_RESULT_DRAW = 3
};

typedef struct dgt_game_event {
    uint8_t kind;
    uint8_t count;         /* how many moves of either side */
    uint8_t result;
    uint8_t turned;        /* 1 if White's pieces began on the ranks 8 and 7 of the board, and
                              otherwise 0 */
    dgt_chess_move moves[DGT_MAX_UNSEEN]; /* the first `count`; the others are 0 */
    dgt_chess_state state;
    uint8_t stays;         /* 1 if what is taken back since moves were made last stays: keep the
                              game with it, too; and otherwise 0 */
    uint8_t reserved[19];  /* each 0 */
    uint64_t squares;      /* the squares whose pieces differ from those of the last state: bit n is
                              square n of that state. On a turned board that is square 63 - n */
} dgt_game_event;

/* The size of a dgt_recogniser in bytes, according to the linked library. */
size_t dgt_recogniser_size(void);

/* Makes a recogniser that has seen nothing in the memory at `recogniser`: dgt_recogniser_size()
 * bytes, aligned to 8. */
void dgt_recogniser_make(dgt_recogniser *recogniser) DGT_NONNULL_(1);

/* The same. Returns false and does nothing if the sizes differ, as with dgt_host_init. */
DGT_MUST_USE_ DGT_NONNULL_(1)
static inline bool dgt_recogniser_init(dgt_recogniser *recogniser) {
    if (dgt_recogniser_size() != sizeof *recogniser) return false;
    dgt_recogniser_make(recogniser);
    return true;
}

/* Takes what is seen of the board at this time, in milliseconds of a clock that is never set back.
 * `confirmed` says whether the board was asked again, and has shown the same. `running` is the side
 * whose clock runs, DGT_CHESS_WHITE or DGT_CHESS_BLACK, or DGT_NO_SUCH if that isn't known. If the
 * result isn't DGT_SEEN, nothing changed. */
uint8_t dgt_recogniser_see(dgt_recogniser *recogniser, uint64_t now, const uint8_t pieces[64],
                           uint8_t sight, bool confirmed, uint8_t running)
    DGT_MUST_USE_ DGT_NONNULL_(1, 3) DGT_READS_(3);

/* The first time at which dgt_recogniser_due has something to do, if nothing is seen before.
 * Returns false and writes nothing if there is none. */
bool dgt_recogniser_due_at(dgt_recogniser *recogniser, uint64_t *time)
    DGT_MUST_USE_ DGT_NONNULL_(1, 2) DGT_WRITES_(2);

/* Writes the next event that is due at this time. Returns false and writes nothing if there is
 * none. Call it until then. */
bool dgt_recogniser_due(dgt_recogniser *recogniser, uint64_t now, dgt_game_event *event)
    DGT_MUST_USE_ DGT_NONNULL_(1, 3);

/* Writes the state that the events so far lead to. Returns false and writes nothing if no game has
 * begun. */
bool dgt_recogniser_state(dgt_recogniser *recogniser, dgt_chess_state *state)
    DGT_MUST_USE_ DGT_NONNULL_(1, 2);

/* Goes on from this state of a game, as if events had led to it, and forgets everything else.
 * `turned` says whether White's pieces are on the ranks 8 and 7 of the board when a game begins.
 * Returns what dgt_chess_check returns: unless that is DGT_CHESS_DONE, nothing changes. */
uint8_t dgt_recogniser_go_on(dgt_recogniser *recogniser, const dgt_chess_state *state, bool turned)
    DGT_MUST_USE_ DGT_NONNULL_(1, 2);

/* ---- The library's sizes. If they differ, this is another platform. */

#if defined(__cplusplus) || (defined(__STDC_VERSION__) && __STDC_VERSION__ >= 201112L)
#ifdef __cplusplus
#define DGT_SIZE_(type, size) static_assert(sizeof(type) == size, "dgt.h: another " #type)
#else
#define DGT_SIZE_(type, size) _Static_assert(sizeof(type) == size, "dgt.h: another " #type)
#endif
DGT_SIZE_(dgt_host, DGT_HOST_SIZE);
DGT_SIZE_(dgt_follower, DGT_FOLLOWER_SIZE);
DGT_SIZE_(dgt_decoder, DGT_DECODER_SIZE);
DGT_SIZE_(dgt_command_decoder, DGT_COMMAND_DECODER_SIZE);
DGT_SIZE_(dgt_board, DGT_BOARD_SIZE);
DGT_SIZE_(dgt_recogniser, DGT_RECOGNISER_SIZE);
DGT_SIZE_(dgt_time, 4);
DGT_SIZE_(dgt_clock, 16);
DGT_SIZE_(dgt_event, 160);
DGT_SIZE_(dgt_told, 16);
DGT_SIZE_(dgt_command, 16);
DGT_SIZE_(dgt_sent, 16);
DGT_SIZE_(dgt_body, 72);
DGT_SIZE_(dgt_identity, 256);
DGT_SIZE_(dgt_taken, 16);
DGT_SIZE_(dgt_polled, 16);
DGT_SIZE_(dgt_encoded, 16);
DGT_SIZE_(dgt_stored, 16);
DGT_SIZE_(dgt_signal, 8);
DGT_SIZE_(dgt_battery, 16);
DGT_SIZE_(dgt_parsed, 16);
DGT_SIZE_(dgt_chess_state, 80);
DGT_SIZE_(dgt_chess_move, 4);
DGT_SIZE_(dgt_chess_fen_read, 16);
DGT_SIZE_(dgt_game_event, 128);
#undef DGT_SIZE_
#endif

/* ---- Debugging: that a handle stands where it was made. */

/* Unless NDEBUG is defined where this header is included, each call asserts that its handle was
 * made, and was neither copied nor moved since. Each macro has the name of the call that it makes.
 */
#ifndef NDEBUG

#ifdef __cplusplus
#define DGT_ADDRESS_(pointer) reinterpret_cast<uintptr_t>(pointer)
#else
#define DGT_ADDRESS_(pointer) ((uintptr_t)(pointer))
#endif

/* Whether a handle points into itself, wherever the library has put what it points to. */
static inline bool dgt_is_inside_(const void *at, const void *handle, size_t size) {
    return DGT_ADDRESS_(at) - DGT_ADDRESS_(handle) < size;
}
#undef DGT_ADDRESS_

#define DGT_CHECKED_(type, text) /* returns a handle, and asserts that it is in its place */ \
    static inline type *type##_(type *handle) {                               \
        assert(dgt_is_inside_(handle->at_, handle, sizeof *handle) && text);  \
        return handle;                                                        \
    }
DGT_CHECKED_(dgt_host, "this dgt_host was not made, or was copied or moved")
DGT_CHECKED_(dgt_follower, "this dgt_follower was not made, or was copied or moved")
DGT_CHECKED_(dgt_decoder, "this dgt_decoder was not made, or was copied or moved")
DGT_CHECKED_(dgt_command_decoder, "this dgt_command_decoder was not made, or was copied or moved")
DGT_CHECKED_(dgt_board, "this dgt_board was not made, or was copied or moved")
DGT_CHECKED_(dgt_recogniser, "this dgt_recogniser was not made, or was copied or moved")
#undef DGT_CHECKED_

#define dgt_host_hear(it, ...) dgt_host_hear(dgt_host_(it), __VA_ARGS__)
#define dgt_host_hear_many(it, ...) dgt_host_hear_many(dgt_host_(it), __VA_ARGS__)
#define dgt_host_follow(it, ...) dgt_host_follow(dgt_host_(it), __VA_ARGS__)
#define dgt_host_restart(it, ...) dgt_host_restart(dgt_host_(it), __VA_ARGS__)
#define dgt_host_send(it, ...) dgt_host_send(dgt_host_(it), __VA_ARGS__)
#define dgt_host_send_clock(it, ...) dgt_host_send_clock(dgt_host_(it), __VA_ARGS__)
#define dgt_host_send_display(it, ...) dgt_host_send_display(dgt_host_(it), __VA_ARGS__)
#define dgt_host_send_text(it, ...) dgt_host_send_text(dgt_host_(it), __VA_ARGS__)
#define dgt_host_show_digits(it, ...) dgt_host_show_digits(dgt_host_(it), __VA_ARGS__)
#define dgt_host_show_text(it, ...) dgt_host_show_text(dgt_host_(it), __VA_ARGS__)
#define dgt_host_send_beep(it, ...) dgt_host_send_beep(dgt_host_(it), __VA_ARGS__)
#define dgt_host_send_set_and_run(it, ...) dgt_host_send_set_and_run(dgt_host_(it), __VA_ARGS__)
#define dgt_host_send_icons(it, ...) dgt_host_send_icons(dgt_host_(it), __VA_ARGS__)
#define dgt_host_send_end(it, ...) dgt_host_send_end(dgt_host_(it), __VA_ARGS__)
#define dgt_host_send_button(it, ...) dgt_host_send_button(dgt_host_(it), __VA_ARGS__)
#define dgt_host_send_clock_version(it, ...) dgt_host_send_clock_version(dgt_host_(it), __VA_ARGS__)
#define dgt_host_send_leds(it, ...) dgt_host_send_leds(dgt_host_(it), __VA_ARGS__)
#define dgt_host_picture(it, ...) dgt_host_picture(dgt_host_(it), __VA_ARGS__)
#define dgt_host_placement(it, ...) dgt_host_placement(dgt_host_(it), __VA_ARGS__)
#define dgt_host_clock(it, ...) dgt_host_clock(dgt_host_(it), __VA_ARGS__)
#define dgt_host_awaited(it, ...) dgt_host_awaited(dgt_host_(it), __VA_ARGS__)
#define dgt_host_give_up_awaited(it) dgt_host_give_up_awaited(dgt_host_(it))
#define dgt_host_unread(it) dgt_host_unread(dgt_host_(it))
#define dgt_host_line_lost(it) dgt_host_line_lost(dgt_host_(it))

#define dgt_follower_start(it, ...) dgt_follower_start(dgt_follower_(it), __VA_ARGS__)
#define dgt_follower_hear(it, ...) dgt_follower_hear(dgt_follower_(it), __VA_ARGS__)
#define dgt_follower_hear_all(it, ...) dgt_follower_hear_all(dgt_follower_(it), __VA_ARGS__)
#define dgt_follower_ask(it, ...) dgt_follower_ask(dgt_follower_(it), __VA_ARGS__)
#define dgt_follower_due_at(it, ...) dgt_follower_due_at(dgt_follower_(it), __VA_ARGS__)
#define dgt_follower_ask_now(it) dgt_follower_ask_now(dgt_follower_(it))
#define dgt_follower_set_confirm(it, ...) dgt_follower_set_confirm(dgt_follower_(it), __VA_ARGS__)
#define dgt_follower_set_identify(it, ...) dgt_follower_set_identify(dgt_follower_(it), __VA_ARGS__)
#define dgt_follower_mode(it) dgt_follower_mode(dgt_follower_(it))
#define dgt_follower_set_mode(it, ...) dgt_follower_set_mode(dgt_follower_(it), __VA_ARGS__)
#define dgt_follower_send(it, ...) dgt_follower_send(dgt_follower_(it), __VA_ARGS__)
#define dgt_follower_send_clock(it, ...) dgt_follower_send_clock(dgt_follower_(it), __VA_ARGS__)
#define dgt_follower_send_display(it, ...) dgt_follower_send_display(dgt_follower_(it), __VA_ARGS__)
#define dgt_follower_send_text(it, ...) dgt_follower_send_text(dgt_follower_(it), __VA_ARGS__)
#define dgt_follower_show_digits(it, ...) dgt_follower_show_digits(dgt_follower_(it), __VA_ARGS__)
#define dgt_follower_show_text(it, ...) dgt_follower_show_text(dgt_follower_(it), __VA_ARGS__)
#define dgt_follower_send_beep(it, ...) dgt_follower_send_beep(dgt_follower_(it), __VA_ARGS__)
#define dgt_follower_send_set_and_run(it, ...) \
    dgt_follower_send_set_and_run(dgt_follower_(it), __VA_ARGS__)
#define dgt_follower_send_icons(it, ...) dgt_follower_send_icons(dgt_follower_(it), __VA_ARGS__)
#define dgt_follower_send_end(it, ...) dgt_follower_send_end(dgt_follower_(it), __VA_ARGS__)
#define dgt_follower_send_button(it, ...) dgt_follower_send_button(dgt_follower_(it), __VA_ARGS__)
#define dgt_follower_send_clock_version(it, ...) \
    dgt_follower_send_clock_version(dgt_follower_(it), __VA_ARGS__)
#define dgt_follower_send_leds(it, ...) dgt_follower_send_leds(dgt_follower_(it), __VA_ARGS__)
#define dgt_follower_picture(it, ...) dgt_follower_picture(dgt_follower_(it), __VA_ARGS__)
#define dgt_follower_placement(it, ...) dgt_follower_placement(dgt_follower_(it), __VA_ARGS__)
#define dgt_follower_clock(it, ...) dgt_follower_clock(dgt_follower_(it), __VA_ARGS__)
#define dgt_follower_unread(it) dgt_follower_unread(dgt_follower_(it))
#define dgt_follower_in_doubt(it) dgt_follower_in_doubt(dgt_follower_(it))
#define dgt_follower_confirmed(it) dgt_follower_confirmed(dgt_follower_(it))
#define dgt_follower_serial(it, ...) dgt_follower_serial(dgt_follower_(it), __VA_ARGS__)
#define dgt_follower_last_heard(it, ...) dgt_follower_last_heard(dgt_follower_(it), __VA_ARGS__)
#define dgt_follower_heartbeats_left(it) dgt_follower_heartbeats_left(dgt_follower_(it))
#define dgt_follower_line_disturbed(it) dgt_follower_line_disturbed(dgt_follower_(it))
#define dgt_follower_line_lost(it) dgt_follower_line_lost(dgt_follower_(it))

#define dgt_decoder_feed(it, ...) dgt_decoder_feed(dgt_decoder_(it), __VA_ARGS__)
#define dgt_decoder_feed_many(it, ...) dgt_decoder_feed_many(dgt_decoder_(it), __VA_ARGS__)
#define dgt_decoder_unread(it) dgt_decoder_unread(dgt_decoder_(it))
#define dgt_decoder_finish(it) dgt_decoder_finish(dgt_decoder_(it))
#define dgt_decoder_reset(it) dgt_decoder_reset(dgt_decoder_(it))

#define dgt_command_decoder_feed(it, ...) \
    dgt_command_decoder_feed(dgt_command_decoder_(it), __VA_ARGS__)
#define dgt_command_decoder_unread(it) dgt_command_decoder_unread(dgt_command_decoder_(it))
#define dgt_command_decoder_finish(it) dgt_command_decoder_finish(dgt_command_decoder_(it))
#define dgt_command_decoder_reset(it) dgt_command_decoder_reset(dgt_command_decoder_(it))

#define dgt_board_start(it, ...) dgt_board_start(dgt_board_(it), __VA_ARGS__)
#define dgt_board_change(it, ...) dgt_board_change(dgt_board_(it), __VA_ARGS__)
#define dgt_board_hand_clock(it, ...) dgt_board_hand_clock(dgt_board_(it), __VA_ARGS__)
#define dgt_board_line_lost(it) dgt_board_line_lost(dgt_board_(it))
#define dgt_board_take(it, ...) dgt_board_take(dgt_board_(it), __VA_ARGS__)
#define dgt_board_poll(it, ...) dgt_board_poll(dgt_board_(it), __VA_ARGS__)
#define dgt_board_answer(it, ...) dgt_board_answer(dgt_board_(it), __VA_ARGS__)
#define dgt_board_owes(it) dgt_board_owes(dgt_board_(it))
#define dgt_board_owed_len(it) dgt_board_owed_len(dgt_board_(it))
#define dgt_board_unread(it) dgt_board_unread(dgt_board_(it))
#define dgt_board_mode(it) dgt_board_mode(dgt_board_(it))
#define dgt_board_position(it, ...) dgt_board_position(dgt_board_(it), __VA_ARGS__)
#define dgt_board_clock(it, ...) dgt_board_clock(dgt_board_(it), __VA_ARGS__)

#define dgt_recogniser_see(it, ...) dgt_recogniser_see(dgt_recogniser_(it), __VA_ARGS__)
#define dgt_recogniser_due_at(it, ...) dgt_recogniser_due_at(dgt_recogniser_(it), __VA_ARGS__)
#define dgt_recogniser_due(it, ...) dgt_recogniser_due(dgt_recogniser_(it), __VA_ARGS__)
#define dgt_recogniser_state(it, ...) dgt_recogniser_state(dgt_recogniser_(it), __VA_ARGS__)
#define dgt_recogniser_go_on(it, ...) dgt_recogniser_go_on(dgt_recogniser_(it), __VA_ARGS__)
#endif

#undef DGT_HAS_
#undef DGT_LEAST_
#undef DGT_NONNULL_
#undef DGT_MUST_USE_
#undef DGT_READS_
#undef DGT_WRITES_

#ifdef __cplusplus
}
#endif
#endif
