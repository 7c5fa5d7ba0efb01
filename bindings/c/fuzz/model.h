/* docs/PROTOCOL.md and dgt.h again, as simply as possible in C. The harnesses compare the library
 * with it after each call. */
#ifndef MODEL_H
#define MODEL_H

#include "dgt.h"

/* ---- Text. */

/* The letters of the pieces, by their codes. */
extern const char model_letters[];

/* Writes the placement of a FEN, with a final zero byte. */
void model_placement(const uint8_t pieces[64], char text[DGT_PLACEMENT_ROOM]);

/* As dgt_segment. */
uint8_t model_segment(uint8_t character);

/* As dgt_parse_placement. */
dgt_parsed model_parse_placement(const char *text, size_t n, uint8_t pieces[64]);

/* ---- Messages. */

typedef struct model_decoder {
    uint8_t open[DGT_MAX_BODY + 3]; /* the received bytes of a message */
    size_t n;
} model_decoder;

/* As dgt_decoder_feed, with the whole body. */
size_t model_feed(model_decoder *decoder, const uint8_t *bytes, size_t n, dgt_event *event,
                  uint8_t body[DGT_MAX_BODY]);

/* ---- What a board has stored, and names. */

/* As the calls of dgt.h. If there is nothing, or nothing known, the struct is all zeros. */
size_t model_stored_first(const uint8_t *body, size_t n, dgt_stored *stored);
bool model_signal_of(const uint8_t ack[4], dgt_signal *signal);
bool model_battery_of(const uint8_t *body, size_t n, dgt_battery *battery);
bool model_is_text(const uint8_t *bytes, size_t n);

/* ---- Commands. */

typedef struct model_reader {
    uint8_t word[DGT_MAX_WORD]; /* the received bytes of a command */
    size_t n;
} model_reader;

/* As dgt_command_decoder_feed, with the whole word. */
size_t model_read(model_reader *reader, const uint8_t *bytes, size_t n, dgt_command *command,
                  uint8_t word[DGT_MAX_WORD]);

/* ---- Messages and commands without a handle. */

/* The bytes of the message in an event, 0 if there is none. */
size_t model_encode(const dgt_event *said, const uint8_t *body, size_t body_len,
                    uint8_t *bytes);

/* As dgt_view_message. */
bool model_view(uint8_t code, const uint8_t *body, size_t body_len, dgt_event *event);

/* ---- A host. */

typedef struct model_host {
    model_decoder decoder;
    bool knows_picture;
    uint8_t picture[64];
    dgt_clock clock;
    uint8_t awaited[DGT_MAX_AWAITED];
    size_t awaited_n;
} model_host;

/* As dgt_host_make, and as dgt_host_line_lost. */
void model_host_init(model_host *host);

/* As dgt_host_hear, with the whole body. */
size_t model_hear(model_host *host, const uint8_t *bytes, size_t n, dgt_event *event,
                  uint8_t body[DGT_MAX_BODY]);

/* What a host can send: bytes, or DGT_REFUSED if there are none. */
typedef struct model_sending {
    uint8_t bytes[DGT_MAX_ASKING];
    size_t n;
    uint8_t asks_for; /* the code of the command with a reply that is then awaited, or 0 */
} model_sending;

/* A command of one byte, a clock message, and an LED frame. */
model_sending model_command(uint8_t code);
model_sending model_clock_message(uint8_t id, const uint8_t *payload, size_t n);
model_sending model_leds(const uint8_t *leds, size_t n);

/* One of the eight calls that send a clock message by its meaning. */
typedef struct model_clock_call {
    uint8_t id;           /* DGT_ID_DISPLAY to DGT_ID_TEXT */
    const uint8_t *text;  /* six or eight characters, depending on the id */
    const uint8_t *left, *right; /* three numbers each */
    uint8_t one, other;   /* the numbers after these */
    const uint8_t *icons;
    size_t icons_n;
} model_clock_call;

/* A call with its text, numbers and icons at the places IN, BODY and EVENTS. */
model_clock_call any_clock_call(void);

/* What it sends. */
model_sending model_called(const model_clock_call *call);

/* 44 42 after this many zeros. */
model_sending model_follow(size_t zeros);

/* Sends it into a buffer of `room` bytes. */
dgt_sent model_send(model_host *host, const model_sending *sending, size_t room);

/* ---- A follower. */

typedef struct model_follower {
    model_host host;
    uint64_t period;
    uint32_t patience, left;
    uint8_t mode, tries;
    bool confirms, identifies;
    bool has_asked, has_heard, has_changed, has_serial;
    uint64_t asked, heard, changed;
    uint64_t timeout;    /* milliseconds from a request without an answer to the next one */
    bool is_unfinished;  /* the last bytes left a message unfinished, */
    uint64_t unfinished; /* and were received at this time */
    uint8_t serial[5];
    bool is_answered, is_disturbed, has_requested, is_wanted, pardons; /* since it asked */
    bool is_settling, is_doubtful, is_confirmed, is_unreadable;
} model_follower;

/* As dgt_follower_start, dgt_follower_line_disturbed and dgt_follower_line_lost. */
void model_follower_start(model_follower *follower, uint64_t period, uint32_t patience);
void model_follower_line_disturbed(model_follower *follower);
void model_follower_line_lost(model_follower *follower);

/* As dgt_follower_hear, with the whole body. */
size_t model_follower_hear(model_follower *follower, uint64_t now, const uint8_t *bytes, size_t n,
                           dgt_event *event, uint8_t body[DGT_MAX_BODY]);

/* What a follower makes of a sending: its mode's command follows a frame. */
model_sending model_follower_sending(const model_follower *follower, model_sending sending);

/* As dgt_follower_due_at. */
bool model_due_at(const model_follower *follower, uint64_t *due);

/* As dgt_follower_ask into a buffer of `room` bytes. `sending` gets what is due then. */
dgt_sent model_ask(model_follower *follower, uint64_t now, size_t room, model_sending *sending);

/* ---- A board. */

typedef struct model_reply {
    uint8_t code;        /* of the command that it answers */
    uint8_t id, version; /* of an acknowledgement: ack1 and ack2 */
} model_reply;

typedef struct model_board {
    model_reader reader;
    uint8_t squares[64], reported[64];
    dgt_clock clock, reported_clock; /* the latter is of the kind DGT_CLOCK_UNKNOWN at first */
    dgt_identity identity;
    uint8_t mode;
    bool owes_times;
    model_reply owed[DGT_MAX_OWED];
    size_t owed_n;
} model_board;

/* As dgt_board_make, dgt_board_start and dgt_board_line_lost. */
void model_board_init(model_board *board);
uint8_t model_board_start(model_board *board, const uint8_t pieces[64], const dgt_clock *clock,
                          const dgt_identity *identity);
void model_board_line_lost(model_board *board);

/* As dgt_board_hand_clock. */
bool model_hand_clock(model_board *board, const dgt_clock *clock);

/* As dgt_board_take, with the whole word. */
dgt_taken model_take(model_board *board, const uint8_t *bytes, size_t n, dgt_command *command,
                     uint8_t word[DGT_MAX_WORD]);

/* The next message, and its length: 0 if there is none. */
size_t model_next(const model_board *board, uint8_t message[DGT_MAX_SENT]);

/* The next message, of n bytes, counts as sent. */
void model_sent(model_board *board, const uint8_t *message, size_t n);

#endif
