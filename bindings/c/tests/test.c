/* Tests dgt.h with little stack, and with memory of exactly the stated size, which is filled with
 * rubbish before: calls without bytes or room, the functions of the header itself, texts of events
 * and games. The harnesses of ../fuzz try the other calls, and compare most of them with models.
 * Exits with 1 and prints the first thing that is not as dgt.h says, or 0. */
#include "dgt.h"

#include <pthread.h>
#include <stdio.h>
#include <stdlib.h>
#include <string.h>

#define CHECK(holds)                                              \
    do {                                                          \
        if (!(holds)) {                                           \
            fprintf(stderr, "line %d: %s\n", __LINE__, #holds);   \
            exit(1);                                              \
        }                                                         \
    } while (0)

#define BYTES(...) (const uint8_t[]){__VA_ARGS__}, sizeof((const uint8_t[]){__VA_ARGS__})

static void *room(size_t n) {
    void *memory = malloc(n > 0 ? n : 1);
    CHECK(memory);
    memset(memory, 0xa5, n);
    return memory;
}

/* Bytes in a separate block, so that a read past them is detected. */
static uint8_t *copy(const void *bytes, size_t n) {
    uint8_t *copied = room(n);
    if (n > 0) memcpy(copied, bytes, n);
    return copied;
}

/* A board answers more requests than it can owe, and first what was pending. */
static void answers(void) {
    dgt_board *board = room(dgt_board_size());
    uint8_t *asked = copy("\x44MMMMMMMMMM\x42\x4d", 13), *out = room(DGT_MAX_SENT);
    size_t used = 0, count = 0;
    CHECK(dgt_board_init(board) && dgt_board_answer(board, asked, 1, &used, out) == 0 && used == 1);
    CHECK(dgt_board_change(board, 52, 0) && dgt_board_answer(board, asked, 13, &used, out) == 5);
    CHECK(used == 1 && !memcmp(out, "\x8e\0\5\x34\0", 5));
    for (; dgt_board_answer(board, asked, 12, &used, out) == 5; count++)
        CHECK(!memcmp(out, "\x93\0\5\1\3", 5) && used == 2 + count);
    CHECK(count == 10 && used == 12 && out[0] == 0x86 && dgt_board_unread(board) == 0);
    CHECK(dgt_board_answer(board, asked, 12, &used, out) == 0 && !dgt_board_owes(board));
    used = 0;
    CHECK(dgt_board_answer(board, NULL, 0, &used, out) == 0 && used == 0);
    CHECK(dgt_board_answer(board, BYTES(DGT_SEND_CLOCK_MESSAGE, 4), &used, out) == 0 && used == 2);
    CHECK(dgt_board_unread(board) == 2);
    free(board), free(asked), free(out);
}

/* Whether a command was sent that is these bytes. Fills the slice with rubbish afterwards. */
static bool is_sent(dgt_sent sent, uint8_t *out, const uint8_t *bytes, size_t n) {
    bool right = sent.status == DGT_DONE && sent.bytes == n && !memcmp(out, bytes, n);
    memset(out, 0xa5, n);
    return right;
}

/* Has a host send a message, and then a follower, and compares the bytes. The follower writes one
 * byte more, its mode's command: `more` is 0 for the host, and 1 for the follower. */
#define SENDS(name, wanted, ...)                                                                 \
    do {                                                                                         \
        size_t more = 0;                                                                         \
        CHECK(is_sent(dgt_host_##name(host, __VA_ARGS__), out, wanted));                         \
        more = 1;                                                                                \
        dgt_sent told = dgt_follower_##name(follower, __VA_ARGS__);                              \
        CHECK(told.bytes > 0 && out[--told.bytes] == DGT_SEND_UPDATE_BOARD);                     \
        CHECK(is_sent(told, out, wanted));                                                       \
        (void)more;                                                                              \
    } while (0)

/* The same for a message that is refused with this status and this number. */
#define REFUSES(name, said, count, ...)                                                          \
    do {                                                                                         \
        size_t more = 0;                                                                         \
        dgt_sent told = dgt_host_##name(host, __VA_ARGS__);                                      \
        CHECK(told.status == (said) && told.bytes == (count));                                   \
        more = 1;                                                                                \
        told = dgt_follower_##name(follower, __VA_ARGS__);                                       \
        CHECK(told.status == (said) && told.bytes == (count));                                   \
        (void)more;                                                                              \
    } while (0)

/* Texts that end with a zero are sent with spaces after them, and refused if they don't fit. */
static void texts(void) {
    dgt_host *host = room(dgt_host_size());
    dgt_follower *follower = room(dgt_follower_size());
    CHECK(dgt_host_init(host) && dgt_follower_init(follower, 1000, 1));
    uint8_t out[15];
    char *five = (char *)copy("hello", 6), *none = (char *)copy("", 1); /* no byte after them */
    SENDS(show_text, BYTES(0x2b, 12, 3, 12, 'h', 'e', 'l', 'l', 'o', ' ', ' ', ' ', 7, 0), five, 7,
          out, 14 + more);
    SENDS(show_text, BYTES(0x2b, 12, 3, 12, 'i', 'n', ' ', 'e', 'i', 'g', 'h', 't', 0, 0),
          "in eight", 0, out, 14 + more);
    SENDS(show_text, BYTES(0x2b, 12, 3, 12, ' ', ' ', ' ', ' ', ' ', ' ', ' ', ' ', 0, 0), none, 0,
          out, 14 + more);
    REFUSES(show_text, DGT_REFUSED, 0, "nine char", 0, out, 14 + more);
    REFUSES(show_text, DGT_REFUSED, 0, "R\xc3\xa9sum\xc3\xa9", 0, out, 14 + more);
    REFUSES(show_text, DGT_NO_ROOM, 14 + more, five, 0, out, 13 + more);
    SENDS(show_digits, BYTES(0x2b, 11, 3, 1, 0x40, 0x5b, 6, 0, 0, 0x4f, 1, 2, 0), "12-3", 1, 2, out,
          13 + more);
    SENDS(show_digits, BYTES(0x2b, 11, 3, 1, 0, 0, 0, 0, 0, 0, 0, 0, 0), none, 0, 0, out,
          13 + more);
    REFUSES(show_digits, DGT_REFUSED, 0, "1234567", 0, 0, out, 14 + more);
    REFUSES(show_digits, DGT_REFUSED, 0, five, 0, 0, out, 14 + more);
    REFUSES(show_digits, DGT_NO_ROOM, 13 + more, "123456", 0, 0, out, 12 + more);
    free(host), free(follower), free(five), free(none);
}

static void lighting(void) {
    uint8_t leds[4];
    CHECK(dgt_lighting(BYTES(52, 36), leds) && !memcmp(leds, "\1\x34\x24\0", 4));
    CHECK(!dgt_lighting(BYTES(52), leds) && !dgt_lighting(BYTES(52, 36, 0), leds));
    CHECK(!dgt_lighting(BYTES(64, 0), leds) && !dgt_lighting(BYTES(0, 64), leds) && leds[1] == 52);
    CHECK(dgt_lighting(BYTES(0, 63), leds) && !memcmp(leds, "\1\0\x3f\0", 4));
    CHECK(dgt_lighting(NULL, 0, leds) && !memcmp(leds, "\0\x40\x40\0", 4));
}

#define NO_BODY NULL, 0

/* Whether an event has this text, which takes exactly the room that it is said to take. */
static bool has_text(dgt_event said, const uint8_t *carried, size_t carried_len, const char *text) {
    size_t n = strlen(text) + 1;
    dgt_event *event = room(sizeof said);
    uint8_t *out = room(n), *read = copy(carried, carried_len);
    *event = said;
    dgt_encoded done = dgt_event_text(event, read, carried_len, (char *)out, n - 1);
    bool right = done.status == DGT_NO_ROOM && done.bytes == n && out[0] == 0xa5;
    done = dgt_event_text(event, read, carried_len, NULL, 0);
    right = right && done.status == DGT_NO_ROOM && done.bytes == n;
    done = dgt_event_text(event, read, carried_len, (char *)out, n);
    right = right && done.status == DGT_DONE && done.bytes == n && !memcmp(out, text, n);
    free(event), free(read), free(out);
    return right;
}

static bool has_no_text(dgt_event said) {
    char text[100] = "?";
    dgt_encoded done = dgt_event_text(&said, NO_BODY, text, sizeof text);
    return done.status == DGT_REFUSED && done.bytes == 0 && text[0] == '?';
}

#define EVENT(...) ((dgt_event){__VA_ARGS__})

static void event_texts(void) {
    CHECK(has_text(EVENT(.kind = DGT_EVENT_FIELD, .square = 36, .piece = 1, .unasked = 1), NO_BODY,
                   "field e4 P"));
    dgt_event other = {.kind = DGT_EVENT_OTHER, .code = 5, .body_len = 7};
    CHECK(has_text(other, NO_BODY, "other 05 -"));
    CHECK(has_text(EVENT(.kind = DGT_EVENT_TRADEMARK), BYTES('D', 'G'), "trademark 4447"));
    dgt_event refused = {.kind = DGT_EVENT_REFUSED, .code = 14, .at = 1, .fault = DGT_BAD_SQUARE};
    CHECK(has_text(refused, NO_BODY, "refused 0e badsquare 1"));
    refused.fault = DGT_NO_FAULT;
    CHECK(has_no_text(refused));
    refused = EVENT(.kind = DGT_EVENT_REFUSED, .code = 128, .fault = DGT_WRONG_SIZE);
    CHECK(has_no_text(refused));
    CHECK(has_no_text(EVENT(.kind = DGT_EVENT_NONE)));
    CHECK(has_no_text(EVENT(.kind = DGT_EVENT_STRAY + 1)));
    CHECK(has_no_text(EVENT(.kind = DGT_EVENT_FIELD, .square = 64)));
}

/* Each call takes NULL for a slice of no bytes, and for an array of no events. */
static void no_bytes_of_hosts(void) {
    dgt_host *host = room(dgt_host_size());
    dgt_decoder *decoder = room(dgt_decoder_size());
    CHECK(dgt_host_init(host) && dgt_decoder_init(decoder));
    dgt_event event;
    CHECK(dgt_host_hear(host, NULL, 0, &event, NULL, 0) == 0 && event.kind == DGT_EVENT_NONE);
    CHECK(dgt_host_hear(host, BYTES(0x92, 0, 4, 'D'), &event, NULL, 0) == 4);
    CHECK(event.kind == DGT_EVENT_TRADEMARK && event.body_len == 1);
    dgt_told all = dgt_host_hear_many(host, NULL, 0, NULL, 0, NULL, 0);
    CHECK(all.used == 0 && all.count == 0);
    all = dgt_host_hear_many(host, BYTES(0x92, 0, 4, 'D'), &event, 1, NULL, 0);
    CHECK(all.used == 4 && all.count == 1 && event.body_len == 1);
    all = dgt_host_hear_many(host, BYTES(0x92, 0, 4, 'D'), NULL, 0, NULL, 0);
    CHECK(all.used == 0 && all.count == 0);
    CHECK(dgt_host_follow(host, NULL, 0).status == DGT_NO_ROOM);
    CHECK(dgt_host_restart(host, NULL, 0).status == DGT_NO_ROOM);
    const uint8_t dump[67] = {0x86, 0, 67};
    char text[DGT_PLACEMENT_ROOM];
    CHECK(dgt_host_hear(host, dump, 67, &event, NULL, 0) == 67 && dgt_host_placement(host, text));

    CHECK(dgt_decoder_feed(decoder, NULL, 0, &event, NULL, 0) == 0 && event.kind == 0);
    CHECK(dgt_decoder_feed(decoder, BYTES(0x92, 0, 4, 'D'), &event, NULL, 0) == 4);
    CHECK(event.kind == DGT_EVENT_TRADEMARK && event.body_len == 1);
    all = dgt_decoder_feed_many(decoder, NULL, 0, NULL, 0, NULL, 0);
    CHECK(all.used == 0 && all.count == 0);
    all = dgt_decoder_feed_many(decoder, BYTES(0x92, 0, 4, 'D'), &event, 1, NULL, 0);
    CHECK(all.used == 4 && all.count == 1 && event.body_len == 1);
    free(host), free(decoder);
}

/* The same of commands, which need from 1 to 14 bytes. */
static void no_bytes_for_commands(void) {
    dgt_host *host = room(dgt_host_size());
    dgt_follower *follower = room(dgt_follower_size());
    CHECK(dgt_host_init(host) && dgt_follower_init(follower, 1000, 1));
    const uint8_t time[3] = {0}, digits[6] = {'1', '2', '3', '4', '5', '6'}, text[8] = {0};
    uint8_t out[6];
    REFUSES(send, DGT_NO_ROOM, 1, DGT_SEND_DUMP, NULL, 0);
    REFUSES(send_clock, DGT_NO_ROOM, 5 + more, DGT_ID_END, NULL, 0, NULL, 0);
    SENDS(send_clock, BYTES(0x2b, 3, 3, 3, 0), DGT_ID_END, NULL, 0, out, sizeof out);
    REFUSES(send_leds, DGT_NO_ROOM, 2 + more, NULL, 0, NULL, 0);
    SENDS(send_leds, BYTES(0x60, 0), NULL, 0, out, sizeof out);
    REFUSES(send_display, DGT_NO_ROOM, 13 + more, digits, 0, 0, NULL, 0);
    REFUSES(send_text, DGT_NO_ROOM, 14 + more, text, 0, NULL, 0);
    REFUSES(send_beep, DGT_NO_ROOM, 6 + more, 3, NULL, 0);
    REFUSES(send_set_and_run, DGT_NO_ROOM, 12 + more, time, time, 0, NULL, 0);
    REFUSES(send_icons, DGT_NO_ROOM, 5 + more, NULL, 0, NULL, 0);
    SENDS(send_icons, BYTES(0x2b, 3, 3, 2, 0), NULL, 0, out, sizeof out);
    REFUSES(send_end, DGT_NO_ROOM, 5 + more, NULL, 0);
    REFUSES(send_button, DGT_NO_ROOM, 5 + more, NULL, 0);
    REFUSES(send_clock_version, DGT_NO_ROOM, 5 + more, NULL, 0);
    free(host), free(follower);
}

static void no_bytes_of_followers(void) {
    dgt_follower *follower = room(dgt_follower_size());
    CHECK(!dgt_follower_init(follower, DGT_LEAST_PERIOD - 1, 1));
    CHECK(dgt_follower_init(follower, 1000, 1));
    dgt_event event;
    CHECK(dgt_follower_hear(follower, 1, NULL, 0, &event, NULL, 0) == 0);
    CHECK(event.kind == DGT_EVENT_NONE && event.place == 0);
    dgt_follower_hear_all(follower, 1, NULL, 0);
    dgt_sent sent = dgt_follower_ask(follower, 1, NULL, 0);
    CHECK(sent.status == DGT_NO_ROOM && sent.bytes == 258);
    free(follower);
}

static void no_bytes_of_boards(void) {
    dgt_command_decoder *reader = room(dgt_command_decoder_size());
    dgt_board *board = room(dgt_board_size());
    CHECK(dgt_command_decoder_init(reader) && dgt_board_init(board));
    dgt_command command;
    CHECK(dgt_command_decoder_feed(reader, NULL, 0, &command, NULL, 0) == 0);
    CHECK(command.kind == DGT_NO_WORD);
    CHECK(dgt_command_decoder_feed(reader, BYTES(DGT_SEND_DUMP), &command, NULL, 0) == 1);
    CHECK(command.kind == DGT_COMMAND && command.word_len == 1);

    dgt_taken taken = dgt_board_take(board, NULL, 0, &command, NULL, 0);
    CHECK(!taken.busy && taken.used == 0 && command.kind == DGT_NO_WORD);
    taken = dgt_board_take(board, BYTES(DGT_SEND_VERSION), &command, NULL, 0);
    CHECK(!taken.busy && taken.used == 1 && command.code == DGT_SEND_VERSION);
    dgt_polled polled = dgt_board_poll(board, NULL, 0);
    CHECK(polled.status == DGT_NO_ROOM && polled.bytes == 5);
    dgt_board_line_lost(board);
    CHECK(dgt_board_poll(board, NULL, 0).status == DGT_NOTHING);

    uint8_t pieces[64];
    dgt_parsed parsed = dgt_parse_placement(NULL, 0, pieces);
    CHECK(!parsed.ok && parsed.at == 0);
    free(reader), free(board);
}

/* ---- The rules of chess. ../fuzz and tests/libraries/chess_rules try them. */

/* Bytes that make another struct of the initial position, and why no game reaches that. */
static const struct { size_t at; uint8_t byte, status; } STRUCTS[] = {
    {60, 0, DGT_CHESS_BAD_KINGS},
    {offsetof(dgt_chess_state, passed), 44, DGT_CHESS_BAD_PASSED},
    {offsetof(dgt_chess_state, number), 0, DGT_CHESS_BAD_NUMBER},
    {36, 16, DGT_CHESS_BAD_MEMBER},
    {offsetof(dgt_chess_state, turn), 2, DGT_CHESS_BAD_MEMBER},
    {offsetof(dgt_chess_state, rights), 2, DGT_CHESS_BAD_MEMBER},
    {offsetof(dgt_chess_state, passed), 64, DGT_CHESS_BAD_MEMBER},
    {offsetof(dgt_chess_state, reserved), 1, DGT_CHESS_BAD_MEMBER},
};

static void no_states(void) {
    dgt_recogniser *recogniser = room(sizeof *recogniser);
    dgt_chess_state known;
    CHECK(dgt_recogniser_init(recogniser));
    for (size_t each = 0; each < sizeof STRUCTS / sizeof *STRUCTS; each++) {
        dgt_chess_state *state = room(sizeof *state);
        dgt_chess_start(state);
        CHECK(dgt_chess_check(state) == DGT_CHESS_DONE);
        ((uint8_t *)state)[STRUCTS[each].at] = STRUCTS[each].byte;
        CHECK(dgt_chess_check(state) == STRUCTS[each].status);
        CHECK(dgt_recogniser_go_on(recogniser, state, false) == STRUCTS[each].status);
        CHECK(!dgt_recogniser_state(recogniser, &known));
        free(state);
    }
    free(recogniser);
}

/* Of each kind of calls one, for its stack, and texts without bytes. */
static void chess(void) {
    dgt_chess_state state, after;
    dgt_chess_move move;
    uint64_t goals[64];
    char fen[DGT_CHESS_FEN_ROOM], san[DGT_CHESS_SAN_ROOM];
    CHECK(dgt_chess_parse_fen(NULL, 0, &state).status == DGT_CHESS_BAD_TEXT);
    dgt_chess_start(&state);
    CHECK(dgt_chess_fen(&state, fen));
    CHECK(!strcmp(fen, "rnbqkbnr/pppppppp/8/8/8/8/PPPPPPPP/RNBQKBNR w KQkq - 0 1"));
    CHECK(dgt_chess_parse_san(&state, NULL, 0, &move) == DGT_CHESS_BAD_TEXT);
    CHECK(dgt_chess_parse_san_leniently(&state, NULL, 0, &move) == DGT_CHESS_BAD_TEXT);
    CHECK(dgt_chess_goals(&state, goals) && !dgt_chess_is_mate(&state));
    CHECK(dgt_chess_parse_san_leniently(&state, "e2e4", 4, &move) == DGT_CHESS_DONE);
    CHECK(dgt_chess_san(&state, &move, san) && !strcmp(san, "e4"));
    after = state;
    CHECK(dgt_chess_play(&after, &move) && dgt_chess_move_to(&state, after.pieces, &move));
    CHECK(!dgt_chess_is_repeated(&after, &state) && dgt_chess_fen(&after, fen));
    CHECK(dgt_chess_parse_fen(fen, strlen(fen), &state).status == DGT_CHESS_DONE);
}

/* ---- A recogniser. */

/* Arguments that are refused: the code on a8, the sight, the side, and the status. */
static const struct { uint8_t piece, sight, side, status; } REFUSALS[] = {
    {16, DGT_SIGHT_SURE, DGT_NO_SUCH, DGT_SEE_BAD_PIECES},
    {255, DGT_SIGHT_DOUBTED, DGT_NO_SUCH, DGT_SEE_BAD_PIECES},
    {0, 3, DGT_NO_SUCH, DGT_SEE_BAD_SIGHT},
    {0, 255, DGT_CHESS_WHITE, DGT_SEE_BAD_SIGHT},
    {0, DGT_SIGHT_SURE, 2, DGT_SEE_BAD_SIDE},
    {255, DGT_SIGHT_AWAY, 254, DGT_SEE_BAD_SIDE},
};

/* Has a recogniser see a state, in memory of exactly its size, and writes the events after a text:
 * a move that was made, or the kind of another event. */
static void see(dgt_recogniser *recogniser, uint64_t now, const dgt_chess_state *state,
                char text[64]) {
    dgt_game_event *event = room(sizeof *event);
    uint8_t *given = copy(state->pieces, 64);
    CHECK(!dgt_recogniser_due(recogniser, now, event));
    CHECK(event->kind == 0xa5 && event->squares == UINT64_C(0xa5a5a5a5a5a5a5a5));
    CHECK(dgt_recogniser_see(recogniser, now, given, DGT_SIGHT_SURE, true, DGT_NO_SUCH) ==
          DGT_SEEN);
    while (dgt_recogniser_due(recogniser, now + 1999, event)) {
        size_t n = strlen(text);
        uint8_t to = event->moves[0].to;
        for (size_t each = 0; each < sizeof event->reserved; each++) CHECK(!event->reserved[each]);
        if (event->kind == DGT_GAME_MADE)
            CHECK(event->count == 1 && dgt_square_name(to, text + n));
        else
            snprintf(text + n, 64 - n, "%d ", event->kind);
        memset(event, 0xa5, sizeof *event);
    }
    free(event), free(given);
}

static void games(void) {
    dgt_recogniser *recogniser = room(sizeof *recogniser);
    dgt_chess_state *state = room(sizeof *state), known;
    const dgt_chess_move moves[] = {{52, 36, 0, 0}, {12, 28, 0, 0}};
    char text[64] = "";
    CHECK(dgt_recogniser_init(recogniser));
    dgt_chess_start(state);
    see(recogniser, 0, state, text);
    for (uint64_t each = 0; each < 2; each++) {
        CHECK(dgt_chess_play(state, &moves[each]));
        see(recogniser, 2000 * (each + 1), state, text);
    }
    CHECK(!strcmp(text, "1 e4e5"));
    CHECK(dgt_recogniser_state(recogniser, &known) && !memcmp(&known, state, sizeof known));
    CHECK(dgt_recogniser_go_on(recogniser, state, true) == DGT_CHESS_DONE);
    CHECK(dgt_recogniser_state(recogniser, &known) && !memcmp(&known, state, sizeof known));
    free(recogniser), free(state);
}

/* What is refused changes nothing: neither the recogniser nor what a call would write. */
static void nothing_seen(void) {
    dgt_recogniser *recogniser = room(sizeof *recogniser);
    uint8_t *before = room(sizeof *recogniser), *pieces = room(64);
    uint64_t *time = room(sizeof *time);
    dgt_chess_state *state = room(sizeof *state);
    CHECK(dgt_recogniser_init(recogniser));
    CHECK(!dgt_recogniser_due_at(recogniser, time) && *time == UINT64_C(0xa5a5a5a5a5a5a5a5));
    CHECK(!dgt_recogniser_state(recogniser, state) && state->turn == 0xa5);
    memcpy(before, recogniser, sizeof *recogniser);
    for (size_t each = 0; each < sizeof REFUSALS / sizeof *REFUSALS; each++) {
        memset(pieces, 0, 64);
        pieces[0] = REFUSALS[each].piece;
        CHECK(dgt_recogniser_see(recogniser, 5, pieces, REFUSALS[each].sight, true,
                                 REFUSALS[each].side) == REFUSALS[each].status);
        CHECK(!memcmp(before, recogniser, sizeof *recogniser));
    }
    CHECK(dgt_recogniser_see(recogniser, 5, pieces, DGT_SIGHT_AWAY, false, DGT_CHESS_BLACK) ==
          DGT_SEEN); /* its code on a8 is 255 */
    free(recogniser), free(before), free(pieces), free(time), free(state);
}

static void all_calls(void) {
    CHECK(dgt_version() == DGT_VERSION);
    CHECK(sizeof(dgt_host) == dgt_host_size() && sizeof(dgt_decoder) == dgt_decoder_size());
    CHECK(sizeof(dgt_board) == dgt_board_size() && sizeof(dgt_follower) == dgt_follower_size());
    CHECK(sizeof(dgt_command_decoder) == dgt_command_decoder_size());
    CHECK(sizeof(dgt_recogniser) == dgt_recogniser_size());
    answers();
    texts();
    event_texts();
    lighting();
    no_states();
    chess();
    nothing_seen();
    games();
    no_bytes_of_hosts();
    no_bytes_for_commands();
    no_bytes_of_followers();
    no_bytes_of_boards();
}

/* Makes the calls with less stack than the 80 KiB of dgt.h: this is half of the thread's. */
static void *with_half_a_stack(void *unused) {
    volatile uint8_t half[80 * 1024];
    half[0] = 0;
    all_calls();
    CHECK(half[0] == 0);
    return unused;
}

int main(void) {
    pthread_attr_t small; /* 160 KiB */
    pthread_t thread;
    CHECK(!pthread_attr_init(&small) && !pthread_attr_setstacksize(&small, 160 * 1024));
    CHECK(!pthread_attr_setguardsize(&small, 1024 * 1024)); /* more than a call can skip */
    CHECK(!pthread_create(&thread, &small, with_half_a_stack, NULL));
    CHECK(!pthread_join(thread, NULL));
    return 0;
}
