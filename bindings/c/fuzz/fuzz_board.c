/* A board, which takes any bytes in any chunks, while its pieces and its clock change. */
#include "input.h"
#include "model.h"

#include <string.h>

static dgt_board *board;
static model_board model;

/* ---- What it takes and sends. */

static size_t take(const uint8_t *bytes, size_t n) {
    static uint8_t right_word[DGT_MAX_WORD];
    dgt_command right;
    size_t room = input_room(DGT_MAX_WORD + 3);
    uint8_t *word = guarded(BODY, room);
    dgt_command *command = guarded(EVENTS, sizeof *command);
    dgt_taken wanted = model_take(&model, bytes, n, &right, right_word);
    dgt_taken taken = dgt_board_take(board, bytes, n, command, word, room);
    CHECK(taken.busy == wanted.busy && taken.used == wanted.used);
    CHECK_SAME(command, &right);
    check_written(word, room, right_word, right.word_len);
    return taken.used;
}

/* Whether a message was written. */
static bool poll(size_t room) {
    uint8_t *out = guarded(OUT, room), message[DGT_MAX_SENT];
    size_t n = model_next(&model, message);
    dgt_polled polled = dgt_board_poll(board, out, room);
    CHECK(polled.bytes == n);
    CHECK(polled.status == (n == 0 ? DGT_NOTHING : room < n ? DGT_NO_ROOM : DGT_WROTE));
    check_written(out, room, message, polled.status == DGT_WROTE ? n : 0);
    if (polled.status == DGT_WROTE) model_sent(&model, message, n);
    return polled.status == DGT_WROTE;
}

static void poll_all(void) {
    size_t count = 0;
    while (poll(DGT_MAX_SENT)) count++;
    CHECK(count <= 73);
}

/* ---- Changes. */

static void change(uint8_t square, uint8_t piece) {
    bool is_right = square < 64 && piece < 16;
    CHECK(dgt_board_change(board, square, piece) == is_right);
    if (is_right) model.squares[square] = piece;
}

/* Mostly a square and a piece. */
static void change_one(void) {
    uint8_t square = input_byte(), piece = input_byte();
    if (square < 192) square %= 66;
    if (piece < 192) piece %= 17;
    change(square, piece);
}

/* Some consecutive squares. */
static void change_many(void) {
    uint8_t first = input_byte() % 64, n = input_byte() % 65, piece = input_byte();
    for (uint8_t i = 0; i < n; i++) change((first + i) % 64, (piece + i) % 16);
}

/* Numbers that are mostly in the ranges of times. */
static dgt_time any_time(void) {
    uint8_t hours = input_byte(), minutes = input_byte(), seconds = input_byte();
    uint8_t odd = input_byte();
    if (odd % 16 > 0) hours %= 10;
    if (odd % 16 != 1) minutes %= 60;
    if (odd % 16 != 2) seconds %= 60;
    return (dgt_time){hours, minutes, seconds, odd >> 4 & (odd % 16 == 3 ? 15 : 7)};
}

/* A clock at the place LOOK, mostly a valid one. Members that its kind doesn't set are random. */
static const dgt_clock *any_clock(void) {
    dgt_clock *clock = guarded(LOOK, sizeof *clock);
    uint8_t how = input_byte(), mask = how % 16 == 0 ? 0xff : 0x7f;
    clock->kind = how < 16 ? how % 4 : 1 + how % 2;
    clock->status = input_byte() & mask;
    if (how % 8 > 0) {
        clock->status &= (uint8_t)~DGT_STATUS_ABSENT;
        clock->status |= clock->kind == DGT_CLOCK_NONE ? DGT_STATUS_ABSENT : 0;
    }
    clock->first = any_time();
    if (clock->kind == DGT_CLOCK_NONE)
        for (size_t i = 0; i < 6; i++) clock->raw[i] = input_byte() & mask;
    else
        clock->second = any_time();
    return clock;
}

static void hand_clock(void) {
    const dgt_clock *clock = any_clock();
    CHECK(dgt_board_hand_clock(board, clock) == model_hand_clock(&model, clock));
}

static void make_body(dgt_body *body, uint8_t mask) {
    uint8_t n = input_byte();
    body->len = n < 250 ? n % 66u : n < 253 ? 1000u : SIZE_MAX - n;
    memset(body->bytes, input_byte() & mask, DGT_MAX_KEPT);
    body->bytes[input_byte() % DGT_MAX_KEPT] = input_byte() & mask;
}

static const dgt_identity *any_identity(void) {
    dgt_identity *identity = guarded(IN, sizeof *identity);
    uint8_t mask = input_byte() % 8 == 0 ? 0xff : 0x7f;
    for (size_t i = 0; i < 5; i++) identity->serial[i] = input_byte() & mask;
    identity->main_number = input_byte() & mask;
    identity->sub_number = input_byte() & mask;
    identity->clock_version = input_byte();
    make_body(&identity->trademark, mask);
    make_body(&identity->battery, mask);
    make_body(&identity->long_serial, mask);
    memset(identity->reserved, 0, sizeof identity->reserved);
    identity->reserved[input_byte() % sizeof identity->reserved] = input_byte() % 16 == 0;
    return identity;
}

static void start(void) {
    uint8_t *pieces = guarded(OUT, 64), most = input_byte() % 8 == 0 ? 17 : 16;
    for (size_t i = 0; i < 64; i++) pieces[i] = i < 20 ? input_byte() % most : 0;
    const dgt_clock *clock = any_clock();
    const dgt_identity *identity = any_identity();
    CHECK(dgt_board_start(board, pieces, clock, identity) ==
          model_board_start(&model, pieces, clock, identity));
}

/* ---- Its state. */

static void look(void) {
    uint8_t *pieces = guarded(LOOK, 64), message[DGT_MAX_SENT];
    dgt_board_position(board, pieces);
    CHECK(memcmp(pieces, model.squares, 64) == 0);
    dgt_clock *clock = guarded(LOOK, sizeof *clock);
    dgt_board_clock(board, clock);
    CHECK_SAME(clock, &model.clock);
    CHECK(dgt_board_mode(board) == model.mode);
    CHECK(dgt_board_owed_len(board) == model.owed_n);
    CHECK(dgt_board_unread(board) == model.reader.n);
    CHECK(dgt_board_owes(board) == (model_next(&model, message) > 0));
}

int LLVMFuzzerTestOneInput(const uint8_t *data, size_t n) {
    input_begin(data, n);
    board = guarded(HANDLE, sizeof *board);
    CHECK(dgt_board_init(board));
    model_board_init(&model);
    look();
    while (input_is_left()) {
        uint8_t act = input_byte() % 16;
        if (act < 5) use_chunk(take);
        else if (act < 7) poll(DGT_MAX_SENT);
        else if (act < 9) poll_all();
        else if (act == 9) poll(input_room(DGT_MAX_SENT + 3));
        else if (act < 12) change_one();
        else if (act == 12) change_many();
        else if (act == 13) hand_clock();
        else if (act == 14) start();
        else {
            dgt_board_line_lost(board);
            model_board_line_lost(&model);
        }
        look();
    }
    return 0;
}
