/* A follower, which hears any bytes at any times, and is asked both when it is due and when it
 * isn't. */
#include "input.h"
#include "model.h"

#include <string.h>

static dgt_follower *follower;
static model_follower model;
static uint64_t now;

#define SEND(name, ...) dgt_follower_##name(follower, __VA_ARGS__)
#define MODEL &model.host
#define SENT(sending) model_follower_sending(&model, sending)
#include "sends.h"

#undef MODEL
#define MODEL &model
#define IT follower
#define HEAR(it, ...) dgt_follower_hear(it, now, __VA_ARGS__)
#define MODEL_HEAR(it, ...) model_follower_hear(it, now, __VA_ARGS__)
#define UNREAD dgt_follower_unread
#define MODEL_UNREAD model.host.decoder.n
#include "hears.h"

static size_t hear_all(const uint8_t *bytes, size_t n) {
    dgt_follower_hear_all(follower, now, bytes, n);
    for (size_t at = 0; at < n;) at += MODEL_HEAR(MODEL, bytes + at, n - at, &right, right_body);
    return n;
}

/* A board's reply to a request: a dump with the same piece on each square. */
static void hear_dump(using_bytes *use) {
    uint8_t *dump = guarded(IN, 67);
    memset(dump, input_byte() % 16, 67);
    memcpy(dump, "\x86\x00\x43", 3);
    use_all((chunk){dump, 67}, use);
}

static void ask(size_t room) {
    model_sending asking;
    uint8_t *out = guarded(OUT, room);
    dgt_sent sent = dgt_follower_ask(follower, now, out, room);
    check_sent(sent, model_ask(&model, now, room, &asking), out, room, &asking);
}

static void send_to_clock_or_leds(uint8_t how) {
    if (how < 2) send_code(1 + how, input_chunk);
    else send_clock_call();
}

static void pass_time(void) {
    static const uint64_t some[] = {1, 2, 3, 500, 999, 1000, 10000, UINT64_MAX / 2};
    uint8_t which = input_byte();
    uint64_t wait = some[which % (sizeof some / sizeof *some)];
    if (which >= 0xc0) now = wait < now ? now - wait : 0; /* the clock goes back */
    else now = wait < UINT64_MAX - now ? now + wait : UINT64_MAX;
}

/* The time at which it is due, or one before or after it. */
static void wait_until_due(void) {
    uint64_t due;
    if (model_due_at(&model, &due)) now = due + input_byte() % 3 - 1;
}

static void set_wish(uint8_t which) {
    bool wish = which % 2 == 0;
    if (which < 2) dgt_follower_set_confirm(follower, model.confirms = wish);
    else if (which < 4) dgt_follower_set_identify(follower, model.identifies = wish);
    else if (which == 4) {
        dgt_follower_ask_now(follower);
        model.is_wanted = true;
    } else {
        dgt_follower_line_disturbed(follower);
        model_follower_line_disturbed(&model);
    }
}

static void set_mode(void) {
    uint8_t mode = input_byte() % 6;
    bool is_mode = mode >= DGT_MODE_UPDATE && mode <= DGT_MODE_UPDATE_NICE;
    CHECK(dgt_follower_set_mode(follower, mode) == is_mode);
    if (is_mode) model.mode = mode;
}

static void start(void) {
    static const uint64_t periods[] = {0,    999,   1001,             4003,
                                       1000, 10000, UINT64_MAX - 999, UINT64_MAX};
    static const uint32_t patiences[] = {0, 1, 2, 6, UINT32_MAX};
    uint64_t period = periods[input_byte() % (sizeof periods / sizeof *periods)];
    uint32_t patience = patiences[input_byte() % (sizeof patiences / sizeof *patiences)];
    dgt_follower_start(follower, period, patience);
    model_follower_start(&model, period, patience);
}

static void lose_line(void) {
    dgt_follower_line_lost(follower);
    model_follower_line_lost(&model);
}

static void check_time(bool (*get)(dgt_follower *, uint64_t *), bool is_known, uint64_t right) {
    uint64_t *time = guarded(LOOK, sizeof *time);
    CHECK(get(follower, time) == is_known);
    check_written(time, sizeof *time, &right, is_known ? sizeof right : 0);
}

static void look(void) {
    uint64_t due = 0;
    bool is_due = model_due_at(&model, &due);
    check_time(dgt_follower_due_at, is_due, due);
    check_time(dgt_follower_last_heard, model.has_heard, model.heard);
    CHECK(dgt_follower_in_doubt(follower) == model.is_doubtful);
    CHECK(dgt_follower_confirmed(follower) == model.is_confirmed);
    CHECK(dgt_follower_heartbeats_left(follower) == model.left);
    CHECK(dgt_follower_unread(follower) == model.host.decoder.n);
    CHECK(dgt_follower_mode(follower) == model.mode);
    const dgt_clock unknown = {.kind = DGT_CLOCK_UNKNOWN};
    check_board(&model.host, model.is_unreadable ? &unknown : &model.host.clock);
    uint8_t *serial = guarded(LOOK, sizeof model.serial);
    CHECK(dgt_follower_serial(follower, serial) == model.has_serial);
    check_written(serial, sizeof model.serial, model.serial, model.has_serial ? 5 : 0);
}

int LLVMFuzzerTestOneInput(const uint8_t *data, size_t n) {
    input_begin(data, n);
    follower = guarded(HANDLE, sizeof *follower);
    dgt_follower_make(follower);
    CHECK(dgt_follower_size() == sizeof *follower);
    model_follower_start(&model, 10000, 6);
    now = 0;
    look();
    while (input_is_left()) {
        uint8_t act = input_byte() % 20;
        using_bytes *use = act % 2 == 0 ? hear : hear_all;
        if (act < 4) use_chunk(use);
        else if (act < 6) hear_dump(use);
        else if (act < 9) ask(DGT_MAX_ASKING);
        else if (act == 9) ask(input_room(DGT_MAX_ASKING + 3));
        else if (act == 10) send_code(0, input_chunk);
        else if (act == 11) send_to_clock_or_leds(input_byte() % 4);
        else if (act == 12) pass_time();
        else if (act == 13) set_mode();
        else if (act == 14) start();
        else if (act == 15) lose_line();
        else if (act < 18) set_wish(input_byte() % 6);
        else wait_until_due();
        look();
    }
    return 0;
}
