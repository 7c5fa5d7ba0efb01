/* Messages and commands without a handle: any are encoded and viewed. */
#include "input.h"
#include "model.h"

#include <string.h>

static uint8_t right_bytes[DGT_MAX_BODY + 3];

/* ---- Messages. */

static dgt_time any_time(void) {
    uint8_t hours = input_byte(), minutes = input_byte(), seconds = input_byte();
    if (hours < 224) hours %= 10;
    if (minutes < 224) minutes %= 60;
    if (seconds < 224) seconds %= 60;
    return (dgt_time){hours, minutes, seconds, input_byte() % 9};
}

/* The clock of an event, mostly a valid one of its kind. */
static void write_clock(dgt_clock *clock, uint8_t kind) {
    uint8_t odd = input_byte();
    clock->kind = odd < 240 ? kind - DGT_EVENT_TIMES + DGT_CLOCK_TIMES : odd % 4;
    clock->status = input_byte() % (odd % 16 == 0 ? 256 : 128);
    if (odd % 8 > 0) {
        clock->status &= (uint8_t)~DGT_STATUS_ABSENT;
        if (kind == DGT_EVENT_NO_CLOCK) clock->status |= DGT_STATUS_ABSENT;
    }
    clock->first = any_time(), clock->second = any_time();
    if (kind == DGT_EVENT_NO_CLOCK)
        for (size_t i = 0; i < 6; i++) clock->raw[i] = input_byte() & (odd % 16 == 1 ? 0xff : 0x7f);
}

/* Numbers, mostly below `most`. */
static void write_numbers(uint8_t *numbers, size_t n, uint8_t most) {
    for (size_t i = 0; i < n; i++) {
        uint8_t each = input_byte();
        numbers[i] = each < 250 ? each % most : each;
    }
}

/* An event at the place EVENTS. Members that its kind doesn't set are random. */
static const dgt_event *any_event(void) {
    dgt_event *event = guarded(EVENTS, sizeof *event);
    event->kind = input_byte() % 18;
    write_numbers(&event->code, 1, 128);
    switch (event->kind) {
    case DGT_EVENT_DUMP: write_numbers(event->pieces, 64, 16); break;
    case DGT_EVENT_FIELD:
        write_numbers(&event->square, 1, 64), write_numbers(&event->piece, 1, 16);
        break;
    case DGT_EVENT_TIMES: case DGT_EVENT_NO_CLOCK: write_clock(&event->clock, event->kind); break;
    case DGT_EVENT_ACK:
        write_numbers(event->ack, 4, 255), write_numbers(&event->ack_status, 1, 128);
        break;
    case DGT_EVENT_SERIAL: write_numbers(event->serial, 5, 128); break;
    case DGT_EVENT_VERSION:
        write_numbers(&event->main_number, 1, 128), write_numbers(&event->sub_number, 1, 128);
        break;
    default: break;
    }
    return event;
}

/* A body at the place IN: mostly a short one of seven-bit bytes. */
static chunk any_body(void) {
    uint8_t how = input_byte();
    size_t n = how < 240 ? how % 80u : DGT_MAX_BODY - 8 + how % 16u;
    uint8_t *bytes = guarded(IN, n), mask = how % 16 == 0 ? 0xff : 0x7f;
    memset(bytes, input_byte() & mask, n);
    for (size_t i = 0; i < n && i < 7; i++) bytes[i] = input_byte() & mask;
    return (chunk){bytes, n};
}

static void encode_message(void) {
    const dgt_event *said = any_event();
    chunk body = any_body();
    size_t n = model_encode(said, body.bytes, body.n, right_bytes);
    size_t room = input_byte() % 2 == 0 ? n + input_byte() % 3 : input_room(DGT_MAX_BODY + 6);
    uint8_t *out = guarded(OUT, room);
    dgt_encoded encoded = dgt_encode_message(said, body.bytes, body.n, out, room);
    CHECK(encoded.bytes == n);
    CHECK(encoded.status == (n == 0 ? DGT_REFUSED : room < n ? DGT_NO_ROOM : DGT_DONE));
    check_written(out, room, right_bytes, encoded.status == DGT_DONE ? n : 0);
}

static void view_message(void) {
    static const uint8_t codes[] = {0x06, 0x0d, 0x0e, 0x11, 0x12, 0x13, 0x20, 0x22};
    uint8_t code = input_byte();
    if (code < 192) code = codes[code % 8];
    chunk body = any_body();
    dgt_event *event = guarded(EVENTS, sizeof *event), right;
    bool done = dgt_view_message(code, body.bytes, body.n, event);
    CHECK(done == model_view(code, body.bytes, body.n, &right));
    if (done) CHECK_SAME(event, &right);
    else check_kept(event, 0, sizeof *event);
}

/* ---- Commands. */

static void encode_command(void) {
    static const uint8_t codes[] = {DGT_SEND_CLOCK_MESSAGE, DGT_SEND_LEDS, DGT_SEND_DUMP};
    size_t room = input_room(DGT_MAX_WORD + 3), carried_n = input_byte();
    uint8_t code = input_byte(), id = input_byte(), *out = guarded(OUT, room);
    if (code >= 128) code = codes[code % 3];
    carried_n += id % 2u;
    uint8_t *carried = guarded(IN, carried_n);
    memset(carried, input_byte(), carried_n);
    model_sending right = {.n = 0};
    if (code == DGT_SEND_CLOCK_MESSAGE) right = model_clock_message(id, carried, carried_n);
    else if (code == DGT_SEND_LEDS) right = model_leds(carried, carried_n);
    else if (carried_n == 0) right = model_command(code);
    dgt_encoded encoded = dgt_encode_command(code, id, carried, carried_n, out, room);
    bool fits = right.n <= room;
    CHECK(encoded.bytes == right.n);
    CHECK(encoded.status == (right.n == 0 ? DGT_REFUSED : fits ? DGT_DONE : DGT_NO_ROOM));
    check_written(out, room, right.bytes, encoded.status == DGT_DONE ? right.n : 0);
}

static void view_command(void) {
    static model_reader reader;
    static uint8_t word[DGT_MAX_WORD];
    chunk given = input_chunk();
    dgt_command *command = guarded(EVENTS, sizeof *command), right;
    reader.n = 0;
    size_t used = model_read(&reader, given.bytes, given.n, &right, word);
    bool is_command = right.kind == DGT_COMMAND && used == given.n;
    CHECK(dgt_view_command(given.bytes, given.n, command) == is_command);
    if (is_command) CHECK_SAME(command, &right);
    else check_kept(command, 0, sizeof *command);
    check_same_chunk(given);
}

int LLVMFuzzerTestOneInput(const uint8_t *data, size_t n) {
    input_begin(data, n);
    while (input_is_left()) {
        uint8_t act = input_byte() % 8;
        if (act < 3) encode_message();
        else if (act < 5) view_message();
        else if (act == 5) encode_command();
        else view_command();
    }
    return 0;
}
