#include "model.h"

#include <string.h>

/* Whether a message may have this code and this body: then a new decoder reads it. */
static bool read_whole(uint8_t code, const uint8_t *body, size_t n, dgt_event *event) {
    static model_decoder decoder;
    static uint8_t read[DGT_MAX_BODY];
    if (code > 127 || n > DGT_MAX_BODY) return false;
    for (size_t i = 0; i < n; i++)
        if (body[i] > 127) return false;
    const uint8_t header[] = {code | 0x80, (uint8_t)((n + 3) / 128), (n + 3) % 128};
    decoder.n = 0;
    model_feed(&decoder, header, 3, event, read);
    if (n > 0) model_feed(&decoder, body, n, event, read);
    return true;
}

bool model_view(uint8_t code, const uint8_t *body, size_t body_len, dgt_event *event) {
    bool done = read_whole(code, body, body_len, event);
    event->place = 0;
    return done;
}

/* Two digits in one byte, or a byte that occurs in no body. */
static uint8_t to_decimal(uint8_t number) {
    return number > 99 ? 0xff : (uint8_t)(number / 10 << 4 | number % 10);
}

static void write_time(dgt_time time, uint8_t *body) {
    bool fits = time.hours < 16 && time.flags < 8;
    body[0] = fits ? (uint8_t)(time.hours | time.flags << 4) : 0xff;
    body[1] = to_decimal(time.minutes);
    body[2] = to_decimal(time.seconds);
}

static void write_acknowledgement(const dgt_event *said, uint8_t *body) {
    const uint8_t *ack = said->ack;
    body[0] = (uint8_t)(0x0a | (ack[2] >> 7) << 4 | (ack[3] >> 7) << 5);
    body[1] = ack[0] & 0x7f, body[2] = ack[1] & 0x7f;
    body[3] = (uint8_t)(0x0a | (ack[0] >> 7) << 4 | (ack[1] >> 7) << 5);
    body[4] = ack[2] & 0x7f, body[5] = ack[3] & 0x7f;
    body[6] = said->ack_status;
}

/* The code of the message and, if its body isn't carried, the body's size and bytes. */
static uint8_t write_body(const dgt_event *said, uint8_t *body, size_t *n) {
    switch (said->kind) {
    case DGT_EVENT_DUMP: memcpy(body, said->pieces, *n = 64); return 0x06;
    case DGT_EVENT_FIELD: body[0] = said->square, body[1] = said->piece, *n = 2; return 0x0e;
    case DGT_EVENT_TIMES:
        write_time(said->clock.first, body), write_time(said->clock.second, body + 3);
        body[6] = said->clock.status, *n = 7;
        return 0x0d;
    case DGT_EVENT_NO_CLOCK:
        memcpy(body, said->clock.raw, 6), body[6] = said->clock.status, *n = 7;
        return 0x0d;
    case DGT_EVENT_ACK: write_acknowledgement(said, body), *n = 7; return 0x0d;
    case DGT_EVENT_SERIAL: memcpy(body, said->serial, *n = 5); return 0x11;
    case DGT_EVENT_VERSION:
        body[0] = said->main_number, body[1] = said->sub_number, *n = 2;
        return 0x13;
    case DGT_EVENT_TRADEMARK: return 0x12;
    case DGT_EVENT_BATTERY: return 0x20;
    case DGT_EVENT_LONG_SERIAL: return 0x22;
    default: return said->code;
    }
}

static bool is_message(uint8_t kind) {
    return kind >= DGT_EVENT_DUMP && kind <= DGT_EVENT_OTHER;
}

/* Whether the clock of the event is one that its kind of message carries. */
static bool is_right_clock(const dgt_event *said) {
    if (said->kind == DGT_EVENT_TIMES) return said->clock.kind == DGT_CLOCK_TIMES;
    return said->kind != DGT_EVENT_NO_CLOCK || said->clock.kind == DGT_CLOCK_NONE;
}

size_t model_encode(const dgt_event *said, const uint8_t *body, size_t body_len,
                    uint8_t *bytes) {
    uint8_t own[64];
    size_t n = SIZE_MAX; /* until the body is of the message itself */
    dgt_event read;
    if (!is_message(said->kind) || !is_right_clock(said)) return 0;
    uint8_t code = write_body(said, own, &n);
    if (n != SIZE_MAX) body = own, body_len = n;
    /* A value out of range is read as another message, or refused. */
    if (!read_whole(code, body, body_len, &read) || read.kind != said->kind) return 0;
    bytes[0] = code | 0x80;
    bytes[1] = (uint8_t)((body_len + 3) / 128);
    bytes[2] = (body_len + 3) % 128;
    if (body_len > 0) memcpy(bytes + 3, body, body_len);
    return body_len + 3;
}
