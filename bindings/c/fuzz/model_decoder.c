#include "model.h"

#include <string.h>

enum { DUMP = 0x06, CLOCK = 0x0d, FIELD = 0x0e, SERIAL = 0x11, TRADEMARK = 0x12, VERSION = 0x13,
       BATTERY = 0x20, LONG_SERIAL = 0x22 };

/* The size of the body that a code fixes, or 0. */
static size_t size_of(uint8_t code) {
    switch (code) {
    case DUMP: return 64;
    case CLOCK: return 7;
    case FIELD: return 2;
    case SERIAL: return 5;
    case VERSION: return 2;
    default: return 0;
    }
}

static void refuse(dgt_event *event, uint8_t code, uint8_t fault, size_t at) {
    event->kind = DGT_EVENT_REFUSED;
    event->code = code;
    event->fault = fault;
    event->at = at;
}

static void read_dump(const uint8_t *body, dgt_event *event) {
    for (size_t at = 0; at < 64; at++)
        if (body[at] > 15) {
            refuse(event, DUMP, DGT_BAD_PIECE, at);
            return;
        }
    event->kind = DGT_EVENT_DUMP;
    memcpy(event->pieces, body, 64);
}

static void read_field(const uint8_t *body, dgt_event *event) {
    if (body[0] > 63) {
        refuse(event, FIELD, DGT_BAD_SQUARE, 0);
    } else if (body[1] > 15) {
        refuse(event, FIELD, DGT_BAD_PIECE, 1);
    } else {
        event->kind = DGT_EVENT_FIELD;
        event->square = body[0];
        event->piece = body[1];
    }
}

/* The offset of the first of the six bytes of both times with an invalid digit, or 6. */
static size_t bad_digit(const uint8_t *body) {
    size_t at = 0;
    for (; at < 6; at++) {
        bool is_hours = at % 3 == 0;
        if ((body[at] & 0x0f) > 9 || (!is_hours && body[at] >> 4 > 5)) break;
    }
    return at;
}

static uint8_t from_decimal(uint8_t packed) {
    return (uint8_t)((packed >> 4) * 10 + (packed & 0x0f));
}

static dgt_time time_of(const uint8_t *body) {
    return (dgt_time){body[0] & 0x0f, from_decimal(body[1]), from_decimal(body[2]), body[0] >> 4};
}

static void read_times(const uint8_t *body, dgt_event *event) {
    size_t at = bad_digit(body);
    if (at < 6) {
        refuse(event, CLOCK, DGT_BAD_READING, at);
        return;
    }
    event->kind = DGT_EVENT_TIMES;
    event->clock.kind = DGT_CLOCK_TIMES;
    event->clock.status = body[6];
    event->clock.first = time_of(body);
    event->clock.second = time_of(body + 3);
}

static void read_acknowledgement(const uint8_t *body, dgt_event *event) {
    event->kind = DGT_EVENT_ACK;
    event->ack[0] = (uint8_t)(body[1] | ((body[3] << 3) & 0x80));
    event->ack[1] = (uint8_t)(body[2] | ((body[3] << 2) & 0x80));
    event->ack[2] = (uint8_t)(body[4] | ((body[0] << 3) & 0x80));
    event->ack[3] = (uint8_t)(body[5] | ((body[0] << 2) & 0x80));
    event->ack_status = body[6];
}

static void read_clock(const uint8_t *body, dgt_event *event) {
    if ((body[0] & 0x0f) == 0x0a || (body[3] & 0x0f) == 0x0a) {
        read_acknowledgement(body, event);
    } else if (body[6] & DGT_STATUS_ABSENT) {
        event->kind = DGT_EVENT_NO_CLOCK;
        event->clock.kind = DGT_CLOCK_NONE;
        event->clock.status = body[6];
        memcpy(event->clock.raw, body, 6);
    } else {
        read_times(body, event);
    }
}

/* A message that is carried unread. */
static void read_other(uint8_t code, size_t n, dgt_event *event) {
    switch (code) {
    case TRADEMARK: event->kind = DGT_EVENT_TRADEMARK; break;
    case BATTERY: event->kind = DGT_EVENT_BATTERY; break;
    case LONG_SERIAL: event->kind = DGT_EVENT_LONG_SERIAL; break;
    default: event->kind = DGT_EVENT_OTHER;
    }
    event->code = code;
    event->body_len = n;
}

static void read_message(uint8_t code, const uint8_t *body, size_t n, dgt_event *event) {
    if (size_of(code) > 0 && size_of(code) != n) {
        refuse(event, code, DGT_WRONG_SIZE, 0);
        return;
    }
    switch (code) {
    case DUMP: read_dump(body, event); break;
    case FIELD: read_field(body, event); break;
    case CLOCK: read_clock(body, event); break;
    case SERIAL:
        event->kind = DGT_EVENT_SERIAL;
        memcpy(event->serial, body, 5);
        break;
    case VERSION:
        event->kind = DGT_EVENT_VERSION;
        event->main_number = body[0];
        event->sub_number = body[1];
        break;
    default: read_other(code, n, event);
    }
}

/* Adds a byte with a clear top bit to a message. */
static void add(model_decoder *decoder, uint8_t byte, dgt_event *event, uint8_t *body) {
    uint8_t *open = decoder->open;
    open[decoder->n++] = byte;
    if (decoder->n < 3) return;
    size_t total = 128u * open[1] + open[2];
    if (total >= 3 && decoder->n < total) return;
    decoder->n = 0;
    if (total < 3) {
        event->kind = DGT_EVENT_BAD_LENGTH;
        return;
    }
    read_message(open[0] & 0x7f, open + 3, total - 3, event);
    memcpy(body, open + 3, total - 3);
}

size_t model_feed(model_decoder *decoder, const uint8_t *bytes, size_t n, dgt_event *event,
                  uint8_t body[DGT_MAX_BODY]) {
    size_t used = 0;
    memset(event, 0, sizeof *event);
    while (used < n && event->kind == DGT_EVENT_NONE) {
        uint8_t byte = bytes[used++];
        if (byte & 0x80) {
            event->have = decoder->n;
            event->kind = decoder->n > 0 ? DGT_EVENT_CUT : DGT_EVENT_NONE;
            decoder->open[0] = byte;
            decoder->n = 1;
        } else if (decoder->n == 0) {
            event->kind = DGT_EVENT_STRAY;
            event->byte = byte;
        } else {
            add(decoder, byte, event, body);
        }
    }
    if (event->kind != DGT_EVENT_NONE) event->place = used;
    return used;
}
