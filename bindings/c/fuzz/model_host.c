#include "model.h"

#include <string.h>

void model_host_init(model_host *host) { memset(host, 0, sizeof *host); }

/* The code of the command that such a message answers if its reply is awaited, or 0. */
static uint8_t question_of(const dgt_event *event) {
    switch (event->kind) {
    case DGT_EVENT_DUMP: return DGT_SEND_DUMP;
    case DGT_EVENT_SERIAL: return DGT_SEND_SERIAL;
    case DGT_EVENT_TRADEMARK: return DGT_SEND_TRADEMARK;
    case DGT_EVENT_VERSION: return DGT_SEND_VERSION;
    case DGT_EVENT_BATTERY: return DGT_SEND_BATTERY;
    case DGT_EVENT_LONG_SERIAL: return DGT_SEND_LONG_SERIAL;
    default: return 0;
    }
}

static void note(model_host *host, const dgt_event *event) {
    switch (event->kind) {
    case DGT_EVENT_DUMP:
        host->knows_picture = true;
        memcpy(host->picture, event->pieces, 64);
        break;
    case DGT_EVENT_FIELD:
        if (host->knows_picture) host->picture[event->square] = event->piece;
        break;
    case DGT_EVENT_TIMES:
    case DGT_EVENT_NO_CLOCK: host->clock = event->clock; break;
    default: break;
    }
}

size_t model_hear(model_host *host, const uint8_t *bytes, size_t n, dgt_event *event,
                  uint8_t body[DGT_MAX_BODY]) {
    size_t used = model_feed(&host->decoder, bytes, n, event, body);
    uint8_t code = question_of(event);
    note(host, event);
    if (code == 0) return used;
    if (host->awaited_n > 0 && host->awaited[0] == code)
        memmove(host->awaited, host->awaited + 1, --host->awaited_n);
    else
        event->unasked = 1;
    return used;
}

model_sending model_command(uint8_t code) {
    model_sending sending = {.bytes = {code}, .n = 1};
    switch (code) {
    case DGT_SEND_DUMP: case DGT_SEND_SERIAL: case DGT_SEND_TRADEMARK: case DGT_SEND_BATTERY:
    case DGT_SEND_VERSION: case DGT_SEND_LONG_SERIAL: sending.asks_for = code; break;
    case DGT_SEND_RESET: case DGT_SEND_CLOCK: case DGT_SEND_UPDATE: case DGT_SEND_UPDATE_BOARD:
    case DGT_SEND_UPDATE_NICE: break;
    default: sending.n = 0;
    }
    return sending;
}

model_sending model_clock_message(uint8_t id, const uint8_t *payload, size_t n) {
    model_sending sending = {.n = 0};
    if (n > DGT_MAX_PAYLOAD) return sending;
    sending = (model_sending){.bytes = {0x2b, (uint8_t)(n + 3), 0x03, id}, .n = n + 5};
    memcpy(sending.bytes + 4, payload, n);
    return sending;
}

model_sending model_leds(const uint8_t *leds, size_t n) {
    model_sending sending = {.n = 0};
    if (n > DGT_MAX_LEDS) return sending;
    sending = (model_sending){.bytes = {0x60, (uint8_t)n}, .n = n + 2};
    memcpy(sending.bytes + 2, leds, n);
    return sending;
}

model_sending model_follow(size_t zeros) {
    model_sending sending = {.n = zeros + 2, .asks_for = DGT_SEND_DUMP};
    sending.bytes[zeros] = DGT_SEND_UPDATE_BOARD;
    sending.bytes[zeros + 1] = DGT_SEND_DUMP;
    return sending;
}

dgt_sent model_send(model_host *host, const model_sending *sending, size_t room) {
    if (sending->n == 0) return (dgt_sent){DGT_REFUSED, 0};
    if (sending->asks_for != 0 && host->awaited_n == DGT_MAX_AWAITED)
        return (dgt_sent){DGT_TOO_MANY_AWAITED, 0};
    if (room < sending->n) return (dgt_sent){DGT_NO_ROOM, sending->n};
    if (sending->asks_for != 0) host->awaited[host->awaited_n++] = sending->asks_for;
    return (dgt_sent){DGT_DONE, sending->n};
}
