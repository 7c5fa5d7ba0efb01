#include "model.h"

#include <string.h>

/* The number of two packed digits, or 255. */
static uint8_t unpacked(uint8_t byte) {
    return byte % 16 > 9 || byte / 16 > 9 ? 255 : (uint8_t)(byte / 16 * 10 + byte % 16);
}

static bool is_mark(uint8_t byte) {
    return byte == 0 || (byte >= 0x6a && byte <= 0x6f) || (byte >= 0x7a && byte <= 0x7c) ||
           byte == 0x7f;
}

size_t model_stored_first(const uint8_t *body, size_t n, dgt_stored *stored) {
    memset(stored, 0, sizeof *stored);
    if (n == 0) return 0;
    uint8_t high = body[0] / 16, low = body[0] % 16;
    if ((high == 4 || high == 5) && n >= 2 && body[1] <= 63) {
        stored->kind = DGT_STORED_PIECE;
        stored->square = body[1], stored->piece = low, stored->bit = high - 4;
        return 2;
    }
    if ((high == 6 || high == 7) && low <= 9 && n >= 3 && unpacked(body[1]) < 60 &&
        unpacked(body[2]) < 60) {
        stored->kind = DGT_STORED_TIME;
        stored->time = (dgt_time){low, unpacked(body[1]), unpacked(body[2]), high};
        return 3;
    }
    stored->kind = is_mark(body[0]) ? DGT_STORED_MARK : DGT_STORED_UNKNOWN;
    stored->byte = body[0];
    return 1;
}

bool model_signal_of(const uint8_t ack[4], dgt_signal *signal) {
    static const char done[] = "\x01\x02\x03\x08\x0a\x0b\x0c";
    memset(signal, 0, sizeof *signal);
    if (ack[0] != 0x10) return false;
    bool is_off = ack[3] == DGT_BUTTON_OK && (ack[2] & 0x44) == 0x44;
    if ((ack[1] & 0x7f) == 0x08 && ack[3] >= DGT_BUTTON_BACK && ack[3] <= DGT_BUTTON_OK) {
        signal->kind = is_off ? DGT_SIGNAL_OFF : DGT_SIGNAL_PRESSED;
        signal->button = is_off ? 0 : ack[3];
    } else if (ack[1] == 0x09) {
        signal->kind = DGT_SIGNAL_VERSION;
        signal->main_number = ack[2] / 16, signal->sub_number = ack[2] % 16;
    } else if (ack[1] == 0x81) {
        signal->kind = DGT_SIGNAL_READY;
    } else if (ack[1] > 0 && strchr(done, (char)ack[1])) {
        signal->kind = DGT_SIGNAL_DONE, signal->id = ack[1];
    }
    return signal->kind != 0;
}

bool model_battery_of(const uint8_t *body, size_t n, dgt_battery *battery) {
    memset(battery, 0, sizeof *battery);
    if (n != 9) return false;
    memcpy(battery, body, 8);
    battery->charging = body[8] & 1, battery->discharging = body[8] >> 1 & 1;
    return true;
}

bool model_is_text(const uint8_t *bytes, size_t n) {
    for (size_t i = 0; i < n; i++)
        if (bytes[i] < ' ' || bytes[i] > '~') return false;
    return n > 0;
}
