/* What a board has stored, and the meaning of bytes that messages carry. */
#include "input.h"
#include "model.h"

/* Reads a body to its end. */
static void read_stored(const uint8_t *body, size_t n) {
    for (size_t at = 0; at <= n;) {
        dgt_stored *stored = guarded(LOOK, sizeof *stored), right;
        size_t used = model_stored_first(body + at, n - at, &right);
        CHECK(dgt_stored_first(body + at, n - at, stored) == used);
        check_written(stored, sizeof *stored, &right, used > 0 ? sizeof right : 0);
        at += used > 0 ? used : 1;
    }
}

static void name_body(size_t n) {
    uint8_t *body = guarded(IN, n);
    for (size_t i = 0; i < n; i++) body[i] = input_byte();
    dgt_battery *battery = guarded(EVENTS, sizeof *battery), right;
    bool is_known = model_battery_of(body, n, &right);
    CHECK(dgt_battery_of(body, n, battery) == is_known);
    check_written(battery, sizeof *battery, &right, is_known ? sizeof right : 0);
    CHECK(dgt_is_text(body, n) == model_is_text(body, n));
    read_stored(body, n);
}

/* Mostly of a clock that executed a message, with a button. */
static void name_ack(uint8_t odd) {
    uint8_t *ack = guarded(IN, 4);
    ack[0] = odd < 16 ? input_byte() : 0x10;
    ack[1] = odd % 4 == 0 ? input_byte() : odd % 4 == 1 ? 0x88 : input_byte() % 16;
    ack[2] = input_byte();
    ack[3] = odd % 8 == 3 ? input_byte() : 0x30 + input_byte() % 8;
    dgt_signal *signal = guarded(LOOK, sizeof *signal), right;
    bool is_known = model_signal_of(ack, &right);
    CHECK(dgt_signal_of(ack, signal) == is_known);
    check_written(signal, sizeof *signal, &right, is_known ? sizeof right : 0);
}

int LLVMFuzzerTestOneInput(const uint8_t *data, size_t n) {
    input_begin(data, n);
    while (input_is_left()) {
        uint8_t act = input_byte();
        if (act % 4 == 3) {
            name_ack(act / 4);
        } else {
            name_body(act % 4 == 0 ? 9 : act / 4);
        }
    }
    return 0;
}
