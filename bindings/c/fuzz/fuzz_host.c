/* A host, which hears any bytes in any chunks, and sends any commands. */
#include "input.h"
#include "model.h"

#include <string.h>

static dgt_host *host;
static model_host model;

#define SEND(name, ...) dgt_host_##name(host, __VA_ARGS__)
#define MODEL &model
#define SENT(sending) (sending)
#include "sends.h"

/* ---- What it hears. */

#define IT host
#define HEAR dgt_host_hear
#define HEAR_MANY dgt_host_hear_many
#define MODEL_HEAR model_hear
#define UNREAD dgt_host_unread
#define MODEL_UNREAD model.decoder.n
#include "hears.h"

/* ---- What it sends. */

/* Many equal bytes, at the place IN. */
static chunk any_payload(void) {
    size_t n = input_byte();
    n += input_byte() % 3;
    uint8_t *bytes = guarded(IN, n);
    memset(bytes, input_byte(), n);
    return (chunk){bytes, n};
}

static void send_follow(bool is_restart) {
    size_t room = input_room(DGT_MAX_WORD + 3);
    uint8_t *out = guarded(OUT, room);
    model_sending sending = model_follow(is_restart ? DGT_RESTART_LENGTH - 2 : 0);
    dgt_sent sent = is_restart ? SEND(restart, out, room) : SEND(follow, out, room);
    check_sent(sent, model_send(&model, &sending, room), out, room, &sending);
}

/* ---- Its state. */

static void look(void) {
    check_board(&model, &model.clock);
    uint8_t *codes = guarded(LOOK, DGT_MAX_AWAITED);
    CHECK(dgt_host_awaited(host, codes) == model.awaited_n);
    check_written(codes, DGT_MAX_AWAITED, model.awaited, model.awaited_n);
    CHECK(dgt_host_unread(host) == model.decoder.n);
}

int LLVMFuzzerTestOneInput(const uint8_t *data, size_t n) {
    input_begin(data, n);
    host = guarded(HANDLE, sizeof *host);
    CHECK(dgt_host_init(host));
    model_host_init(&model);
    while (input_is_left()) {
        uint8_t act = input_byte() % 16;
        if (act < 8) {
            use_chunk(act % 2 == 0 ? hear : hear_many);
        } else if (act < 11) {
            send_code(act - 8, any_payload);
        } else if (act < 13) {
            send_follow(act == 12);
        } else if (act == 13) {
            send_clock_call();
        } else if (act == 14) {
            CHECK(dgt_host_give_up_awaited(host) == model.awaited_n);
            model.awaited_n = 0;
        } else {
            dgt_host_line_lost(host);
            model_host_init(&model);
        }
        look();
    }
    return 0;
}
