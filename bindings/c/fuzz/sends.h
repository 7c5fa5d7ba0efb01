/* What both a host and a follower send, and know of a board. A file that includes this defines
 * SEND(name, ..), the call of this name, MODEL, the model of the host, and SENT(sending), what the
 * sender makes of it. */

static void check_board(const model_host *right, const dgt_clock *right_clock) {
    size_t known = right->knows_picture ? 1 : 0;
    uint8_t *picture = guarded(LOOK, 64);
    CHECK(SEND(picture, picture) == right->knows_picture);
    check_written(picture, 64, right->picture, 64 * known);

    char *text = guarded(LOOK, DGT_PLACEMENT_ROOM), right_text[DGT_PLACEMENT_ROOM] = "";
    if (known) model_placement(right->picture, right_text);
    CHECK(SEND(placement, text) == right->knows_picture);
    check_written(text, DGT_PLACEMENT_ROOM, right_text, (strlen(right_text) + 1) * known);

    dgt_clock *clock = guarded(LOOK, sizeof *clock);
    SEND(clock, clock);
    CHECK_SAME(clock, right_clock);
}

static void check_sent(dgt_sent sent, dgt_sent right, const uint8_t *out, size_t room,
                       const model_sending *sending) {
    CHECK(sent.status == right.status && sent.bytes == right.bytes);
    check_written(out, room, sending->bytes, sent.status == DGT_DONE ? sent.bytes : 0);
}

static dgt_sent send_by_meaning(const model_clock_call *it, uint8_t *out, size_t n) {
    switch (it->id) {
    case DGT_ID_DISPLAY: return SEND(send_display, it->text, it->one, it->other, out, n);
    case DGT_ID_ICONS: return SEND(send_icons, it->icons, it->icons_n, out, n);
    case DGT_ID_END: return SEND(send_end, out, n);
    case DGT_ID_BUTTON: return SEND(send_button, out, n);
    case DGT_ID_VERSION: return SEND(send_clock_version, out, n);
    case DGT_ID_SET_AND_RUN:
        return SEND(send_set_and_run, it->left, it->right, it->one, out, n);
    case DGT_ID_BEEP: return SEND(send_beep, it->one, out, n);
    default: return SEND(send_text, it->text, it->one, out, n);
    }
}

static void send_clock_call(void) {
    size_t room = input_room(DGT_MAX_WORD + 4);
    uint8_t *out = guarded(OUT, room);
    model_clock_call call = any_clock_call();
    model_sending sending = SENT(model_called(&call));
    dgt_sent sent = send_by_meaning(&call, out, room);
    check_sent(sent, model_send(MODEL, &sending, room), out, room, &sending);
}

/* A command of one byte, a clock message, or an LED frame. */
static void send_code(uint8_t how, chunk (*any_payload)(void)) {
    size_t room = input_room(DGT_MAX_WORD + 4);
    uint8_t *out = guarded(OUT, room), code = input_byte();
    chunk payload = any_payload();
    model_sending sending = model_command(code);
    dgt_sent sent;
    if (how == 0) {
        sent = SEND(send, code, out, room);
    } else if (how == 1) {
        sending = model_clock_message(code, payload.bytes, payload.n);
        sent = SEND(send_clock, code, payload.bytes, payload.n, out, room);
    } else {
        sending = model_leds(payload.bytes, payload.n);
        sent = SEND(send_leds, payload.bytes, payload.n, out, room);
    }
    sending = SENT(sending);
    check_sent(sent, model_send(MODEL, &sending, room), out, room, &sending);
}
