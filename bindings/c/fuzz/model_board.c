#include "model.h"

#include <string.h>

/* ---- The parts of a board. */

static const dgt_identity simulated = {
    .serial = "00001",
    .main_number = 1,
    .sub_number = 3,
    .clock_version = 0x14,
    .trademark = {15, "SIMULATED BOARD"},
    .battery = {1, {0x64}},
    .long_serial = {10, "0000000001"},
};

void model_board_init(model_board *board) {
    static const char start[] = "rnbqkbnr/pppppppp/8/8/8/8/PPPPPPPP/RNBQKBNR";
    uint8_t pieces[64];
    model_parse_placement(start, sizeof start - 1, pieces);
    model_board_start(board, pieces, &(dgt_clock){.kind = DGT_CLOCK_TIMES}, &simulated);
}

void model_board_line_lost(model_board *board) {
    memcpy(board->reported, board->squares, 64);
    memset(&board->reported_clock, 0, sizeof board->reported_clock);
    board->mode = DGT_MODE_IDLE;
    board->owes_times = false;
    board->owed_n = 0;
    board->reader.n = 0;
}

static bool is_time(dgt_time time) {
    return time.hours <= 9 && time.minutes <= 59 && time.seconds <= 59 && time.flags <= 7;
}

static bool are_seven_bit(const uint8_t *bytes, size_t n) {
    for (size_t i = 0; i < n; i++)
        if (bytes[i] > 127) return false;
    return true;
}

static bool is_clock(const dgt_clock *clock) {
    bool is_absent = clock->status & DGT_STATUS_ABSENT;
    if (clock->status > 127) return false;
    if (clock->kind == DGT_CLOCK_TIMES)
        return !is_absent && is_time(clock->first) && is_time(clock->second);
    return clock->kind == DGT_CLOCK_NONE && is_absent && are_seven_bit(clock->raw, 6) &&
           (clock->raw[0] & 0x0f) != 0x0a && (clock->raw[3] & 0x0f) != 0x0a;
}

static bool is_body(const dgt_body *body) {
    return body->len <= DGT_MAX_KEPT && are_seven_bit(body->bytes, body->len);
}

static bool is_identity(const dgt_identity *identity) {
    for (size_t i = 0; i < sizeof identity->reserved; i++)
        if (identity->reserved[i] != 0) return false;
    return are_seven_bit(identity->serial, 5) && identity->main_number <= 127 &&
           identity->sub_number <= 127 && is_body(&identity->trademark) &&
           is_body(&identity->battery) && is_body(&identity->long_serial);
}

/* The members that its kind sets. The others are 0. */
static dgt_clock set_members(const dgt_clock *clock) {
    dgt_clock set = {.kind = clock->kind, .status = clock->status};
    if (clock->kind == DGT_CLOCK_TIMES) {
        set.first = clock->first;
        set.second = clock->second;
    } else {
        memcpy(set.raw, clock->raw, 6);
    }
    return set;
}

static bool are_pieces(const uint8_t pieces[64]) {
    for (size_t i = 0; i < 64; i++)
        if (pieces[i] > 15) return false;
    return true;
}

uint8_t model_board_start(model_board *board, const uint8_t pieces[64], const dgt_clock *clock,
                          const dgt_identity *identity) {
    if (!are_pieces(pieces)) return DGT_START_BAD_PIECES;
    if (!is_clock(clock)) return DGT_START_BAD_CLOCK;
    if (!is_identity(identity)) return DGT_START_BAD_IDENTITY;
    memcpy(board->squares, pieces, 64);
    board->clock = set_members(clock);
    board->identity = *identity;
    model_board_line_lost(board);
    return DGT_STARTED;
}

/* ---- What it hears. */

/* Whether the present clock was not yet reported. */
static bool is_news(const model_board *board) {
    return memcmp(&board->clock, &board->reported_clock, sizeof board->clock) != 0;
}

bool model_hand_clock(model_board *board, const dgt_clock *clock) {
    if (!is_clock(clock)) return false;
    board->clock = set_members(clock);
    board->owes_times = board->mode == DGT_MODE_UPDATE ||
                        (board->mode == DGT_MODE_UPDATE_NICE && is_news(board));
    return true;
}

static void set_mode(model_board *board, uint8_t mode) {
    bool has_times = mode == DGT_MODE_UPDATE || mode == DGT_MODE_UPDATE_NICE;
    board->mode = mode;
    board->owes_times = has_times && is_news(board);
}

static void owe(model_board *board, uint8_t code, uint8_t id) {
    uint8_t version = id == DGT_ID_VERSION ? board->identity.clock_version : 0;
    board->owed[board->owed_n++] = (model_reply){code, id, version};
}

static void obey(model_board *board, const dgt_command *command) {
    if (command->kind != DGT_COMMAND) return;
    switch (command->code) {
    case DGT_SEND_RESET: set_mode(board, DGT_MODE_IDLE); break;
    case DGT_SEND_UPDATE: set_mode(board, DGT_MODE_UPDATE); break;
    case DGT_SEND_UPDATE_BOARD: set_mode(board, DGT_MODE_UPDATE_BOARD); break;
    case DGT_SEND_UPDATE_NICE: set_mode(board, DGT_MODE_UPDATE_NICE); break;
    case DGT_SEND_LEDS: break;
    case DGT_SEND_CLOCK_MESSAGE:
        if (board->clock.kind != DGT_CLOCK_NONE) owe(board, command->code, command->id);
        break;
    default: owe(board, command->code, 0);
    }
}

dgt_taken model_take(model_board *board, const uint8_t *bytes, size_t n, dgt_command *command,
                     uint8_t word[DGT_MAX_WORD]) {
    memset(command, 0, sizeof *command);
    if (board->owed_n == DGT_MAX_OWED) return (dgt_taken){true, 0};
    size_t used = model_read(&board->reader, bytes, n, command, word);
    obey(board, command);
    return (dgt_taken){false, used};
}

/* ---- What it sends. */

static dgt_event said_clock(const model_board *board) {
    bool is_absent = board->clock.kind == DGT_CLOCK_NONE;
    return (dgt_event){.kind = is_absent ? DGT_EVENT_NO_CLOCK : DGT_EVENT_TIMES,
                       .clock = board->clock};
}

/* The first owed reply. An acknowledgement is 10, the id, the version or 0, and 00. */
static dgt_event said_reply(const model_board *board, const dgt_body **carried) {
    const model_reply *reply = &board->owed[0];
    const dgt_identity *own = &board->identity;
    dgt_event said = {.kind = DGT_EVENT_ACK, .ack = {0x10, reply->id, reply->version, 0}};
    said.main_number = own->main_number, said.sub_number = own->sub_number;
    memcpy(said.serial, own->serial, 5), memcpy(said.pieces, board->squares, 64);
    switch (reply->code) {
    case DGT_SEND_CLOCK: return said_clock(board);
    case DGT_SEND_DUMP: said.kind = DGT_EVENT_DUMP; break;
    case DGT_SEND_SERIAL: said.kind = DGT_EVENT_SERIAL; break;
    case DGT_SEND_VERSION: said.kind = DGT_EVENT_VERSION; break;
    case DGT_SEND_TRADEMARK: said.kind = DGT_EVENT_TRADEMARK, *carried = &own->trademark; break;
    case DGT_SEND_BATTERY: said.kind = DGT_EVENT_BATTERY, *carried = &own->battery; break;
    case DGT_SEND_LONG_SERIAL:
        said.kind = DGT_EVENT_LONG_SERIAL, *carried = &own->long_serial;
        break;
    default: break;
    }
    return said;
}

/* The first square to be reported, or 64. */
static uint8_t changed_square(const model_board *board) {
    uint8_t square = board->mode == DGT_MODE_IDLE ? 64 : 0;
    while (square < 64 && board->squares[square] == board->reported[square]) square++;
    return square;
}

size_t model_next(const model_board *board, uint8_t message[DGT_MAX_SENT]) {
    static const dgt_body none;
    const dgt_body *carried = &none;
    uint8_t square = changed_square(board);
    dgt_event said = {.kind = DGT_EVENT_NONE};
    if (board->owed_n > 0) said = said_reply(board, &carried);
    else if (square < 64)
        said.kind = DGT_EVENT_FIELD, said.square = square, said.piece = board->squares[square];
    else if (board->owes_times) said = said_clock(board);
    return model_encode(&said, carried->bytes, carried->len, message);
}

void model_sent(model_board *board, const uint8_t *message, size_t n) {
    bool is_reply = board->owed_n > 0;
    uint8_t code = is_reply ? board->owed[0].code : 0;
    if (is_reply) memmove(board->owed, board->owed + 1, --board->owed_n * sizeof *board->owed);
    if (code == DGT_SEND_DUMP) memcpy(board->reported, board->squares, 64);
    if (!is_reply && n == 5) board->reported[message[3]] = message[4];
    if (code == DGT_SEND_CLOCK || (!is_reply && n == 10)) {
        board->reported_clock = board->clock;
        board->owes_times = false;
    }
}
