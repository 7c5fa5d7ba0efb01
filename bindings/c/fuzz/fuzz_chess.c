/* The rules of chess. There is no model: what the calls say has to agree. */
#include "input.h"

#include <string.h>

static dgt_chess_state state; /* mostly one of a game */

static dgt_chess_state *given(void) {
    return memcpy(guarded(IN, sizeof state), &state, sizeof state);
}

/* No call makes anything of a struct that isn't a state of a game. */
static void check_refused(uint8_t why) {
    dgt_chess_state *said = given(), start;
    dgt_chess_move none = {52, 36, 0, 0}, *move = guarded(LOOK, sizeof *move);
    uint64_t *goals = guarded(BODY, 64 * sizeof *goals);
    char *text = guarded(OUT, DGT_CHESS_FEN_ROOM);
    dgt_chess_start(&start);
    CHECK(why <= DGT_CHESS_BAD_MEMBER && !dgt_chess_goals(said, goals));
    CHECK(!dgt_chess_is_legal(said, &none) && !dgt_chess_move_to(said, start.pieces, move));
    CHECK(!dgt_chess_play(said, &none) && !dgt_chess_san(said, &none, text));
    CHECK(!dgt_chess_can_move(said) && !dgt_chess_is_check(said) && !dgt_chess_is_dead(said));
    CHECK(!dgt_chess_is_mate(said) && !dgt_chess_is_stalemate(said));
    CHECK(!dgt_chess_is_fifty_moves(said) && !dgt_chess_is_seventy_five_moves(said));
    CHECK(!dgt_chess_is_repeated(said, &start) && !dgt_chess_is_repeated(&start, said));
    CHECK(!dgt_chess_fen(said, text));
    CHECK(dgt_chess_parse_san(said, "e4", 2, move) == why);
    CHECK(dgt_chess_parse_san_leniently(said, "e4", 2, move) == why);
    check_kept(goals, 0, 64 * sizeof *goals);
    check_kept(text, 0, DGT_CHESS_FEN_ROOM);
    check_kept(move, 0, sizeof *move);
    CHECK_SAME(said, &state);
}

/* The FEN reads back as the state, without a passed square that nothing captures on. */
static void check_fen(const dgt_chess_state *said, const uint64_t goals[64]) {
    char *text = guarded(OUT, DGT_CHESS_FEN_ROOM);
    dgt_chess_state *again = guarded(EVENTS, sizeof *again);
    uint64_t *others = guarded(BODY, 64 * sizeof *others);
    CHECK(dgt_chess_fen(said, text));
    size_t n = strlen(text);
    check_kept(text, n + 1, DGT_CHESS_FEN_ROOM);
    CHECK(dgt_chess_parse_fen(text, n, again).status == DGT_CHESS_DONE);
    CHECK(dgt_chess_goals(again, others) && memcmp(others, goals, 64 * sizeof *goals) == 0);
    if (again->passed == DGT_NO_SUCH) again->passed = said->passed;
    CHECK_SAME(again, said);
}

/* A legal move leads to a state, and is found by its pieces and its text. */
static void check_move(const dgt_chess_state *before, dgt_chess_move made) {
    dgt_chess_state *after = guarded(HANDLE, sizeof *after);
    dgt_chess_move *found = guarded(LOOK, sizeof *found);
    char *text = guarded(OUT, DGT_CHESS_SAN_ROOM);
    *after = *before;
    CHECK(dgt_chess_is_legal(before, &made) && dgt_chess_play(after, &made));
    CHECK(dgt_chess_check(after) == DGT_CHESS_DONE && after->turn != before->turn);
    CHECK(dgt_chess_move_to(before, after->pieces, found));
    CHECK_SAME(found, &made);
    CHECK(dgt_chess_san(before, &made, text));
    size_t n = strlen(text);
    check_kept(text, n + 1, DGT_CHESS_SAN_ROOM);
    memset(found, FILL, sizeof *found);
    CHECK(dgt_chess_parse_san(before, text, n, found) == DGT_CHESS_DONE);
    CHECK_SAME(found, &made);
    memset(found, FILL, sizeof *found);
    CHECK(dgt_chess_parse_san_leniently(before, text, n, found) == DGT_CHESS_DONE);
    CHECK_SAME(found, &made);
}

/* No call makes anything of a move that isn't legal. */
static void check_illegal(const dgt_chess_state *before, dgt_chess_move made) {
    dgt_chess_state *after = guarded(HANDLE, sizeof *after);
    char *text = guarded(OUT, DGT_CHESS_SAN_ROOM);
    *after = *before;
    CHECK(!dgt_chess_is_legal(before, &made) && !dgt_chess_play(after, &made));
    CHECK_SAME(after, before);
    CHECK(!dgt_chess_san(before, &made, text));
    check_kept(text, 0, DGT_CHESS_SAN_ROOM);
}

/* Checks all moves of the state, and others, and makes one that the input chooses. */
static void play(void) {
    const dgt_chess_state *before = given();
    uint64_t goals[64];
    dgt_chess_move chosen = {0}, other = {0};
    uint8_t choice = input_byte();
    size_t count = 0;
    CHECK(dgt_chess_goals(before, goals));
    for (int number = 0; number < 64 * 64; number++) {
        dgt_chess_move made = {(uint8_t)(number / 64), (uint8_t)(number % 64), 0, 0};
        bool is_goal = goals[made.from] >> made.to & 1;
        if (!is_goal && number % 64 != choice % 64) continue;
        bool promotes = is_goal && !dgt_chess_is_legal(before, &made);
        for (uint8_t man = promotes ? 1 : 0; man <= (promotes ? 6 : 0); man++) {
            made.promotion = man;
            bool is_man = promotes ? man != 1 && man != 5 : is_goal;
            CHECK(dgt_chess_is_legal(before, &made) == is_man);
            if (is_man) check_move(before, made);
            else if (made.from <= choice / 4) other = made;
            if (is_man && (count++ == 0 || count <= choice)) chosen = made;
        }
    }
    check_illegal(before, other);
    other = chosen, other.promotion = chosen.promotion > 0 ? 7 : 1 + choice % 7;
    check_illegal(before, other);
    dgt_chess_move *none = guarded(LOOK, sizeof *none);
    CHECK(!dgt_chess_move_to(before, before->pieces, none));
    check_kept(none, 0, sizeof *none);
    bool is_check = dgt_chess_is_check(before);
    CHECK(dgt_chess_can_move(before) == (count > 0));
    CHECK(dgt_chess_is_mate(before) == (is_check && count == 0));
    CHECK(dgt_chess_is_stalemate(before) == (!is_check && count == 0));
    CHECK(dgt_chess_is_fifty_moves(before) == (before->half_moves >= 100));
    CHECK(dgt_chess_is_seventy_five_moves(before) == (before->half_moves >= 150));
    CHECK(dgt_chess_is_repeated(before, before));
    check_fen(before, goals);
    if (count > 0) CHECK(dgt_chess_play(&state, &chosen));
    else dgt_chess_start(&state);
}

/* Reads the state's FEN, with some other bytes. */
static void read_fen(void) {
    char fen[DGT_CHESS_FEN_ROOM], *text;
    CHECK(dgt_chess_fen(&state, fen));
    size_t n = input_byte() % 4 ? strlen(fen) : input_byte() % sizeof fen;
    text = memcpy(guarded(OUT, n), fen, n);
    for (uint8_t left = input_byte() % 4; left > 0 && n > 0; left--) {
        size_t at = input_byte() % n;
        text[at] = (char)input_byte();
    }
    dgt_chess_state *read = guarded(HANDLE, sizeof *read);
    dgt_chess_fen_read said = dgt_chess_parse_fen(text, n, read);
    if (said.status == DGT_CHESS_DONE) state = *read;
    else check_kept(read, 0, sizeof *read);
    CHECK(said.status == DGT_CHESS_BAD_TEXT ? said.at <= n && said.field <= 5
                                            : said.at == 0 && said.field == 0);
    CHECK(said.status != DGT_CHESS_DONE || dgt_chess_check(&state) == DGT_CHESS_DONE);
}

/* Reads a text, mostly of the letters of moves. */
static void read_san(void) {
    static const char letters[] = "abcdefgh12345678NBRQKOx=+#-0\xff";
    dgt_chess_move *strict = guarded(LOOK, sizeof *strict);
    dgt_chess_move *lenient = guarded(BODY, sizeof *lenient);
    size_t n = input_byte() % 10;
    char *text = guarded(OUT, n);
    for (size_t each = 0; each < n; each++)
        text[each] = letters[input_byte() % (sizeof letters - 1)];
    uint8_t said = dgt_chess_parse_san(&state, text, n, strict);
    uint8_t other = dgt_chess_parse_san_leniently(&state, text, n, lenient);
    CHECK(said == DGT_CHESS_DONE || said == DGT_CHESS_BAD_TEXT || said == DGT_CHESS_NO_MOVE);
    CHECK((said == DGT_CHESS_BAD_TEXT) == (other == DGT_CHESS_BAD_TEXT));
    if (other == DGT_CHESS_DONE) CHECK(dgt_chess_is_legal(&state, lenient));
    else check_kept(lenient, 0, sizeof *lenient);
    if (said == DGT_CHESS_DONE) CHECK(other == DGT_CHESS_DONE && memcmp(strict, lenient, 4) == 0);
    else check_kept(strict, 0, sizeof *strict);
}

int LLVMFuzzerTestOneInput(const uint8_t *data, size_t n) {
    input_begin(data, n);
    dgt_chess_start(&state);
    while (input_is_left()) {
        dgt_chess_state kept = state;
        uint8_t act = input_byte() % 8;
        if (act == 0) {
            uint8_t at = input_byte() % sizeof state;
            ((uint8_t *)&state)[at] = input_byte();
        } else if (act == 1) {
            read_fen();
        } else if (act == 2) {
            read_san();
        } else {
            play();
        }
        uint8_t why = dgt_chess_check(given());
        if (why != DGT_CHESS_DONE) {
            check_refused(why);
            state = kept;
        }
    }
    return 0;
}
