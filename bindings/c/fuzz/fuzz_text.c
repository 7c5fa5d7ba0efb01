/* The plain helpers: placements, letters and names of pieces and squares, and segments. */
#include "input.h"
#include "model.h"

#include <string.h>

/* A text, mostly of the letters of placements. */
static void parse_placement(bool is_any) {
    static const char letters[] = "12345678/PRNBKQprnbkqXYZ8/8/0 9.";
    size_t n = input_byte() % 100;
    char *text = guarded(IN, n);
    for (size_t i = 0; i < n; i++) {
        uint8_t each = input_byte();
        text[i] = (char)(is_any ? each : letters[each % (sizeof letters - 1)]);
    }
    uint8_t *pieces = guarded(LOOK, 64), right[64];
    dgt_parsed wanted = model_parse_placement(text, n, right);
    dgt_parsed parsed = dgt_parse_placement(text, n, pieces);
    CHECK(parsed.ok == wanted.ok && parsed.at == wanted.at);
    check_written(pieces, 64, right, parsed.ok ? 64 : 0);
}

/* A position, mostly of pieces, is written and read back. */
static void write_placement(uint8_t most) {
    uint8_t *pieces = guarded(IN, 64), other = input_byte() % 16;
    bool is_position = true;
    for (size_t i = 0; i < 64; i++) {
        pieces[i] = i < 12 ? input_byte() % most : other;
        is_position = is_position && pieces[i] < 16;
    }
    char *text = guarded(OUT, DGT_PLACEMENT_ROOM), right[DGT_PLACEMENT_ROOM] = "";
    if (is_position) model_placement(pieces, right);
    CHECK(dgt_placement(pieces, text) == is_position);
    check_written(text, DGT_PLACEMENT_ROOM, right, is_position ? strlen(right) + 1 : 0);
    if (!is_position) return;
    uint8_t *again = guarded(LOOK, 64);
    CHECK(dgt_parse_placement(text, strlen(right), again).ok);
    CHECK(memcmp(again, pieces, 64) == 0);
}

/* The place of a byte in a text, or DGT_NO_SUCH. */
static uint8_t place_in(const char *text, uint8_t byte) {
    const char *found = byte > 0 && byte < 128 ? strchr(text, byte) : NULL;
    return found ? (uint8_t)(found - text) : DGT_NO_SUCH;
}

static void names(uint8_t a, uint8_t b) {
    CHECK(dgt_piece_letter(a) == (a < 16 ? model_letters[a] : 0));
    CHECK(dgt_piece_code(a) == place_in(model_letters, a));
    CHECK(dgt_segment(a) == model_segment(a));

    char *name = guarded(LOOK, 3), right[3] = {(char)('a' + a % 8), (char)('8' - a / 8 % 8), '\0'};
    CHECK(dgt_square_name(a, name) == (a < 64));
    check_written(name, 3, right, a < 64 ? 3 : 0);
    uint8_t file = place_in("abcdefgh", a), rank = place_in("87654321", b);
    bool is_square = file != DGT_NO_SUCH && rank != DGT_NO_SUCH;
    CHECK(dgt_square_number(a, b) == (is_square ? 8 * rank + file : DGT_NO_SUCH));
}

/* Two positions, mostly of pieces, that differ on some squares. */
static void differ(void) {
    uint8_t *pieces = guarded(IN, 64), *others = guarded(BODY, 64), some = input_byte();
    uint64_t *squares = guarded(LOOK, sizeof *squares), right = 0;
    bool are_positions = true;
    for (size_t i = 0; i < 64; i++) {
        uint8_t each = i < 12 ? input_byte() : some;
        pieces[i] = each == 255 ? 16 : each % 16;
        others[i] = each == 254 ? 16 : each % 4 == 0 ? some % 16 : pieces[i];
        are_positions = are_positions && pieces[i] < 16 && others[i] < 16;
        right |= (uint64_t)(pieces[i] != others[i]) << i;
    }
    CHECK(dgt_differ(pieces, others, squares) == are_positions);
    check_written(squares, sizeof *squares, &right, are_positions ? sizeof right : 0);
}

int LLVMFuzzerTestOneInput(const uint8_t *data, size_t n) {
    input_begin(data, n);
    while (input_is_left()) {
        uint8_t act = input_byte() % 8;
        if (act == 3) {
            differ();
        } else if (act < 3) {
            parse_placement(act == 0);
        } else if (act < 6) {
            write_placement(act == 4 ? 17 : 16);
        } else {
            uint8_t a = input_byte();
            names(a, input_byte());
        }
    }
    return 0;
}
