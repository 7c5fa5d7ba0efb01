#include "model.h"

#include <string.h>

const char model_letters[] = ".PRNBKQprnbkqXYZ";

uint8_t model_segment(uint8_t character) {
    static const char shown[] = "0123456789 -";
    static const uint8_t segments[] = {0x3f, 0x06, 0x5b, 0x4f, 0x66, 0x6d,
                                       0x7d, 0x07, 0x7f, 0x6f, 0x00, 0x40};
    const char *found = character ? strchr(shown, character) : NULL;
    return found ? segments[found - shown] : DGT_NO_SUCH;
}

/* Writes a rank, and returns the end of the text. */
static char *write_rank(const uint8_t *pieces, char *text) {
    int empty = 0;
    for (int file = 0; file < 8; file++) {
        if (pieces[file] == 0) {
            empty++;
            continue;
        }
        if (empty > 0) *text++ = (char)('0' + empty);
        empty = 0;
        *text++ = model_letters[pieces[file]];
    }
    if (empty > 0) *text++ = (char)('0' + empty);
    return text;
}

void model_placement(const uint8_t pieces[64], char text[DGT_PLACEMENT_ROOM]) {
    for (int rank = 0; rank < 8; rank++) {
        if (rank > 0) *text++ = '/';
        text = write_rank(pieces + 8 * rank, text);
    }
    *text = '\0';
}

dgt_parsed model_parse_placement(const char *text, size_t n, uint8_t pieces[64]) {
    size_t count = 0, ranks = 1; /* squares that are read, and ranks that are begun */
    for (size_t at = 0; at < n; at++) {
        size_t room = 8 * ranks - count;
        char each = text[at];
        const char *letter = each ? strchr(model_letters + 1, each) : NULL;
        if (each == '/' && room == 0 && ranks < 8) {
            ranks++;
        } else if (each >= '1' && each <= '8' && (size_t)(each - '0') <= room) {
            memset(pieces + count, 0, (size_t)(each - '0'));
            count += (size_t)(each - '0');
        } else if (letter && room > 0) {
            pieces[count++] = (uint8_t)(letter - model_letters);
        } else {
            return (dgt_parsed){false, at};
        }
    }
    return count == 64 ? (dgt_parsed){true, 0} : (dgt_parsed){false, n};
}
