#include "model.h"

#include <string.h>

/* What these bytes of a host are: DGT_NO_WORD if more of the word is to follow. */
static uint8_t kind_of(const uint8_t *word, size_t n) {
    switch (word[0]) {
    case DGT_SEND_RESET: case DGT_SEND_CLOCK: case DGT_SEND_DUMP: case DGT_SEND_UPDATE:
    case DGT_SEND_UPDATE_BOARD: case DGT_SEND_SERIAL: case DGT_SEND_TRADEMARK:
    case DGT_SEND_UPDATE_NICE: case DGT_SEND_BATTERY: case DGT_SEND_VERSION:
    case DGT_SEND_LONG_SERIAL: return DGT_COMMAND;
    case DGT_SEND_CLOCK_MESSAGE: case DGT_SEND_LEDS: break;
    default: return DGT_STRAY_BYTE;
    }
    if (n == 1) return DGT_NO_WORD;
    bool is_whole = n == 2u + word[1];
    if (word[0] == DGT_SEND_LEDS) return is_whole ? DGT_COMMAND : DGT_NO_WORD;
    if (word[1] < 3) return DGT_BAD_SIZE;
    if (n > 2 && word[2] != 0x03) return DGT_BAD_START;
    if (!is_whole) return DGT_NO_WORD;
    return word[n - 1] == 0x00 ? DGT_COMMAND : DGT_BAD_END;
}

size_t model_read(model_reader *reader, const uint8_t *bytes, size_t n, dgt_command *command,
                  uint8_t word[DGT_MAX_WORD]) {
    size_t used = 0;
    memset(command, 0, sizeof *command);
    while (used < n && command->kind == DGT_NO_WORD) {
        reader->word[reader->n++] = bytes[used++];
        command->kind = kind_of(reader->word, reader->n);
    }
    if (command->kind == DGT_NO_WORD) return used;
    if (command->kind == DGT_STRAY_BYTE) command->byte = reader->word[0];
    if (command->kind == DGT_COMMAND) {
        command->code = reader->word[0];
        command->id = command->code == DGT_SEND_CLOCK_MESSAGE ? reader->word[3] : 0;
        command->word_len = reader->n;
        memcpy(word, reader->word, reader->n);
    }
    reader->n = 0;
    return used;
}
