/* A decoder of commands, fed any bytes in any chunks. */
#include "input.h"
#include "model.h"

static dgt_command_decoder *reader;
static model_reader model;

static size_t feed(const uint8_t *bytes, size_t n) {
    static uint8_t right_word[DGT_MAX_WORD];
    dgt_command right;
    size_t room = input_room(DGT_MAX_WORD + 3);
    uint8_t *word = guarded(BODY, room);
    dgt_command *command = guarded(EVENTS, sizeof *command);
    size_t used = model_read(&model, bytes, n, &right, right_word);
    CHECK(dgt_command_decoder_feed(reader, bytes, n, command, word, room) == used);
    CHECK_SAME(command, &right);
    check_written(word, room, right_word, right.word_len);
    CHECK(dgt_command_decoder_unread(reader) == model.n);
    return used;
}

int LLVMFuzzerTestOneInput(const uint8_t *data, size_t n) {
    input_begin(data, n);
    reader = guarded(HANDLE, sizeof *reader);
    CHECK(dgt_command_decoder_init(reader));
    model.n = 0;
    while (input_is_left()) {
        uint8_t act = input_byte() % 8;
        if (act < 6) {
            use_chunk(feed);
            continue;
        }
        if (act == 6) CHECK(dgt_command_decoder_finish(reader) == model.n);
        if (act == 7) dgt_command_decoder_reset(reader);
        model.n = 0;
        CHECK(dgt_command_decoder_unread(reader) == 0);
    }
    return 0;
}
