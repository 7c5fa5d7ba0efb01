/* A decoder, fed any bytes in any chunks. */
#include "input.h"
#include "model.h"

static dgt_decoder *decoder;
static model_decoder model;
#define IT decoder
#define MODEL &model
#define HEAR dgt_decoder_feed
#define HEAR_MANY dgt_decoder_feed_many
#define MODEL_HEAR model_feed
#define UNREAD dgt_decoder_unread
#define MODEL_UNREAD model.n
#include "hears.h"

int LLVMFuzzerTestOneInput(const uint8_t *data, size_t n) {
    input_begin(data, n);
    decoder = guarded(HANDLE, sizeof *decoder);
    CHECK(dgt_decoder_init(decoder));
    model.n = 0;
    while (input_is_left()) {
        uint8_t act = input_byte() % 8;
        if (act < 6) {
            use_chunk(act % 2 == 0 ? hear : hear_many);
            continue;
        }
        if (act == 6) CHECK(dgt_decoder_finish(decoder) == model.n);
        if (act == 7) dgt_decoder_reset(decoder);
        model.n = 0;
        CHECK(dgt_decoder_unread(decoder) == 0);
    }
    return 0;
}
