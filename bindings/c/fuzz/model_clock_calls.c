#include "input.h"
#include "model.h"

#include <string.h>

/* Characters, mostly those of the display, at the place IN. */
static const uint8_t *any_text(size_t n) {
    uint8_t *text = guarded(IN, n);
    for (size_t i = 0; i < n; i++) {
        uint8_t each = input_byte();
        text[i] = each < 240 ? (uint8_t)"0123456789 -"[each % 12] : each;
    }
    return text;
}

static const uint8_t *any_numbers(enum place which, size_t n) {
    uint8_t *numbers = guarded(which, n);
    for (size_t i = 0; i < n; i++) numbers[i] = input_byte();
    return numbers;
}

model_clock_call any_clock_call(void) {
    static const uint8_t ids[] = {DGT_ID_DISPLAY, DGT_ID_ICONS, DGT_ID_END, DGT_ID_BUTTON,
                                  DGT_ID_VERSION, DGT_ID_SET_AND_RUN, DGT_ID_BEEP, DGT_ID_TEXT};
    model_clock_call call = {.id = ids[input_byte() % 8]};
    call.one = input_byte();
    call.other = input_byte();
    if (call.id == DGT_ID_DISPLAY) call.text = any_text(6);
    if (call.id == DGT_ID_TEXT) call.text = any_text(8);
    if (call.id == DGT_ID_SET_AND_RUN) {
        call.left = any_numbers(BODY, 3);
        call.right = any_numbers(EVENTS, 3);
    }
    if (call.id == DGT_ID_ICONS) {
        call.icons_n = input_byte() + (size_t)(call.one % 3);
        uint8_t *icons = guarded(IN, call.icons_n);
        memset(icons, call.other, call.icons_n);
        call.icons = icons;
    }
    return call;
}

/* The segments of six characters, in the order of the message; false if one has none. */
static bool write_display(const uint8_t *text, uint8_t *payload) {
    static const size_t order[] = {2, 1, 0, 5, 4, 3};
    for (size_t i = 0; i < 6; i++)
        if ((payload[i] = model_segment(text[order[i]])) == DGT_NO_SUCH) return false;
    return true;
}

model_sending model_called(const model_clock_call *call) {
    uint8_t payload[9] = {0};
    size_t n = 0;
    switch (call->id) {
    case DGT_ID_DISPLAY:
        if (!write_display(call->text, payload)) return (model_sending){.n = 0};
        payload[6] = call->one, payload[7] = call->other, n = 8;
        break;
    case DGT_ID_ICONS: return model_clock_message(call->id, call->icons, call->icons_n);
    case DGT_ID_SET_AND_RUN:
        memcpy(payload, call->left, 3), memcpy(payload + 3, call->right, 3);
        payload[6] = call->one, n = 7;
        break;
    case DGT_ID_BEEP: payload[0] = call->one, n = 1; break;
    case DGT_ID_TEXT:
        memcpy(payload, call->text, 8), payload[8] = call->one, n = 9;
        break;
    default: break;
    }
    return model_clock_message(call->id, payload, n);
}
