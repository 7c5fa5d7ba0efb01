#include "model.h"

#include <string.h>

enum {
    OVERDUE = 1000,    /* milliseconds until a missing answer is a doubt */
    RETRY = 500,       /* milliseconds between two requests after a disturbance */
    UNFINISHED = 1000, /* milliseconds until an unfinished message is one */
    SETTLED = 1000,    /* milliseconds from a change or a request to a confirming request */
    TRIES = 3          /* the most requests of the serial number */
};

void model_follower_start(model_follower *follower, uint64_t period, uint32_t patience) {
    follower->period = period < DGT_LEAST_PERIOD ? DGT_LEAST_PERIOD : period;
    follower->patience = patience;
    follower->mode = DGT_MODE_UPDATE_BOARD;
    follower->confirms = follower->identifies = false;
    model_follower_line_lost(follower);
}

void model_follower_line_lost(model_follower *follower) {
    const model_follower told = *follower;
    memset(follower, 0, sizeof *follower);
    follower->period = told.period;
    follower->patience = follower->left = told.patience;
    follower->mode = told.mode;
    follower->confirms = told.confirms;
    follower->identifies = told.identifies;
    follower->tries = TRIES;
    follower->timeout = OVERDUE;
}

/* ---- What it hears. */

static void doubt(model_follower *follower) {
    follower->is_doubtful = true;
    follower->is_confirmed = false;
}

void model_follower_line_disturbed(model_follower *follower) {
    follower->is_disturbed = true;
    doubt(follower);
}

static bool is_message(const dgt_event *event) {
    return event->kind >= DGT_EVENT_DUMP && event->kind <= DGT_EVENT_OTHER;
}

/* A clock that shows no digits. */
static bool is_unreadable(const dgt_event *event) {
    return event->kind == DGT_EVENT_REFUSED && event->fault == DGT_BAD_READING;
}

/* `differs` says whether it changed a known picture. */
static bool disturbs(const model_follower *follower, const dgt_event *event, bool differs) {
    if (!is_message(event)) return !is_unreadable(event);
    if (event->unasked && !follower->pardons) return true;
    return event->kind == DGT_EVENT_DUMP && differs;
}

/* Whether the picture is confirmed after the event. `repeats` says whether the picture is the one
 * known before. */
static bool confirms(const model_follower *follower, const dgt_event *event, bool repeats) {
    if (!is_message(event)) return is_unreadable(event) && follower->is_confirmed;
    if (event->unasked || !repeats) return false;
    if (event->kind == DGT_EVENT_DUMP) return follower->is_confirmed || !follower->is_settling;
    return follower->is_confirmed;
}

/* A clock without a reading so far. */
static bool is_blank(const dgt_clock *clock) {
    static const dgt_clock blank = {.kind = DGT_CLOCK_TIMES};
    return memcmp(clock, &blank, sizeof blank) == 0;
}

static void note_content(model_follower *follower, const dgt_event *event) {
    switch (event->kind) {
    case DGT_EVENT_SERIAL:
        follower->has_serial = true;
        memcpy(follower->serial, event->serial, sizeof follower->serial);
        break;
    case DGT_EVENT_TIMES: follower->is_unreadable = is_blank(&event->clock); break;
    case DGT_EVENT_NO_CLOCK: follower->is_unreadable = false; break;
    default:
        if (is_unreadable(event)) follower->is_unreadable = true;
    }
}

static void note(model_follower *follower, uint64_t now, const dgt_event *event, bool was_known,
                 bool is_same) {
    bool disturbed = disturbs(follower, event, was_known && !is_same);
    follower->is_confirmed = confirms(follower, event, was_known && is_same);
    if (event->kind == DGT_EVENT_DUMP && !event->unasked) {
        follower->is_answered = true;
        follower->is_doubtful = follower->is_settling = false;
    }
    if (disturbed) follower->is_disturbed = follower->is_doubtful = true;
    if (was_known && !is_same) {
        follower->has_changed = true;
        follower->changed = now;
    }
    if (is_message(event)) {
        follower->has_heard = true;
        follower->heard = now;
    }
    follower->timeout = OVERDUE;
    note_content(follower, event);
}

size_t model_follower_hear(model_follower *follower, uint64_t now, const uint8_t *bytes, size_t n,
                           dgt_event *event, uint8_t body[DGT_MAX_BODY]) {
    const model_host *host = &follower->host;
    bool was_known = host->knows_picture;
    uint8_t before[64];
    memcpy(before, host->picture, sizeof before);
    size_t used = model_hear(&follower->host, bytes, n, event, body);
    bool is_same = memcmp(before, host->picture, sizeof before) == 0;
    if (event->kind != DGT_EVENT_NONE) note(follower, now, event, was_known, is_same);
    if (used > 0) {
        follower->is_unfinished = host->decoder.n > 0;
        follower->unfinished = now;
    }
    return used;
}

/* ---- When a request is due. */

/* A time, or one after the last. */
typedef struct moment {
    bool is_past_last;
    uint64_t time;
} moment;

static moment after(uint64_t time, uint64_t wait) {
    return (moment){wait > UINT64_MAX - time, time + wait};
}

static moment earlier(moment one, moment other) {
    if (one.is_past_last) return other;
    return other.is_past_last || one.time < other.time ? one : other;
}

static bool has_come(moment moment, uint64_t now) {
    return !moment.is_past_last && moment.time <= now;
}

static bool is_unanswered(const model_follower *follower) {
    return follower->has_asked && !follower->is_answered;
}

static bool is_calm(const model_follower *follower) {
    return follower->has_asked && follower->is_answered && !follower->is_disturbed;
}

static bool wants_serial(const model_follower *follower) {
    return follower->identifies && !follower->has_serial && follower->tries > 0 &&
           !follower->has_requested && is_calm(follower);
}

static uint64_t wait_of(const model_follower *follower) {
    if (follower->is_disturbed) return RETRY; /* the period is not shorter */
    return is_unanswered(follower) ? follower->timeout : follower->period;
}

/* The first time at which a request is due. */
static moment asks_at(const model_follower *follower) {
    bool is_owed = is_unanswered(follower);
    bool is_wanted = wants_serial(follower) || (follower->is_wanted && !is_owed);
    if (is_wanted || !follower->has_asked) return (moment){false, 0};
    moment due = after(follower->asked, wait_of(follower));
    if (!follower->confirms || follower->is_confirmed || follower->is_disturbed || is_owed)
        return due; /* after a disturbance that is sooner */
    bool has_later = follower->has_changed && follower->changed > follower->asked;
    return earlier(due, after(has_later ? follower->changed : follower->asked, SETTLED));
}

static moment overdue_at(const model_follower *follower) {
    return after(follower->asked, OVERDUE);
}

static moment stuck_at(const model_follower *follower) {
    return after(follower->unfinished, UNFINISHED);
}

bool model_due_at(const model_follower *follower, uint64_t *due) {
    moment first = asks_at(follower);
    if (is_unanswered(follower) && !follower->is_doubtful)
        first = earlier(first, overdue_at(follower));
    if (follower->is_unfinished) first = earlier(first, stuck_at(follower));
    *due = first.time;
    return !first.is_past_last;
}

/* ---- The request. */

static uint8_t mode_command(const model_follower *follower) {
    switch (follower->mode) {
    case DGT_MODE_UPDATE: return DGT_SEND_UPDATE;
    case DGT_MODE_UPDATE_NICE: return DGT_SEND_UPDATE_NICE;
    default: return DGT_SEND_UPDATE_BOARD;
    }
}

typedef enum asking { NOTHING, IDENTIFY, HEARTBEAT, ANEW } asking;

static asking asking_at(const model_follower *follower, uint64_t now) {
    bool has_gone_back = follower->has_asked && now < follower->asked;
    bool is_full = follower->host.awaited_n == DGT_MAX_AWAITED;
    if (!has_gone_back && !has_come(asks_at(follower), now)) return NOTHING;
    if (!is_full && wants_serial(follower)) return IDENTIFY;
    return !is_full && is_calm(follower) && follower->left > 0 ? HEARTBEAT : ANEW;
}

static model_sending sending_of(const model_follower *follower, asking asking) {
    model_sending sending = {.n = 0};
    if (asking == NOTHING) return sending;
    if (asking == IDENTIFY) return model_command(DGT_SEND_SERIAL);
    if (asking == ANEW) sending = model_follow(DGT_RESTART_LENGTH - 2);
    sending.bytes[sending.n++] = mode_command(follower);
    if (asking == HEARTBEAT) sending.bytes[sending.n++] = DGT_SEND_DUMP;
    if (follower->mode != DGT_MODE_UPDATE_BOARD) sending.bytes[sending.n++] = DGT_SEND_CLOCK;
    return sending;
}

model_sending model_follower_sending(const model_follower *follower, model_sending sending) {
    if (sending.n > 1) sending.bytes[sending.n++] = mode_command(follower);
    return sending;
}

/* Records that an answer, or the rest of a message, is late. */
static void note_time(model_follower *follower, uint64_t now) {
    bool is_overdue = is_unanswered(follower) && has_come(overdue_at(follower), now);
    bool is_stuck = follower->is_unfinished && has_come(stuck_at(follower), now);
    if (is_overdue || is_stuck) doubt(follower);
    if (is_stuck) {
        follower->is_disturbed = true;
        follower->is_unfinished = false;
    }
}

/* While nothing is heard, a follower waits twice as long for each answer, up to a period. */
static uint64_t next_timeout(const model_follower *follower) {
    if (!is_unanswered(follower) || follower->is_disturbed) return OVERDUE;
    return follower->timeout > follower->period / 2 ? follower->period : 2 * follower->timeout;
}

/* Records that it has requested a dump. */
static void note_asking(model_follower *follower, asking asking, uint64_t now) {
    bool is_new = asking == ANEW;
    follower->pardons = is_new && is_calm(follower);
    follower->left = is_new ? follower->patience : follower->left - 1;
    if (is_new) follower->is_settling = true;
    follower->timeout = next_timeout(follower);
    if (is_unanswered(follower)) doubt(follower);
    follower->has_asked = true;
    follower->asked = now;
    follower->has_requested = follower->is_wanted = false;
    follower->is_answered = follower->is_disturbed = false;
}

dgt_sent model_ask(model_follower *follower, uint64_t now, size_t room, model_sending *sending) {
    model_follower before = *follower;
    note_time(follower, now);
    asking asking = asking_at(follower, now);
    model_host *host = &follower->host;
    *sending = sending_of(follower, asking);
    if (room < sending->n) {
        *follower = before;
        return (dgt_sent){DGT_NO_ROOM, sending->n};
    }
    if (asking == NOTHING) return (dgt_sent){DGT_DONE, 0};
    if (asking == ANEW) host->awaited_n = 0;
    host->awaited[host->awaited_n++] = asking == IDENTIFY ? DGT_SEND_SERIAL : DGT_SEND_DUMP;
    if (asking == IDENTIFY) {
        follower->tries--;
        follower->has_requested = true;
    } else {
        note_asking(follower, asking, now);
    }
    return (dgt_sent){DGT_DONE, sending->n};
}
