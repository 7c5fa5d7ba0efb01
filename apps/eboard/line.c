#define _GNU_SOURCE
#include "line.h"

#include "dgt_port.h"
#include <limits.h>

enum {
    PERIOD = 2000,     /* of the follower: from one request to the next */
    HEARTBEATS = 6,    /* the most plain requests in a row before the follower starts over */
    LOOK_AGAIN = 1000, /* between two looks for the port */
    WRITE_WAIT = 500   /* for a port that takes no bytes: dgt_port_write waits longer */
};

long long line_now(void) { return (long long)dgt_port_now(); }

/* ---- The port */

/* Opens the port for this process only, without what arrived before. False, with EBUSY in errno, if
 * another program has locked it. */
static bool open_port(line *line) {
    line->port = dgt_port_open(line->name);
    if (line->port >= 0) tcflush(line->port, TCIOFLUSH);
    else if (errno == EWOULDBLOCK) errno = EBUSY;
    return line->port >= 0;
}

static bool write_all(int port, const uint8_t *bytes, size_t n) {
    uint64_t end = dgt_port_now() + WRITE_WAIT;
    while (n > 0) {
        ssize_t wrote = write(port, bytes, n);
        if (wrote > 0) {
            bytes += wrote;
            n -= (size_t)wrote;
        } else if ((wrote < 0 && errno != EAGAIN && errno != EINTR) ||
                   dgt_port_wait_(port, POLLOUT, end) == 0) {
            return false;
        }
    }
    return true;
}

/* Notes that the port is lost, with everything in transit, and starts to look for it. */
static void lose(line *line) {
    line_close(line);
    dgt_follower_line_lost(&line->follower);
    line->hurries = false;
    line->look = line_now() + LOOK_AGAIN;
}

/* ---- Requests */

/* Requests each change and all squares, if that is due. */
static void ask(line *line) {
    uint8_t out[DGT_MAX_ASKING];
    dgt_sent asked = dgt_follower_ask(&line->follower, dgt_port_now(), out, sizeof out);
    if (!write_all(line->port, out, asked.bytes)) lose(line);
}

void line_ask_texts(line *line) {
    static const uint8_t codes[] = {DGT_SEND_SERIAL, DGT_SEND_TRADEMARK, DGT_SEND_VERSION};
    for (size_t each = 0; each < sizeof codes && line->port >= 0; each++) {
        uint8_t out[1];
        dgt_sent sent = dgt_follower_send(&line->follower, codes[each], out, sizeof out);
        if (sent.status == DGT_DONE && !write_all(line->port, out, sent.bytes)) lose(line);
    }
}

void line_hurry(line *line) {
    if (!line->hurries) dgt_follower_ask_now(&line->follower);
    line->hurries = true;
}

bool line_open(line *line, const char *name) {
    *line = (struct line){.name = name, .port = -1, .serial = "unknown", .version = "unknown",
                          .trademark = "unknown"};
    if (!dgt_follower_init(&line->follower, PERIOD, HEARTBEATS)) {
        errno = ELIBBAD;
        return false;
    }
    dgt_follower_set_confirm(&line->follower, true);
    if (!open_port(line)) return false;
    ask(line);
    return true;
}

void line_keep(line *line) {
    if (line->port < 0 && line_now() >= line->look) {
        open_port(line);
        line->look = line_now() + LOOK_AGAIN;
    }
    if (line->port >= 0) ask(line);
}

long long line_due(line *line) {
    uint64_t due;
    if (line->port < 0) return line->look;
    return dgt_follower_due_at(&line->follower, &due) ? (long long)due : LLONG_MAX;
}

void line_close(line *line) {
    if (line->port >= 0) dgt_port_close(line->port);
    line->port = -1;
}

/* ---- Reports */

bool line_is_sure(line *line, uint8_t pieces[64]) {
    dgt_follower *follower = &line->follower;
    return dgt_follower_picture(follower, pieces) && !dgt_follower_in_doubt(follower);
}

bool line_is_confirmed(line *line) {
    return dgt_follower_confirmed(&line->follower);
}

static void keep_text(char *text, size_t room, const uint8_t *body, size_t length) {
    size_t at = 0;
    for (; at < length && at + 1 < room; at++)
        text[at] = body[at] > ' ' && body[at] < 127 ? (char)body[at] : ' ';
    text[at] = '\0';
}

static void hear(line *line, const dgt_event *event, const uint8_t *body, size_t room, seen *seen) {
    size_t length = event->body_len < room ? event->body_len : room;
    switch (event->kind) {
    case DGT_EVENT_DUMP: line->hurries = false; seen(true); break;
    case DGT_EVENT_FIELD: seen(false); break;
    case DGT_EVENT_SERIAL:
        keep_text(line->serial, sizeof line->serial, event->serial, sizeof event->serial);
        line->texts++;
        break;
    case DGT_EVENT_TRADEMARK:
        keep_text(line->trademark, sizeof line->trademark, body, length);
        line->texts++;
        break;
    case DGT_EVENT_VERSION:
        snprintf(line->version, sizeof line->version, "%d.%d", event->main_number,
                 event->sub_number);
        line->texts++;
        break;
    default: break;
    }
}

void line_read(line *line, seen *seen) {
    uint8_t bytes[256], body[128];
    dgt_event event;
    long got = dgt_port_read(line->port, bytes, sizeof bytes, 0);
    if (got < 0) lose(line);
    for (long at = 0; at < got;) {
        at += (long)dgt_follower_hear(&line->follower, dgt_port_now(), bytes + at,
                                      (size_t)(got - at), &event, body, sizeof body);
        hear(line, &event, body, sizeof body, seen);
    }
}
