/* Follows a board on a serial line, and prints the position after each change:
 *
 *     cc -I bindings/c/include bindings/c/examples/host.c bindings/c/out/libdgt.a -o host
 *     ./host /dev/ttyUSB0
 *
 * It requests all squares every ten seconds, and sooner if the line lost or altered bytes. A line
 * with " ?" at its end may be wrong: the next answer corrects it. The program ends when the serial
 * line does. A second argument, from 1 to 1000000, ends it after this many seconds of silence. */
#define _DEFAULT_SOURCE
#include "dgt_port.h"

#include <stdio.h>
#include <stdlib.h>

enum {
    PERIOD = 10000, /* milliseconds from one request to the next */
    PATIENCE = 6,   /* the most plain requests in a row */
    SHOWN_ROOM = DGT_PLACEMENT_ROOM + 2
};

/* Prints what is wrong with a line, by errno, and what to do about it. */
static int complain(const char *name) {
    fprintf(stderr, "host: %s: %s\n", name, dgt_port_advice(errno));
    return 1;
}

struct board {
    int line;
    dgt_follower follower; /* makes the requests, and keeps the picture */
    char shown[SHOWN_ROOM];
};

/* Requests all squares and each change, if that is due. False, with errno, if the line can't be
 * written. */
static bool ask(struct board *board) {
    uint8_t out[DGT_MAX_ASKING];
    dgt_sent asked = dgt_follower_ask(&board->follower, dgt_port_now(), out, sizeof out);
    return dgt_port_write(board->line, out, asked.bytes);
}

static bool ask_trademark(struct board *board) {
    uint8_t out[1];
    dgt_sent sent = dgt_follower_send(&board->follower, DGT_SEND_TRADEMARK, out, sizeof out);
    return sent.status == DGT_DONE && dgt_port_write(board->line, out, sent.bytes);
}

/* Prints the position, and whether it may be wrong, if either has changed. */
static void show(struct board *board) {
    char text[SHOWN_ROOM];
    if (!dgt_follower_placement(&board->follower, text)) return;
    if (dgt_follower_in_doubt(&board->follower)) strcat(text, " ?");
    if (strcmp(text, board->shown) == 0) return;
    puts(text);
    fflush(stdout);
    strcpy(board->shown, text);
}

static void hear(struct board *board, const uint8_t *chunk, size_t n) {
    static uint8_t body[DGT_MAX_BODY];
    dgt_event event;
    for (size_t at = 0; at < n;) {
        at += dgt_follower_hear(&board->follower, dgt_port_now(), chunk + at, n - at, &event, body,
                                sizeof body);
        if (event.kind == DGT_EVENT_TRADEMARK)
            fprintf(stderr, "board: %.*s\n", (int)event.body_len, (const char *)body);
        show(board);
    }
}

/* Waits for bytes until the next request is due, or until the end, and returns the result of
 * dgt_port_read. */
static long wait_for_bytes(struct board *board, uint8_t *chunk, size_t n, uint64_t end) {
    uint64_t due;
    if (dgt_follower_due_at(&board->follower, &due) && due < end) end = due;
    return dgt_port_read(board->line, chunk, n, end);
}

/* Follows a board until its line ends, or nothing has arrived for some milliseconds (0: for ever).
 * False, with errno, if the line can't be written. */
static bool follow(struct board *board, uint64_t silence) {
    uint8_t chunk[256];
    uint64_t end = silence ? dgt_port_now() + silence : UINT64_MAX;
    bool can_write = ask(board) && ask_trademark(board);
    while (can_write && dgt_port_now() < end) {
        long n = wait_for_bytes(board, chunk, sizeof chunk, end);
        if (n < 0) return true;
        hear(board, chunk, (size_t)n);
        if (n > 0 && silence) end = dgt_port_now() + silence;
        can_write = ask(board);
        show(board); /* an answer or the end of a message may be overdue */
    }
    return can_write || errno != ETIMEDOUT;
}

/* Reads a number of seconds, 1 to 1000000, as milliseconds. 0 if the text is something else. */
static uint64_t milliseconds(const char *text) {
    char *end;
    long seconds = strtol(text, &end, 10);
    return *end == '\0' && seconds >= 1 && seconds <= 1000000 ? 1000 * (uint64_t)seconds : 0;
}

int main(int count, char **words) {
    static struct board board;
    uint64_t silence = count == 3 ? milliseconds(words[2]) : 0;
    if (count < 2 || count > 3 || (count == 3 && silence == 0))
        return fprintf(stderr, "usage: host LINE [SECONDS], from 1 to 1000000\n"), 2;
    if (!dgt_follower_init(&board.follower, PERIOD, PATIENCE))
        return fprintf(stderr, "this library has another header\n"), 1;
    board.line = dgt_port_open(words[1]);
    if (board.line < 0 || !follow(&board, silence)) return complain(words[1]);
    dgt_port_close(board.line);
    return 0;
}
