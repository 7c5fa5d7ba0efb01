/* Follows a board on a serial port: prints the position after each change and each time of its
 * clock, and shows the number of changes on the clock. It waits for a port that disappears. */
#define _DEFAULT_SOURCE
#include <dgt_port.h>
#include <stdio.h>

static void show(dgt_follower *board, int port) {
    static char shown[DGT_PLACEMENT_ROOM], text[DGT_PLACEMENT_ROOM], number[12];
    static dgt_clock shown_clock, clock;
    static int changes;
    uint8_t out[DGT_MAX_WORD];
    dgt_follower_clock(board, &clock);
    if (clock.kind == DGT_CLOCK_TIMES && memcmp(&clock, &shown_clock, sizeof clock) != 0) {
        dgt_time one = clock.first, two = clock.second;
        printf("clock %d:%02d:%02d %d:%02d:%02d\n", one.hours, one.minutes, one.seconds,
               two.hours, two.minutes, two.seconds);
        shown_clock = clock;
    }
    if (dgt_follower_in_doubt(board) || !dgt_follower_placement(board, text)) return;
    if (strcmp(text, shown) == 0) return;
    puts(strcpy(shown, text));
    snprintf(number, sizeof number, "%d", ++changes);
    dgt_sent sent = dgt_follower_show_text(board, number, 0, out, sizeof out);
    dgt_port_write(port, out, sent.bytes); /* dgt_port_turn will find a lost port */
}

int main(int count, char **words) {
    static dgt_follower board;
    if (count != 2 || !dgt_follower_init(&board, 10000, 6)) return 2;
    dgt_follower_set_mode(&board, DGT_MODE_UPDATE_NICE); /* it reports its clock, too */
    setlinebuf(stdout);
    for (int port; /* ever */; dgt_port_close(port), dgt_follower_line_lost(&board)) {
        dgt_port_input input = {0};
        for (int why = 0; (port = dgt_port_open(words[1])) < 0; sleep(2))
            if (errno != why) fprintf(stderr, "%s: %s\n", words[1], dgt_port_advice(why = errno));
        while (dgt_port_turn(port, &board, &input)) show(&board, port);
    }
}
