/* Plays a host and a simulated board over two lines of 9600 baud, in simulated time. The lines
 * lose, repeat, alter and insert bytes, and the board loses its power. tests/libraries/following
 * builds and runs this program.
 *
 *     follower_trial GAMES SEED HOST HOURS RUNS
 *
 * GAMES is a file of games: pairs of bytes, each a square and the piece put on it (0 for none), and
 * 64 0 after each move and 64 1 after each game. HOST is one of these:
 *
 *     follower     a follower with a period of 10 s and a patience of 6
 *     confirming   the same, which confirms
 *     clock        a follower in the mode UPDATE_NICE, with a running clock on the board
 *     update       the same in the mode UPDATE
 *     heartbeats   a follower with restarts that are cut to the 2 bytes of a heartbeat
 *     at-faults    a host that restarts at each fault that it notices
 *     once         a host that asks once, at the start
 *
 * It prints a line for each row of faults, after HOURS hours, or a quarter of them if the row has a
 * trouble. The last line is of RUNS runs. In these the faults stop, and the picture has to become
 * right, and the clock if the mode reports it. Times are in 24ths of a millisecond. */
#include "dgt.h"

#include <stdio.h>
#include <stdlib.h>
#include <string.h>

#define BYTE_TIME 25 /* ten bits at 9600 baud */
#define MILLISECOND 24
#define SECOND (1000 * MILLISECOND)
#define HOUR (3600 * (uint64_t)SECOND)
#define NEVER UINT64_MAX
#define PERIOD 10000 /* milliseconds */
#define PATIENCE 6
#define LATE (SECOND / 10) /* a picture that is older is wrong */
#define LINE_ROOM 4096
#define MOST_STEPS (1 << 20)
#define MOST_TIMES (1 << 20)
#define END 64 /* in the place of a square: a move or a game ends */

static void check(bool holds, const char *what) {
    if (holds) return;
    fprintf(stderr, "follower_trial: %s\n", what);
    exit(2);
}

/* A number from 0 to n - 1, by the generator splitmix64. */
static uint64_t below(uint64_t *chance, uint64_t n) {
    uint64_t mixed = *chance += 0x9e3779b97f4a7c15u;
    mixed = (mixed ^ mixed >> 30) * 0xbf58476d1ce4e5b9u;
    mixed = (mixed ^ mixed >> 27) * 0x94d049bb133111ebu;
    return ((mixed ^ mixed >> 31) >> 32) * n >> 32;
}

/* ---- What was measured, in all hours of a row. */

static struct {
    uint64_t time;
    uint64_t wrong, silent;  /* how long the picture was wrong or unknown; and not in doubt */
    uint64_t doubtful;       /* how long it was in doubt or unknown */
    uint64_t unconfirmed;    /* how long it was neither that nor confirmed */
    uint64_t misled;         /* how long it was wrong and confirmed */
    uint64_t asked, dumps;   /* bytes of askings, and of dumps */
    uint64_t faults, losses; /* how often there was a fault, and the power was lost */
} tally;

static uint64_t times[MOST_TIMES]; /* how long the picture stayed wrong, or until it was right */
static size_t time_count;

static void note_time(uint64_t time) {
    check(time_count < MOST_TIMES, "too many times");
    times[time_count++] = time;
}

/* ---- Games. */

static uint8_t steps[MOST_STEPS][2];
static size_t step_count, game_count, games[MOST_STEPS]; /* where each game begins */
static uint8_t first_pieces[64];

static void read_games(const char *name) {
    FILE *file = fopen(name, "rb");
    check(file != NULL, "the file of games can't be opened");
    step_count = fread(steps, 2, MOST_STEPS, file);
    fclose(file);
    check(step_count > 0 && steps[step_count - 1][0] == END, "no games");
    for (size_t at = 0; at < step_count; at++)
        if (at == 0 || (steps[at - 1][0] == END && steps[at - 1][1] == 1))
            games[game_count++] = at;
}

/* ---- A line. */

typedef struct line {
    uint8_t bytes[LINE_ROOM];
    size_t from, count;
    uint64_t due;  /* when the first of them arrives */
    uint64_t rate; /* one byte of `rate` has a fault; 0: none has */
    uint64_t chance;
    bool is_cut; /* each byte is lost */
} line;

static void put(line *to, uint64_t now, const uint8_t *bytes, size_t n) {
    check(to->count + n <= LINE_ROOM, "a line is full");
    if (to->count == 0) to->due = now + BYTE_TIME;
    for (size_t i = 0; i < n; i++)
        to->bytes[(to->from + to->count++) % LINE_ROOM] = bytes[i];
}

/* Takes the byte that has arrived, and writes what the line makes of it: 0, 1 or 2 bytes. */
static size_t carry(line *from, uint8_t out[2]) {
    out[0] = out[1] = from->bytes[from->from];
    from->from = (from->from + 1) % LINE_ROOM;
    from->count--;
    from->due += BYTE_TIME;
    if (from->is_cut) return 0;
    if (from->rate == 0 || below(&from->chance, from->rate) > 0) return 1;
    tally.faults++;
    switch (below(&from->chance, 4)) {
    case 0: return 0; /* lost */
    case 1: return 2; /* repeated */
    case 2:           /* another one is inserted before it */
        out[0] = (uint8_t)below(&from->chance, 256);
        return 2;
    case 3: break;
    }
    if (below(&from->chance, 2) == 0) /* altered: one bit, or any */
        out[0] ^= (uint8_t)(1 << below(&from->chance, 8));
    else
        out[0] ^= (uint8_t)(1 + below(&from->chance, 255));
    return 1;
}

/* ---- The world. */

enum { FOLLOWER, CONFIRMING, CLOCK, UPDATE, HEARTBEATS, AT_FAULTS, ONCE, HOSTS };
static const char *const host_names[HOSTS] = {"follower",   "confirming", "clock", "update",
                                              "heartbeats", "at-faults",  "once"};

/* The trouble of a row, in addition to the faults of its lines and its losses of power. */
enum {
    NOTHING,
    DUMPS,   /* one dump in ten comes with another piece */
    MODES,   /* the board takes each mode command for a reset, and reports no change */
    ASKINGS, /* the second byte of each asking is lost */
    FIELDS,  /* one field message in 50 comes with another piece, or is lost */
    MUTE,    /* what the board sends is lost for 20 to 90 s in each ten minutes */
    GAPS,    /* each byte is lost for two seconds in each two minutes */
    LEDS,    /* the host sends an LED frame each 3 s */
    DISPLAYS /* the host sends a text with hyphens to the clock each 3 s */
};

static struct {
    int kind;
    uint64_t now;
    line up, down;

    dgt_board board;
    uint8_t inbox[LINE_ROOM]; /* what the board has still to take */
    size_t waiting;
    bool is_off;
    uint64_t power_due, power_chance; /* when the power goes or comes */
    uint64_t clock_due;               /* when the board's clock shows another time */
    int trouble;
    uint64_t trouble_chance;
    uint64_t gap_due, window; /* when a gap begins or ends, and when the next one's window begins */
    uint64_t frame_due;       /* when the host sends a frame */

    dgt_follower follower;
    dgt_host host;
    bool has_to_ask; /* the host has noticed a fault, or has never asked */
    uint64_t askings;

    size_t step; /* of the game that is played */
    uint64_t hand_due, hand_chance, leds_chance;
    bool has_leds;

    uint8_t pieces[64], earlier[64]; /* where the pieces stand, and stood before the last change */
    uint64_t changed;
    bool is_measured, is_wrong, is_doubtful, is_confirmed;
    uint64_t began; /* when it became wrong */

    bool has_stopped, is_unhealed; /* the faults have stopped; the picture is still wrong */
    uint64_t needed, healed;       /* after how many askings since then it was right, and when */
} world;

static bool is_follower(void) { return world.kind <= HEARTBEATS; }

static bool has_clock(void) { return world.kind == CLOCK || world.kind == UPDATE; }

/* ---- The host. */

/* When it asks next, or a follower notes what is late by then, if nothing else happens. */
static uint64_t ask_due(void) {
    uint64_t due;
    if (!is_follower()) return world.has_to_ask && world.down.count == 0 ? world.now : NEVER;
    return dgt_follower_due_at(&world.follower, &due) ? due * MILLISECOND : NEVER;
}

static void send_asking(uint8_t *asking, size_t n) {
    world.askings++;
    tally.asked += n;
    if (world.trouble == ASKINGS) {
        memmove(asking + 1, asking + 2, n - 2);
        n--;
        tally.faults++;
    }
    put(&world.down, world.now, asking, n);
}

static void ask_follower(void) {
    uint8_t out[DGT_MAX_ASKING];
    uint64_t due = ask_due();
    dgt_sent sent = dgt_follower_ask(&world.follower, world.now / MILLISECOND, out, sizeof out);
    check(sent.status == DGT_DONE, "a request has no room");
    bool is_done = sent.bytes > 0 || (dgt_follower_in_doubt(&world.follower) && ask_due() > due);
    check(is_done == (due <= world.now), "what is due isn't done, or what isn't is");
    if (sent.bytes == 0) return;
    size_t cut = world.kind == HEARTBEATS && sent.bytes > 2 ? sent.bytes - 3 : 0;
    send_asking(out + cut, cut > 0 ? 2 : sent.bytes);
}

/* A host that begins anew when it notices a fault. It waits until its last asking is sent. */
static void ask_at_fault(void) {
    uint8_t out[DGT_RESTART_LENGTH];
    dgt_host_give_up_awaited(&world.host);
    dgt_sent sent = dgt_host_restart(&world.host, out, sizeof out);
    check(sent.status == DGT_DONE && sent.bytes == DGT_RESTART_LENGTH, "a restart is refused");
    send_asking(out, sizeof out);
    world.has_to_ask = false;
}

static void ask(void) {
    if (is_follower())
        ask_follower();
    else if (ask_due() > world.now)
        return;
    else
        ask_at_fault();
}

static void hear(const uint8_t *bytes, size_t n) {
    if (is_follower()) {
        dgt_follower_hear_all(&world.follower, world.now / MILLISECOND, bytes, n);
        return;
    }
    for (size_t at = 0; at < n;) {
        dgt_event event;
        at += dgt_host_hear(&world.host, bytes + at, n - at, &event, world.inbox, 0);
        bool is_fault = event.kind >= DGT_EVENT_REFUSED || event.unasked;
        if (is_fault && world.kind == AT_FAULTS) world.has_to_ask = true;
    }
}

/* Writes where the host says that the pieces stand. False if it doesn't know. */
static bool read_picture(uint8_t shown[64]) {
    return is_follower() ? dgt_follower_picture(&world.follower, shown)
                         : dgt_host_picture(&world.host, shown);
}

/* Whether the host knows what the board's clock shows, if its mode reports that. */
static bool is_clock_right(void) {
    dgt_clock heard, shown; /* bytes alone, with none between */
    if (!has_clock()) return true;
    dgt_follower_clock(&world.follower, &heard);
    dgt_board_clock(&world.board, &shown);
    return !memcmp(&heard, &shown, sizeof heard);
}

/* A frame for the LEDs with bytes that are commands if a part of it is lost. */
static void send_leds(void) {
    static const uint8_t codes[8] = {0x00, 0x2b, 0x40, 0x42, 0x44, 0x60, 0x05, 0xff};
    uint8_t leds[16], out[DGT_MAX_WORD];
    size_t count = below(&world.leds_chance, 17);
    for (size_t i = 0; i < count; i++) leds[i] = codes[below(&world.leds_chance, 8)];
    dgt_sent sent = is_follower()
        ? dgt_follower_send_leds(&world.follower, leds, count, out, sizeof out)
        : dgt_host_send_leds(&world.host, leds, count, out, sizeof out);
    check(sent.status == DGT_DONE, "LEDs are refused");
    put(&world.down, world.now, out, sent.bytes);
}

/* A frame with bytes 40: that is the reset to a board that reads them as commands. */
static void send_frame(void) {
    static const uint8_t leds[4] = {0x00, 0x40, 0x40, 0x00};
    uint8_t out[DGT_MAX_ASKING];
    dgt_sent sent;
    if (world.trouble == LEDS)
        sent = is_follower() ? dgt_follower_send_leds(&world.follower, leds, 4, out, sizeof out)
                             : dgt_host_send_leds(&world.host, leds, 4, out, sizeof out);
    else
        sent = is_follower()
            ? dgt_follower_show_digits(&world.follower, "------", 0, 0, out, sizeof out)
            : dgt_host_show_digits(&world.host, "------", 0, 0, out, sizeof out);
    check(sent.status == DGT_DONE, "a frame is refused");
    put(&world.down, world.now, out, sent.bytes);
    world.frame_due += 3 * SECOND;
}

/* ---- The board, and the hands at it. */

/* Makes of a message of the board what the row's trouble makes of it: another piece in it, or
 * nothing. Returns how many bytes it has then. */
static size_t spoil(uint8_t *message, size_t n) {
    bool is_field = message[0] == 0x8e;
    size_t at = n - 1;
    if (world.trouble == DUMPS && n == DGT_MAX_SENT && below(&world.trouble_chance, 10) == 0)
        at = 3 + below(&world.trouble_chance, 64);
    else if (world.trouble != FIELDS || !is_field || below(&world.trouble_chance, 50) > 0)
        return n;
    tally.faults++;
    if (is_field && below(&world.trouble_chance, 2) == 0) return 0;
    message[at] = (uint8_t)((message[at] + 1 + below(&world.trouble_chance, 12)) % 13);
    return n;
}

/* The board takes what it can, and sends its next message once the last one is sent. */
static void serve(void) {
    uint8_t out[DGT_MAX_SENT], word[1];
    dgt_command command;
    if (world.is_off) return;
    while (world.waiting > 0) {
        dgt_taken taken =
            dgt_board_take(&world.board, world.inbox, world.waiting, &command, word, 0);
        if (taken.busy) break;
        world.waiting -= taken.used;
        memmove(world.inbox, world.inbox + taken.used, world.waiting);
    }
    while (world.up.count == 0) {
        dgt_polled polled = dgt_board_poll(&world.board, out, sizeof out);
        if (polled.status != DGT_WROTE) return;
        if (polled.bytes == DGT_MAX_SENT) tally.dumps += polled.bytes;
        put(&world.up, world.now, out, spoil(out, polled.bytes));
    }
}

/* What the board makes of a byte: in MODES it takes each mode command for a reset. */
static uint8_t misread(uint8_t byte) {
    bool is_mode = byte == DGT_SEND_UPDATE || byte == DGT_SEND_UPDATE_BOARD ||
                   byte == DGT_SEND_UPDATE_NICE;
    if (world.trouble != MODES || !is_mode) return byte;
    tally.faults++;
    return DGT_SEND_RESET;
}

static void give_board(const uint8_t *bytes, size_t n) {
    if (world.is_off) return;
    check(world.waiting + n <= sizeof world.inbox, "the board has too much to take");
    for (size_t i = 0; i < n; i++) world.inbox[world.waiting++] = misread(bytes[i]);
}

/* When the power is lost next, if that happens once in `mean` seconds; never if that is 0. */
static uint64_t next_loss(uint64_t mean) {
    if (mean == 0) return NEVER;
    uint64_t seconds = 1;
    while (below(&world.power_chance, mean) > 0) seconds++;
    return world.now + seconds * SECOND;
}

/* The power goes or comes back. What was under way within the board is lost with it. */
static void switch_power(uint64_t mean) {
    world.is_off = !world.is_off;
    if (world.is_off) {
        tally.losses++;
        world.up.count = world.waiting = 0;
        world.power_due = world.now + SECOND + below(&world.power_chance, 4 * SECOND);
        return;
    }
    dgt_board_line_lost(&world.board);
    world.power_due = next_loss(mean);
}

/* When the gap of the next window begins: it ends within that. */
static void await_gap(void) {
    bool is_mute = world.trouble == MUTE;
    uint64_t window = (is_mute ? 600 : 120) * SECOND, longest = (is_mute ? 90 : 2) * SECOND;
    world.gap_due = world.window + below(&world.trouble_chance, window - longest);
    world.window += window;
}

/* A gap begins or ends: of both lines, or for MUTE only of the board's line. */
static void switch_gap(void) {
    bool is_mute = world.trouble == MUTE;
    world.up.is_cut = !world.up.is_cut;
    world.down.is_cut = world.up.is_cut && !is_mute;
    if (!world.up.is_cut) {
        await_gap();
        return;
    }
    tally.faults++;
    world.gap_due += (is_mute ? 20 : 2) * SECOND;
    if (is_mute) world.gap_due += below(&world.trouble_chance, 70 * SECOND);
}

/* The clock shows the next second, from 9:59:59 on. */
static void tick(void) {
    uint64_t left = 35999 - world.now / SECOND % 36000;
    dgt_clock clock = {DGT_CLOCK_TIMES, 0, {0}, {0}, {0}};
    clock.first.hours = (uint8_t)(left / 3600);
    clock.first.minutes = (uint8_t)(left / 60 % 60);
    clock.first.seconds = (uint8_t)(left % 60);
    check(dgt_board_hand_clock(&world.board, &clock), "no such time");
    world.clock_due = world.now + SECOND;
}

static void change(uint8_t square, uint8_t piece) {
    memcpy(world.earlier, world.pieces, 64);
    world.changed = world.now;
    world.pieces[square] = piece;
    check(dgt_board_change(&world.board, square, piece), "no such square or piece");
}

/* Begins a game, in its middle if that is asked for. */
static void begin_game(bool anywhere) {
    size_t game = below(&world.hand_chance, game_count);
    size_t end = game + 1 < game_count ? games[game + 1] : step_count;
    world.step = games[game];
    if (!anywhere) return;
    size_t skipped = below(&world.hand_chance, end - world.step);
    for (; skipped > 0; skipped--, world.step++)
        if (steps[world.step][0] < END)
            world.pieces[steps[world.step][0]] = steps[world.step][1];
}

/* Puts one of the pieces where it stands at the start of a game, or else begins one. */
static void set_up(void) {
    for (uint8_t square = 0; square < 64; square++)
        if (world.pieces[square] != first_pieces[square]) {
            change(square, world.pieces[square] > 0 ? 0 : first_pieces[square]);
            return;
        }
    begin_game(false);
}

/* The hands make the next change: after 0.15 to 0.75 s within a move, 0.5 to 11.5 s between two. */
static void move_pieces(void) {
    const uint8_t *step = steps[world.step];
    uint64_t wait = SECOND * 15 / 100 + below(&world.hand_chance, SECOND * 60 / 100);
    if (step[0] < END) {
        change(step[0], step[1]);
        world.step++;
    } else if (step[1] == 1) {
        set_up();
    } else {
        if (world.has_leds) send_leds();
        wait = SECOND / 2 + below(&world.hand_chance, 11 * SECOND);
        world.step++;
    }
    world.hand_due = world.now + wait;
}

/* ---- Time. */

static void start(int kind, uint64_t seed, uint64_t number) {
    memset(&world, 0, sizeof world);
    world.kind = kind;
    uint64_t chance = seed << 40 ^ number << 8;
    world.up.chance = chance, world.down.chance = chance + 1, world.hand_chance = chance + 2;
    world.power_chance = chance + 3, world.leds_chance = chance + 4;
    world.trouble_chance = chance + 5;
    check(dgt_board_init(&world.board) && dgt_host_init(&world.host) &&
          dgt_follower_init(&world.follower, PERIOD, PATIENCE), "the library has other sizes");
    memcpy(world.pieces, first_pieces, 64);
    begin_game(true);
    for (uint8_t square = 0; square < 64; square++)
        dgt_board_change(&world.board, square, world.pieces[square]);
    dgt_board_line_lost(&world.board);
    memcpy(world.earlier, world.pieces, 64);
    world.has_to_ask = true;
    world.power_due = world.gap_due = world.frame_due = NEVER;
    world.hand_due = SECOND;
    world.clock_due = has_clock() ? SECOND : NEVER;
    if (kind == CLOCK) dgt_follower_set_mode(&world.follower, DGT_MODE_UPDATE_NICE);
    if (kind == UPDATE) dgt_follower_set_mode(&world.follower, DGT_MODE_UPDATE);
    if (kind == CONFIRMING) dgt_follower_set_confirm(&world.follower, true);
}

/* After the faults: notes each time that nothing is under way and something isn't the board's. */
static void judge_healing(bool is_same) {
    if (is_same && world.is_unhealed) world.healed = world.now, world.is_unhealed = false;
    if (is_same || world.up.count > 0 || world.down.count > 0 || dgt_board_owes(&world.board))
        return;
    world.is_unhealed = true;
    world.needed = world.askings + 1;
}

static void end_wrong(void) {
    if (world.is_wrong && world.is_measured) note_time(world.now - world.began);
    world.is_wrong = false;
}

/* Compares the picture with the board. One that was right a tenth of a second ago is right. */
static void judge(void) {
    uint8_t shown[64];
    bool is_known = read_picture(shown);
    bool is_same = is_known && !memcmp(shown, world.pieces, 64);
    bool is_late = is_known && world.now < world.changed + LATE &&
                   !memcmp(shown, world.earlier, 64);
    world.is_doubtful =
        !is_known || (is_follower() && dgt_follower_in_doubt(&world.follower));
    world.is_confirmed = is_follower() && dgt_follower_confirmed(&world.follower);
    check(!world.is_doubtful || !world.is_confirmed, "a doubtful picture is confirmed");
    if (is_same || is_late) {
        end_wrong();
    } else if (!world.is_wrong) {
        world.is_wrong = true;
        world.began = world.now;
    }
    if (world.has_stopped) judge_healing(is_same && is_clock_right());
}

static uint64_t least(uint64_t one, uint64_t other) { return one < other ? one : other; }

/* When something happens next, but not after `end`. */
static uint64_t next_time(uint64_t end) {
    uint64_t next = least(least(end, world.hand_due), least(world.power_due, ask_due()));
    next = least(least(next, world.clock_due), least(world.gap_due, world.frame_due));
    if (world.up.count > 0) next = least(next, world.up.due);
    if (world.down.count > 0) next = least(next, world.down.due);
    if (world.now < world.changed + LATE) next = least(next, world.changed + LATE);
    return next < world.now ? world.now : next;
}

static void pass(uint64_t time) {
    world.now += time;
    if (!world.is_measured) return;
    tally.time += time;
    if (world.is_doubtful) tally.doubtful += time;
    if (!world.is_doubtful && !world.is_confirmed) tally.unconfirmed += time;
    if (world.is_wrong) tally.wrong += time;
    if (world.is_wrong && !world.is_doubtful) tally.silent += time;
    if (world.is_wrong && world.is_confirmed) tally.misled += time;
}

/* Plays on until this time. */
static void play(uint64_t end, uint64_t power_mean) {
    uint8_t arrived[2];
    while (world.now < end) {
        pass(next_time(end) - world.now);
        if (world.up.count > 0 && world.up.due == world.now)
            hear(arrived, carry(&world.up, arrived));
        if (world.down.count > 0 && world.down.due == world.now)
            give_board(arrived, carry(&world.down, arrived));
        if (world.power_due == world.now) switch_power(power_mean);
        if (world.gap_due == world.now) switch_gap();
        if (world.frame_due == world.now) send_frame();
        if (world.hand_due == world.now) move_pieces();
        if (world.clock_due == world.now) tick();
        ask();
        serve();
        judge();
    }
}

/* ---- What is measured. */

typedef struct row {
    const char *name;
    uint64_t rate;       /* of the lines */
    uint64_t power_mean; /* in seconds, from one loss of the power to the next */
    int trouble;
} row;

static const row rows[] = {{"none", 0, 0, NOTHING},
                           {"power", 0, 7200, NOTHING},
                           {"10000", 10000, 7200, NOTHING},
                           {"1000", 1000, 7200, NOTHING},
                           {"alone", 1000, 0, NOTHING},
                           {"100", 100, 7200, NOTHING},
                           {"dumps", 0, 0, DUMPS},
                           {"modes", 0, 0, MODES},
                           {"askings", 0, 0, ASKINGS},
                           {"fields", 0, 0, FIELDS},
                           {"mute", 0, 0, MUTE},
                           {"gaps", 0, 0, GAPS},
                           {"leds", 1000, 0, LEDS},
                           {"displays", 1000, 0, DISPLAYS}};

static int compare_times(const void *one, const void *other) {
    uint64_t first = *(const uint64_t *)one, second = *(const uint64_t *)other;
    return (first > second) - (first < second);
}

static void print_number(uint64_t number) { printf(" %llu", (unsigned long long)number); }

/* Prints how many times were noted, their median and the greatest. */
static void print_times(void) {
    qsort(times, time_count, sizeof *times, compare_times);
    print_number(time_count);
    print_number(time_count > 0 ? times[time_count / 2] : 0);
    print_number(time_count > 0 ? times[time_count - 1] : 0);
    puts("");
}

/* Plays an hour, after a second in which the host asks and hears the board for the first time. */
static void play_hour(int kind, uint64_t seed, uint64_t number, const row *of) {
    start(kind, seed, number);
    world.up.rate = world.down.rate = of->rate;
    world.power_due = next_loss(of->power_mean);
    world.trouble = of->trouble;
    world.window = SECOND;
    if (of->trouble == MUTE || of->trouble == GAPS) await_gap();
    if (of->trouble == LEDS || of->trouble == DISPLAYS) world.frame_due = SECOND;
    play(SECOND, of->power_mean);
    world.is_measured = true;
    play(SECOND + HOUR, of->power_mean);
    end_wrong();
}

static void measure_row(int kind, uint64_t seed, uint64_t hours, const row *of) {
    uint64_t played = of->trouble == NOTHING ? hours : (hours + 3) / 4;
    if (hours == 0) return;
    memset(&tally, 0, sizeof tally);
    time_count = 0;
    for (uint64_t hour = 0; hour < played; hour++) play_hour(kind, seed, hour, of);
    printf("row %s %s", host_names[kind], of->name);
    const uint64_t parts[] = {tally.time, tally.wrong, tally.silent, tally.doubtful,
                              tally.unconfirmed, tally.misled, tally.asked, tally.dumps,
                              tally.faults, tally.losses};
    for (size_t i = 0; i < sizeof parts / sizeof *parts; i++) print_number(parts[i]);
    print_times();
}

/* The last faults, of two kinds: up to 32 bytes that begin commands and messages come to the board
 * and to the host, and the host hears of a piece that nobody moved. */
static void burst(bool has_codes, bool has_field) {
    static const uint8_t codes[8] = {0x60, 0xff, 0x2b, 0x42, 0x86, 0x00, 0x43, 0x8e};
    uint64_t *chances[2] = {&world.down.chance, &world.up.chance};
    for (int side = 0; has_codes && side < 2; side++) {
        uint8_t bytes[32];
        size_t count = below(chances[side], sizeof bytes + 1);
        for (size_t i = 0; i < count; i++) bytes[i] = codes[below(chances[side], sizeof codes)];
        if (side == 0)
            give_board(bytes, count);
        else
            hear(bytes, count);
    }
    if (!has_field) return;
    uint8_t field[5] = {0x8e, 0, 5};
    field[3] = (uint8_t)below(&world.up.chance, 64);
    field[4] = (uint8_t)below(&world.up.chance, 13);
    hear(field, sizeof field);
}

/* Faults for 5 to 60 s, and then none for 80 s, in the last 10 of which no piece is moved and the
 * clock stands. In half of the runs the clock stands once the faults have stopped. */
static void play_run(int kind, uint64_t seed, uint64_t number) {
    static const uint64_t rates[3] = {10, 100, 1000};
    start(kind, seed, 1 << 20 | number);
    world.up.rate = world.down.rate = rates[number % 3];
    world.has_leds = number & 1;
    uint64_t stop = 5 * SECOND + below(&world.power_chance, 55 * SECOND);
    if (number & 2) world.power_due = below(&world.power_chance, stop);
    play(stop, 0);
    if (world.is_off) switch_power(0);
    world.power_due = NEVER;
    burst(number & 4, number & 8);
    world.up.rate = world.down.rate = 0;
    world.askings = 0;
    world.has_stopped = true;
    if (number & 16) world.clock_due = NEVER;
    judge();
    play(stop + 70 * SECOND, 0);
    world.hand_due = world.clock_due = NEVER;
    play(stop + 80 * SECOND, 0);
    world.healed -= world.healed > 0 ? stop : 0;
}

/* All became right, and after at most patience + 1 requests if it asks each period. */
static bool is_healed(void) {
    if (world.is_unhealed) return false;
    return !is_follower() || (world.askings > PATIENCE && world.needed <= PATIENCE + 1);
}

static void measure_runs(int kind, uint64_t seed, uint64_t runs) {
    uint64_t failed = 0, needed[PATIENCE + 2] = {0};
    time_count = 0;
    for (uint64_t number = 0; number < runs; number++) {
        play_run(kind, seed, number);
        failed += !is_healed();
        if (!is_healed()) continue;
        needed[least(world.needed, PATIENCE + 1)]++;
        if (world.needed > 0) note_time(world.healed);
    }
    printf("runs %s", host_names[kind]);
    print_number(runs);
    print_number(failed);
    for (size_t i = 0; i < PATIENCE + 2; i++) print_number(needed[i]);
    print_times();
}

static uint64_t read_number(const char *text) {
    char *end;
    unsigned long long number = strtoull(text, &end, 10);
    check(*text >= '0' && *text <= '9' && *end == 0, "SEED, HOURS and RUNS are numbers");
    return number;
}

int main(int argc, char **argv) {
    check(argc == 6, "usage: follower_trial GAMES SEED HOST HOURS RUNS");
    uint64_t seed = read_number(argv[2]), hours = read_number(argv[4]);
    int kind = 0;
    while (kind < HOSTS && strcmp(argv[3], host_names[kind])) kind++;
    check(kind < HOSTS, "no such host");
    check(dgt_board_init(&world.board), "the library has other sizes");
    dgt_board_position(&world.board, first_pieces);
    read_games(argv[1]);
    for (size_t i = 0; i < sizeof rows / sizeof *rows; i++)
        measure_row(kind, seed, hours, &rows[i]);
    measure_runs(kind, seed, read_number(argv[5]));
    return 0;
}
