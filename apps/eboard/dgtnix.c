/* libdgtnix.so: the nine names that eboard looks for. README.md explains how eboard uses them.
 *
 * One thread reads the board, and writes events for eboard to a pipe. One thread of the program
 * calls all names. A lock protects the squares of GetBoard; everything else is set before the start
 * or read after the end of the first thread.
 */
#define _GNU_SOURCE
#include "line.h"
#include "moves.h"

#include <errno.h>
#include <fcntl.h>
#include <limits.h>
#include <poll.h>
#include <pthread.h>
#include <signal.h>
#include <stdio.h>
#include <stdlib.h>
#include <string.h>
#include <sys/eventfd.h>
#include <unistd.h>

#define PUBLIC __attribute__((visibility("default")))

enum { SERIAL_TEXT = 0x1f00, BUS_ADDRESS_TEXT, VERSION_TEXT, TRADEMARK_TEXT, DRIVER_TEXT };

enum {
    CLICK = 1,         /* the event "a piece was lifted", which eboard treats as a click */
    SETTLE = 300,      /* the least rest of a move before it is reported */
    BOARD_WAIT = 3000, /* for all squares, at the start */
    TEXTS_WAIT = 700   /* for the texts, which not every board sends */
};

PUBLIC int dgtnix_errno = 0;
PUBLIC const char *dgtnixQueryString(int which);
PUBLIC int dgtnixSetOption(unsigned long option, unsigned value);
PUBLIC int dgtnixInit(const char *port);
PUBLIC int dgtnixClose(void);
PUBLIC const char *dgtnixGetBoard(void);
PUBLIC const char *dgtnixToPrintableBoard(const char *squares);
PUBLIC int dgtnixTestBoard(const char *squares);
PUBLIC int dgtnixGetClockData(void);

static bool running;
static pthread_t reader;
static int events[2] = {-1, -1}; /* a pipe: eboard reads [0] */
static int stop = -1;            /* readable once the thread has to end */

static char serial[8], version[16], trademark[128]; /* set before the thread starts */

/* Only for the reader while it runs. */
static line board = {.port = -1};
static game followed;

static pthread_mutex_t lock = PTHREAD_MUTEX_INITIALIZER;
static char shown[65]; /* under the lock: the squares that GetBoard returns */

/* ---- Events for eboard */

/* eboard treats each event as a click on its window's board, which it turns if the player has
 * Black; but it assumes that the squares are those of a turned board, too. */
static void set_click(uint8_t event[4], uint8_t square, uint8_t piece) {
    if (game_player(&followed) == BLACK) square = (uint8_t)(63 - square);
    event[0] = CLICK;
    event[1] = (uint8_t)('A' + square % 8);
    event[2] = (uint8_t)(8 - square / 8);
    event[3] = (uint8_t)dgt_piece_letter(piece);
}

/* Reports on standard error that eboard never gets a move. The squares are the game's. */
static void log_dropped(const move *made) {
    char from[3], to[3];
    dgt_square_name(made->from, from);
    dgt_square_name(made->to, to);
    fprintf(stderr, "dgtnix: move %s%s dropped: the pipe is full, nobody reads it\n", from, to);
}

/* Two clicks are a move. They are one write, which the pipe takes completely or not at all. */
static void tell(const move *made) {
    uint8_t clicks[8];
    if (!game_wants(&followed, side_of(made->piece))) return;
    set_click(clicks, made->from, made->piece);
    set_click(clicks + 4, made->to, made->becomes);
    if (write(events[1], clicks, sizeof clicks) != sizeof clicks) log_dropped(made);
}

/* ---- The board's squares */

static void show(const uint8_t pieces[64]) {
    pthread_mutex_lock(&lock);
    for (int square = 0; square < 64; square++)
        shown[square] = pieces[square] ? dgt_piece_letter(pieces[square]) : ' ';
    pthread_mutex_unlock(&lock);
}

/* If a dump raises a doubt, it differs from the squares before, and these were wrong. */
static void see(bool is_dump) {
    static bool was_sure;
    uint8_t pieces[64];
    bool is_sure = line_is_sure(&board, pieces);
    if (is_sure) show(pieces);
    if (is_dump && was_sure && !is_sure) game_forget(&followed);
    was_sure = is_sure;
    game_see(&followed, line_now(), is_sure ? pieces : NULL, line_is_confirmed(&board));
}

/* Reports moves. While one may wait, all squares are requested: eboard can't take a move back, and
 * a picture may be wrong until the board has sent all its squares again. */
static void look(void) {
    move made;
    see(false);
    while (game_next(&followed, line_now(), &made)) tell(&made);
    if (!line_is_confirmed(&board) && game_waits(&followed)) line_hurry(&board);
}

/* ---- The thread */

/* The milliseconds until a time, for poll. */
static int left_until(long long time) {
    long long left = time - line_now();
    return left < 0 ? 0 : left < INT_MAX ? (int)left : INT_MAX;
}

/* When there is something to do besides reading. */
static long long next_time(void) {
    long long due = line_due(&board), rested = game_due(&followed);
    return rested < due ? rested : due;
}

static void *read_board(void *unused) {
    for (;;) {
        struct pollfd waits[2] = {{stop, POLLIN, 0}, {board.port, POLLIN, 0}};
        poll(waits, board.port < 0 ? 1 : 2, left_until(next_time()));
        if (waits[0].revents) return unused;
        if (board.port >= 0 && waits[1].revents) line_read(&board, see);
        look();
        line_keep(&board);
    }
}

/* Signals stay with the program's own thread. */
static bool start_reader(void) {
    sigset_t all, kept;
    sigfillset(&all);
    pthread_sigmask(SIG_BLOCK, &all, &kept);
    errno = pthread_create(&reader, NULL, read_board, NULL);
    running = errno == 0;
    pthread_sigmask(SIG_SETMASK, &kept, NULL);
    return running;
}

/* ---- Start and end */

/* Begins a game with the settings. False, with the reason in errno, if this is another library. */
static bool begin(void) {
    const char *side = getenv("DGT_SIDE"), *wait = getenv("DGT_SETTLE");
    enum plays plays = BY_THE_BOARD;
    if (side && strcmp(side, "white") == 0) plays = PLAYS_WHITE;
    if (side && strcmp(side, "black") == 0) plays = PLAYS_BLACK;
    if (side && strcmp(side, "both") == 0) plays = PLAYS_BOTH;
    int settle = wait ? atoi(wait) : 0;
    errno = ELIBBAD;
    return game_begin(&followed, plays, settle > SETTLE && settle <= 60000 ? settle - SETTLE : 0);
}

/* Reads the board until its squares are confirmed, or it has reported `texts` texts. False, with
 * the reason in errno, if that takes too long. Squares that are sure by then are enough. */
static bool hear_for(int milliseconds, int texts) {
    uint8_t pieces[64];
    long long end = line_now() + milliseconds;
    while (texts > 0 ? board.texts < texts : !line_is_confirmed(&board)) {
        long long due = line_due(&board);
        struct pollfd waits = {board.port, POLLIN, 0};
        errno = board.port < 0 ? ENODEV : ETIMEDOUT;
        if (board.port < 0) return false;
        if (line_now() >= end) return texts == 0 && line_is_sure(&board, pieces);
        if (poll(&waits, 1, left_until(due < end ? due : end)) > 0) line_read(&board, see);
        look();
        if (board.port >= 0) line_keep(&board);
    }
    return true;
}

static void close_all(void) {
    int *descriptors[] = {&events[0], &events[1], &stop};
    for (int each = 0; each < 3; each++) {
        if (*descriptors[each] >= 0) close(*descriptors[each]);
        *descriptors[each] = -1;
    }
    line_close(&board);
}

/* The descriptors stay in this process, and the thread never waits for eboard to read. */
static bool open_pipe(void) {
    if (pipe2(events, O_CLOEXEC) != 0) return false;
    if (fcntl(events[1], F_SETFL, O_NONBLOCK) != 0) return false;
    stop = eventfd(0, EFD_CLOEXEC);
    return stop >= 0;
}

static bool start(const char *port) {
    static char name[4096];
    if (strlen(port) >= sizeof name) {
        errno = ENAMETOOLONG;
        return false;
    }
    strcpy(name, port);
    if (!begin() || !open_pipe() || !line_open(&board, name)) return false;
    if (!hear_for(BOARD_WAIT, 0)) return false;
    line_ask_texts(&board);
    hear_for(TEXTS_WAIT, 3);
    memcpy(serial, board.serial, sizeof serial);
    memcpy(version, board.version, sizeof version);
    memcpy(trademark, board.trademark, sizeof trademark);
    return start_reader();
}

/* Returns the descriptor to read, or -1 with the reason in dgtnix_errno. */
PUBLIC int dgtnixInit(const char *port) {
    if (running || !port) {
        dgtnix_errno = running ? EBUSY : EINVAL;
        return -1;
    }
    if (start(port)) return events[0];
    dgtnix_errno = errno;
    close_all();
    return -1;
}

/* eboard unloads the library right after this, so the thread and all descriptors are ended. */
PUBLIC int dgtnixClose(void) {
    const uint64_t one = 1;
    if (!running) return 0;
    if (write(stop, &one, sizeof one) != sizeof one) return -1;
    pthread_join(reader, NULL);
    running = false;
    close_all();
    return 0;
}

/* ---- eboard's questions */

/* The driver's version must be at least 1.8137 in the user's locale. A whole number avoids the
 * decimal separator, which is a comma in many languages. */
PUBLIC const char *dgtnixQueryString(int which) {
    switch (which) {
    case SERIAL_TEXT: return serial;
    case BUS_ADDRESS_TEXT: return "none";
    case VERSION_TEXT: return version;
    case TRADEMARK_TEXT: return trademark;
    case DRIVER_TEXT: return "2";
    default: return "";
    }
}

/* 64 squares from a8 to h1, with a blank for an empty square, and a zero byte. */
PUBLIC const char *dgtnixGetBoard(void) {
    static char copy[65];
    pthread_mutex_lock(&lock);
    memcpy(copy, shown, sizeof copy);
    pthread_mutex_unlock(&lock);
    return copy;
}

/* A line for each rank: 128 characters, of which eboard prints at most 249. */
PUBLIC const char *dgtnixToPrintableBoard(const char *squares) {
    static char text[2 * 64 + 1];
    for (int square = 0; square < 64; square++) {
        text[2 * square] = squares[square] == ' ' ? '.' : squares[square];
        text[2 * square + 1] = square % 8 == 7 ? '\n' : ' ';
    }
    return text;
}

/* 1 if the board, which may be turned, has the same pieces. The 64 squares end without a zero. */
PUBLIC int dgtnixTestBoard(const char *squares) {
    const char *stands = dgtnixGetBoard();
    bool upright = true, turned = true;
    for (int square = 0; square < 64; square++) {
        upright = upright && stands[square] == squares[square];
        turned = turned && stands[63 - square] == squares[square];
    }
    return upright || turned;
}

/* eboard looks for this name, but never calls it. */
PUBLIC int dgtnixGetClockData(void) { return 0; }

/* eboard requests messages for developers; there are none. */
PUBLIC int dgtnixSetOption(unsigned long option, unsigned value) {
    (void)option;
    (void)value;
    return 0;
}
