#define _DEFAULT_SOURCE
#include "input.h"

#include <stdio.h>
#include <stdlib.h>
#include <string.h>
#include <sys/mman.h>
#include <unistd.h>

#define ROOM 65536 /* of each place: at least MOST_CHUNK, and whole pages of any machine */

void stop(const char *file, int line, const char *what) {
    fprintf(stderr, "%s:%d: not so: %s\n", file, line, what);
    abort();
}

/* ---- Choices. */

static const uint8_t *input;
static size_t input_left;
static bool is_guarded_before; /* memory begins at an unmapped page instead of ending at one */

static void make_places(void);

void input_begin(const uint8_t *data, size_t n) {
    make_places();
    input = data;
    input_left = n;
    is_guarded_before = input_byte() & 1;
}

bool input_is_left(void) { return input_left > 0; }

uint8_t input_byte(void) {
    if (input_left == 0) return 0;
    input_left--;
    return *input++;
}

size_t input_room(size_t most) {
    uint8_t how = input_byte();
    size_t room = most;
    if (how < 128)
        room = how % 9;
    else if (how < 200)
        room = how - 128u;
    else if (how < 240)
        room = input_byte() * 65u;
    return room < most ? room : most;
}

static uint8_t made[MOST_CHUNK];

/* Bytes of the input itself. */
static size_t make_plain(size_t n) {
    if (n > input_left) n = input_left;
    if (n == 0) return 0;
    memcpy(made, input, n);
    input += n;
    input_left -= n;
    return n;
}

/* Equal bytes: a multiple of `step`, and one more. */
static size_t make_equal(size_t step) {
    uint8_t byte = input_byte();
    size_t n = input_byte() * step;
    n += input_byte();
    if (n > MOST_CHUNK) n = MOST_CHUNK;
    memset(made, byte, n);
    return n;
}

/* A whole message with a body of n bytes. */
static size_t make_message(uint8_t code, uint8_t n) {
    made[0] = code | 0x80;
    made[1] = (uint8_t)((n + 3) >> 7);
    made[2] = (n + 3) & 0x7f;
    for (size_t i = 0; i < n; i++) made[3 + i] = input_byte() & 0x7f;
    return n + 3u;
}

/* A message with a code that fixes a size. */
static size_t make_known_message(void) {
    static const uint8_t sizes[][2] = {{0x06, 64}, {0x0d, 7}, {0x0e, 2}, {0x11, 5}, {0x13, 2}};
    const uint8_t *chosen = sizes[input_byte() % (sizeof sizes / sizeof *sizes)];
    return make_message(chosen[0], chosen[1]);
}

static size_t make_short_command(uint8_t which) {
    static const uint8_t codes[] = {
        DGT_SEND_RESET,        DGT_SEND_CLOCK,     DGT_SEND_DUMP,        DGT_SEND_UPDATE,
        DGT_SEND_UPDATE_BOARD, DGT_SEND_SERIAL,    DGT_SEND_UPDATE_NICE, DGT_SEND_TRADEMARK,
        DGT_SEND_BATTERY,      DGT_SEND_VERSION,   DGT_SEND_LONG_SERIAL,
    };
    made[0] = codes[which % sizeof codes];
    return 1;
}

/* A clock message or an LED frame, of two bytes and n more. */
static size_t make_long_command(bool is_clock, uint8_t n) {
    made[0] = is_clock ? DGT_SEND_CLOCK_MESSAGE : DGT_SEND_LEDS;
    made[1] = n;
    for (size_t i = 0; i < n; i++) made[2 + i] = input_byte();
    if (is_clock && n >= 3) {
        made[2] = 0x03;
        made[n + 1] = 0x00;
    }
    return n + 2u;
}

static size_t make_chunk(void) {
    uint8_t how = input_byte();
    if (how < 160) return make_plain(how);
    if (how < 184) return make_short_command(how);
    if (how < 192) return make_long_command(how % 2 == 0, input_byte());
    if (how < 200) return make_equal(1);
    if (how < 204) return make_equal(128);
    if (how < 232) return make_known_message();
    uint8_t code = input_byte();
    return make_message(code, input_byte());
}

chunk input_chunk(void) {
    size_t n = make_chunk();
    uint8_t *bytes = guarded(IN, n);
    memcpy(bytes, made, n);
    return (chunk){bytes, n};
}

void check_same_chunk(chunk given) { CHECK(memcmp(given.bytes, made, given.n) == 0); }

void use_all(chunk given, using_bytes *use) {
    for (size_t at = 0, used = 1; used > 0; at += used)
        used = use(given.bytes + at, given.n - at);
}

void use_chunk(using_bytes *use) {
    chunk given = input_chunk();
    use_all(given, use);
    check_same_chunk(given);
}

/* ---- Memory. */

static uint8_t *places[PLACES];

static void make_places(void) {
    if (places[0]) return;
    size_t page = (size_t)sysconf(_SC_PAGESIZE);
    CHECK(ROOM % page == 0);
    for (size_t i = 0; i < PLACES; i++) {
        void *mapped =
            mmap(NULL, ROOM + 2 * page, PROT_NONE, MAP_PRIVATE | MAP_ANONYMOUS, -1, 0);
        CHECK(mapped != MAP_FAILED);
        places[i] = (uint8_t *)mapped + page;
        CHECK(mprotect(places[i], ROOM, PROT_READ | PROT_WRITE) == 0);
    }
}

void *guarded(enum place which, size_t n) {
    CHECK(n <= ROOM);
    uint8_t *memory = places[which] + (is_guarded_before ? 0 : ROOM - n);
    memset(memory, FILL, n);
    return memory;
}

void check_kept(const void *memory, size_t from, size_t n) {
    static uint8_t filled[ROOM];
    if (filled[0] != FILL) memset(filled, FILL, sizeof filled);
    CHECK(memcmp((const uint8_t *)memory + from, filled, n - from) == 0);
}

void check_written(const void *memory, size_t n, const void *right, size_t right_n) {
    size_t written = n < right_n ? n : right_n;
    CHECK(memcmp(memory, right, written) == 0);
    check_kept(memory, written, n);
}
