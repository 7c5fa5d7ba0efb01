/* Tries dgt_port.h on a pseudo-terminal, and on a folder that stands for /dev. Exits with 1 and
 * prints the first thing that is not as dgt_port.h says, or 0. */
#define _GNU_SOURCE
#include <linux/serial.h>
#include <stdarg.h>
#include <sys/ioctl.h>

/* What the port counts, which a pseudo-terminal doesn't. */
static struct serial_icounter_struct counted;

/* Stands for ioctl in dgt_port.h. */
static int ioctl_counting(int port, unsigned long request, ...) {
    va_list rest;
    if (request != TIOCGICOUNT) return ioctl(port, request);
    va_start(rest, request);
    *va_arg(rest, struct serial_icounter_struct *) = counted;
    va_end(rest);
    return 0;
}
#define ioctl ioctl_counting
#include "dgt_port.h"
#undef ioctl

#include <signal.h>
#include <stdio.h>
#include <stdlib.h>
#include <sys/prctl.h>
#include <sys/time.h>
#include <sys/wait.h>

#define CHECK(holds)                                                              \
    do {                                                                          \
        if (!(holds)) {                                                           \
            fprintf(stderr, "line %d: %s (%s)\n", __LINE__, #holds, strerror(errno)); \
            exit(1);                                                              \
        }                                                                         \
    } while (0)

enum { MANY = 100000 };
static int line, port;
static char name[64];
static uint8_t bytes[MANY];

static void opening(void) {
    struct termios settings;
    line = posix_openpt(O_RDWR | O_NOCTTY);
    CHECK(line >= 0 && grantpt(line) == 0 && unlockpt(line) == 0);
    CHECK(ptsname_r(line, name, sizeof name) == 0);
    int next = dup(0);
    close(next);
    CHECK(dgt_port_open("/dev/nowhere") == -1 && errno == ENOENT);
    CHECK(dgt_port_open("/dev/null") == -1 && errno == ENOTTY);
    CHECK(!strcmp(dgt_port_advice(errno), "not a serial port"));
    port = dgt_port_open(name);
    CHECK(port == next); /* so those that failed were closed */
    CHECK(tcgetattr(port, &settings) == 0);
    CHECK(settings.c_iflag == 0 && settings.c_oflag == 0 && settings.c_lflag == 0);
    CHECK((settings.c_cflag & (CSIZE | PARENB | CSTOPB | CRTSCTS)) == CS8);
    CHECK(cfgetispeed(&settings) == B9600 && cfgetospeed(&settings) == B9600);
    CHECK((fcntl(port, F_GETFL) & O_NONBLOCK) && (fcntl(port, F_GETFD) & FD_CLOEXEC));
    CHECK(dgt_port_open(name) == -1 && (errno == EWOULDBLOCK || errno == EBUSY));
    CHECK(!strncmp(dgt_port_advice(errno), "in use by another program", 25));
    int is_refused = 0;
    CHECK(ioctl(port, TIOCGEXCL, &is_refused) == 0 && is_refused == 1); /* any other opener */
    dgt_port_close(port);
    port = open(name, O_RDWR | O_NOCTTY);
    CHECK(port >= 0 && ioctl(port, TIOCGEXCL, &is_refused) == 0 && is_refused == 0);
    close(port);
    port = dgt_port_open(name);
    int copy = dup(port); /* as a child of the process has one */
    dgt_port_close(port);
    CHECK(port >= 0 && copy >= 0);
    port = dgt_port_open(name);
    CHECK(port >= 0);
    close(copy);
}

static void ignore(int number) {
    (void)number;
}

static void reading(void) {
    uint64_t start = dgt_port_now();
    CHECK(dgt_port_read(port, bytes, sizeof bytes, start + 100) == 0);
    CHECK(dgt_port_now() - start >= 100 && dgt_port_now() - start < 5000);
    CHECK(write(line, "\x8e\r\n", 3) == 3);
    CHECK(dgt_port_read(port, bytes, 1, UINT64_MAX) == 1 && bytes[0] == 0x8e);
    CHECK(dgt_port_read(port, bytes, sizeof bytes, 0) == 2 && !memcmp(bytes, "\r\n", 2));

    /* A signal ends the wait. */
    struct sigaction action = {.sa_handler = ignore};
    struct itimerval soon = {.it_value = {.tv_usec = 50000}};
    CHECK(sigaction(SIGALRM, &action, NULL) == 0 && setitimer(ITIMER_REAL, &soon, NULL) == 0);
    start = dgt_port_now();
    CHECK(dgt_port_read(port, bytes, sizeof bytes, start + 60000) == 0);
    CHECK(dgt_port_now() - start < 30000);
}

static void writing(void) {
    uint8_t given[4];
    CHECK(dgt_port_write(port, (const uint8_t *)"\x44\n", 2) && read(line, given, 4) == 2);
    CHECK(!memcmp(given, "\x44\n", 2) && dgt_port_write(port, NULL, 0));

    /* More than the system keeps, to a side that pauses for longer than DGT_PORT_PATIENCE. */
    for (size_t i = 0; i < MANY; i++) bytes[i] = (uint8_t)(i % 251);
    pid_t reader = fork();
    if (reader == 0) {
        prctl(PR_SET_PDEATHSIG, SIGKILL); /* it doesn't outlive a test that fails */
        for (size_t i = 0; i < MANY; i++) {
            if (i % 6000 == 0 && i < 36000) nanosleep(&(struct timespec){0, 500000000}, NULL);
            if (read(line, given, 1) != 1 || given[0] != i % 251) _exit(1);
        }
        _exit(0);
    }
    int status = 1;
    CHECK(dgt_port_write(port, bytes, MANY));
    CHECK(waitpid(reader, &status, 0) == reader && status == 0);

    /* Nobody reads. */
    uint64_t start = dgt_port_now();
    CHECK(!dgt_port_write(port, bytes, MANY) && errno == ETIMEDOUT);
    CHECK(dgt_port_now() - start >= DGT_PORT_PATIENCE && dgt_port_now() - start < 30000);
    CHECK(!strcmp(dgt_port_advice(errno), "the port takes no bytes"));
    CHECK(tcflush(port, TCIOFLUSH) == 0 && tcflush(line, TCIOFLUSH) == 0);
}

/* Whether one of the faults has just been counted. It is so for DGT_PORT_LATE, and then no more. */
static bool is_noticed(dgt_port_faults *faults, int *count) {
    ++*count;
    bool is_noticed = dgt_port_is_disturbed(port, faults) && dgt_port_is_disturbed(port, faults);
    nanosleep(&(struct timespec){0, 1000000 * (DGT_PORT_LATE + 1)}, NULL);
    return is_noticed && !dgt_port_is_disturbed(port, faults);
}

static void counting(void) {
    dgt_port_faults faults = {0};
    CHECK(!dgt_port_is_disturbed(port, &faults));
    CHECK(is_noticed(&faults, &counted.frame) && is_noticed(&faults, &counted.overrun));
    CHECK(is_noticed(&faults, &counted.parity) && is_noticed(&faults, &counted.brk));
    CHECK(is_noticed(&faults, &counted.buf_overrun) && !is_noticed(&faults, &counted.rx));
    CHECK(!is_noticed(&faults, &counted.tx) && !is_noticed(&faults, &counted.cts));
}

/* Each turn hears one event. All events of a chunk are in doubt if the port has counted a fault
 * since the turn before, and not if it did before the first turn. */
static void turning(dgt_follower *follower) {
    static const uint8_t fields[] = {0x8e, 0, 5, 52, 0, 0x8e, 0, 5, 36, 1, 0x8e};
    const uint8_t dump[67] = {0x86, 0, 67, [3 + 36] = 1};
    dgt_port_input input = {0};
    counted.frame++;
    CHECK(write(line, fields, 11) == 11 && dgt_port_turn(port, follower, &input));
    CHECK(input.event.kind == DGT_EVENT_FIELD && input.event.square == 52);
    CHECK(!dgt_follower_in_doubt(follower) && dgt_port_turn(port, follower, &input));
    CHECK(input.event.square == 36 && dgt_follower_unread(follower) == 0);
    CHECK(dgt_port_turn(port, follower, &input) && input.event.kind == DGT_EVENT_NONE);
    CHECK(dgt_follower_unread(follower) == 1 && !dgt_follower_in_doubt(follower));
    counted.overrun++;
    CHECK(write(line, fields + 6, 4) == 4 && write(line, dump, sizeof dump) == sizeof dump);
    CHECK(dgt_port_turn(port, follower, &input) && input.event.square == 36);
    CHECK(dgt_follower_in_doubt(follower) && dgt_port_turn(port, follower, &input));
    CHECK(input.event.kind == DGT_EVENT_DUMP && dgt_follower_in_doubt(follower));
    nanosleep(&(struct timespec){0, 600000000}, NULL); /* half a second, and more */
    CHECK(write(line, dump, sizeof dump) == sizeof dump && dgt_port_turn(port, follower, &input));
    CHECK(input.event.kind == DGT_EVENT_DUMP && !dgt_follower_in_doubt(follower));
}

static void exchanging(void) {
    static dgt_follower follower;
    const uint8_t dump[67] = {0x86, 0, 67, [3 + 52] = 1};
    char text[DGT_PLACEMENT_ROOM];
    CHECK(dgt_follower_init(&follower, DGT_LEAST_PERIOD, 6));
    uint64_t start = dgt_port_now(), due;
    CHECK(dgt_port_exchange(port, &follower, bytes, sizeof bytes) == 0);
    CHECK(dgt_port_now() - start >= 999 && dgt_port_now() - start < 5000);
    CHECK(read(line, bytes, sizeof bytes) == 258 && !memcmp(bytes + 255, "\x44\x42\x44", 3));
    CHECK(write(line, dump, sizeof dump) == sizeof dump);
    CHECK(dgt_port_exchange(port, &follower, bytes, sizeof bytes) == sizeof dump);
    dgt_follower_hear_all(&follower, dgt_port_now(), bytes, sizeof dump);
    CHECK(dgt_follower_placement(&follower, text) && !strcmp(text, "8/8/8/8/8/8/4P3/8"));

    turning(&follower);

    /* A follower that asks never again waits for bytes. */
    CHECK(dgt_follower_init(&follower, UINT64_MAX, 6));
    CHECK(write(line, dump, sizeof dump) == sizeof dump);
    CHECK(dgt_port_exchange(port, &follower, bytes, sizeof bytes) == sizeof dump);
    dgt_follower_hear_all(&follower, dgt_port_now(), bytes, sizeof dump);
    CHECK(!dgt_follower_due_at(&follower, &due) && write(line, dump, 1) == 1);
    CHECK(dgt_port_exchange(port, &follower, bytes, sizeof bytes) == 1);
    CHECK(close(line) == 0);
    CHECK(dgt_port_exchange(port, &follower, bytes, sizeof bytes) == -1);
    CHECK(!strcmp(dgt_port_advice(errno), "the port has gone"));
    CHECK(dgt_port_read(port, bytes, sizeof bytes, UINT64_MAX) == -1);
    CHECK(!dgt_port_write(port, bytes, 1) && !strcmp(dgt_port_advice(errno), "the port has gone"));
    dgt_port_close(port);
}

#define COUNT(list) (sizeof(list) / sizeof *(list))
static const char *const devices[] = {"ttyUSB10", "ttyS0",   "ttyUSB1", "tty",
                                      "rfcomm0",  "ttyUSB0", "ttyACM0"};
static const char *const links[][2] = {{"usb-BB", "../../ttyUSB1"},
                                       {"usb-B", "../../ttyUSB1"},
                                       {"usb-gone", "../../ttyUSB7"},
                                       {"usb-A", "../../ttyACM0"},
                                       {".#usb-0", "../../ttyUSB0"}};
static const char *const listed[] = {"dev/serial/by-id/usb-A", "dev/serial/by-id/usb-B",
                                     "dev/rfcomm0", "dev/ttyUSB0", "dev/ttyUSB10"};

/* Makes the folder dev, which is used instead of /dev. */
static void plug_in(void) {
    CHECK(chdir("dev") == 0);
    for (size_t i = 0; i < COUNT(devices); i++)
        CHECK(close(open(devices[i], O_CREAT | O_WRONLY | O_CLOEXEC, 0600)) == 0);
    CHECK(mkdir("serial", 0700) == 0 && mkdir("serial/by-id", 0700) == 0);
    CHECK(chdir("serial/by-id") == 0);
    for (size_t i = 0; i < COUNT(links); i++) CHECK(symlink(links[i][1], links[i][0]) == 0);
    CHECK(chdir("../../..") == 0);
}

static void unplug(void) {
    CHECK(chdir("dev/serial/by-id") == 0);
    for (size_t i = 0; i < COUNT(links); i++) CHECK(unlink(links[i][0]) == 0);
    CHECK(chdir("../..") == 0 && rmdir("serial/by-id") == 0 && rmdir("serial") == 0);
    for (size_t i = 0; i < COUNT(devices); i++) CHECK(unlink(devices[i]) == 0);
    CHECK(chdir("..") == 0 && rmdir("dev") == 0);
}

/* The name of the first port if that of the folder has this length, or an empty one. */
static const char *first_name(size_t length) {
    static char folder[DGT_PORT_PATH_ROOM];
    static dgt_ports ports;
    CHECK(length < sizeof folder);
    memset(folder, '/', length);
    memcpy(folder, "dev", 3);
    folder[length] = 0;
    ports = (dgt_ports){.folder = folder};
    return dgt_port_next(&ports) ? strrchr(ports.path, '/') + 1 : "";
}

static void listing(void) {
    char folder[] = "/tmp/test_port.XXXXXX";
    dgt_ports none = {.folder = "dev"}, ports = none;
    int here = open(".", O_RDONLY | O_CLOEXEC);
    CHECK(here >= 0 && mkdtemp(folder) && chdir(folder) == 0 && !dgt_port_next(&none));
    CHECK(mkdir("dev", 0700) == 0 && !dgt_port_next(&none));
    plug_in();
    int next = dup(0);
    CHECK(close(next) == 0);
    for (size_t i = 0; i < COUNT(listed); i++)
        CHECK(dgt_port_next(&ports) && !strcmp(ports.path, listed[i]));
    CHECK(!dgt_port_next(&ports) && !dgt_port_next(&ports));
    CHECK(dup(0) == next && close(next) == 0); /* so the folders were closed */
    CHECK(!strcmp(first_name(3), "usb-A") && !strcmp(first_name(DGT_PORT_PATH_ROOM - 20), "usb-A"));
    CHECK(!strcmp(first_name(DGT_PORT_PATH_ROOM - 19), "rfcomm0")); /* the links don't fit */
    CHECK(!strcmp(first_name(DGT_PORT_PATH_ROOM - 14), "rfcomm0"));
    CHECK(!strcmp(first_name(DGT_PORT_PATH_ROOM - 13), "")); /* nor does their folder */
    unplug();
    CHECK(fchdir(here) == 0 && close(here) == 0 && rmdir(folder) == 0);
}

int main(void) {
    listing();
    opening();
    reading();
    writing();
    counting();
    exchanging();
    return 0;
}
