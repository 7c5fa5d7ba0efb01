/*
 * dgt_port.h: the serial port of a DGT board, for programs in C on Linux.
 *
 * Each function is static: the library contains none of them, and dgt.h doesn't need them. This
 * program follows a board:
 *
 *     int port = dgt_port_open("/dev/ttyUSB0");
 *     dgt_port_input input = {0};
 *     if (port < 0) return fprintf(stderr, "%s\n", dgt_port_advice(errno)), 1;
 *     while (dgt_port_turn(port, &follower, &input))
 *         if (dgt_follower_placement(&follower, text)) ...
 *     fprintf(stderr, "%s\n", dgt_port_advice(errno));        // the port has gone
 *     dgt_port_close(port);                                   // open it again once it is back
 *
 * dgt_port_next lists the ports that may be boards. Only one process can use a port: others are
 * refused, by flock and by TIOCEXCL. A port that is plugged in again may get another number; its
 * name in /dev/serial/by-id stays the same. bindings/c/examples/trainer.c waits for it.
 *
 * With -std=c99 or -std=c11, define _DEFAULT_SOURCE before the first #include. With -std=gnu11 and
 * other GNU modes, and in C++, nothing has to be defined.
 */
#ifndef DGT_PORT_H
#define DGT_PORT_H

#include "dgt.h"

#include <dirent.h>
#include <errno.h>
#include <fcntl.h>
#include <linux/serial.h>
#include <poll.h>
#include <stdbool.h>
#include <stddef.h>
#include <stdint.h>
#include <stdio.h>
#include <string.h>
#include <sys/file.h>
#include <sys/ioctl.h>
#include <sys/stat.h>
#include <termios.h>
#include <time.h>
#include <unistd.h>

#ifndef CRTSCTS
#error "dgt_port.h: define _DEFAULT_SOURCE before the first #include"
#endif

#if defined(__cplusplus) && defined(__GNUC__)
#pragma GCC diagnostic push
#pragma GCC diagnostic ignored "-Wold-style-cast" /* C has no others */
#endif

enum {
    DGT_PORT_PATIENCE = 2000,   /* the longest wait of dgt_port_write, in milliseconds */
    DGT_PORT_LONGEST = 3600000, /* the longest wait of dgt_port_read, in milliseconds */
    DGT_PORT_LATE = 100,        /* how long bytes from before a fault may arrive, in milliseconds */
    DGT_PORT_PATH_ROOM = 512    /* the room of a path with its final zero byte */
};

/* The time in milliseconds, by a clock that doesn't go back, for dgt_follower_ask and others. */
static inline uint64_t dgt_port_now(void) {
    struct timespec time;
    clock_gettime(CLOCK_MONOTONIC, &time);
    return (uint64_t)time.tv_sec * 1000 + (uint64_t)time.tv_nsec / 1000000;
}

/* A list of ports for dgt_port_next. Set all of it to 0 first. Set `folder` to use another folder
 * than /dev. `path` is the port that was found; don't change it. */
typedef struct dgt_ports {
    const char *folder;
    bool are_links_over_;
    char path[DGT_PORT_PATH_ROOM];
} dgt_ports;

/* Whether an entry of a folder has the name of a port. A link with a dot is not yet complete. */
static inline bool dgt_port_is_named_(const char *name, bool is_link) {
    if (is_link) return name[0] != '.';
    return !strncmp(name, "rfcomm", 6) || !strncmp(name, "ttyACM", 6) ||
           !strncmp(name, "ttyUSB", 6);
}

/* Finds the first path in a folder, in the order of names, that is after another one. It exists,
 * and it is the same file as `same`, if that isn't NULL. Returns false if there is none. */
static inline bool dgt_port_first_(const char *folder, bool are_links, const char *after,
                                   const struct stat *same, char first[DGT_PORT_PATH_ROOM]) {
    char path[DGT_PORT_PATH_ROOM];
    bool is_found = false;
    DIR *names = opendir(folder);
    if (!names) return false;
    for (struct dirent *entry; (entry = readdir(names)) != NULL;) {
        struct stat file;
        int length = snprintf(path, sizeof path, "%s/%s", folder, entry->d_name);
        if (length < 0 || length >= DGT_PORT_PATH_ROOM) continue;
        if (!dgt_port_is_named_(entry->d_name, are_links) || strcmp(path, after) <= 0) continue;
        if ((is_found && strcmp(path, first) >= 0) || stat(path, &file) != 0) continue;
        if (same && (file.st_dev != same->st_dev || file.st_ino != same->st_ino)) continue;
        is_found = true;
        memcpy(first, path, (size_t)length + 1);
    }
    closedir(names);
    return is_found;
}

/* Finds the next serial port that may be a board, which is one of USB or Bluetooth, and writes its
 * name to `path`. Returns false if there is no other. It opens no port.
 *
 *     for (dgt_ports ports = {0}; dgt_port_next(&ports);) puts(ports.path);
 *
 * The name is the port's first one in /dev/serial/by-id, which stays the same, or otherwise that in
 * /dev. Names in by-id are listed first; both groups are sorted. Paths that are too long are
 * omitted. */
static inline bool dgt_port_next(dgt_ports *ports) {
    char links[DGT_PORT_PATH_ROOM], path[DGT_PORT_PATH_ROOM];
    const char *folder = ports->folder ? ports->folder : "/dev";
    int length = snprintf(links, sizeof links, "%s/serial/by-id", folder);
    if (length < 0 || length >= DGT_PORT_PATH_ROOM) return false;
    for (;;) {
        struct stat file;
        bool are_links = !ports->are_links_over_;
        if (dgt_port_first_(are_links ? links : folder, are_links, ports->path, NULL, path)) {
            memcpy(ports->path, path, strlen(path) + 1);
            if (stat(path, &file) != 0) continue; /* it has just disappeared */
            bool is_linked = dgt_port_first_(links, true, "", &file, path);
            if (are_links ? is_linked && !strcmp(path, ports->path) : !is_linked) return true;
        } else if (are_links) {
            ports->are_links_over_ = true;
            ports->path[0] = 0;
        } else {
            return false;
        }
    }
}

/* Locks an open port, and sets it up. Returns false, with errno, on failure. */
static inline bool dgt_port_take_(int port) {
    struct termios settings;
    if (flock(port, LOCK_EX | LOCK_NB) != 0 || tcgetattr(port, &settings) != 0) return false;
    settings.c_iflag = settings.c_oflag = settings.c_lflag = 0;
    settings.c_cflag = (settings.c_cflag & HUPCL) | CS8 | CREAD | CLOCAL;
    settings.c_cc[VMIN] = 1;
    settings.c_cc[VTIME] = 0;
    cfsetispeed(&settings, B9600);
    cfsetospeed(&settings, B9600);
    return tcsetattr(port, TCSANOW, &settings) == 0 && ioctl(port, TIOCEXCL) == 0;
}

/* Opens a port only for this process: 9600 baud, 8 bits, no parity, 1 stop bit, no flow control,
 * raw. Returns its descriptor, which doesn't block. Returns -1, with errno, if it can't be opened
 * or locked, or isn't a serial port. It never waits. */
static inline int dgt_port_open(const char *name) {
    int port = open(name, O_RDWR | O_NOCTTY | O_NONBLOCK | O_CLOEXEC);
    if (port < 0 || dgt_port_take_(port)) return port;
    int why = errno;
    close(port);
    errno = why;
    return -1;
}

/* A description of an errno of these functions, and what to do about it. */
static inline const char *dgt_port_advice(int why) {
    switch (why) {
    case ENOENT: return "no such port (plug the board in; /dev/serial/by-id lists the ports)";
    case EACCES: return "permission denied (join the group dialout)";
    case EBUSY:
    case EWOULDBLOCK: return "in use by another program (end that one first)";
    case ENOTTY: return "not a serial port";
    case ENXIO:
    case EIO:
    case ENODEV: return "the port has gone";
    case ETIMEDOUT: return "the port takes no bytes";
    default: return strerror(why);
    }
}

/* Waits for an event of a port, or until a time. Returns the result of poll. */
static inline int dgt_port_wait_(int port, short events, uint64_t until) {
    uint64_t now = dgt_port_now(), left = until > now ? until - now : 0;
    struct pollfd polled = {port, events, 0};
    return poll(&polled, 1, left > DGT_PORT_LONGEST ? DGT_PORT_LONGEST : (int)left);
}

/* Sends all bytes. Returns false, with errno, if the port has gone, or has taken none of them for
 * DGT_PORT_PATIENCE. The system buffers the bytes, so this seldom waits. */
static inline bool dgt_port_write(int port, const uint8_t *bytes, size_t n) {
    uint64_t end = dgt_port_now() + DGT_PORT_PATIENCE;
    while (n > 0) {
        ssize_t wrote = write(port, bytes, n);
        if (wrote >= 0) {
            bytes += wrote;
            n -= (size_t)wrote;
            end = dgt_port_now() + DGT_PORT_PATIENCE;
        } else if (errno != EAGAIN && errno != EINTR) {
            return false;
        } else if (dgt_port_wait_(port, POLLOUT, end) == 0) {
            errno = ETIMEDOUT;
            return false;
        }
    }
    return true;
}

/* Waits for bytes, or until a time of dgt_port_now, and reads as many as there are, at most `n`.
 * Returns how many: 0 if none arrived by then, after a signal, and after DGT_PORT_LONGEST. Returns
 * -1, with errno, if the port has gone. */
static inline long dgt_port_read(int port, uint8_t *bytes, size_t n, uint64_t until) {
    int ready = dgt_port_wait_(port, POLLIN, until);
    if (ready <= 0) return ready == 0 || errno == EINTR ? 0 : -1;
    ssize_t got = read(port, bytes, n);
    if (got > 0) return got;
    if (got < 0) return errno == EAGAIN || errno == EINTR ? 0 : -1;
    errno = ENODEV; /* the line was hung up */
    return -1;
}

/* Sends a follower's request, if one is due, and reads until it is to be called again
 * (dgt_follower_due_at), as dgt_port_read does. The follower has yet to hear the bytes. */
static inline long dgt_port_exchange(int port, dgt_follower *follower, uint8_t *bytes, size_t n) {
    uint8_t out[DGT_MAX_ASKING];
    uint64_t now = dgt_port_now(), due;
    dgt_sent asked = dgt_follower_ask(follower, now, out, sizeof out);
    if (!dgt_port_write(port, out, asked.bytes)) return -1;
    if (!dgt_follower_due_at(follower, &due)) due = UINT64_MAX;
    return dgt_port_read(port, bytes, n, due);
}

/* How many bytes a port has lost or altered since it was plugged in, as the system counts them:
 * overruns, framing errors, parity errors and breaks. 0 if the port has no counters. */
static inline unsigned dgt_port_count_(int port) {
    struct serial_icounter_struct count;
    if (ioctl(port, TIOCGICOUNT, &count) != 0) return 0;
    return (unsigned)count.frame + (unsigned)count.overrun + (unsigned)count.parity +
           (unsigned)count.brk + (unsigned)count.buf_overrun;
}

/* The faults of a port so far. Set all of it to 0 first. */
typedef struct dgt_port_faults {
    unsigned count_;
    uint64_t late_until_;
} dgt_port_faults;

/* Whether a port has lost or altered bytes since the last call. Call it right after opening, and
 * ignore this result, which is about the time before. Then call it once a follower has heard the
 * bytes read, and if it returns true, call dgt_follower_line_disturbed. It stays true for
 * DGT_PORT_LATE milliseconds after a fault: bytes from before the fault may still arrive. */
static inline bool dgt_port_is_disturbed(int port, dgt_port_faults *faults) {
    unsigned count = dgt_port_count_(port);
    uint64_t now = dgt_port_now();
    if (count != faults->count_) faults->late_until_ = now + DGT_PORT_LATE;
    faults->count_ = count;
    return now < faults->late_until_;
}

/* What dgt_port_turn keeps between two calls. Set all of it to 0 each time that the port was
 * opened. `event` is what the last call heard, and has the kind DGT_EVENT_NONE if that is nothing.
 * A body isn't kept: for one, use dgt_port_exchange and dgt_follower_hear. */
typedef struct dgt_port_input {
    dgt_event event;
    dgt_port_faults faults_;
    size_t heard_, came_;
    bool is_begun_, is_disturbed_;
    uint8_t chunk_[256];
} dgt_port_input;

/* Follows a board for one step; call it again and again. If all bytes were heard, it sends the
 * follower's request, if one is due, waits for bytes until the follower is to be called again, and
 * reads them. The follower then hears the bytes up to the first event, or all of them. If the port
 * has lost or altered bytes since the first call, the follower's line is disturbed. Returns false,
 * with errno, if the port has gone, or takes no bytes: then call dgt_follower_line_lost before you
 * open it again. */
static inline bool dgt_port_turn(int port, dgt_follower *follower, dgt_port_input *input) {
    if (!input->is_begun_) input->faults_.count_ = dgt_port_count_(port);
    input->is_begun_ = true;
    if (input->heard_ == input->came_) {
        long n = dgt_port_exchange(port, follower, input->chunk_, sizeof input->chunk_);
        if (n < 0) return false;
        input->heard_ = 0;
        input->came_ = (size_t)n;
        input->is_disturbed_ = dgt_port_is_disturbed(port, &input->faults_);
    }
    input->heard_ += dgt_follower_hear(follower, dgt_port_now(), input->chunk_ + input->heard_,
                                       input->came_ - input->heard_, &input->event, NULL, 0);
    if (input->is_disturbed_) dgt_follower_line_disturbed(follower);
    return true;
}

/* Closes a port, so that others can open it, even if a child of the process has a copy of it. */
static inline void dgt_port_close(int port) {
    ioctl(port, TIOCNXCL);
    flock(port, LOCK_UN);
    close(port);
}

#if defined(__cplusplus) && defined(__GNUC__)
#pragma GCC diagnostic pop
#endif

#endif
