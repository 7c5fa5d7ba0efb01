// A library to preload: it refuses one allocation of the process, with the number REFUSE, counted
// from 1. At the end of the process it writes the number of allocations as a line to the file
// descriptor COUNT_TO, if that is set. LATE_TO is the same for allocations after the first read or
// write of the process.
#include <errno.h>
#include <stddef.h>
#include <stdio.h>
#include <stdlib.h>
#include <sys/syscall.h>
#include <unistd.h>

extern void *__libc_malloc(size_t);
extern void *__libc_calloc(size_t, size_t);
extern void *__libc_realloc(void *, size_t);

static long count, refused = -1, early = -1;

static int is_refused(void) {
    if (refused < 0) {
        const char *number = getenv("REFUSE");
        refused = number ? atol(number) : 0;
    }
    if (++count != refused) return 0;
    errno = ENOMEM;
    return 1;
}

void *malloc(size_t size) {
    return is_refused() ? NULL : __libc_malloc(size);
}

void *calloc(size_t items, size_t size) {
    return is_refused() ? NULL : __libc_calloc(items, size);
}

void *realloc(void *old, size_t size) {
    return is_refused() ? NULL : __libc_realloc(old, size);
}

static void begin_to_read_or_write(void) {
    if (early < 0) early = count;
}

ssize_t read(int file, void *bytes, size_t size) {
    begin_to_read_or_write();
    return syscall(SYS_read, file, bytes, size);
}

ssize_t write(int file, const void *bytes, size_t size) {
    begin_to_read_or_write();
    return syscall(SYS_write, file, bytes, size);
}

ssize_t __write(int file, const void *bytes, size_t size) {
    return write(file, bytes, size);
}

static void tell_to(const char *name, long number) {
    const char *descriptor = getenv(name);
    char text[32];
    int length = snprintf(text, sizeof text, "%ld\n", number);
    if (descriptor && syscall(SYS_write, atoi(descriptor), text, length) != length) _exit(99);
}

__attribute__((destructor)) static void tell(void) {
    long all = count, late = early < 0 ? 0 : count - early;
    tell_to("COUNT_TO", all);
    tell_to("LATE_TO", late);
}
