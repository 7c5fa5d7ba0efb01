/* The calls that the program needs from the toolchain's C code, for machines for which it has none.
 * They do the same as its objects for x86-64. The contracts of the crates libc and os assume this:
 * it is trusted. */

#include <errno.h>
#include <stddef.h>
#include <stdint.h>
#include <stdlib.h>

struct block {
    uint64_t is_there;
    void *start;
};

struct block rattle_alloc(size_t size, size_t align);
struct block rattle_realloc(void *old, size_t old_size, size_t size, size_t align);
void rattle_dealloc(void *block);
int rattle_errno(void);
void rattle_set_errno(int number);
int64_t rattle_arg(uint64_t index, char *room, uint64_t size);

static char nothing; /* the start of a block that could not be allocated */

static struct block block_at(void *start) {
    struct block made = {start != NULL, start != NULL ? start : &nothing};
    return made;
}

/* malloc aligns for each type of C, and no caller needs more. An empty block also gets memory. */
struct block rattle_alloc(size_t size, size_t align) {
    return block_at(malloc(size != 0 ? size : align));
}

struct block rattle_realloc(void *old, size_t old_size, size_t size, size_t align) {
    (void)old_size;
    return block_at(realloc(old, size != 0 ? size : align));
}

void rattle_dealloc(void *block) { free(block); }

int rattle_errno(void) { return errno; }

void rattle_set_errno(int number) { errno = number; }

/* The arguments of the process, as the loader passes them to each constructor. */
static uint64_t argument_count;
static char **arguments;

__attribute__((constructor)) static void keep_arguments(int count, char **words) {
    argument_count = (uint64_t)count;
    arguments = words;
}

/* Copies an argument without its zero byte, and returns its length; -1 if there is none, -2 if it
 * is longer than the room. */
int64_t rattle_arg(uint64_t index, char *room, uint64_t size) {
    if (index >= argument_count || arguments[index] == NULL) {
        return -1;
    }
    uint64_t length = 0;
    for (const char *word = arguments[index]; word[length] != '\0'; length++) {
        if (length == size) {
            return -2;
        }
        room[length] = word[length];
    }
    return (int64_t)length;
}
