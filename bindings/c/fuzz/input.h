/* Shared by the harnesses: choices that an input makes, and memory between guard pages. */
#ifndef INPUT_H
#define INPUT_H

#include "dgt.h"

#include <string.h>

/* Aborts unless this is true. libFuzzer then keeps the input. */
#define CHECK(holds) ((holds) ? (void)0 : stop(__FILE__, __LINE__, #holds))
__attribute__((noreturn)) void stop(const char *file, int line, const char *what);

/* Aborts unless two structs of dgt.h are equal. None of them has padding. */
#define CHECK_SAME(got, right) CHECK(memcmp(got, right, sizeof *(got)) == 0)

/* ---- Choices. Each reads some bytes of the input; after its end each byte is 0. */

/* Begins a run. The first byte of the input says on which side memory is guarded. */
void input_begin(const uint8_t *data, size_t n);

/* Whether bytes of the input are left. */
bool input_is_left(void);

/* A number from 0 to 255. */
uint8_t input_byte(void);

/* A length from 0 to `most`: mostly a small one, and sometimes `most`. */
size_t input_room(size_t most);

#define MOST_CHUNK 20000 /* more than the longest message */

typedef struct chunk {
    const uint8_t *bytes;
    size_t n;
} chunk;

/* Bytes as a line may deliver them, at the place IN: those of the input itself, a whole command or
 * message, or many equal bytes. */
chunk input_chunk(void);

/* Aborts unless a chunk is unchanged. */
void check_same_chunk(chunk made);

/* Uses some of these bytes, and returns how many. */
typedef size_t using_bytes(const uint8_t *bytes, size_t n);

/* Calls it again with the rest of a chunk until it uses none; and the same for an input_chunk. */
void use_all(chunk given, using_bytes *use);
void use_chunk(using_bytes *use);

/* ---- Memory. Each place has an unmapped page on either side. */

enum place { HANDLE, IN, OUT, BODY, EVENTS, LOOK, PLACES };

#define FILL 0xa5 /* the contents of memory before a call */

/* Memory of n bytes, each FILL, that ends or begins at an unmapped page. It is aligned to 8 if n is
 * a multiple of 8. */
void *guarded(enum place which, size_t n);

/* Aborts unless the bytes from `from` on are still FILL, of n bytes. */
void check_kept(const void *memory, size_t from, size_t n);

/* Aborts unless memory of n bytes begins with as much of `right` as fits, and is still FILL after
 * it. */
void check_written(const void *memory, size_t n, const void *right, size_t right_n);

#endif
