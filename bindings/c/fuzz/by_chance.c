/* Runs a harness without libFuzzer, which clang lacks for some processors: on the first inputs, and
 * then on parts of two of them, joined and randomly altered. Its arguments are seconds, a seed, the
 * harness and the file of the first inputs. It prints how many inputs it tried, and after a fault
 * the input. The seconds are of the processor: a busy machine tries as many inputs. */
#define _DEFAULT_SOURCE
#include <signal.h>
#include <stdbool.h>
#include <stdint.h>
#include <stdio.h>
#include <stdlib.h>
#include <string.h>
#include <time.h>

int LLVMFuzzerTestOneInput(const uint8_t *data, size_t n);

enum { MOST = 1024, FILES = 256 };
static uint8_t known[FILES][MOST], data[MOST];
static size_t length[FILES], files, n;
static uint64_t state;

static uint64_t chance(uint64_t below) {
    state ^= state << 13;
    state ^= state >> 7;
    state ^= state << 17;
    return state % below;
}

/* The beginning of one known input, the end of another, some altered bytes, and some more. */
static void make_input(void) {
    size_t one = chance(files), other = chance(files);
    n = chance(length[one] + 1);
    size_t from = chance(length[other] + 1), more = length[other] - from;
    if (more > MOST - n) more = MOST - n;
    memcpy(data, known[one], n);
    memcpy(data + n, known[other] + from, more);
    n += more;
    for (uint64_t left = chance(8); left > 0 && n > 0; left--)
        data[chance(n)] = (uint8_t)chance(256);
    while (n < MOST && chance(16) != 0) data[n++] = (uint8_t)chance(256);
}

static void show_input(int number) {
    fputs("the input: ", stderr);
    for (size_t i = 0; i < n; i++) fprintf(stderr, "%02x", data[i]);
    fputc('\n', stderr);
    signal(number, SIG_DFL);
    raise(number);
}

/* Reads the inputs of a harness from a file. Each is in hexadecimal digits, after a comment line
 * that begins with the harness and a colon. */
static bool read_known(const char *harness, const char *name) {
    static char line[2 * MOST + 2];
    size_t size = strlen(harness);
    bool is_wanted = false;
    FILE *file = fopen(name, "r");
    while (file && fgets(line, sizeof line, file)) {
        if (line[0] == '#')
            is_wanted = strncmp(line + 2, harness, size) == 0 && line[2 + size] == ':';
        if (!is_wanted) continue;
        if (line[0] == '#' && files++ == FILES) return false;
        uint8_t *input = known[files - 1];
        size_t *have = &length[files - 1];
        const char *at = line;
        for (; *have < MOST && sscanf(at, "%2hhx", &input[*have]) == 1; at += 2) ++*have;
    }
    return file && fclose(file) == 0 && files > 0;
}

int main(int count, char **words) {
    if (count != 5 || !read_known(words[3], words[4])) return 2;
    clock_t end = clock() + atoi(words[1]) * CLOCKS_PER_SEC;
    state = strtoull(words[2], NULL, 10) * 0x9e3779b97f4a7c15u | 1;
    signal(SIGABRT, show_input);
    signal(SIGSEGV, show_input);
    uint64_t tried = 0;
    for (; tried < files; tried++) {
        memcpy(data, known[tried], n = length[tried]);
        LLVMFuzzerTestOneInput(data, n);
    }
    for (; tried % 64 != 0 || clock() < end; tried++) {
        make_input();
        LLVMFuzzerTestOneInput(data, n);
    }
    printf("%llu\n", (unsigned long long)tried);
    return 0;
}
