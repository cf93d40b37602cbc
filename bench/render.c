// What `render_bench` writes, by plain C: the numbers lie in arrays, and go out by way of a block of 8192 bytes.
//   render lines N     the text of N additions
//   render build N     only the arrays
#include <inttypes.h>
#include <stdio.h>
#include <stdlib.h>
#include <string.h>
#include <unistd.h>

enum { literals = 20, hints = 50, base = 1000000 };

static uint64_t state = 88172645463325252;

static uint64_t up_to(uint64_t limit) {
    state ^= state << 13;
    state ^= state >> 7;
    state ^= state << 17;
    return 1 + state % limit;
}

static char block[8192];
static size_t filled;

static void flush(void) {
    for (size_t done = 0; done < filled;) {
        ssize_t n = write(1, block + done, filled - done);
        if (n <= 0) exit(1);
        done += (size_t)n;
    }
    filled = 0;
}

static void put(const char *text, size_t length) {
    if (sizeof block - filled < length) flush();
    memcpy(block + filled, text, length);
    filled += length;
}

static void put_number(int negative, uint64_t n) {
    char room[22];
    size_t at = sizeof room;
    room[--at] = ' ';
    do room[--at] = (char)('0' + n % 10);
    while (n /= 10);
    if (negative) room[--at] = '-';
    put(room + at, sizeof room - at);
}

int main(int argc, char **argv) {
    if (argc < 3) return 2;
    uint64_t lines = strtoull(argv[2], NULL, 10);
    int32_t *lits = malloc(lines * literals * sizeof *lits);
    uint64_t *ids = malloc(lines * hints * sizeof *ids);
    if (lines && (!lits || !ids)) return 2;
    for (uint64_t i = 0; i < lines; i++) {
        for (int k = 0; k < literals; k++) {
            uint64_t code = up_to(2000000);
            int32_t variable = (int32_t)(code / 2 + 1);
            lits[i * literals + k] = code % 2 ? -variable : variable;
        }
        for (int k = 0; k < hints; k++) ids[i * hints + k] = up_to(2 * base);
    }
    if (strcmp(argv[1], "build") == 0) return 0;
    for (uint64_t i = 0; i < lines; i++) {
        put_number(0, base + i + 1);
        for (int k = 0; k < literals; k++) {
            int32_t l = lits[i * literals + k];
            put_number(l < 0, (uint64_t)(l < 0 ? -l : l));
        }
        put("0 ", 2);
        for (int k = 0; k < hints; k++) put_number(0, ids[i * hints + k]);
        put("0\n", 2);
    }
    flush();
    return 0;
}
