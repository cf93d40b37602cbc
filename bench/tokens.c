/* Reads a file, splits it into tokens, and prints them back, numbers as numbers: the baseline for `wmax encode`. */
#include <stdio.h>
#include <stdlib.h>

int main(int argc, char **argv) {
    FILE *f = argc == 2 ? fopen(argv[1], "rb") : NULL;
    if (!f) return 3;
    size_t size = 0, room = 1 << 16, n;
    char *text = malloc(room);
    while (text && (n = fread(text + size, 1, room - size, f)) > 0)
        if ((size += n) == room) text = realloc(text, room *= 2);
    if (!text) return 3;
    static char out[1 << 16];
    size_t put = 0;
    for (size_t i = 0; i < size;) {
        char c = text[i];
        if (put + 32 > sizeof out) {
            fwrite(out, 1, put, stdout);
            put = 0;
        }
        if (c == '-' || (c >= '0' && c <= '9')) {
            int negative = c == '-';
            unsigned long v = 0;
            i += (size_t)negative;
            while (i < size && text[i] >= '0' && text[i] <= '9') v = 10 * v + (unsigned long)(text[i++] - '0');
            if (negative) out[put++] = '-';
            char digits[24];
            int k = 0;
            do digits[k++] = (char)('0' + v % 10);
            while (v /= 10);
            while (k) out[put++] = digits[--k];
        } else {
            out[put++] = c;
            i++;
        }
    }
    fwrite(out, 1, put, stdout);
    return 0;
}
