/* What is printed, through a buffer. */
#include "baseline.h"

#include <stdio.h>
#include <stdlib.h>
#include <unistd.h>

char ob[OUT_ROOM];
size_t on;

void flush(void) {
    size_t i = 0;
    while (i < on) {
        ssize_t k = write(1, ob + i, on - i);
        if (k <= 0) {
            fputs("refused: write\n", stderr);
            _exit(2);
        }
        i += (size_t)k;
    }
    on = 0;
}
void bytes(const char *p, size_t n) {
    while (n) {
        size_t k = n < sizeof ob ? n : sizeof ob;
        room(k);
        memcpy(ob + on, p, k);
        on += k;
        p += k;
        n -= k;
    }
}
void text(const char *s) { bytes(s, strlen(s)); }

char pairs[200];
void init_pairs(void) {
    for (int i = 0; i < 100; i++) {
        pairs[2 * i] = (char)('0' + i / 10);
        pairs[2 * i + 1] = (char)('0' + i % 10);
    }
}
void die(const char *s) {
    flush();
    fprintf(stderr, "refused: %s\n", s);
    exit(2);
}
