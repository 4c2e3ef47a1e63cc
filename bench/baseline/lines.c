/* Lines of numbers on standard input, each of which a command answers. */
#include "baseline.h"

#include <unistd.h>

static u8 ib[1 << 16];

/* k numbers with one space between: 1, or 0 for a wrong form. Each is cut
   to 10^9 in size, which is out of every range. */
static inline int numbers(const u8 *p, const u8 *e, i32 *v, int k) {
    for (int i = 0; i < k; i++) {
        i32 neg = 0;
        i64 a = 0;
        if (i) {
            if (p == e || *p != ' ') return 0;
            p++;
        }
        if (p < e && *p == '-') {
            neg = 1;
            p++;
        }
        const u8 *s = p;
        for (; p < e && (u8)(*p - '0') < 10; p++) {
            a = a * 10 + (*p - '0');
            if (a > 1000000000) a = 1000000000;
        }
        if (p == s) return 0;
        v[i] = (i32)(neg ? -a : a);
    }
    return p == e;
}

static void answer(const u8 *p, size_t n, int k, Answer f) {
    i32 v[4];
    if (n && p[n - 1] == '\r') n--;
    if (n > 64 || !numbers(p, p + n, v, k)) text("refused: form\n");
    else if (!f(v)) text("refused: range\n");
}
void lines(int k, Answer f) {
    size_t have = 0, total = 0;
    int cut = 0; /* the line in hand is already too long */
    for (;;) {
        ssize_t got = read(0, ib + have, sizeof ib - have);
        if (got < 0) die("read");
        if (got == 0) break;
        total += (size_t)got;
        u8 *p = ib, *e = ib + have + (size_t)got, *q;
        size_t over = total > 16777216 ? total - 16777216 : 0;
        if (over) e = over < (size_t)(e - ib) ? e - over : ib;
        while ((q = memchr(p, '\n', (size_t)(e - p)))) {
            if (cut) {
                text("refused: form\n");
                cut = 0;
            } else answer(p, (size_t)(q - p), k, f);
            p = q + 1;
        }
        if (over) die("too long");
        have = (size_t)(e - p);
        if (have > 66) {
            cut = 1;
            have = 66;
            p = e - 66;
        }
        memmove(ib, p, have);
    }
    if (cut) text("refused: form\n");
    else if (have) answer(ib, have, k, f);
}
