/* census, census-plain and census-tests. */
#include "baseline.h"

#include <stdlib.h>

static u32 *tally;     /* by sector */
static u32 *hit, nhit; /* sectors with a count */
static u64 tests, deepest;
static int telling;

static inline void add(u32 sec, u32 n) {
    if (!tally[sec]) hit[nhit++] = sec;
    tally[sec] += n;
}
static int by_value(const void *a, const void *b) {
    u32 x = *(const u32 *)a, y = *(const u32 *)b;
    return x < y ? -1 : x > y;
}
static int rect_ok(const i32 *v) {
    if (far(v[0]) || far(v[1]) || far(v[2]) || far(v[3]) || v[0] > v[2] || v[1] > v[3]) return 0;
    return (i64)(v[2] - v[0] + 1) * (v[3] - v[1] + 1) <= 1048576;
}
static int tell(const i32 *v) {
    qsort(hit, nhit, sizeof *hit, by_value);
    room(128);
    num(v[0]);
    spnum(v[1]);
    spnum(v[2]);
    spnum(v[3]);
    text(" points ");
    num((i64)(v[2] - v[0] + 1) * (v[3] - v[1] + 1));
    for (u32 i = 0; i < nhit; i++) {
        room(32);
        ch(' ');
        num(hit[i]);
        ch(':');
        num(tally[hit[i]]);
        tally[hit[i]] = 0;
    }
    nhit = 0;
    if (telling) {
        room(64);
        text(" tests ");
        num((i64)tests);
        text(" pending ");
        num((i64)deepest);
    }
    room(1);
    ch('\n');
    return 1;
}
static int ans_census_plain(const i32 *v) {
    if (!rect_ok(v)) return 0;
    for (i32 y = v[1]; y <= v[3]; y++)
        for (i32 x = v[0]; x <= v[2]; x++) add(ssec[leaf(x, y)], 1);
    return tell(v);
}

typedef struct {
    i16 x0, y0, x1, y1;
    u32 w;
} Piece;
static Piece *todo; /* nodes + 32 of them */

/* 0 or 1 where the four corners agree, else 2 */
static inline u32 whole(const Nd *q, const Piece *r) {
    u32 s = side(q, r->x0, r->y0) + side(q, r->x1, r->y0) + side(q, r->x0, r->y1) + side(q, r->x1, r->y1);
    return s == 0 ? 0 : s == 4 ? 1 : 2;
}
static int ans_census(const i32 *v) {
    if (!rect_ok(v)) return 0;
    u64 top = 0;
    tests = 0;
    deepest = 1;
    Piece r = {(i16)v[0], (i16)v[1], (i16)v[2], (i16)v[3], nnd ? nnd - 1 : 32768};
    for (;;) {
        while (r.w < 32768) {
            const Nd *q = &nd[r.w];
            u32 s = whole(q, &r);
            tests++;
            if (s < 2) {
                r.w = q->kid[s];
                continue;
            }
            Piece b = r;
            if (r.y1 > r.y0) { /* the lowest floor(k/2) rows first */
                i32 k = r.y1 - r.y0 + 1;
                r.y1 = (i16)(r.y0 + k / 2 - 1);
                b.y0 = (i16)(r.y1 + 1);
            } else { /* one row: where does the side change? */
                u32 a = side(q, r.x0, r.y0);
                i32 l = r.x0, e = r.x1;
                tests++;
                while (e != l + 1) {
                    i32 m = (l + e) >> 1;
                    tests++;
                    if (side(q, m, r.y0) == a) l = m;
                    else e = m;
                }
                r.x1 = (i16)l;
                b.x0 = (i16)e;
                r.w = q->kid[a];
                b.w = q->kid[a ^ 1];
            }
            todo[top++] = r; /* the second piece is taken first */
            r = b;
            if (top + 1 > deepest) deepest = top + 1;
        }
        add(ssec[r.w - 32768], (u32)(r.x1 - r.x0 + 1) * (u32)(r.y1 - r.y0 + 1));
        if (!top) break;
        r = todo[--top];
    }
    return tell(v);
}

static void open_census(void) {
    open_tree();
    tally = calloc((size_t)cnt[SECTORS] + 1, sizeof *tally);
    hit = malloc(((size_t)cnt[SECTORS] + 1) * sizeof *hit);
    todo = malloc(((size_t)nnd + 64) * sizeof *todo);
}
void cmd_census(void) {
    open_census();
    lines(4, ans_census);
}
void cmd_census_plain(void) {
    open_census();
    lines(4, ans_census_plain);
}
void cmd_census_tests(void) {
    telling = 1;
    cmd_census();
}
