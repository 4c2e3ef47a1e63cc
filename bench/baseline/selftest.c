/* selftest: the side of a point against a second form of itself. */
#include "baseline.h"

#include <stdio.h>

static u64 seed = 88172645463325252ull;
static u64 rnd(void) {
    seed ^= seed << 13;
    seed ^= seed >> 7;
    seed ^= seed << 17;
    return seed;
}
static u32 d10(i64 x, i64 y, i64 dx, i64 dy, i64 px, i64 py) {
    i64 c = dy * (px - x) - dx * (py - y);
    if (c) return c < 0;
    if (dx == 0) return dy > 0;
    if (dy == 0) return dx < 0;
    return !(px == x && py == y && dx < 0 && dy > 0);
}
int cmd_selftest(void) {
    u64 bad = 0, ties = 0;
    for (u64 i = 0; i < 100000000; i++) {
        u64 a = rnd(), b = rnd();
        int small = (int)(b >> 60 & 3);
        Nd q = {0};
        i32 px, py;
        q.x = (i16)(a & 32767) - 16384;
        q.y = (i16)(a >> 15 & 32767) - 16384;
        q.dx = (i16)(a >> 30);
        q.dy = (i16)(a >> 46);
        px = (i32)(b & 32767) - 16384;
        py = (i32)(b >> 15 & 32767) - 16384;
        if (small) {
            q.dx = (i16)(q.dx >> (small * 4));
            q.dy = (i16)(q.dy >> (small * 4));
            q.x >>= small * 3;
            q.y >>= small * 3;
            px >>= small * 3;
            py >>= small * 3;
        }
        set_node(&q);
        i64 c = (i64)q.dy * (px - q.x) - (i64)q.dx * (py - q.y);
        ties += c == 0;
        bad += side(&q, px, py) != d10(q.x, q.y, q.dx, q.dy, px, py);
    }
    printf("ties %llu bad %llu\n", (unsigned long long)ties, (unsigned long long)bad);
    return bad != 0;
}
