/* points and points-steps. */
#include "baseline.h"

#include <stdio.h>
#include <stdlib.h>

static u32 leaf_steps(i32 x, i32 y, u32 *steps) {
    *steps = 0;
    if (!nnd) return 0;
    u32 w = nnd - 1;
    do {
        w = nd[w].kid[side(&nd[w], x, y)];
        ++*steps;
    } while (w < 32768);
    return w - 32768;
}

typedef struct {
    char t[47];
    u8 n;
} Tail;
static Tail *tails;

static int ans_points(const i32 *v) {
    if (far(v[0]) || far(v[1])) return 0;
    Tail *t = &tails[leaf(v[0], v[1])];
    room(80);
    num(v[0]);
    spnum(v[1]);
    memcpy(ob + on, t->t, sizeof t->t);
    on += t->n;
    return 1;
}
static int ans_steps(const i32 *v) {
    u32 s, t;
    if (far(v[0]) || far(v[1])) return 0;
    t = leaf_steps(v[0], v[1], &s);
    room(120);
    num(v[0]);
    spnum(v[1]);
    text(" sector ");
    num(ssec[t]);
    text(" ssector ");
    num(t);
    text(" steps ");
    num(s);
    ch('\n');
    return 1;
}
static void make_tails(void) {
    tails = malloc((size_t)cnt[SSECTORS] * sizeof *tails);
    for (u32 t = 0; t < cnt[SSECTORS]; t++)
        tails[t].n = (u8)snprintf(tails[t].t, sizeof tails[t].t, " sector %u ssector %u\n", ssec[t], t);
}

void cmd_points(int steps) {
    open_tree();
    make_tails();
    lines(2, steps ? ans_steps : ans_points);
}
