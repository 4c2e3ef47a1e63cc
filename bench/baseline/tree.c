/* The tree of a sound level. */
#include "baseline.h"

#include <stdlib.h>

Nd *nd;
u32 nnd;
u32 *ssec; /* sector by ssector */

static u32 ssector_sector(u32 t) {
    const u8 *g = rec(SEGS, (u32)idx(rec(SSECTORS, t) + 2));
    const u8 *l = rec(LINEDEFS, (u32)idx(g + 6));
    return (u32)idx(rec(SIDEDEFS, (u32)idx(l + 10 + 2 * s16(g + 8))) + 28);
}
void set_node(Nd *q) {
    q->tie = q->dx == 0 ? q->dy > 0 : q->dy == 0 ? q->dx < 0 : 1;
    q->org = q->dx < 0 && q->dy > 0;
}
void open_tree(void) {
    quiet = 1;
    check_level();
    if (faults) die("audit");
    nnd = cnt[NODES];
    nd = malloc(((size_t)nnd + 1) * sizeof *nd);
    for (u32 i = 0; i < nnd; i++) {
        const u8 *p = rec(NODES, i);
        Nd *q = &nd[i];
        q->x = (i16)s16(p);
        q->y = (i16)s16(p + 2);
        q->dx = (i16)s16(p + 4);
        q->dy = (i16)s16(p + 6);
        q->kid[0] = (u16)le16(p + 24);
        q->kid[1] = (u16)le16(p + 26);
        set_node(q);
    }
    ssec = malloc((size_t)cnt[SSECTORS] * sizeof *ssec);
    for (u32 t = 0; t < cnt[SSECTORS]; t++) ssec[t] = ssector_sector(t);
}
