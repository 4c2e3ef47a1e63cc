/* audit: all findings of a level. */
#include "baseline.h"

#include <stdlib.h>

static const char *ftext[19] = {0, "lump missing after the label", "lump outside its file", "linedef vertex names none",
    "linedef side names none", "sidedef sector names none", "seg vertex names none", "seg linedef names none",
    "seg side is not 0 or 1", "seg's linedef has no side there", "ssector's segs out of range", "child names nothing",
    "node origin out of range", "node named twice or root named", "node not reached", "ssector named more than once",
    "ssector not reached", "no ssector", "more than 32767 nodes"};
static const char *ntext[13] = {0, "lump name differs", "bytes left over", "two-sided flag without side 1", "no side 0",
    "linedef of no length", "ssector without segs", "partition without direction", "REJECT size", "BLOCKMAP short",
    "block list faulty", "no player 1 start", "vertex out of range"};

int quiet; /* count alone */
u32 faults;
static u32 notes;
static void found(char c, int code, u32 i) {
    if (c == 'F') faults++;
    else notes++;
    if (quiet) return;
    room(96);
    ch(c);
    num(code);
    spnum(i);
    ch(' ');
    text(c == 'F' ? ftext[code] : ntext[code]);
    ch('\n');
}
static u8 *ntimes, *stimes, *nreach, *sreach; /* 0, 1, 2: named so often */

static void walk_tree(void) {
    u32 n = cnt[NODES], m = cnt[SSECTORS];
    ntimes = calloc(n + 1, 1);
    stimes = calloc(m + 1, 1);
    nreach = calloc(n + 1, 1);
    sreach = calloc(m + 1, 1);
    for (u32 i = 0; i < n; i++)
        for (int s = 0; s < 2; s++) {
            u32 w = le16(rec(NODES, i) + 24 + 2 * s);
            if (w < 32768) {
                if (w < n && ntimes[w] < 2) ntimes[w]++;
            } else if ((w -= 32768) < m && stimes[w] < 2) stimes[w]++;
        }
    if (!n) {
        if (m) sreach[0] = 1;
        return;
    }
    u32 *stack = malloc((size_t)n * sizeof *stack), top = 0;
    stack[top++] = n - 1;
    nreach[n - 1] = 1;
    while (top) {
        const u8 *p = rec(NODES, stack[--top]);
        for (int s = 0; s < 2; s++) {
            u32 w = le16(p + 24 + 2 * s);
            if (w < 32768) {
                if (w < n && !nreach[w]) {
                    nreach[w] = 1;
                    stack[top++] = w;
                }
            } else if ((w -= 32768) < m) sreach[w] = 1;
        }
    }
    free(stack);
}

void check_level(void) {
    u32 i;
    const u8 *p;
    for (i = 0; i < cnt[LINEDEFS]; i++) {
        p = rec(LINEDEFS, i);
        if (!names(idx(p), VERTEXES) || !names(idx(p + 2), VERTEXES)) found('F', 3, i);
    }
    for (i = 0; i < cnt[LINEDEFS]; i++) {
        p = rec(LINEDEFS, i);
        i32 a = idx(p + 10), b = idx(p + 12);
        if ((a != NONE && !names(a, SIDEDEFS)) || (b != NONE && !names(b, SIDEDEFS))) found('F', 4, i);
    }
    for (i = 0; i < cnt[SIDEDEFS]; i++)
        if (!names(idx(rec(SIDEDEFS, i) + 28), SECTORS)) found('F', 5, i);
    for (i = 0; i < cnt[SEGS]; i++) {
        p = rec(SEGS, i);
        if (!names(idx(p), VERTEXES) || !names(idx(p + 2), VERTEXES)) found('F', 6, i);
    }
    for (i = 0; i < cnt[SEGS]; i++)
        if (!names(idx(rec(SEGS, i) + 6), LINEDEFS)) found('F', 7, i);
    for (i = 0; i < cnt[SEGS]; i++)
        if ((u32)s16(rec(SEGS, i) + 8) > 1) found('F', 8, i);
    for (i = 0; i < cnt[SEGS]; i++) {
        p = rec(SEGS, i);
        i32 l = idx(p + 6), s = s16(p + 8);
        if (names(l, LINEDEFS) && (u32)s <= 1 && idx(rec(LINEDEFS, (u32)l) + 10 + 2 * s) == NONE) found('F', 9, i);
    }
    for (i = 0; i < cnt[SSECTORS]; i++) {
        i32 c = idx(rec(SSECTORS, i)), f = idx(rec(SSECTORS, i) + 2);
        if (c < 0 || !names(f, SEGS) || (u32)(f + c) > cnt[SEGS]) found('F', 10, i);
    }
    walk_tree();
    u32 n = cnt[NODES], m = cnt[SSECTORS];
    for (i = 0; i < n; i++) {
        int bad = 0;
        for (int s = 0; s < 2; s++) {
            u32 w = le16(rec(NODES, i) + 24 + 2 * s);
            bad |= w < 32768 ? w >= n : w - 32768 >= m;
        }
        if (bad) found('F', 11, i);
    }
    for (i = 0; i < n; i++)
        if (far(s16(rec(NODES, i))) || far(s16(rec(NODES, i) + 2))) found('F', 12, i);
    for (i = 0; i < n; i++)
        if (ntimes[i] > 1 || (i == n - 1 && ntimes[i])) found('F', 13, i);
    for (i = 0; i < n; i++)
        if (!nreach[i]) found('F', 14, i);
    for (i = 0; i < m; i++)
        if (stimes[i] > 1) found('F', 15, i);
    for (i = 0; i < m; i++)
        if (!sreach[i]) found('F', 16, i);
    if (!m) found('F', 17, 0);
    if (n > 32767) found('F', 18, 0);
    if (quiet) return;

    for (int k = 1; k <= 10; k++)
        if (!is_usual(label + (u32)k, k)) found('N', 1, (u32)k);
    for (int k = 1; k <= 8; k++)
        if (part[k].n % rsize[k]) found('N', 2, (u32)k);
    for (i = 0; i < cnt[LINEDEFS]; i++)
        if ((le16(rec(LINEDEFS, i) + 4) & 4) && idx(rec(LINEDEFS, i) + 12) == NONE) found('N', 3, i);
    for (i = 0; i < cnt[LINEDEFS]; i++)
        if (idx(rec(LINEDEFS, i) + 10) == NONE) found('N', 4, i);
    for (i = 0; i < cnt[LINEDEFS]; i++) {
        i32 a = idx(rec(LINEDEFS, i)), b = idx(rec(LINEDEFS, i) + 2);
        if (names(a, VERTEXES) && names(b, VERTEXES) && !memcmp(rec(VERTEXES, (u32)a), rec(VERTEXES, (u32)b), 4)) found('N', 5, i);
    }
    for (i = 0; i < m; i++)
        if (idx(rec(SSECTORS, i)) == 0) found('N', 6, i);
    for (i = 0; i < n; i++)
        if (!s16(rec(NODES, i) + 4) && !s16(rec(NODES, i) + 6)) found('N', 7, i);
    u64 s = cnt[SECTORS];
    if (part[REJECT].n != (s * s + 7) / 8) found('N', 8, 0);
    open_blockmap();
    u64 blocks = bw > 0 && bh > 0 ? (u64)bw * (u64)bh : 0;
    if (part[BLOCKMAP].n < 8 || (blocks && bwords < 4 + blocks)) found('N', 9, 0);
    for (u64 b = 0; b < blocks && 4 + b < bwords; b++) {
        u32 o;
        if (block_list((u32)b, &o)) found('N', 10, (u32)b);
    }
    for (i = 0; i < cnt[THINGS] && s16(rec(THINGS, i) + 6) != 1; i++) {}
    if (i == cnt[THINGS]) found('N', 11, 0);
    for (i = 0; i < cnt[VERTEXES]; i++)
        if (far(s16(rec(VERTEXES, i))) || far(s16(rec(VERTEXES, i) + 2))) found('N', 12, i);
}

int cmd_audit(const char *name) {
    int k, f = open_level(name, &k);
    if (f) found('F', f, (u32)k);
    else check_level();
    text("faults ");
    room(64);
    num(faults);
    text(" notes ");
    num(notes);
    ch('\n');
    return faults != 0;
}
