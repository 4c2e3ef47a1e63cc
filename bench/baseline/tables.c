/* REJECT and BLOCKMAP: sight and blocks. */
#include "baseline.h"

static i64 last_end; /* the last word that ends a list */
u32 bwords;
i32 bw, bh;
void open_blockmap(void) {
    const u8 *p = part[BLOCKMAP].p;
    bwords = (u32)(part[BLOCKMAP].n / 2);
    bw = bh = 0;
    last_end = -1;
    if (part[BLOCKMAP].n < 8) return;
    bw = s16(p + 4);
    bh = s16(p + 6);
    for (i64 i = (i64)bwords - 1; i >= 0; i--)
        if (le16(p + 2 * i) == 65535) {
            last_end = i;
            break;
        }
}
/* 0 and the offset, or the fault */
int block_list(u32 b, u32 *off) {
    u64 at = 4 + (u64)b;
    if (at >= bwords) return 1;
    i32 o = idx(part[BLOCKMAP].p + 2 * at);
    if (o < 0 || (u32)o >= bwords) return 1;
    if (o > last_end) return 2;
    *off = (u32)o;
    return 0;
}

static int ans_sight(const i32 *v) {
    i64 n = cnt[SECTORS];
    if (v[0] < 0 || v[0] >= n || v[1] < 0 || v[1] >= n) return 0;
    u64 b = (u64)v[0] * (u64)n + (u64)v[1];
    room(40);
    num(v[0]);
    spnum(v[1]);
    if (b / 8 >= part[REJECT].n) text(" unknown\n");
    else text(part[REJECT].p[b / 8] >> (b & 7) & 1 ? " blocked\n" : " clear\n");
    return 1;
}

static int ans_blocks(const i32 *v) {
    if (far(v[0]) || far(v[1])) return 0;
    i32 bx = (v[0] - s16(part[BLOCKMAP].p)) >> 7, by = (v[1] - s16(part[BLOCKMAP].p + 2)) >> 7;
    room(80);
    num(v[0]);
    spnum(v[1]);
    if (bx < 0 || by < 0 || bx >= bw || by >= bh) {
        text(" no block\n");
        return 1;
    }
    text(" block ");
    num(bx);
    spnum(by);
    u32 o;
    int f = block_list((u32)(by * bw + bx), &o);
    if (f) {
        text(" fault ");
        num(f);
        ch('\n');
        return 1;
    }
    text(" lines");
    for (const u8 *p = part[BLOCKMAP].p + 2 * (size_t)o; le16(p) != 65535; p += 2) {
        room(16);
        spnum(idx(p));
    }
    room(1);
    ch('\n');
    return 1;
}

void cmd_sight(void) { lines(2, ans_sight); }
void cmd_blocks(void) {
    if (part[BLOCKMAP].n < 8) die("no blockmap");
    open_blockmap();
    lines(2, ans_blocks);
}
