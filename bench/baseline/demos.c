/* demo, lmp and demos. */
#include "baseline.h"

#include <fcntl.h>
#include <stdio.h>
#include <unistd.h>

static void demo_head(const u8 *h) {
    static const char *w[9] = {
        "demo version ", " skill ", " episode ", " map ", " deathmatch ", " respawn ", " fast ", " nomonsters ", " viewpoint "};
    room(256);
    for (int i = 0; i < 9; i++) {
        text(w[i]);
        num(h[i]);
    }
    text(" players");
    for (int i = 9; i < 13; i++) spnum(h[i]);
    ch('\n');
}
/* the source of a demo: a buffer in memory, or one filled from a descriptor */
static u8 db[(1 << 16) + 16];
static const u8 *dp, *de;
static int dfd = -1;
static u64 dbase; /* the place of dp's buffer start */
static const u8 *dstart;
static size_t more(size_t need) { /* at least need bytes, or what there is */
    while ((size_t)(de - dp) < need && dfd >= 0) {
        size_t left = (size_t)(de - dp);
        dbase += (u64)(dp - dstart);
        memmove(db, dp, left);
        ssize_t k = read(dfd, db + left, sizeof db - left);
        if (k < 0) die("read");
        dp = dstart = db;
        de = db + left + (size_t)k;
        if (k == 0) {
            dfd = -1;
            break;
        }
    }
    return (size_t)(de - dp);
}
static int demo_list(void) {
    static const char hex[] = "0123456789abcdef";
    char m[64];
    u32 who[4], np = 0;
    if (!more(1)) die("demo 1");
    u32 len = dp[0] == 111 ? 5 : 4;
    if (dp[0] < 109 || dp[0] > 111) {
        snprintf(m, sizeof m, "demo 2 version %d", dp[0]);
        die(m);
    }
    if (more(13) < 13) die("demo 3");
    for (u32 i = 0; i < 4; i++)
        if (dp[9 + i]) who[np++] = i + 1;
    if (!np) die("demo 4");
    demo_head(dp);
    dp += 13;
    u64 tic = 0;
    u32 w = 0;
    for (;;) {
        size_t have = (size_t)(de - dp);
        if (have < len) have = more(len);
        if (have && *dp == 128) break;
        if (have < len) {
            snprintf(m, sizeof m, "demo 5 at %llu", (unsigned long long)(dbase + (u64)(dp - dstart)));
            die(m);
        }
        room(96);
        num((i64)tic);
        spnum(who[w]);
        spnum((signed char)dp[0]);
        spnum((signed char)dp[1]);
        spnum(len == 5 ? (i64)le16(dp + 2) : dp[2]);
        u8 b = dp[len - 1];
        ch(' ');
        ch(hex[b >> 4]);
        ch(hex[b & 15]);
        ch('\n');
        dp += len;
        if (++w == np) {
            w = 0;
            tic++;
        }
    }
    dp++;
    u64 after = 0;
    for (;;) {
        size_t k = (size_t)(de - dp);
        after += k;
        dp = de;
        if (!more(1)) break;
    }
    room(96);
    text("tics ");
    num((i64)tic);
    text(" odd ");
    num(w);
    text(" after ");
    num((i64)after);
    ch('\n');
    return 0;
}
void cmd_demo(const char *name) {
    i64 g = find((const u8 *)name, strlen(name));
    Buf b;
    if (g < 0) die("5 no such lump");
    if (!lump((u32)g, &b)) die("6 outside file");
    dfd = -1;
    dbase = 0;
    dstart = dp = b.p;
    de = b.p + b.n;
    demo_list();
}

int cmd_lmp(const char *path) {
    dfd = open(path, O_RDONLY);
    if (dfd < 0) die("file 1: read");
    dp = dstart = de = db;
    return demo_list();
}

void cmd_demos(void) {
    for (u32 g = 0; g < nents; g++) {
        Buf b;
        if (memcmp(ents[g].name, "DEMO", 4) || !lump(g, &b) || b.n < 13) continue;
        room(64);
        num(g);
        ch(' ');
        shown(ents[g].name);
        text(" bytes ");
        room(64);
        num((i64)b.n);
        ch(' ');
        demo_head(b.p);
    }
}
