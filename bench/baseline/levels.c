/* A level: its label and the ten lumps after it. */
#include "baseline.h"

#include <stdio.h>

const char usual[11][9] = {
    "", "THINGS", "LINEDEFS", "SIDEDEFS", "VERTEXES", "SEGS", "SSECTORS", "NODES", "SECTORS", "REJECT", "BLOCKMAP"};
static u64 usual_word[11];
void init_usual(void) {
    for (int k = 1; k <= 10; k++) {
        u8 t[8];
        stored(t, (const u8 *)usual[k], 8);
        memcpy(&usual_word[k], t, 8);
    }
}
int is_usual(u32 g, int k) {
    u64 a;
    memcpy(&a, ents[g].name, 8);
    return a == usual_word[k];
}

const u32 rsize[9] = {0, 10, 14, 30, 4, 12, 4, 28, 26};
u32 label;
Buf part[11];
u32 cnt[9];
/* 0, or the code F1 or F2 with *k */
int open_level(const char *name, int *k) {
    i64 g = find((const u8 *)name, strlen(name));
    if (g < 0) die("8 no label");
    label = (u32)g;
    for (*k = 1; *k <= 10; ++*k) {
        if (g + *k >= (i64)nents) return 1;
        if (!lump((u32)(g + *k), &part[*k])) return 2;
    }
    for (int j = 1; j <= 8; j++) cnt[j] = (u32)(part[j].n / rsize[j]);
    return 0;
}
void need_level(const char *name) {
    int k, f = open_level(name, &k);
    char m[16];
    if (f) {
        snprintf(m, sizeof m, "F%d %d", f, k);
        die(m);
    }
}
