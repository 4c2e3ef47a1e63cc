/* extract: a level alone as a file. */
#include "baseline.h"

static void put32(u8 *p, u32 v) {
    for (int i = 0; i < 4; i++) p[i] = (u8)(v >> 8 * i);
}
void cmd_extract(void) {
    u8 h[12], d[11][16];
    u64 at = 12;
    memset(d, 0, sizeof d);
    for (int k = 0; k <= 10; k++) {
        put32(d[k], (u32)at);
        put32(d[k] + 4, (u32)(k ? part[k].n : 0));
        memcpy(d[k] + 8, ents[label + (u32)k].name, 8);
        if (k) at += part[k].n;
    }
    if (at + 176 > 2147483647) die("7 too large");
    memcpy(h, "PWAD", 4);
    put32(h + 4, 11);
    put32(h + 8, (u32)at);
    bytes((char *)h, 12);
    for (int k = 1; k <= 10; k++) bytes((const char *)part[k].p, part[k].n);
    bytes((char *)d, sizeof d);
}
