/* show. */
#include "baseline.h"

void cmd_show(void) {
    text("level ");
    shown(ents[label].name);
    text(" at ");
    room(24);
    num(label);
    ch('\n');
    for (int k = 1; k <= 8; k++) {
        text(usual[k]);
        room(64);
        spnum(cnt[k]);
        text(" rest ");
        num((i64)(part[k].n - (u64)cnt[k] * rsize[k]));
        ch('\n');
        const u8 *p = part[k].p;
        for (u32 i = 0; i < cnt[k]; i++, p += rsize[k]) {
            room(320);
            num(i);
            switch (k) {
            case THINGS:
                for (int j = 0; j < 5; j++) spnum(s16(p + 2 * j));
                break;
            case LINEDEFS:
                spnum(idx(p));
                spnum(idx(p + 2));
                for (int j = 2; j < 5; j++) spnum(s16(p + 2 * j));
                spnum(idx(p + 10));
                spnum(idx(p + 12));
                break;
            case SIDEDEFS:
                spnum(s16(p));
                spnum(s16(p + 2));
                for (int j = 0; j < 3; j++) {
                    ch(' ');
                    shown_raw(p + 4 + 8 * j);
                }
                spnum(idx(p + 28));
                break;
            case VERTEXES:
                spnum(s16(p));
                spnum(s16(p + 2));
                break;
            case SEGS:
                spnum(idx(p));
                spnum(idx(p + 2));
                spnum(s16(p + 4));
                spnum(idx(p + 6));
                spnum(s16(p + 8));
                spnum(s16(p + 10));
                break;
            case SSECTORS:
                spnum(idx(p));
                spnum(idx(p + 2));
                break;
            case NODES:
                for (int j = 0; j < 12; j++) spnum(s16(p + 2 * j));
                spnum(le16(p + 24));
                spnum(le16(p + 26));
                break;
            case SECTORS:
                spnum(s16(p));
                spnum(s16(p + 2));
                ch(' ');
                shown_raw(p + 4);
                ch(' ');
                shown_raw(p + 12);
                for (int j = 0; j < 3; j++) spnum(s16(p + 20 + 2 * j));
                break;
            }
            ch('\n');
        }
    }
    room(80);
    text("REJECT ");
    num((i64)part[REJECT].n);
    ch('\n');
    text("BLOCKMAP ");
    num((i64)part[BLOCKMAP].n);
    ch('\n');
}
