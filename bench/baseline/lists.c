/* lumps and levels. */
#include "baseline.h"

void cmd_lumps(void) {
    u32 g = 0;
    for (int i = 0; i < nfiles; i++) {
        room(64);
        text("file ");
        num(i + 1);
        text(files[i].p[0] == 'I' ? " IWAD " : " PWAD ");
        num(counts[i]);
        ch('\n');
        for (u32 k = 0; k < counts[i]; k++, g++) {
            room(112);
            num(g);
            spnum(ents[g].pos);
            spnum(ents[g].size);
            ch(' ');
            shown(ents[g].name);
            ch('\n');
        }
    }
}

static int is_level(u32 g) {
    if ((u64)g + 10 >= nents) return 0;
    for (int k = 1; k <= 10; k++)
        if (!is_usual(g + (u32)k, k)) return 0;
    return 1;
}

void cmd_levels(void) {
    for (u32 g = 0; g < nents; g++) {
        if (!is_level(g)) continue;
        room(64);
        num(g);
        ch(' ');
        shown(ents[g].name);
        if (find(ents[g].name, 8) != (i64)g) text(" hidden");
        room(1);
        ch('\n');
    }
}
