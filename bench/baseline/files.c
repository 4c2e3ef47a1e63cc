/* The files as one set of entries: read or mapped, their directories, look-ups, lumps, names. */
#include "baseline.h"

#include <fcntl.h>
#include <stdio.h>
#include <stdlib.h>
#include <sys/mman.h>
#include <sys/stat.h>
#include <unistd.h>

Buf files[64];
int nfiles;
u32 counts[64];
Ent *ents;
u32 nents;

static Buf slurp(const char *path, int n) {
    char m[64];
    int fd = open(path, O_RDONLY);
    struct stat st;
    if (fd < 0 || fstat(fd, &st)) {
        snprintf(m, sizeof m, "file %d: read", n);
        die(m);
    }
    Buf b = {0, (size_t)st.st_size};
    if (getenv("BASELINE_MMAP") && b.n) {
        void *q = mmap(0, b.n, PROT_READ, MAP_PRIVATE, fd, 0);
        if (q != MAP_FAILED) {
            b.p = q;
            close(fd);
            return b;
        }
    }
    u8 *q = malloc(b.n + 1);
    size_t got = 0;
    while (got < b.n) {
        ssize_t k = read(fd, q + got, b.n - got);
        if (k <= 0) {
            snprintf(m, sizeof m, "file %d: read", n);
            die(m);
        }
        got += (size_t)k;
    }
    close(fd);
    b.p = q;
    return b;
}

/* the bytes before the first NUL, or all eight; the rest become NULs */
void stored(u8 out[8], const u8 *in, size_t n) {
    size_t i = 0;
    memset(out, 0, 8);
    for (; i < 8 && i < n && in[i]; i++) out[i] = in[i];
}

void open_set(char **path, int n) {
    char m[64];
    size_t total = 0;
    for (int i = 0; i < n; i++) {
        files[i] = slurp(path[i], i + 1);
        total += files[i].n;
        if (total > 268435456) {
            snprintf(m, sizeof m, "file %d: too long", i + 1);
            die(m);
        }
    }
    nfiles = n;
    u64 all = 0;
    for (int i = 0; i < n; i++) {
        Buf b = files[i];
        const char *w = 0;
        if (b.n < 12) w = "1 short";
        else if (memcmp(b.p, "IWAD", 4) && memcmp(b.p, "PWAD", 4)) w = "2 magic";
        else if (s32(b.p + 4) < 0) w = "3 count";
        else if (s32(b.p + 4) > 0) {
            i64 o = s32(b.p + 8), c = s32(b.p + 4);
            if (o < 0 || o + 16 * c > (i64)b.n) w = "4 directory";
        }
        if (w) {
            snprintf(m, sizeof m, "file %d: %s", i + 1, w);
            die(m);
        }
        counts[i] = (u32)s32(b.p + 4);
        all += counts[i];
    }
    ents = malloc((all ? all : 1) * sizeof *ents);
    for (int i = 0; i < n; i++) {
        if (!counts[i]) continue;
        const u8 *d = files[i].p + s32(files[i].p + 8);
        for (u32 k = 0; k < counts[i]; k++, d += 16) {
            Ent *e = &ents[nents++];
            e->pos = s32(d);
            e->size = s32(d + 4);
            e->file = (u32)i;
            stored(e->name, d + 8, 8);
        }
    }
}

i64 find(const u8 *name, size_t n) {
    u8 q[8];
    u64 a, b;
    stored(q, name, n);
    for (int i = 0; i < 8; i++)
        if (q[i] >= 'a' && q[i] <= 'z') q[i] -= 32;
    memcpy(&a, q, 8);
    for (i64 g = (i64)nents - 1; g >= 0; g--) {
        memcpy(&b, ents[g].name, 8);
        if (a == b) return g;
    }
    return -1;
}

int lump(u32 g, Buf *out) {
    Ent *e = &ents[g];
    Buf f = files[e->file];
    out->p = f.p;
    out->n = 0;
    if (e->size == 0) return 1;
    if (e->size < 0 || e->pos < 0 || (i64)e->pos + e->size > (i64)f.n) return 0;
    out->p = f.p + e->pos;
    out->n = (size_t)e->size;
    return 1;
}

void shown(const u8 *name) {
    static const char hex[] = "0123456789abcdef";
    room(32);
    for (int i = 0; i < 8 && name[i]; i++) {
        u8 c = name[i];
        if (c >= 33 && c <= 126 && c != '\\') ch((char)c);
        else {
            ch('\\');
            ch('x');
            ch(hex[c >> 4]);
            ch(hex[c & 15]);
        }
    }
}
void shown_raw(const u8 *p) {
    u8 t[8];
    stored(t, p, 8);
    shown(t);
}
