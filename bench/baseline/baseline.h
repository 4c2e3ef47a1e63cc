/* What the files of the baseline share: bytes and numbers, what is printed, the files as one set, the level that is open, its tree, and the
   lines of the input. What runs for each line or record stands here, so that every file has it at hand. */
#ifndef BASELINE_H
#define BASELINE_H

#include <stddef.h>
#include <stdint.h>
#include <string.h>

typedef uint8_t u8;
typedef uint16_t u16;
typedef int16_t i16;
typedef uint32_t u32;
typedef int32_t i32;
typedef uint64_t u64;
typedef int64_t i64;

/* ---- Output: output.c ---- */

#define OUT_ROOM (1 << 16)
extern char ob[OUT_ROOM]; /* the bytes that aren't written yet */
extern size_t on;         /* how many */
extern char pairs[200];   /* 00 to 99 */

void init_pairs(void);
void flush(void);
void bytes(const char *p, size_t n);
void text(const char *s);
void die(const char *s);

static inline void room(size_t n) {
    if (on + n > sizeof ob) flush();
}
static inline void ch(char c) { ob[on++] = c; } /* after room */

/* the decimal text of v at p; the length */
static inline int dec(char *p, u64 v) {
    char t[20];
    int n = 20;
    while (v >= 100) {
        u64 q = v / 100;
        n -= 2;
        memcpy(t + n, pairs + 2 * (v - q * 100), 2);
        v = q;
    }
    if (v >= 10) {
        n -= 2;
        memcpy(t + n, pairs + 2 * v, 2);
    } else t[--n] = (char)('0' + v);
    memcpy(p, t + n, (size_t)(20 - n));
    return 20 - n;
}
static inline void num(i64 v) { /* after room(21) */
    u64 u = (u64)v;
    if (v < 0) {
        ob[on++] = '-';
        u = 0 - u;
    }
    on += (size_t)dec(ob + on, u);
}
static inline void spnum(i64 v) {
    ob[on++] = ' ';
    num(v);
}

/* ---- Bytes ---- */

extern int wide; /* indexes are unsigned */

static inline u32 le16(const u8 *p) { return (u32)p[0] | (u32)p[1] << 8; }
static inline i32 s16(const u8 *p) { return (i16)le16(p); }
static inline i32 s32(const u8 *p) { return (i32)((u32)p[0] | (u32)p[1] << 8 | (u32)p[2] << 16 | (u32)p[3] << 24); }
static inline i32 idx(const u8 *p) { return wide ? (i32)le16(p) : s16(p); }
#define NONE (wide ? 65535 : -1)
static inline int far(i32 v) { return v < -16384 || v > 16383; }

/* ---- Files: files.c ---- */

typedef struct {
    const u8 *p;
    size_t n;
} Buf;
typedef struct {
    u8 name[8];
    i32 pos, size;
    u32 file;
} Ent;

extern Buf files[64];
extern int nfiles;
extern u32 counts[64]; /* of their entries */
extern Ent *ents;      /* of all files */
extern u32 nents;

void open_set(char **path, int n);
void stored(u8 out[8], const u8 *in, size_t n);
i64 find(const u8 *name, size_t n);
int lump(u32 g, Buf *out);
void shown(const u8 *name);
void shown_raw(const u8 *p);

/* ---- Levels: levels.c ---- */

enum { THINGS = 1, LINEDEFS, SIDEDEFS, VERTEXES, SEGS, SSECTORS, NODES, SECTORS, REJECT, BLOCKMAP };
extern const char usual[11][9];
extern const u32 rsize[9];
extern u32 label;
extern Buf part[11];
extern u32 cnt[9];

void init_usual(void);
int is_usual(u32 g, int k);
int open_level(const char *name, int *k);
void need_level(const char *name);

static inline const u8 *rec(int k, u32 i) { return part[k].p + (size_t)i * rsize[k]; }
static inline int names(i32 v, int k) { return v >= 0 && (u32)v < cnt[k]; }

/* ---- What is found: audit.c ---- */

extern int quiet; /* count alone */
extern u32 faults;

void check_level(void);

/* ---- REJECT and BLOCKMAP: tables.c ---- */

extern u32 bwords;
extern i32 bw, bh;

void open_blockmap(void);
int block_list(u32 b, u32 *off);

/* ---- The tree: tree.c ---- */

typedef struct {
    i16 x, y, dx, dy;
    u16 kid[2];
    u8 tie, org;
} Nd; /* 16 bytes */
extern Nd *nd;
extern u32 nnd;
extern u32 *ssec; /* sector by ssector */

void set_node(Nd *q);
void open_tree(void);

/* 0 front, 1 back. Each product fits in 32 bits. */
static inline u32 side(const Nd *q, i32 px, i32 py) {
    i32 l = (i32)q->dy * (px - q->x), r = (i32)q->dx * (py - q->y);
    if (__builtin_expect(l == r, 0)) return q->tie && !(q->org && px == q->x && py == q->y);
    return l < r;
}
static inline u32 leaf(i32 x, i32 y) {
    if (!nnd) return 0;
    u32 w = nnd - 1;
    do w = nd[w].kid[side(&nd[w], x, y)];
    while (w < 32768);
    return w - 32768;
}

/* ---- The input: lines.c ---- */

typedef int (*Answer)(const i32 *v); /* 0: refused: range */

void lines(int k, Answer f);

/* ---- Commands ---- */

void cmd_lumps(void);
void cmd_levels(void);
void cmd_show(void);
void cmd_extract(void);
int cmd_audit(const char *name);
void cmd_points(int steps);
void cmd_census(void);
void cmd_census_plain(void);
void cmd_census_tests(void);
void cmd_sight(void);
void cmd_blocks(void);
void cmd_demo(const char *name);
int cmd_lmp(const char *path);
void cmd_demos(void);
int cmd_selftest(void);

#endif
