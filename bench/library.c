/* library.c: libwadlook beside plain C, on the points of a file. Build, after tools/library:
       gcc -O3 -Iout/include -o library bench/library.c out/lib/libwadlook.a
   library BASELINE NAME WAD POINTS [ROUNDS]
   tells the least processor time, in seconds, of so many rounds (15) in turn: of the program BASELINE (baseline/), which
   answers the points as text; of one call of wadlook_points; of a call of wadlook_point for each; and of three descents in
   plain C: tuned, over NODES' bytes and the list of sectors, too; the same untuned; and that of the baseline, `leaf`, over nodes
   that were decoded before. It ends with 1 where two of them differ. */
#include "wadlook.h"
#include <fcntl.h>
#include <stdio.h>
#include <stdlib.h>
#include <string.h>
#include <sys/resource.h>
#include <sys/wait.h>
#include <time.h>
#include <unistd.h>

static uint8_t *wad;
static size_t size, points_len;
static const uint8_t *name;
static size_t name_len;
static wadlook_point_at *points;
static wadlook_place *by_call, *by_points, *by_c, *by_untuned, *by_leaf;
static uint16_t sectors[32768];
static size_t sectors_len;
static const uint8_t *nodes;
static size_t nodes_len;
static char **words;

typedef struct {
    int16_t x, y, dx, dy;
    uint16_t kid[2];
    uint8_t tie, org;
} node; /* as in the baseline */
static node *decoded;

static double now(void) {
    struct timespec t;
    clock_gettime(CLOCK_PROCESS_CPUTIME_ID, &t);
    return (double)t.tv_sec + 1e-9 * (double)t.tv_nsec;
}
static void must(int holds, const char *what) {
    if (!holds) {
        fprintf(stderr, "%s\n", what);
        exit(1);
    }
}

static inline uint32_t le16(const uint8_t *p) { return p[0] | (uint32_t)p[1] << 8; }
static inline int32_t s16(const uint8_t *p) { return (int16_t)le16(p); }
static inline int far(int32_t v) { return v < -16384 || v > 16383; }

/* 0 front, 1 back, as in the baseline. */
static inline uint32_t side(const uint8_t *p, int32_t x, int32_t y) {
    int32_t nx = s16(p), ny = s16(p + 2), dx = s16(p + 4), dy = s16(p + 6);
    int32_t l = dy * (x - nx), r = dx * (y - ny);
    if (__builtin_expect(l == r, 0)) return (dx == 0 ? dy > 0 : dy == 0 ? dx < 0 : 1) && !(dx < 0 && dy > 0 && x == nx && y == ny);
    return l < r;
}

/* None of these is inlined, since no call of a library is. */
static const wadlook_place nowhere = {WADLOOK_NOWHERE, WADLOOK_NOWHERE};
static inline wadlook_place found(uint32_t word, const uint16_t *list) {
    return (wadlook_place){(uint16_t)(word - 32768), list[word - 32768]};
}

static __attribute__((noinline)) wadlook_place c_point(
    const uint8_t *bytes, size_t len, const uint16_t *list, wadlook_point_at at) {
    if (far(at.x) || far(at.y)) return nowhere;
    uint32_t word = len < 28 ? 32768 : (uint32_t)(len / 28) - 1;
    while (word < 32768) {
        const uint8_t *p = bytes + 28 * (size_t)word;
        uint32_t front = le16(p + 24), back = le16(p + 26); /* both loaded before the test: a fifth faster than behind it */
        word = side(p, at.x, at.y) ? back : front;
    }
    return found(word, list);
}

static __attribute__((noinline)) wadlook_place c_untuned(
    const uint8_t *bytes, size_t len, const uint16_t *list, wadlook_point_at at) {
    if (far(at.x) || far(at.y)) return nowhere;
    uint32_t word = len < 28 ? 32768 : (uint32_t)(len / 28) - 1;
    while (word < 32768) {
        const uint8_t *p = bytes + 28 * (size_t)word;
        word = le16(p + 24 + 2 * side(p, at.x, at.y));
    }
    return found(word, list);
}

static inline uint32_t side_of(const node *q, int32_t px, int32_t py) {
    int32_t l = (int32_t)q->dy * (px - q->x), r = (int32_t)q->dx * (py - q->y);
    if (__builtin_expect(l == r, 0)) return q->tie && !(q->org && px == q->x && py == q->y);
    return l < r;
}

static __attribute__((noinline)) wadlook_place c_leaf(size_t count, const uint16_t *list, wadlook_point_at at) {
    if (far(at.x) || far(at.y)) return nowhere;
    if (!count) return found(32768, list);
    uint32_t w = (uint32_t)count - 1;
    do w = decoded[w].kid[side_of(&decoded[w], at.x, at.y)];
    while (w < 32768);
    return found(w, list);
}

static void decode(void) {
    decoded = malloc((nodes_len / 28 + 1) * sizeof *decoded);
    must(decoded != NULL, "no memory");
    for (size_t i = 0; i < nodes_len / 28; i++) {
        const uint8_t *p = nodes + 28 * i;
        node q = {(int16_t)s16(p), (int16_t)s16(p + 2), (int16_t)s16(p + 4), (int16_t)s16(p + 6),
            {(uint16_t)le16(p + 24), (uint16_t)le16(p + 26)}, 0, 0};
        q.tie = q.dx == 0 ? q.dy > 0 : q.dy == 0 ? q.dx < 0 : 1;
        q.org = q.dx < 0 && q.dy > 0;
        decoded[i] = q;
    }
}

static double text(void) {
    struct rusage before, after;
    getrusage(RUSAGE_CHILDREN, &before);
    pid_t pid = fork();
    if (pid == 0) {
        dup2(open(words[4], O_RDONLY), 0);
        dup2(open("/dev/null", O_WRONLY), 1);
        execl(words[1], words[1], "points", words[2], words[3], (char *)NULL);
        _exit(127);
    }
    int status;
    must(waitpid(pid, &status, 0) == pid && status == 0, "the baseline failed");
    getrusage(RUSAGE_CHILDREN, &after);
    return (double)(after.ru_utime.tv_sec - before.ru_utime.tv_sec + after.ru_stime.tv_sec - before.ru_stime.tv_sec) +
           1e-6 * (double)(after.ru_utime.tv_usec - before.ru_utime.tv_usec + after.ru_stime.tv_usec - before.ru_stime.tv_usec);
}

static double one_call(void) {
    double start = now();
    must(!wadlook_points(wad, size, name, name_len, false, points, points_len, by_call, points_len), "points was refused");
    return now() - start;
}

static double each_point(void) {
    double start = now();
    for (size_t i = 0; i < points_len; i++) by_points[i] = wadlook_point(nodes, nodes_len, sectors, sectors_len, points[i]);
    return now() - start;
}

static double in_c(void) {
    double start = now();
    for (size_t i = 0; i < points_len; i++) by_c[i] = c_point(nodes, nodes_len, sectors, points[i]);
    return now() - start;
}

static double in_untuned(void) {
    double start = now();
    for (size_t i = 0; i < points_len; i++) by_untuned[i] = c_untuned(nodes, nodes_len, sectors, points[i]);
    return now() - start;
}

static double in_leaf(void) {
    double start = now();
    for (size_t i = 0; i < points_len; i++) by_leaf[i] = c_leaf(nodes_len / 28, sectors, points[i]);
    return now() - start;
}

static void load(void) {
    FILE *file = fopen(words[3], "rb");
    must(file && !fseek(file, 0, SEEK_END), "no WAD");
    size = (size_t)ftell(file);
    rewind(file);
    wad = malloc(size);
    must(wad && fread(wad, 1, size, file) == size, "the WAD wasn't read");
    fclose(file);
    file = fopen(words[4], "r");
    must(file != NULL, "no points");
    size_t room = 1 << 21;
    points = malloc(room * sizeof *points);
    must(points != NULL, "no memory");
    while (points_len < room && fscanf(file, "%d %d", &points[points_len].x, &points[points_len].y) == 2) points_len++;
    fclose(file);
    by_call = calloc(points_len + 1, sizeof *by_call);
    by_points = calloc(points_len + 1, sizeof *by_points);
    by_c = calloc(points_len + 1, sizeof *by_c);
    by_untuned = calloc(points_len + 1, sizeof *by_untuned);
    by_leaf = calloc(points_len + 1, sizeof *by_leaf);
    must(by_call && by_points && by_c && by_untuned && by_leaf, "no memory");
    name = (const uint8_t *)words[2];
    name_len = strlen(words[2]);
}

int main(int argc, char **argv) {
    if (argc < 5) return 2;
    words = argv;
    load();
    wadlook_lump lump;
    double start = now();
    must(!wadlook_prepare(wad, size, name, name_len, false, sectors, 32768, &sectors_len), "prepare was refused");
    double prepared = now() - start;
    must(!wadlook_find(wad, size, name, name_len, 7, &lump), "no NODES");
    nodes = wad + lump.place;
    nodes_len = lump.size;

    decode();

    /* Each job, and the one beside which its time is told. */
    const struct {
        const char *name;
        double (*run)(void);
        int beside;
    } jobs[] = {
        {"text in and out, by the baseline", text, -1},
        {"one call of wadlook_points", one_call, 0},
        {"a call of wadlook_point for each", each_point, 3},
        {"descent in C, tuned", in_c, -1},
        {"descent in C, children loaded behind the test", in_untuned, 3},
        {"leaf of the baseline, over decoded nodes", in_leaf, 3},
    };
    enum { JOBS = sizeof jobs / sizeof *jobs };
    double least[JOBS];
    for (int i = 0; i < JOBS; i++) least[i] = 1e9;
    for (int round = argc > 5 ? atoi(argv[5]) : 15; round > 0; round--)
        for (int i = 0; i < JOBS; i++) {
            double took = jobs[i].run();
            if (took < least[i]) least[i] = took;
        }
    const wadlook_place *others[] = {by_points, by_c, by_untuned, by_leaf};
    for (int i = 0; i < 4; i++) must(!memcmp(by_call, others[i], points_len * sizeof *by_call), "answers differ");
    printf("%zu points; wadlook_prepare %.4f\n", points_len, prepared);
    for (int i = 0; i < JOBS; i++) {
        printf("%-46s %.4f", jobs[i].name, least[i]);
        if (jobs[i].beside >= 0) printf("  %.2f of: %s", least[i] / least[jobs[i].beside], jobs[jobs[i].beside].name);
        puts("");
    }
    return 0;
}
