/* growths BASE: each growth of memory that a call asks for is refused in turn, over the sample level. The call answers
 * WADLOOK_MEMORY, or WADLOOK_NO_MEMORY where it does a word of `wadlens`; what it writes to is as it was, but for a front of the
 * answer of such a word; and nothing is kept. With all growths granted it answers. The program's own
 * malloc and realloc stand before those of the C library, which the calls would reach. The last line is `N passed, M failed`. */
#include "wadlook.h"
#include <stdio.h>
#include <string.h>

#define NAME(text) (const uint8_t *)(text), strlen(text)

enum { SAMPLE = 409, ROOM = 1024, POISON = 0xA5, MOST = 1000 };

void *__libc_malloc(size_t size);
void *__libc_realloc(void *old, size_t size);
void __libc_free(void *old);

static bool counting;
static unsigned growths, refused, held;

/* Whether this growth is granted. */
static bool is_granted(void) { return !counting || ++growths != refused; }

void *malloc(size_t size) {
    void *block = is_granted() ? __libc_malloc(size) : NULL;
    held += counting && block;
    return block;
}

void *realloc(void *old, size_t size) {
    void *block = is_granted() ? __libc_realloc(old, size) : NULL;
    held += counting && block && !old;
    return block;
}

void free(void *old) {
    held -= counting && old;
    __libc_free(old);
}

static uint8_t wad[SAMPLE];

/* What a call writes to. */
static union {
    uint8_t bytes[ROOM];
    wadlook_place places[2];
    struct {
        uint16_t sectors[8];
        size_t count;
    } listed;
    struct {
        wadlook_count counts[4];
        size_t count;
    } census;
    struct {
        wadlook_finding findings[4];
        wadlook_totals totals;
    } audit;
    wadlook_lump lump;
    struct {
        size_t written;
        uint8_t bytes[ROOM - sizeof(size_t)];
    } level;
    struct {
        wadlook_level levels[2];
        size_t count;
    } levels;
    struct {
        int32_t sectors[4];
        wadlook_grid grid;
    } cells;
    struct {
        wadlook_told told;
        uint8_t answer[ROOM - sizeof(wadlook_told)];
    } ran;
} out;

static uint32_t points(void) {
    static const wadlook_point_at at[] = {{0, 5}, {1, 5}};
    return wadlook_points(wad, SAMPLE, NAME("E1M1"), false, at, 2, out.places, 2);
}

static bool points_are_right(void) { return out.places[0].sector == 1 && out.places[1].sector == 0; }

static uint32_t prepare(void) {
    return wadlook_prepare(wad, SAMPLE, NAME("E1M1"), false, out.listed.sectors, 8, &out.listed.count);
}

static bool sectors_are_right(void) { return out.listed.count == 2 && out.listed.sectors[0] == 0 && out.listed.sectors[1] == 1; }

static uint32_t census(void) {
    static const wadlook_rect rect = {-1, 0, 1, 1};
    return wadlook_census(wad, SAMPLE, NAME("E1M1"), false, &rect, out.census.counts, 4, &out.census.count);
}

static bool counts_are_right(void) {
    const wadlook_count *counts = out.census.counts;
    return out.census.count == 2 && counts[0].sector == 0 && counts[0].points == 2 && counts[1].sector == 1 &&
           counts[1].points == 4;
}

static uint32_t audit(void) { return wadlook_audit(wad, SAMPLE, NAME("E1M1"), false, out.audit.findings, 4, &out.audit.totals); }

static bool totals_are_right(void) { return out.audit.totals.faults == 0 && out.audit.totals.notes == 0; }

static uint32_t find(void) { return wadlook_find(wad, SAMPLE, NAME("E1M1"), 7, &out.lump); }

static bool lump_is_right(void) { return out.lump.entry == 7 && out.lump.place == 136 && out.lump.size == 28; }

static uint32_t extract(void) {
    return wadlook_extract(wad, SAMPLE, NAME("E1M1"), out.level.bytes, sizeof out.level.bytes, &out.level.written);
}

static bool level_is_right(void) { return out.level.written == SAMPLE && memcmp(out.level.bytes, wad, SAMPLE) == 0; }

static uint32_t levels(void) { return wadlook_levels(wad, SAMPLE, out.levels.levels, 2, &out.levels.count); }

static bool labels_are_right(void) { return out.levels.count == 1 && !memcmp(out.levels.levels[0].name, "E1M1", 4); }

static uint32_t points_at(void) {
    static const wadlook_point_at at[] = {{0, 5}, {1, 5}};
    return wadlook_points_at(wad, SAMPLE, 0, false, at, 2, out.places, 2);
}

static uint32_t prepare_at(void) { return wadlook_prepare_at(wad, SAMPLE, 0, false, out.listed.sectors, 8, &out.listed.count); }

static uint32_t under(void) {
    const wadlook_point_at at = {0, 5};
    return wadlook_under(wad, SAMPLE, 0, false, at, out.places);
}

static bool place_is_right(void) { return out.places[0].sector == 1 && out.places[0].ssector == 1; }

static uint32_t census_at(void) {
    static const wadlook_rect rect = {-1, 0, 1, 1};
    return wadlook_census_at(wad, SAMPLE, 0, false, &rect, out.census.counts, 4, &out.census.count);
}

static uint32_t audit_at(void) { return wadlook_audit_at(wad, SAMPLE, 0, false, out.audit.findings, 4, &out.audit.totals); }

static uint32_t find_at(void) { return wadlook_find_at(wad, SAMPLE, 7, &out.lump); }

static uint32_t cells(void) {
    static const wadlook_view view = {-2, 0, 1, 0, 4, true};
    return wadlook_cells(wad, SAMPLE, 0, false, &view, out.cells.sectors, 4, &out.cells.grid);
}

static bool cells_are_right(void) { return out.cells.grid.columns == 4 && out.cells.sectors[1] == 1 && out.cells.sectors[3] == 0; }

static uint32_t extract_at(void) {
    return wadlook_extract_at(wad, SAMPLE, 0, out.level.bytes, sizeof out.level.bytes, &out.level.written);
}

/* A word over the sample. */
static uint32_t run(uint32_t word) {
    const wadlook_question question = {.name = (const uint8_t *)"E1M1", .name_len = 4, .word = word, .map = true};
    const wadlook_file file = {(const uint8_t *)"a.wad", 5, wad, SAMPLE};
    return wadlook_run(&question, &file, 1, NULL, 0, out.ran.answer, sizeof out.ran.answer, NULL, 0, &out.ran.told);
}

static uint32_t check(void) { return run(WADLOOK_CHECK); }

static bool lines_are_right(void) { return out.ran.told.answer && !memcmp(out.ran.answer, "a.wad: E1M1: W1 sector 0: ", 26); }

static uint32_t picture(void) { return run(WADLOOK_PICTURE); }

static bool picture_is_right(void) { return !memcmp(out.ran.answer, "<svg", 4); }

static uint32_t survey(void) { return run(WADLOOK_SURVEY); }

static bool object_is_right(void) { return !memcmp(out.ran.answer, "{\"file\":\"a.wad\",\"level\":\"E1M1\",", 31); }

static uint32_t cut(void) { return run(WADLOOK_CUT); }

static bool cut_is_right(void) { return out.ran.told.answer == SAMPLE && !memcmp(out.ran.answer, wad, SAMPLE); }

static bool add_found(void *own, const wadlook_found *found) {
    *(size_t *)own += found->code == WADLOOK_W1;
    return true;
}

/* A callback for each finding. */
static uint32_t check_found(void) {
    const wadlook_question question = {.map = true};
    const wadlook_file file = {(const uint8_t *)"a.wad", 5, wad, SAMPLE};
    out.listed.count = 0;
    return wadlook_check(&question, &file, 1, add_found, &out.listed.count);
}

static bool findings_are_right(void) { return out.listed.count == 4; }

static const struct call {
    const char *name;
    uint32_t (*make)(void);
    bool (*is_right)(void);
    uint32_t refused; /* how it ends where a growth is refused */
} calls[] = {
    {"points", points, points_are_right, WADLOOK_MEMORY},
    {"prepare", prepare, sectors_are_right, WADLOOK_MEMORY},
    {"census", census, counts_are_right, WADLOOK_MEMORY},
    {"audit", audit, totals_are_right, WADLOOK_MEMORY},
    {"find", find, lump_is_right, WADLOOK_MEMORY},
    {"extract", extract, level_is_right, WADLOOK_MEMORY},
    {"levels", levels, labels_are_right, WADLOOK_MEMORY},
    {"points_at", points_at, points_are_right, WADLOOK_MEMORY},
    {"prepare_at", prepare_at, sectors_are_right, WADLOOK_MEMORY},
    {"under", under, place_is_right, WADLOOK_MEMORY},
    {"census_at", census_at, counts_are_right, WADLOOK_MEMORY},
    {"cells", cells, cells_are_right, WADLOOK_MEMORY},
    {"audit_at", audit_at, totals_are_right, WADLOOK_MEMORY},
    {"find_at", find_at, lump_is_right, WADLOOK_MEMORY},
    {"extract_at", extract_at, level_is_right, WADLOOK_MEMORY},
    {"check", check, lines_are_right, WADLOOK_NO_MEMORY},
    {"picture", picture, picture_is_right, WADLOOK_NO_MEMORY},
    {"survey", survey, object_is_right, WADLOOK_NO_MEMORY},
    {"cut", cut, cut_is_right, WADLOOK_NO_MEMORY},
    {"wadlook_check", check_found, findings_are_right, WADLOOK_NO_MEMORY},
};

/* Makes a call with growth n refused, with 0 none: its status. */
static uint32_t made(const struct call *call, unsigned n) {
    memset(out.bytes, POISON, sizeof out.bytes);
    growths = held = 0;
    refused = n;
    counting = true;
    uint32_t status = call->make();
    counting = false;
    return status;
}

static bool is_as_it_was(void) {
    for (size_t i = 0; i < sizeof out.bytes; i++)
        if (out.bytes[i] != POISON) return false;
    return true;
}

/* Refuses each growth of a call in turn, and after each one none. */
static bool stands(const struct call *call) {
    unsigned n = 1;
    for (; n < MOST; n++) {
        uint32_t status = made(call, n);
        if (growths < n) break;
        if (status != call->refused || held || (status == WADLOOK_MEMORY && !is_as_it_was())) return false;
        if (made(call, 0) != WADLOOK_DONE || held || !call->is_right()) return false;
    }
    return 1 < n && n < MOST;
}

int main(int count, char **words) {
    FILE *file = count == 2 ? fopen(words[1], "rb") : NULL;
    if (!file || fread(wad, 1, SAMPLE, file) != SAMPLE) {
        fprintf(stderr, "growths: no sample level\n");
        return 2;
    }
    fclose(file);
    unsigned passed = 0, failed = 0;
    for (size_t i = 0; i < sizeof calls / sizeof *calls; i++) {
        if (stands(&calls[i])) {
            passed++;
        } else {
            failed++;
            printf("FAILED %s: growth %u of %u\n", calls[i].name, refused, growths);
        }
    }
    printf("%u passed, %u failed\n", passed, failed);
    return failed > 0;
}
