/* look CMD [--wide] NAME FILE: answers as the program `wadlook` does of one file, by the calls of wadlook.h. CMD is audit,
 * points, census, sight, blocks, demo or extract; `point` answers as points does, by a call for each line; `find` lists the
 * entry of a name and those behind it: number, place and size. Compiled as C and as C++. */
#include "wadlook.h"
#include <inttypes.h>
#include <stdio.h>
#include <stdlib.h>
#include <string.h>

#define FILE_AND_NAME wad, wad_len, name, name_len
#define LEVEL FILE_AND_NAME, wide

typedef struct {
    bool formed;
    int32_t of[4]; /* its numbers, each cut to 32 bits, which is out of every range */
} line;

static uint8_t *wad;
static const uint8_t *name;
static size_t wad_len, name_len, lines_len;
static bool wide;
static line *lines;

static void *room(size_t count, size_t size) {
    void *taken = calloc(count + 1, size);
    if (!taken) exit(3);
    return taken;
}

/* All bytes of a stream. */
static uint8_t *whole(FILE *from, size_t *len) {
    uint8_t *bytes = NULL;
    *len = 0;
    for (size_t most = 1 << 16, got = 1; got; most *= 2) {
        bytes = (uint8_t *)realloc(bytes, most);
        if (!bytes) exit(3);
        got = fread(bytes + *len, 1, most - *len, from);
        *len += got;
    }
    return bytes;
}

/* ---- Refusals ---------------------------------------------------------------------------------------------------- */

static void refuse(const char *why) {
    fprintf(stderr, "refused: %s\n", why);
    exit(2);
}

static void refuse_with(const char *why, size_t number) {
    fprintf(stderr, "refused: %s %zu\n", why, number);
    exit(2);
}

/* Ends the run where a call was refused, in the program's words for its status. */
static void stop_at(uint32_t status) {
    static const char *const words[] = {"", "audit", "memory", "room", "file 1: 1 short", "file 1: 2 magic", "file 1: 3 count",
        "file 1: 4 directory", "8 no label", "F1", "F2", "7 too large", "demo 1", "demo 2", "demo 3", "demo 4", "demo 5",
        "rectangle", "range", "no blockmap", "no block", "offset", "end", "sector", "unknown"};
    if (status == WADLOOK_DONE) return;
    fprintf(stderr, "refused: %s\n", words[status]);
    exit(status == WADLOOK_MEMORY ? 3 : 2);
}

/* The audit's totals, and its first findings. */
static wadlook_totals audited(wadlook_finding *findings, size_t findings_len) {
    wadlook_totals totals;
    stop_at(wadlook_audit(LEVEL, findings, findings_len, &totals));
    return totals;
}

/* Stops at a level that lacks a lump: the audit alone tells which. */
static void stop_unopened(void) {
    wadlook_finding first;
    if (audited(&first, 1).faults && first.code < 2) refuse_with(first.code ? "F2" : "F1", first.index);
}

/* ---- Lines ------------------------------------------------------------------------------------------------------- */

/* Reads so many numbers with single spaces between, in at most 64 bytes. */
static bool numbers(const uint8_t *at, const uint8_t *end, int count, int32_t *of) {
    if (end - at > 64) return false;
    for (int k = 0; k < count; k++) {
        if (k && (at == end || *at++ != ' ')) return false;
        bool negative = at < end && *at == '-';
        const uint8_t *first = at += negative;
        int64_t number = 0;
        for (; at < end && *at >= '0' && *at <= '9'; at++)
            if (number <= INT32_MAX) number = 10 * number + (*at - '0');
        if (at == first) return false;
        if (number > INT32_MAX) number = INT32_MAX;
        of[k] = (int32_t)(negative ? -number : number);
    }
    return at == end;
}

/* Reads the lines of standard input, of so many numbers each. */
static void read_lines(int count) {
    size_t len, most = 0;
    uint8_t *input = whole(stdin, &len);
    for (size_t k = 0; k < len; k++) most += input[k] == '\n';
    lines = (line *)room(most + 1, sizeof *lines);
    for (const uint8_t *at = input, *end = input + len; at < end; lines_len++) {
        const uint8_t *found = (const uint8_t *)memchr(at, '\n', (size_t)(end - at)), *last = found ? found : end;
        lines[lines_len].formed = numbers(at, last - (last > at && last[-1] == '\r'), count, lines[lines_len].of);
        at = last + 1;
    }
    free(input);
}

/* Calls `answer` with the numbers of each line. It prints their answer, or doesn't where they are out of range. */
static void each_line(bool (*answer)(const int32_t *)) {
    for (size_t k = 0; k < lines_len; k++)
        if (!lines[k].formed) puts("refused: form");
        else if (!answer(lines[k].of)) puts("refused: range");
}

/* ---- Commands ---------------------------------------------------------------------------------------------------- */

static int audit(void) {
    static const char *const texts[] = {"lump missing after the label", "lump outside its file", "linedef vertex names none",
        "linedef side names none", "sidedef sector names none", "seg vertex names none", "seg linedef names none",
        "seg side is not 0 or 1", "seg's linedef has no side there", "ssector's segs out of range", "child names nothing",
        "node origin out of range", "node named twice or root named", "node not reached", "ssector named more than once",
        "ssector not reached", "no ssector", "more than 32767 nodes", "lump name differs", "bytes left over",
        "two-sided flag without side 1", "no side 0", "linedef of no length", "ssector without segs", "partition without direction",
        "REJECT size", "BLOCKMAP short", "block list faulty", "no player 1 start", "vertex out of range"};
    wadlook_finding none;
    wadlook_totals totals = audited(&none, 0);
    size_t count = totals.faults + totals.notes;
    wadlook_finding *found = (wadlook_finding *)room(count, sizeof *found);
    audited(found, count);
    for (size_t k = 0; k < count; k++) {
        uint32_t code = found[k].code;
        printf("%c%" PRIu32 " %" PRIu32 " %s\n", "FN"[code > 17], code > 17 ? code - 17 : code + 1, found[k].index, texts[code]);
    }
    printf("faults %zu notes %zu\n", totals.faults, totals.notes);
    free(found);
    return totals.faults > 0;
}

static bool tell_place(const int32_t *of, wadlook_place place) {
    if (place.ssector == WADLOOK_NOWHERE) return false;
    printf("%" PRId32 " %" PRId32 " sector %u ssector %u\n", of[0], of[1], place.sector, place.ssector);
    return true;
}

static wadlook_place *place;

static bool tell_next_place(const int32_t *of) { return tell_place(of, *place++); }

static void points(void) {
    wadlook_point_at *asked = (wadlook_point_at *)room(lines_len, sizeof *asked);
    wadlook_place *places = place = (wadlook_place *)room(lines_len, sizeof *places);
    size_t count = 0;
    for (size_t k = 0; k < lines_len; k++) {
        if (!lines[k].formed) continue;
        asked[count].x = lines[k].of[0];
        asked[count++].y = lines[k].of[1];
    }
    stop_at(wadlook_points(LEVEL, asked, count, places, count));
    each_line(tell_next_place);
    free(asked);
    free(places);
}

static uint16_t sectors[32768];
static size_t sectors_len;
static wadlook_lump lump, other; /* those that a command asks for */

static bool tell_point(const int32_t *of) {
    wadlook_point_at at = {of[0], of[1]};
    return tell_place(of, wadlook_point(wad + lump.place, lump.size, sectors, sectors_len, at));
}

static void point(void) {
    stop_at(wadlook_prepare(LEVEL, sectors, 32768, &sectors_len));
    stop_at(wadlook_find(FILE_AND_NAME, 7, &lump));
    each_line(tell_point);
}

static wadlook_count counts[65536]; /* a sidedef names no other sectors */

static bool tell_census(const int32_t *of) {
    wadlook_rect rect = {of[0], of[1], of[2], of[3]};
    size_t count;
    uint32_t status = wadlook_census(LEVEL, &rect, counts, 65536, &count);
    if (status == WADLOOK_NO_RECT) return false;
    stop_at(status);
    printf("%" PRId32 " %" PRId32 " %" PRId32 " %" PRId32 " points %" PRId32, of[0], of[1], of[2], of[3],
        (of[2] - of[0] + 1) * (of[3] - of[1] + 1));
    for (size_t k = 0; k < count; k++) printf(" %" PRIu32 ":%" PRIu32, counts[k].sector, counts[k].points);
    puts("");
    return true;
}

static void census(void) {
    wadlook_rect origin = {0, 0, 0, 0}; /* a level that isn't sound is refused before any line */
    size_t count;
    stop_at(wadlook_census(LEVEL, &origin, counts, 0, &count));
    each_line(tell_census);
}

static bool tell_sight(const int32_t *of) {
    uint32_t blocked = 0, count = (uint32_t)(other.size / 26);
    uint32_t status = wadlook_sight(wad + lump.place, lump.size, count, (uint32_t)of[0], (uint32_t)of[1], &blocked);
    if (status == WADLOOK_NO_SECTOR) return false;
    printf("%" PRId32 " %" PRId32 " %s\n", of[0], of[1], status == WADLOOK_UNKNOWN ? "unknown" : blocked ? "blocked" : "clear");
    return true;
}

static void sight(void) {
    stop_at(wadlook_find(FILE_AND_NAME, 9, &lump));
    stop_at(wadlook_find(FILE_AND_NAME, 8, &other));
    each_line(tell_sight);
}

/* A word of BLOCKMAP. */
static int32_t word(size_t k, bool is_wide) {
    const uint8_t *at = wad + lump.place + 2 * k;
    int32_t number = at[0] | at[1] << 8;
    return is_wide || number < 32768 ? number : number - 65536;
}

static bool tell_block(const int32_t *of) {
    wadlook_point_at at = {of[0], of[1]};
    wadlook_block_at block = {0, 0, 0, 0};
    uint32_t status = wadlook_block(wad + lump.place, lump.size, wide, at, &block);
    if (status == WADLOOK_OUT_OF_RANGE) return false;
    printf("%" PRId32 " %" PRId32, of[0], of[1]);
    if (status == WADLOOK_NO_BLOCK) {
        puts(" no block");
    } else if (status != WADLOOK_DONE) { /* the call tells no block where its list is faulty */
        int32_t column = (of[0] - word(0, false)) / 128, row = (of[1] - word(1, false)) / 128;
        printf(" block %" PRId32 " %" PRId32 " fault %d\n", column, row, status == WADLOOK_NO_END ? 2 : 1);
    } else {
        printf(" block %" PRIu32 " %" PRIu32 " lines", block.column, block.row);
        for (size_t k = 0; k < block.count; k++) printf(" %" PRId32, word(block.first + k, wide));
        puts("");
    }
    return true;
}

static void blocks(void) {
    wadlook_point_at origin = {0, 0};
    wadlook_block_at block;
    stop_at(wadlook_find(FILE_AND_NAME, 10, &lump));
    if (wadlook_block(wad + lump.place, lump.size, wide, origin, &block) == WADLOOK_NO_BLOCKMAP) stop_at(WADLOOK_NO_BLOCKMAP);
    each_line(tell_block);
}

/* Finds an entry; where it is no part of a level, its refusals have words of their own. */
static bool find_lump(size_t after) {
    uint32_t status = wadlook_find(FILE_AND_NAME, after, &lump);
    if (status == WADLOOK_LUMP_MISSING) return false;
    if (status == WADLOOK_NO_NAME) refuse("5 no such lump");
    if (status == WADLOOK_LUMP_OUTSIDE) refuse("6 outside file");
    stop_at(status);
    return true;
}

static void demo(void) {
    find_lump(0);
    const uint8_t *bytes = wad + lump.place;
    size_t most = lump.size / 4;
    wadlook_command *commands = (wadlook_command *)room(most, sizeof *commands);
    wadlook_demo_info info;
    uint32_t status = wadlook_demo(bytes, lump.size, commands, most, &info);
    size_t each = status != WADLOOK_DEMO_EMPTY && bytes[0] == 111 ? 5 : 4;
    if (status == WADLOOK_DEMO_VERSION) refuse_with("demo 2 version", bytes[0]);
    if (status == WADLOOK_DEMO_NO_MARKER) refuse_with("demo 5 at", 13 + (lump.size - 13) / each * each); /* behind whole commands */
    stop_at(status);
    printf("demo version %u skill %u episode %u map %u deathmatch %u respawn %u fast %u nomonsters %u viewpoint %u", info.version,
        info.skill, info.episode, info.map, info.deathmatch, info.respawn, info.fast, info.no_monsters, info.viewpoint);
    printf(" players %u %u %u %u\n", info.player[0], info.player[1], info.player[2], info.player[3]);
    int playing[4], players = 0;
    for (int k = 0; k < 4; k++)
        if (info.player[k]) playing[players++] = k + 1;
    for (size_t k = 0; k < info.commands; k++)
        printf("%zu %d %d %d %u %02x\n", k / info.players, playing[k % info.players], commands[k].forward, commands[k].side,
            commands[k].turn, commands[k].buttons);
    printf("tics %zu odd %zu after %zu\n", info.commands / info.players, info.commands % info.players, info.after);
    free(commands);
}

static void extract(void) {
    uint8_t none;
    size_t len = 0;
    uint32_t status = wadlook_extract(FILE_AND_NAME, &none, 0, &len);
    if (status != WADLOOK_NO_ROOM) stop_at(status);
    uint8_t *out = (uint8_t *)room(len, 1);
    stop_at(wadlook_extract(FILE_AND_NAME, out, len, &len));
    fwrite(out, 1, len, stdout);
    free(out);
}

static void find(void) {
    for (size_t after = 0; find_lump(after); after++) printf("%zu %zu %zu\n", lump.entry, lump.place, lump.size);
}

int main(int argc, char **argv) {
    static const struct {
        const char *word;
        void (*call)(void);
        int numbers;
    } commands[] = {{"points", points, 2}, {"point", point, 2}, {"census", census, 4}, {"sight", sight, 2}, {"blocks", blocks, 2},
        {"extract", extract, 0}, {"demo", demo, -1}, {"find", find, -1}};
    wide = argc == 5 && !strcmp(argv[2], "--wide");
    if (argc != 4 + wide) refuse("usage");
    FILE *file = fopen(argv[3 + wide], "rb");
    if (!file) refuse("file 1: read");
    wad = whole(file, &wad_len);
    fclose(file);
    name = (const uint8_t *)argv[2 + wide];
    name_len = strlen(argv[2 + wide]);
    if (!strcmp(argv[1], "audit")) return audit();
    for (size_t k = 0; k < sizeof commands / sizeof *commands; k++) {
        if (strcmp(argv[1], commands[k].word)) continue;
        if (commands[k].numbers >= 0) stop_unopened();
        if (commands[k].numbers > 0) read_lines(commands[k].numbers);
        commands[k].call();
        free(lines);
        free(wad);
        return 0;
    }
    refuse("usage");
}
