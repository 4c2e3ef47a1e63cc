/* cases BASE: the calls on worked cases, each over the sample level or a copy of it with other bytes: their statuses, what they
 * leave as it was, and calls from several threads. What is wanted comes from the formats (sample/README.md), never from the
 * library. Compiled as C and as C++. The last line is `N passed, M failed`. */
#include "wadlook.h"
#include <pthread.h>
#include <stdio.h>
#include <stdlib.h>
#include <string.h>

#define NAME(text) (const uint8_t *)(text), strlen(text)
#define CHECK(what) check(what, #what, __LINE__)

enum { BASE = 409, SIDEDEFS = 36, SSECTORS = 128, NODES = 136, REJECT = 216, BLOCKMAP = 217, DIRECTORY = 233 };

static unsigned passed, failed;
static uint8_t base[BASE], wad[BASE + 64];

static void check(bool holds, const char *what, int line) {
    if (holds) {
        passed++;
        return;
    }
    failed++;
    printf("FAILED line %d: %s\n", line, what);
}

/* The sample level again, as it stands in its file. */
static void fresh(void) { memcpy(wad, base, BASE); }

/* Words at a place of the copy. */
static void put(size_t place, int count, const int *words) {
    for (int i = 0; i < count; i++) {
        wad[place + 2 * i] = words[i] & 255;
        wad[place + 2 * i + 1] = words[i] >> 8 & 255;
    }
}
#define PUT(place, ...)                                                                                                            \
    do {                                                                                                                           \
        const int these[] = {__VA_ARGS__};                                                                                         \
        put(place, sizeof these / sizeof *these, these);                                                                           \
    } while (0)

/* Where the directory says of lump k, 0 for the label, that it lies; its size stands 4 bytes on, its name 8. */
static size_t entry(int k) { return DIRECTORY + 16 * (size_t)k; }

static wadlook_point_at point_at(int x, int y) {
    wadlook_point_at at = {x, y};
    return at;
}

static uint32_t point(int x, int y, bool wide, wadlook_place *place) {
    wadlook_point_at at = {x, y};
    return wadlook_points(wad, BASE, NAME("E1M1"), wide, &at, 1, place, 1);
}

static bool at(int x, int y, unsigned sector, unsigned ssector) {
    wadlook_place place = {0, 0};
    return point(x, y, false, &place) == WADLOOK_DONE && place.sector == sector && place.ssector == ssector;
}

static void points(void) {
    wadlook_place place = {7, 7};
    fresh();
    CHECK(at(1, 5, 0, 0));
    CHECK(at(0, 5, 1, 1));
    CHECK(at(-1, 5, 1, 1));
    CHECK(at(16383, -16384, 0, 0));
    CHECK(at(16384, 0, WADLOOK_NOWHERE, WADLOOK_NOWHERE));
    CHECK(at(0, -16385, WADLOOK_NOWHERE, WADLOOK_NOWHERE));
    CHECK(point(0, 5, true, &place) == WADLOOK_DONE && place.sector == 1);
    wadlook_point_at two[] = {{1, 5}, {0, 5}};
    wadlook_place places[] = {{7, 7}, {7, 7}, {7, 7}};
    CHECK(wadlook_points(wad, BASE, NAME("e1m1"), false, two, 2, places, 3) == WADLOOK_DONE);
    CHECK(places[0].sector == 0 && places[1].sector == 1 && places[2].sector == 7);
    places[0].sector = 7;
    CHECK(wadlook_points(wad, BASE, NAME("E1M1"), false, two, 2, places, 1) == WADLOOK_NO_ROOM && places[0].sector == 7);
    CHECK(wadlook_points(wad, BASE, NAME("E1M1"), false, two, 0, places, 0) == WADLOOK_DONE);
    CHECK(wadlook_points(wad, BASE, NAME("E2M9"), false, two, 1, places, 1) == WADLOOK_NO_NAME);
    CHECK(wadlook_points(wad, BASE, NAME("THINGS"), false, two, 1, places, 1) == WADLOOK_LUMP_MISSING);
    PUT(NODES, 0, 0, -1, 1); /* a partition to the north-west: its ties */
    CHECK(at(0, 0, 0, 0) && at(1, -1, 1, 1) && at(-1, 1, 1, 1));
    PUT(NODES, -16384, 16383, 32767, -32768); /* the greatest products */
    CHECK(at(16383, -16384, 1, 1));
}

/* Sidedef 1 faces the last of 65,536 sectors: its number is that of nowhere, and the ssector's isn't. */
static void many_sectors(void) {
    static uint8_t many[BASE + 26 * 65536];
    const wadlook_point_at asked[] = {{0, 5}, {16384, 0}};
    wadlook_place places[] = {{7, 7}, {7, 7}};
    fresh();
    PUT(SIDEDEFS + 58, -1);
    PUT(entry(8), BASE, 0, 0, 26);
    memcpy(many, wad, BASE);
    CHECK(wadlook_points(many, sizeof many, NAME("E1M1"), true, asked, 2, places, 2) == WADLOOK_DONE);
    CHECK(places[0].sector == WADLOOK_NOWHERE && places[0].ssector == 1);
    CHECK(places[1].sector == WADLOOK_NOWHERE && places[1].ssector == WADLOOK_NOWHERE);
}

static void refusals(void) {
    wadlook_place place = {7, 7};
    fresh();
    PUT(entry(7) + 4, 29, 0, 'X'); /* NODES of 29 bytes: a byte left over, which is a note alone */
    CHECK(point(0, 5, false, &place) == WADLOOK_DONE);
    PUT(entry(7) + 4, 0x7fff, 0x7fff);
    CHECK(point(0, 5, false, &place) == WADLOOK_LUMP_OUTSIDE);
    fresh();
    PUT(NODES + 24, 32768, 32768); /* one ssector twice */
    place.sector = 7;
    CHECK(point(0, 5, false, &place) == WADLOOK_UNSOUND && place.sector == 7);
    wadlook_point_at origin = {0, 0};
    CHECK(wadlook_points(wad, 11, NAME("E1M1"), false, &origin, 1, &place, 1) == WADLOOK_SHORT);
    fresh();
    wad[0] = 'X';
    CHECK(point(0, 5, false, &place) == WADLOOK_MAGIC);
    fresh();
    wad[7] = 255;
    CHECK(point(0, 5, false, &place) == WADLOOK_COUNT);
    fresh();
    wad[4]++;
    CHECK(point(0, 5, false, &place) == WADLOOK_DIRECTORY);
}

static void single_points(void) {
    uint16_t sectors[3] = {7, 7, 7};
    size_t count = 0;
    fresh();
    CHECK(wadlook_prepare(wad, BASE, NAME("E1M1"), false, sectors, 3, &count) == WADLOOK_DONE);
    CHECK(count == 2 && sectors[0] == 0 && sectors[1] == 1 && sectors[2] == 7);
    wadlook_place place = wadlook_point(wad + NODES, 28, sectors, count, point_at(0, 5));
    CHECK(place.ssector == 1 && place.sector == 1);
    place = wadlook_point(wad + NODES, 28, sectors, count, point_at(1, 5));
    CHECK(place.ssector == 0 && place.sector == 0);
    place = wadlook_point(wad + NODES, 28, sectors, count, point_at(16384, 5));
    CHECK(place.ssector == WADLOOK_NOWHERE);
    place = wadlook_point(wad + NODES, 28, sectors, 1, point_at(0, 5));
    CHECK(place.ssector == WADLOOK_NOWHERE); /* a list that lacks the ssector */
    place = wadlook_point(wad, 0, sectors, count, point_at(0, 5));
    CHECK(place.ssector == 0); /* no nodes: ssector 0 is the whole level */
    count = 9;
    sectors[0] = 7;
    CHECK(wadlook_prepare(wad, BASE, NAME("E1M1"), false, sectors, 1, &count) == WADLOOK_NO_ROOM);
    CHECK(count == 2 && sectors[0] == 7);
    PUT(NODES + 24, 0, 0); /* the root under itself: nodes that are no tree */
    place = wadlook_point(wad + NODES, 28, sectors, 3, point_at(0, 5));
    CHECK(place.ssector == WADLOOK_NOWHERE);
    count = 9;
    CHECK(wadlook_prepare(wad, BASE, NAME("E1M1"), false, sectors, 3, &count) == WADLOOK_UNSOUND && count == 9);
    CHECK(wadlook_prepare(wad, BASE, NAME("E1M1"), false, sectors, 1, &count) == WADLOOK_NO_ROOM && count == 2);
}

static void census(void) {
    wadlook_rect rect = {-1, 0, 1, 1}, wrong = {1, 0, 0, 0};
    wadlook_count counts[3] = {{7, 7}, {7, 7}, {7, 7}};
    size_t count = 9;
    fresh();
    CHECK(wadlook_census(wad, BASE, NAME("E1M1"), false, &wrong, counts, 3, &count) == WADLOOK_NO_RECT && count == 9);
    CHECK(wadlook_census(wad, BASE, NAME("E1M1"), false, &rect, counts, 1, &count) == WADLOOK_DONE && count == 2);
    CHECK(counts[0].sector == 0 && counts[0].points == 2 && counts[1].points == 7);
    CHECK(wadlook_census(wad, BASE, NAME("E1M1"), true, &rect, counts, 3, &count) == WADLOOK_DONE && count == 2);
    CHECK(counts[1].sector == 1 && counts[1].points == 4 && counts[2].points == 7);
    wadlook_rect large = {-512, -512, 511, 511};
    CHECK(wadlook_census(wad, BASE, NAME("E1M1"), false, &large, counts, 3, &count) == WADLOOK_DONE);
    CHECK(counts[0].points == 523264 && counts[1].points == 525312);
}

static void audit(void) {
    wadlook_finding found[3] = {{99, 9}, {99, 9}, {99, 9}};
    wadlook_totals totals = {9, 9};
    fresh();
    CHECK(wadlook_audit(wad, BASE, NAME("E1M1"), false, found, 3, &totals) == WADLOOK_DONE);
    CHECK(totals.faults == 0 && totals.notes == 0 && found[0].code == 99);
    PUT(NODES + 24, 32768, 32768); /* F15 0, F16 1 */
    CHECK(wadlook_audit(wad, BASE, NAME("E1M1"), false, found, 1, &totals) == WADLOOK_DONE);
    CHECK(totals.faults == 2 && totals.notes == 0);
    CHECK(found[0].code == 14 && found[0].index == 0 && found[1].code == 99);
    CHECK(wadlook_audit(wad, BASE, NAME("E1M1"), true, found, 3, &totals) == WADLOOK_DONE);
    CHECK(found[1].code == 15 && found[1].index == 1 && found[2].code == 99);
    fresh();
    wad[entry(7) + 8 + 4] = 'Z'; /* N1 7: NODEZ */
    CHECK(wadlook_audit(wad, BASE, NAME("E1M1"), false, found, 3, &totals) == WADLOOK_DONE);
    CHECK(totals.faults == 0 && totals.notes == 1 && found[0].code == 18 && found[0].index == 7);
    fresh();
    wad[4] = 10; /* F1 10: nine lumps after the label */
    CHECK(wadlook_audit(wad, BASE, NAME("E1M1"), false, found, 3, &totals) == WADLOOK_DONE);
    CHECK(totals.faults == 1 && found[0].code == 0 && found[0].index == 10);
    CHECK(wadlook_audit(wad, BASE, NAME("E2M9"), false, found, 3, &totals) == WADLOOK_NO_NAME);
}

static void lumps(void) {
    wadlook_lump lump = {9, 9, 9};
    fresh();
    CHECK(wadlook_find(wad, BASE, NAME("E1M1"), 0, &lump) == WADLOOK_DONE && lump.entry == 0 && lump.size == 0);
    CHECK(wadlook_find(wad, BASE, NAME("e1m1"), 7, &lump) == WADLOOK_DONE);
    CHECK(lump.entry == 7 && lump.place == NODES && lump.size == 28);
    CHECK(wadlook_find(wad, BASE, NAME("REJECT"), 0, &lump) == WADLOOK_DONE);
    CHECK(lump.entry == 9 && lump.place == REJECT && lump.size == 1);
    lump.entry = 77;
    CHECK(wadlook_find(wad, BASE, NAME("REJECT"), 2, &lump) == WADLOOK_LUMP_MISSING && lump.entry == 77);
    CHECK(wadlook_find(wad, BASE, NAME("REJECT"), SIZE_MAX, &lump) == WADLOOK_LUMP_MISSING);
    CHECK(wadlook_find(wad, BASE, NAME("DEMO1"), 0, &lump) == WADLOOK_NO_NAME);
    CHECK(wadlook_find(wad, BASE, NAME(""), 0, &lump) == WADLOOK_NO_NAME);
    PUT(entry(9), -1, -1);
    CHECK(wadlook_find(wad, BASE, NAME("REJECT"), 0, &lump) == WADLOOK_LUMP_OUTSIDE);
    PUT(entry(9) + 4, 0, 0); /* no bytes, wherever they are */
    CHECK(wadlook_find(wad, BASE, NAME("REJECT"), 0, &lump) == WADLOOK_DONE && lump.size == 0 && lump.place <= BASE);
}

static void sight(void) {
    const uint8_t bits[] = {2};
    uint32_t blocked = 9;
    CHECK(wadlook_sight(bits, 1, 2, 0, 1, &blocked) == WADLOOK_DONE && blocked == 1);
    CHECK(wadlook_sight(bits, 1, 2, 1, 0, &blocked) == WADLOOK_DONE && blocked == 0);
    blocked = 9;
    CHECK(wadlook_sight(bits, 1, 3, 2, 2, &blocked) == WADLOOK_UNKNOWN && blocked == 9);
    CHECK(wadlook_sight(bits, 1, 2, 0, 2, &blocked) == WADLOOK_NO_SECTOR);
    CHECK(wadlook_sight(bits, 1, 2, 2, 0, &blocked) == WADLOOK_NO_SECTOR);
    CHECK(wadlook_sight(bits, 0, 2, 0, 0, &blocked) == WADLOOK_UNKNOWN);
    CHECK(wadlook_sight(bits, 1, UINT32_MAX, UINT32_MAX - 1, 0, &blocked) == WADLOOK_UNKNOWN && blocked == 9);
}

/* The block of a point of the copy's BLOCKMAP lump, of so many bytes. */
static uint32_t block(size_t size, bool wide, int x, int y, wadlook_block_at *found) {
    return wadlook_block(wad + BLOCKMAP, size, wide, point_at(x, y), found);
}

static void blocks(void) {
    wadlook_block_at found = {9, 9, 9, 9};
    fresh();
    CHECK(block(16, false, 0, 5, &found) == WADLOOK_DONE);
    CHECK(found.column == 0 && found.row == 0 && found.first == 5 && found.count == 2);
    PUT(BLOCKMAP, 0, 0, 1, 1, 5, 0, 7, -1);
    CHECK(block(16, false, 127, 127, &found) == WADLOOK_DONE && found.first == 5 && found.count == 2);
    CHECK(block(16, false, 128, 0, &found) == WADLOOK_NO_BLOCK);
    CHECK(block(16, false, -1, 0, &found) == WADLOOK_NO_BLOCK);
    CHECK(block(16, false, 16384, 0, &found) == WADLOOK_OUT_OF_RANGE);
    CHECK(block(14, false, 127, 127, &found) == WADLOOK_NO_END);
    CHECK(block(8, false, 127, 127, &found) == WADLOOK_OFFSET_OUTSIDE);
    CHECK(block(7, false, 127, 127, &found) == WADLOOK_NO_BLOCKMAP);
    CHECK(found.column == 0 && found.first == 5 && found.count == 2);
    PUT(BLOCKMAP, 0, 0, 2, 2, 9, 9, 9, 8, -1, 3, -1); /* lists of column 0 and 1, row 0 and 1 */
    CHECK(block(22, false, 0, 0, &found) == WADLOOK_DONE && found.first == 9 && found.count == 1);
    CHECK(block(22, false, 130, 255, &found) == WADLOOK_DONE);
    CHECK(found.column == 1 && found.row == 1 && found.first == 8 && found.count == 0);
    PUT(BLOCKMAP, 0, 0, -1, -1);
    CHECK(block(16, false, 0, 5, &found) == WADLOOK_NO_BLOCK);

    /* An offset of 32768 is a word under the wide reading alone. */
    static uint8_t large[65540];
    const uint8_t head[] = {0, 0, 0, 0, 1, 0, 1, 0, 0, 128};
    memcpy(large, head, sizeof head);
    large[65536] = 7;
    large[65538] = large[65539] = 255;
    wadlook_point_at there = {127, 127};
    CHECK(wadlook_block(large, sizeof large, false, there, &found) == WADLOOK_OFFSET_OUTSIDE);
    CHECK(wadlook_block(large, sizeof large, true, there, &found) == WADLOOK_DONE && found.first == 32768 && found.count == 1);
}

static void extract(void) {
    uint8_t out[BASE + 16];
    size_t written = 9;
    fresh();
    memset(out, 7, sizeof out);
    CHECK(wadlook_extract(wad, BASE, NAME("E1M1"), out, BASE - 1, &written) == WADLOOK_NO_ROOM);
    CHECK(written == BASE && out[0] == 7);
    memcpy(wad, "IWAD", 4);
    CHECK(wadlook_extract(wad, BASE, NAME("e1m1"), out, sizeof out, &written) == WADLOOK_DONE);
    CHECK(written == BASE && memcmp(out, base, BASE) == 0 && out[BASE] == 7);
    written = 9;
    CHECK(wadlook_extract(wad, BASE, NAME("E2M9"), out, sizeof out, &written) == WADLOOK_NO_NAME && written == 9);
}

static void demo(void) {
    const uint8_t bytes[] = {109, 3, 1, 1, 0, 0, 0, 0, 0, 1, 0, 0, 0, 25, 0, 0, 0, 206, 128, 255, 128, 128, 7};
    wadlook_command commands[3] = {{7, 7, 7, 7}, {7, 7, 7, 7}, {7, 7, 7, 7}};
    wadlook_demo_info info;
    CHECK(wadlook_demo(bytes, sizeof bytes, commands, 1, &info) == WADLOOK_DONE);
    CHECK(info.commands == 2 && info.after == 1 && info.players == 1 && commands[0].forward == 25 && commands[1].turn == 7);
    CHECK(
        info.version == 109 && info.skill == 3 && info.episode == 1 && info.map == 1 && info.player[0] == 1 && info.player[3] == 0);
    CHECK(wadlook_demo(bytes, sizeof bytes, commands, 3, &info) == WADLOOK_DONE);
    CHECK(commands[1].forward == -50 && commands[1].side == -128 && commands[1].turn == 255 && commands[1].buttons == 128);
    CHECK(commands[2].forward == 7);
    info.map = 99;
    CHECK(wadlook_demo(bytes, 0, commands, 3, &info) == WADLOOK_DEMO_EMPTY);
    CHECK(wadlook_demo(bytes + 1, 14, commands, 3, &info) == WADLOOK_DEMO_VERSION);
    CHECK(wadlook_demo(bytes, 12, commands, 3, &info) == WADLOOK_DEMO_SHORT);
    CHECK(wadlook_demo(bytes, 21, commands, 3, &info) == WADLOOK_DEMO_NO_MARKER && info.map == 99);
    const uint8_t nobody[] = {109, 3, 1, 1, 0, 0, 0, 0, 0, 0, 0, 0, 0, 128};
    CHECK(wadlook_demo(nobody, sizeof nobody, commands, 3, &info) == WADLOOK_DEMO_NO_PLAYER);
    const uint8_t longer[] = {111, 3, 1, 1, 0, 0, 0, 0, 0, 1, 0, 0, 0, 25, 0, 2, 1, 0, 128};
    CHECK(wadlook_demo(longer, sizeof longer, commands, 3, &info) == WADLOOK_DONE && info.commands == 1 && commands[0].turn == 258);
}

/* NULL with the length 0 in the place of each array: what is asked, and what is written to. */
static void nothing(void) {
    const uint8_t bytes[] = {109, 3, 1, 1, 0, 0, 0, 0, 0, 1, 0, 0, 0, 25, 0, 0, 0, 128};
    const wadlook_point_at origin = {0, 5};
    const wadlook_rect rect = {-1, 0, 1, 1};
    const uint16_t sectors[] = {5, 6};
    wadlook_totals totals = {9, 9};
    wadlook_lump lump = {9, 9, 9};
    wadlook_block_at found = {9, 9, 9, 9};
    wadlook_demo_info info;
    wadlook_place place = {7, 7};
    size_t count = 9;
    uint32_t blocked = 9;
    fresh();
    CHECK(wadlook_points(NULL, 0, NAME("E1M1"), false, &origin, 1, &place, 1) == WADLOOK_SHORT && place.sector == 7);
    CHECK(wadlook_points(wad, BASE, NULL, 0, false, &origin, 1, &place, 1) == WADLOOK_NO_NAME && place.sector == 7);
    CHECK(wadlook_points(wad, BASE, NAME("E1M1"), false, NULL, 0, &place, 1) == WADLOOK_DONE && place.sector == 7);
    CHECK(wadlook_points(wad, BASE, NAME("E1M1"), false, NULL, 0, NULL, 0) == WADLOOK_DONE);
    CHECK(wadlook_points(wad, BASE, NAME("E1M1"), false, &origin, 1, NULL, 0) == WADLOOK_NO_ROOM);
    CHECK(wadlook_prepare(NULL, 0, NULL, 0, false, NULL, 0, &count) == WADLOOK_SHORT && count == 9);
    CHECK(wadlook_prepare(wad, BASE, NAME("E1M1"), false, NULL, 0, &count) == WADLOOK_NO_ROOM && count == 2);
    CHECK(wadlook_point(NULL, 0, sectors, 2, origin).sector == 5); /* no nodes: ssector 0 is the whole level */
    CHECK(wadlook_point(wad + NODES, 28, NULL, 0, origin).ssector == WADLOOK_NOWHERE);
    CHECK(wadlook_point(NULL, 0, NULL, 0, origin).ssector == WADLOOK_NOWHERE);
    CHECK(wadlook_census(NULL, 0, NULL, 0, false, &rect, NULL, 0, &count) == WADLOOK_SHORT && count == 2);
    count = 9;
    CHECK(wadlook_census(wad, BASE, NAME("E1M1"), false, &rect, NULL, 0, &count) == WADLOOK_DONE && count == 2);
    CHECK(wadlook_audit(NULL, 0, NULL, 0, false, NULL, 0, &totals) == WADLOOK_SHORT && totals.faults == 9);
    CHECK(wadlook_audit(wad, BASE, NAME("THINGS"), false, NULL, 0, &totals) == WADLOOK_DONE && totals.faults == 1); /* F1 */
    CHECK(wadlook_find(NULL, 0, NULL, 0, 0, &lump) == WADLOOK_SHORT && lump.entry == 9);
    CHECK(wadlook_find(wad, BASE, NULL, 0, 0, &lump) == WADLOOK_NO_NAME && lump.entry == 9);
    memset(wad + entry(7) + 8, 0, 8); /* an entry of no name */
    CHECK(wadlook_find(wad, BASE, NULL, 0, 0, &lump) == WADLOOK_DONE && lump.entry == 7 && lump.place == NODES);
    CHECK(wadlook_sight(NULL, 0, 2, 0, 1, &blocked) == WADLOOK_UNKNOWN && blocked == 9);
    CHECK(wadlook_block(NULL, 0, false, origin, &found) == WADLOOK_NO_BLOCKMAP && found.first == 9);
    CHECK(wadlook_extract(NULL, 0, NULL, 0, NULL, 0, &count) == WADLOOK_SHORT && count == 2);
    CHECK(wadlook_extract(wad, BASE, NAME("E1M1"), NULL, 0, &count) == WADLOOK_NO_ROOM && count == BASE);
    CHECK(wadlook_demo(NULL, 0, NULL, 0, &info) == WADLOOK_DEMO_EMPTY);
    CHECK(wadlook_demo(bytes, sizeof bytes, NULL, 0, &info) == WADLOOK_DONE && info.commands == 1);
}

static uint32_t audit_of(size_t len, wadlook_totals *totals) {
    wadlook_finding found;
    return wadlook_audit(wad, len, NAME("E1M1"), false, &found, 1, totals);
}

/* The sample level and a demo, cut to each shorter length. */
static void cuts(void) {
    const uint8_t bytes[] = {109, 3, 1, 1, 0, 0, 0, 0, 0, 1, 0, 0, 0, 25, 0, 0, 0, 206, 128, 255, 128, 128};
    wadlook_totals totals = {9, 9};
    wadlook_demo_info info;
    wadlook_command commands[2];
    size_t len = 0;
    fresh();
    while (len < 12 && audit_of(len, &totals) == WADLOOK_SHORT) len++;
    CHECK(len == 12);
    while (len < BASE && audit_of(len, &totals) == WADLOOK_DIRECTORY) len++;
    CHECK(len == BASE && totals.faults == 9);
    CHECK(wadlook_demo(bytes, 0, commands, 2, &info) == WADLOOK_DEMO_EMPTY);
    len = 1;
    while (len < 13 && wadlook_demo(bytes, len, commands, 2, &info) == WADLOOK_DEMO_SHORT) len++;
    CHECK(len == 13);
    while (len < 22 && wadlook_demo(bytes, len, commands, 2, &info) == WADLOOK_DEMO_NO_MARKER) len++;
    CHECK(len == 22);
    CHECK(wadlook_demo(bytes, len, commands, 2, &info) == WADLOOK_DONE && info.commands == 2 && info.after == 0);
}

/* What one of several threads asks, over the same bytes: whether each answer is the one of a single thread. */
static void *ask(void *told) {
    wadlook_rect rect = {-1, 0, 1, 1};
    wadlook_count counts[2];
    wadlook_totals totals;
    bool same = true;
    size_t count;
    for (int k = 0; k < 2000; k++) {
        same = same && at(0, 5, 1, 1) && at(1, 5, 0, 0);
        same = same && audit_of(BASE, &totals) == WADLOOK_DONE && totals.faults == 0;
        same = same && wadlook_census(wad, BASE, NAME("E1M1"), false, &rect, counts, 2, &count) == WADLOOK_DONE;
        same = same && count == 2 && counts[0].points == 2 && counts[1].points == 4;
    }
    *(bool *)told = same;
    return NULL;
}

static void threads(void) {
    pthread_t asking[4];
    bool same[4];
    fresh();
    for (int k = 0; k < 4; k++) CHECK(pthread_create(&asking[k], NULL, ask, &same[k]) == 0);
    for (int k = 0; k < 4; k++) CHECK(pthread_join(asking[k], NULL) == 0 && same[k]);
}

/* Calls by the entry of a label, and what lists the labels. The sample's is entry 0. */
static void entries(void) {
    wadlook_level levels[2] = {{9, "", 9, 9, ""}, {9, "", 9, 9, ""}};
    wadlook_point_at at[] = {{0, 5}, {1, 5}};
    wadlook_place places[2], place = {7, 7};
    wadlook_totals totals;
    wadlook_lump lump = {9, 9, 9};
    wadlook_rect rect = {-1, 0, 2, 0};
    wadlook_count counts[2];
    uint16_t sectors[2];
    uint8_t out[BASE], other[BASE];
    size_t count = 9, written;
    fresh();
    CHECK(wadlook_levels(wad, BASE, levels, 2, &count) == WADLOOK_DONE && count == 1 && levels[1].entry == 9);
    CHECK(levels[0].entry == 0 && !memcmp(levels[0].name, "E1M1\0\0\0", 8) && levels[0].format == WADLOOK_DOOM && !levels[0].lump);
    CHECK(wadlook_levels(wad, BASE, NULL, 0, &count) == WADLOOK_DONE && count == 1);
    CHECK(wadlook_levels(NULL, 0, NULL, 0, &count) == WADLOOK_SHORT && count == 1);
    CHECK(
        wadlook_points_at(wad, BASE, 0, false, at, 2, places, 2) == WADLOOK_DONE && places[0].sector == 1 && places[1].sector == 0);
    CHECK(wadlook_points_at(wad, BASE, 0, false, at, 2, places, 1) == WADLOOK_NO_ROOM);
    CHECK(wadlook_points_at(wad, BASE, 1, false, at, 2, places, 2) == WADLOOK_NO_LEVEL);
    CHECK(wadlook_points_at(wad, BASE, (size_t)-1, false, at, 2, places, 2) == WADLOOK_NO_LEVEL);
    CHECK(wadlook_prepare_at(wad, BASE, 0, false, sectors, 2, &count) == WADLOOK_DONE && count == 2 && sectors[0] == 0);
    CHECK(wadlook_prepare_at(wad, BASE, 0, false, NULL, 0, &count) == WADLOOK_NO_ROOM && count == 2);
    CHECK(wadlook_under(wad, BASE, 0, false, at[0], &place) == WADLOOK_DONE && place.sector == 1);
    CHECK(wadlook_census_at(wad, BASE, 0, false, &rect, counts, 2, &count) == WADLOOK_DONE && count == 2 && counts[0].points == 2);
    CHECK(wadlook_audit_at(wad, BASE, 0, false, NULL, 0, &totals) == WADLOOK_DONE && totals.faults == 0 && totals.notes == 0);
    CHECK(wadlook_find_at(wad, BASE, 7, &lump) == WADLOOK_DONE && lump.place == NODES && lump.size == 28);
    CHECK(wadlook_find_at(wad, BASE, 11, &lump) == WADLOOK_LUMP_MISSING && lump.place == NODES);
    CHECK(wadlook_extract_at(wad, BASE, 0, out, BASE, &written) == WADLOOK_DONE && written == BASE);
    CHECK(wadlook_extract(wad, BASE, NAME("E1M1"), other, BASE, &count) == WADLOOK_DONE && !memcmp(out, other, BASE));
    CHECK(wadlook_extract_at(wad, BASE, 3, out, BASE, &written) == WADLOOK_NO_LEVEL);
    PUT(SSECTORS, -1, -1); /* the first ssector names no segs: the level isn't sound, and the second ssector still has its sector */
    CHECK(wadlook_points_at(wad, BASE, 0, false, at, 2, places, 2) == WADLOOK_UNSOUND);
    CHECK(wadlook_under(wad, BASE, 0, false, at[0], &place) == WADLOOK_DONE);
    fresh();
    memcpy(wad + NODES, "XNOD", 4);
    CHECK(wadlook_levels(wad, BASE, levels, 1, &count) == WADLOOK_DONE && levels[0].format == WADLOOK_EXTENDED &&
          !memcmp(levels[0].tag, "XNOD", 4));
    CHECK(wadlook_points_at(wad, BASE, 0, false, at, 2, places, 2) == WADLOOK_OTHER_FORMAT);
    CHECK(wadlook_audit_at(wad, BASE, 0, false, NULL, 0, &totals) == WADLOOK_OTHER_FORMAT);
    fresh();
}

/* The cells of a picture. The sample's linedef goes from (0, 0) to (0, 64): sector 1 is to its west. */
static void cells(void) {
    int32_t told[8];
    wadlook_grid grid = {9, 9, 9, 9, 9};
    wadlook_view view = {-2, 0, 1, 0, 4, true};
    memset(told, 9, sizeof told);
    CHECK(wadlook_cells(wad, BASE, 0, false, &view, NULL, 0, &grid) == WADLOOK_NO_ROOM && grid.columns == 4 && grid.rows == 1);
    CHECK(grid.size == 1 && grid.x == -2 && grid.y == 0);
    CHECK(wadlook_cells(wad, BASE, 0, false, &view, told, 8, &grid) == WADLOOK_DONE && told[4] == 0x09090909);
    CHECK(told[1] == 1 && told[3] == 0);
    view.cells = 0;
    CHECK(wadlook_cells(wad, BASE, 0, false, &view, told, 8, &grid) == WADLOOK_NO_VIEW);
    view.cells = 4;
    view.x0 = 2;
    CHECK(wadlook_cells(wad, BASE, 0, false, &view, told, 8, &grid) == WADLOOK_NO_VIEW && grid.columns == 4);
}

/* The same of the calls by an entry, and of the words of `wadlens`. */
static void nothing_at(void) {
    const wadlook_point_at origin = {0, 5};
    const wadlook_rect rect = {-1, 0, 1, 1};
    const wadlook_view view = {-2, 0, 1, 0, 4, true};
    wadlook_place place = {7, 7};
    wadlook_totals totals = {9, 9};
    wadlook_lump lump = {9, 9, 9};
    wadlook_grid grid = {9, 9, 9, 9, 9};
    size_t count = 9;
    fresh();
    CHECK(wadlook_levels(NULL, 0, NULL, 0, &count) == WADLOOK_SHORT && count == 9);
    CHECK(wadlook_levels(wad, BASE, NULL, 0, &count) == WADLOOK_DONE && count == 1);
    CHECK(wadlook_points_at(NULL, 0, 0, false, &origin, 1, &place, 1) == WADLOOK_SHORT && place.sector == 7);
    CHECK(wadlook_points_at(wad, BASE, 0, false, NULL, 0, &place, 1) == WADLOOK_DONE && place.sector == 7);
    CHECK(wadlook_points_at(wad, BASE, 0, false, NULL, 0, NULL, 0) == WADLOOK_DONE);
    CHECK(wadlook_points_at(wad, BASE, 0, false, &origin, 1, NULL, 0) == WADLOOK_NO_ROOM);
    count = 9;
    CHECK(wadlook_prepare_at(NULL, 0, 0, false, NULL, 0, &count) == WADLOOK_SHORT && count == 9);
    CHECK(wadlook_prepare_at(wad, BASE, 0, false, NULL, 0, &count) == WADLOOK_NO_ROOM && count == 2);
    CHECK(wadlook_under(NULL, 0, 0, false, origin, &place) == WADLOOK_SHORT && place.sector == 7);
    count = 9;
    CHECK(wadlook_census_at(NULL, 0, 0, false, &rect, NULL, 0, &count) == WADLOOK_SHORT && count == 9);
    CHECK(wadlook_census_at(wad, BASE, 0, false, &rect, NULL, 0, &count) == WADLOOK_DONE && count == 2);
    CHECK(wadlook_cells(NULL, 0, 0, false, &view, NULL, 0, &grid) == WADLOOK_SHORT && grid.size == 9);
    CHECK(wadlook_cells(wad, BASE, 0, false, &view, NULL, 0, &grid) == WADLOOK_NO_ROOM && grid.columns == 4);
    CHECK(wadlook_audit_at(NULL, 0, 0, false, NULL, 0, &totals) == WADLOOK_SHORT && totals.faults == 9);
    CHECK(wadlook_audit_at(wad, BASE, 0, false, NULL, 0, &totals) == WADLOOK_DONE && totals.faults == 0);
    CHECK(wadlook_find_at(NULL, 0, 0, &lump) == WADLOOK_SHORT && lump.entry == 9);
    count = 9;
    CHECK(wadlook_extract_at(NULL, 0, 0, NULL, 0, &count) == WADLOOK_SHORT && count == 9);
    CHECK(wadlook_extract_at(wad, BASE, 0, NULL, 0, &count) == WADLOOK_NO_ROOM && count == BASE);
}

static bool is_refused_file(void *own, const wadlook_found *found) {
    *(bool *)own = found->code == WADLOOK_NO_CODE && found->kind == WADLOOK_FILE && found->file == 0;
    return true;
}

static void nothing_said(void) {
    wadlook_question question;
    memset(&question, 0, sizeof question);
    const wadlook_file none = {NULL, 0, NULL, 0}, files[] = {none, none};
    const wadlook_file sample = {NULL, 0, wad, BASE};
    wadlook_told told = {9, 9};
    bool is = false;
    fresh();
    CHECK(wadlook_run(&question, NULL, 0, NULL, 0, NULL, 0, NULL, 0, &told) == WADLOOK_MISTAKEN && told.answer == 0);
    CHECK(wadlook_run(&question, &none, 1, NULL, 0, NULL, 0, NULL, 0, &told) == WADLOOK_REFUSED && told.messages > 0);
    CHECK(wadlook_check(&question, NULL, 0, is_refused_file, &is) == WADLOOK_MISTAKEN);
    CHECK(wadlook_check(&question, &none, 1, is_refused_file, &is) == WADLOOK_REFUSED && is);
    question.word = WADLOOK_CUT_LEVEL;
    CHECK(wadlook_run(&question, &sample, 1, NULL, 0, NULL, 0, NULL, 0, &told) == WADLOOK_REFUSED && told.answer == 0);
    question.word = WADLOOK_PICTURE;
    CHECK(wadlook_run(&question, &sample, 1, NULL, 0, NULL, 0, NULL, 0, &told) == WADLOOK_REFUSED && told.answer == 0);
    question.word = WADLOOK_COMPARE;
    CHECK(wadlook_run(&question, files, 2, NULL, 0, NULL, 0, NULL, 0, &told) == WADLOOK_REFUSED && told.messages > 0);
    question.word = WADLOOK_ASSEMBLE;
    CHECK(wadlook_run(&question, NULL, 0, NULL, 0, NULL, 0, NULL, 0, &told) == WADLOOK_REFUSED && told.messages > 0);
    question.word = WADLOOK_EXPLAIN_ALL;
    CHECK(wadlook_run(&question, NULL, 0, NULL, 0, NULL, 0, NULL, 0, &told) == WADLOOK_CLEAN && told.answer > 0);
}

static void texts(void) {
    uint64_t codes = 9;
    CHECK(!strcmp(wadlook_status_text(WADLOOK_NO_NAME), "no entry of this name") && !wadlook_status_text(25) &&
          !wadlook_status_text(99));
    CHECK(!strcmp(wadlook_end_text(WADLOOK_NO_MEMORY), "no memory left") && wadlook_end_text(WADLOOK_MISTAKEN) &&
          !wadlook_end_text(WADLOOK_MISTAKEN + 1));
    CHECK(!strcmp(wadlook_code_name(WADLOOK_W25), "W25") && !wadlook_code_name(WADLOOK_W25 + 1) && !wadlook_code_text(99));
    CHECK(!strcmp(wadlook_code_text(WADLOOK_N2), "bytes left over"));
    CHECK(!strcmp(wadlook_kind_text(WADLOOK_WHOLE), "level") && !strcmp(wadlook_kind_text(WADLOOK_FILE), "file") &&
          !wadlook_kind_text(WADLOOK_FILE + 1));
    CHECK(!strcmp(wadlook_format_text(WADLOOK_OUTSIDE), "outside") && !wadlook_format_text(WADLOOK_OUTSIDE + 1));
    CHECK(wadlook_codes("n2,W7-w8", &codes) &&
          codes == (WADLOOK_BIT(WADLOOK_N2) | WADLOOK_BIT(WADLOOK_W7) | WADLOOK_BIT(WADLOOK_W8)));
    CHECK(wadlook_codes("", &codes) && codes == 0);
    CHECK(wadlook_codes("Notes", &codes) && codes == 0xFFFull << 18);
    CHECK(!wadlook_codes("F1", &codes) && !wadlook_codes("W8-W7", &codes) && !wadlook_codes("N1-W1", &codes) &&
          !wadlook_codes("N1,", &codes) && codes == 0xFFFull << 18);
}

static bool count_found(void *own, const wadlook_found *found) {
    size_t *left = (size_t *)own;
    if (found->code == WADLOOK_W1)
        CHECK(found->kind == WADLOOK_SECTOR && found->where == WADLOOK_AT && !strcmp(found->message, "isn't closed"));
    if (found->code == WADLOOK_NO_CODE)
        CHECK(found->file == 1 && found->kind == WADLOOK_FILE && found->index == -1 && !*found->level &&
              !strcmp(found->message, "shorter than a WAD header"));
    else CHECK(found->file == 0 && !strcmp(found->level, "E1M1") && found->entry == 0);
    return --*left != 0;
}

/* Keeps the message of what was found last. */
static bool keep_message(void *own, const wadlook_found *found) {
    char *kept = (char *)own;
    snprintf(kept, 80, "%s: %s", found->level, found->message);
    return true;
}

/* Keeps that of what is found first, and wants no more. */
static bool keep_first(void *own, const wadlook_found *found) {
    keep_message(own, found);
    return false;
}

/* What is told of levels without a code: the words of the program. */
static void unjudged(void) {
    wadlook_question question;
    memset(&question, 0, sizeof question);
    const wadlook_file file = {NULL, 0, wad, BASE};
    char kept[80] = "";
    fresh();
    memcpy(wad + NODES, "ZNOD", 4);
    CHECK(wadlook_check(&question, &file, 1, keep_message, kept) == WADLOOK_REFUSED);
    CHECK(!strcmp(kept, "E1M1: extended nodes ZNOD: not read"));
    fresh();
    memcpy(wad + NODES, "XNOD", 4); /* where the box of the front begins stands how many new vertexes there are: 64 */
    CHECK(wadlook_check(&question, &file, 1, keep_message, kept) == WADLOOK_FAULTY);
    CHECK(!strcmp(kept, "E1M1: extended nodes XNOD: NODES ends within its vertexes"));
    fresh();
    memcpy(wad + entry(10) + 8, "OTHERMAP", 8);
    CHECK(wadlook_check(&question, &file, 1, keep_message, kept) == WADLOOK_FAULTY);
    CHECK(!strcmp(kept, "E1M1: incomplete: no BLOCKMAP where it belongs"));
    fresh();
    memcpy(wad + entry(1) + 8, "TEXTMAP\0", 8);
    CHECK(wadlook_check(&question, &file, 1, keep_message, kept) == WADLOOK_REFUSED);
    CHECK(!strcmp(kept, "E1M1: udmf: not read"));
    fresh();
    memcpy(wad + entry(3) + 8, "SEGS\0\0\0\0", 8);
    memcpy(wad + entry(5) + 8, "SIDEDEFS", 8);
    CHECK(wadlook_check(&question, &file, 1, keep_message, kept) == WADLOOK_FAULTY);
    CHECK(!strcmp(kept, "E1M1: lumps in another order: SEGS before SIDEDEFS"));
    fresh();
    PUT(entry(7) + 4, 0, 0); /* NODES without bytes */
    CHECK(wadlook_check(&question, &file, 1, keep_first, kept) == WADLOOK_STOPPED);
    CHECK(!strcmp(kept, "E1M1: NODES is empty: 1 ssectors can't be reached; build the nodes"));
    fresh();
}

/* The words of `wadlens`: answers in arrays that are too short, the limit, a callback that stops, and questions without a meaning. */
static void words(void) {
    const char line[] = "1 levels in 1 files: 0 faults, 0 notes, 0 not judged\n";
    wadlook_question question;
    memset(&question, 0, sizeof question);
    wadlook_file files[] = {{(const uint8_t *)"a.wad", 5, wad, BASE}, {NULL, 0, NULL, 0}};
    wadlook_told told = {9, 9};
    uint8_t answer[600], messages[100];
    size_t left = 99;
    fresh();
    memset(answer, 7, sizeof answer);
    CHECK(wadlook_run(&question, files, 1, NULL, 0, answer, sizeof answer, messages, sizeof messages, &told) == WADLOOK_CLEAN);
    CHECK(told.answer == strlen(line) && told.messages == 0 && !memcmp(answer, line, strlen(line)) && answer[strlen(line)] == 7);
    CHECK(wadlook_run(&question, files, 1, NULL, 0, answer, 3, NULL, 0, &told) == WADLOOK_CLEAN && told.answer == strlen(line));
    CHECK(wadlook_run(&question, files, 1, NULL, 0, NULL, 0, NULL, 0, &told) == WADLOOK_CLEAN && told.answer == strlen(line));
    question.limit = 5;
    memset(answer, 7, sizeof answer);
    CHECK(wadlook_run(&question, files, 1, NULL, 0, answer, sizeof answer, NULL, 0, &told) == WADLOOK_STOPPED);
    CHECK(told.answer == 5 && !memcmp(answer, "1 lev\7", 6));
    question.limit = 0;
    CHECK(wadlook_run(&question, files, 2, NULL, 0, answer, sizeof answer, messages, sizeof messages, &told) == WADLOOK_REFUSED);
    CHECK(told.messages == 37 && !memcmp(messages, "wadlens: : shorter than a WAD header\n", 37));
    CHECK(wadlook_run(&question, files, 0, NULL, 0, NULL, 0, NULL, 0, &told) == WADLOOK_MISTAKEN && told.answer == 0);
    question.word = WADLOOK_COMPARE_COMMANDS + 1;
    CHECK(wadlook_run(&question, files, 1, NULL, 0, NULL, 0, NULL, 0, &told) == WADLOOK_MISTAKEN);
    question.word = WADLOOK_EXPLAIN;
    question.number = WADLOOK_W25 + 1;
    CHECK(wadlook_run(&question, NULL, 0, NULL, 0, NULL, 0, NULL, 0, &told) == WADLOOK_MISTAKEN);
    question.number = WADLOOK_F3;
    CHECK(wadlook_run(&question, NULL, 0, NULL, 0, answer, sizeof answer, NULL, 0, &told) == WADLOOK_CLEAN &&
          !memcmp(answer, "F3: ", 4));
    question.number = 0;
    question.word = WADLOOK_CUT;
    CHECK(wadlook_run(&question, files, 1, NULL, 0, answer, sizeof answer, NULL, 0, &told) == WADLOOK_CLEAN && told.answer == BASE);
    question.word = WADLOOK_CUT_LEVEL;
    question.name = (const uint8_t *)"e1m1";
    question.name_len = 4;
    CHECK(wadlook_run(&question, files, 1, NULL, 0, answer, sizeof answer, NULL, 0, &told) == WADLOOK_CLEAN && told.answer == BASE);
    question.word = WADLOOK_ASSEMBLE;
    CHECK(wadlook_run(&question, NULL, 0, (const uint8_t *)"x\n", 2, NULL, 0, NULL, 0, &told) == WADLOOK_REFUSED &&
          told.messages > 0);
    CHECK(wadlook_run(&question, files, 1, NULL, 0, NULL, 0, NULL, 0, &told) == WADLOOK_MISTAKEN);
    question.map = true;
    CHECK(wadlook_check(&question, files, 2, count_found, &left) == WADLOOK_REFUSED && left == 99 - 8);
    left = 2;
    CHECK(wadlook_check(&question, files, 2, count_found, &left) == WADLOOK_STOPPED && left == 0);
    question.strict = true;
    left = 99;
    CHECK(wadlook_check(&question, files, 2, count_found, &left) == WADLOOK_FAULTY);
    CHECK(wadlook_check(&question, files, 0, count_found, &left) == WADLOOK_MISTAKEN);
    /* The second file as a base file of the first, which isn't judged then. */
    const wadlook_file over[] = {files[0], files[1], files[0]};
    question.bases = 2;
    left = 99;
    CHECK(wadlook_check(&question, over, 3, count_found, &left) == WADLOOK_REFUSED && left == 98);
    left = 1;
    CHECK(wadlook_check(&question, over, 3, count_found, &left) == WADLOOK_STOPPED && left == 0);
    CHECK(wadlook_check(&question, over, 2, count_found, &left) == WADLOOK_MISTAKEN);
}

int main(int argc, char **argv) {
    FILE *file = argc == 2 ? fopen(argv[1], "rb") : NULL;
    if (!file || fread(base, 1, BASE, file) != BASE) {
        printf("cases: no sample level\n0 passed, 1 failed\n");
        return 1;
    }
    fclose(file);
    CHECK(!strcmp(wadlook_version(), WADLOOK_VERSION));
    points();
    many_sectors();
    refusals();
    single_points();
    census();
    audit();
    lumps();
    sight();
    blocks();
    extract();
    demo();
    nothing();
    cuts();
    entries();
    cells();
    nothing_at();
    nothing_said();
    texts();
    words();
    unjudged();
    threads();
    printf("%u passed, %u failed\n", passed, failed);
    return failed != 0;
}
