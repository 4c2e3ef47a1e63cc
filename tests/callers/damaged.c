/* damaged BASE ROUNDS [SEED]: hands each call that many damaged copies of the sample level, and checks that what the calls say fits
 * together. What is handed in and what is written to each end where a page begins that can't be touched, or begin behind one:
 * the archive isn't instrumented, so the sanitizers see this file and tools/check.c alone, and a read or write outside faults.
 * Compiled as C and as C++. */
#define _DEFAULT_SOURCE /* MAP_ANONYMOUS */
#include "wadlook.h"
#include <stdio.h>
#include <stdlib.h>
#include <string.h>
#include <sys/mman.h>

enum { PAGES = 65536 }; /* whole pages, of whichever size */

static uint64_t state = 88172645463325252u;
static size_t used;

/* A number below a bound, by xorshift: the same in each run. */
static uint32_t below(uint32_t bound) {
    state ^= state << 13;
    state ^= state >> 7;
    state ^= state << 17;
    return (uint32_t)(state >> 32) % bound;
}

static void must(bool holds, const char *what) {
    if (holds) return;
    printf("damaged: %s\n", what);
    exit(1);
}

static int32_t number(void) { return (int32_t)below(40000) - 20000; }

static wadlook_point_at some_point(void) {
    wadlook_point_at point = {number(), number()};
    return point;
}

/* Pages between two that can't be touched. */
static uint8_t *fenced(void) {
    uint8_t *pages = (uint8_t *)mmap(NULL, 3 * PAGES, PROT_NONE, MAP_PRIVATE | MAP_ANONYMOUS, -1, 0);
    must(pages != MAP_FAILED && !mprotect(pages + PAGES, PAGES, PROT_READ | PROT_WRITE), "there are no pages");
    return pages + PAGES;
}

/* A block of so many bytes, at one of the two ends of pages that no other block of the round has. */
static void *room(size_t size) {
    static uint8_t *pages[24];
    must(used < sizeof pages / sizeof *pages && size <= PAGES, "there are blocks enough");
    uint8_t **front = &pages[used++];
    if (!*front) *front = fenced();
    return below(4) ? *front + PAGES - size : *front;
}
#define ROOM(type, count) (type *)room((count) * sizeof(type))

/* A damaged copy of the sample level, and its length. */
static uint8_t *damaged_copy(const uint8_t *base, uint32_t size, uint32_t *len) {
    *len = below(8) ? size : below(size);
    uint8_t *wad = ROOM(uint8_t, *len);
    memcpy(wad, base, *len);
    for (uint32_t k = below(6); *len && k-- > 0;) wad[below(*len)] = (uint8_t)below(256);
    return wad;
}

/* What is asked by the name of a level. */
static void round_of(const uint8_t *base, uint32_t size) {
    used = 0;
    uint32_t len;
    uint8_t *wad = damaged_copy(base, size, &len), *name = ROOM(uint8_t, 4);
    memcpy(name, "E1M1", 4);
    bool wide = below(2);
    wadlook_point_at *point = ROOM(wadlook_point_at, 1);
    wadlook_place *place = ROOM(wadlook_place, 1), again;
    wadlook_totals totals;
    wadlook_finding *findings = ROOM(wadlook_finding, 2);
    wadlook_lump lump;
    uint16_t *sectors = ROOM(uint16_t, 4);
    size_t count;
    *point = some_point();
    memset(sectors, 0, 4 * sizeof *sectors);
    uint32_t points = wadlook_points(wad, len, name, 4, wide, point, 1, place, 1);
    uint32_t audit = wadlook_audit(wad, len, name, 4, wide, findings, 2, &totals);
    must((points == WADLOOK_DONE) == (audit == WADLOOK_DONE && totals.faults == 0), "a level is sound where points answers");
    uint32_t prepared = wadlook_prepare(wad, len, name, 4, wide, sectors, 4, &count);
    must(prepared == points || prepared == WADLOOK_NO_ROOM, "prepare and points refuse the same");
    if (wadlook_find(wad, len, name, 4, 7, &lump) == WADLOOK_DONE) {
        must(lump.place + lump.size <= len, "a lump lies in the file");
        again = wadlook_point(wad + lump.place, lump.size, sectors, prepared == WADLOOK_DONE ? count : below(5), *point);
        if (prepared == WADLOOK_DONE)
            must(again.ssector == place->ssector && again.sector == place->sector, "point and points answer the same");
    }
    if (wadlook_find(wad, len, name, 4, 10, &lump) == WADLOOK_DONE) {
        wadlook_block_at block;
        uint8_t *blockmap = ROOM(uint8_t, lump.size);
        memcpy(blockmap, wad + lump.place, lump.size);
        if (wadlook_block(blockmap, lump.size, wide, *point, &block) == WADLOOK_DONE)
            must(2 * (block.first + block.count) < lump.size, "a list and its end lie in the lump");
    }
    if (wadlook_find(wad, len, name, 4, 9, &lump) == WADLOOK_DONE) {
        uint32_t blocked, n = below(5);
        uint8_t *reject = ROOM(uint8_t, lump.size);
        memcpy(reject, wad + lump.place, lump.size);
        if (wadlook_sight(reject, lump.size, n, below(5), below(5), &blocked) == WADLOOK_DONE) must(blocked < 2, "a bit");
    }
    wadlook_rect rect = {point->x, point->y, point->x + (int32_t)below(40) - 2, point->y + (int32_t)below(40) - 2};
    if (wadlook_census(wad, len, name, 4, wide, &rect, ROOM(wadlook_count, 2), 2, &count) == WADLOOK_DONE)
        must(points == WADLOOK_DONE, "census answers for sound levels");
    size_t out_len = below(600);
    uint8_t *out = ROOM(uint8_t, out_len);
    if (wadlook_extract(wad, len, name, 4, out, out_len, &count) == WADLOOK_DONE) must(!memcmp(out, "PWAD", 4), "a file");
    wadlook_demo_info info;
    if (len) wad[0] = (uint8_t)(109 + below(3));
    uint32_t demo = wadlook_demo(wad, len, ROOM(wadlook_command, 3), 3, &info);
    must(demo == WADLOOK_DONE || (demo >= WADLOOK_DEMO_EMPTY && demo <= WADLOOK_DEMO_NO_MARKER),
        "bytes are a demo or are told why not");
}

/* What is asked by the entry of a label. */
static void round_of_entries(const uint8_t *base, uint32_t size) {
    used = 0;
    uint32_t len;
    uint8_t *wad = damaged_copy(base, size, &len);
    bool wide = below(2);
    wadlook_level *levels = ROOM(wadlook_level, 2);
    wadlook_point_at *point = ROOM(wadlook_point_at, 1);
    wadlook_place *place = ROOM(wadlook_place, 1), under;
    wadlook_totals totals;
    wadlook_grid grid;
    wadlook_view view = {(int16_t)number(), -8, (int16_t)number(), 90, below(9), (bool)below(2)};
    size_t count;
    *point = some_point();
    uint32_t listed = wadlook_levels(wad, len, levels, 2, &count),
             points = wadlook_points_at(wad, len, 0, wide, point, 1, place, 1);
    bool is_doom = listed == WADLOOK_DONE && count && !levels[0].entry && levels[0].format == WADLOOK_DOOM;
    must(is_doom == (points == WADLOOK_DONE || points == WADLOOK_UNSOUND), "points are told of listed levels");
    uint32_t audit = wadlook_audit_at(wad, len, 0, wide, ROOM(wadlook_finding, 2), 2, &totals);
    must((points == WADLOOK_DONE) == (audit == WADLOOK_DONE && totals.faults == 0), "a level is sound where points answers");
    uint32_t ended = wadlook_under(wad, len, 0, wide, *point, &under);
    must((ended == WADLOOK_DONE) == is_doom, "any level in Doom's format has places");
    if (points == WADLOOK_DONE) must(under.ssector == place->ssector && under.sector == place->sector, "the same place");
    uint32_t cells = wadlook_cells(wad, len, 0, wide, &view, ROOM(int32_t, 64), 64, &grid);
    must(cells != WADLOOK_DONE || points == WADLOOK_DONE, "cells are told of sound levels");
    wadlook_lump lump;
    uint32_t entry = below(13), found = wadlook_find_at(wad, len, entry, &lump);
    must(found != WADLOOK_DONE || (lump.entry == entry && lump.place + lump.size <= len), "a lump lies in the file");
    size_t out_len = below(600);
    uint8_t *out = ROOM(uint8_t, out_len);
    if (wadlook_extract_at(wad, len, 0, out, out_len, &count) == WADLOOK_DONE) must(!memcmp(out, "PWAD", 4), "a file");
    uint16_t *sectors = ROOM(uint16_t, 4);
    uint32_t prepared = wadlook_prepare_at(wad, len, 0, wide, sectors, 4, &count);
    must(prepared == points || prepared == WADLOOK_NO_ROOM, "prepare and points refuse the same");
    wadlook_rect rect = {point->x, point->y, point->x + (int32_t)below(40) - 2, point->y + (int32_t)below(40) - 2};
    if (wadlook_census_at(wad, len, 0, wide, &rect, ROOM(wadlook_count, 2), 2, &count) == WADLOOK_DONE)
        must(points == WADLOOK_DONE, "census answers for sound levels");
}

/* How many findings a callback was given, and after how many it wants no more. */
typedef struct {
    size_t given, most, files;
    bool faulty; /* whether there was a fault */
} told_found;

static bool take_found(void *own, const wadlook_found *found) {
    told_found *told = (told_found *)own;
    bool is_file = found->kind == WADLOOK_FILE;
    must(found->code == WADLOOK_NO_CODE || wadlook_code_text(found->code), "a code, or none");
    must(wadlook_kind_text(found->kind) && found->where <= WADLOOK_OF_LINEDEF, "a kind and a way to tell a place");
    must((!is_file || !*found->level) && *found->message && found->file < told->files, "words on a level, or on a file");
    must(found->row < 0 || (found->kind == WADLOOK_BLOCK && found->index >= 0), "a row of a block");
    told->faulty = told->faulty || found->code <= WADLOOK_F18;
    return ++told->given < told->most;
}

/* A word of `wadlens` over a damaged file, alone and over another one, and the findings one by one. */
static void round_of_words(const uint8_t *base, uint32_t size) {
    used = 0;
    uint32_t len;
    uint8_t *wad = damaged_copy(base, size, &len);
    wadlook_question question;
    memset(&question, 0, sizeof question);
    question.word = below(15);
    question.number = below(45);
    question.cells = below(9);
    question.wide = below(2);
    question.map = below(2);
    question.strict = below(2);
    question.bases = below(2);
    question.limit = below(3) ? 0 : below(300);
    question.name = ROOM(uint8_t, 4);
    question.name_len = 4;
    memcpy((uint8_t *)question.name, "E1M1", 4);
    wadlook_file *files = ROOM(wadlook_file, 2);
    for (int k = 0; k < 2; k++) {
        files[k].path = files[k].bytes = k ? wad : base;
        files[k].path_len = k ? (len < 4 ? len : 4) : 3;
        files[k].bytes_len = k ? len : size;
    }
    wadlook_told told;
    size_t room_left = below(400);
    uint8_t *answer = ROOM(uint8_t, room_left), *messages = ROOM(uint8_t, 9);
    uint32_t first = below(2), many = first ? 1 : 1 + below(2);
    if (question.word == WADLOOK_ASSEMBLE || question.word == WADLOOK_EXPLAIN) many = 0;
    uint32_t end = wadlook_run(&question, files + first, many, wad, len, answer, room_left, messages, 9, &told);
    must(end <= WADLOOK_MISTAKEN && end != WADLOOK_NO_MEMORY, "a run ends in one of these ways");
    must(!question.limit || (told.answer <= question.limit && told.messages <= question.limit), "no more than the limit is told");

    told_found given = {0, 1 + below(20), many, false};
    question.number = below(3);
    end = wadlook_check(&question, files + first, many, take_found, &given);
    must(end <= WADLOOK_MISTAKEN && end != WADLOOK_NO_MEMORY, "a check ends in one of these ways");
    must((end == WADLOOK_STOPPED) == (given.given == given.most), "it is told that a callback wants no more");
    must(!given.faulty || end == WADLOOK_FAULTY || end == WADLOOK_STOPPED, "a fault is the gravest");
}

/* Nodes and sectors of any kind, each child's word an ssector or a node. */
static void round_of_nodes(void) {
    used = 0;
    uint32_t nodes_len = below(28 * 8 + 1), listed = below(9);
    uint8_t *nodes = ROOM(uint8_t, nodes_len);
    uint16_t *sectors = ROOM(uint16_t, listed);
    for (uint32_t k = 0; k < nodes_len; k++)
        nodes[k] = (uint8_t)(k % 28 < 24 ? below(3) ? 0 : below(256) : k % 2 ? below(2) * 128 : below(9));
    for (uint32_t k = 0; k < listed; k++) sectors[k] = (uint16_t)below(65536);
    wadlook_place place = wadlook_point(nodes, nodes_len, sectors, listed, some_point());
    must(place.ssector < listed || place.ssector == WADLOOK_NOWHERE, "an ssector of the list, or nowhere");
}

int main(int argc, char **argv) {
    static uint8_t base[4096];
    FILE *file = argc == 3 || argc == 4 ? fopen(argv[1], "rb") : NULL;
    if (!file) return 2;
    if (argc == 4) state ^= strtoull(argv[3], NULL, 10) * 0x9E3779B97F4A7C15u;
    if (!state) state = 1;
    uint32_t size = (uint32_t)fread(base, 1, sizeof base, file);
    fclose(file);
    for (long k = atol(argv[2]); k-- > 0;) {
        round_of(base, size);
        round_of_entries(base, size);
        round_of_words(base, size);
        round_of_nodes();
    }
    return 0;
}
