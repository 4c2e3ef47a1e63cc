/* calls.c: one call of libwadlook over a file at its limits, for hostile.py. Build, after tools/library:
       gcc -O3 -Iout/include -o calls bench/calls.c out/lib/libwadlook.a
   calls CALL FILE
   reads the file, makes the call of the level E1M1 in it, with room for all that it may write, and ends with its status. The
   calls for which little is read of a file are made many times. */
#include "wadlook.h"
#include <stdio.h>
#include <stdlib.h>
#include <string.h>

static const uint8_t name[] = "E1M1";
static uint8_t *bytes;
static size_t size;

static void *room(size_t count, size_t each) {
    void *taken = malloc(count * each + 1);
    if (!taken) exit(100);
    return taken;
}

static uint32_t audit(void) {
    wadlook_totals totals;
    return wadlook_audit(bytes, size, name, 4, false, room(1 << 28, sizeof(wadlook_finding)), 1 << 28, &totals);
}

/* 1024 points beside the sample's thing. */
static uint32_t points(void) {
    static wadlook_point_at at[1024];
    static wadlook_place places[1024];
    for (int i = 0; i < 1024; i++) at[i] = (wadlook_point_at){1, 5};
    return wadlook_points(bytes, size, name, 4, false, at, 1024, places, 1024);
}

/* The sectors of all ssectors, of which a lump has one in four bytes at most. */
static uint32_t prepare(void) {
    size_t count;
    return wadlook_prepare(bytes, size, name, 4, false, room(size / 4, sizeof(uint16_t)), size / 4, &count);
}

/* 1024 calls by NODES as they stand, sound or not, with all sectors that a level can have. */
static uint32_t point(void) {
    static uint16_t sectors[32768];
    wadlook_lump lump;
    uint32_t status = wadlook_find(bytes, size, name, 4, 7, &lump);
    for (int i = 0; !status && i < 1024; i++)
        wadlook_point(bytes + lump.place, lump.size, sectors, 32768, (wadlook_point_at){1, 5});
    return status;
}

static uint32_t counted(bool wide, wadlook_rect rect) {
    size_t count;
    return wadlook_census(bytes, size, name, 4, wide, &rect, room(65536, sizeof(wadlook_count)), 65536, &count);
}

/* Around the sample's partition. */
static uint32_t census(void) { return counted(false, (wadlook_rect){-512, -512, 511, 511}); }

/* The whole frame of the widest picture. */
static uint32_t census_wide(void) { return counted(true, (wadlook_rect){0, 0, 1023, 1022}); }

static uint32_t find(void) {
    wadlook_lump lump;
    return wadlook_find(bytes, size, name, 4, 0, &lump);
}

/* Bits all over REJECT, of as many sectors as it has bits for. */
static uint32_t sight(void) {
    wadlook_lump lump;
    uint32_t sectors = 0, blocked, status = wadlook_find(bytes, size, name, 4, 9, &lump);
    while (!status && (uint64_t)(sectors + 1) * (sectors + 1) <= (uint64_t)lump.size * 8) sectors++;
    for (uint32_t i = 0; !status && i < 1048576; i++)
        status = wadlook_sight(bytes + lump.place, lump.size, sectors, i * 40503 % sectors, i * 30011 % sectors, &blocked);
    return status;
}

static uint32_t extract(void) {
    size_t written;
    uint8_t none;
    uint32_t status = wadlook_extract(bytes, size, name, 4, &none, 0, &written);
    if (status != WADLOOK_NO_ROOM) return status;
    return wadlook_extract(bytes, size, name, 4, room(written, 1), written, &written);
}

static uint32_t demo(void) {
    wadlook_demo_info info;
    return wadlook_demo(bytes, size, room(size / 4, sizeof(wadlook_command)), size / 4, &info);
}

static uint32_t block(void) {
    wadlook_lump lump;
    wadlook_block_at found;
    uint32_t status = wadlook_find(bytes, size, name, 4, 10, &lump);
    return status ? status : wadlook_block(bytes + lump.place, lump.size, false, (wadlook_point_at){0, 5}, &found);
}

int main(int argc, char **argv) {
    static const struct {
        const char *word;
        uint32_t (*call)(void);
    } calls[] = {{"audit", audit}, {"points", points}, {"prepare", prepare}, {"point", point}, {"census", census},
        {"census_wide", census_wide}, {"find", find}, {"sight", sight}, {"extract", extract}, {"demo", demo}, {"block", block}};
    FILE *file = argc == 3 ? fopen(argv[2], "rb") : NULL;
    if (!file || fseek(file, 0, SEEK_END)) return 100;
    size = (size_t)ftell(file);
    rewind(file);
    bytes = room(size, 1);
    if (fread(bytes, 1, size, file) != size) return 100;
    for (size_t i = 0; i < sizeof calls / sizeof *calls; i++)
        if (!strcmp(argv[1], calls[i].word)) return (int)calls[i].call();
    return 100;
}
