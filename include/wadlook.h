/* wadlook.h: proved calls over the bytes of Doom's WAD files and demos, for C and for what calls C.
 *
 * Link libwadlook.a or libwadlook.so; both need the C library alone. No state is kept between calls, so any number of
 * threads may call at once. Nothing is kept of what a call is given: what it takes of memory it gives back.
 *
 * What a caller owes, and nothing tests:
 *   - a pointer and the length after it are those of memory that stays as it is for the call. Where the length is 0 the
 *     pointer isn't followed, and may be NULL, as an empty std::vector gives it. A pointer without a length isn't NULL;
 *   - what a call writes to overlaps nothing else that the call is given;
 *   - a bool is 0 or 1, and a pointer is aligned as its type asks;
 *   - a call that takes memory isn't made where malloc may not be: in a signal handler, or in the forked child of a process
 *     with threads.
 * All else is tested: any bytes, any name and any numbers are answered by one of the statuses below. Where the status isn't
 * WADLOOK_DONE, what the call writes to is as it was, but for *count and *written at NO_ROOM. Entries of an array after the
 * answer are left unchanged.
 *
 * Where the array for an answer is too short, a call that says NO_ROOM writes nothing to it, a call that says FRONT fills it with
 * the front of the answer and is DONE, and what stands right of the `<` there is the length that is enough.
 *
 * All but wadlook_run and wadlook_check take one file: of a PWAD over a game's file ask the PWAD first, and then the game's.
 * wadlook_levels lists the levels of a file. A level is asked for by the entry of its label, or by its name. `name` is looked up
 * as the game does: its first eight bytes in capital letters, up to a NUL; the last entry of that name is taken. `wide` is false
 * as in Doom, and true for levels of ports with raised limits: their indexes are read as unsigned.
 *
 * A level is sound where its links and nodes hold together (findings F1 to F18 don't hold). Doom's format is judged. A level of
 * another format than Doom's ends a call by an entry with OTHER_FORMAT, or with LUMP_MISSING or LUMP_OUTSIDE where it isn't whole.
 * A call by a name reads each level as Doom's, and then its answer means nothing: prefer the calls by an entry. Docs:
 * docs/wadlook.1 lists the findings, docs/DEFINITIONS.md says what each word means. What the functions of crates/wadlook_c
 * answer is proved; that this page says what they do is tested, and so are the texts and wadlook_check, which are written in C.
 *
 *     size_t size; uint8_t *wad = read_file("doom2.wad", &size);          // 'read_file' is yours
 *     wadlook_point_at points[] = {{0, 5}, {64, -128}};
 *     wadlook_place places[2];
 *     uint32_t status = wadlook_points(wad, size, (const uint8_t *)"MAP12", 5, false, points, 2, places, 2);
 *     if (status == WADLOOK_DONE)
 *         printf("sector %u\n", places[0].sector);
 */
#ifndef WADLOOK_H
#define WADLOOK_H

#include <stdbool.h>
#include <stddef.h>
#include <stdint.h>

/* The version of this header. docs/COMPATIBILITY.md says what a later one keeps. */
#define WADLOOK_VERSION "0.1.0"

/* A status that is dropped is warned of. */
#if (defined __cplusplus && __cplusplus >= 201703L) || (defined __STDC_VERSION__ && __STDC_VERSION__ >= 202311L)
#define WADLOOK_NODISCARD [[nodiscard]]
#elif defined __GNUC__
#define WADLOOK_NODISCARD __attribute__((warn_unused_result))
#else
#define WADLOOK_NODISCARD
#endif

#ifdef __cplusplus
extern "C" {
#endif

/* The version of the library that the program runs with, as WADLOOK_VERSION tells that of the header. */
const char *wadlook_version(void);

/* How a call ended. */
enum wadlook_status {
    WADLOOK_DONE = 0,
    WADLOOK_UNSOUND = 1,         /* the level has faults; wadlook_audit tells them */
    WADLOOK_MEMORY = 2,          /* malloc or realloc gave none */
    WADLOOK_NO_ROOM = 3,         /* the caller's array for the answer is too short */
    WADLOOK_SHORT = 4,           /* the file has fewer than 12 bytes */
    WADLOOK_MAGIC = 5,           /* it begins with neither IWAD nor PWAD */
    WADLOOK_COUNT = 6,           /* its count of entries is negative */
    WADLOOK_DIRECTORY = 7,       /* its directory isn't inside the file */
    WADLOOK_NO_NAME = 8,         /* no entry has the name */
    WADLOOK_LUMP_MISSING = 9,    /* the list of entries ends before the lump (F1) */
    WADLOOK_LUMP_OUTSIDE = 10,   /* the lump isn't inside the file (F2) */
    WADLOOK_TOO_LARGE = 11,      /* the level alone would have more than 2,147,483,647 bytes */
    WADLOOK_DEMO_EMPTY = 12,     /* no bytes */
    WADLOOK_DEMO_VERSION = 13,   /* the first byte is none of 109, 110 and 111 */
    WADLOOK_DEMO_SHORT = 14,     /* fewer than 13 bytes */
    WADLOOK_DEMO_NO_PLAYER = 15, /* no player takes part */
    WADLOOK_DEMO_NO_MARKER = 16, /* no end marker stands where a command begins */
    WADLOOK_NO_RECT = 17,        /* bounds out of order or out of range, or more than 1,048,576 points */
    WADLOOK_OUT_OF_RANGE = 18,   /* a coordinate isn't in -16384 to 16383 */
    WADLOOK_NO_BLOCKMAP = 19,    /* BLOCKMAP has fewer than 8 bytes */
    WADLOOK_NO_BLOCK = 20,       /* no block holds the point */
    WADLOOK_OFFSET_OUTSIDE = 21, /* the block's offset is missing, or is no word of BLOCKMAP */
    WADLOOK_NO_END = 22,         /* no end word stands at the offset or after it */
    WADLOOK_NO_SECTOR = 23,      /* a sector's number isn't below the number of sectors */
    WADLOOK_UNKNOWN = 24,        /* REJECT ends before the bit */
    WADLOOK_NO_LEVEL = 28,       /* no level starts at the entry */
    WADLOOK_OTHER_FORMAT = 29,   /* the level is in another format than Doom's: Hexen's, UDMF, or with extended nodes */
    WADLOOK_NO_VIEW = 30,        /* bounds out of order, or no cells, or more than 1024 along a side */
    WADLOOK_NOTHING_TO_DRAW = 31 /* no linedef of the level has both of its vertexes */
};

/* ---- Texts ------------------------------------------------------------------------------------------------------- */

/* Each ends with a NUL and stays. NULL where the number is none's. */
const char *wadlook_status_text(uint32_t status); /* one of wadlook_status, in words */
const char *wadlook_end_text(uint32_t end);       /* one of wadlook_end, in words */
const char *wadlook_code_name(uint32_t code);     /* one of wadlook_code, as "F3" */
const char *wadlook_code_text(uint32_t code);     /* what it says, in few words */
const char *wadlook_kind_text(uint32_t kind);     /* one of wadlook_kind, as "linedef" */
const char *wadlook_format_text(uint32_t format); /* one of wadlook_format, as "doom" */

/* ---- The levels of a file ---------------------------------------------------------------------------------------- */

enum wadlook_format {
    WADLOOK_DOOM = 0,
    WADLOOK_HEXEN = 1,
    WADLOOK_UDMF = 2,
    WADLOOK_EXTENDED = 3,   /* its nodes are in a later format */
    WADLOOK_INCOMPLETE = 4, /* a lump isn't there, or hasn't its usual name */
    WADLOOK_OUTSIDE = 5     /* a lump isn't inside its file */
};

/* `entry` is the number of the label among the file's entries, from 0. `name` has zeros behind it where it is shorter. `format` is
 * one of wadlook_format. `lump` is the place of the lump that isn't there or isn't inside its file, from 1 to 10, and else 0.
 * `tag` is how extended nodes begin, and else zeros. */
typedef struct {
    size_t entry;
    char name[8];
    uint32_t format, lump;
    char tag[4];
} wadlook_level;

/* Writes the levels of a file in the order of their entries, hidden ones too, and how many there are to *count. FRONT:
 * levels_len < *count. DONE, MEMORY, SHORT to DIRECTORY. */
WADLOOK_NODISCARD uint32_t wadlook_levels(
    const uint8_t *wad, size_t wad_len, wadlook_level *levels, size_t levels_len, size_t *count);

/* ---- Points ------------------------------------------------------------------------------------------------------ */

/* In map units, -16384 to 16383. */
typedef struct {
    int32_t x, y;
} wadlook_point_at;
typedef struct {
    uint16_t ssector, sector;
} wadlook_place;

/* The ssector and the sector of a point that is out of range. No level has such an ssector; under `wide` the last of 65,536
 * sectors has the number, too. */
#define WADLOOK_NOWHERE 65535

/* Writes to places[i] the ssector and the sector in which points[i] lies, for each point; the file is read and the level
 * audited once. NO_ROOM: places_len < points_len. Else DONE, UNSOUND, MEMORY, SHORT to LUMP_OUTSIDE. */
WADLOOK_NODISCARD uint32_t wadlook_points(const uint8_t *wad, size_t wad_len, const uint8_t *name, size_t name_len, bool wide,
    const wadlook_point_at *points, size_t points_len, wadlook_place *places, size_t places_len);

/* The same of the level whose label is an entry. NO_ROOM; else DONE, UNSOUND, MEMORY, SHORT to DIRECTORY, LUMP_MISSING,
 * LUMP_OUTSIDE, NO_LEVEL, OTHER_FORMAT. */
WADLOOK_NODISCARD uint32_t wadlook_points_at(const uint8_t *wad, size_t wad_len, size_t entry, bool wide,
    const wadlook_point_at *points, size_t points_len, wadlook_place *places, size_t places_len);

/* Audits a level once for many calls of wadlook_point: writes the sector of each ssector to the front of sectors, and how
 * many there are to *count, also at NO_ROOM. NO_ROOM: sectors_len < *count. That comes before the audit: with more room the level
 * may still be UNSOUND. Room for 32,768 is enough for each sound level. Else DONE, UNSOUND, MEMORY, SHORT to LUMP_OUTSIDE. */
WADLOOK_NODISCARD uint32_t wadlook_prepare(const uint8_t *wad, size_t wad_len, const uint8_t *name, size_t name_len, bool wide,
    uint16_t *sectors, size_t sectors_len, size_t *count);

/* The same of the level whose label is an entry. NO_ROOM; else DONE, UNSOUND, MEMORY, SHORT to DIRECTORY, LUMP_MISSING,
 * LUMP_OUTSIDE, NO_LEVEL, OTHER_FORMAT. */
WADLOOK_NODISCARD uint32_t wadlook_prepare_at(
    const uint8_t *wad, size_t wad_len, size_t entry, bool wide, uint16_t *sectors, size_t sectors_len, size_t *count);

/* The place of one point, by the bytes of a level's NODES (wadlook_find with 7) and the *count sectors that
 * wadlook_prepare listed. Takes no memory. Any bytes and numbers may be handed in; where they are no sound level's, the
 * answer is some place or nowhere. */
wadlook_place wadlook_point(
    const uint8_t *nodes, size_t nodes_len, const uint16_t *sectors, size_t sectors_len, wadlook_point_at point);

/* The place of one point of the level whose label is an entry, which may have faults: NOWHERE where the walk down its nodes
 * breaks off, or the ssector has no sector. DONE, MEMORY, SHORT to DIRECTORY, LUMP_MISSING, LUMP_OUTSIDE, NO_LEVEL, OTHER_FORMAT. */
WADLOOK_NODISCARD uint32_t wadlook_under(
    const uint8_t *wad, size_t wad_len, size_t entry, bool wide, wadlook_point_at point, wadlook_place *place);

/* Columns x0 to x1 and rows y0 to y1, with both ends. */
typedef struct {
    int32_t x0, y0, x1, y1;
} wadlook_rect;
typedef struct {
    uint32_t sector, points;
} wadlook_count;

/* Writes how many whole points of a rectangle lie in each sector, by sectors, of those that have some, and how many sectors these
 * are to *count. FRONT: counts_len < *count. NO_RECT; else DONE, UNSOUND, MEMORY, SHORT to LUMP_OUTSIDE. */
WADLOOK_NODISCARD uint32_t wadlook_census(const uint8_t *wad, size_t wad_len, const uint8_t *name, size_t name_len, bool wide,
    const wadlook_rect *rect, wadlook_count *counts, size_t counts_len, size_t *count);

/* The same of the level whose label is an entry. NO_RECT; else DONE, UNSOUND, MEMORY, SHORT to DIRECTORY, LUMP_MISSING,
 * LUMP_OUTSIDE, NO_LEVEL, OTHER_FORMAT. */
WADLOOK_NODISCARD uint32_t wadlook_census_at(const uint8_t *wad, size_t wad_len, size_t entry, bool wide, const wadlook_rect *rect,
    wadlook_count *counts, size_t counts_len, size_t *count);

/* ---- Cells: a map of sectors ------------------------------------------------------------------------------------- */

/* The part of a map from x0 to x1 and y0 to y1 where `framed` is true, and else that of the level's linedefs; and how many cells
 * its longer side has at most, from 1 to 1024. */
typedef struct {
    int16_t x0, y0, x1, y1;
    uint32_t cells;
    bool framed;
} wadlook_view;

/* A cell is `size` map units wide and high. That of column i and row j shows the sector of the point
 * (x + i * size, y + j * size), and none where the map is void. */
typedef struct {
    uint32_t size, columns, rows;
    int32_t x, y;
} wadlook_grid;

/* Writes the sector of each cell to sectors[row * columns + column], the lowest row first, -1 where there is none; and the cells'
 * size and numbers to *grid, also at NO_ROOM. NO_ROOM: sectors_len < grid->columns * grid->rows. NO_VIEW; else DONE, UNSOUND,
 * MEMORY, SHORT to DIRECTORY, LUMP_MISSING, LUMP_OUTSIDE, NO_LEVEL, OTHER_FORMAT, NOTHING_TO_DRAW. */
WADLOOK_NODISCARD uint32_t wadlook_cells(const uint8_t *wad, size_t wad_len, size_t entry, bool wide, const wadlook_view *view,
    int32_t *sectors, size_t sectors_len, wadlook_grid *grid);

/* ---- What is wrong with a level ---------------------------------------------------------------------------------- */

/* The codes: the faults, the notes, and then the warnings, of which wadlook_run and wadlook_check alone tell. */
/* tools/tables writes from here */
enum wadlook_code {
    WADLOOK_F1 = 0,   /* lump missing after the label */
    WADLOOK_F2 = 1,   /* lump outside its file */
    WADLOOK_F3 = 2,   /* linedef vertex names none */
    WADLOOK_F4 = 3,   /* linedef side names none */
    WADLOOK_F5 = 4,   /* sidedef sector names none */
    WADLOOK_F6 = 5,   /* seg vertex names none */
    WADLOOK_F7 = 6,   /* seg linedef names none */
    WADLOOK_F8 = 7,   /* seg side is not 0 or 1 */
    WADLOOK_F9 = 8,   /* seg's linedef has no side there */
    WADLOOK_F10 = 9,  /* ssector's segs out of range */
    WADLOOK_F11 = 10, /* child names nothing */
    WADLOOK_F12 = 11, /* node origin out of range */
    WADLOOK_F13 = 12, /* node named twice or root named */
    WADLOOK_F14 = 13, /* node not reached */
    WADLOOK_F15 = 14, /* ssector named more than once */
    WADLOOK_F16 = 15, /* ssector not reached */
    WADLOOK_F17 = 16, /* no ssector */
    WADLOOK_F18 = 17, /* more than 32767 nodes */
    WADLOOK_N1 = 18,  /* lump name differs */
    WADLOOK_N2 = 19,  /* bytes left over */
    WADLOOK_N3 = 20,  /* two-sided flag without side 1 */
    WADLOOK_N4 = 21,  /* no side 0 */
    WADLOOK_N5 = 22,  /* linedef of no length */
    WADLOOK_N6 = 23,  /* ssector without segs */
    WADLOOK_N7 = 24,  /* partition without direction */
    WADLOOK_N8 = 25,  /* REJECT size */
    WADLOOK_N9 = 26,  /* BLOCKMAP short */
    WADLOOK_N10 = 27, /* block list faulty */
    WADLOOK_N11 = 28, /* no player 1 start */
    WADLOOK_N12 = 29, /* vertex out of range */
    WADLOOK_W1 = 30,  /* sector not closed */
    WADLOOK_W2 = 31,  /* wall without texture */
    WADLOOK_W3 = 32,  /* thing in the void */
    WADLOOK_W4 = 33,  /* tag of no sector */
    WADLOOK_W5 = 34,  /* segs face several sectors */
    WADLOOK_W6 = 35,  /* linedef on another */
    WADLOOK_W7 = 36,  /* no start of players 2 to 4 */
    WADLOOK_W8 = 37,  /* fewer than 4 deathmatch starts */
    WADLOOK_W9 = 38,  /* texture not there */
    WADLOOK_W10 = 39, /* flat not there */
    WADLOOK_W11 = 40, /* thing of no known type */
    WADLOOK_W12 = 41, /* reserved */
    WADLOOK_W13 = 42, /* reserved */
    WADLOOK_W14 = 43, /* unknown special */
    WADLOOK_W15 = 44, /* special with tag 0 */
    WADLOOK_W16 = 45, /* special that acts on nothing */
    WADLOOK_W17 = 46, /* use ends or spoils the game */
    WADLOOK_W18 = 47, /* floor that ends the game */
    WADLOOK_W19 = 48, /* no exit, or a key missing */
    WADLOOK_W20 = 49, /* reserved */
    WADLOOK_W21 = 50, /* thing unread, unplaced or deadly */
    WADLOOK_W22 = 51, /* limit of the game passed */
    WADLOOK_W23 = 52, /* reserved */
    WADLOOK_W24 = 53, /* reserved */
    WADLOOK_W25 = 54  /* flat not between its ends */
};
/* tools/tables writes up to here */

/* `code` is one of wadlook_code. */
typedef struct {
    uint32_t code, index;
} wadlook_finding;
typedef struct {
    size_t faults, notes;
} wadlook_totals;

/* Writes the faults and notes of a level, by code and then by index, and how many there are to *totals. FRONT: findings_len <
 * totals->faults + totals->notes. A lump that is missing or outside the file is the only finding, F1 or F2 with the lump's
 * number. DONE, MEMORY, SHORT to NO_NAME. */
WADLOOK_NODISCARD uint32_t wadlook_audit(const uint8_t *wad, size_t wad_len, const uint8_t *name, size_t name_len, bool wide,
    wadlook_finding *findings, size_t findings_len, wadlook_totals *totals);

/* The same of the level whose label is an entry, without F1, F2 and N1, which OTHER_FORMAT and its neighbours stand for. FRONT. DONE,
 * MEMORY, SHORT to DIRECTORY, LUMP_MISSING, LUMP_OUTSIDE, NO_LEVEL, OTHER_FORMAT. */
WADLOOK_NODISCARD uint32_t wadlook_audit_at(const uint8_t *wad, size_t wad_len, size_t entry, bool wide, wadlook_finding *findings,
    size_t findings_len, wadlook_totals *totals);

/* ---- Lumps, sight and blocks ------------------------------------------------------------------------------------- */

/* `entry` counts from 0; its lump is the `size` bytes from wad + place. */
typedef struct {
    size_t entry, place, size;
} wadlook_lump;

/* The entry that stands `after` entries behind the last one of a name, and its lump. Behind a level's label 1 to 10 are
 * THINGS, LINEDEFS, SIDEDEFS, VERTEXES, SEGS, SSECTORS, NODES, SECTORS, REJECT and BLOCKMAP. DONE, MEMORY, SHORT to
 * LUMP_OUTSIDE. */
WADLOOK_NODISCARD uint32_t wadlook_find(
    const uint8_t *wad, size_t wad_len, const uint8_t *name, size_t name_len, size_t after, wadlook_lump *lump);

/* An entry's lump. DONE, MEMORY, SHORT to DIRECTORY, LUMP_MISSING where there are not so many entries, LUMP_OUTSIDE. */
WADLOOK_NODISCARD uint32_t wadlook_find_at(const uint8_t *wad, size_t wad_len, size_t entry, wadlook_lump *lump);

/* Whether REJECT's bytes, of a level of so many sectors (SECTORS has 26 bytes for each), refuse the sight from a sector to
 * another: *blocked is 1 or 0. NO_SECTOR, UNKNOWN, DONE. Takes no memory. */
WADLOOK_NODISCARD uint32_t wadlook_sight(
    const uint8_t *reject, size_t reject_len, uint32_t sectors, uint32_t from, uint32_t to, uint32_t *blocked);

typedef struct {
    uint32_t column, row;
    size_t first, count; /* the list: `count` words of BLOCKMAP, each 2 bytes, the first at byte 2 * first */
} wadlook_block_at;

/* The block that holds a point, and where its list stands in BLOCKMAP's bytes, up to its end word: little-endian words,
 * signed unless wide. The first word of a list is mostly 0 and no linedef. OUT_OF_RANGE to NO_END, DONE. Takes no memory. */
WADLOOK_NODISCARD uint32_t wadlook_block(
    const uint8_t *blockmap, size_t blockmap_len, bool wide, wadlook_point_at point, wadlook_block_at *block);

/* ---- A level alone, and demos ------------------------------------------------------------------------------------ */

/* Writes a PWAD of the level alone, its label and its ten lumps, to the front of out, and its length to *written, also at
 * NO_ROOM. NO_ROOM: out_len < *written. Else DONE, MEMORY, TOO_LARGE, SHORT to LUMP_OUTSIDE. */
WADLOOK_NODISCARD uint32_t wadlook_extract(
    const uint8_t *wad, size_t wad_len, const uint8_t *name, size_t name_len, uint8_t *out, size_t out_len, size_t *written);

/* The same of the level whose label is an entry, in any format: with the lumps that belong to it there. NO_ROOM; else DONE, MEMORY,
 * TOO_LARGE, SHORT to DIRECTORY, LUMP_MISSING, LUMP_OUTSIDE, NO_LEVEL. */
WADLOOK_NODISCARD uint32_t wadlook_extract_at(
    const uint8_t *wad, size_t wad_len, size_t entry, uint8_t *out, size_t out_len, size_t *written);

typedef struct {
    size_t commands; /* how many, of all players; a full tic has one of each */
    size_t after;    /* bytes behind the end marker */
    uint32_t players;
    uint8_t version, skill, episode, map, deathmatch, respawn, fast, no_monsters, viewpoint;
    uint8_t player[4]; /* whether each takes part */
} wadlook_demo_info;
typedef struct {
    uint16_t turn; /* as it is stored: a byte in versions 109 and 110, two in 111 */
    int8_t forward, side;
    uint8_t buttons;
} wadlook_command;

/* Writes the commands of a demo, in order, and what else its bytes say to *info. FRONT: commands_len < info->commands. DONE,
 * DEMO_EMPTY to DEMO_NO_MARKER. Takes no memory. */
WADLOOK_NODISCARD uint32_t wadlook_demo(
    const uint8_t *bytes, size_t bytes_len, wadlook_command *commands, size_t commands_len, wadlook_demo_info *info);

/* ---- The words of `wadlens` -------------------------------------------------------------------------------------- */

enum wadlook_word {
    WADLOOK_CHECK = 0,            /* check --max NUMBER, where 0 shows all */
    WADLOOK_SURVEY = 1,           /* survey */
    WADLOOK_DEMOS = 2,            /* demos */
    WADLOOK_DEMOS_JSON = 3,       /* demos --json */
    WADLOOK_CUT = 4,              /* cut --entry NUMBER, of one file */
    WADLOOK_CHECK_JSON = 5,       /* check --json --max NUMBER */
    WADLOOK_CUT_LEVEL = 6,        /* cut --level NAME, of one file */
    WADLOOK_PICTURE = 7,          /* picture NAME, of the set of 1 to 64 files */
    WADLOOK_COMPARE = 8,          /* compare, of two files */
    WADLOOK_ASSEMBLE = 9,         /* assemble, of the input; no file */
    WADLOOK_EXPLAIN = 10,         /* explain CODE: that of rank NUMBER; no file */
    WADLOOK_EXPLAIN_ALL = 11,     /* explain; no file */
    WADLOOK_LISTING = 12,         /* listing, of one file */
    WADLOOK_COMPARE_COMMANDS = 13 /* compare --commands, of two files */
};

/* The bit of a code in a set of codes. */
#define WADLOOK_BIT(code) ((uint64_t)1 << (code))

/* Writes to *set the notes and warnings that words name, as --ignore and --fail take them: codes, ranges of one letter that rise,
 * and the groups game, notes and warnings, with commas between them, as "N2,W7-W8,game". Words end with a NUL; "" names none.
 * False, and nothing written, where a word names none. `game` names whole codes; what --fail game asks for is `game_ends` of a
 * question. */
WADLOOK_NODISCARD bool wadlook_codes(const char *words, uint64_t *set);

/* What is asked. All zeros ask `check` for every finding of each file, and no warning. */
typedef struct {
    const uint8_t *name; /* the level's, of CUT_LEVEL and PICTURE */
    size_t name_len;
    uint64_t number;           /* see wadlook_word */
    uint64_t ignored, failing; /* --ignore and --fail: sets of codes. A fault is never ignored */
    size_t limit;              /* the answer and the messages end at so many bytes each; 0: at none */
    size_t bases;              /* so many of the files, the first ones, are base files: --base. 63 at most */
    uint32_t word;             /* one of wadlook_word */
    uint32_t cells;            /* of PICTURE: --cells; 0 for 512 */
    int16_t x0, y0, x1, y1;    /* of PICTURE: --frame, where `framed` is true */
    bool framed, wide, map, strict;
    bool game_ends; /* --fail game: what ends the game is as grave as a fault */
} wadlook_question;

/* A file: the path by which answers name it, any bytes, and its bytes. */
typedef struct {
    const uint8_t *path;
    size_t path_len;
    const uint8_t *bytes;
    size_t bytes_len;
} wadlook_file;

/* How long the answer and the messages are. */
typedef struct {
    size_t answer, messages;
} wadlook_told;

/* How a run ended: the program's statuses, and two more. */
enum wadlook_end {
    WADLOOK_CLEAN = 0,   /* nothing is wrong */
    WADLOOK_FAULTY = 1,  /* a fault, a lost lump, broken nodes, what `failing`, `strict` or `game_ends` ask for; or a difference */
    WADLOOK_REFUSED = 2, /* a file is refused, or a level isn't judged: the messages say why */
    WADLOOK_NO_MEMORY = 3, /* malloc or realloc gave none; a front of the answer was made */
    WADLOOK_STOPPED = 4,   /* the limit was reached, or the callback stopped; a front of the answer was made */
    WADLOOK_MISTAKEN = 5   /* the question has no meaning, or isn't asked of so many files; there is no answer */
};

/* Does what `wadlens` does with such words over files that are held in memory, and an input. What the program writes to standard
 * output goes to the front of answer, and what it writes to standard error to the front of messages: FRONT: answer_len <
 * told->answer, and messages_len < told->messages. It returns one of wadlook_end. */
WADLOOK_NODISCARD uint32_t wadlook_run(const wadlook_question *question, const wadlook_file *files, size_t files_len,
    const uint8_t *input, size_t input_len, uint8_t *answer, size_t answer_len, uint8_t *messages, size_t messages_len,
    wadlook_told *told);

/* What a code is found at. */
enum wadlook_kind {
    WADLOOK_LINEDEF = 0,
    WADLOOK_SIDEDEF = 1,
    WADLOOK_VERTEX = 2,
    WADLOOK_SEG = 3,
    WADLOOK_SSECTOR = 4,
    WADLOOK_NODE = 5,
    WADLOOK_SECTOR = 6,
    WADLOOK_THING = 7,
    WADLOOK_LUMP = 8,
    WADLOOK_BLOCK = 9,
    WADLOOK_WHOLE = 10, /* the level */
    WADLOOK_FILE = 11   /* a file that is refused */
};

/* Where it is on the map. */
enum wadlook_where {
    WADLOOK_NO_PLACE = 0,
    WADLOOK_AT = 1,        /* at (x0, y0) */
    WADLOOK_BETWEEN = 2,   /* from (x0, y0) to (x1, y1) */
    WADLOOK_OF_LINEDEF = 3 /* at linedef x0 */
};

/* Stands for the code of what has none, where `message` alone says what is wrong: a file is refused, a level isn't judged, its ten
 * lumps stand in another order, or its nodes weren't built. */
#define WADLOOK_NO_CODE UINT32_MAX

/* A finding. The texts end with a NUL, and stay until the callback has returned. */
typedef struct {
    size_t file;         /* which of the files, from 0; those of `bases` count */
    size_t entry;        /* the entry of the level's label */
    const char *level;   /* the label's name, as it is shown; "" of a file that is refused */
    const char *message; /* what is wrong, in words */
    int64_t index;       /* the number of the record; of a block its column; -1 of a level and of a file */
    int64_t row;         /* of a block its row, and else -1 */
    uint32_t code;       /* one of wadlook_code, or WADLOOK_NO_CODE */
    uint32_t kind;       /* one of wadlook_kind */
    uint32_t where;      /* one of wadlook_where */
    int32_t x0, y0, x1, y1;
} wadlook_found;

/* A callback: whether it wants more. */
typedef bool (*wadlook_on_found)(void *own, const wadlook_found *found);

/* Does WADLOOK_CHECK of each file in turn, and gives its findings one by one to a callback. `own` is handed on. Of the question
 * `word` and `limit` are ignored. It returns the gravest of wadlook_end: FAULTY goes before REFUSED. STOPPED: the callback wanted
 * no more. NO_MEMORY, STOPPED and MISTAKEN end it at once, and so does a base file that is refused: it alone is given. */
WADLOOK_NODISCARD uint32_t wadlook_check(
    const wadlook_question *question, const wadlook_file *files, size_t files_len, wadlook_on_found on_found, void *own);

#ifdef __cplusplus
}
#endif
#endif
