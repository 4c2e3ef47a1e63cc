// What linuxdoom 1.10 computes of cases that a seed makes: what `released_cases` prints of the same seed.
//
//     released SEED LINES [ROUTINE]
//
// The routines are those of `released_game.c`. Sides and blocks are told as they are defined, too (`crates/map_geo/specs/Side.antt`,
// `crates/map_tables/specs/BlockMap.antt`). The head of `crates/released_cases/src/main.rt` says what is printed. Its files make the same
// cases, by the same numbers in the same order.
#include "released_game.h"

#include <stdio.h>
#include <stdlib.h>
#include <string.h>

// ---- As it is defined -----------------------------------------------------------------------------------------------

struct units {
    int32_t x, y;
    struct node node;
};

static bool is_in_range(int32_t z) { return -16384 <= z && z <= 16383; }

static char side_on_line(const struct units *at) {
    const struct node *node = &at->node;

    if (node->dx == 0) return back_if(node->dy > 0);
    if (node->dy == 0) return back_if(node->dx < 0);
    return back_if(!(node->dx < 0 && node->dy > 0 && at->x == node->x && at->y == node->y));
}

static char side(const struct units *at) {
    const struct node *node = &at->node;
    int64_t cross = (int64_t)node->dy * (at->x - node->x) - (int64_t)node->dx * (at->y - node->y);

    if (cross == 0) return side_on_line(at);
    return back_if(cross < 0);
}

// The floor of the blocks of 128 units between an origin and a coordinate.
static int32_t block(int32_t origin, int32_t z) { return (int32_t)shifted((int64_t)z - origin, 7); }

// ---- Numbers of a seed ----------------------------------------------------------------------------------------------

static uint64_t state;

// splitmix64
static uint64_t next(void) {
    uint64_t mixed;

    state += 0x9e3779b97f4a7c15U;
    mixed = (state ^ (state >> 30)) * 0xbf58476d1ce4e5b9U;
    mixed = (mixed ^ (mixed >> 27)) * 0x94d049bb133111ebU;
    return mixed ^ (mixed >> 31);
}

static unsigned choice(void) { return (unsigned)(next() % 8); }

static int below(int count) { return (int)(next() % (unsigned)count); }

static int32_t word(void) { return signed_word((uint32_t)next()); }

static int16_t half(void) { return signed_half((uint32_t)(next() & 0xffff)); }

static int32_t from(int32_t least, uint32_t count) { return least + (int32_t)(next() % count); }

// ---- Sides ----------------------------------------------------------------------------------------------------------

static struct units near_zero(int32_t place, uint32_t places, int32_t step, uint32_t steps) {
    struct units at;

    at.x = from(place, places);
    at.y = from(place, places);
    at.node.x = from(place, places);
    at.node.y = from(place, places);
    at.node.dx = from(step, steps);
    at.node.dy = from(step, steps);
    return at;
}

static struct units extreme(void) {
    static const int32_t places[] = {-16384, -16383, -1, 0, 1, 2, 16382, 16383};
    static const int32_t steps[] = {-32768, -32767, -1, 0, 1, 2, 32766, 32767};
    struct units at;

    at.x = places[choice()];
    at.y = places[choice()];
    at.node.x = places[choice()];
    at.node.y = places[choice()];
    at.node.dx = steps[choice()];
    at.node.dy = steps[choice()];
    return at;
}

static struct units tie(void) {
    struct units at;
    int32_t times;

    at.node.x = from(-4096, 8192);
    at.node.y = from(-4096, 8192);
    at.node.dx = from(-64, 128);
    at.node.dy = from(-64, 128);
    times = from(-64, 128);
    at.x = at.node.x + times * at.node.dx;
    at.y = at.node.y + times * at.node.dy;
    return at;
}

static struct units near_tie(void) {
    struct units at = tie();

    at.x += from(-1, 3);
    at.y += from(-1, 3);
    return at;
}

static struct units any(void) {
    struct units at;

    at.x = word();
    at.y = word();
    at.node.x = word();
    at.node.y = word();
    at.node.dx = word();
    at.node.dy = word();
    return at;
}

static struct units straight(void) {
    struct units at = any();
    unsigned chosen = choice();

    if ((chosen & 1) == 0) at.node.dx = 0;
    else at.node.dy = 0;
    if ((chosen & 2) == 0) {
        at.x = at.node.x;
        at.y = at.node.y;
    }
    return at;
}

static struct node fixed_node(const struct node *node) {
    struct node loaded = {fixed(node->x), fixed(node->y), fixed(node->dx), fixed(node->dy)};

    return loaded;
}

static void put_both(struct units at) {
    const struct node *node = &at.node;
    struct node loaded = fixed_node(node);
    bool asked = is_in_range(at.x) && is_in_range(at.y) && is_in_range(node->x) && is_in_range(node->y);

    putchar(released_side(fixed(at.x), fixed(at.y), &loaded));
    putchar(asked ? side(&at) : '-');
}

static void put_released(struct units at) {
    putchar(released_side(at.x, at.y, &at.node));
    putchar('-');
}

static void put_side(void) {
    switch (choice()) {
    case 0: put_both(near_zero(-8, 16, -8, 16)); break;
    case 1: put_both(near_zero(-16384, 32768, -32768, 65536)); break;
    case 2: put_both(extreme()); break;
    case 3: put_both(tie()); break;
    case 4: put_both(near_tie()); break;
    case 5: put_both(near_zero(-32768, 65536, -32768, 65536)); break;
    case 6: put_released(any()); break;
    default: put_released(straight()); break;
    }
}

static void put_sides(void) {
    int cases;

    for (cases = 0; cases < 64; cases++) put_side();
}

// ---- Levels ---------------------------------------------------------------------------------------------------------

static struct linedef any_linedef(void) {
    struct linedef linedef;

    linedef.v1 = below(DOZEN);
    linedef.v2 = below(DOZEN);
    linedef.flags = half();
    linedef.sidenum[0] = below(DOZEN);
    linedef.sidenum[1] = below(DOZEN);
    if (choice() == 0) linedef.sidenum[below(2)] = NO_SIDE;
    return linedef;
}

// A seg at a side that its linedef has.
static struct seg any_seg(const struct linedef *linedefs) {
    struct seg seg;
    const int *sidenum;

    seg.v1 = below(DOZEN);
    seg.v2 = below(DOZEN);
    seg.linedef = below(DOZEN);
    seg.side = below(2);
    sidenum = linedefs[seg.linedef].sidenum;
    if (sidenum[0] == NO_SIDE) seg.side = 1;
    else if (sidenum[1] == NO_SIDE) seg.side = 0;
    return seg;
}

static struct ssector any_ssector(void) {
    struct ssector ssector;

    ssector.first = below(DOZEN);
    ssector.count = 1 + below(DOZEN - ssector.first);
    return ssector;
}

static struct node any_node(bool wide) {
    struct node node;

    node.x = wide ? from(-16384, 32768) : from(-16, 32);
    node.y = wide ? from(-16384, 32768) : from(-16, 32);
    node.dx = wide ? half() : from(-4, 8);
    node.dy = wide ? half() : from(-4, 8);
    return node;
}

// Takes one of so many words away, for which the last comes in.
static unsigned take(unsigned *words, int *count) {
    int i = below(*count);
    unsigned taken = words[i];

    words[i] = words[--*count];
    return taken;
}

// Nodes over all ssectors: each joins two of what isn't joined yet, so the last is the root.
static void join_nodes(struct level *level, bool wide) {
    unsigned words[DOZEN];
    int count = level->ssector_count, n;

    for (n = 0; n < count; n++) words[n] = OF_SSECTOR + (unsigned)n;
    for (n = 0; count > 1; n++) {
        struct node node = any_node(wide);
        level->nodes[n].node = fixed_node(&node);
        level->nodes[n].child[0] = take(words, &count);
        level->nodes[n].child[1] = take(words, &count);
        words[count++] = (unsigned)n;
    }
    level->node_count = n;
}

static void make_level(struct level *level, bool wide) {
    int i;

    for (i = 0; i < DOZEN; i++) level->sidedefs[i] = below(DOZEN);
    for (i = 0; i < DOZEN; i++) level->linedefs[i] = any_linedef();
    for (i = 0; i < DOZEN; i++) level->segs[i] = any_seg(level->linedefs);
    level->ssector_count = 1 + below(DOZEN);
    for (i = 0; i < level->ssector_count; i++) level->ssectors[i] = any_ssector();
    join_nodes(level, wide);
}

static void put_leaf(const struct level *level, bool wide) {
    int32_t x = wide ? from(-16384, 32768) : from(-16, 32);
    int32_t y = wide ? from(-16384, 32768) : from(-16, 32);

    printf(" %u", released_leaf(level, fixed(x), fixed(y)));
}

static bool is_two_sided(const struct level *level, const struct seg *seg) {
    return (level->linedefs[seg->linedef].flags & TWO_SIDED) != 0;
}

// The sidedef behind a seg, and its sector; of one that isn't there the number alone.
static void put_back(const struct level *level, const struct seg *seg) {
    int back = released_back(level, seg);

    if (!is_two_sided(level, seg)) printf(" none");
    else if (back == NO_SIDE) printf(" -1");
    else printf(" %d:%d", back, level->sidedefs[back]);
}

static void put_levels(void) {
    struct level level;
    bool wide = choice() % 2 == 0;
    int i;

    make_level(&level, wide);
    printf("leaves");
    for (i = 0; i < 8; i++) put_leaf(&level, wide);
    printf(" sectors");
    for (i = 0; i < level.ssector_count; i++) printf(" %d", released_sector(&level, &level.ssectors[i]));
    printf(" backs");
    for (i = 0; i < DOZEN; i++) put_back(&level, &level.segs[i]);
}

// ---- Links ----------------------------------------------------------------------------------------------------------

static int around(int count) { return from(-2, (uint32_t)count + 4); }

// Another number, often past its table, in one record.
static void damage(struct level *level) {
    int i = below(DOZEN);

    switch (below(DOZEN)) {
    case 0: level->linedefs[i].v1 = around(DOZEN); break;
    case 1: level->linedefs[i].v2 = around(DOZEN); break;
    case 2: level->linedefs[i].sidenum[0] = around(DOZEN); break;
    case 3: level->linedefs[i].sidenum[1] = around(DOZEN); break;
    case 4: level->sidedefs[i] = around(DOZEN); break;
    case 5: level->segs[i].v1 = around(DOZEN); break;
    case 6: level->segs[i].v2 = around(DOZEN); break;
    case 7: level->segs[i].linedef = around(DOZEN); break;
    case 8: level->segs[i].side = around(2); break;
    case 9: level->ssectors[i % level->ssector_count].first = around(DOZEN); break;
    case 10: level->ssectors[i % level->ssector_count].count = around(DOZEN); break;
    default: break;
    }
}

// F: an index is followed that isn't inside. N: only the -1 behind a seg. L: none.
static char links_of(const struct level *level) {
    int i;

    if (!stays_inside(level)) return 'F';
    for (i = 0; i < DOZEN; i++)
        if (is_two_sided(level, &level->segs[i]) && released_back(level, &level->segs[i]) == NO_SIDE) return 'N';
    return 'L';
}

static void put_links(void) {
    struct level level;
    int cases;

    printf("links");
    for (cases = 0; cases < 8; cases++) {
        make_level(&level, false);
        damage(&level);
        damage(&level);
        printf(" %c", links_of(&level));
    }
}

// ---- REJECT ---------------------------------------------------------------------------------------------------------

enum { MOST_SECTORS = 40, REJECT_BYTES = MOST_SECTORS * MOST_SECTORS / 8 };

// A pair of so many sectors, or any numbers that lead to a bit of the lump.
static bool any_sight_bit(const uint8_t *bytes) {
    int32_t sectors, s1, pair;

    if (choice() % 2 == 0) {
        sectors = from(1, MOST_SECTORS);
        s1 = from(0, (uint32_t)sectors);
        return released_sight_bit(bytes, sectors, s1, from(0, (uint32_t)sectors));
    }
    sectors = word();
    s1 = word();
    pair = from(0, 8 * REJECT_BYTES);
    return released_sight_bit(bytes, sectors, s1, wrapping_sub(pair, wrapping_mul(s1, sectors)));
}

static void put_sights(void) {
    uint8_t bytes[REJECT_BYTES];
    int i;

    for (i = 0; i < REJECT_BYTES; i++) bytes[i] = (uint8_t)(next() & 0xff);
    printf("sights");
    for (i = 0; i < 8; i++) printf(" %d", any_sight_bit(bytes));
}

// ---- Blocks ---------------------------------------------------------------------------------------------------------

struct axis {
    int32_t origin, z, blocks;
};

// Along one axis: an origin, a coordinate, and how many blocks there are. By turns any of 16 bits, far apart, nearby, and about the edge of
// a block.
static struct axis any_axis(unsigned chosen) {
    struct axis axis;

    axis.origin = chosen < 3 ? half() : from(-512, 1024);
    axis.blocks = chosen == 0 ? half() : from(-2, chosen < 3 ? 600 : 40);
    if (chosen == 0) axis.z = half();
    else if (chosen < 3) axis.z = from(-16384, 32768);
    else if (chosen < 6) axis.z = axis.origin + from(-256, 2048);
    else axis.z = axis.origin + 128 * from(-2, 16);
    if (chosen >= 6) axis.z += from(-1, 3);
    return axis;
}

static bool has_block(const struct axis *axis) { return is_inside(block(axis->origin, axis->z), axis->blocks); }

// The block of the game, and the one that is defined, if the point is in range and there is one.
static void put_block(void) {
    unsigned chosen = choice();
    struct axis x = any_axis(chosen);
    struct axis y = any_axis(chosen);

    printf(" %d/%d", released_block(x.origin, x.z), released_block(y.origin, y.z));
    if (!is_in_range(x.z) || !is_in_range(y.z)) printf("=outside");
    else if (has_block(&x) && has_block(&y)) printf("=%d/%d", block(x.origin, x.z), block(y.origin, y.z));
    else printf("=none");
}

static void put_blocks(void) {
    int cases;

    printf("blocks");
    for (cases = 0; cases < 8; cases++) put_block();
}

// ---- Lists of blocks ------------------------------------------------------------------------------------------------

enum { HEAD = 4, MOST_BLOCKS = 36, LISTED = 48, MOST_WORDS = HEAD + MOST_BLOCKS + LISTED };

struct grid {
    int width, height, count;
    int16_t words[MOST_WORDS];
};

// A word of a list: often one that begins it, one that ends it, or a small number.
static int16_t any_listed(void) {
    switch (choice()) {
    case 0: return 0;
    case 1: return -1;
    case 2: return half();
    default: return (int16_t)below(40);
    }
}

// A BLOCKMAP of which each list ends at the last word at the latest. Some tell fewer blocks, or none.
static void make_grid(struct grid *grid) {
    int i, blocks;
    unsigned chosen;

    grid->width = 1 + below(6);
    grid->height = 1 + below(6);
    chosen = choice();
    blocks = grid->width * grid->height;
    grid->count = HEAD + blocks + LISTED;
    grid->words[0] = half();
    grid->words[1] = half();
    grid->words[2] = (int16_t)(chosen == 0 ? -grid->width : grid->width);
    grid->words[3] = (int16_t)(chosen == 1 ? grid->height - 1 : grid->height);
    for (i = HEAD; i < HEAD + blocks; i++)
        grid->words[i] = (int16_t)(choice() == 0 ? below(grid->count) : HEAD + blocks + below(LISTED));
    for (; i < grid->count - 1; i++) grid->words[i] = any_listed();
    grid->words[i] = -1;
}

static void put_list(const struct grid *grid, int32_t x, int32_t y) {
    const int16_t *list = grid->words;
    int count = released_list(grid->words, x, y, &list), i;

    printf(count == 0 ? " empty" : " ");
    for (i = 0; i < count; i++) printf(i == 0 ? "%d" : ",%d", list[i]);
}

static void put_lists(void) {
    struct grid grid;
    int cases;

    make_grid(&grid);
    printf("lists");
    for (cases = 0; cases < 8; cases++) {
        unsigned chosen = choice();
        int32_t x = chosen == 0 ? word() : chosen == 1 ? from(-2, 12) : below(grid.width);
        int32_t y = chosen == 0 ? word() : chosen == 1 ? from(-2, 12) : below(grid.height);
        put_list(&grid, x, y);
    }
}

// ---- Commands of demos ----------------------------------------------------------------------------------------------

static void put_commands(void) {
    static const uint8_t edges[] = {0x80, 0x7f, 0x81, 0xff, 0, 1, 0xfe, 0x40};
    uint8_t bytes[4];
    struct ticcmd command;
    int cases, i;

    printf("commands");
    for (cases = 0; cases < 8; cases++) {
        unsigned chosen = choice();
        for (i = 0; i < 4; i++) bytes[i] = (uint8_t)(next() & 0xff);
        if (chosen < 2) bytes[0] = edges[choice()];
        else if (chosen == 2) bytes[2] = edges[choice()];
        if (released_ticcmd(bytes, &command))
            printf(" %d/%d/%d/%d", command.forwardmove, command.sidemove, command.angleturn, command.buttons);
        else printf(" end");
    }
}

// ---- Recordings -----------------------------------------------------------------------------------------------------

static struct ticcmd any_ticcmd(void) {
    static const int16_t angles[] = {127, 128, -128, -129, 32639, 32640, 32767, -32768};
    unsigned chosen = choice();
    struct ticcmd command;

    command.forwardmove = signed_byte((uint8_t)(next() & 0xff));
    command.sidemove = signed_byte((uint8_t)(next() & 0xff));
    command.angleturn = half();
    command.buttons = (uint8_t)(next() & 0xff);
    if (chosen < 2) command.angleturn = angles[choice()];
    return command;
}

static void put_recordings(void) {
    static const uint8_t versions[] = {110, 110, 110, 110, 109, 111, 0, 255};
    uint8_t bytes[13];
    int cases, i;

    printf("recordings");
    for (cases = 0; cases < 8; cases++) {
        struct ticcmd command = any_ticcmd();
        released_written(&command, bytes);
        printf(" %u/%u/%u/%u", bytes[0], bytes[1], bytes[2], bytes[3]);
    }
    for (i = 0; i < 13; i++) bytes[i] = (uint8_t)(next() & 0xff);
    bytes[0] = versions[choice()];
    if (!released_header(bytes)) printf(" other");
    else
        for (i = 1; i < 13; i++) printf(i == 1 ? " %u" : "/%u", bytes[i]);
}

// ---- Numbers of names -----------------------------------------------------------------------------------------------

enum { MOST_NAMES = 16, MOST_ASKED = 10 };

// Capital letters, and what stands beside letters of both kinds.
static char any_letter(void) { return "ABZ1@[`{"[choice()]; }

// Another letter in the second half.
static void change_letter(char *name) {
    int i = 4 + below(4);

    name[i] = any_letter();
}

// Eight letters, at times with a small one, and often with a NUL.
static void make_name(char *name) {
    size_t i;
    int end;

    for (i = 0; i < sizeof(name8); i++) name[i] = any_letter();
    if (choice() == 0) name[below(8)] = 'a';
    end = below(9);
    if (end < 8) name[end] = '\0';
}

// A name, or one from before: as it is, with another letter, or with a NUL.
static void add_name(name8 *names, int count) {
    unsigned chosen = choice();

    if (count == 0 || chosen > 2) {
        make_name(names[count]);
        return;
    }
    memcpy(names[count], names[below(count)], sizeof(name8));
    if (chosen == 1) change_letter(names[count]);
    else if (chosen == 2) names[count][below(8)] = '\0';
}

// What is asked: one of the names with two letters behind it, as it is, or changed in one of several ways.
static void make_asked(char *asked, const char *name) {
    unsigned chosen = choice();
    size_t i;

    memcpy(asked, name, sizeof(name8));
    for (i = sizeof(name8); i < MOST_ASKED; i++) asked[i] = any_letter();
    asked[MOST_ASKED] = '\0';
    if (chosen == 0) make_name(asked);
    else if (chosen == 1) change_letter(asked);
    else if (chosen == 2) asked[below(9)] = '\0';
    else if (chosen == 3)
        for (i = 0; i < MOST_ASKED; i++)
            if ('A' <= asked[i] && asked[i] <= 'Z') asked[i] = (char)(asked[i] - 'A' + 'a');
}

static void put_numbers(void) {
    name8 names[MOST_NAMES];
    char asked[MOST_ASKED + 1];
    int count = 1 + below(MOST_NAMES), i;

    for (i = 0; i < count; i++) add_name(names, i);
    printf("numbers");
    for (i = 0; i < 8; i++) {
        make_asked(asked, names[below(count)]);
        printf(" %d", released_number(names, count, asked));
    }
}

// ---- What is printed ------------------------------------------------------------------------------------------------

static const struct {
    const char *name;
    void (*put_line)(void);
} routines[] = {
    {"sides", put_sides},
    {"levels", put_levels},
    {"links", put_links},
    {"sights", put_sights},
    {"blocks", put_blocks},
    {"lists", put_lists},
    {"commands", put_commands},
    {"recordings", put_recordings},
    {"numbers", put_numbers},
};

int main(int argc, char **argv) {
    unsigned long lines, line;
    size_t i;

    if (argc != 3 && argc != 4) {
        fprintf(stderr, "usage: released SEED LINES [ROUTINE]\n");
        return 2;
    }
    lines = strtoul(argv[2], NULL, 10);
    for (i = 0; i < sizeof routines / sizeof *routines; i++) {
        if (argc == 4 && strcmp(argv[3], routines[i].name) != 0) continue;
        state = strtoull(argv[1], NULL, 10);
        for (line = 0; line < lines; line++) {
            routines[i].put_line();
            putchar('\n');
        }
    }
    return ferror(stdout) || fflush(stdout) != 0;
}
