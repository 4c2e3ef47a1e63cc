// Routines of linuxdoom 1.10, in C. Each is written from what its source does, in words of its own; the comment names the source, and
// `crates/released/specs` the definition. Past a table the game reads what lies there: only indexes that are inside are to be asked.
#include "released_game.h"

#include <string.h>

// ---- Numbers of 32 bits ---------------------------------------------------------------------------------------------

int32_t signed_word(uint32_t word) { return word < 0x80000000U ? (int32_t)word : -(int32_t)(UINT32_MAX - word) - 1; }

int16_t signed_half(uint32_t half) { return (int16_t)(half < 0x8000 ? (int32_t)half : (int32_t)half - 0x10000); }

int8_t signed_byte(uint8_t byte) { return (int8_t)(byte < 0x80 ? byte : byte - 0x100); }

static int32_t wrapping_add(int32_t a, int32_t b) { return signed_word((uint32_t)a + (uint32_t)b); }

int32_t wrapping_sub(int32_t a, int32_t b) { return signed_word((uint32_t)a - (uint32_t)b); }

int32_t wrapping_mul(int32_t a, int32_t b) { return signed_word((uint32_t)a * (uint32_t)b); }

static bool has_sign_bit(int32_t z) { return ((uint32_t)z & 0x80000000U) != 0; }

int64_t shifted(int64_t a, int bits) {
    int64_t by = (int64_t)1 << bits;

    return a >= 0 ? a / by : -((-a + by - 1) / by);
}

// ---- Sides and ssectors ---------------------------------------------------------------------------------------------

// FixedMul of m_fixed.c
static int32_t fixed_mul(int32_t a, int32_t b) { return signed_word((uint32_t)(uint64_t)shifted((int64_t)a * b, 16)); }

// P_LoadNodes of p_setup.c, where it puts 16 bits behind the point
int32_t fixed(int32_t units) { return units * 65536; }

char back_if(bool back) { return back ? 'B' : 'F'; }

// R_PointOnSide of r_main.c
char released_side(int32_t x, int32_t y, const struct node *node) {
    int32_t dx, dy, left, right;

    if (node->dx == 0) return back_if(x <= node->x ? node->dy > 0 : node->dy < 0);
    if (node->dy == 0) return back_if(y <= node->y ? node->dx < 0 : node->dx > 0);
    dx = wrapping_sub(x, node->x);
    dy = wrapping_sub(y, node->y);
    if (has_sign_bit(node->dy ^ node->dx ^ dx ^ dy)) return back_if(has_sign_bit(node->dy ^ dx));
    left = fixed_mul((int32_t)shifted(node->dy, 16), dx);
    right = fixed_mul(dy, (int32_t)shifted(node->dx, 16));
    return right < left ? 'F' : 'B';
}

// R_PointInSubsector of r_main.c: the number of the ssector
unsigned released_leaf(const struct level *level, int32_t x, int32_t y) {
    unsigned word = level->node_count == 0 ? OF_SSECTOR : (unsigned)level->node_count - 1;

    while ((word & OF_SSECTOR) == 0) {
        const struct branch *at = &level->nodes[word];
        word = at->child[released_side(x, y, &at->node) == 'B'];
    }
    return word - OF_SSECTOR;
}

// ---- Links ----------------------------------------------------------------------------------------------------------

// P_LoadSegs of p_setup.c, in front of a seg: the number of its sidedef
static int front_of(const struct level *level, const struct seg *seg) { return level->linedefs[seg->linedef].sidenum[seg->side]; }

// The same behind a seg of a two-sided linedef: the number that is followed, also if it is -1
int released_back(const struct level *level, const struct seg *seg) { return level->linedefs[seg->linedef].sidenum[seg->side ^ 1]; }

// P_GroupLines of p_setup.c: the number of an ssector's sector
int released_sector(const struct level *level, const struct ssector *ssector) {
    return level->sidedefs[front_of(level, &level->segs[ssector->first])];
}

bool is_inside(int index, int count) { return 0 <= index && index < count; }

// P_LoadLineDefs of p_setup.c
static bool linedef_stays_inside(const struct linedef *linedef) {
    int side;

    for (side = 0; side < 2; side++)
        if (linedef->sidenum[side] != NO_SIDE && !is_inside(linedef->sidenum[side], DOZEN)) return false;
    return is_inside(linedef->v1, DOZEN) && is_inside(linedef->v2, DOZEN);
}

// P_LoadSegs, in front
static bool seg_stays_inside(const struct level *level, const struct seg *seg) {
    return is_inside(seg->v1, DOZEN) && is_inside(seg->v2, DOZEN) && is_inside(seg->linedef, DOZEN) && is_inside(seg->side, 2) &&
           is_inside(front_of(level, seg), DOZEN);
}

// P_GroupLines, and R_Subsector of r_bsp.c, which goes through all segs of an ssector
static bool ssector_stays_inside(const struct ssector *ssector) {
    return is_inside(ssector->first, DOZEN) && ssector->count >= 0 && ssector->first + ssector->count <= DOZEN;
}

bool stays_inside(const struct level *level) {
    int i;

    for (i = 0; i < DOZEN; i++)
        if (!linedef_stays_inside(&level->linedefs[i])) return false;
    for (i = 0; i < DOZEN; i++)
        if (!is_inside(level->sidedefs[i], DOZEN)) return false;
    for (i = 0; i < DOZEN; i++)
        if (!seg_stays_inside(level, &level->segs[i])) return false;
    for (i = 0; i < level->ssector_count; i++)
        if (!ssector_stays_inside(&level->ssectors[i])) return false;
    return true;
}

// ---- REJECT and BLOCKMAP --------------------------------------------------------------------------------------------

// P_CheckSight of p_sight.c, as far as REJECT decides
bool released_sight_bit(const uint8_t *bytes, int32_t sectors, int32_t s1, int32_t s2) {
    int32_t pair = wrapping_add(wrapping_mul(s1, sectors), s2);

    return (bytes[pair >> 3] & (1 << (pair & 7))) != 0;
}

// P_SetThingPosition of p_maputl.c, with P_LoadBlockMap: the column or the row of a block
int32_t released_block(int32_t origin, int32_t z) { return (int32_t)shifted(wrapping_sub(fixed(z), fixed(origin)), 16 + 7); }

// P_BlockLinesIterator of p_maputl.c, with P_LoadBlockMap: how many words are gone through, and from which on
int released_list(const int16_t *words, int32_t x, int32_t y, const int16_t **list) {
    int32_t width = words[2], height = words[3];
    int count = 0;

    if (x < 0 || y < 0 || x >= width || y >= height) return 0;
    *list = words + words[4 + y * width + x];
    while ((*list)[count] != -1) count++;
    return count;
}

// ---- Commands and names ---------------------------------------------------------------------------------------------

// G_ReadDemoTiccmd of g_game.c: false at the marker that ends a demo
bool released_ticcmd(const uint8_t *bytes, struct ticcmd *command) {
    if (bytes[0] == 0x80) return false;
    command->forwardmove = signed_byte(bytes[0]);
    command->sidemove = signed_byte(bytes[1]);
    command->angleturn = signed_half((uint32_t)bytes[2] << 8);
    command->buttons = bytes[3];
    return true;
}

// G_WriteDemoTiccmd of g_game.c, but that it reads the command back
void released_written(const struct ticcmd *command, uint8_t *bytes) {
    bytes[0] = (uint8_t)command->forwardmove;
    bytes[1] = (uint8_t)command->sidemove;
    bytes[2] = (uint8_t)shifted(command->angleturn + 128, 8);
    bytes[3] = command->buttons;
}

// G_DoPlayDemo of g_game.c: whether the demo is played, with what stands behind the version
bool released_header(const uint8_t *bytes) {
    enum { VERSION = 110 };

    return bytes[0] == VERSION;
}

// What strncpy makes of a text in eight bytes.
static void copy_name(name8 name, const char *text) {
    size_t end = 0;

    while (end < sizeof(name8) && text[end] != '\0') end++;
    memset(name, 0, sizeof(name8));
    memcpy(name, text, end);
}

// W_CheckNumForName of w_wad.c over names as they stand in directories, from which W_AddFile takes them; -1 where there is none
int released_number(name8 *names, int count, const char *asked) {
    name8 wanted, stored;
    size_t i;

    copy_name(wanted, asked);
    for (i = 0; i < sizeof(name8); i++)
        if ('a' <= wanted[i] && wanted[i] <= 'z') wanted[i] = (char)(wanted[i] - 'a' + 'A');
    while (count-- > 0) {
        copy_name(stored, names[count]);
        if (memcmp(stored, wanted, sizeof(name8)) == 0) return count;
    }
    return -1;
}
