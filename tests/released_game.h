// Routines of linuxdoom 1.10, in C: `released_game.c` has them, and `released.c` asks them.
#ifndef RELEASED_GAME_H
#define RELEASED_GAME_H

#include <stdbool.h>
#include <stdint.h>

// ---- Numbers of 32 bits ---------------------------------------------------------------------------------------------

int32_t signed_word(uint32_t word);
int16_t signed_half(uint32_t half);
int8_t signed_byte(uint8_t byte);
int32_t wrapping_sub(int32_t a, int32_t b);
int32_t wrapping_mul(int32_t a, int32_t b);

// The floor of a / 2^bits.
int64_t shifted(int64_t a, int bits);

// ---- Levels ---------------------------------------------------------------------------------------------------------

struct node {
    int32_t x, y, dx, dy;
};

// Of most records there are so many, of ssectors at most.
enum { DOZEN = 12 };

enum { OF_SSECTOR = 0x8000, NO_SIDE = -1, TWO_SIDED = 4 };

struct linedef {
    int v1, v2, flags, sidenum[2];
};

struct seg {
    int v1, v2, linedef, side;
};

struct ssector {
    int count, first;
};

struct branch {
    struct node node;
    unsigned child[2];
};

// A level as it is loaded, so with 16 bits behind the point in its nodes. Of each sidedef there is its sector.
struct level {
    int sidedefs[DOZEN];
    struct linedef linedefs[DOZEN];
    struct seg segs[DOZEN];
    int ssector_count;
    struct ssector ssectors[DOZEN];
    int node_count;
    struct branch nodes[DOZEN - 1];
};

// ---- The routines ---------------------------------------------------------------------------------------------------

int32_t fixed(int32_t units);
char back_if(bool back);
char released_side(int32_t x, int32_t y, const struct node *node);
unsigned released_leaf(const struct level *level, int32_t x, int32_t y);
int released_sector(const struct level *level, const struct ssector *ssector);
int released_back(const struct level *level, const struct seg *seg);

// Whether an index is one of so many.
bool is_inside(int index, int count);

// Whether each index is inside that is followed, but for those behind segs.
bool stays_inside(const struct level *level);

bool released_sight_bit(const uint8_t *bytes, int32_t sectors, int32_t s1, int32_t s2);
int32_t released_block(int32_t origin, int32_t z);
int released_list(const int16_t *words, int32_t x, int32_t y, const int16_t **list);

struct ticcmd {
    int8_t forwardmove, sidemove;
    int16_t angleturn;
    uint8_t buttons;
};

bool released_ticcmd(const uint8_t *bytes, struct ticcmd *command);
void released_written(const struct ticcmd *command, uint8_t *bytes);
bool released_header(const uint8_t *bytes);

typedef char name8[8];

int released_number(name8 *names, int count, const char *asked);

#endif
