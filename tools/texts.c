/* The texts of libwadlook's numbers. They aren't in Rattle, whose calls hand out no text. */
#include "wadlook.h"
#include <string.h>

/* A code: its name, what it says in few words, and whether the released game ends at it. */
struct code {
    const char *name, *text;
    bool ends_game;
};

/* tools/tables writes from here */
static const struct code codes[] = {
    {"F1", "lump missing after the label", false},
    {"F2", "lump outside its file", false},
    {"F3", "linedef vertex names none", false},
    {"F4", "linedef side names none", false},
    {"F5", "sidedef sector names none", false},
    {"F6", "seg vertex names none", false},
    {"F7", "seg linedef names none", false},
    {"F8", "seg side is not 0 or 1", false},
    {"F9", "seg's linedef has no side there", false},
    {"F10", "ssector's segs out of range", false},
    {"F11", "child names nothing", false},
    {"F12", "node origin out of range", false},
    {"F13", "node named twice or root named", false},
    {"F14", "node not reached", false},
    {"F15", "ssector named more than once", false},
    {"F16", "ssector not reached", false},
    {"F17", "no ssector", false},
    {"F18", "more than 32767 nodes", false},
    {"N1", "lump name differs", false},
    {"N2", "bytes left over", false},
    {"N3", "two-sided flag without side 1", false},
    {"N4", "no side 0", true},
    {"N5", "linedef of no length", false},
    {"N6", "ssector without segs", false},
    {"N7", "partition without direction", false},
    {"N8", "REJECT size", false},
    {"N9", "BLOCKMAP short", false},
    {"N10", "block list faulty", false},
    {"N11", "no player 1 start", true},
    {"N12", "vertex out of range", false},
    {"W1", "sector not closed", false},
    {"W2", "wall without texture", false},
    {"W3", "thing in the void", false},
    {"W4", "tag of no sector", false},
    {"W5", "segs face several sectors", false},
    {"W6", "linedef on another", false},
    {"W7", "no start of players 2 to 4", false},
    {"W8", "fewer than 4 deathmatch starts", false},
    {"W9", "texture not there", true},
    {"W10", "flat not there", true},
    {"W11", "thing of no known type", true},
    {"W12", "reserved", false},
    {"W13", "reserved", false},
    {"W14", "unknown special", false},
    {"W15", "special with tag 0", false},
    {"W16", "special that acts on nothing", false},
    {"W17", "use ends or spoils the game", true},
    {"W18", "floor that ends the game", true},
    {"W19", "no exit, or a key missing", false},
    {"W20", "reserved", false},
    {"W21", "thing unread, unplaced or deadly", false},
    {"W22", "limit of the game passed", true},
    {"W23", "reserved", false},
    {"W24", "reserved", false},
    {"W25", "flat not between its ends", false},
};
/* tools/tables writes up to here */

/* By the numbers of wadlook_status. */
static const char *const statuses[] = {
    "done",
    "the level has faults",
    "no memory left",
    "the array for the answer is too short",
    "shorter than a WAD header",
    "not a WAD file: it begins with neither IWAD nor PWAD",
    "a negative count of lumps",
    "its directory isn't inside the file",
    "no entry of this name",
    "the list of entries ends before the lump",
    "the lump is outside its file",
    "the lumps make too large a file",
    "a demo of no bytes",
    "not a demo of version 109, 110 or 111",
    "shorter than a demo's header",
    "no player takes part in the demo",
    "the demo has no end marker",
    "no rectangle of at most 1,048,576 points in range",
    "a coordinate isn't in -16384 to 16383",
    "BLOCKMAP has fewer than 8 bytes",
    "no block holds the point",
    "the block's list isn't inside BLOCKMAP",
    "the block's list has no end",
    "the level has no sector of this number",
    "REJECT ends before the bit",
    NULL,
    NULL,
    NULL,
    "no level starts at this entry",
    "the level isn't in Doom's format",
    "no frame, or not 1 to 1024 cells",
    "nothing to draw",
};

/* By the numbers of wadlook_end. */
static const char *const ends[] = {
    "nothing is wrong",
    "a fault or a difference",
    "a file is refused, or a level isn't judged",
    "no memory left",
    "stopped at the limit or by the callback",
    "the question has no meaning, or isn't asked of so many files",
};

/* By the numbers of wadlook_kind. */
static const char *const kinds[] = {
    "linedef",
    "sidedef",
    "vertex",
    "seg",
    "ssector",
    "node",
    "sector",
    "thing",
    "lump",
    "block",
    "level",
    "file",
};

/* By the numbers of wadlook_format. */
static const char *const formats[] = {"doom", "hexen", "udmf", "extended", "incomplete", "outside"};

#define COUNT(array) (sizeof(array) / sizeof *(array))

const char *wadlook_status_text(uint32_t status) { return status < COUNT(statuses) ? statuses[status] : NULL; }
const char *wadlook_end_text(uint32_t end) { return end < COUNT(ends) ? ends[end] : NULL; }
const char *wadlook_code_name(uint32_t code) { return code < COUNT(codes) ? codes[code].name : NULL; }
const char *wadlook_code_text(uint32_t code) { return code < COUNT(codes) ? codes[code].text : NULL; }
const char *wadlook_kind_text(uint32_t kind) { return kind < COUNT(kinds) ? kinds[kind] : NULL; }
const char *wadlook_format_text(uint32_t format) { return format < COUNT(formats) ? formats[format] : NULL; }

/* ---- Words for codes ---------------------------------------------------------------------------------------------- */

static char small(char c) { return c >= 'A' && c <= 'Z' ? (char)(c + 32) : c; }

/* Whether a word of so many bytes is a name, in capital or small letters. */
static bool is_named(const char *word, size_t len, const char *name) {
    for (size_t k = 0; k < len; k++)
        if (!name[k] || small(word[k]) != small(name[k])) return false;
    return !name[len];
}

/* The codes of a group, 0 where the word names none. */
static uint64_t group(const char *word, size_t len) {
    bool notes = is_named(word, len, "notes"), warnings = is_named(word, len, "warnings"), game = is_named(word, len, "game");
    uint64_t bits = 0;
    for (uint32_t code = 0; code < COUNT(codes); code++)
        if ((notes && *codes[code].name == 'N') || (warnings && *codes[code].name == 'W') || (game && codes[code].ends_game))
            bits |= WADLOOK_BIT(code);
    return bits;
}

/* The note or the warning that a word is, and else COUNT(codes). */
static uint32_t written(const char *word, size_t len) {
    for (uint32_t code = 0; code < COUNT(codes); code++)
        if (*codes[code].name != 'F' && is_named(word, len, codes[code].name)) return code;
    return COUNT(codes);
}

/* The codes of a word, 0 where it names none: a group, a code, or a range of one letter that rises. */
static uint64_t bits_of(const char *word, size_t len) {
    uint64_t bits = group(word, len);
    if (bits) return bits;
    const char *hyphen = (const char *)memchr(word, '-', len);
    size_t front = hyphen ? (size_t)(hyphen - word) : len;
    uint32_t first = written(word, front), last = hyphen ? written(hyphen + 1, len - front - 1) : first;
    if (first == COUNT(codes) || last == COUNT(codes) || first > last || *codes[first].name != *codes[last].name) return 0;
    for (uint32_t code = first; code <= last; code++) bits |= WADLOOK_BIT(code);
    return bits;
}

bool wadlook_codes(const char *words, uint64_t *set) {
    uint64_t bits = 0;
    while (*words) {
        size_t len = strcspn(words, ",");
        uint64_t more = bits_of(words, len);
        if (!more || (words[len] && !words[len + 1])) return false;
        bits |= more;
        words += len + (words[len] == ',');
    }
    *set = bits;
    return true;
}
