/* wadlook_check: the findings of wadlook_run, which writes them as lines of JSON, one by one to a callback. It isn't in Rattle, whose
 * calls call nobody back. It reads what wadlook_run wrote and no one else: each line is an object without blanks, whose members are
 * strings, numbers, arrays of two numbers, truth values, and one object of such members. */
#include "wadlook.h"
#include <stdlib.h>
#include <string.h>

/* A text that is read from left to right. It ends with a NUL. */
typedef struct {
    char *at;
} reader;

static bool take(reader *in, char wanted) {
    bool is = *in->at == wanted;
    in->at += is;
    return is;
}

static int64_t number(reader *in) {
    bool negative = take(in, '-');
    int64_t value = 0;
    for (; *in->at >= '0' && *in->at <= '9'; in->at++) value = value * 10 + (*in->at - '0');
    return negative ? -value : value;
}

static void pair(reader *in, int64_t *first, int64_t *second) {
    take(in, '[');
    *first = number(in);
    take(in, ',');
    *second = number(in);
    take(in, ']');
}

static int digit(char c) { return c <= '9' ? c - '0' : (c | 32) - 'a' + 10; }

/* The string that begins here, written over itself without its escapes and its quotes. A NUL within it is left out. */
static const char *string(reader *in) {
    take(in, '"');
    char *text = in->at, *end = text;
    while (*in->at && *in->at != '"') {
        char c = *in->at++;
        if (c == '\\' && *in->at == 'u' && in->at[1] && in->at[2] && in->at[3] && in->at[4]) {
            c = (char)(digit(in->at[3]) << 4 | digit(in->at[4])); /* a control character: \u00XX */
            in->at += 5;
            if (!c) continue;
        } else if (c == '\\' && *in->at) {
            c = *in->at++;
        }
        *end++ = c;
    }
    take(in, '"');
    *end = 0;
    return text;
}

static bool is(const char *a, const char *b) { return strcmp(a, b) == 0; }

static uint32_t code_of(const char *name) {
    const char *other;
    for (uint32_t code = 0; (other = wadlook_code_name(code)); code++)
        if (is(name, other)) return code;
    return WADLOOK_NO_CODE;
}

static uint32_t kind_of(const char *name) {
    const char *other;
    for (uint32_t kind = 0; (other = wadlook_kind_text(kind)); kind++)
        if (is(name, other)) return kind;
    return WADLOOK_WHOLE;
}

/* What is behind "place": {"at":[X,Y]}, {"from":[X,Y],"to":[X,Y]} or {"linedef":N}. */
static void place(reader *in, wadlook_found *found) {
    int64_t x, y;
    take(in, '{');
    do {
        const char *name = string(in);
        take(in, ':');
        if (is(name, "linedef")) {
            found->where = WADLOOK_OF_LINEDEF;
            found->x0 = (int32_t)number(in);
            continue;
        }
        pair(in, &x, &y);
        if (is(name, "to")) {
            found->where = WADLOOK_BETWEEN;
            found->x1 = (int32_t)x;
            found->y1 = (int32_t)y;
        } else {
            found->where = WADLOOK_AT;
            found->x0 = (int32_t)x;
            found->y0 = (int32_t)y;
        }
    } while (take(in, ','));
    take(in, '}');
}

/* Passes over a value that isn't looked at. */
static void pass(reader *in) {
    if (*in->at == '"') {
        string(in);
        return;
    }
    for (int depth = 0; *in->at; in->at++) {
        if (*in->at == '"') {
            string(in);
            in->at--;
        } else if (*in->at == '{' || *in->at == '[') {
            depth++;
        } else if (*in->at == '}' || *in->at == ']') {
            if (depth-- == 0) return;
        } else if (*in->at == ',' && depth == 0) {
            return;
        }
    }
}

/* Room for the words of a level that isn't judged, or has its lumps in another order. */
#define WORDS 112

/* Writes a text to a place of the words, and gives the place behind it. */
static char *join(const char *words, char *at, const char *text) {
    while (*text && at < words + WORDS - 1) *at++ = *text++;
    *at = 0;
    return at;
}

/* The words of `wadlens` for a level that isn't judged, by its format, the lump or the tag that decides it, and why it isn't read. */
static void unjudged(char *words, const char *format, const char *decides, const char *why) {
    const char *const told[][4] = {
        {"incomplete", "incomplete: no ", " where it belongs", ""},
        {"outside", "outside: ", "", ""},
        {"extended", "extended nodes ", ": ", why},
    };
    const char *before = format, *behind = ": ", *end = why;
    for (size_t k = 0; k < sizeof told / sizeof *told; k++)
        if (is(format, told[k][0])) before = told[k][1], behind = told[k][2], end = told[k][3];
    join(words, join(words, join(words, join(words, words, before), decides), behind), end);
}

/* The words of `wadlens` for a level with its lumps in another order, by what is behind "order": the names of two, the second of which
 * belongs before the first. */
static void unordered(char *words, reader *in) {
    take(in, '[');
    char *end = join(words, join(words, words, "lumps in another order: "), string(in));
    take(in, ',');
    join(words, join(words, end, " before "), string(in));
    take(in, ']');
}

/* What one line tells. */
typedef struct {
    wadlook_found found;
    const char *format, *decides, *why; /* of a level that isn't judged */
    bool says;                          /* whether it says what is wrong */
    char words[WORDS];
} told_line;

static void say(told_line *told, const char *message) {
    told->found.message = message;
    told->says = true;
}

/* Takes what the value of a member tells. */
static void member(reader *in, const char *name, told_line *told) {
    wadlook_found *found = &told->found;
    if (is(name, "level") && *in->at == '"') found->level = string(in);
    else if (is(name, "entry")) found->entry = (size_t)number(in);
    else if (is(name, "code")) found->code = code_of(string(in));
    else if (is(name, "kind")) found->kind = kind_of(string(in));
    else if (is(name, "index") && *in->at == '[') pair(in, &found->index, &found->row);
    else if (is(name, "index")) found->index = number(in);
    else if (is(name, "place")) place(in, found);
    else if (is(name, "format")) told->format = string(in);
    else if (is(name, "lump") || is(name, "tag")) told->decides = string(in);
    else if (is(name, "broken")) told->why = string(in);
    else if (is(name, "message")) say(told, string(in));
    else if (is(name, "refused")) {
        found->kind = WADLOOK_FILE;
        say(told, string(in));
    } else if (is(name, "order")) {
        unordered(told->words, in);
        say(told, told->words);
    } else {
        pass(in);
    }
}

/* Reads a line on a file. */
static void read_line(char *line, size_t file, told_line *told) {
    reader in = {line};
    *told = (told_line){.decides = "",
        .why = "not read",
        .found = {.file = file,
            .level = "",
            .message = "",
            .index = -1,
            .row = -1,
            .code = WADLOOK_NO_CODE,
            .kind = WADLOOK_WHOLE,
            .where = WADLOOK_NO_PLACE}};
    take(&in, '{');
    do {
        const char *name = string(&in);
        take(&in, ':');
        member(&in, name, told);
    } while (take(&in, ','));
    if (!told->format) return;
    unjudged(told->words, told->format, told->decides, told->why);
    say(told, told->words);
}

/* Gives what the lines tell. Whether the callback wants more. */
static bool give(char *lines, size_t file, wadlook_on_found on_found, void *own) {
    told_line told;
    for (char *end; (end = strchr(lines, '\n')); lines = end + 1) {
        *end = 0;
        read_line(lines, file, &told);
        if (told.says && !on_found(own, &told.found)) return false;
    }
    return true;
}

/* The memory for an answer, with room for a NUL behind it, and for the list of files: the base files, and one more. */
typedef struct {
    uint8_t *answer;
    size_t room;
    wadlook_file *files;
} memory;

/* The answer on the file behind the base files, with a NUL behind it: once more where there was no room for it. */
static uint32_t ask(memory *own, const wadlook_question *question) {
    wadlook_told told;
    for (;;) {
        uint32_t end = wadlook_run(question, own->files, question->bases + 1, NULL, 0, own->answer, own->room - 1, NULL, 0, &told);
        if (told.answer < own->room) {
            own->answer[told.answer] = 0;
            return end;
        }
        uint8_t *more = (uint8_t *)realloc(own->answer, told.answer + 1);
        if (!more) return WADLOOK_NO_MEMORY;
        own->answer = more;
        own->room = told.answer + 1;
    }
}

/* Whether a base file is refused: it has more bytes than a run reads, or no directory. */
static bool is_refused(const wadlook_file *file) {
    size_t count;
    return file->bytes_len > 268435456 || wadlook_levels(file->bytes, file->bytes_len, NULL, 0, &count) != WADLOOK_DONE;
}

/* Gives the first base file that is refused: asked of it alone, the answer says why. */
static uint32_t give_base(
    memory *own, const wadlook_question *question, const wadlook_file *files, wadlook_on_found on_found, void *of_caller) {
    wadlook_question alone = *question;
    alone.bases = 0;
    for (size_t file = 0; file < question->bases; file++) {
        if (!is_refused(&files[file])) continue;
        own->files[0] = files[file];
        uint32_t end = ask(own, &alone);
        if (end > WADLOOK_REFUSED) return end;
        return give((char *)own->answer, file, on_found, of_caller) ? WADLOOK_REFUSED : WADLOOK_STOPPED;
    }
    return WADLOOK_REFUSED;
}

static uint32_t check_all(memory *own, const wadlook_question *question, const wadlook_file *files, size_t files_len,
    wadlook_on_found on_found, void *of_caller) {
    uint32_t gravest = WADLOOK_CLEAN;
    for (size_t file = question->bases; file < files_len; file++) {
        own->files[question->bases] = files[file];
        uint32_t end = ask(own, question);
        if (end > WADLOOK_REFUSED) return end;
        /* Without an answer no file was judged. */
        if (!*own->answer) return give_base(own, question, files, on_found, of_caller);
        if (!give((char *)own->answer, file, on_found, of_caller)) return WADLOOK_STOPPED;
        if (end == WADLOOK_FAULTY || gravest == WADLOOK_CLEAN) gravest = end;
    }
    return gravest;
}

uint32_t wadlook_check(
    const wadlook_question *question, const wadlook_file *files, size_t files_len, wadlook_on_found on_found, void *own) {
    wadlook_question asked = *question;
    asked.word = WADLOOK_CHECK_JSON;
    asked.limit = 0;
    if (asked.bases >= files_len || asked.bases > 63) return WADLOOK_MISTAKEN;
    memory room = {.room = 1 << 20};
    room.answer = (uint8_t *)malloc(room.room);
    room.files = (wadlook_file *)malloc((asked.bases + 1) * sizeof *room.files);
    uint32_t end = WADLOOK_NO_MEMORY;
    if (room.answer && room.files) {
        memcpy(room.files, files, asked.bases * sizeof *room.files);
        end = check_all(&room, &asked, files, files_len, on_found, own);
    }
    free(room.answer);
    free(room.files);
    return end;
}
