/* words COMMAND [OPTION]... FILE...: answers as the program `wadlens` does, by wadlook_run over files that it reads first. What it takes are
 * the words that make no files; it tells of no mistake in words. `found [OPTION]... FILE...` prints the findings that wadlook_check gives,
 * each in the line of `wadlens check`. Its status is 8 where a file can't be opened, and 9 at wrong words. */
#include <ctype.h>
#include <inttypes.h>
#include <stdio.h>
#include <stdlib.h>
#include <string.h>
#include <wadlook.h>

static void stop(const char *why) {
    fprintf(stderr, "words: %s\n", why);
    exit(9);
}

static void *room(size_t size) {
    void *bytes = malloc(size ? size : 1);
    if (!bytes) stop("no memory left");
    return bytes;
}

/* The library looks at no more bytes of a file but their number. */
#define LARGEST 268435456

/* Room for all of a file and a byte, or some where it doesn't tell its length; never for more than shows that it is too much. */
static size_t room_for(FILE *from) {
    long end = fseek(from, 0, SEEK_END) ? 0 : ftell(from);
    rewind(from);
    if (end > LARGEST) return LARGEST + 1;
    return end > 0 ? (size_t)end + 1 : 1 << 16;
}

/* All that a stream has, or enough of it to show that this is too much. */
static uint8_t *read_all(FILE *from, size_t *size) {
    size_t most = room_for(from);
    uint8_t *bytes = (uint8_t *)room(most);
    for (*size = 0; (*size += fread(bytes + *size, 1, most - *size, from)) == most && most <= LARGEST;) {
        most = most < LARGEST / 2 ? 2 * most : LARGEST + 1;
        if (!(bytes = (uint8_t *)realloc(bytes, most))) stop("no memory left");
    }
    return bytes;
}

#define FILES 300
static wadlook_question question;
static wadlook_file files[FILES];
static const char *paths[FILES], *bases[64];
static size_t path_count, base_count;
static bool json, quiet, is_found;

static void take_file(size_t at, const char *path) {
    FILE *from = fopen(path, "rb");
    if (!from) exit(8);
    files[at].path = (const uint8_t *)path;
    files[at].path_len = strlen(path);
    files[at].bytes = read_all(from, &files[at].bytes_len);
    fclose(from);
}

static void take_codes(const char *words, uint64_t *set) {
    uint64_t more;
    if (!wadlook_codes(words, &more)) stop("no such codes");
    *set |= more;
}

/* Whether two words are the same, in capital or small letters. */
static bool is_same(const char *a, const char *b) {
    while (*a && toupper((unsigned char)*a) == toupper((unsigned char)*b)) a++, b++;
    return !*a && !*b;
}

/* What --fail takes: `game` asks for more than the codes that it names. */
static void take_failing(const char *words) {
    for (char word[32]; *words; words += strcspn(words, ","), words += *words == ',') {
        size_t len = strcspn(words, ",");
        if (len >= sizeof word) stop("no such codes");
        memcpy(word, words, len);
        word[len] = 0;
        if (is_same(word, "game")) question.game_ends = true;
        else take_codes(word, &question.failing);
    }
}

static void take_name(const char *name) {
    question.name = (const uint8_t *)name;
    question.name_len = strlen(name);
}

static uint64_t number(const char *text) { return strtoull(text, NULL, 10); }

/* A flag; whether the word is one. */
static bool take_flag(const char *name) {
    if (!strcmp(name, "--json")) json = true;
    else if (!strcmp(name, "--quiet")) quiet = true;
    else if (!strcmp(name, "--wide")) question.wide = true;
    else if (!strcmp(name, "--map")) question.map = true;
    else if (!strcmp(name, "--strict")) question.strict = true;
    else if (!strcmp(name, "--commands")) question.word = WADLOOK_COMPARE_COMMANDS;
    else return false;
    return true;
}

static void take_option(const char *name, const char *value) {
    if (!value) stop("an option lacks its value");
    if (!strcmp(name, "--max")) question.number = number(value);
    else if (!strcmp(name, "--ignore")) take_codes(value, &question.ignored);
    else if (!strcmp(name, "--fail")) take_failing(value);
    else if (!strcmp(name, "--cells")) question.cells = (uint32_t)number(value);
    else if (!strcmp(name, "--entry")) question.number = number(value);
    else if (!strcmp(name, "--level")) {
        take_name(value);
        question.word = WADLOOK_CUT_LEVEL;
    } else if (!strcmp(name, "--base")) {
        bases[base_count++] = value;
    } else if (!strcmp(name, "--frame")) {
        if (sscanf(value, "%" SCNd16 ",%" SCNd16 ",%" SCNd16 ",%" SCNd16, &question.x0, &question.y0, &question.x1, &question.y1) !=
            4)
            stop("no frame");
        question.framed = true;
    } else {
        stop("no such option");
    }
}

static void take_word(const char *word) {
    if (question.word == WADLOOK_PICTURE && !question.name) take_name(word);
    else if (question.word == WADLOOK_EXPLAIN_ALL) {
        uint32_t code = 0;
        for (const char *name; (name = wadlook_code_name(code)) && !is_same(name, word); code++) {}
        question.number = code;
        question.word = WADLOOK_EXPLAIN;
    } else {
        if (path_count == FILES) stop("too many files");
        paths[path_count++] = word;
    }
}

static void take_command(const char *word) {
    static const char *const names[] = {
        "check", "survey", "demos", "", "cut", "", "", "picture", "compare", "assemble", "", "explain", "listing"};
    is_found = !strcmp(word, "found");
    question.number = 20;
    if (is_found) question.number = 0;
    while (!is_found && strcmp(names[question.word], word))
        if (++question.word == sizeof names / sizeof *names) stop("no such command");
}

static void take_words(char **words) {
    if (!*words) stop("no command");
    take_command(*words++);
    for (bool ended = false; *words; words++) {
        char *word = *words, *value = ended ? NULL : strchr(word, '=');
        if (!ended && !strcmp(word, "--")) ended = true;
        else if (ended || word[0] != '-' || !word[1]) take_word(word);
        else if (take_flag(word)) continue;
        else if (value) {
            *value = 0;
            take_option(word, value + 1);
        } else {
            take_option(word, words[1]);
            words++;
        }
    }
    if (json) question.word = question.word == WADLOOK_DEMOS ? WADLOOK_DEMOS_JSON : WADLOOK_CHECK_JSON;
}

/* The line of a finding. Which label a look-up misses isn't told. */
static bool print_found(void *own, const wadlook_found *found) {
    (void)own;
    const char *path = (const char *)files[found->file].path;
    if (found->code == WADLOOK_NO_CODE) {
        if (found->kind == WADLOOK_FILE) printf("wadlens: %s: %s\n", path, found->message);
        else printf("%s: %s: %s\n", path, found->level, found->message);
        return true;
    }
    printf("%s: %s: %s %s", path, found->level, wadlook_code_name(found->code), wadlook_kind_text(found->kind));
    if (found->row >= 0) printf(" (%" PRId64 ", %" PRId64 ")", found->index, found->row);
    else if (found->index >= 0) printf(" %" PRId64, found->index);
    printf(": %s", found->message);
    if (found->where == WADLOOK_AT) printf(", at (%d, %d)", found->x0, found->y0);
    if (found->where == WADLOOK_BETWEEN) printf(", from (%d, %d) to (%d, %d)", found->x0, found->y0, found->x1, found->y1);
    if (found->where == WADLOOK_OF_LINEDEF) printf(", of linedef %d", found->x0);
    putchar('\n');
    return true;
}

int main(int count, char **words) {
    (void)count;
    take_words(words + 1);
    question.bases = base_count;
    size_t file_count = base_count + path_count, input_len = 0;
    if (file_count > FILES) stop("too many files");
    for (size_t k = 0; k < base_count; k++) take_file(k, bases[k]);
    for (size_t k = 0; k < path_count; k++) take_file(base_count + k, paths[k]);
    if (is_found) return (int)wadlook_check(&question, files, file_count, print_found, NULL);
    uint8_t *input = question.word == WADLOOK_ASSEMBLE ? read_all(stdin, &input_len) : NULL, *answer, *messages;
    wadlook_told told = {1 << 20, 1 << 16};
    for (;;) {
        size_t answer_len = told.answer, messages_len = told.messages;
        answer = (uint8_t *)room(answer_len);
        messages = (uint8_t *)room(messages_len);
        uint32_t end =
            wadlook_run(&question, files, file_count, input, input_len, answer, answer_len, messages, messages_len, &told);
        if (told.answer <= answer_len && told.messages <= messages_len) {
            if (!quiet) fwrite(answer, 1, told.answer, stdout);
            fwrite(messages, 1, told.messages, stderr);
            return (int)end;
        }
        free(answer);
        free(messages);
    }
}
