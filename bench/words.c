/* words.c: calls of libwadlook over files in memory, for words.py. Build, after tools/library:
       gcc -O3 -Iout/include -o words bench/words.c out/lib/libwadlook.a
   words run|check CALLS FILE...
   reads the files, and checks them with warnings so many times, each by one call of wadlook_run or of wadlook_check. It tells the
   processor time of each call in seconds, a line each on standard error. Then it writes what wadlook_run answered, or how many
   findings wadlook_check gave. */
#include "wadlook.h"
#include <stdio.h>
#include <stdlib.h>
#include <string.h>
#include <time.h>

#define FILES 64
static wadlook_file files[FILES];
static size_t count, found;
static const wadlook_question question = {.word = WADLOOK_CHECK, .map = true};
static uint8_t answer[1 << 20], messages[1 << 16];
static wadlook_told told;

static void must(bool holds, const char *what) {
    if (holds) return;
    fprintf(stderr, "words: %s\n", what);
    exit(100);
}

static double now(void) {
    struct timespec t;
    clock_gettime(CLOCK_PROCESS_CPUTIME_ID, &t);
    return (double)t.tv_sec + 1e-9 * (double)t.tv_nsec;
}

static void take_file(const char *path) {
    FILE *from = fopen(path, "rb");
    must(from && !fseek(from, 0, SEEK_END), path);
    size_t size = (size_t)ftell(from);
    uint8_t *bytes = malloc(size + 1);
    rewind(from);
    must(bytes && fread(bytes, 1, size, from) == size, path);
    fclose(from);
    must(count < FILES, "too many files");
    files[count++] = (wadlook_file){(const uint8_t *)path, strlen(path), bytes, size};
}

static uint32_t run(void) {
    uint32_t end = wadlook_run(&question, files, count, NULL, 0, answer, sizeof answer, messages, sizeof messages, &told);
    must(told.answer <= sizeof answer && told.messages <= sizeof messages, "too little room for the answer");
    return end;
}

static bool count_found(void *own, const wadlook_found *each) {
    (void)each;
    ++*(size_t *)own;
    return true;
}

static uint32_t check(void) {
    found = 0;
    return wadlook_check(&question, files, count, count_found, &found);
}

int main(int words, char **word) {
    must(words > 3, "run|check CALLS FILE...");
    bool by_run = !strcmp(word[1], "run");
    for (int k = 3; k < words; k++) take_file(word[k]);
    for (int calls = atoi(word[2]); calls > 0; calls--) {
        double before = now();
        uint32_t end = by_run ? run() : check();
        fprintf(stderr, "%.9f\n", now() - before);
        must(end == WADLOOK_CLEAN || end == WADLOOK_FAULTY, wadlook_end_text(end));
    }
    if (by_run) fwrite(answer, 1, told.answer, stdout);
    else printf("%zu\n", found);
    return 0;
}
