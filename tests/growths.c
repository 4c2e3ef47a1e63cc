/* Laid before the C library (LD_PRELOAD): refuses the growth of memory whose number REFUSED has, from 1. TOLD names a file that
 * is made when it does. */
#include <fcntl.h>
#include <stdlib.h>
#include <unistd.h>

void *__libc_malloc(size_t size);
void *__libc_realloc(void *old, size_t size);

static unsigned long growths, refused;
static const char *told;

__attribute__((constructor)) static void begin(void) {
    const char *number = getenv("REFUSED");
    told = getenv("TOLD");
    refused = number ? strtoul(number, NULL, 10) : 0;
    growths = 0;
}

/* Whether this growth is granted. */
static int is_granted(void) {
    if (++growths != refused) return 1;
    int file = told ? open(told, O_CREAT | O_WRONLY, 0600) : -1;
    if (file >= 0) close(file);
    return 0;
}

void *malloc(size_t size) { return is_granted() ? __libc_malloc(size) : NULL; }

void *realloc(void *old, size_t size) { return is_granted() ? __libc_realloc(old, size) : NULL; }
