/* Laid before the C library (LD_PRELOAD): fails the write to standard output whose number FAILING has, from 1. All others go. */
#define _GNU_SOURCE
#include <errno.h>
#include <stdlib.h>
#include <sys/syscall.h>
#include <unistd.h>

static unsigned long writes, failing;

__attribute__((constructor)) static void begin(void) {
    const char *number = getenv("FAILING");
    failing = number ? strtoul(number, NULL, 10) : 0;
    writes = 0;
}

ssize_t write(int file, const void *bytes, size_t size) {
    if (file == STDOUT_FILENO && ++writes == failing) {
        errno = EIO;
        return -1;
    }
    return syscall(SYS_write, file, bytes, size);
}
