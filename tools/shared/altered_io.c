/* SPDX-License-Identifier: MIT OR Apache-2.0 */
/* Preloaded, alters the reads of the standard input and the writes to the standard output, as these
   variables say where they are set. At the end it writes a line to the standard error: how many reads
   there were, the fewest bytes that one of them had room for, and how many writes failed.
   PIECE   the most bytes that a read gives
   READS   so many reads succeed, and each further one fails with the error READ_ERROR
   BLANKS  so many reads give one LF each, and the next one the end
   WRITES  so many writes succeed, and each further one fails */
#define _GNU_SOURCE
#include <dlfcn.h>
#include <errno.h>
#include <limits.h>
#include <stdint.h>
#include <stdio.h>
#include <stdlib.h>
#include <sys/uio.h>
#include <unistd.h>

static long reads, writes, failed_writes;
static size_t least_room = SIZE_MAX;

/* The number of a variable, or another where it isn't set. */
static long number(const char *name, long other) {
    const char *text = getenv(name);
    return text ? atol(text) : other;
}

static int fail(long error) {
    errno = (int)error;
    return -1;
}

ssize_t read(int file, void *into, size_t room) {
    static ssize_t (*next)(int, void *, size_t);
    if (!next)
        *(void **)&next = dlsym(RTLD_NEXT, "read");
    if (file != STDIN_FILENO)
        return next(file, into, room);
    reads++;
    least_room = room < least_room ? room : least_room;
    if (reads > number("READS", LONG_MAX))
        return fail(number("READ_ERROR", EIO));
    if (getenv("BLANKS")) {
        if (reads > number("BLANKS", 0) || room == 0)
            return 0;
        *(char *)into = '\n';
        return 1;
    }
    size_t piece = (size_t)number("PIECE", SSIZE_MAX);
    return next(file, into, room < piece ? room : piece);
}

static int fails(int file) {
    if (file != STDOUT_FILENO || writes++ < number("WRITES", LONG_MAX))
        return 0;
    failed_writes++;
    return 1;
}

ssize_t write(int file, const void *from, size_t count) {
    static ssize_t (*next)(int, const void *, size_t);
    if (!next)
        *(void **)&next = dlsym(RTLD_NEXT, "write");
    return fails(file) ? fail(EIO) : next(file, from, count);
}

ssize_t writev(int file, const struct iovec *parts, int count) {
    static ssize_t (*next)(int, const struct iovec *, int);
    if (!next)
        *(void **)&next = dlsym(RTLD_NEXT, "writev");
    return fails(file) ? fail(EIO) : next(file, parts, count);
}

__attribute__((destructor)) static void report(void) {
    dprintf(STDERR_FILENO, "%ld %zu %ld\n", reads, least_room, failed_writes);
}
