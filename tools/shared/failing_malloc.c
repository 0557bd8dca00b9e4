/* SPDX-License-Identifier: MIT OR Apache-2.0 */
/* Preloaded, makes the allocation of the number FAIL_AT fail, counted from 1, and writes a byte to
   the standard error when it does. */
#define _GNU_SOURCE
#include <dlfcn.h>
#include <errno.h>
#include <stddef.h>
#include <stdlib.h>
#include <unistd.h>

static int fails(void) {
    static long left = -1;
    if (left < 0) {
        const char *at = getenv("FAIL_AT");
        left = at ? atol(at) : 0;
    }
    if (left == 0 || --left > 0)
        return 0;
    errno = ENOMEM;
    return write(STDERR_FILENO, "!", 1) == 1;
}

void *malloc(size_t size) {
    static void *(*next)(size_t);
    if (!next)
        *(void **)&next = dlsym(RTLD_NEXT, "malloc");
    return fails() ? NULL : next(size);
}

void *realloc(void *block, size_t size) {
    static void *(*next)(void *, size_t);
    if (!next)
        *(void **)&next = dlsym(RTLD_NEXT, "realloc");
    return fails() ? NULL : next(block, size);
}
