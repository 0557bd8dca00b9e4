/* SPDX-License-Identifier: MIT OR Apache-2.0 */
/* The thread-local variables that tls.c uses of another object. */
#include "tls.h"

#define DEFINE(name, start)                                                  \
    __thread long name##_shared = start;                                     \
    __thread short name##_shorts[20] = {start, 2, 3, 4, 5, 6, 7, 8, 9, -10}; \
    __thread struct pair name##_pair = {start + 1, start + 2};               \
    __thread unsigned char name##_byte = start + 3;                          \
    long name##_change(long number) {                                        \
        name##_shared += number;                                             \
        name##_shorts[number & 15] ^= 5;                                     \
        return name##_pair.second++ + name##_byte;                           \
    }

DEFINE(le, 10)
DEFINE(ie, 20)
__thread char between_shared[ROOM];
DEFINE(ld, 30)
DEFINE(gd, 40)
DEFINE(any, 50)
