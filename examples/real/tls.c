/* SPDX-License-Identifier: MIT OR Apache-2.0 */
/* Thread-local variables of this object and of another one, initialised and not, in several
 * threads: their values and addresses, with constant and variable offsets, several of one module at
 * once, and across calls. */
#include <errno.h>
#include <pthread.h>
#include <stdint.h>
#include <stdio.h>
#include <stdlib.h>
#include <string.h>

#include "tls.h"

#define THREADS 5

static long (*volatile escapes)(void *);
static APART long low_bits(void *at) { return (long)((uintptr_t)at & 7); }

/* The static variables of a group, and functions that use these and the shared ones. */
#define USE(name, model)                                                                  \
    static MODEL(model) __thread int name##_set = 7;                                      \
    static MODEL(model) __thread long name##_unset;                                       \
    static MODEL(model) __thread char name##_room[ROOM];                                  \
    static MODEL(model) __thread short name##_array[30];                                  \
    static MODEL(model) __thread struct pair name##_inner = {3, 4};                       \
    static MODEL(model) __thread unsigned char name##_bytes[16];                          \
    static MODEL(model) __thread double name##_double = 0.5;                              \
    static MODEL(model) __thread float name##_float;                                      \
    static MODEL(model) __thread char name##_aligned[32] __attribute__((aligned(32)));    \
    static APART long name##_values(long n) {                                             \
        name##_set += (int)n;                                                             \
        name##_unset -= n;                                                                \
        name##_array[3] = (short)(name##_array[2] + n);                                   \
        name##_array[n & 15]++;                                                           \
        name##_bytes[5] = (unsigned char)(name##_bytes[4] - n);                           \
        name##_double *= 1.5;                                                             \
        name##_float += 0.25f;                                                            \
        return name##_set + name##_unset + name##_array[3] + name##_bytes[5] +            \
               (long)(name##_double * 8) + (long)(name##_float * 4);                      \
    }                                                                                     \
    static APART short *name##_element(long i) { return &name##_array[i + 2]; }           \
    static APART long *name##_second(void) { return &name##_inner.second; }               \
    static APART void *name##_shared_at(int which) {                                      \
        if (which == 0) return &name##_shared;                                            \
        return which == 1 ? (void *)&name##_shorts[7] : (void *)&name##_pair.second;      \
    }                                                                                     \
    static APART long name##_calls(long n) {                                              \
        long sum = 0;                                                                     \
        for (long i = 0; i < n; i++) {                                                    \
            sum += name##_change(i) + name##_inner.first;                                 \
            name##_inner.second += name##_shared + name##_shorts[i & 7];                  \
            name##_pair.first -= name##_set;                                              \
            if (escapes) sum += escapes(&name##_inner) + escapes(&name##_pair);           \
            name##_room[ROOM - 1]++;                                                      \
        }                                                                                 \
        return sum + name##_pair.first + name##_byte + name##_room[ROOM - 1];             \
    }                                                                                     \
    static APART int name##_zero(void) {                                                  \
        memset(name##_bytes, 1, sizeof name##_bytes);                                     \
        memcpy(name##_aligned, name##_bytes, 16);                                         \
        return (int)((uintptr_t)name##_aligned & 31) + name##_aligned[9];                 \
    }                                                                                     \
    static APART int name##_print(char *to, size_t room, long n) {                        \
        long values = name##_values(n), calls = name##_calls(n + 2);                      \
        *name##_element(n & 7) -= 3;                                                      \
        *name##_second() += *name##_element(1);                                           \
        *(long *)name##_shared_at(0) += *(short *)name##_shared_at(1);                    \
        return snprintf(to, room, #name " %ld %ld %ld %ld %ld %d %d\n", values, calls,    \
                        name##_inner.second, name##_shared, *(long *)name##_shared_at(2), \
                        name##_zero(), name##_array[2 + (n & 7)]);                        \
    }

USE(le, "local-exec")
USE(ie, "initial-exec")
USE(ld, "local-dynamic")
USE(gd, "global-dynamic")

/* Variables of all groups in one function. */
static APART long all(long n) {
    le_unset += n;
    ie_unset += le_unset + ld_set;
    ld_unset += ie_unset + gd_inner.second;
    gd_unset += ld_unset + any_shared;
    long called = any_change(n) + gd_change(1) + ld_change(2) + ie_change(3) + le_change(4);
    le_array[9] += (short)gd_unset;
    ie_array[8] += ld_array[7] + le_array[9];
    any_shorts[n & 15]++;
    return called + gd_inner.first + ld_inner.second + ie_inner.first + le_inner.second +
           ie_array[8] + any_pair.second + any_shorts[3] + le_shared + ie_shared + ld_shared +
           gd_shared;
}

struct part {
    long number;
    char text[1000];
};

static void *run(void *argument) {
    struct part *part = argument;
    char *to = part->text, *end = to + sizeof part->text;
    for (long i = 0; i < 2; i++) {
        to += le_print(to, (size_t)(end - to), part->number + i);
        to += ie_print(to, (size_t)(end - to), part->number + i);
        to += ld_print(to, (size_t)(end - to), part->number + i);
        to += gd_print(to, (size_t)(end - to), part->number + i);
        between_shared[ROOM / 2] += (char)(1 + i);
        to += snprintf(to, (size_t)(end - to), "all %ld %d\n", all(part->number + i),
                       between_shared[ROOM / 2]);
    }
    errno = 0;
    long big = strtol("99999999999999999999999", NULL, 10); /* sets this thread's errno */
    int error = errno;
    errno = (int)part->number;
    snprintf(to, (size_t)(end - to), "%d %d %d\n", big > 0, error == ERANGE, errno);
    return NULL;
}

int main(int argc, char **argv) {
    static struct part parts[THREADS];
    pthread_t threads[THREADS];
    (void)argv;
    escapes = argc ? low_bits : NULL;
    for (long i = 0; i < THREADS; i++) {
        parts[i].number = i;
        if (i && pthread_create(&threads[i], NULL, run, &parts[i])) return 1;
    }
    run(&parts[0]);
    for (int i = 1; i < THREADS; i++) pthread_join(threads[i], NULL);
    for (int i = 0; i < THREADS; i++) printf("%s", parts[i].text);
    return 0;
}
