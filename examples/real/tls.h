/* SPDX-License-Identifier: MIT OR Apache-2.0 */
/* Thread-local variables that two objects share. With -DMODELS each group has a model of its own,
 * and else the compiler's flags say which. */
#ifdef MODELS
#define MODEL(name) __attribute__((tls_model(name)))
#else
#define MODEL(name)
#endif
#ifndef ROOM
#define ROOM 1 /* so many more bytes between the variables */
#endif
#define HIDDEN __attribute__((visibility("hidden")))
#define APART __attribute__((noinline))

struct pair {
    int first;
    long second;
};

#define GROUP(name, model)                                         \
    extern MODEL(model) __thread long name##_shared;               \
    extern MODEL(model) __thread short name##_shorts[20];          \
    extern HIDDEN MODEL(model) __thread struct pair name##_pair;   \
    extern HIDDEN MODEL(model) __thread unsigned char name##_byte; \
    long name##_change(long);

GROUP(le, "local-exec")
GROUP(ie, "initial-exec")
GROUP(ld, "local-dynamic")
GROUP(gd, "global-dynamic")
GROUP(any, "global-dynamic")

extern __thread char between_shared[ROOM];
