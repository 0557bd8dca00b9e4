/* SPDX-License-Identifier: MIT OR Apache-2.0 */
/* What the files of the program declare for each other. */
#ifndef PROGRAM_H
#define PROGRAM_H

typedef unsigned long word;

struct shape {
    const char *name;
    word (*area)(const struct shape *);
    word width, height;
};

/* start.c */
void put(const char *bytes, word len);
/* text.c */
word length(const char *text);
void say(const char *text);
void say_number(word number);
extern word said;
/* sort.c */
typedef int order(const void *, const void *);
void sort(const void **items, word count, order *before);
extern word swaps;
/* shapes.c */
extern const struct shape shapes[];
extern const word shapes_count;
extern order *const orders[2];
const char *kind_of(word corners);
const char *greeting(void);
/* in no file */
extern void absent(void) __attribute__((weak));

/* Uninitialised, in several files: a common symbol where the compiler makes these. */
#define COMMON __attribute__((common))

#endif
