/* SPDX-License-Identifier: MIT OR Apache-2.0 */
/* A program for RV32 over picolibc, with thread-local variables, a constructor, floating point and
 * numbers of 64 bits. */
#include <errno.h>
#include <math.h>
#include <stdint.h>
#include <stdio.h>
#include <stdlib.h>
#include <string.h>

static _Thread_local int counted = 40;
_Thread_local int more;
static int numbers[] = {5, 3, 8, 1, 9, 2};
int *const third = &numbers[2];
int absent(void) __attribute__((weak));

enum { COUNT = sizeof numbers / sizeof *numbers };

static int by_value(const void *left, const void *right) {
    return *(const int *)left - *(const int *)right;
}

__attribute__((constructor)) static void count(void) { counted += 2; }

static const char *name_of(int number) {
    switch (number) {
    case 1: return "one";
    case 2: return "two";
    case 3: return "three";
    case 5: return "five";
    case 8: return "eight";
    default: return "another";
    }
}

int main(void) {
    qsort(numbers, COUNT, sizeof *numbers, by_value);
    more = errno = ERANGE;
    for (int i = 0; i < COUNT; i++) printf("%s ", name_of(numbers[i]));
    printf("\n%d %d %d %s\n", *third, counted, more == errno, absent ? "there" : "absent");
    char *text = malloc(32);
    snprintf(text, 32, "%.3f", sqrt(2.0));
    printf("%s %zu %lld\n", text, strlen(text), (long long)UINT64_C(0x123456789abcdef) / numbers[1]);
    free(text);
    return 0;
}
