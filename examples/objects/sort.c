/* SPDX-License-Identifier: MIT OR Apache-2.0 */
/* Sorting by insertion. */
#include "program.h"

word swaps = 0;
COMMON word used;

static void swap(const void **a, const void **b) {
    const void *other = *a;
    *a = *b;
    *b = other;
    swaps++;
}

__attribute__((aligned(16))) void sort(const void **items, word count, order *before) {
    for (word i = 1; i < count; i++)
        for (word j = i; j && before(items[j], items[j - 1]) > 0; j--)
            swap(items + j, items + j - 1);
}

__attribute__((weak)) const char *greeting(void) { return "a weak definition\n"; }
