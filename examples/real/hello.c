/* SPDX-License-Identifier: MIT OR Apache-2.0 */
/* Prints by printf: numbers, text and floating point. */
#include <math.h>
#include <stdio.h>
#include <stdlib.h>
#include <string.h>

static int by_length(const void *left, const void *right) {
    size_t a = strlen(*(char *const *)left), b = strlen(*(char *const *)right);
    return a < b ? -1 : a > b;
}

int main(int argc, char **argv) {
    char *words[] = {"relocation", "link", "section", "symbols"}, text[64];
    (void)argv;
    qsort(words, 4, sizeof *words, by_length);
    for (int i = 0; i < 4; i++) printf("%d %-10s %zu\n", i, words[i], strlen(words[i]));
    long long number = strtoll("-9000000000", NULL, 0);
    snprintf(text, sizeof text, "%.6f %a %lld", sqrt(1.0 + argc), 0.1, number);
    puts(text);
    char *copy = malloc(100000);
    memset(copy, 'x', 99999);
    copy[99999] = 0;
    printf("%zu %d\n", strlen(copy), memcmp(copy, copy + 1, 1000));
    free(copy);
    return 0;
}
