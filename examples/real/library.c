/* SPDX-License-Identifier: MIT OR Apache-2.0 */
/* Functions of the C library that use thread-local variables: `errno` and the locale's tables. */
#include <ctype.h>
#include <errno.h>
#include <locale.h>
#include <stdio.h>
#include <stdlib.h>
#include <string.h>
#include <strings.h>
#include <time.h>
#include <wchar.h>

static int by_name(const void *a, const void *b) {
    return strcasecmp(*(const char *const *)a, *(const char *const *)b);
}

int main(void) {
    const char *words[] = {"TOC", "got", "Plt", "gOt2", "pLT0", "a"};
    qsort(words, 6, sizeof *words, by_name);
    for (int i = 0; i < 6; i++) printf("%s ", words[i]);
    char line[] = "one,two;three", *rest = NULL;
    for (char *word = strtok_r(line, ",;", &rest); word; word = strtok_r(NULL, ",;", &rest))
        printf("%s ", word);
    printf("%s %d %d\n", setlocale(LC_ALL, "C"), strncasecmp("ABCx", "abcy", 3), toupper('q'));
    errno = 0;
    long number = strtol("0x7fz", &rest, 0);
    printf("%ld %s %d ", number, rest, errno);
    number = strtol("-999999999999999999999", NULL, 10);
    printf("%d %d %s\n", number < 0, errno == ERANGE, strerror(ENOENT));
    fopen("/nothing/here", "r");
    printf("%d %d %d\n", errno == ENOENT, isalpha('x') != 0, isdigit('x') != 0);
    locale_t here = newlocale(LC_ALL_MASK, "C", NULL), before = uselocale(here);
    double real = strtod("1e3x", &rest);
    printf("%d %.3f %s %d\n", strcasecmp("Straight", "sTRAIGHT"), real, rest,
           localeconv()->decimal_point[0]);
    uselocale(before);
    freelocale(here);
    wchar_t wide[8];
    size_t count = mbstowcs(wide, "wide", 8);
    printf("%zu %d\n", count, wcscmp(wide, L"wide"));
    time_t start = 86400;
    struct tm parts;
    gmtime_r(&start, &parts);
    printf("%d %d\n", parts.tm_year, parts.tm_mday);
    return 0;
}
