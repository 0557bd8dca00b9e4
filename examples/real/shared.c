/* SPDX-License-Identifier: MIT OR Apache-2.0 */
/* A program over a shared library: what each of them has of the other, and where both have one name
 * that it is one thing. */
#define _GNU_SOURCE
#include "shared.h"

#include <dlfcn.h>
#include <locale.h>
#include <stdio.h>
#include <stdlib.h>
#include <string.h>
#include <unistd.h>

__thread long main_number = 11;
int main_variable = 17;
extern char **__environ;
static volatile int *const pointer = &counter;
static function const functions[] = {twice, replaced, main_twice, chosen};
const char *const texts[] = {words[1], words[3], "program"};

long main_twice(long n) { return 2 * n + 1; }
long replaced(long n) { return n + 1000; }
long maybe(long n) { return 3 * n; }

static long own_first(long n) { return n - 100; }
function own_choose(void) { return own_first; }
extern long own_chosen(long);
__asm__(".globl own_chosen\n.type own_chosen, %gnu_indirect_function\n.set own_chosen, own_choose");

/* Whether two addresses are one, which compilers take as known of two names. */
static int same(const volatile void *a, const volatile void *b) {
    const volatile void *volatile first = a;
    return first == b;
}

__attribute__((constructor)) static void begin(void) { puts("the program begins"); }

int main(void) {
    const char *sorted[] = {"three", "a", "four"};
    long (*volatile indirect)(long) = own_chosen;
    same_counter += 2;
    printf("%d %d %d %d\n", counter, *counter_address(), *pointer, same(&counter, counter_address()));
    printf("%d %d %s %s %s\n", same(&same_counter, &counter), same(pointer, &same_counter), texts[0],
           texts[1], words[2]);
    printf("%ld %ld %ld %ld %ld\n", twice(4), replaced(1), call_replaced(1), own(1), call_own(1));
    printf("%d %d %d %d\n", twice == twice_address(), functions[0] == twice_address(),
           main_twice == main_address(), functions[3] == chosen_address());
    for (int i = 0; i < 4; i++) printf("%ld ", functions[i](10));
    for (int i = 0; i < 6; i++) printf("%ld ", table[i] ? table[i](10) : -10);
    printf("\n%ld %ld %ld %ld\n", chosen(1), own_chosen(1), indirect(2), call_maybe(5));
    struct pair all = many(1, .5, 2, .25, 3, 1, 4, 2, 5, 4, 6, 8, 7, 16, 8, 32, 9, 64, 10, 128,
                           (struct pair){1000, 2000});
    printf("%g %ld %ld\n", all.first, all.second,
           sum(9, 1L, 2.0, 3L, 4.0, 5L, 6.0, 7L, 8.0, 9L));
    shared_number += 10;
    printf("%ld %ld %ld %d\n", next_number(), next_hidden(), main_numbers(),
           number_address() == &shared_number && (size_t)&apart % 64 == 0);
    printf("%ld %ld\n", run_threads(4, main_twice), run_threads(8, twice));
    printf("%ld %ld %s\n", shared_number, main_number, apart.bytes);
    qsort(sorted, 3, sizeof *sorted, by_length);
    printf("%s %s %s\n", sorted[0], sorted[1], sorted[2]);
    setenv("OF_THE_PROGRAM", "1", 1);
    printf("%d %d %s\n", environ == __environ, same(&environ, &__environ), getenv("OF_THE_PROGRAM"));
    printf("%d %d %d\n", dlsym(RTLD_DEFAULT, "twice") == (void *)twice,
           dlsym(RTLD_DEFAULT, "counter") == (void *)&counter, dlsym(RTLD_DEFAULT, "begin") == NULL);
    fprintf(stdout, "%s %d\n", setlocale(LC_ALL, "C"), stdout != stderr);
    return 0;
}
