/* SPDX-License-Identifier: MIT OR Apache-2.0 */
/* A shared library: variables, functions, thread-local variables and an indirect function, of its own
 * and of the program. */
#include "shared.h"

#include <pthread.h>
#include <stdio.h>
#include <string.h>

volatile int counter = 5;
extern volatile int same_counter __attribute__((weak, alias("counter")));
const char words[4][8] = {"one", "two", "three", "four"};
__thread long shared_number = 3;
__thread __typeof__(apart) apart = {"apart"};
static __thread long hidden_number = 40;
static __thread char room[3000];

long twice(long n) { return 2 * n; }
long replaced(long n) { return n - 1; }
__attribute__((visibility("protected"))) long own(long n) { return n + 7; }
static long local(long n) { return n ^ 0x55; }
function table[6] = {twice, replaced, local, main_twice, maybe, absent};

long call_replaced(long n) { return replaced(n); }
long call_own(long n) { return own(n); }
volatile int *counter_address(void) { return &counter; }
function twice_address(void) { return twice; }
function main_address(void) { return main_twice; }
long call_maybe(long n) { return (maybe ? maybe(n) : -1) + (absent ? absent(n) : -2); }

static long chosen_first(long n) { return n + 100; }
function choose(void) { return chosen_first; }
__asm__(".globl chosen\n.type chosen, %gnu_indirect_function\n.set chosen, choose");
function chosen_address(void) { return chosen; }

struct pair many(long a, double b, long c, double d, long e, double f, long g, double h, long i,
                 double j, long k, double l, long m, double n, long o, double p, long q, double r,
                 long s, double t, struct pair u) {
    return (struct pair){b + d + f + h + j + l + n + p + r + t + u.first,
                         a + c + e + g + i + k + m + o + q + s + u.second};
}

long sum(int count, ...) {
    va_list numbers;
    long all = 0;
    va_start(numbers, count);
    for (int i = 0; i < count; i++)
        all += i & 1 ? (long)va_arg(numbers, double) : va_arg(numbers, long);
    va_end(numbers);
    return all;
}

long next_number(void) { return ++shared_number; }
long *number_address(void) { return &shared_number; }
long next_hidden(void) { return ++hidden_number + (room[2999] += 2) + room[0]; }
long main_numbers(void) { return main_number + main_variable + strlen(apart.bytes); }

static void *thread(void *each) {
    main_number += 2;
    for (int i = 0; i < 3; i++) next_number();
    return (void *)((*(function *)each)(next_number()) + next_hidden() + main_numbers());
}

long run_threads(int count, long (*each)(long)) {
    pthread_t threads[16];
    long all = 0;
    void *result;
    for (int i = 0; i < count; i++) pthread_create(&threads[i], NULL, thread, &each);
    for (int i = 0; i < count; i++) all += pthread_join(threads[i], &result) ? 1000 : (long)result;
    return all;
}

int by_length(const void *a, const void *b) {
    size_t first = strlen(*(const char *const *)a), second = strlen(*(const char *const *)b);
    return first < second ? -1 : first > second;
}

__attribute__((constructor)) static void begin(void) { puts("the library begins"); }
__attribute__((destructor)) static void end(void) { printf("the library ends with %d\n", counter); }
