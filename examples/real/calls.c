/* SPDX-License-Identifier: MIT OR Apache-2.0 */
/* Calls of functions of this object, of another one and of the C library: direct ones, by pointers,
 * at the end of a function, of weak symbols that something defines or nothing, and switches. */
#include <setjmp.h>
#include <stdio.h>
#include <stdlib.h>
#include <string.h>

#include "calls.h"

extern WEAK int absent_data;
extern WEAK int absent_array[8];
WEAK long absent(long), absent_too(void);

long main_twice(long n) { return 2 * n + 1; }
/* the other object has another one, which isn't weak */
WEAK long replaced(long n) { return other_twice(n) + 10; }

static APART long inside(long n) { return n * 3; }
static APART long last(long n) { return other_twice(n + 1); } /* jumps */
static APART long last_inside(long n) { return inside(n - 1); }
static APART long last_pointer(function f, long n) { return f(n * 2); }
static APART long fibonacci(long n) { return n < 2 ? n : fibonacci(n - 1) + fibonacci(n - 2); }

static function const constant_table[] = {inside, other_twice, main_twice, last, labs, absent};
static function table[] = {last_inside, other_twice, fibonacci, other_hidden};

static APART long choose(int which, long n) {
    switch (which) {
    case 0: return other_twice(n);
    case 1: return inside(n) - 1;
    case 2: return other_hidden(n + 7);
    case 3: return other_sum(3, n, 2.5, 4L);
    case 4: return table[n & 3](n);
    case 5: return other_back(n, inside);
    case 6: return other_three(n).b + other_three(n + 1).c;
    case 7: return absent ? absent(n) : -1;
    case 8: return maybe_defined ? maybe_defined(n) : -2;
    case 9: return replaced(n);
    case 10: return last_pointer(other_address(0), n);
    case 11: return (long)strlen("eleven") + n;
    case 17: return atol("170") - n;
    default: return -n;
    }
}

static APART const char *name(int which) {
    switch (which) {
    case 0: return "zero";
    case 1: return "one";
    case 2: return "two";
    case 3: return "three";
    case 4: return "four";
    case 5: return "five";
    case 6: return "six";
    default: return "many";
    }
}

static APART int is_same(const void *a, const void *b) { return a == b; }

static APART void pointers(void) {
    printf("%d %d %d\n", other_address(0) == other_twice, other_address(1) == main_twice,
           other_address(3) == replaced);
    size_t (*volatile length)(const char *) = strlen; /* an indirect function in some libraries */
    printf("%d %zu %zu\n", length == other_strlen(), length("relocation"), other_length("link"));
    void *(*volatile copy)(void *, const void *, size_t) = memcpy;
    char text[8];
    copy(text, "copied", 7);
    puts(text);
    printf("%d %d %d %d\n", is_same(&absent_data, NULL), is_same(absent_array, NULL),
           absent_too != NULL, constant_table[5] != NULL);
    for (int i = 0; i < 5; i++) printf("%ld ", constant_table[i](-4 - i));
    for (int i = 0; i < 4; i++) printf("%ld ", table[i](5 + i) + other_table[i](i));
    puts("");
}

static jmp_buf place;
static APART void jump(int n) {
    if (n == 0) longjmp(place, 3);
    jump(n - 1);
}

static void at_end(void) { puts("end"); }

int main(int argc, char **argv) {
    (void)argv;
    atexit(at_end);
    for (int i = -1; i < 20; i++) printf("%ld ", choose(i + argc - 1, 5 + i));
    for (int i = 0; i < 8; i++) printf("%s ", name(i * argc));
    puts("");
    pointers();
    volatile int left = 5;
    if (setjmp(place) < 3) jump(left);
    printf("%d %ld %ld\n", left, fibonacci(15), last(last_inside(8)));
    return 0;
}
