/* SPDX-License-Identifier: MIT OR Apache-2.0 */
/* Functions that calls.c calls. */
#include <stdarg.h>
#include <string.h>

#include "calls.h"

long other_twice(long n) { return 2 * n; }
long other_back(long n, function f) { return f(n + 1) + main_twice(n); }
struct three other_three(long n) {
    return (struct three){n, n * n, -n};
}
long other_hidden(long n) { return n ^ 0x55; }
long replaced(long n) { return n + 1000; }
static APART long local(long n) { return n - 7; }
function other_table[4] = {other_twice, local, main_twice, other_hidden};

long other_sum(int count, ...) {
    va_list numbers;
    long sum = 0;
    va_start(numbers, count);
    for (int i = 0; i < count; i++)
        sum += i & 1 ? (long)va_arg(numbers, double) : va_arg(numbers, long);
    va_end(numbers);
    return sum;
}

function other_address(int which) {
    switch (which) {
    case 0: return other_twice;
    case 1: return main_twice;
    case 2: return maybe_defined;
    case 3: return replaced;
    default: return local;
    }
}

size_t other_length(const char *text) { return strlen(text); }
size_t (*other_strlen(void))(const char *) { return strlen; }
