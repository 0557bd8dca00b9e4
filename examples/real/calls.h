/* SPDX-License-Identifier: MIT OR Apache-2.0 */
/* What calls.c and calls_other.c share. */
#include <stddef.h>

#define APART __attribute__((noinline))
#define HIDDEN __attribute__((visibility("hidden")))
#define WEAK __attribute__((weak))

struct three {
    long a, b, c;
};
typedef long (*function)(long);

long other_twice(long), other_back(long, function), other_sum(int, ...);
struct three other_three(long);
HIDDEN long other_hidden(long);
extern function other_table[4];
function other_address(int which);
size_t other_length(const char *), (*other_strlen(void))(const char *);
WEAK long maybe_defined(long), replaced(long);
long main_twice(long);
