/* SPDX-License-Identifier: MIT OR Apache-2.0 */
/* What shared.c, a program, and shared_other.c, a shared library, share. */
#include <stdarg.h>
#include <stddef.h>

typedef long (*function)(long);
struct pair {
    double first;
    long second;
};

/* of the library */
extern volatile int counter, same_counter; /* one variable with two names */
extern const char words[4][8];
extern function table[6];
extern __thread long shared_number;
extern __thread struct {
    _Alignas(64) char bytes[64];
} apart;
long twice(long), replaced(long), own(long), chosen(long), call_replaced(long), call_own(long);
volatile int *counter_address(void);
function twice_address(void), chosen_address(void), main_address(void);
struct pair many(long, double, long, double, long, double, long, double, long, double, long, double,
                 long, double, long, double, long, double, long, double, struct pair);
long sum(int count, ...), next_number(void), next_hidden(void), *number_address(void);
long run_threads(int count, long (*each)(long)), call_maybe(long), main_numbers(void);
int by_length(const void *, const void *);

/* of the program */
extern __thread long main_number;
extern int main_variable;
long main_twice(long);
__attribute__((weak)) long maybe(long), absent(long);
