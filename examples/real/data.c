/* SPDX-License-Identifier: MIT OR Apache-2.0 */
/* Data of this object and of another one, of each size, initialised and not, constant, large, with
 * constant and variable offsets, and pointers to it with addends. */
#include <stdio.h>
#include <string.h>

#include "data.h"

static int counter = 1, zero;
int main_numbers[64] = {[10] = 6, [63] = 7};
static int16_t halves[32] __attribute__((aligned(16)));
static uint8_t bytes[33] = {[32] = 250};
static const double fractions[] = {0.1, 0.2, -0.3};
static const float singles[] = {1e10f, -2.5f};
static const uint64_t masks[] = {UINT64_C(0xfedcba9876543210), 1, UINT64_C(1) << 63};
static char large[80000], large_set[66000] = {[65999] = 3};
static const char large_constant[68000] = {[67999] = 4};
static char page[64] __attribute__((aligned(4096)));
static struct record last = {&other_record, "last", 5, 6, 0.5}, first = {&last, "first", 7, 8, 9.5};

static int *const constant_places[] = {&counter, &other_number, main_numbers + 63,
                                       &other_numbers[99]};
static const void *places[] = {
    large + 79999, large_set + 65999,   &other_text[5],          &first.number,
    &bytes[32],    &other_large[69999], (const char *)masks + 7, &large_constant[67999]};

static APART void scalars(int n) {
    counter += n;
    zero -= counter;
    other_number += zero;
    other_i8 = (int8_t)(other_i8 - n);
    other_u16 = (uint16_t)(other_u16 + 1000);
    other_i64 *= 3;
    other_float *= 1.5f;
    other_double += 0.25;
    other_hidden++;
    printf("%d %d %d %d %d %lld %g %g %ld\n", counter, zero, other_number, other_i8, other_u16,
           (long long)other_i64, (double)other_float, other_double, other_hidden);
}

static APART void arrays(int n) {
    main_numbers[n] = main_numbers[10] + main_numbers[63];
    halves[n & 31] = (int16_t)(halves[5] - 3);
    bytes[n & 31] = (uint8_t)(bytes[32] + n);
    other_numbers[n] += other_numbers[99] + other_constants[49];
    other_zero[19999]++;
    other_zero[n * 100] += other_constants[n - 1];
    printf("%d %d %d %d %d %d %d\n", main_numbers[n], halves[n & 31], bytes[n & 31],
           other_numbers[n], other_zero[19999], other_zero[n * 100], other_numbers[50]);
    printf("%g %g %g %llx\n", fractions[n % 3], (double)singles[n & 1], 0.7 + fractions[2] * n,
           (unsigned long long)(masks[0] ^ masks[n % 3] ^ UINT64_C(0x123456789abcdef)));
}

static APART void all_large(long n) {
    large[79999]++;
    large[n * 1000] += 2;
    large_set[65999]++;
    other_large[69999] = (char)(other_large[69999] + large_set[65999]);
    other_large_zero[89999]++;
    other_large_zero[n * 1001] = (char)n;
    printf("%d %d %d %d %d %d %d\n", large[79999], large[n * 1000], large_set[65999],
           other_large[69999], other_large_zero[89999], other_large_zero[n * 1001],
           large_constant[67999]);
    memcpy(large + 100, other_large, 50000);
    memset(page, 1, sizeof page);
    printf("%d %d %d\n", large[100], (int)((uintptr_t)page & 4095), page[63]);
}

static APART void pointers(int n) {
    for (const struct record *r = &first; r; r = r->next)
        printf("%s %d %d %g\n", r->name, r->half, r->byte, r->number);
    for (int i = 0; i < 4; i++) printf("%d ", *constant_places[i]);
    for (int i = 0; i < 5; i++) printf("%d ", *other_place(i));
    printf("%d %d %c %g %d %d %d %d\n", *(const char *)places[0], *(const char *)places[1],
           *(const char *)places[2], *(const double *)places[3], *(const uint8_t *)places[4],
           *(const char *)places[5], *(const uint8_t *)places[6], *(const char *)places[7]);
    printf("%s %s %s %s\n", other_names[n % 3], other_names[2], other_text + n,
           other_list->next->name);
    printf("%d %d\n", other_place(1) == &other_numbers[50], other_place(2) == main_numbers + 10);
    *other_place(3) += n;
    *other_place(4) += *other_place(3);
    struct record copy = other_record;
    copy.half -= first.half;
    last = copy;
    printf("%d %d %s %d\n", other_zero[19999], copy.half, last.name, last.byte);
}

int main(int argc, char **argv) {
    (void)argv;
    for (int i = 1; i < 4; i++) {
        scalars(i * argc);
        arrays(i + argc);
        all_large(i + argc);
        pointers(i * argc);
    }
    return 0;
}
