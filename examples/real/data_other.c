/* SPDX-License-Identifier: MIT OR Apache-2.0 */
/* Data that data.c uses. */
#include "data.h"

extern int main_numbers[64];
int other_number = 12, other_numbers[100] = {1, 2, 3, [50] = 4, [99] = 5}, other_zero[20000];
const int other_constants[50] = {9, 8, 7, [49] = -6};
const char other_text[] = "text of another object", *const other_names[3] = {"first", other_text,
                                                                             other_text + 8};
static struct record end = {0, "end", -3, 200, 0.125};
struct record other_record = {&end, "other", -2, 100, 2.5}, *other_list = &other_record;
long other_hidden = -77;
int8_t other_i8 = -8;
uint16_t other_u16 = 65000;
int64_t other_i64 = INT64_C(-5000000000);
float other_float = 1.25f;
double other_double = -2.75;
char other_large[70000] = {1, [69999] = 2}, other_large_zero[90000];

int *other_place(int which) {
    static int inside[3] = {31, 32, 33};
    switch (which) {
    case 0: return &other_number;
    case 1: return &other_numbers[50];
    case 2: return &main_numbers[10];
    case 3: return &inside[1];
    default: return &other_zero[19999];
    }
}
