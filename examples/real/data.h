/* SPDX-License-Identifier: MIT OR Apache-2.0 */
/* Data that data.c and data_other.c share. */
#include <stdint.h>

#define APART __attribute__((noinline))
#define HIDDEN __attribute__((visibility("hidden")))

struct record {
    struct record *next;
    const char *name;
    int16_t half;
    uint8_t byte;
    double number;
};

extern int other_number, other_numbers[100], other_zero[20000];
extern const int other_constants[50];
extern const char other_text[], *const other_names[3];
extern struct record other_record, *other_list;
extern HIDDEN long other_hidden;
extern int8_t other_i8;
extern uint16_t other_u16;
extern int64_t other_i64;
extern float other_float;
extern double other_double;
extern char other_large[70000], other_large_zero[90000];
int *other_place(int which);
