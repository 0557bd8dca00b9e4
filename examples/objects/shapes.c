/* SPDX-License-Identifier: MIT OR Apache-2.0 */
/* Tables of constants, of addresses and of functions. */
#include "program.h"

static word of_box(const struct shape *shape) { return shape->width * shape->height; }
static word of_triangle(const struct shape *shape) { return shape->width * shape->height / 2; }

const struct shape shapes[] = {
    {"square", of_box, 7, 7},
    {"triangle", of_triangle, 12, 9},
    {"strip", of_box, 31, 1},
    {"sheet", of_box, 1000, 2000},
};
const word shapes_count = sizeof shapes / sizeof *shapes;

static int by_area(const void *a, const void *b) {
    const struct shape *p = a, *q = b;
    return p->area(p) < q->area(q) ? 1 : -1;
}

static int by_name(const void *a, const void *b) {
    const struct shape *p = a, *q = b;
    return length(p->name) < length(q->name) ? 1 : -1;
}

order *const orders[2] = {by_area, by_name};

const char *kind_of(word corners) {
    switch (corners) {
    case 0: return "round";
    case 1: return "a drop";
    case 2: return "a lens";
    case 3: return "three-cornered";
    case 4: return "four-cornered";
    case 5: return "five-cornered";
    case 6: return "a comb's cell";
    default: return "many-cornered";
    }
}

const char *greeting(void) { return "shapes by area and by name\n"; }
