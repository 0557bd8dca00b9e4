/* SPDX-License-Identifier: MIT OR Apache-2.0 */
/* Sorts the shapes, and says what it has found. */
#include "program.h"

COMMON const void *sorted[16];
static const char *const titles[] = {"by area:", "by name:"};
static word calls[2];
word limit = 7;

static void list(order *before, const char *title) {
    for (word i = 0; i < shapes_count; i++) sorted[i] = &shapes[i];
    sort(sorted, shapes_count, before);
    say(title);
    for (word i = 0; i < shapes_count; i++) {
        const struct shape *shape = sorted[i];
        say(" ");
        say(shape->name);
        say(" ");
        say_number(shape->area(shape));
    }
    say("\n");
}

int main(void) {
    say(greeting());
    for (word i = 0; i < 2; i++) {
        list(orders[i], titles[i]);
        calls[i] = swaps;
    }
    for (word corners = 0; corners <= limit; corners++) {
        say(kind_of(corners));
        say(corners < limit ? ", " : "\n");
    }
    if (absent) absent();
    say("swaps ");
    say_number(calls[1] - calls[0]);
    say(" of ");
    say_number(swaps);
    say(", bytes ");
    say_number(said);
    say("\n");
    return 0;
}
