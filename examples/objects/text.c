/* SPDX-License-Identifier: MIT OR Apache-2.0 */
/* Text, and numbers in decimal, to the standard output. */
#include "program.h"

word said;
COMMON char line[256];
COMMON word used;

word length(const char *text) {
    word count = 0;
    while (text[count]) count++;
    return count;
}

static void flush(void) {
    put(line, used);
    said += used;
    used = 0;
}

void say(const char *text) {
    for (word i = 0, end = length(text); i < end; i++) {
        line[used++] = text[i];
        if (text[i] == '\n' || used == sizeof line) flush();
    }
}

__attribute__((aligned(32))) void say_number(word number) {
    static const char digits[] = "0123456789";
    char text[24];
    word at = sizeof text - 1;
    text[at] = 0;
    do {
        text[--at] = digits[number % 10];
    } while (number /= 10);
    say(text + at);
}
