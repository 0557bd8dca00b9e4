/* SPDX-License-Identifier: MIT OR Apache-2.0 */
int counter;
static const char *const names[] = {"fibonacci", "sum", "last"};
static int called[4096];

int fibonacci(int n) {
    called[n]++;
    counter = called[1] & 63;
    return n < 2 ? n : fibonacci(n - 1) + fibonacci(n - 2);
}
int sum(const int *numbers, int count) {
    return count ? *numbers + sum(numbers + 1, count - 1) : 0;
}
const char *name_of(int kind) {
    switch (kind) {
    case 0: return names[0];
    case 1: return names[1];
    case 2: return names[2];
    default: return "counter";
    }
}
