/* SPDX-License-Identifier: MIT OR Apache-2.0 */
/* The entry of a program for RISC-V, which prints what second.c computes. */
int fibonacci(int n);
int sum(const int *numbers, int count);
const char *name_of(int kind);
extern int counter;
extern void not_there(void) __attribute__((weak));

static int numbers[] = {3, 1, 4, 1, 5, 9, 2, 6};
static int *const last = &numbers[7];
static char line[64];

static long call(long number, long a, long b, long c) {
    register long a7 __asm__("a7") = number, a0 __asm__("a0") = a, a1 __asm__("a1") = b,
                  a2 __asm__("a2") = c;
    __asm__ volatile("ecall" : "+r"(a0) : "r"(a7), "r"(a1), "r"(a2) : "memory");
    return a0;
}
static void print(const char *name, int number) {
    int used = 0, divisor = 1;
    while (*name) line[used++] = *name++;
    line[used++] = ' ';
    while (number / divisor >= 10) divisor *= 10;
    for (; divisor; divisor /= 10) line[used++] = (char)('0' + number / divisor % 10);
    line[used++] = '\n';
    call(64, 1, (long)line, used);
}
void _start(void) {
    print(name_of(0), fibonacci(20));
    print(name_of(1), sum(numbers, 8));
    print(name_of(2), *last);
    print(name_of(7), counter);
    if (not_there) not_there();
    call(93, counter, 0, 0);
}
