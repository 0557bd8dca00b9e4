/* SPDX-License-Identifier: MIT OR Apache-2.0 */
/* The program's entry, and the two system calls that it makes. */
#include "program.h"

int main(void);

#if defined __x86_64__
#define NUMBER_WRITE 1
#define NUMBER_EXIT 60
__asm__(".text\n.globl _start\n_start: xor %ebp, %ebp\n and $-16, %rsp\n call begin\n");
static long call3(long number, long a, long b, long c) {
    long result;
    __asm__ volatile("syscall"
                     : "=a"(result)
                     : "a"(number), "D"(a), "S"(b), "d"(c)
                     : "rcx", "r11", "memory");
    return result;
}
#elif defined __powerpc64__
#define NUMBER_WRITE 4
#define NUMBER_EXIT 1
__asm__(".text\n.globl _start\n_start: bcl 20, 31, 1f\n1: mflr 12\n"
        " addis 2, 12, .TOC. - 1b@ha\n addi 2, 2, .TOC. - 1b@l\n"
#if defined __PCREL__
        " bl begin@notoc\n");
#else
        " bl begin\n nop\n");
#endif
static long call3(long number, long a, long b, long c) {
    register long r0 __asm__("r0") = number;
    register long r3 __asm__("r3") = a;
    register long r4 __asm__("r4") = b;
    register long r5 __asm__("r5") = c;
    __asm__ volatile("sc" : "+r"(r0), "+r"(r3), "+r"(r4), "+r"(r5) : : "cr0", "ctr", "memory");
    return r3;
}
#else
#define NUMBER_WRITE 64
#define NUMBER_EXIT 93
#if defined __riscv
#define A(n) "a" #n
#define NUMBER "a7"
#define SYSTEM_CALL "ecall"
__asm__(".text\n.globl _start\n_start: andi sp, sp, -16\n call begin\n");
#elif defined __aarch64__
#define A(n) "x" #n
#define NUMBER "x8"
#define SYSTEM_CALL "svc 0"
__asm__(".text\n.globl _start\n_start: mov x29, xzr\n bl begin\n");
#elif defined __loongarch64
#define A(n) "$a" #n
#define NUMBER "$a7"
#define SYSTEM_CALL "syscall 0"
__asm__(".text\n.globl _start\n_start: bl begin\n");
#endif
static long call3(long number, long a, long b, long c) {
    register long n __asm__(NUMBER) = number;
    register long r0 __asm__(A(0)) = a;
    register long r1 __asm__(A(1)) = b;
    register long r2 __asm__(A(2)) = c;
    __asm__ volatile(SYSTEM_CALL : "+r"(r0) : "r"(n), "r"(r1), "r"(r2) : "memory");
    return r0;
}
#endif

void put(const char *bytes, word len) { call3(NUMBER_WRITE, 1, (long)bytes, (long)len); }

__attribute__((used, section("startup"))) void begin(void) {
    call3(NUMBER_EXIT, main(), 0, 0);
    for (;;) {
    }
}
