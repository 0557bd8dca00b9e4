/* SPDX-License-Identifier: MIT OR Apache-2.0 */
/* Runs on AArch64 what protected.c writes, in memory where indirect branches may only go to `bti`. */
#define _GNU_SOURCE
#include <setjmp.h>
#include <signal.h>
#include <stdint.h>
#include <stdio.h>
#include <string.h>
#include <sys/mman.h>
#include "guarded.h"

#define GUARDED 0x10 /* PROT_BTI */
#define REFUSED UINT64_C(1)

static sigjmp_buf before;
static int failed;

static void on_fault(int number) { siglongjmp(before, number); }

static uint64_t function(void) { return 42; }

/* In place of the dynamic linker's resolver: takes what the header pushes, the address of the entry's
 * word and the return address, and returns the former, xor that of its own word. */
uint64_t resolver(void);
__asm__("resolver:\n\tldp x0, x30, [sp], 16\n\teor x0, x0, x16\n\tret\n");

static void put(uint64_t address, uint64_t value, size_t len) {
    memcpy((void *)address, &value, len);
}

/* `bti c`, and a direct branch */
static uint64_t directly(uint64_t to) {
    static uint64_t at = CODE + PART - SLOT;
    put(at, 0xd503245f, 4);
    put(at + 4, 0x14000000 | ((to - at - 4) >> 2 & 0x3ffffff), 4);
    return at += 8, at - 8;
}

static void expect(const char *name, uint64_t address, uint64_t expected) {
    volatile uint64_t found = REFUSED;
    if (!sigsetjmp(before, 1)) found = ((uint64_t(*)(void))address)();
    if (found == expected) return;
    fprintf(stderr, "guarded: %s returns %#llx\n", name, (unsigned long long)found);
    failed = 1;
}

int main(void) {
    char *at = mmap((void *)CODE, 2 * PART, PROT_READ | PROT_WRITE,
                    MAP_PRIVATE | MAP_ANONYMOUS | MAP_FIXED, -1, 0);
    if (at == MAP_FAILED || fread(at, 2 * PART, 1, stdin) != 1) return perror("guarded"), 1;
    put(FUNCTION, (uint64_t)function, 8);
    put(RESOLVER, (uint64_t)resolver, 8);
    uint64_t load = directly(LOAD), entry = directly(ENTRY);
    if (mprotect(at, PART, PROT_READ | PROT_EXEC | GUARDED)) return perror("guarded"), 1;
    signal(SIGILL, on_fault);
    expect("a stub, directly", load, 42);
    expect("a stub", LOAD, REFUSED);
    expect("a stub with bti", LANDING_LOAD, 42);
    expect("an entry, directly", entry, ENTRY_WORD(0) ^ RESOLVER);
    expect("an entry", ENTRY, REFUSED);
    expect("an entry with bti", LANDING_ENTRY, ENTRY_WORD(1) ^ RESOLVER);
    expect("a header without bti", PLAIN_ENTRY, REFUSED);
    return failed;
}
