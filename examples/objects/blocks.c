/* SPDX-License-Identifier: MIT OR Apache-2.0 */
/* Sets up thread-local storage, indirect functions and constructors as a C library does, and says
 * what it then finds. */
#include "blocks.h"

struct header {
    unsigned type, flags;
    word offset, address, physical, bytes, len, align;
};
struct rela {
    word *offset;
    word info;
    word (*of)(void);
};
extern const unsigned char file_start[] __asm__("__ehdr_start");
extern const struct rela relas_start[] __asm__("__rela_iplt_start");
extern const struct rela relas_end[] __asm__("__rela_iplt_end");
typedef void constructor(void);
extern constructor *const made_start[] __asm__("__init_array_start");
extern constructor *const made_end[] __asm__("__init_array_end");

__thread word by_offset = 11;
static __thread word unset[300]; /* what follows it has a large offset */
static __thread unsigned char aligned[64] __attribute__((aligned(64))) = {3};
static unsigned char memory[4096] __attribute__((aligned(64)));
static unsigned char *block;
static word made;
SHARED;
NUMBER(three, 3);

static void set_thread_pointer(const struct header *tls) {
    word len = (tls->len + tls->align - 1) & ~(tls->align - 1);
    block = memory + 1024;
    for (word i = 0; i < tls->bytes; i++) block[i] = ((const unsigned char *)tls->address)[i];
#if defined __x86_64__
    unsigned char *pointer = block + len;
    *(unsigned char **)pointer = pointer;
    long result = 158;
    __asm__ volatile("syscall" : "+a"(result) : "D"(0x1002), "S"(pointer) : "rcx", "r11", "memory");
#elif defined __aarch64__
    (void)len;
    __asm__ volatile("msr tpidr_el0, %0" : : "r"(block - (tls->align > 16 ? tls->align : 16)));
#elif defined __powerpc64__
    (void)len;
    __asm__ volatile("mr 13, %0" : : "r"(block + 0x7000));
#elif defined __riscv
    (void)len;
    __asm__ volatile("mv tp, %0" : : "r"(block));
#else
    (void)len;
    __asm__ volatile("move $tp, %0" : : "r"(block));
#endif
}

/* Where RISC-V, LoongArch and PowerPC64's prefixed instructions go for general-dynamic variables; the
 * others' code is rewritten. */
void *__tls_get_addr(const word *index) {
#ifdef __riscv
    return block + index[1] + 0x800;
#elif defined __powerpc64__
    return block + index[1] + 0x8000;
#else
    return block + index[1];
#endif
}

__attribute__((constructor(300))) static void make_second(void) { made = made * 10 + 2; }
__attribute__((constructor(200))) static void make_first(void) { made = made * 10 + 1; }
__attribute__((constructor)) static void make_last(void) { made = made * 10 + 3; }

static void say_all(const char *title, word a, word b, word c) {
    say(title);
    say(" ");
    say_number(a);
    say(" ");
    say_number(b);
    say(" ");
    say_number(c);
    say("\n");
}

static __attribute__((noinline)) void run(void) {
    word (*volatile function)(word) = twice;
    word sum = 0;
    for (const word *at = numbers_start; at < numbers_end; at++) sum += *at;
    unset[299] += by_entry;
    by_call += by_offset;
    *of_far_call() += *of_call() + 1;
    say_all("thread-local", by_offset, by_entry, by_call);
    say_all("thread-local", unset[299], aligned[0] + ((word)aligned & 63), *of_module(1));
    say_all("thread-local", *of_call(), *of_far_call(), of_call() == &by_call);
    say_all("indirect", twice(21), function(4), function == twice);
    say_all("constructors and sections", made, sum, (word)(numbers_end - numbers_start));
    say_all("groups", shared_word, shared_by(), &shared_word == (const word *)shared_by);
    say_all("archives", first_part(1), third_part(1), absent ? 1 : 0);
}

int main(void) {
    const struct header *header = (const struct header *)(file_start + 64);
    while (header->type != 7) header++; /* PT_TLS */
    set_thread_pointer(header);
    for (const struct rela *r = relas_start; r < relas_end; r++) *r->offset = r->of();
    for (constructor *const *c = made_start; c < made_end; c++) (*c)();
    run();
    return 0;
}
