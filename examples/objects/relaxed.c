/* SPDX-License-Identifier: MIT OR Apache-2.0 */
/* Thread-local storage at both ends of what offsets of 12 bits reach, and calls between sections.
 * RISC-V's descriptors are marked here, since clang 19 marks none. */
#include "program.h"

static word block[0x900 / sizeof(word)] __attribute__((aligned(64)));

__asm__(".section .tdata, \"awT\", @progbits\n .balign 64\n"
        "lowest: .dword 0\n .zero 0x7f0\nlast: .dword 0\nbeyond: .dword 0\n .zero 0x80\n");

#ifdef __riscv
__asm__(".macro of_symbol symbol\n"
        ".globl load_\\symbol, store_\\symbol, find_\\symbol\n"
        "load_\\symbol: lui a0, %tprel_hi(\\symbol)\n add a0, a0, tp, %tprel_add(\\symbol)\n"
        " ld a0, %tprel_lo(\\symbol)(a0)\n ret\n"
        "store_\\symbol: lui a1, %tprel_hi(\\symbol)\n add a1, a1, tp, %tprel_add(\\symbol)\n"
        " sd a0, %tprel_lo(\\symbol)(a1)\n tail said_so\n"
        "find_\\symbol: auipc a2, %tlsdesc_hi(\\symbol)\n .reloc find_\\symbol, R_RISCV_RELAX\n"
        " ld a3, %tlsdesc_load_lo(find_\\symbol)(a2)\n"
        " addi a0, a2, %tlsdesc_add_lo(find_\\symbol)\n"
        " jalr t0, 0(a3), %tlsdesc_call(find_\\symbol)\n add a0, a0, tp\n ret\n.endm\n");
#define SET_THREAD_POINTER(to) __asm__ volatile("mv tp, %0" : : "r"(to))
#else
__asm__(".macro relax instruction:vararg\n \\instruction\n .reloc .-4, R_LARCH_RELAX\n.endm\n"
        ".macro of_symbol symbol\n"
        ".globl load_\\symbol, store_\\symbol, find_\\symbol\n"
        "load_\\symbol: relax lu12i.w $a0, %le_hi20_r(\\symbol)\n"
        " relax add.d $a0, $a0, $tp, %le_add_r(\\symbol)\n"
        " relax ld.d $a0, $a0, %le_lo12_r(\\symbol)\n ret\n"
        "store_\\symbol: relax lu12i.w $a1, %le_hi20_r(\\symbol)\n"
        " relax add.d $a1, $a1, $tp, %le_add_r(\\symbol)\n"
        " relax st.d $a0, $a1, %le_lo12_r(\\symbol)\n"
        " relax pcaddu18i $t0, %call36(said_so)\n jr $t0\n"
        "find_\\symbol: move $t0, $ra\n pcalau12i $a0, %desc_pc_hi20(\\symbol)\n"
        " addi.d $a0, $a0, %desc_pc_lo12(\\symbol)\n ld.d $ra, $a0, %desc_ld(\\symbol)\n"
        " jirl $ra, $ra, %desc_call(\\symbol)\n add.d $a0, $a0, $tp\n jr $t0\n.endm\n");
#define SET_THREAD_POINTER(to) __asm__ volatile("move $tp, %0" : : "r"(to))
#endif
__asm__(".text\n of_symbol lowest\n of_symbol last\n of_symbol beyond\n");

#define OF_SYMBOL(symbol) word load_##symbol(void), *find_##symbol(void); void store_##symbol(word)
OF_SYMBOL(lowest);
OF_SYMBOL(last);
OF_SYMBOL(beyond);

/* Called from the end of a function in another section, and does so itself. */
__attribute__((section("startup"))) void said_so(word number) {
    number += load_lowest();
    say_number(number);
    say("\n");
}

#define TRY(symbol, number) \
    store_##symbol(number); \
    say_number(load_##symbol()); \
    said_so((word)find_##symbol() - (word)block)

int main(void) {
    SET_THREAD_POINTER(block);
    TRY(lowest, 11);
    TRY(last, 22);
    TRY(beyond, 33);
    return 0;
}
