# Instructions that linkers rewrite. A line without one is between two sequences.
    .text
    .globl _start
    .type _start,@function
_start:
    pcalau12i $a0, %got_pc_hi20(near)
    ld.d $a0, $a0, %got_pc_lo12(near)

    pcalau12i $a0, %got_pc_hi20(far)
    ld.d $a0, $a0, %got_pc_lo12(far)

    pcalau12i $a1, %pc_hi20(near)
    addi.d $a1, $a1, %pc_lo12(near)

    pcalau12i $a1, %pc_hi20(far)
    addi.d $a1, $a1, %pc_lo12(far)

    pcaddu18i $ra, %call36(here)
    jirl $ra, $ra, 0

    pcaddu18i $t0, %call36(here)
    jirl $zero, $t0, 0

    pcalau12i $a0, %ie_pc_hi20(short)
    ld.d $a0, $a0, %ie_pc_lo12(short)

    pcalau12i $a0, %ie_pc_hi20(long)
    ld.d $a0, $a0, %ie_pc_lo12(long)

    pcalau12i $a0, %desc_pc_hi20(long)
    addi.d $a0, $a0, %desc_pc_lo12(long)
    ld.d $ra, $a0, %desc_ld(long)
    jirl $ra, $ra, %desc_call(long)

    pcalau12i $a0, %desc_pc_hi20(other)
    addi.d $a0, $a0, %desc_pc_lo12(other)
    ld.d $ra, $a0, %desc_ld(other)
    jirl $ra, $ra, %desc_call(other)

    lu12i.w $a1, %le_hi20_r(short)
    add.d $a1, $a1, $tp, %le_add_r(short)
    ld.w $a0, $a1, %le_lo12_r(short)

    lu12i.w $a1, %le_hi20_r(long)
    add.d $a1, $a1, $tp, %le_add_r(long)
    ld.w $a0, $a1, %le_lo12_r(long)

    .globl here
    .type here,@function
here:
    jirl $zero, $ra, 0

    .data
    .globl near, far
    .balign 8
near:
    .quad 1
    .space 0x300000
far:
    .quad 3
    .section .tdata,"awT",@progbits
    .balign 8
    .quad 0
    .globl short, long
    .type short,@object
    .type long,@object
short:
    .quad 4
    .space 0x2000
long:
    .quad 4
