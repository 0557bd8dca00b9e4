# Symbols that nothing defines, thread-local ones among them.
    .weak absent, absent_thread
    .globl _start
_start:
    bl %plt(absent)
    b absent
    pcaddu18i $ra, %call36(absent)
    jirl $ra, $ra, 0
    pcalau12i $a0, %pc_hi20(absent)
    addi.d $a0, $a0, %pc_lo12(absent)
    lu12i.w $a0, %le_hi20(absent_thread)
    ori $a0, $a0, %le_lo12(absent_thread)
    .data
    .quad absent
    .word absent - .
    .section .tdata, "awT", @progbits
    .quad 1
