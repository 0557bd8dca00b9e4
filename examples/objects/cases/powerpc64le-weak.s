# Symbols that nothing defines, thread-local ones among them.
    .weak absent, absent_thread
    .globl _start
_start:
    bl absent
    nop
    b absent
    beq absent
    addis 3, 2, absent_thread@got@tprel@ha
    ld 3, absent_thread@got@tprel@l(3)
    add 3, 3, absent_thread@tls
    addis 3, 13, absent_thread@tprel@ha
    addi 3, 3, absent_thread@tprel@l
    .data
    .quad absent
    .long absent - .
    .section .tdata, "awT", @progbits
    .quad 1
