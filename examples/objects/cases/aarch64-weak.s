# Symbols that nothing defines, by what is relative to the place and to the thread pointer.
    .weak absent, absent_thread
    .globl _start
_start:
    adr x0, absent
    adrp x0, absent
    ldr x1, absent
    add x0, x0, :lo12:absent
    adrp x0, absent
    add x0, x0, :lo12:absent
    tbz x1, 1, absent
    cbz x1, absent
    b.eq absent
    b absent
    bl absent
    add x8, x8, :tprel_hi12:absent_thread
    add x8, x8, :tprel_lo12_nc:absent_thread
    movz x0, #:tprel_g1:absent_thread
    movk x0, #:tprel_g0_nc:absent_thread
    adrp x0, :gottprel:absent_thread
    ldr x0, [x0, :gottprel_lo12:absent_thread]
    adrp x0, :tlsdesc:absent_thread
    ldr x1, [x0, :tlsdesc_lo12:absent_thread]
    add x0, x0, :tlsdesc_lo12:absent_thread
    .tlsdesccall absent_thread
    blr x1
    .data
    .quad absent - .
    .word absent - .
    .word absent@PLT - .
    .section .tdata, "awT", @progbits
    .quad 1
