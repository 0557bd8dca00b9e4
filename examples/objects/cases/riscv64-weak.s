# Symbols that nothing defines, thread-local ones among them.
    .option norelax
    .weak absent, absent_thread, absent_too
    .globl _start
_start:
    call absent
    tail absent
    jal ra, absent
    beqz a0, absent
    lla a0, absent
    lui a0, %hi(absent)
    addi a0, a0, %lo(absent)
    la.tls.ie a0, absent_thread
    la.tls.gd a0, absent_too
    lui a0, %tprel_hi(absent_thread)
    add a0, a0, tp, %tprel_add(absent_thread)
    addi a0, a0, %tprel_lo(absent_thread)
descriptor:
    auipc a0, %tlsdesc_hi(absent_thread)
    ld a1, %tlsdesc_load_lo(descriptor)(a0)
    addi a0, a0, %tlsdesc_add_lo(descriptor)
    jalr t0, 0(a1), %tlsdesc_call(descriptor)
    .data
    .quad absent
    .word absent - .
    .section .tdata, "awT", @progbits
    .quad 1
