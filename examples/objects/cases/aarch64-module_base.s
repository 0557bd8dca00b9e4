# The start of the module's block by a descriptor, and offsets in it. ld.lld doesn't know these.
    .globl _start
_start:
    adrp x0, :tlsdesc:_TLS_MODULE_BASE_
    ldr x1, [x0, :tlsdesc_lo12:_TLS_MODULE_BASE_]
    add x0, x0, :tlsdesc_lo12:_TLS_MODULE_BASE_
    .tlsdesccall _TLS_MODULE_BASE_
    blr x1
    add x1, x0, :dtprel_hi12:second
    add x1, x1, :dtprel_lo12_nc:second
    .section .tdata, "awT", @progbits
    .quad 1
second:
    .quad 2
