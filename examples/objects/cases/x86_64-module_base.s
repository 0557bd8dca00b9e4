# The start of the module's block by a descriptor, and offsets in it.
    .globl _start
_start:
    leaq _TLS_MODULE_BASE_@tlsdesc(%rip), %rax
    call *_TLS_MODULE_BASE_@tlscall(%rax)
    leaq second@dtpoff(%rax), %rsi
    addq $second@dtpoff, %rax
    .section .tdata, "awT", @progbits
    .quad 1
second:
    .quad 2
