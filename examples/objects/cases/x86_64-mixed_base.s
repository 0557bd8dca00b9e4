# A local-dynamic sequence whose call has no relocation, and the base of the module's block by a
# descriptor.
    .globl _start
_start:
    leaq variable@tlsld(%rip), %rdi
    call address
    leaq _TLS_MODULE_BASE_@tlsdesc(%rip), %rax
    call *_TLS_MODULE_BASE_@tlscall(%rax)
    leaq variable@dtpoff(%rax), %rax
address:
    ret
    .section .tdata, "awT", @progbits
variable:
    .quad 1
