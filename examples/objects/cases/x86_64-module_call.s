# A local-dynamic sequence whose call has no relocation, and a call behind it.
    .globl _start
_start:
    leaq variable@tlsld(%rip), %rdi
    call address
    call __tls_get_addr@PLT
address:
    ret
    .globl __tls_get_addr
    .section .text.other, "ax", @progbits
__tls_get_addr:
    ret
    .section .tdata, "awT", @progbits
variable:
    .quad 1
