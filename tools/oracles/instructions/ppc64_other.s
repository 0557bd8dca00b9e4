# What ppc64.s refers to in a shared library.
    .abiversion 2
    .text
    .globl elsewhere, __tls_get_addr
    .type elsewhere,@function
    .type __tls_get_addr,@function
elsewhere:
    blr
__tls_get_addr:
    blr
    .section .tdata,"awT",@progbits
    .globl other
    .type other,@object
    .size other,8
other:
    .quad 5
