# What loongarch64.s refers to in a shared library.
    .section .tdata,"awT",@progbits
    .globl other
    .type other,@object
    .size other,8
other:
    .quad 5
