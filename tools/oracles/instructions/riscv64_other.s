# A variable elsewhere.
    .section .tdata, "awT", @progbits
    .globl other
    .type other, @object
    .size other, 8
other:
    .quad 1
