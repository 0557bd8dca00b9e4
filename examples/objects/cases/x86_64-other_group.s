# A group of which another object has one too.
    .globl member1
    .section .text.group, "axG", @progbits, group, comdat
member1:
    ret
