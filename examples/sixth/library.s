// A shared library.
        .text
        .globl  work, level, depth
        .type   work, %function
work:   ret
        .data
        .p2align 3
        .type   level, %object
        .size   level, 8
level:  .quad   1
        .section .tdata, "awT"
        .p2align 3
        .type   depth, %object
        .size   depth, 8
depth:  .quad   2
