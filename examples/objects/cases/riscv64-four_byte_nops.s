# A tail call, and behind it an alignment by nops of four bytes, of which there are 12.
    .globl _start, aligned, f
    .text
_start:
    tail f
    .option push
    .option norvc
    .balign 16
    .option pop
aligned:
    ret
f:
    ret
