# A word for a function that is too far: no thunk is put into data.
    .globl _start, far
_start:
    ret
    .data
    .word far@PLT - .
    .section distant, "ax"
far:
    ret
