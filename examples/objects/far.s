# A jump to another section, for the error of one that does not reach.
    .globl _start
_start:
    .fill 7, 4, 0x13
    jal ra, far
    .section distant, "ax"
    .globl far
far:
    ret
