# A group, and a call of what only the group of another object has, and a member of an archive.
    .globl _start, first
_start:
    call member1
    .section .text.group, "axG", @progbits, group, comdat
first:
    ret
