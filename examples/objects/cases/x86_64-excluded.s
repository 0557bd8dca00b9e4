# An address in a section that is left out.
    .globl _start
_start:
    lea excluded(%rip), %rax
    .section .data.excluded, "awe", @progbits
excluded:
    .quad 1
