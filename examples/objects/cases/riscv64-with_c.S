/* code with the C extension, which goes to code without it */
    .globl _start, near
    .text
_start:
    call far
    tail near
    .balign 8
near:
    tail further
    call again
    ret
