/* code without the C extension, which goes to code with it */
    .globl far, further, again
    .text
far:
    tail further
    nop
further:
    tail near
    .balign 16
again:
    call near
    ret
