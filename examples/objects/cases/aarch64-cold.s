# A load from the GOT to whose second half other code leads, behind a first half of its own. The program
# says whether it gets the address.
    .globl _start, variable
_start:
    b other
    adrp x0, :got:variable
second:
    ldr x0, [x0, :got_lo12:variable]
    adrp x1, variable
    add x1, x1, :lo12:variable
    cmp x0, x1
    adr x1, right
    adr x2, wrong
    csel x1, x1, x2, eq
    mov x8, 64 // write
    mov x0, 1
    mov x2, 6
    svc 0
    mov x8, 93 // exit
    mov x0, 0
    svc 0
right:
    .ascii "right\n"
wrong:
    .ascii "wrong\n"
    .section .text.other, "ax"
other:
    adrp x0, :got:variable
    b second
    .bss
    .skip 0x200000 // farther than `adr` reaches
variable:
    .xword 0
