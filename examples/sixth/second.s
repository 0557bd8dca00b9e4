// What the program's start calls, and its variables.
        .text
        .p2align 4
        .globl  after, chosen, chosen_again, distant, value, counter
after:  bl      chosen_again
        ret
        .type   chosen, %gnu_indirect_function
chosen: ret
        .type   chosen_again, %gnu_indirect_function
chosen_again:
        ret

        .section .far, "ax"
        nop
distant:
        b       after                           // out of reach

        .data
        .p2align 3
value:  .quad   0x1122334455667788

        .section .tdata, "awT"
        .p2align 4
        .quad   0xa
counter:
        .quad   0xb
