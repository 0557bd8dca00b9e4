// A program over the library, at any address. In this order tools/sixth looks at its instructions.
        .text
        .globl  _start, chosen, own
_start: bl      work
        adrp    x0, :got:level
        ldr     x0, [x0, :got_lo12:level]
        adrp    x0, :got:own
        ldr     x0, [x0, :got_lo12:own]
        adrp    x1, :gottprel:depth
        ldr     x1, [x1, :gottprel_lo12:depth]
        adrp    x0, :tlsgd:depth
        add     x0, x0, :tlsgd_lo12:depth
        bl      chosen
        ret
        .type   chosen, %gnu_indirect_function
chosen: ret

        .data
        .p2align 3
own:    .quad   level
        .quad   own
