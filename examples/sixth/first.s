// The program's start. It is assembled for AArch64; the test then changes the relocations to those of
// the sixth architecture.
        .text
        .globl  _start
_start: bl      after
        bl      chosen                          // an indirect function
        bl      distant                         // out of reach
        b       distant
        adrp    x0, :got:value
        ldr     x0, [x0, :got_lo12:value]
        adrp    x1, :gottprel:counter
        ldr     x1, [x1, :gottprel_lo12:counter]
        add     x2, x3, :tprel_hi12:counter, lsl 12
        add     x2, x2, :tprel_lo12_nc:counter
        adrp    x0, :tlsgd:counter
        add     x0, x0, :tlsgd_lo12:counter
        adrp    x4, __sixth_pointer             // which linkers define
        add     x4, x4, :lo12:__sixth_pointer
        adrp    x5, value
        ldr     x5, [x5, :lo12:value]
        bl      _keep_19                        // and these
        bl      _keep_20
        ret

        .data
        .p2align 3
        .quad   value
        .quad   value - .                       // the test makes it R_SIXTH_GOT_DISTANCE
