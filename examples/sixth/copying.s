// A program over the library, at a fixed address, that doesn't refer to it by the GOT.
        .text
        .globl  _start
_start: adrp    x0, level
        ldr     x0, [x0, :lo12:level]
        adrp    x1, work
        add     x1, x1, :lo12:work
        ret
