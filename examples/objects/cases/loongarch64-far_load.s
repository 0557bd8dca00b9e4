# A load from the GOT that is marked, of what 32 bits don't reach.
    .globl _start
_start:
.Lhigh:
    pcalau12i $a0, %got_pc_hi20(far)
    .reloc .Lhigh, R_LARCH_RELAX
.Llow:
    ld.d $a0, $a0, %got_pc_lo12(far)
    .reloc .Llow, R_LARCH_RELAX
    ret
    .section distant, "aw", @progbits
far:
    .quad 1
