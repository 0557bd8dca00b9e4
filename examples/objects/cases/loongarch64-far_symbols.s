# Symbols that are more than 2 GiB from their sections, by loads from the GOT, one of them marked, of
# addresses and of offsets from the thread pointer.
    .globl _start, far, below, far_variable, variable_below
_start:
    la.got $a0, far
.Lhigh:
    pcalau12i $a1, %got_pc_hi20(below)
    .reloc .Lhigh, R_LARCH_RELAX
.Llow:
    ld.d $a1, $a1, %got_pc_lo12(below)
    .reloc .Llow, R_LARCH_RELAX
    la.tls.ie $a2, far_variable
    la.tls.ie $a3, variable_below
    ret
    .data
object:
    .quad 1
    .set far, object + 0x180000000
    .set below, object - 0x180000000
    .section .tdata, "awT", @progbits
variable:
    .quad 1
    .set far_variable, variable + 0x90000000
    .set variable_below, variable - 0x90000000
