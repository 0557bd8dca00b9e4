# A branch, whose relocation `make` puts behind those of a later call that becomes shorter.
    .globl _start
_start:
    call f
    j .Lend
    call f
    ebreak
.Lend:
    ret
f:
    ret
