# A ULEB128 number that lacks its second half: another's is at another place.
    .globl _start
_start:
    nop
    .data
one:
    .byte 0x80, 0
two:
    .byte 0x80, 0
    .reloc one, R_RISCV_SET_ULEB128, _start + 4
    .reloc two, R_RISCV_SUB_ULEB128, _start
