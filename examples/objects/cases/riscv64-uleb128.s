# ULEB128 numbers by pairs of relocations.
    .globl _start
_start:
    nop
    nop
    .data
one:
    .byte 0x80, 0
two:
    .byte 0x80, 0x80, 0
    .reloc one, R_RISCV_SET_ULEB128, _start + 8
    .reloc one, R_RISCV_SUB_ULEB128, _start
    .reloc two, R_RISCV_SET_ULEB128, two
    .reloc two, R_RISCV_SUB_ULEB128, one - 500
