# ULEB128 numbers by a pair of relocations, and by one alone.
    .globl _start
_start:
    nop
    .data
one:
    .byte 0x85, 0
two:
    .byte 0x83, 0
three:
    .byte 0x81, 0x80, 0
    .reloc one, R_LARCH_ADD_ULEB128, _start + 4
    .reloc one, R_LARCH_SUB_ULEB128, _start
    .reloc two, R_LARCH_ADD_ULEB128, _start
    .reloc three, R_LARCH_SUB_ULEB128, _start + 8
