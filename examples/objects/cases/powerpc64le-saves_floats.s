# Calls of one that saves floating-point registers, which ld.lld 19 doesn't have.
    .abiversion 2
    .text
    .globl _start
_start:
    bl _savefpr_28
