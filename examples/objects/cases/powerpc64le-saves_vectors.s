# Calls of those that save and restore vector registers, which ld.lld 19 doesn't have.
    .abiversion 2
    .text
    .globl _start
_start:
    bl _savevr_29
    bl _restvr_20
