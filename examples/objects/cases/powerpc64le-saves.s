# Calls of functions that save and restore general registers, which linkers provide.
    .abiversion 2
    .text
    .globl _start
_start:
    bl _savegpr0_29
    bl _savegpr0_31
    bl _restgpr0_29
    bl _savegpr1_30
    bl _restgpr1_14
