# A branch in data that doesn't reach: no thunk is put there.
    .globl _start, far
_start:
    blr
    .data
place:
    .long 0x41820000
    .reloc place, R_PPC64_REL14, far
    .section distant, "ax"
far:
    blr
