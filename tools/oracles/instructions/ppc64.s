# Instructions that linkers rewrite, one relocation after the other. `tools/link_choices` links them.
    .abiversion 2
    .machine power10
    .globl _start
    .type _start,@function
    .text
_start:
    # addresses near the TOC pointer: an addi, and loads and stores of each form
    addis 3,2,near@toc@ha
    addi 3,3,near@toc@l
    addis 4,2,near@toc@ha
    lwz 5,near@toc@l(4)
    addis 4,2,near@toc@ha
    ld 5,near@toc@l(4)
    addis 4,2,near@toc@ha
    lwa 5,near@toc@l(4)
    addis 4,2,near@toc@ha
    std 5,near@toc@l(4)
    addis 4,2,near@toc@ha
    lfd 1,near@toc@l(4)
    addis 4,2,near@toc@ha
    stb 5,near@toc@l(4)
    # addresses that are not near it
    addis 4,2,far@toc@ha
    lwz 5,far@toc@l(4)
    addis 3,2,far@toc@ha
    addi 3,3,far@toc@l
    # addresses in the TOC
    addis 6,2,.LC0@toc@ha
    ld 6,.LC0@toc@l(6)
    # ... by prefixed instructions
    pld 7,near@got@pcrel
    pld 7,far@got@pcrel
    # initial-exec
    addis 8,2,own@got@tprel@ha
    ld 8,own@got@tprel@l(8)
    add 8,8,own@tls
    addis 8,2,own@got@tprel@ha
    ld 8,own@got@tprel@l(8)
    lbzx 9,8,own@tls
    lhzx 9,8,own@tls
    lhax 9,8,own@tls
    lwzx 9,8,own@tls
    lwax 9,8,own@tls
    ldx 9,8,own@tls
    stbx 9,8,own@tls
    sthx 9,8,own@tls
    stwx 9,8,own@tls
    stdx 9,8,own@tls
    lfsx 1,8,own@tls
    lfdx 1,8,own@tls
    stfsx 1,8,own@tls
    stfdx 1,8,own@tls
    # general-dynamic, of a variable here and of one elsewhere
    addis 3,2,own@got@tlsgd@ha
    addi 3,3,own@got@tlsgd@l
    bl __tls_get_addr(own@tlsgd)
    nop
    addis 3,2,other@got@tlsgd@ha
    addi 3,3,other@got@tlsgd@l
    bl __tls_get_addr(other@tlsgd)
    nop
    # local-dynamic
    addis 3,2,own@got@tlsld@ha
    addi 3,3,own@got@tlsld@l
    bl __tls_get_addr(own@tlsld)
    nop
    addis 3,3,own@dtprel@ha
    addi 3,3,own@dtprel@l
    lwz 4,own@dtprel@l(3)
    # the same by prefixed instructions, and a call with a nop after it
    pld 8,own@got@tprel@pcrel
    add 8,8,own@tls@pcrel
    pld 8,own@got@tprel@pcrel
    add 9,8,own@tls@pcrel
    lbzx 9,8,own@tls@pcrel
    lhzx 9,8,own@tls@pcrel
    lhax 9,8,own@tls@pcrel
    lwzx 9,8,own@tls@pcrel
    lwax 9,8,own@tls@pcrel
    ldx 9,8,own@tls@pcrel
    stbx 9,8,own@tls@pcrel
    sthx 9,8,own@tls@pcrel
    stwx 9,8,own@tls@pcrel
    stdx 9,8,own@tls@pcrel
    lfsx 1,8,own@tls@pcrel
    lfdx 1,8,own@tls@pcrel
    stfsx 1,8,own@tls@pcrel
    stfdx 1,8,own@tls@pcrel
    paddi 3,0,own@got@tlsgd@pcrel,1
    bl __tls_get_addr@notoc(own@tlsgd)
    paddi 3,0,own@got@tlsgd@pcrel,1
    bl __tls_get_addr@notoc(own@tlsgd)
    nop
    paddi 3,0,other@got@tlsgd@pcrel,1
    bl __tls_get_addr@notoc(other@tlsgd)
    paddi 3,0,own@got@tlsld@pcrel,1
    bl __tls_get_addr@notoc(own@tlsld)
    paddi 3,3,own@dtprel
    # calls
    bl elsewhere
    nop
    bl here
    nop
    blr
    .globl here
    .type here,@function
here:
    addis 2,12,.TOC.-here@ha
    addi 2,2,.TOC.-here@l
    .localentry here,.-here
    blr

    .section .toc,"aw",@progbits
.LC0:
    .tc far[TC],far
    .data
    .globl near, far
    .balign 8
near:
    .quad 1, 2
    .space 0x20000
far:
    .quad 3
    .section .tdata,"awT",@progbits
    .balign 8
    .space 0x10000
    .globl own
    .type own,@object
own:
    .quad 4
