# What linkers rewrite on RISC-V. `near` and `edge` have an offset from the thread pointer of 12 bits.
# No linker rewrites the load from the GOT: the address of the same symbol is what it should become.
    .option norvc
    .option relax
    .text
    .globl _start
_start:
    lui a0, %tprel_hi(near)
    add a0, a0, tp, %tprel_add(near)
    addi a0, a0, %tprel_lo(near)

    lui a1, %tprel_hi(near)
    add a2, a1, tp, %tprel_add(near)
    lw a3, %tprel_lo(near)(a2)
    sd a3, %tprel_lo(near)(a2)
    fld fa0, %tprel_lo(near)(a2)
    fsw fa0, %tprel_lo(near)(a2)

    lui a4, %tprel_hi(edge)
    add a4, a4, tp, %tprel_add(edge)
    lbu a5, %tprel_lo(edge)(a4)
    addiw a5, a4, %tprel_lo(edge)

    lui a4, %tprel_hi(far)
    add a4, a4, tp, %tprel_add(far)
    sb a5, %tprel_lo(far)(a4)
    ld a5, %tprel_lo(far)(a4)

d0: auipc a0, %tlsdesc_hi(near)
    ld a1, %tlsdesc_load_lo(d0)(a0)
    addi a0, a0, %tlsdesc_add_lo(d0)
    jalr t0, 0(a1), %tlsdesc_call(d0)

d1: auipc a2, %tlsdesc_hi(far)
    ld a1, %tlsdesc_load_lo(d1)(a2)
    addi a0, a2, %tlsdesc_add_lo(d1)
    jalr t0, 0(a1), %tlsdesc_call(d1)

d2: auipc a0, %tlsdesc_hi(other)
    ld t1, %tlsdesc_load_lo(d2)(a0)
    addi a0, a0, %tlsdesc_add_lo(d2)
    jalr t0, 0(t1), %tlsdesc_call(d2)

g0: auipc a0, %got_pcrel_hi(data)
    ld a1, %pcrel_lo(g0)(a0)

    .option norelax
p0: auipc a0, %pcrel_hi(data)
    addi a1, a0, %pcrel_lo(p0)

    lui a0, %tprel_hi(near)
    add a0, a0, tp, %tprel_add(near)
    addi a0, a0, %tprel_lo(near)

d3: auipc a0, %tlsdesc_hi(near)
    ld a1, %tlsdesc_load_lo(d3)(a0)
    addi a0, a0, %tlsdesc_add_lo(d3)
    jalr t0, 0(a1), %tlsdesc_call(d3)

d4: auipc a0, %tlsdesc_hi(far)
    ld a1, %tlsdesc_load_lo(d4)(a0)
    addi a0, a0, %tlsdesc_add_lo(d4)
    jalr t0, 0(a1), %tlsdesc_call(d4)

d5: auipc a0, %tlsdesc_hi(other)
    ld a1, %tlsdesc_load_lo(d5)(a0)
    addi a0, a0, %tlsdesc_add_lo(d5)
    jalr t0, 0(a1), %tlsdesc_call(d5)

    .data
    .globl data
data:
    .quad 1

    .section .tdata, "awT", @progbits
    .globl near
near:
    .zero 0x7f8
    .globl edge
edge:
    .zero 0x1234
    .globl far
far:
    .quad 1
