# TLS descriptors of RISC-V whose second and third instructions have no mark of their own.
	.macro descriptor name
1:	auipc a0, %tlsdesc_hi(\name)
	.reloc 1b, R_RISCV_RELAX
	ld a1, %tlsdesc_load_lo(1b)(a0)
	addi a0, a0, %tlsdesc_add_lo(1b)
2:	jalr t0, 0(a1), %tlsdesc_call(1b)
	.reloc 2b, R_RISCV_RELAX
	add a0, a0, tp
	.endm
	.text
	.globl _start
_start:
	beqz a0, 3f
	descriptor x
	descriptor y
	lui a3, 0x12345
	descriptor x
3:	ret
	.section .tbss, "awT", @nobits
	.globl x
x:	.skip 0x2000
	.globl y
y:	.skip 8
