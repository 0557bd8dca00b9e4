	.macro go_back
	ret
	.endm
	.macro go_to name
	call \name
	.endm
	.include "common.s"
	.text
	.globl _start
	.type _start, %function
_start:
	.cfi_startproc
	.option push
	.option norelax
	lla gp, __global_pointer$
	.option pop
	beqz a0, 2f
	# addresses near gp, with nothing between that doesn't move
	.rept 24
	lla a0, datum
	.endr
1:	lw a1, datum
	sd a1, datum, a2
	call constructor
	tail error
	.balign 16
	bnez a1, 1b
2:	lui a3, %hi(small)
	addi a3, a3, %lo(small)
	lui a4, %hi(datum)
	ld a4, %lo(datum)(a4)
	call undefined
	call small
	lla t0, undefined
	ld t1, undefined
	call indirect
	lui a5, %tprel_hi(x)
	add a5, a5, tp, %tprel_add(x)
	addi a5, a5, %tprel_lo(x)
	la.tls.ie a6, y
	j 1b
	.cfi_endproc
	.globl small
	.set small, 0x44
