	.macro go_back
	ret
	.endm
	.macro go_to name
	bl \name
	.endm
	.include "common.s"
	.text
	.globl _start
	.type _start, %function
_start:
	.cfi_startproc
	beqz $a0, 2f
	.rept 24
	la.pcrel $a0, datum
	.endr
1:	la.got $a1, datum
	call36 constructor
	.balign 16
	bnez $a1, 1b
2:	la.tls.ie $a2, x
	pcalau12i $a3, %ie_pc_hi20(y)
	.reloc .-4, R_LARCH_RELAX
	ld.d $a4, $a3, %ie_pc_lo12(y)
	.reloc .-4, R_LARCH_RELAX
	la.tls.le $a5, y
	la.tls.desc $a0, x
	pcalau12i $t0, %ie_pc_hi20(z)
	.reloc .-4, R_LARCH_RELAX
	ld.d $t1, $t0, %ie_pc_lo12(z)
	.reloc .-4, R_LARCH_RELAX
	la.tls.gd $a0, y
	la.tls.ld $a0, y
	bl undefined
	bl indirect
	bl error
	b 1b
	.cfi_endproc
	.section .tbss, "awT", %nobits
	.skip 0x2000
	.globl z
z:	.skip 8
