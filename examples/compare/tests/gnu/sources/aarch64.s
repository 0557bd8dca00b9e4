	.macro go_back
	ret
	.endm
	.macro go_to name
	bl \name
	.endm
	.include "common.s"
	.text
	.globl _start
	.type _start, %function
_start:
	.cfi_startproc
	bl indirect
	bl error
	bl constructor
	adrp x0, :got:datum
	ldr x0, [x0, #:got_lo12:datum]
	b indirect
	.cfi_endproc
