	.abiversion 2
	.macro go_back
	blr
	.endm
	.macro go_to name
	bl \name
	.endm
	.include "common.s"
	.text
	.globl _start
	.type _start, %function
_start:
	.cfi_startproc
	addis 2, 12, .TOC.-_start@ha
	addi 2, 2, .TOC.-_start@l
	.localentry _start, .-_start
	addis 3, 2, x@got@tprel@ha
	ld 3, x@got@tprel@l(3)
	add 3, 3, x@tls
	addis 9, 2, y@got@tprel@ha
	ld 9, y@got@tprel@l(9)
	lwzx 4, 9, y@tls
	addis 10, 2, y@got@tprel@ha
	ld 10, y@got@tprel@l(10)
	stdx 4, 10, y@tls
	addis 5, 13, x@tprel@ha
	addi 5, 5, x@tprel@l
	addis 6, 13, y@tprel@ha
	ld 6, y@tprel@l(6)
	addis 3, 2, x@got@tlsgd@ha
	addi 3, 3, x@got@tlsgd@l
	bl __tls_get_addr(x@tlsgd)
	nop
	addis 3, 2, y@got@tlsld@ha
	addi 3, 3, y@got@tlsld@l
	bl __tls_get_addr(y@tlsld)
	nop
	bl indirect
	nop
	bl undefined
	nop
	bl constructor
	nop
	bl error
	.cfi_endproc
