	.macro go_back
	ret
	.endm
	.macro go_to name
	call \name
	.endm
	.include "common.s"
	.text
	.globl _start
	.type _start, %function
_start:
	.cfi_startproc
	add x@gottpoff(%rip), %rax
	add y@gottpoff(%rip), %r13
	add x@gottpoff(%rip), %rsp
	mov y@gottpoff(%rip), %rcx
	call indirect
	call error
	call constructor@PLT
	mov datum@GOTPCREL(%rip), %rdx
	jmp indirect
	.cfi_endproc
