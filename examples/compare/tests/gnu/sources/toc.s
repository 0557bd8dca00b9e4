	# PowerPC64's words of `.toc`, in a program whose `.got` is empty
	.abiversion 2
	.text
	.globl _start
	.type _start, %function
_start:
	addis 3, 2, .La@toc@ha
	ld 3, .La@toc@l(3)
	addis 4, 2, .Lb@toc@ha
	ld 4, .Lb@toc@l(4)
	blr
	.size _start, . - _start
	.data
	.globl datum, other
datum:	.quad 1
other:	.quad 2
	.section .toc, "aw", @progbits
.La:	.quad datum
.Lb:	.quad other
