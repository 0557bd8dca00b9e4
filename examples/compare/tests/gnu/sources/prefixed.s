	# PowerPC64's prefixed instructions: R_PPC64_TLS one byte into the instruction
	.text
	.globl _start
	.type _start, %function
_start:
	pld 3, x@got@tprel@pcrel(0), 1
	add 3, 3, x@tls@pcrel
	pld 4, y@got@tprel@pcrel(0), 1
	lwzx 5, 4, y@tls@pcrel
	pld 6, y@got@tprel@pcrel(0), 1
	stdx 5, 6, y@tls@pcrel
	blr
	.size _start, . - _start
	.section .tdata, "awT", @progbits
	.globl x, y
	.type x, %tls_object
	.type y, %tls_object
x:	.quad 1
y:	.quad 2
	.size x, 8
	.size y, 8
