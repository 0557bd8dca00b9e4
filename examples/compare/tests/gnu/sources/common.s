# What is in the program of each architecture: a local function, an indirect one, constructors,
# which linkers sort, and thread-local variables.
	.text
	.type error, %function
error:
	.cfi_startproc
	go_back
	.cfi_endproc
	.size error, .-error
	.globl indirect
	.type indirect, %gnu_indirect_function
indirect:
	go_back
	.size indirect, .-indirect
	.globl constructor
	.type constructor, %function
constructor:
	.cfi_startproc
	go_back
	.cfi_endproc
	.weak undefined
	.section .init_array, "aw", %init_array
	.quad constructor
	.section .init_array.101, "aw", %init_array
	.quad error
	.section .data, "aw"
	.globl datum
	.skip 64
	.balign 8
datum:
	.quad datum
	.section .tbss, "awT", %nobits
	.globl x
	.balign 8
x:	.skip 8
	.globl y
y:	.skip 8
