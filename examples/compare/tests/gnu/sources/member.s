# A member of an archive that isn't linked, with a global symbol whose name another object's local
# symbol has.
	.text
	.globl error
	.type error, %function
error:
	nop
	go_to elsewhere
	nop
	nop
	go_to elsewhere
	nop
	nop
	nop
	.size error, .-error
