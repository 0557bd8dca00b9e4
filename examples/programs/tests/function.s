	.globl	f, twice
f:	mov	%rdi, %rax
	imul	$scale, %rax, %rax
	movabs	$offset, %rcx
	add	%rcx, %rax
	shl	$shift, %rax
	jmp	twice
twice:	add	%rax, %rax
	ret
