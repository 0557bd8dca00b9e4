start:
nop
jmp end
je end
je start
call start
leaq data(%rip), %rax
leaq end(%rip), %r9
leaq end(%rip), %r15
jmp far
je far
.space 100
data:
.quad start
.quad end
end:
.space 30
far:
jmp start
