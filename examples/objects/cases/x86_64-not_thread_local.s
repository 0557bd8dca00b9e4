# A variable that elsewhere is thread-local.
    .globl _start
    .type variable, @object
_start:
    lea variable(%rip), %rax
