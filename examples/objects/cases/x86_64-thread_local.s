# A thread-local variable, which elsewhere is none.
    .globl variable
    .section .tdata, "awT", @progbits
    .type variable, @object
variable:
    .quad 1
