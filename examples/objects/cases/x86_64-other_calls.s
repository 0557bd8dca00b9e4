# General-dynamic sequences that no rewrite is for, since their calls are others: one has no relocation,
# and behind it is a call that has one; and one is of another function. A third sequence is as it has to
# be. The program prints the three variables.
    .globl _start, put, another
_start:
    movl $158, %eax # arch_prctl
    movl $0x1002, %edi # ARCH_SET_FS
    leaq pointer(%rip), %rsi
    syscall
    .byte 0x66
    leaq first@tlsgd(%rip), %rdi
    .value 0x6666
    rex64
    call address
    call put
    .byte 0x66
    leaq second@tlsgd(%rip), %rdi
    .value 0x6666
    rex64
    call another@PLT
    call put
    .byte 0x66
    leaq third@tlsgd(%rip), %rdi
    .value 0x6666
    rex64
    call __tls_get_addr@PLT
    call put
    movl $60, %eax # exit
    xorl %edi, %edi
    syscall
another:
address:
    movq 8(%rdi), %rax
    leaq block(%rip), %rdi
    addq %rdi, %rax
    ret
    .section .text.put, "ax", @progbits
put:
    movq %rax, %rsi
    movl $1, %eax # write
    movl $1, %edi
    movl $2, %edx
    syscall
    ret
    .section .tdata, "awT", @progbits
    .balign 8
first:
    .ascii "1\n"
    .balign 8
second:
    .ascii "2\n"
    .balign 8
third:
    .ascii "3\n"
    .balign 8
    .data
    .balign 8
block: # the variables of the only thread, and its pointer
    .ascii "1\n\0\0\0\0\0\0002\n\0\0\0\0\0\0003\n\0\0\0\0\0\000"
pointer:
    .quad pointer
