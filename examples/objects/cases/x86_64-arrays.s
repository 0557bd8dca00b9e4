# Arrays of functions, of which those with a priority need no alignment, behind an odd number of bytes.
# The program calls all of them; each prints a line.
    .globl _start
_start:
    leaq __init_array_start(%rip), %rbx
    leaq __init_array_end(%rip), %rbp
next:
    cmpq %rbx, %rbp
    je end
    call *(%rbx)
    addq $8, %rbx
    jmp next
end:
    movl $60, %eax # exit
    xorl %edi, %edi
    syscall
first:
    leaq lines(%rip), %rsi
    jmp put
second:
    leaq lines + 2(%rip), %rsi
put:
    movl $1, %eax # write
    movl $1, %edi
    movl $2, %edx
    syscall
    ret
    .section odd, "a"
lines:
    .ascii "1\n2\n0"
    .section .init_array.00005, "aw", @init_array
    .quad first
    .section .init_array, "aw", @init_array
    .balign 8
    .quad second
