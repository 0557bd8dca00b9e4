# Loads of the GOT entries of what the linker defines, and of thread-local storage that nothing
# defines. A section that is left out.
    .weak absent, absent_thread
    .globl _start
_start:
    mov __stop_startup@GOTPCREL(%rip), %rax
    cmp __start_startup@GOTPCREL(%rip), %rax
    call *_etext@GOTPCREL(%rip)
    jmp *__start_startup@GOTPCREL(%rip)
    mov absent@GOTPCREL(%rip), %rax
    movq absent_thread@gottpoff(%rip), %rax
    movq %fs:absent_thread@tpoff, %rax
    leaq absent_thread@tlsdesc(%rip), %rax
    call *absent_thread@tlscall(%rax)
    .section startup, "ax"
    ret
    .data
    .quad 1
    .section .data.excluded, "awe", @progbits
    .quad 2
    .bss
    .quad 0
    .section .tdata, "awT", @progbits
    .quad 1
