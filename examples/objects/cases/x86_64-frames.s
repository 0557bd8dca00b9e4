# Unwind information with addresses of all kinds that are supported.
    .globl _start
_start:
    ret
second:
    ret
third:
    ret
    .section .eh_frame, "a", @progbits
personal: # with a personality of 8 bytes, and addresses that are relative
    .long relative - . - 4
    .long 0
    .byte 1
    .asciz "zPLRS"
    .byte 1, 0x78, 16
    .byte 12, 0, 0, 0, 0, 0, 0, 0, 0, 0, 0, 0x1b
    .balign 8
relative:
    .long plain - . - 4
    .long . - personal
    .long _start - .
    .long 1
    .quad 0
plain: # with addresses of 8 bytes, and a register of two
    .long absolute - . - 4
    .long 0
    .byte 3
    .asciz ""
    .byte 1, 0x78, 0x90, 0
    .balign 8
absolute:
    .long short - . - 4
    .long . - plain
    .quad second
    .quad 1
short: # with addresses of 4 bytes
    .long unsigned - . - 4
    .long 0
    .byte 1
    .asciz "zRBG"
    .byte 1, 0x78, 16, 1, 3
    .balign 8
unsigned:
    .long end - . - 4
    .long . - short
    .long third
    .long 1
    .quad 0
end:
