# Data of one of several objects and members, which asks for others.
    .globl NAME
    .data
NAME:
    .byte BYTE
    .quad WANTED
