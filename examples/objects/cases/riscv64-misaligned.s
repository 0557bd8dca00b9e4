# Two bytes, and behind them an alignment by nops of four bytes, of which there are 12.
    .globl _start
    .text
_start:
    c.nop
    .option push
    .option norvc
    .balign 16
    .option pop
    ret
