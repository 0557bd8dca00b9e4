start:
nop
b end
bl start
beq end
beq start
nop
nop
paddi 3, 0, data@pcrel, 1
nop
nop
nop
nop
nop
nop
paddi 31, 0, end@pcrel, 1
data:
.quad start
.quad end
end:
