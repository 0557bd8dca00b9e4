start:
nop
b end
bl start
beqz $r4, end
beqz $r31, start
la.pcrel $r12, data
data:
.quad start
.quad end
end:
