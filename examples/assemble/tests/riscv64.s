start:
nop
j end
call start
beqz x10, end
beqz x31, start
lla x5, data
lla x31, end
data:
.quad start
.quad end
end:
