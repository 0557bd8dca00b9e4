start:
beq far
beq near
.space 32756
near:
nop
beq start
far:
beq near
bl start
