start:
beqz $r5, far
beqz $r6, near
.space 4194292
near:
nop
beqz $r7, start
far:
beqz $r8, near
bl start
