start:
beqz x10, far
beqz x11, near
beqz x12, near
.space 4084
near:
beqz x13, start
.space 8
beqz x14, start
far:
call start
lla x15, start
