start:
je near
je near
jmp near
.space 122
near:
je far
jmp far
.space 124
far:
je near
jmp start
je start
