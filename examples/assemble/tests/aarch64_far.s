start:
cbz x1, far
cbz x2, near
.space 1048564
near:
nop
cbz x3, start
far:
cbz x4, near
bl start
