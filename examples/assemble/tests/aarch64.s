start:
nop
b end
bl start
cbz x3, end
cbz x30, start
adr x0, data
adrp x1, data
add x1, x1, :lo12:data
adrp x21, end
ldr x21, [x21, :lo12:data]
data:
.quad start
.quad end
end:
