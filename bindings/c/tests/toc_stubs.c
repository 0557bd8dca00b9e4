/* SPDX-License-Identifier: MIT OR Apache-2.0 */
/* Prints a program of PowerPC64, for assemblers, that goes to a function by stubs that the library
 * writes. It ends with status 0 if each stub gets there with the function's address in r12. */
#include <linker_utils.h>
#include <stdio.h>
#include <stdlib.h>

#define CODE UINT64_C(0x10000000)
#define FUNCTION (CODE + 0x400)
#define TOC (CODE + 0x18000)
#define WORD (CODE + 0x700)

static void print_stub(unsigned offset, uint32_t kind, uint64_t place, uint64_t target) {
    uint8_t bytes[64];
    struct linker_utils_stub stub;
    uint32_t status = linker_utils_get_stub(LINKER_UTILS_PPC64, kind, &stub);
    if (!status)
        status = linker_utils_write_stub(LINKER_UTILS_PPC64, kind, place, target, bytes, stub.len);
    if (status) fprintf(stderr, "toc_stubs: %s\n", linker_utils_status_text(status)), exit(1);
    printf(".org %#x\nstub_%u:\n", offset, kind);
    for (size_t i = 0; i < stub.len; i++) printf(".byte %u\n", bytes[i]);
}

int main(void) {
    puts(".abiversion 2\n.globl _start\n"
         "_start: lis 2, 0x1001; ori 2, 2, 0x8000; li 31, 0; stdu 1, -64(1)\n"
         "bl stub_5; ld 5, 24(1); cmpd 5, 2; bne fail\n"
         "bl stub_5 + 4; bl stub_6; bl stub_7; bl stub_8\n"
         "cmpdi 31, 5; bne fail; li 3, 0; li 0, 1; sc\n"
         "fail: li 3, 1; li 0, 1; sc");
    print_stub(0x100, LINKER_UTILS_STUB_TOC_LOAD, TOC, WORD);
    print_stub(0x140, LINKER_UTILS_STUB_TOC_FAR, TOC, WORD);
    print_stub(0x180, LINKER_UTILS_STUB_PREFIXED_LOAD, CODE + 0x180, WORD);
    print_stub(0x1c0, LINKER_UTILS_STUB_PREFIXED_JUMP, CODE + 0x1c0, FUNCTION);
    puts(".org 0x400\nlis 5, 0x1000; ori 5, 5, 0x400; cmpd 5, 12; bne fail; addi 31, 31, 1; blr\n"
         ".org 0x700\n.quad 0x10000400");
    return 0;
}
