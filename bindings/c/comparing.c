/* SPDX-License-Identifier: MIT OR Apache-2.0 */
/* Comparing: what two linkers made of a relocation of an object: the rewrite, and the symbol. */
#include <elf.h>
#include <stdio.h>

#include "linker_utils.h"
#include "linker_utils_types.h" /* R_X86_64_CODE_4_GOTPCRELX, which older <elf.h> lack */

/* Prints what stands in a linked section, at an address, for a relocation in that of the object. */
static void show(uint32_t r_type, int64_t addend, const uint8_t *object, size_t len, uint64_t at,
                 const uint8_t *linked, uint64_t address) {
    struct linker_utils_recognised found[LINKER_UTILS_CANDIDATES];
    struct linker_utils_window_bounds window;
    size_t count;
    const struct linker_utils_windows all = {object, len, at, NULL, 0, NULL, 0};
    if (linker_utils_recognise_window(EM_X86_64, r_type, &all, &window)) return;
    uint64_t begin = at - window.back;
    const struct linker_utils_windows windows = {object + begin, window.len, window.back, NULL, 0,
                                                 linked + begin, window.len};
    if (linker_utils_recognise(EM_X86_64, r_type, &windows, found, LINKER_UTILS_CANDIDATES, &count))
        return;
    for (size_t i = 0; i < count; i++) {
        struct linker_utils_operands operands =
            linker_utils_operands_of(0, addend, address + begin + found[i].offset);
        struct linker_utils_destination to;
        if (linker_utils_get_destination(EM_X86_64, &found[i], &windows, &operands, 0, &to))
            continue;
        printf("rewrite %u, %#x\n", found[i].choice.rewrite, (unsigned)to.symbol);
    }
}

int main(void) { /* mov x@GOTPCREL(%rip), %rax became lea x(%rip), %rax, and mov $x, %rax */
    const uint8_t object[7] = {0x48, 0x8b, 0x05}, one[7] = {0x48, 0x8d, 0x05, 0x09, 0x30};
    const uint8_t other[7] = {0x48, 0xc7, 0xc0, 0x10, 0x50, 0x40};
    /* the same of %r16, with a prefix of two bytes */
    const uint8_t rex2[8] = {0xd5, 0x48, 0x8b, 0x05}, lea[8] = {0xd5, 0x48, 0x8d, 0x05, 0x08, 0x30};
    show(R_X86_64_REX_GOTPCRELX, -4, object, 7, 3, one, 0x401000);
    show(R_X86_64_REX_GOTPCRELX, -4, object, 7, 3, other, 0x402000);
    show(R_X86_64_CODE_4_GOTPCRELX, -4, rex2, 8, 4, lea, 0x401000);
    return 0;
}
