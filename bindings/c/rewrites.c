/* SPDX-License-Identifier: MIT OR Apache-2.0 */
/* Rewrites: relaxes x86-64's `mov x@GOTPCREL(%rip), %r10` to `mov $x, %r10` where x is near, and
 * then applies the relocation that is left. */
#include <stdio.h>

#include "linker_utils.h"

int main(void) {
    uint8_t bytes[7] = {0x4c, 0x8b, 0x15, 0x00, 0x00, 0x00, 0x00};
    uint64_t offset = 3; /* of the relocation R_X86_64_REX_GOTPCRELX, after 3 bytes of the mov */
    int64_t addend = -4;
    const struct linker_utils_section section = linker_utils_section_of(bytes, sizeof bytes);
    uint16_t machine = LINKER_UTILS_X86_64;
    uint32_t rewrite = LINKER_UTILS_X86_64_REWRITE_REX_MOV_INDIRECT_TO_ABSOLUTE;

    if (linker_utils_can_apply(machine, rewrite, 3, &section, offset)) return 1;
    uint32_t status = linker_utils_apply(machine, rewrite, 3, &section, &offset, &addend);
    if (status != LINKER_UTILS_OK) {
        fprintf(stderr, "%s\n", linker_utils_status_text(status));
        return 1;
    }
    uint32_t modifier;
    if (linker_utils_next_modifier(machine, rewrite, 3, &modifier)) return 1;

    /* R_X86_64_32S of x is left, at the new offset with the new addend */
    uint64_t value = 0x401000 + (uint64_t)addend;
    for (int i = 0; i < 4; i++) bytes[offset + i] = (uint8_t)(value >> (8 * i));
    for (size_t i = 0; i < sizeof bytes; i++) printf("%02x", bytes[i]);
    printf("\n%s\n", modifier == LINKER_UTILS_MODIFIER_NORMAL ? "next one too" : "skip the next");
    return 0;
}
