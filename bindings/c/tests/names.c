/* SPDX-License-Identifier: MIT OR Apache-2.0 */
/* Prints each relocation type below 2^16 that the library has a name for, and each dynamic one, as
 * `NAME code`, by machines of <elf.h>. linker_utils_types.h has to say the same of each type. */
#include <elf.h>
#include <stdio.h>

#include "linker_utils.h"
#include "linker_utils_types.h"

_Static_assert(LINKER_UTILS_PPC64 == EM_PPC64, "EM_PPC64");
_Static_assert(LINKER_UTILS_X86_64 == EM_X86_64, "EM_X86_64");
_Static_assert(LINKER_UTILS_AARCH64 == EM_AARCH64, "EM_AARCH64");
_Static_assert(LINKER_UTILS_RISCV == EM_RISCV, "EM_RISCV");
_Static_assert(LINKER_UTILS_LOONGARCH64 == EM_LOONGARCH, "EM_LOONGARCH");

int main(void) {
    const uint16_t machines[5] = {EM_PPC64, EM_X86_64, EM_AARCH64, EM_RISCV, EM_LOONGARCH};
    for (int i = 0; i < 5; i++) {
        for (uint32_t r_type = 0; r_type < 0x10000; r_type++) {
            uint8_t name[LINKER_UTILS_NAME_SIZE];
            size_t used = 0;
            const char *text = linker_utils_type_name(machines[i], r_type);
            if (!linker_utils_relocation_name(machines[i], r_type, name, sizeof name, &used) ||
                !linker_utils_dynamic_name(machines[i], r_type, name, sizeof name, &used)) {
                printf("%.*s %u\n", (int)used, (const char *)name, (unsigned)r_type);
                uint16_t machine;
                uint32_t type;
                if (!text || strlen(text) != used || memcmp(text, name, used) ||
                    !linker_utils_type_of_name(text, &machine, &type) || machine != machines[i] ||
                    type != r_type) {
                    return 1;
                }
            } else if (text) {
                return 1;
            }
        }
    }
    uint16_t machine;
    uint32_t type;
    return linker_utils_type_name(EM_386, 1) || linker_utils_type_of_name("R_386_32", &machine, &type) ||
           strcmp(linker_utils_kind_name(LINKER_UTILS_KIND_GOT_RELATIVE), "GOT_RELATIVE") ||
           linker_utils_kind_name(0xffff);
}
