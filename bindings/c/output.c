/* SPDX-License-Identifier: MIT OR Apache-2.0 */
/* Outputs: what a linker adds to a static executable of RISC-V code, by `e_machine` and
 * `e_flags`. */
#include <elf.h>
#include <stdio.h>
#include <string.h>

#include "linker_utils.h"

int main(void) {
    /* objects with the C extension and without it, both for lp64d, and one for lp64 */
    uint32_t flags = 0;
    if (linker_utils_join_flags(EM_RISCV, 5, 4, &flags)) return 1;
    printf("e_flags 0x%x, instructions of %u bytes or more\n", (unsigned)flags,
           (unsigned)linker_utils_code_unit(EM_RISCV, flags));
    printf("%s\n", linker_utils_status_text(linker_utils_join_flags(EM_RISCV, flags, 1, &flags)));

    /* the words of the GOT's entry for a thread-local variable */
    struct linker_utils_origins origins;
    struct linker_utils_entry_words words;
    if (linker_utils_get_origins(EM_RISCV, 0x410000, 0x20, 16, &origins)) return 1;
    if (linker_utils_static_words(LINKER_UTILS_ENTRY_MODULE_OFFSET, 0x410010, &origins, &words))
        return 1;
    printf("module %u, offset %d\n", (unsigned)words.first, (int)words.second);

    /* the stub of an indirect function, whose address a dynamic relocation puts into a word */
    struct linker_utils_dynamic_types types;
    struct linker_utils_stub stub;
    uint8_t name[LINKER_UTILS_NAME_SIZE], code[16];
    size_t used = 0;
    if (linker_utils_get_dynamic_types(EM_RISCV, &types)) return 1;
    if (linker_utils_dynamic_name(EM_RISCV, types.irelative, name, sizeof name, &used)) return 1;
    if (linker_utils_get_stub(EM_RISCV, LINKER_UTILS_STUB_LOAD, &stub) || stub.len > sizeof code)
        return 1;
    if (linker_utils_write_stub(EM_RISCV, LINKER_UTILS_STUB_LOAD, 0x401000, 0x413008, code,
                                sizeof code))
        return 1;
    printf("%.*s:", (int)used, (const char *)name);
    for (uint64_t i = 0; i < stub.len; i += 4) {
        uint32_t word;
        memcpy(&word, code + i, sizeof word);
        printf(" %08x", (unsigned)word);
    }
    printf("\n");
    return 0;
}
