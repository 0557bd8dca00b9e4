/* SPDX-License-Identifier: MIT OR Apache-2.0 */
/* Rewriting: a load and a call of x86-64 code without the GOT, where this output defines their
 * symbols. */
#include <elf.h>
#include <stdio.h>

#include "linker_utils.h"

int main(void) {
    /* mov x@gottpoff(%rip), %rax; call *f@GOTPCREL(%rip). The symbols are `x` and `f`, which
     * another file may define at first. */
    const uint8_t code[13] = {0x48, 0x8b, 0x05, 0, 0, 0, 0, 0xff, 0x15, 0, 0, 0, 0};
    const Elf64_Rela relas[2] = {{3, ELF64_R_INFO(UINT64_C(1), R_X86_64_GOTTPOFF), -4},
                                 {9, ELF64_R_INFO(UINT64_C(2), R_X86_64_GOTPCRELX), -4}};
    static struct linker_utils_link link;
    link.machine = EM_X86_64;
    link.is_executable = link.is_fixed = link.has_near_symbols = true;
    const struct linker_utils_symbol_facts none = {false, false, false, false, false, 0};
    struct linker_utils_symbol_facts symbols[3] = {none, none, none};
    static struct linker_utils_object object;
    object.facts = symbols;
    object.facts_len = 3;
    for (int step = 0; step < 2; step++) {
        symbols[1].is_local = true;
        symbols[2].is_local = step == 1;
        uint8_t bytes[13];
        Elf64_Rela given[2] = {relas[0], relas[1]};
        for (int i = 0; i < 13; i++) bytes[i] = code[i];
        struct linker_utils_section section = linker_utils_section_of(bytes, sizeof bytes);
        section.relocations = given;
        section.relocations_len = 2;
        struct linker_utils_unrelaxable_groups kept[3];
        for (int i = 0; i < 3; i++) {
            const struct linker_utils_unrelaxable_groups all = {false, false, false, false, false};
            kept[i] = all;
        }
        object.unrelaxable_groups = kept;
        object.unrelaxable_groups_len = 3;
        if (linker_utils_survey(&link, &object, &section)) return 1;
        struct linker_utils_decision decisions[2];
        const struct linker_utils_rewritten rewritten = {decisions, 2, NULL, 0, 0};
        uint32_t status = linker_utils_rewrite_section(&link, &object, &section, &rewritten, NULL);
        for (int i = 0; i < 13; i++) printf("%02x ", (unsigned)bytes[i]);
        printf("%s\n", linker_utils_status_text(status));
        for (int i = 0; i < 2; i++)
            printf("%d: %s, %s\n", i,
                   decisions[i].fate == LINKER_UTILS_FATE_REWRITTEN ? "rewritten" : "kept",
                   ELF64_R_TYPE(given[i].r_info) == ELF64_R_TYPE(relas[i].r_info)
                       ? "the same relocation" : "another relocation");
    }
    return 0;
}
