/* SPDX-License-Identifier: MIT OR Apache-2.0 */
/* Sections: what the relocations of RISC-V code require, and all of their values written at once. */
#include <elf.h>
#include <stdio.h>

#include "linker_utils.h"

int main(void) {
    /* auipc a0 and ld a0, of the GOT; auipc ra and jalr ra. The symbols are `variable`, the label at
     * the first auipc, and `function`. */
    uint32_t code[4] = {0x00000517, 0x00053503, 0x00000097, 0x000080e7};
    Elf64_Rela relas[3] = {{0, ELF64_R_INFO(UINT64_C(1), R_RISCV_GOT_HI20), 0},
                                 {4, ELF64_R_INFO(UINT64_C(2), R_RISCV_PCREL_LO12_I), 0},
                                 {8, ELF64_R_INFO(UINT64_C(3), R_RISCV_CALL_PLT), 0}};
    for (int i = 0; i < 3; i++) {
        struct linker_utils_requirements required;
        uint32_t r_type = ELF64_R_TYPE(relas[i].r_info);
        if (linker_utils_needs(EM_RISCV, r_type, relas[i].r_addend, false, &required)) return 1;
        bool has_address = required.entry_class == LINKER_UTILS_ENTRY_ADDRESS;
        printf("%d: %s%s\n", i, has_address ? "its address in the GOT" : "no entry of the GOT",
               required.may_use_stub ? ", may use a stub" : "");
    }

    /* what is known once addresses are: also where the GOT has the address of `variable` */
    struct linker_utils_symbol none = {0, 0, 0, 0, 0, 0, 0, 0, 0, false, false};
    struct linker_utils_symbol symbols[4] = {none, none, none, none};
    symbols[1].address = 0x412344;
    symbols[1].address_entry = 0x413008;
    symbols[2].address = 0x401000;
    symbols[3].address = 0x402000;
    static struct linker_utils_link link;
    static struct linker_utils_object object;
    struct linker_utils_section section = linker_utils_section_of((uint8_t *)code, sizeof code);
    link.machine = EM_RISCV;
    link.got_base = 0x413000;
    object.values = symbols;
    object.values_len = 4;
    section.relocations = relas;
    section.relocations_len = 3;
    section.address = 0x401000;
    uint64_t memory[6];
    if (linker_utils_relocate_memory(&section) > 6) return 1;
    for (int step = 0; step < 2; step++) {
        size_t faulty = 0;
        uint32_t status =
            linker_utils_relocate_section(&link, &object, &section, memory, 6, &faulty);
        for (int i = 0; i < 4; i++) printf("%08x ", (unsigned)code[i]);
        printf("%s", linker_utils_status_text(status));
        if (status) printf(" It is relocation %zu.", faulty);
        printf("\n");
        symbols[1].address_entry = 0; /* there isn't one: nothing is written */
        symbols[3].address = 0x501000;
    }

    /* the same without a table of symbols: what is known for each relocation, with a stub for the
     * call, which is far */
    struct linker_utils_resolved resolved[3] = {
        {0x412344, 0x413010, 0, 0, false, false},
        {0x401000, 0, 0, 0, false, false},
        {0x40500000, 0, 0x401800, 0, false, false},
    };
    section.resolved = resolved;
    section.resolved_len = 3;
    for (int step = 0; step < 2; step++) {
        uint32_t status = linker_utils_relocate_resolved(&link, &section, memory, 6, NULL);
        for (int i = 0; i < 4; i++) printf("%08x ", (unsigned)code[i]);
        printf("%s\n", linker_utils_status_text(status));
        resolved[0].entry = 0x414020;
        resolved[1].is_left_out = true; /* the second instruction stays */
    }
    return 0;
}
