/* SPDX-License-Identifier: MIT OR Apache-2.0 */
/* Linking: a section. No line of `link_section` names an architecture, and the same lines link any of
 * the five. */
#include <elf.h>
#include <stdio.h>
#include <string.h>

#include "linker_utils.h"

enum { SYMBOLS = 4, MOST = 8 };

/* Where the linker puts the code, the GOT and the TLS image. */
static const uint64_t places[3] = {0x401000, 0x403000, 0x403008};

/* The section has code and its relocations as they stand in the file. Of symbols a linker knows facts
 * when names are resolved, and addresses later. Returns how many words the GOT has, or -1. */
static int link_section(uint16_t machine, const struct linker_utils_section *section,
                        const struct linker_utils_symbol_facts *facts,
                        struct linker_utils_symbol *symbols, uint64_t *got) {
    const Elf64_Rela *rela = (const Elf64_Rela *)section->relocations;
    int words = 0;
    struct linker_utils_link link;
    struct linker_utils_unrelaxable_groups kept[SYMBOLS];
    struct linker_utils_decision decisions[MOST];
    struct linker_utils_deletion deleted[MOST];
    struct linker_utils_object object = {facts, SYMBOLS, symbols, SYMBOLS, kept,
                                         SYMBOLS, NULL, 0, NULL, 0};
    struct linker_utils_rewritten rewritten = {decisions, MOST, deleted, MOST, 0};
    memset(&link, 0, sizeof link);
    link.machine = machine; /* fixed, and less than 2 GiB */
    link.is_executable = link.is_fixed = link.has_near_symbols = true;
    /* 1 and 2: rewrites that need no address */
    memset(kept, 0, sizeof kept);
    if (linker_utils_survey(&link, &object, section) ||
        linker_utils_rewrite_section(&link, &object, section, &rewritten, NULL))
        return -1;
    /* 3 to 6: which entries of the GOT are still needed, and what they hold */
    struct linker_utils_origins origins;
    struct linker_utils_got base;
    if (linker_utils_get_origins(machine, places[2], 8, 1, &origins) ||
        linker_utils_get_got(machine, places[1], 0, &base))
        return -1;
    for (size_t i = 0; i < section->relocations_len; i++) {
        struct linker_utils_symbol *symbol = &symbols[ELF64_R_SYM(rela[i].r_info)];
        struct linker_utils_requirements needed;
        struct linker_utils_entry_words held;
        if (linker_utils_needs(machine, (uint32_t)ELF64_R_TYPE(rela[i].r_info), rela[i].r_addend,
                               symbol->is_thread_local, &needed))
            continue;
        uint64_t *entry = needed.entry_class == LINKER_UTILS_ENTRY_ADDRESS ? &symbol->address_entry
                          : needed.entry_class == LINKER_UTILS_ENTRY_THREAD_OFFSET
                              ? &symbol->thread_entry
                              : NULL;
        if (!entry || *entry) continue;
        if (linker_utils_static_words(needed.entry_class, symbol->address, &origins, &held))
            return -1;
        *entry = places[1] + 8 * (uint64_t)words;
        got[words++] = held.first;
    }
    /* 7 and 8: rewrites by addresses */
    link.got_base = base.base;
    link.thread_origin = origins.thread_pointer;
    link.module_origin = origins.module_block;
    link.has_tls = true;
    for (uint32_t phase = LINKER_UTILS_PHASE_TLS_LOCAL_EXEC; phase <= LINKER_UTILS_PHASE_SHORT_PC_REL;
         phase++) {
        memset(kept, 0, sizeof kept);
        if (linker_utils_survey_placed_section(&link, &object, section, phase) ||
            linker_utils_rewrite_placed_section(&link, &object, section, phase, &rewritten, NULL))
            return -1;
    }
    /* 9 and 10: values */
    uint64_t memory[MOST];
    if (linker_utils_relocate_memory(section) > MOST) return -1;
    return linker_utils_relocate_section(&link, &object, section, memory, MOST, NULL) ? -1 : words;
}

/* Links a section, and prints its bytes. The symbols are _start, x and t, which is thread-local. */
static void show(uint16_t machine, uint8_t *code, size_t len, Elf64_Rela *rela, size_t count) {
    static const uint64_t addresses[SYMBOLS] = {0, 0x401000, 0x402000, 0x403008};
    struct linker_utils_symbol_facts facts[SYMBOLS];
    struct linker_utils_symbol symbols[SYMBOLS];
    uint64_t got[MOST];
    memset(facts, 0, sizeof facts);
    memset(symbols, 0, sizeof symbols);
    for (size_t i = 1; i < SYMBOLS; i++) {
        facts[i].is_local = true;
        symbols[i].address = addresses[i];
    }
    symbols[3].is_thread_local = true;
    struct linker_utils_section section = linker_utils_section_of(code, len);
    section.relocations = rela;
    section.relocations_len = count;
    section.address = places[0];
    int words = link_section(machine, &section, facts, symbols, got);
    for (size_t i = 0; i < len; i++) printf("%02x", code[i]);
    for (int i = 0; i < words; i++) printf(" %#llx", (unsigned long long)got[i]);
    printf("\n");
}

int main(void) {
    /* mov x@GOTPCREL(%rip), %rax; mov t@gottpoff(%rip), %rcx; cmp %rax, x@GOTPCREL(%rip);
     * call _start */
    uint8_t one[] = {0x48, 0x8b, 0x05, 0, 0, 0, 0, 0x48, 0x8b, 0x0d, 0, 0, 0,
                     0,    0x48, 0x39, 0x05, 0, 0, 0, 0, 0xe8, 0,    0, 0, 0};
    Elf64_Rela of_one[] = {{3, ELF64_R_INFO(UINT64_C(2), R_X86_64_REX_GOTPCRELX), -4},
                           {10, ELF64_R_INFO(UINT64_C(3), R_X86_64_GOTTPOFF), -4},
                           {17, ELF64_R_INFO(UINT64_C(2), R_X86_64_GOTPCREL), -4},
                           {22, ELF64_R_INFO(UINT64_C(1), R_X86_64_PLT32), -4}};
    show(EM_X86_64, one, sizeof one, of_one, 4);
    /* adrp x0, :got:x; ldr x0, [x0, :got_lo12:x]; adrp x1, :gottprel:t;
     * ldr x1, [x1, :gottprel_lo12:t]; bl _start */
    uint8_t other[] = {0, 0, 0, 0x90, 0, 0, 0x40, 0xf9, 1, 0,
                       0, 0x90, 0x21, 0, 0x40, 0xf9, 0, 0, 0, 0x94};
    Elf64_Rela of_other[] = {
        {0, ELF64_R_INFO(UINT64_C(2), R_AARCH64_ADR_GOT_PAGE), 0},
        {4, ELF64_R_INFO(UINT64_C(2), R_AARCH64_LD64_GOT_LO12_NC), 0},
        {8, ELF64_R_INFO(UINT64_C(3), R_AARCH64_TLSIE_ADR_GOTTPREL_PAGE21), 0},
        {12, ELF64_R_INFO(UINT64_C(3), R_AARCH64_TLSIE_LD64_GOTTPREL_LO12_NC), 0},
        {16, ELF64_R_INFO(UINT64_C(1), R_AARCH64_CALL26), 0}};
    show(EM_AARCH64, other, sizeof other, of_other, 5);
    return 0;
}
