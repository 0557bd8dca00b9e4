/* SPDX-License-Identifier: MIT OR Apache-2.0 */
/* A struct of zeros says that nothing is known: by it no rewrite is chosen, and a value that takes
 * an entry of the GOT or an origin of thread-local storage is an error. With facts some are chosen.
 * Only PowerPC64's call restores the TOC pointer, since the function may be of another output. */
#include <elf.h>
#include <stdio.h>
#include <string.h>

#include "linker_utils.h"

enum { TYPES = 1100, BYTES = 64 };

/* Instructions that linkers rewrite, from offset 0 on. */
static const struct {
    uint16_t machine;
    uint8_t bytes[BYTES];
} codes[] = {
    /* adrp x0, 0; ldr x0, [x0]; adrp x0, 0; ldr x1, [x0]; add x0, x0, 0; blr x1 */
    {EM_AARCH64,
     {0, 0, 0, 0x90, 0, 0, 0x40, 0xf9, 0, 0, 0, 0x90, 1, 0, 0x40, 0xf9, 0, 0, 0, 0x91, 0x20, 0,
      0x3f, 0xd6}},
    /* auipc ra, 0; jalr ra; auipc a0, 0; ld a0, (a0); lui a0, 0; addi a0, a0, 0 */
    {EM_RISCV,
     {0x97, 0, 0, 0, 0xe7, 0x80, 0, 0, 0x17, 5, 0, 0, 3, 0x35, 5, 0, 0x37, 5, 0, 0, 0x13, 5, 5,
      0}},
    /* pcalau12i a0, 0; ld.d a0, a0, 0; pcaddu18i ra, 0; jirl ra, ra, 0; pcalau12i a0, 0;
     * addi.d a0, a0, 0 */
    {EM_LOONGARCH,
     {4, 0, 0, 0x1a, 0x84, 0, 0xc0, 0x28, 1, 0, 0, 0x1e, 0x21, 0, 0, 0x4c, 4, 0, 0, 0x1a, 0x84,
      0, 0xc0, 2}},
    /* addis 3,2,0; ld 3,0(3); bl .; nop; addis 3,13,0; addi 3,3,0 */
    {EM_PPC64,
     {0, 0, 0x62, 0x3c, 0, 0, 0x63, 0xe8, 1, 0, 0, 0x48, 0, 0, 0, 0x60, 0, 0, 0x6d, 0x3c, 0, 0,
      0x63, 0x38}},
    /* mov x@GOTPCREL(%rip), %rdi; call *x@GOTPCREL(%rip); mov x@GOTTPOFF(%rip), %rax */
    {EM_X86_64,
     {0x48, 0x8b, 0x3d, 0, 0, 0, 0, 0xff, 0x15, 0, 0, 0, 0, 0x48, 0x8b, 5, 0, 0, 0, 0}},
};

static int failures;

static void fail(const char *what, uint16_t machine, uint32_t r_type) {
    failures++;
    printf("machine %u, type %u: %s\n", machine, (unsigned)r_type, what);
}

/* Whether a choice at an offset changes something. */
static bool is_chosen(uint16_t machine, const struct linker_utils_section *code, uint32_t r_type,
                      uint64_t offset, const struct linker_utils_link_facts *facts) {
    struct linker_utils_choice choice;
    if (linker_utils_choose(machine, r_type, code, offset, facts, &choice))
        fail("no choice", machine, r_type);
    return !linker_utils_is_unchanged(machine, r_type, &choice);
}

/* Whether a relocation of symbol 1 is rewritten before addresses are known. */
static bool is_rewritten(const struct linker_utils_link *link, const uint8_t *bytes,
                         uint32_t r_type, uint64_t offset,
                         const struct linker_utils_symbol_facts *facts) {
    uint8_t code[BYTES];
    uint64_t rela[3] = {offset, ELF64_R_INFO(UINT64_C(1), r_type), 0};
    struct linker_utils_unrelaxable_groups kept[2];
    struct linker_utils_decision decision;
    struct linker_utils_object object;
    struct linker_utils_rewritten rewritten;
    struct linker_utils_section section = linker_utils_section_of(code, BYTES);
    memcpy(code, bytes, BYTES);
    if (link->machine == EM_X86_64) rela[2] -= 4;
    memset(kept, 0, sizeof kept);
    memset(&object, 0, sizeof object);
    memset(&rewritten, 0, sizeof rewritten);
    object.facts = facts;
    object.facts_len = object.unrelaxable_groups_len = 2;
    object.unrelaxable_groups = kept;
    rewritten.decisions = &decision;
    rewritten.decisions_len = 1;
    section.relocations = rela;
    section.relocations_len = 1;
    if (linker_utils_survey(link, &object, &section) ||
        linker_utils_rewrite_section(link, &object, &section, &rewritten, NULL))
        fail("no rewriting", link->machine, r_type);
    return decision.fate != LINKER_UTILS_FATE_KEPT;
}

int main(void) {
    struct linker_utils_link_facts none, all;
    struct linker_utils_operands operands;
    struct linker_utils_symbol_facts unknown[2], local[2];
    struct linker_utils_symbol symbols[2];
    struct linker_utils_link link;
    struct linker_utils_object object;
    memset(&none, 0, sizeof none);
    memset(&all, 0, sizeof all);
    memset(&all, 1, offsetof(struct linker_utils_link_facts, operands));
    all.is_ifunc = all.has_addresses = 0;
    memset(&operands, 0, sizeof operands);
    memset(unknown, 0, sizeof unknown);
    memset(local, 0, sizeof local);
    local[1].is_local = true;
    memset(symbols, 0, sizeof symbols);
    memset(&object, 0, sizeof object);
    object.values = symbols;
    object.values_len = 2;
    for (size_t i = 0; i < sizeof codes / sizeof *codes; i++) {
        const uint16_t machine = codes[i].machine;
        uint8_t bytes[BYTES];
        unsigned chosen = 0, rewritten = 0;
        struct linker_utils_section code = linker_utils_section_of(bytes, BYTES);
        memcpy(bytes, codes[i].bytes, BYTES);
        all.operands = linker_utils_operands_of(0, machine == EM_X86_64 ? -4 : 0, 0);
        none.operands = all.operands;
        memset(&link, 0, sizeof link);
        for (uint32_t r_type = 0; r_type < TYPES; r_type++) {
            uint64_t rela[3] = {0, ELF64_R_INFO(UINT64_C(1), r_type), 0};
            int64_t value;
            link.machine = machine;
            link.is_executable = link.is_fixed = link.has_near_symbols = false;
            for (uint64_t offset = 0; offset < 24; offset++) {
                if (is_chosen(machine, &code, r_type, offset, &none))
                    fail("chosen by nothing", machine, r_type);
                chosen += is_chosen(machine, &code, r_type, offset, &all);
                if (is_rewritten(&link, bytes, r_type, offset, unknown) !=
                    (machine == EM_PPC64 && r_type == R_PPC64_REL24 && offset == 8))
                    fail("rewritten by nothing", machine, r_type);
            }
            link.is_executable = link.is_fixed = link.has_near_symbols = true;
            for (uint64_t offset = 0; offset < 24; offset++)
                rewritten += is_rewritten(&link, bytes, r_type, offset, local);
            struct linker_utils_relocation_info info;
            if (linker_utils_relocation(machine, r_type, &info)) continue;
            const uint32_t status = linker_utils_value(machine, r_type, &operands, &value);
            if (linker_utils_asks_for_got(machine, r_type) && status != LINKER_UTILS_NO_ENTRY)
                fail(linker_utils_status_text(status), machine, r_type);
            if ((info.kind == LINKER_UTILS_KIND_TP_OFF || info.kind == LINKER_UTILS_KIND_DTP_OFF) !=
                (status == LINKER_UTILS_NO_TLS_BASE))
                fail(linker_utils_status_text(status), machine, r_type);
            code.relocations = rela;
            code.relocations_len = 1;
            if (linker_utils_asks_for_got(machine, r_type) &&
                linker_utils_value_at(&link, &object, &code, 0, &value) != LINKER_UTILS_NO_ENTRY)
                fail("a symbol of zeros has an entry", machine, r_type);
            link.machine = 0;
            if (linker_utils_value_at(&link, &object, &code, 0, &value) !=
                LINKER_UTILS_UNKNOWN_ARCHITECTURE)
                fail("a link of zeros has a machine", machine, r_type);
        }
        if (!chosen) fail("nothing is chosen by facts", machine, 0);
        if (!rewritten && linker_utils_has_rewrites(machine, LINKER_UTILS_PHASE_PRE_LAYOUT))
            fail("nothing is rewritten by facts", machine, 0);
    }
    return failures != 0;
}
