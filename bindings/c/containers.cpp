/* SPDX-License-Identifier: MIT OR Apache-2.0 */
/* Containers: in C++, by linker_utils.hpp, what relocations.c, rewrites.c, rewriting.c, sections.c,
 * deletions.c and relaxing.c do. It prints what they print, in this order. */
#include <elf.h>

#include <cstdio>
#include <vector>

#include "linker_utils.hpp"

namespace lu = linker_utils;
using bytes = std::vector<uint8_t>;

static void print(const lu::outcome &ended, const bytes &all) {
    if (ended)
        for (uint8_t byte : all) std::printf("%02x", byte);
    std::printf("%s\n", ended ? "" : ended.text());
}

/* One relocation: its value, and the write of it. */
static void relocate(uint16_t machine, uint32_t r_type, const linker_utils_operands &at,
                     bytes dest) {
    char room[LINKER_UTILS_NAME_SIZE];
    if (auto name = lu::name(machine, r_type, room))
        std::printf("%.*s: ", (int)name->size(), name->data());
    else
        std::printf("%u: ", (unsigned)r_type);
    print(lu::row(machine, r_type).apply(at, dest), dest);
}

/* Both of a pair at a ULEB128 number. There is no call in C++: an outcome is made of C's status. */
static void relocate_pair(uint16_t machine, uint32_t r_type, uint64_t first, uint64_t second,
                          bytes dest) {
    lu::outcome ended = {linker_utils_write_uleb128_pair(machine, r_type, dest.data(), dest.size(),
                                                         first, second)};
    print(ended, dest);
}

static void relocations() {
    const linker_utils_operands near = linker_utils_operands_of(0x402000, 0, 0x401000);
    const linker_utils_operands far = linker_utils_operands_of(0x40402000, 0, 0x401000);
    relocate(EM_AARCH64, R_AARCH64_CALL26, near, {0x00, 0x00, 0x00, 0x94});
    relocate(EM_AARCH64, R_AARCH64_CALL26, far, {0x00, 0x00, 0x00, 0x94});
    relocate(EM_AARCH64, R_AARCH64_ADR_PREL_PG_HI21, far, {0x01, 0x00, 0x00, 0x90});
    relocate(EM_RISCV, R_RISCV_CALL_PLT, near, {0x97, 0x00, 0x00, 0x00, 0xe7, 0x80, 0x00, 0x00});
    relocate(LINKER_UTILS_LOONGARCH64, 66, near, {0x00, 0x00, 0x00, 0x50}); /* R_LARCH_B26 */
    relocate(EM_PPC64, R_PPC64_REL16_HA, far, {0x00, 0x00, 0x4c, 0x3c});
    relocate(EM_X86_64, R_X86_64_PC32, near, {0, 0, 0, 0});
    relocate(EM_X86_64, 200, near, {0, 0, 0, 0});
    relocate_pair(EM_RISCV, 60, 0x401150, 0x401000, {0x80, 0x00}); /* R_RISCV_SET_ULEB128 */
    relocate_pair(LINKER_UTILS_LOONGARCH64, 107, 0x401005, 0x401000, {0x81, 0x00});
    relocate_pair(EM_RISCV, 60, 0x406000, 0x401000, {0x80, 0x00});
}

/* A rewrite by what the linker knows of a symbol, and the relocation that is left. */
static void rewrites() {
    bytes code = {0x4c, 0x8b, 0x15, 0x00, 0x00, 0x00, 0x00};
    const lu::section section(code);
    uint64_t offset = 3;
    linker_utils_link_facts facts{};
    facts.is_local = facts.has_fixed_address = facts.has_addresses = 1;
    facts.operands = linker_utils_operands_of(0x401000, -4, 0x2000);
    auto choice = lu::row(EM_X86_64, R_X86_64_REX_GOTPCRELX).choose(section, offset, facts).value();
    lu::apply(EM_X86_64, choice, section, offset, facts.operands.addend).value();
    /* the field in place of the section */
    lu::span<uint8_t> field(code.data() + offset, code.size() - offset);
    print(lu::row(EM_X86_64, choice.relocation).apply(facts.operands, field), code);
    std::printf("%s\n", choice.modifier == LINKER_UTILS_MODIFIER_NORMAL ? "next one too"
                                                                        : "skip the next");
}

/* All instructions of a section, by what the linker knows of two symbols. */
static void rewriting() {
    const bytes code = {0x48, 0x8b, 0x05, 0, 0, 0, 0, 0xff, 0x15, 0, 0, 0, 0};
    const std::vector<Elf64_Rela> relas = {
        {3, ELF64_R_INFO(UINT64_C(1), R_X86_64_GOTTPOFF), -4},
        {9, ELF64_R_INFO(UINT64_C(2), R_X86_64_GOTPCRELX), -4}};
    linker_utils_link link{};
    link.machine = EM_X86_64;
    link.is_executable = link.is_fixed = link.has_near_symbols = true;
    std::vector<linker_utils_symbol_facts> symbols(3);
    symbols[1].is_local = true;
    for (bool is_local : {false, true}) {
        symbols[2].is_local = is_local;
        bytes own = code;
        std::vector<Elf64_Rela> given = relas;
        std::vector<linker_utils_unrelaxable_groups> kept(symbols.size());
        std::vector<linker_utils_decision> decisions(given.size());
        const lu::object object(symbols, {}, kept);
        const lu::section section(own, given);
        lu::survey(link, object, section).value();
        lu::outcome ended = lu::rewrite_section(link, object, section, decisions);
        for (uint8_t byte : own) std::printf("%02x ", byte);
        std::printf("%s\n", ended.text());
        for (size_t i = 0; i < given.size(); i++)
            std::printf("%zu: %s, %s\n", i,
                        decisions[i].fate == LINKER_UTILS_FATE_REWRITTEN ? "rewritten" : "kept",
                        given[i].r_info == relas[i].r_info ? "the same relocation"
                                                           : "another relocation");
    }
}

/* What the relocations of a section require, and their values. */
static void sections() {
    uint32_t code[4] = {0x00000517, 0x00053503, 0x00000097, 0x000080e7};
    std::vector<Elf64_Rela> relas = {
        {0, ELF64_R_INFO(UINT64_C(1), R_RISCV_GOT_HI20), 0},
        {4, ELF64_R_INFO(UINT64_C(2), R_RISCV_PCREL_LO12_I), 0},
        {8, ELF64_R_INFO(UINT64_C(3), R_RISCV_CALL_PLT), 0}};
    for (size_t i = 0; i < relas.size(); i++) {
        lu::row row(EM_RISCV, (uint32_t)ELF64_R_TYPE(relas[i].r_info));
        auto required = row.needs(relas[i].r_addend, false).value();
        bool has_address = required.entry_class == LINKER_UTILS_ENTRY_ADDRESS;
        std::printf("%zu: %s%s\n", i,
                    has_address ? "its address in the GOT" : "no entry of the GOT",
                    required.may_use_stub ? ", may use a stub" : "");
    }
    std::vector<linker_utils_symbol> symbols(4);
    symbols[1].address = 0x412344;
    symbols[1].address_entry = 0x413008;
    symbols[2].address = 0x401000;
    symbols[3].address = 0x402000;
    linker_utils_link link{};
    link.machine = EM_RISCV;
    link.got_base = 0x413000;
    const lu::object object({}, symbols);
    lu::section section({reinterpret_cast<uint8_t *>(code), sizeof code}, relas, 0x401000);
    std::vector<uint64_t> memory(relas.size());
    for (int step = 0; step < 2; step++) {
        lu::outcome ended = lu::relocate_section(link, object, section, memory);
        for (uint32_t word : code) std::printf("%08x ", (unsigned)word);
        std::printf("%s", ended.text());
        if (!ended) std::printf(" It is relocation %zu.", ended.faulty);
        std::printf("\n");
        symbols[1].address_entry = 0;
        symbols[3].address = 0x501000;
    }
    std::vector<linker_utils_resolved> resolved(3);
    resolved[0].address = 0x412344;
    resolved[0].entry = 0x413010;
    resolved[1].address = 0x401000;
    resolved[2].address = 0x40500000;
    resolved[2].stub = 0x401800;
    section.resolved = resolved.data();
    section.resolved_len = resolved.size();
    for (int step = 0; step < 2; step++) {
        lu::outcome ended = lu::relocate_resolved(link, section, memory);
        for (uint32_t word : code) std::printf("%08x ", (unsigned)word);
        std::printf("%s\n", ended.text());
        resolved[0].entry = 0x414020;
        resolved[1].is_left_out = true;
    }
}

static void deletions() {
    const std::vector<linker_utils_deletion> first = {{8, 4}}, more = {{16, 4}, {0, 2}};
    auto deltas = lu::deltas::create(first).value().merged(more).value();
    std::printf("%u bytes deleted\n", (unsigned)deltas.total_deleted());
    for (unsigned input : {2, 12, 20})
        std::printf("%u -> %u\n", input, (unsigned)deltas.input_to_output(input));
    std::printf("0 <- %u\n", (unsigned)deltas.output_to_input(0).value());
    std::printf("10 -> %u\n", (unsigned)deltas.input_to_output(10));
    std::printf("10 -> %u\n", (unsigned)lu::deltas().input_to_output(10));
    /* heads are in C alone, which takes the list */
    linker_utils_block_head head;
    if (linker_utils_deltas_heads(deltas.data(), deltas.size(), &head, 1)) return;
    std::printf("20 -> %u\n", (unsigned)linker_utils_deltas_input_to_output_by_heads(
                                  deltas.data(), deltas.size(), &head, 1, 20));
    const linker_utils_deletion faulty[] = {{0, 2}, {8, 9}, {16, 4}};
    lu::outcome ended = lu::deltas::create(faulty);
    std::printf("%zu: %s\n", ended.faulty, ended.text());
}

static void relaxing() {
    bytes code = {0x97, 0x00, 0x00, 0x00, 0xe7, 0x80, 0x00, 0x00, 0x13,
                  0x00, 0x00, 0x00, 0x01, 0x00, 0x67, 0x80, 0x00, 0x00};
    const lu::section section(code);
    std::vector<linker_utils_rela> relocations = {{0, 14, 0, R_RISCV_CALL_PLT, 1, 1, 1},
                                                  {0, 0, 0, R_RISCV_RELAX, 0, 0, 0},
                                                  {8, 0, 6, R_RISCV_ALIGN, 0, 0, 0}};
    std::vector<linker_utils_item> items(relocations.size());
    std::vector<size_t> makers(relocations.size());
    items.resize(lu::section_items(EM_RISCV, section, relocations, items, makers).value());
    bytes shapes(items.size());
    std::vector<uint64_t> kept(items.size()), freed(items.size() + 1);
    std::vector<size_t> places(items.size());
    lu::relax(lu::run(items), shapes, kept, places, freed).value();
    for (size_t i = 0; i < items.size(); i++)
        std::printf("%s at %d: %d of %d bytes stay\n",
                    items[i].kind == LINKER_UTILS_ITEM_SITE ? "call" : "nops", (int)items[i].offset,
                    (int)kept[i], (int)items[i].len);
    auto lost = lu::deltas::of_run(lu::run(items), kept).value();
    const lu::run run(items, 0, lost);
    bytes packed(lu::packed_run_len(section, run));
    lu::pack_run(EM_RISCV, section, run, packed).value();
    for (const bytes *all : {&code, &packed}) {
        std::printf(all == &code ? "before:" : "after:");
        for (size_t i = 0; i < all->size(); i++) std::printf("%s%02x", i % 2 ? "" : " ", (*all)[i]);
        std::printf("\n");
    }
}

int main() {
    relocations();
    rewrites();
    rewriting();
    sections();
    deletions();
    relaxing();
    return 0;
}
