/* SPDX-License-Identifier: MIT OR Apache-2.0 */
/* Lists the relocations of an object: for each its offset, name and symbol, the formula of its value in
 * the letters of linker_utils_lists.h, the entry of the GOT that it requires, and which values can be
 * written. Columns are separated by tabs.    usage: relocation_lister OBJECT */
#include "object.h"
#include <inttypes.h>

/* by `enum linker_utils_relocation_kind` */
static const char *const formulas[] = {
    "none", "S + A", "S + A", "S + A", "S + A", "V + S + A", "V + S + A", "V - S - A", "V - S - A",
    "S0 + A0 - S - A", "V + S0 + A0 - S - A", "S + A - P", "S0 + A0 - P0", "HIGHEST(S + A, PC)",
    "GOT + G + A - P", "HIGHEST(GOT + G + A, PC)", "G + A", "GOT + G + A", "S + A - GOT", "L + A - GOT",
    "L + A - P", "Z + A", "none", "GD + A - P", "GD + A", "GD + A - GOT", "LD + A - P", "LD + A",
    "LD + A - GOT", "DTPREL(S + A)", "IE + A - P", "IE + A", "IE + A - GOT", "HIGHEST(IE + A, PC)",
    "TPREL(S + A)", "DESC + A - P", "DESC + A", "DESC + A - GOT", "HIGHEST(DESC + A, PC)", "none"};
/* by `enum linker_utils_mask` */
static const char *const masks[] = {"", ", by pages", ", by pages", ", from the GOT's page"};
/* by `enum linker_utils_entry_class` */
static const char *const entries[] = {"none", "address", "thread offset", "module and offset", "module",
                                      "descriptor"};

_Static_assert(sizeof formulas / sizeof *formulas == LINKER_UTILS_KIND_TLS_DESC_CALL + 1, "all kinds");

int main(int argc, char **argv) {
    require(argc == 2, "usage", "relocation_lister OBJECT");
    const struct object o = read_object(argv[1]);
    for (size_t index = 0; index < o.header->e_shnum; index++) {
        const struct relocations all = read_relocations(&o, index);
        for (const Elf64_Rela *it = all.at; it < all.at + all.len; it++) {
            struct linker_utils_row row;
            struct linker_utils_relocation_info info;
            struct linker_utils_requirements needs;
            const uint32_t r_type = (uint32_t)ELF64_R_TYPE(it->r_info);
            const Elf64_Sym *symbol = &all.symbols[ELF64_R_SYM(it->r_info)];
            const bool is_thread_local = ELF64_ST_TYPE(symbol->st_info) == STT_TLS;
            const uint32_t handle = linker_utils_find(o.header->e_machine, r_type);
            uint32_t status = linker_utils_row_of(handle, &row);
            if (status == LINKER_UTILS_OK) status = linker_utils_relocation(row.machine, r_type, &info);
            if (status == LINKER_UTILS_OK)
                status = linker_utils_row_needs(handle, it->r_addend, is_thread_local, &needs);
            require(status == LINKER_UTILS_OK, argv[1], linker_utils_status_text(status));
            printf("0x%" PRIx64 "\t%s\t%s\t%s%s\t%s\t", it->r_offset, row.name,
                   all.names + symbol->st_name, formulas[row.kind], masks[info.mask],
                   entries[needs.entry_class]);
            if (row.reach.has_range) printf("%" PRId64 " to %" PRId64 "\n", row.reach.min, row.reach.max - 1);
            else puts("any");
        }
    }
    return 0;
}
