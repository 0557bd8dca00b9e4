/* SPDX-License-Identifier: MIT OR Apache-2.0 */
/* Files of ELFCLASS32. Their tables are read as those of ELFCLASS64, whose structs have fields of the
 * same names, and the linked file's are cut to theirs. Only static executables are linked so. */
#include "link.h"

/* The fields of each struct, but for `e_ident`, with which both begin. */
#define FIELDS_OF_Ehdr(F)                                                                       \
    F(e_type) F(e_machine) F(e_version) F(e_entry) F(e_phoff) F(e_shoff) F(e_flags) F(e_ehsize) \
    F(e_phentsize) F(e_phnum) F(e_shentsize) F(e_shnum) F(e_shstrndx)
#define FIELDS_OF_Shdr(F)                                                                       \
    F(sh_name) F(sh_type) F(sh_flags) F(sh_addr) F(sh_offset) F(sh_size) F(sh_link) F(sh_info)  \
    F(sh_addralign) F(sh_entsize)
#define FIELDS_OF_Phdr(F) \
    F(p_type) F(p_flags) F(p_offset) F(p_vaddr) F(p_paddr) F(p_filesz) F(p_memsz) F(p_align)
#define FIELDS_OF_Sym(F) \
    F(st_name) F(st_info) F(st_other) F(st_shndx) F(st_value) F(st_size)
#define COPY(field) to.field = from.field;

/* A table as structs of the other class, if files are of ELFCLASS32. */
#define CONVERTS(name, From, To, FIELDS)                                        \
    const void *name(const void *table, size_t count) {                         \
        To *made = is_narrow ? take(count, sizeof *made) : NULL;                \
        for (size_t i = 0; is_narrow && i < count; i++) {                       \
            From from;                                                          \
            To to = {0};                                                        \
            memcpy(&from, (const uint8_t *)table + i * sizeof from, sizeof from); \
            memcpy(&to, &from, sizeof to < sizeof from ? sizeof to : sizeof from); \
            FIELDS(COPY)                                                        \
            made[i] = to;                                                       \
        }                                                                       \
        return is_narrow ? made : table;                                        \
    }
#define CONVERTS_BOTH_WAYS(type)                                               \
    CONVERTS(wide_##type, Elf32_##type, Elf64_##type, FIELDS_OF_##type)        \
    CONVERTS(cut_##type, Elf64_##type, Elf32_##type, FIELDS_OF_##type)
CONVERTS_BOTH_WAYS(Ehdr) CONVERTS_BOTH_WAYS(Shdr) CONVERTS_BOTH_WAYS(Phdr) CONVERTS_BOTH_WAYS(Sym)
