/* SPDX-License-Identifier: MIT OR Apache-2.0 */
/* Reads ELF files of 64 bits for the programs in C. What isn't in the file ends them, with status 1. */
#include <elf.h>
#include <linker_utils.h>
#include <stdio.h>
#include <stdlib.h>
#include <string.h>

struct object {
    const char *path;
    uint8_t *bytes;
    size_t len;
    const Elf64_Ehdr *header;
    const Elf64_Shdr *sections;
};
/* The relocations of a section, with the symbols that they name. */
struct relocations {
    const Elf64_Rela *at;
    size_t len;
    const Elf64_Sym *symbols;
    const char *names;
};

static inline void require(bool holds, const char *what, const char *why) {
    if (holds) return;
    fprintf(stderr, "%s: %s\n", what, why);
    exit(1);
}

/* Elements of a file from an offset on. */
static inline const void *part(const struct object *o, uint64_t offset, uint64_t count, size_t size) {
    bool is_there = offset <= o->len && count <= (o->len - offset) / size;
    require(is_there && (size == 1 || offset % 8 == 0), o->path, "it is damaged or cut short");
    return o->bytes + offset;
}

static inline struct object read_object(const char *path) {
    enum { MOST = 1 << 24 };
    FILE *file = fopen(path, "rb");
    struct object o = {path, malloc(MOST), 0, NULL, NULL};
    require(file && o.bytes, path, "it can't be read");
    o.len = fread(o.bytes, 1, MOST, file);
    require(!ferror(file) && o.len < MOST, path, "it can't be read");
    fclose(file);
    o.header = part(&o, 0, 1, sizeof *o.header);
    require(!memcmp(o.header->e_ident, ELFMAG "\2\1", 6) && o.header->e_shentsize == sizeof *o.sections,
            path, "it is no little-endian ELF file of 64 bits with sections");
    o.sections = part(&o, o.header->e_shoff, o.header->e_shnum, sizeof *o.sections);
    return o;
}

static inline const Elf64_Shdr *section(const struct object *o, size_t index) {
    require(index < o->header->e_shnum, o->path, "a section that it names isn't there");
    return &o->sections[index];
}

/* Those that the section with an index has: of a type other than SHT_RELA none. */
static inline struct relocations read_relocations(const struct object *o, size_t index) {
    struct relocations all = {NULL, 0, NULL, NULL};
    const Elf64_Shdr *table = section(o, index);
    require(table->sh_type != SHT_REL, o->path, "it has relocations without addends");
    if (table->sh_type != SHT_RELA) return all;
    all.at = part(o, table->sh_offset, all.len = table->sh_size / sizeof *all.at, sizeof *all.at);
    const Elf64_Shdr *symbols = section(o, table->sh_link), *names = section(o, symbols->sh_link);
    size_t symbols_len = symbols->sh_size / sizeof *all.symbols;
    all.symbols = part(o, symbols->sh_offset, symbols_len, sizeof *all.symbols);
    all.names = part(o, names->sh_offset, names->sh_size, 1);
    require(names->sh_size && !all.names[names->sh_size - 1], o->path, "its names don't end");
    for (size_t i = 0; i < all.len; i++)
        require(ELF64_R_SYM(all.at[i].r_info) < symbols_len &&
                    all.symbols[ELF64_R_SYM(all.at[i].r_info)].st_name < names->sh_size,
                o->path, "the symbol of a relocation isn't there");
    return all;
}
