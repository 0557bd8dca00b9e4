/* SPDX-License-Identifier: MIT OR Apache-2.0 */
/* Shared libraries: what they define, of which versions, and what they refer to. */
#include "link.h"

static struct object **libraries_end = &libraries;

/* Bytes of a section, which have to be in it. */
static const uint8_t *bytes_in(const struct section *s, uint64_t at, uint64_t len) {
    if (at > s->head->sh_size || len > s->head->sh_size - at) fail_in(s, "it ends too early");
    return s->object->bytes + s->head->sh_offset + at;
}

/* The names of the versions that a library defines, by their numbers. The first is its own name. */
static void read_versions(struct object *l, const struct section *s) {
    Elf64_Verdef version = {.vd_next = 0};
    Elf64_Verdaux name;
    uint64_t at = 0;
    for (uint32_t left = s->head->sh_info; left; left = version.vd_next ? left - 1 : 0) {
        memcpy(&version, bytes_in(s, at, sizeof version), sizeof version);
        memcpy(&name, bytes_in(s, at + version.vd_aux, sizeof name), sizeof name);
        l->versions[version.vd_ndx & MOST_VERSIONS] =
            (struct version){.name = text_at(s, name.vda_name), .hash = version.vd_hash};
        at += version.vd_next;
    }
    l->versions[VER_NDX_LOCAL].name = l->versions[VER_NDX_GLOBAL].name = NULL;
}

/* The version of a library's symbol, by its number. */
static uint16_t version_at(const struct object *l, size_t i) {
    uint16_t version = VER_NDX_GLOBAL;
    if (l->numbers) memcpy(&version, bytes_in(l->numbers, 2 * i, 2), 2);
    return version;
}

/* Has a library define a symbol, if none before it does; and then no archive. */
static void define_there(struct symbol *s, struct object *l, size_t i) {
    if (s->library) return;
    s->library = l, s->archive = NULL;
    s->there = &l->mentions[i];
    s->version = version_at(l, i) & MOST_VERSIONS;
}

/* Notes the symbols of a library, those that it refers to among them, but for versions that only
 * old programs ask for. The first library that defines one counts, and then no archive. An indirect
 * function of a library is called as any other. */
static void read_dynamic_symbols(struct object *l) {
    size_t len = l->symbols_len = l->mentions_len;
    Elf64_Sym *elf = memcpy(take(len, sizeof *elf), l->mentions, len * sizeof *elf);
    l->mentions = elf;
    l->symbols = take(len, sizeof *l->symbols);
    for (size_t i = 0; i < len; i++, elf++) {
        uint16_t version = version_at(l, i);
        const char *name = text_at(l->table, elf->st_name);
        unsigned bind = ELF64_ST_BIND(elf->st_info), type = ELF64_ST_TYPE(elf->st_info);
        bool is_hidden = version & ~MOST_VERSIONS || version == VER_NDX_LOCAL;
        if (elf->st_shndx && type == STT_GNU_IFUNC) elf->st_info = ELF64_ST_INFO(bind, STT_FUNC);
        if (bind == STB_LOCAL || (elf->st_shndx && is_hidden)) continue;
        if (version > VER_NDX_GLOBAL && elf->st_shndx && !l->versions[version].name)
            fail_in(l->table, "'%s' is of a version that is not there", name);
        struct symbol *s = l->symbols[i] = named(name);
        s->is_exported = true;
        if (elf->st_shndx) define_there(s, l, i);
        s->is_required |= !elf->st_shndx && bind != STB_WEAK;
        if (s->archive && is_needed(s)) load_member(s->archive, s->offset);
    }
}

/* Looks up what only a name with a version says, as `memcpy@GLIBC_2.2.5`: that is the library's
 * symbol of this version. The name is then the part before it. */
void find_version(struct symbol *s) {
    size_t len = strcspn(s->name, "@");
    EACH_LIBRARY(l)
        for (size_t i = 0; i < l->symbols_len; i++) {
            const Elf64_Sym *elf = &l->mentions[i];
            const char *name = text_at(l->table, elf->st_name);
            const char *version = l->versions[version_at(l, i) & MOST_VERSIONS].name;
            if (elf->st_shndx && version && !strncmp(name, s->name, len) && !name[len] &&
                !strcmp(version, s->name + len + 1))
                define_there(s, l, i);
        }
    s->name = memcpy(take(len + 1, 1), s->name, len);
}

void read_library(struct object file) {
    const char *slash = strrchr(file.path, '/');
    struct object *l = *libraries_end = keep(&file, sizeof file);
    l->name = slash ? slash + 1 : file.path;
    l->versions = take(MOST_VERSIONS + 1, sizeof *l->versions);
    libraries_end = &l->next;
    read_heads(l, ET_DYN, "not a shared library");
    EACH_SECTION_OF(l, s) {
        uint32_t type = s->head->sh_type;
        if (type == SHT_GNU_versym) l->numbers = s;
        if (type == SHT_GNU_verdef) read_versions(l, s);
        if (type != SHT_DYNAMIC) continue;
        size_t len;
        const Elf64_Dyn *entry = table_of(l, s->head, sizeof *entry, &len);
        for (; len && entry->d_tag != DT_NULL; len--, entry++)
            if (entry->d_tag == DT_SONAME) l->name = text_at(s, entry->d_un.d_val);
    }
    demand(l, l->table, "a shared library without dynamic symbols");
    read_dynamic_symbols(l);
}
