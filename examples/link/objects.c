/* SPDX-License-Identifier: MIT OR Apache-2.0 */
/* Objects, archives and groups. Everything that is read of a file is checked to be in it. */
#include <ar.h>
#include <fcntl.h>
#include <sys/mman.h>
#include <sys/stat.h>
#include <unistd.h>

#include "link.h"

static struct object **objects_end = &objects;
static struct object *reading; /* a stack of those whose undefined symbols are to be looked up */

static const uint8_t *bytes_at(const struct object *o, uint64_t offset, uint64_t len) {
    demand(o, offset <= o->len && len <= o->len - offset, "it ends too early");
    return o->bytes + offset;
}

/* A table, and how many entries it has; a copy of it where nothing aligns them in the file. */
const void *table_of(const struct object *o, const Elf64_Shdr *head, size_t size, size_t *len) {
    demand(o, head->sh_entsize == size && !(head->sh_size % size), "entries of another size");
    const uint8_t *bytes = bytes_at(o, head->sh_offset, head->sh_size);
    *len = head->sh_size / size;
    return (uintptr_t)bytes % 8 ? memcpy(take(*len, size), bytes, head->sh_size) : bytes;
}

/* A name in the table of names that a section refers to. */
const char *text_at(const struct section *s, uint64_t at) {
    const struct object *o = s->object;
    const Elf64_Shdr *table = &o->heads[s->head->sh_link < o->sections_len ? s->head->sh_link : 0];
    bool holds = table->sh_type == SHT_STRTAB && at < table->sh_size;
    const char *text = holds ? (const char *)bytes_at(o, table->sh_offset, table->sh_size) : NULL;
    if (!holds || text[table->sh_size - 1]) fail_in(s, "a name that is not there");
    return text + at;
}

/* Leaves out the sections of a group that an earlier object has too. */
static void read_group(const struct section *s) {
    const struct object *o = s->object;
    const struct section *table = o->table;
    const Elf64_Shdr *head = s->head;
    size_t len;
    const Elf32_Word *words = table_of(o, head, sizeof *words, &len);
    if (!table || head->sh_link != table - o->sections || head->sh_info >= o->mentions_len || !len)
        fail_in(s, "a group without its symbol");
    struct symbol *signature = named(text_at(table, o->mentions[head->sh_info].st_name));
    bool is_comdat = words[0] & GRP_COMDAT, is_discarded = is_comdat && signature->has_group;
    signature->has_group |= is_comdat;
    for (size_t i = 1; i < len; i++) {
        if (words[i] >= o->sections_len) fail_in(s, "a group of a section that is not there");
        o->sections[words[i]].is_discarded |= is_discarded;
    }
}

/* A symbol as an object mentions it, until the next call. */
static struct symbol *mention(const struct object *o, size_t i) {
    static struct symbol s; /* of which nothing else is set */
    s.object = o;
    s.elf = o->mentions[i];
    size_t at = s.elf.st_shndx < o->sections_len ? s.elf.st_shndx : 0;
    bool is_section = stt_of(&s) == STT_SECTION && at;
    s.name = is_section ? o->sections[at].name : o->names + s.elf.st_name;
    if (bind_of(&s) == STB_WEAK && o->sections[at].is_discarded) s.elf.st_shndx = SHN_UNDEF;
    return &s;
}

/* Adds what an object says of a global symbol that it defines, or of one that it doesn't. */
static void resolve_mention(const struct object *o, size_t i, bool is_definition) {
    struct symbol *s = mention(o, i);
    if (is_defined(s) == is_definition) resolve(o->symbols[i], s);
}

/* Ends with an error where an object's symbol is not as linkers know them. */
static void check_symbol(const struct object *o, size_t i, bool is_local, const char *name) {
    const Elf64_Sym *elf = &o->mentions[i];
    uint16_t at = elf->st_shndx;
    bool is_tls = ELF64_ST_TYPE(elf->st_info) == STT_TLS, has_section = at < o->sections_len;
    bool has_place = at == SHN_ABS || (at == SHN_COMMON && !is_local);
    if ((!has_section && (is_tls || !has_place)) ||
        (ELF64_ST_BIND(elf->st_info) == STB_LOCAL) != is_local)
        fail_of(o, "symbol %zu, '%s', is of a kind that is not supported", i, name);
    if (is_tls && at && has_section && !(o->heads[at].sh_flags & SHF_TLS))
        fail_in(&o->sections[at], "'%s' is thread-local in a section that is not", name);
}

static void read_symbols(struct object *o) {
    static uint32_t *hashes; /* of the global ones of one object after another */
    static size_t room;
    size_t len = o->symbols_len = o->symbols_room = o->mentions_len;
    size_t first = o->table->head->sh_info;
    struct symbol *local = take(first < len ? first : len, sizeof *local);
    o->symbols = zeros(len, sizeof *o->symbols);
    hashes = grow(hashes, len, &room, sizeof *hashes);
    if (len) o->names = text_at(o->table, 0);
    for (size_t i = 0; i < len; i++) {
        const char *name = text_at(o->table, o->mentions[i].st_name);
        check_symbol(o, i, i < first, name);
        if (i < first) o->symbols[i] = memcpy(local++, mention(o, i), sizeof *local);
        else hashes[i] = hash_of(name);
    }
    for (size_t i = 0; i < len; i++) {
        if (i >= first) o->symbols[i] = named_by(o->names + o->mentions[i].st_name, hashes[i]);
        list_symbol(o->symbols[i]);
    }
    for (size_t i = o->resolved_len = first; i < len; i++) resolve_mention(o, i, true);
    o->below = reading, reading = o;
}

/* Looks up the undefined symbols of all objects that are being read. Where one of them loads a
 * member, those of the member come first, as in ld.lld. */
static void resolve_all(void) {
    for (struct object *o; (o = reading);) {
        size_t i = o->resolved_len++;
        if (i < o->mentions_len) resolve_mention(o, i, false);
        else reading = o->below;
    }
}

/* Reads the header, the sections and the table of symbols of a file. All files have to be of one
 * class, and only RISC-V's may be of ELFCLASS32. */
void read_heads(struct object *o, uint16_t type, const char *otherwise) {
    Elf64_Ehdr head = {.e_shnum = 0};
    if (o->len >= sizeof(Elf32_Ehdr)) memcpy(&head, o->bytes, sizeof(Elf32_Ehdr));
    bool is_one = head.e_ident[EI_CLASS] == ELFCLASS32 &&
                  !linker_utils_read_rela32(head.e_machine, NULL, 0, NULL, 0);
    demand(o, !machine || is_one == is_narrow, "of another class than those before it");
    is_narrow = is_one;
    memcpy(&head, wide_Ehdr(bytes_at(o, 0, SIZE_OF(Ehdr)), 1), sizeof head);
    if (memcmp(head.e_ident, is_narrow ? ELFMAG "\1\1" : ELFMAG "\2\1", 6) ||
        head.e_type != type || !head.e_shnum)
        fail_of(o, "%s of little-endian ELF64", otherwise);
    if (!machine) linked.machine = machine = head.e_machine;
    demand(o, machine == head.e_machine && !linker_utils_relocate(machine, 0, 0, NULL, 0),
           "of another architecture");
    Elf64_Shdr table = {.sh_offset = head.e_shoff, .sh_size = head.e_shnum * SIZE_OF(Shdr),
                        .sh_entsize = head.e_shentsize, .sh_link = head.e_shstrndx};
    const struct section all = {o, "its sections", .head = &table};
    o->heads = table_of(o, &table, SIZE_OF(Shdr), &o->sections_len);
    o->heads = wide_Shdr(o->heads, o->sections_len);
    o->sections = take(o->sections_len, sizeof *o->sections);
    for (size_t i = 0; i < o->sections_len; i++) {
        const Elf64_Shdr *s = &o->heads[i];
        o->sections[i] = (struct section){o, text_at(&all, s->sh_name), .head = s,
                                          .is_discarded = s->sh_flags & SHF_EXCLUDE};
        if (s->sh_type != SHT_NOBITS) bytes_at(o, s->sh_offset, s->sh_size);
    }
    uint64_t unit = linker_utils_code_unit(machine, head.e_flags);
    uint32_t joined = 0, flags = o == objects ? head.e_flags : machine_flags;
    o->is_compressed = unit < linker_utils_code_unit(machine, 0);
    demand(o, !objects || !linker_utils_join_flags(machine, flags, head.e_flags, &joined),
           "of another ABI than those before it");
    if (type == ET_REL) machine_flags = joined;
    EACH_SECTION_OF(o, s) {
        if (s->head->sh_type != (type == ET_REL ? SHT_SYMTAB : SHT_DYNSYM)) continue;
        demand(o, !o->table, "two tables of symbols");
        o->mentions = table_of(o, s->head, SIZE_OF(Sym), &o->mentions_len);
        o->mentions = wide_Sym(o->mentions, o->mentions_len);
        o->table = s;
    }
}

/* Reads an object, and puts it after the others. */
static void read_object(struct object file) {
    struct object *o = *objects_end = keep(&file, sizeof file);
    objects_end = &o->next;
    read_heads(o, ET_REL, "not a relocatable object");
    EACH_SECTION_OF(o, s) if (s->head->sh_type == SHT_GROUP) read_group(s);
    if (o->table) read_symbols(o);
    EACH_SECTION_OF(o, s) {
        uint32_t type = s->head->sh_type, of = s->head->sh_info;
        if (type == SHT_PROGBITS) continue;
        /* relocations in other forms: CREL and RELR, and Android's two */
        if (type > SHT_SYMTAB_SHNDX && type <= SHT_LOOS + 2)
            fail_in(s, "such sections are not supported");
        if (type != SHT_RELA && type != SHT_REL) continue;
        if (of >= o->sections_len || o->sections[of].table)
            fail_of(o, "relocations of no section, or twice of one");
        o->sections[of].table = s->head;
    }
}

/* What an archive's member has after its header. */
static struct object member_at(const struct object *a, uint64_t offset) {
    const struct ar_hdr *head = (const void *)bytes_at(a, offset, sizeof *head);
    char *end = NULL;
    bool holds = !memcmp(head->ar_fmag, ARFMAG, 2); /* no digit, so that the number ends there */
    uint64_t len = holds ? strtoull(head->ar_size, &end, 10) : 0;
    demand(a, holds && end != head->ar_size, "a member's header is not there");
    return (struct object){.bytes = bytes_at(a, offset + sizeof *head, len), .len = len};
}

/* Reads a member that the index names. */
void load_member(struct object *a, uint64_t offset) {
    if (a->is_loaded[offset / 2]) return;
    a->is_loaded[offset / 2] = true;
    struct object member = member_at(a, offset);
    const char *name = (const char *)a->bytes + offset;
    size_t most = sizeof ((struct ar_hdr *)NULL)->ar_name;
    if (*name == '/') {
        uint64_t at = strtoull(name + 1, NULL, 10);
        demand(a, at < a->names_len, "a member's name is not there");
        name = a->names + at, most = a->names_len - at;
    }
    const char *slash = memchr(name, '/', most);
    int len = (int)(slash ? slash - name : (ptrdiff_t)most);
    member.path = take(strlen(a->path) + (size_t)len + 3, 1);
    sprintf((char *)member.path, "%s(%.*s)", a->path, len, name);
    read_object(member);
}

static uint32_t big_endian(const uint8_t *bytes) {
    return (uint32_t)bytes[0] << 24 | (uint32_t)bytes[1] << 16 | (uint32_t)bytes[2] << 8 | bytes[3];
}

/* Offers what the index of an archive names. A member that is needed already is read at once. */
static void read_archive(struct object file) {
    struct object *a = keep(&file, sizeof file), index = {.len = 0};
    a->is_loaded = take(file.len / 2 + 1, 1);
    /* the special ones are first */
    for (uint64_t at = SARMAG, i = 0; i < 2 && at < file.len; i++) {
        const char *name = (const char *)file.bytes + at;
        struct object member = member_at(a, at);
        if (!memcmp(name, "/ ", 2)) index = member;
        else if (!memcmp(name, "// ", 3))
            a->names = (const char *)member.bytes, a->names_len = member.len;
        at += sizeof(struct ar_hdr) + member.len + member.len % 2;
    }
    if (file.len == SARMAG) return;
    demand(a, index.len >= 4, "an archive without an index");
    uint64_t count = big_endian(index.bytes);
    demand(a, count <= (index.len - 4) / 4, "the index ends too early");
    const char *end = (const char *)index.bytes + index.len, *text = end - index.len + 4 * (count + 1);
    for (uint64_t i = 1; i <= count; i++) {
        const char *next = memchr(text, 0, (size_t)(end - text));
        uint64_t at = big_endian(index.bytes + 4 * i);
        demand(a, next, "the index ends too early");
        if (at % 2 || at >= file.len || file.len - at < sizeof(struct ar_hdr) ||
            memcmp(((const struct ar_hdr *)(file.bytes + at))->ar_fmag, ARFMAG, 2))
            fail_of(&file, "the index points nowhere for '%.200s'", text);
        offer(text, a, at);
        resolve_all();
        text = next + 1;
    }
}

void read_file(const char *path) {
    struct stat status;
    int file = open(path, O_RDONLY);
    if (file < 0 || fstat(file, &status) || !S_ISREG(status.st_mode) ||
        (uint64_t)status.st_size > MOST_BYTES)
        fail("%s: can't be read", path);
    struct object o = {.path = path, .len = (size_t)status.st_size};
    o.bytes = o.len ? mmap(NULL, o.len, PROT_READ, MAP_PRIVATE, file, 0) : take(1, 1);
    if (o.bytes == MAP_FAILED) fail("%s: can't be read", path);
    close(file);
    demand(&o, o.len < 8 || memcmp(o.bytes, "!<thin>\n", 8), "a thin archive");
    if (o.len >= SARMAG && !memcmp(o.bytes, "!<arch>\n", SARMAG)) read_archive(o);
    else if (o.len >= 18 && !memcmp(o.bytes, ELFMAG, 4) && o.bytes[16] == ET_DYN) read_library(o);
    else read_object(o);
    resolve_all();
}
