/* SPDX-License-Identifier: MIT OR Apache-2.0 */
/* What a dynamic linker reads and fills: symbols of other files and those that they may see, the
 * relocations that are left to it, and the tables that say so. */
#include "link.h"

/* A word that the dynamic linker fills. */
struct dynamic_row {
    const struct output *output;
    uint64_t offset;
    uint32_t type;
    const struct symbol *symbol;
    int64_t addend;
};

static struct dynamic_row *rows;
static size_t rows_len, rows_room, listed_len = 1, imports_len;
static struct symbol **listed; /* by their numbers in the table, first those of other files */

void add_row(struct output *o, uint64_t offset, uint32_t type, struct symbol *s, int64_t addend) {
    rows = grow(rows, rows_len + 1, &rows_room, sizeof *rows);
    rows[rows_len++] = (struct dynamic_row){o, offset, type, s, addend};
}

/* Says which symbols other files define, and which they may see. What another file may replace is
 * referred to as if that defined it. */
void bind_symbols(void) {
    bool is_shared = !linked.is_executable;
    EACH_SYMBOL(s) {
        bool is_default = visibility_of(s) == STV_DEFAULT;
        if (!is_defined(s) && strchr(s->name, '@')) find_version(s);
        bool is_seen = bind_of(s) != STB_LOCAL && rank(s) != 2 &&
                       (is_default || visibility_of(s) == STV_PROTECTED);
        if (s->library && is_thread_local(s) != (ELF64_ST_TYPE(s->there->st_info) == STT_TLS))
            fail_of(s->object, "'%s' is thread-local in only one of it and %s", s->name,
                    s->library->path);
        bool may_be_there = !is_defined(s) && (s->library || bind_of(s) == STB_WEAK);
        s->is_imported = is_seen && is_default && (is_shared || may_be_there);
        s->is_exported = is_seen && is_defined(s) && (is_shared || s->is_exported);
        if (s->is_exported && strchr(s->name, '@'))
            fail_of(s->object, "'%s' has a version of the output, which has none", s->name);
    }
}

/* How a relocation reaches a symbol of another file, or one of this file wherever it is loaded.
 * Where code doesn't load the address of a weak symbol that nothing defines so far, that is 0. This
 * is absolute: a distance to it is only for a call, which isn't made. */
void import(struct section *in, Elf64_Rela *r, const struct linker_utils_requirements *needs) {
    struct symbol *s = symbol_at(in, r);
    uint32_t kind = kind_of(in, r)->row.kind;
    bool is_in_module = kind == LINKER_UTILS_KIND_DTP_OFF;
    bool is_of_thread = kind == LINKER_UTILS_KIND_TP_OFF;
    bool is_changed = kind >= LINKER_UTILS_KIND_ABSOLUTE_SET && kind < LINKER_UTILS_KIND_RELATIVE;
    bool is_imported = s->is_imported && !((is_in_module || is_changed) && is_defined(s));
    if (needs->entry_class || kind == LINKER_UTILS_KIND_TLS_DESC_CALL) return;
    if ((is_imported && (is_in_module || is_of_thread)) || (is_of_thread && !linked.is_executable))
        fail_at(in, r, " can't reach '%s' from such an output", s->name);
    bool is_relative = kind >= LINKER_UTILS_KIND_RELATIVE && kind <= LINKER_UTILS_KIND_PLT_RELATIVE;
    bool is_nothing = !is_defined(s) && bind_of(s) == STB_WEAK && !s->library;
    bool is_absolute = !is_here(s) && (!is_imported || (is_nothing && linked.is_executable));
    if (!linked.is_fixed && is_relative && is_absolute && !(is_nothing && needs->may_use_stub))
        fail_at(in, r, " depends on where the output is loaded, to the absolute '%s'", s->name);
    if (!is_imported && (linked.is_fixed || !needs->depends_on_load || !is_here(s))) return;
    if (is_imported && needs->may_use_stub) {
        s->has_stub |= !needs->stub_only_if_undefined || !is_defined(s);
    } else if (needs->is_word && in->output->flags & SHF_WRITE) {
        uint32_t type = is_imported ? types.word : types.relative;
        add_row(in->output, in->offset + r->r_offset, type, s, r->r_addend);
    } else if (!is_imported) {
        fail_at(in, r, " depends on where the output is loaded, to '%s'", s->name);
    } else if (!linked.is_executable) {
        fail_at(in, r, " can't reach '%s', which another file may replace", s->name);
    } else if (s->library) {
        const char *file = s->library->path;
        if (ELF64_ST_VISIBILITY(s->there->st_other) == STV_PROTECTED)
            fail_at(in, r, " can't replace the protected '%s' of %s", s->name, file);
        bool is_function = ELF64_ST_TYPE(s->there->st_info) == STT_FUNC;
        s->has_stub |= is_function, s->is_canonical |= is_function;
        s->is_copied |= !is_function;
    }
}

/* Makes room for a variable of a library in the program, and moves all its names there. Its address
 * and its section in the library say how it is aligned. */
static void make_copy(struct symbol *s) {
    const struct object *l = s->library;
    uint64_t align = s->there->st_value & -s->there->st_value, most = 64;
    if (s->there->st_shndx < l->sections_len)
        most = l->heads[s->there->st_shndx].sh_addralign;
    if (!s->there->st_size || s->there->st_size > MOST_BYTES)
        fail_of(l, ".dynsym: '%s' can't be copied", s->name);
    uint64_t at = make_room(bss, align && align < most ? align : most, s->there->st_size);
    add_row(bss, at, types.copy, s, 0);
    for (size_t i = 0; i <= l->symbols_len; i++) { /* at last itself, if by its version */
        struct symbol *alias = i < l->symbols_len ? l->symbols[i] : s;
        if (!alias || alias->library != l || alias->there->st_value != s->there->st_value ||
            alias->there->st_shndx != s->there->st_shndx || (alias->object && is_defined(alias)))
            continue;
        list_symbol(alias);
        unsigned bind = alias->object ? bind_of(alias) : ELF64_ST_BIND(alias->there->st_info);
        unsigned type = ELF64_ST_TYPE(alias->there->st_info);
        alias->elf = (Elf64_Sym){.st_info = ELF64_ST_INFO(bind, type), .st_shndx = SHN_ABS,
                                 .st_size = alias->there->st_size};
        alias->output = bss, alias->offset = at;
        alias->is_imported = false;
        alias->is_exported = alias->is_copied = true;
    }
}

/* Makes the copies of variables, and the stubs to functions of other files, which go to the address
 * in a slot. If the stub is the function's address other look-ups than of a jump slot find the stub
 * itself; and else in a jump slot a dynamic linker may put the entry for calls within a file. */
void make_imports(void) {
    EACH_SYMBOL(s) {
        if (s->is_copied && !s->output) make_copy(s);
        if (s->has_stub) s->stub = add_slot(s, s->is_canonical ? types.jump_slot : types.glob_dat);
        if (!s->has_stub || !s->is_canonical) continue;
        s->output = stubs, s->offset = s->stub;
        s->elf.st_size = s->there->st_size;
    }
}

/* Leaves an entry of the GOT to the dynamic linker, or what of it is not known here. */
void fill_entry(struct symbol *s, const struct entry *e) {
    struct linker_utils_word_types words;
    bool is_bound = !s->is_imported;
    if (!is_dynamic || (is_bound && !is_here(s)) ||
        linker_utils_dynamic_words(machine, e->class, is_bound, linked.is_executable, &words) ||
        (linked.is_fixed && words.first == types.relative))
        return;
    if (words.first) add_row(got, e->offset, words.first, s, e->addend);
    if (words.second) add_row(got, e->offset + 8, words.second, s, e->addend);
}

/* How many buckets the table of hashes has. */
static uint32_t buckets_len(void) { return (uint32_t)(listed_len - imports_len) / 4 + 1; }

static uint32_t bucket_of(const struct symbol *s) { return s->hash % buckets_len(); }

static int by_bucket(const void *left, const void *right) {
    const struct symbol *a = *(struct symbol *const *)left, *b = *(struct symbol *const *)right;
    int by = order(bucket_of(a), bucket_of(b));
    return by ? by : strcmp(a->name, b->name);
}

/* Writes the hashes of the symbols that others may see, after a word of bits that excludes none,
 * and the first of each bucket. Of the last one of a bucket the hash is odd. */
static void write_hashes(void) {
    uint32_t head[6] = {buckets_len(), (uint32_t)imports_len, 1, 0, UINT32_MAX, UINT32_MAX};
    uint32_t *buckets = (uint32_t *)(hash_table->bytes + sizeof head), *chain = buckets + head[0];
    memcpy(hash_table->bytes, head, sizeof head);
    for (size_t i = imports_len; i < listed_len; i++) {
        uint32_t at = bucket_of(listed[i]);
        if (!buckets[at]) buckets[at] = (uint32_t)i;
        bool is_last = i + 1 == listed_len || bucket_of(listed[i + 1]) != at;
        *chain++ = (listed[i]->hash & ~1u) | is_last;
    }
}

/* Writes the versions that each library has to have, and numbers them. */
static void write_needed(void) {
    uint64_t last = 0;
    uint16_t number = VER_NDX_GLOBAL;
    EACH_LIBRARY(l) {
        Elf64_Verneed head = {.vn_version = VER_NEED_CURRENT, .vn_file = l->name_at,
                              .vn_aux = sizeof head};
        for (struct version *v = l->versions; v <= l->versions + MOST_VERSIONS; v++) {
            bool is_of_relr = v->name && !strcmp(v->name, "GLIBC_ABI_DT_RELR");
            v->number |= is_of_relr && relr && relr->len; /* glibc requires it then */
            head.vn_cnt += v->number;
        }
        if (!head.vn_cnt) continue;
        head.vn_next = sizeof head + head.vn_cnt * (uint32_t)sizeof(Elf64_Vernaux);
        last = append(verneed, 4, &head, sizeof head);
        verneed->info++;
        for (struct version *v = l->versions; head.vn_cnt; v++) {
            if (!v->number) continue;
            v->number = ++number;
            Elf64_Vernaux aux = {.vna_hash = v->hash, .vna_other = number,
                                 .vna_name = add_name(dynstr, v->name),
                                 .vna_next = --head.vn_cnt ? sizeof aux : 0};
            append(verneed, 4, &aux, sizeof aux);
        }
    }
    if (verneed->len) memset(verneed->bytes + last + offsetof(Elf64_Verneed, vn_next), 0, 4);
}

/* The version with which a symbol is looked up, which its library has; null where there is none. */
static struct version *version_of(const struct symbol *s) {
    bool is_there = s->library && ((s->is_imported && !is_defined(s)) || s->is_copied);
    return is_there && s->version > VER_NDX_GLOBAL ? &s->library->versions[s->version] : NULL;
}

/* Lists the dynamic symbols, which are those of other files and then those that other files find
 * here, numbers them, and says which versions they require. */
static void list_dynamic(void) {
    listed = zeros(symbols_len + 1, sizeof *listed);
    for (int is_here = 0; is_here < 2; is_here++) {
        imports_len = listed_len;
        EACH_SYMBOL(s) {
            bool is_import = s->is_imported && !is_defined(s) && !s->is_canonical;
            bool is_found = s->is_exported && (s->output || s->elf.st_shndx == SHN_ABS);
            if (is_here ? !is_found && !s->is_canonical : !is_import) continue;
            listed[listed_len++] = s, s->hash = hash_of(s->name);
            if (version_of(s)) version_of(s)->number = 1;
        }
    }
    qsort(listed + imports_len, listed_len - imports_len, sizeof *listed, by_bucket);
    write_needed();
    dynsym->info = 1;
    make_room(dynsym, 8, listed_len * sizeof(Elf64_Sym));
    for (uint32_t i = 1; i < listed_len; listed[i]->dynamic = i, i++)
        ((Elf64_Sym *)dynsym->bytes)[i].st_name = add_name(dynstr, listed[i]->name);
    make_room(hash_table, 8, 24 + 4 * (buckets_len() + listed_len - imports_len));
    if (verneed->len) make_room(versym, 2, 2 * listed_len);
}

/* Whether a row only adds the load address to a word that can be packed. */
static bool is_packed(const struct dynamic_row *row) {
    return relr && row->type == types.relative && !(row->offset % 8 || row->output->align % 8);
}

/* Writes the words of packed rows, if there is room, and returns how many they are. */
static size_t pack_rows(uint64_t *words, size_t room) {
    uint64_t *places = zeros(rows_len, sizeof *places);
    size_t len = 0, needed = 0;
    for (const struct dynamic_row *row = rows; row < rows + rows_len; row++)
        if (is_packed(row)) places[len++] = row->output->address + row->offset;
    if (len) qsort(places, len, sizeof *places, by_number);
    uint32_t status = linker_utils_write_relr(places, len, words, room, &needed);
    if (status != LINKER_UTILS_TOO_SHORT || room) expect_ok(status);
    free(places);
    return needed;
}

static void put_entry(int64_t tag, uint64_t value) {
    append(dynamic, 8, &(Elf64_Dyn){.d_tag = tag, .d_un.d_val = value}, sizeof(Elf64_Dyn));
}

/* Where a table is that isn't empty; where there are tags for them, its length and an element's. */
static void put_table(const struct output *o, int64_t tag, int64_t size, int64_t element) {
    if (o->len) put_entry(tag, o->address);
    if (o->len && size) put_entry(size, o->len);
    if (o->len && element) put_entry(element, o->element);
}

/* An array of functions: with priorities it is several sections, one after the other. */
static void put_array(int64_t tag, int64_t size, unsigned rank) {
    uint64_t start = 0, end = 0;
    EACH_OUTPUT(o) {
        if (!o->len || o->rank != rank) continue;
        if (!end) start = o->address;
        end = o->address + o->len;
    }
    if (end) put_entry(tag, start), put_entry(size, end - start);
}

static void put_function(int64_t tag, const char *name) {
    const struct symbol *s = named(name);
    if (s->output) put_entry(tag, address_of(s->output, s->offset));
}

/* Makes the entries, or writes them once addresses are known. */
static void put_entries(void) {
    static uint32_t name;
    struct linker_utils_dynamic_facts of = {.has_landing_plt = load_kind != LINKER_UTILS_STUB_LOAD};
    struct linker_utils_dynamic_entry entry;
    bool is_static = false;
    if (own_name && !name) name = add_name(dynstr, own_name);
    dynamic->len = 0;
    EACH_LIBRARY(l) put_entry(DT_NEEDED, l->name_at);
    if (name) put_entry(DT_SONAME, name);
    put_function(DT_INIT, "_init");
    put_function(DT_FINI, "_fini");
    if (linked.is_executable) put_array(DT_PREINIT_ARRAY, DT_PREINIT_ARRAYSZ, RANK_ARRAYS);
    put_array(DT_INIT_ARRAY, DT_INIT_ARRAYSZ, RANK_ARRAYS + 1);
    put_array(DT_FINI_ARRAY, DT_FINI_ARRAYSZ, RANK_ARRAYS + 2);
    put_table(hash_table, DT_GNU_HASH, 0, 0);
    put_table(dynstr, DT_STRTAB, DT_STRSZ, 0);
    put_table(dynsym, DT_SYMTAB, 0, DT_SYMENT);
    put_table(rela, DT_RELA, DT_RELASZ, DT_RELAENT);
    if (relr) put_table(relr, DT_RELR, DT_RELRSZ, DT_RELRENT);
    put_table(versym, DT_VERSYM, 0, 0);
    put_table(verneed, DT_VERNEED, 0, 0);
    if (verneed->len) put_entry(DT_VERNEEDNUM, verneed->info);
    for (size_t i = 0; i < rows_len; i++) is_static |= rows[i].type == types.thread_offset;
    for (size_t i = 0; !linker_utils_get_dynamic_entry(machine, &of, i, &entry); i++)
        put_entry((int64_t)entry.tag, entry.value);
    if (linked.is_executable) put_entry(DT_DEBUG, 0);
    put_entry(DT_FLAGS, DF_BIND_NOW | (!linked.is_executable && is_static ? DF_STATIC_TLS : 0));
    put_entry(DT_FLAGS_1, DF_1_NOW | (linked.is_executable && !linked.is_fixed ? DF_1_PIE : 0));
    put_entry(DT_NULL, 0);
}

/* Makes all that is in the tables except for addresses. */
void make_dynamic(void) {
    uint8_t path[LINKER_UTILS_NAME_SIZE + 1] = {0};
    size_t used = 0, most = sizeof path - 1, rela_len = 0;
    uint64_t apart = 0;
    for (size_t i = 0; i < rows_len; i++) rela_len += !is_packed(&rows[i]);
    if (rela_len) make_room(rela, 8, rela_len * sizeof(Elf64_Rela));
    /* sections so far apart that no word has rows of two: sections that meet need no more */
    if (relr) EACH_OUTPUT(o) o->address = apart += 2 * MOST_BYTES;
    if (relr) make_room(relr, 8, 8 * pack_rows(NULL, 0));
    if (!is_dynamic) return;
    if (interpreter && linker_utils_interpreter(machine, machine_flags, path, most, &used))
        fail("no dynamic linker is known for such objects");
    if (interpreter) append(interpreter, 1, path, used + 1);
    make_room(dynstr, 1, 1); /* the empty name is always there */
    EACH_LIBRARY(l) l->name_at = add_name(dynstr, l->name);
    list_dynamic();
    put_entries();
}

/* Those without a symbol first, and at last those that call functions. */
static int by_symbol(const void *left, const void *right) {
    const Elf64_Rela *a = left, *b = right;
    int by = order(type_of(a) == types.irelative, type_of(b) == types.irelative);
    if (!by) by = order(a->r_info, b->r_info);
    return by ? by : order(a->r_offset, b->r_offset);
}

/* Writes the tables, once all addresses are known. Whether a symbol is of a kind that only GNU's
 * systems know. */
bool write_dynamic(void) {
    bool is_of_gnu = false;
    Elf64_Rela *to = (Elf64_Rela *)rela->bytes;
    if (relr && relr->len) { /* after them bitmaps without a bit */
        uint64_t *words = (uint64_t *)relr->bytes;
        for (size_t at = pack_rows(words, relr->len / 8); at < relr->len / 8;) words[at++] = 1;
    }
    for (const struct dynamic_row *row = rows; row < rows + rows_len; row++) {
        const struct symbol *s = row->symbol;
        bool is_looked_up = s->is_imported || row->type == types.copy;
        bool is_of_copy = row->type == types.word && !is_looked_up; /* which came later */
        bool is_offset = row->type == types.thread_offset || row->type == types.module_offset ||
                         row->type == types.descriptor;
        uint64_t at = address_of(s->output, s->offset) - (is_offset ? tls.image : 0);
        uint64_t added = (uint64_t)row->addend + (is_looked_up ? 0 : at);
        uint64_t info = ELF64_R_INFO((uint64_t)(is_looked_up ? s->dynamic : 0),
                                     is_of_copy ? types.relative : row->type);
        if (row->type == types.module_number) added = 0;
        if (is_packed(row)) memcpy(row->output->bytes + row->offset, &added, sizeof added);
        else *to++ = (Elf64_Rela){address_of(row->output, row->offset), info, (int64_t)added};
    }
    if (rela->len) qsort(rela->bytes, rela->len / sizeof *to, sizeof *to, by_symbol);
    if (!is_dynamic) return false;
    Elf64_Sym *elf = (Elf64_Sym *)dynsym->bytes + 1;
    for (size_t i = 1; i < listed_len; i++, elf++) {
        const struct symbol *s = listed[i];
        *elf = symbol_of(s, elf->st_name);
        if (!is_defined(s)) elf->st_shndx = SHN_UNDEF;
        if (!is_defined(s) && s->library)
            elf->st_info = ELF64_ST_INFO(bind_of(s), ELF64_ST_TYPE(s->there->st_info));
        is_of_gnu |= ELF64_ST_TYPE(elf->st_info) == STT_GNU_IFUNC ||
                     ELF64_ST_BIND(elf->st_info) == STB_GNU_UNIQUE;
        uint16_t number = version_of(s) ? version_of(s)->number : VER_NDX_GLOBAL;
        if (verneed->len) memcpy(versym->bytes + 2 * i, &number, sizeof number);
    }
    write_hashes();
    put_entries();
    return is_of_gnu;
}
