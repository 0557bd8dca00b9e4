/* SPDX-License-Identifier: MIT OR Apache-2.0 */
/* What relocations require: entries of the GOT, and code that the linker adds, which are stubs to
 * functions whose address is in a word, and thunks for branches that don't reach their target. */
#include "link.h"

/* Code that the linker adds, and where it goes: to the address in a word, or to its target. It is
 * written once addresses are known. */
struct stub {
    struct section part;
    struct stub *before;
    const struct output *target;
    uint64_t target_offset;
    uint32_t kind; /* `enum linker_utils_stub_kind` */
};

static struct stub *added; /* the last */

/* Adds a stub to a section, and returns the offset of its entry. */
static uint64_t add_stub(struct output *o, uint32_t kind, const char *name,
                         const struct output *target, uint64_t target_offset) {
    struct linker_utils_stub stub;
    if (is_narrow || linker_utils_get_stub(machine, kind, &stub)) fail("there is no stub to '%s'", name);
    added = NEW(struct stub, .part = {.name = name, .output = o, .len = stub.len}, .before = added,
                .target = target, .target_offset = target_offset, .kind = kind);
    add_part_of(o, &added->part, 8);
    return added->part.offset + stub.entry;
}

/* Adds a stub that goes to the address in a word, and a dynamic relocation of the word. Returns the
 * offset of its entry. */
uint64_t add_slot(struct symbol *s, uint32_t type) {
    uint64_t slot = make_room(slots, 8, 8);
    add_row(slots, slot, type, s, 0);
    return add_stub(stubs, load_kind, s->name, slots, slot);
}

/* Writes all stubs. */
void write_stubs(void) {
    for (const struct stub *s = added; s; s = s->before) {
        uint64_t at = s->part.output->address + s->part.offset;
        uint64_t target = address_of(s->target, s->target_offset);
        uint32_t status = linker_utils_write_stub(machine, s->kind, at, target, BYTES_OF(&s->part));
        if (status) fail("a stub to '%s': %s", s->part.name, linker_utils_status_text(status));
    }
}

/* Gives a relocation another index of a symbol, with what its entries have for an addend. */
static void refer(struct object *o, Elf64_Rela *r, struct symbol *to, int64_t addend) {
    size_t at = o->symbols_len++;
    o->symbols = grow(o->symbols, at + 1, &o->symbols_room, sizeof *o->symbols);
    o->addends = grow(o->addends, at + 1, &o->addends_room, sizeof *o->addends);
    o->symbols[at] = to, o->addends[at] = addend;
    r->r_info = ELF64_R_INFO((uint64_t)at, type_of(r));
}

/* Adds the entry of the GOT that a relocation requires, once; one of the module serves all. */
static void add_entry(struct section *s, Elf64_Rela *r,
                      const struct linker_utils_requirements *needs) {
    bool is_of_module = needs->entry_class == LINKER_UTILS_ENTRY_MODULE;
    struct symbol *to = is_of_module ? &module : symbol_at(s, r);
    struct entry **at = &to->entries;
    if (!is_dynamic && needs->entry_class == LINKER_UTILS_ENTRY_DESCRIPTOR)
        fail_at(s, r, " is not supported");
    while (*at && ((*at)->class != needs->entry_class || (*at)->addend != needs->entry_addend))
        at = &(*at)->next;
    if (!*at) *at = NEW(struct entry, .addend = needs->entry_addend, .class = needs->entry_class);
    got->has_bytes = true;
    if (needs->entry_addend) refer(s->object, r, to, needs->entry_addend);
}

/* Where a branch to a function whose address is in a word enters its stub, counted from the stub's
 * own entry. Where nothing restores what the branch's code needs it enters as any other. This
 * is right for a function of the same file as linked, as a recursive one, and for
 * `__libc_start_main`, which doesn't return. */
static int64_t entered_at(const struct section *s, const Elf64_Rela *r) {
    const struct symbol *to = symbol_at(s, r);
    bool is_own = !to->is_imported || (is_defined(to) && to->object == s->object);
    struct linker_utils_stub stub;
    struct linker_utils_route route;
    struct linker_utils_section here = section_of(s);
    uint32_t status = linker_utils_route_by_word(machine, 0, &here, (size_t)(r - s->relocations),
                                                 &route);
    if (status == LINKER_UTILS_NO_ROOM && (is_own || !strcmp(to->name, "__libc_start_main")))
        return 0;
    check(s, r, status);
    check(s, r, linker_utils_get_stub(machine, route.kind, &stub));
    return (int64_t)(route.entry - stub.entry);
}

/* Notes what the relocations of an object require. A descriptor of a group that doesn't stay is
 * rewritten later. */
void require(struct object *o) {
    EACH_SECTION_OF(o, s) EACH_RELOCATION(s, r) {
        struct symbol *to = symbol_at(s, r);
        const struct kind *kind = kind_of(s, r);
        uint64_t index = ELF64_R_SYM(r->r_info);
        uint16_t at = to->elf.st_shndx;
        expect_symbol(s, r);
        if (kind->row.kind == LINKER_UTILS_KIND_NONE) continue;
        if (index && !at && rank(to) == 1 && !to->is_imported)
            fail_at(s, r, ": undefined symbol '%s'", to->name);
        if (!to->output && at && at < SHN_LORESERVE)
            fail_at(s, r, ": '%s' is in a section that is left out", to->name);
        if (to == module_base && tls.has_base && linked.is_executable && kept->local_dynamic)
            fail_at(s, r, ": '%s' where other sequences of the object stay", to->name);
        struct linker_utils_requirements needs = needs_of(s, r);
        bool is_rewritten = needs.entry_class == LINKER_UTILS_ENTRY_DESCRIPTOR &&
                            linked.is_executable && !to->is_imported && !kept[index].descriptor;
        s->has_loads |= needs.entry_class == LINKER_UTILS_ENTRY_ADDRESS;
        s->has_numbers |= kind->role != LINKER_UTILS_ROLE_NONE;
        if (needs.entry_class && !is_rewritten) add_entry(s, r, &needs);
        if (is_ifunc(to)) to->needs_stub = true;
        if (is_dynamic) import(s, r, &needs);
        if (needs.may_use_stub && (is_ifunc(to) || to->is_imported)) r->r_addend += entered_at(s, r);
    }
}

/* Makes the stubs and the GOT. An indirect function's address is that of its stub, which goes to
 * the address in a slot. When the program starts, the function is called, which says which address
 * that is. The local symbols' entries are the last. */
void make_entries(void) {
    if (got->has_bytes && known_got.has_header) make_room(got, 8, word_len());
    for (int is_local = 0; is_local < 2; is_local++)
        EACH_SYMBOL(s) {
            if ((!s->needs_stub && !s->entries) || (bind_of(s) == STB_LOCAL) != is_local) continue;
            if (s->needs_stub) {
                s->offset = add_slot(keep(s, sizeof *s), types.irelative), s->output = stubs;
                s->elf.st_shndx = SHN_ABS, s->elf.st_other = 0;
            }
            for (struct entry *e = s->entries; e; e = e->next) {
                e->offset = make_room(got, word_len(), word_len() * linker_utils_get_entry_words(e->class));
                fill_entry(s, e);
            }
        }
}

/* Writes the GOT: each entry by the address that it is of. That of a weak thread-local variable
 * that nothing defines is as in ld.lld, and that of a symbol of another file is 0: so the dynamic
 * linker leaves the offset of a weak one that no file defines. */
void write_entries(void) {
    struct linker_utils_entry_words held;
    if (got->len && known_got.has_header) memcpy(got->bytes, &known_got.header, word_len());
    EACH_SYMBOL(s)
        for (const struct entry *e = s->entries; e && !s->is_imported; e = e->next) {
            uint64_t at = !is_undefined_weak(s) ? address_of(s->output, s->offset)
                          : e->class == LINKER_UTILS_ENTRY_MODULE_OFFSET ? tls.image
                          : e->class == LINKER_UTILS_ENTRY_THREAD_OFFSET ? linked.thread_origin
                                                                         : 0;
            if (linker_utils_static_words(e->class, at + (uint64_t)e->addend, &tls.origins, &held))
                continue;
            uint8_t *bytes = got->bytes + e->offset;
            memcpy(bytes, &held.first, word_len());
            if (linker_utils_get_entry_words(e->class) > 1)
                memcpy(bytes + word_len(), &held.second, word_len());
        }
}

/* The symbol of a thunk in a section that goes to an address, which is so far above a symbol. */
static struct symbol *thunk_to(struct output *o, struct symbol *s, uint64_t above) {
    struct symbol *t = s->thunks;
    while (t && (t->output != o || t->elf.st_value != above)) t = t->thunks;
    if (t) return t;
    uint64_t entry = add_stub(o, LINKER_UTILS_STUB_JUMP, s->name, s->has_stub ? stubs : s->output,
                              (s->has_stub ? s->stub : s->offset) + above);
    return s->thunks = NEW(struct symbol, .object = s->object, .name = s->name, .output = o,
                           .offset = entry, .is_thunk = true, .thunks = s->thunks,
                           .elf = {.st_shndx = SHN_ABS, .st_value = above});
}

/* Has a branch in code go by a thunk, if it doesn't reach its target, or its function expects other
 * registers. Where it reaches what is near is computed once. */
static void add_thunk(struct section *s, Elf64_Rela *r, const struct linker_utils_stub *stub) {
    struct kind *kind = kind_of(s, r);
    struct symbol *to = symbol_at(s, r);
    if (!kind->needs[0].may_use_stub || to->is_thunk) return;
    bool reaches_all = !kind->row.reach.has_range || span < (uint64_t)kind->row.reach.max / 2;
    bool is_near = reaches_all && to->output && to->offset <= to->output->len && !to->has_stub &&
                   !r->r_addend;
    bool *is_direct = &kind->is_direct[to->elf.st_other & ~3];
    if (is_near && *is_direct) return;
    struct linker_utils_route route;
    Elf64_Rela one = {r->r_offset, ELF64_R_INFO(UINT64_C(1), type_of(r)), r->r_addend};
    struct linker_utils_symbol known[2] = {{.address = 0}, known_symbol(to, 0)};
    struct linker_utils_object object = {.values = known, .values_len = 2};
    struct linker_utils_section here = {BYTES_OF(s), &one, 1, .address = section_of(s).address};
    uint32_t status = linker_utils_route_at(&linked, &object, &here, 0, &route);
    if (status == LINKER_UTILS_NO_ROOM) check(s, r, status);
    *is_direct |= is_near && !status && !route.is_by_stub;
    if (status || !route.is_by_stub) return;
    if (to->is_saver) fail_at(s, r, ": '%s' is too far, and takes what a stub changes", to->name);
    uint64_t from = to->has_stub ? known[1].stub : known[1].address;
    refer(s->object, r, thunk_to(s->output, to, route.target - from), 0);
    r->r_addend = (int64_t)(route.entry - stub->entry);
}

/* Adds the thunks of all branches. Whether there are more: then addresses change. */
bool add_thunks(void) {
    const struct stub *before = added;
    struct linker_utils_stub stub;
    if (linker_utils_get_stub(machine, LINKER_UTILS_STUB_JUMP, &stub)) return false;
    EACH_SECTION(s)
        if (s->output && s->output->flags & SHF_EXECINSTR)
            EACH_RELOCATION(s, r) add_thunk(s, r, &stub);
    return added != before;
}
