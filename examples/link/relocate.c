/* SPDX-License-Identifier: MIT OR Apache-2.0 */
/* Relocations: what is known of them and of their symbols, and the values of all. */
#include "link.h"

/* Prints where a relocation is, and its name, as "b.o: .text+0x1c: R_RISCV_JAL". The offset is the
 * object's. */
void print_place(const struct section *s, const Elf64_Rela *r) {
    uint8_t name[LINKER_UTILS_NAME_SIZE];
    size_t len = 0;
    uint64_t offset = 0, at = s->table->sh_offset + (uint64_t)(r - s->relocations) * SIZE_OF(Rela);
    memcpy(&offset, s->object->bytes + at, word_len());
    if (linker_utils_relocation_name(machine, type_of(r), name, sizeof name, &len)) len = 0;
    fprintf(stderr, "%s: %s+0x%" PRIx64 ": %.*s", s->object->path, s->name, offset, (int)len,
            (const char *)name);
}

void check(const struct section *s, const Elf64_Rela *r, uint32_t status) {
    if (status) fail_at(s, r, ": %s", linker_utils_status_text(status));
}

/* Reads the relocations of a section. In tables beside functions that other objects have too, what
 * refers to a discarded section is nothing wrong: it is left unset. */
void read_relocations(struct section *s) {
    const struct object *o = s->object;
    size_t len;
    const void *elf = table_of(o, s->table, SIZE_OF(Rela), &len);
    bool has_addresses = s->output->rank == RANK_ADDRESSES;
    bool is_beside = s->output == frames || !strcmp(s->output->name, ".gcc_except_table");
    s->relocations = take(len, sizeof(Elf64_Rela));
    if (!is_narrow) memcpy(s->relocations, elf, len * sizeof(Elf64_Rela));
    else expect_ok(linker_utils_read_rela32(machine, elf, len * sizeof(Elf32_Rela), s->relocations, len));
    s->relocations_len = (uint32_t)len;
    if (has_addresses) s->kept_words = take(len, 1);
    EACH_RELOCATION(s, r) {
        if (r->r_offset > s->len || ELF64_R_SYM(r->r_info) >= o->mentions_len)
            fail_in(s, "a relocation is of no byte or no symbol");
        if (!is_beside && !has_addresses) continue;
        const struct symbol *to = symbol_at(s, r);
        bool is_in_section = !to->output && is_defined(to) && to->elf.st_shndx < SHN_LORESERVE;
        if (is_in_section && to->object->sections[to->elf.st_shndx].is_discarded) drop(r);
    }
}

struct kind *ask_kind(const struct section *s, const Elf64_Rela *r, struct kind *kind) {
    static bool changes; /* whether the machine's relocations change ULEB128 numbers */
    static uint32_t asked;
    uint32_t type = type_of(r);
    for (; asked < 256; asked++)
        changes |= linker_utils_uleb128_role(machine, asked) == LINKER_UTILS_ROLE_ADDS;
    check(s, r, linker_utils_row_of(linker_utils_find(machine, type), &kind->row));
    for (int is_tls = 0; is_tls < 2; is_tls++)
        check(s, r, linker_utils_needs(machine, type, 1, is_tls, &kind->needs[is_tls]));
    if (changes) kind->role = linker_utils_uleb128_role(machine, type);
    return kind;
}

/* What is known of a symbol, and of its entries in the GOT for an addend. */
struct linker_utils_symbol known_symbol(const struct symbol *s, int64_t addend) {
    struct linker_utils_symbol known = {
        .address = address_of(s->output, s->offset), .entry_addend = addend,
        .stub = s->has_stub ? address_of(stubs, s->stub) : 0, .size = s->elf.st_size,
        .other = is_ifunc(s) ? 0 : s->elf.st_other, .is_thread_local = is_thread_local(s),
        .is_undefined_weak = is_undefined_weak(s)};
    uint64_t *const of_class[] = {[LINKER_UTILS_ENTRY_ADDRESS] = &known.address_entry,
                                  [LINKER_UTILS_ENTRY_THREAD_OFFSET] = &known.thread_entry,
                                  [LINKER_UTILS_ENTRY_MODULE_OFFSET] = &known.module_entry,
                                  [LINKER_UTILS_ENTRY_DESCRIPTOR] = &known.descriptor};
    for (const struct entry *e = s->entries; e; e = e->next)
        if (e->addend == addend) *of_class[e->class] = address_of(got, e->offset);
    return known;
}

/* A section in the linked file, as the library takes it. */
struct linker_utils_section section_of(const struct section *s) {
    const struct output *o = s->output;
    return (struct linker_utils_section){
        BYTES_OF(s), s->relocations, s->relocations_len, o->address + s->offset,
        o->base + s->offset, s->deleted, s->deleted_len, NULL, 0};
}

/* Adds the value of a relocation to a ULEB128 number, or subtracts it, modulo what its bytes hold,
 * as in ld.lld. */
static void change_number(const struct section *s, Elf64_Rela *r, uint64_t value) {
    uint64_t number = 0;
    size_t used = 0, len = r->r_offset < s->len ? s->len - r->r_offset : 0;
    uint8_t *bytes = s->output->bytes + s->offset + s->len - len;
    check(s, r, linker_utils_read_uleb128(bytes, len, &number, &used));
    number += kind_of(s, r)->role == LINKER_UTILS_ROLE_SUBTRACTS ? -value : value;
    if (used < 9) number &= (UINT64_C(1) << 7 * used) - 1;
    check(s, r, linker_utils_write_uleb128(bytes, len, number));
    drop(r);
}

/* Writes the values of a section's relocations, if facts are as rewrites were chosen by them. Those
 * at ULEB128 numbers that are there are first, each by itself. */
void relocate_section(struct section *s, const struct linker_utils_object *known) {
    static uint64_t *memory; /* for one section after another */
    static size_t room;
    size_t at = 0;
    struct linker_utils_section here = section_of(s);
    int64_t value = 0;
    if (is_narrow) expect_ok(linker_utils_wrap_addends(&linked, known, &here));
    for (; s->has_numbers && at < s->relocations_len; at++) {
        Elf64_Rela *r = &s->relocations[at];
        if (kind_of(s, r)->role == LINKER_UTILS_ROLE_NONE) continue;
        check(s, r, linker_utils_value_at(&linked, known, &here, at, &value));
        change_number(s, r, (uint64_t)value);
    }
    size_t memory_len = linker_utils_relocate_memory(&here);
    memory = grow(memory, memory_len, &room, sizeof *memory);
    uint32_t status = linker_utils_relocate_rewritten_section(&linked, known, &here, memory,
                                                              memory_len, &at);
    if (!status) return;
    const Elf64_Rela *r = &s->relocations[at < s->relocations_len ? at : 0];
    const struct linker_utils_relocation_reach *reach = &kind_of(s, r)->row.reach;
    if (status == LINKER_UTILS_OUT_OF_REACH &&
        !linker_utils_value_at(&linked, known, &here, at, &value))
        fail_at(s, r, " out of reach: %" PRId64 " is not in [%" PRId64 ", %" PRId64 "), to '%s'",
                value, reach->min, reach->max, symbol_at(s, r)->name);
    check(s, r, status);
}
