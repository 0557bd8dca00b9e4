/* SPDX-License-Identifier: MIT OR Apache-2.0 */
/* Made by tools/generate of the exports in crates/linker_utils_c/src and of the headers.
 *
 * The inline functions of linker_utils.h, which includes this file and says what they do. No export
 * of the archive takes a null pointer to a slice, even with a count of 0. So each function replaces
 * null by the address of an array, and calls the export of the same name that ends in `_nonnull`,
 * with what the structs have in place of them. It replaces a null `faulty` by the address of a
 * variable. */
#ifndef LINKER_UTILS_INLINE_H
#define LINKER_UTILS_INLINE_H

static inline const char *linker_utils_status_text(uint32_t status) {
    switch (status) {
#define LINKER_UTILS_STATUS(name, number, text) \
    case LINKER_UTILS_##name: return text;
        LINKER_UTILS_STATUSES(LINKER_UTILS_STATUS)
#undef LINKER_UTILS_STATUS
    }
    return "No status has this number.";
}

static inline struct linker_utils_operands linker_utils_operands_of(
    uint64_t symbol, int64_t addend, uint64_t place) {
    struct linker_utils_operands operands = {symbol, addend, place, 0, 0, 0, 0, 0,
                                             false, false, false};
    return operands;
}

static inline uint32_t linker_utils_forms_of(uint16_t machine, const uint8_t *bytes,
                                             size_t bytes_len) {
    uint32_t forms = 0;
    for (uint32_t form = 0;; form++) {
        int64_t number;
        uint32_t status = linker_utils_operand(machine, form, bytes, bytes_len, &number);
        if (status == LINKER_UTILS_OK)
            forms |= UINT32_C(1) << form;
        else if (status != LINKER_UTILS_DOES_NOT_MATCH)
            return forms;
    }
}

static inline struct linker_utils_section linker_utils_section_of(uint8_t *bytes, size_t bytes_len) {
    struct linker_utils_section section = {bytes, bytes_len, NULL, 0, 0, 0, NULL, 0, NULL, 0};
    return section;
}

/* What exports take of a link, and of a link and a section. */
struct linker_utils_output_facts {
    bool is_executable;
    bool is_fixed;
    bool has_near_symbols;
};

struct linker_utils_addresses {
    uint64_t section;
    uint64_t got_base;
    uint64_t thread_origin;
    uint64_t module_origin;
    uint64_t module_entry;
    bool has_tls;
};

/* What null is replaced by. */
static uint64_t linker_utils_no_elements[1];
#define LINKER_UTILS_SLICE(element, slice) \
    ((slice) ? (slice) : (element *)linker_utils_no_elements)
/* The bytes of relocations, and how many these are. */
#define LINKER_UTILS_RELAS(byte, slice) \
    (byte *)((slice) ? (slice) : (void *)linker_utils_no_elements), 24 * slice##_len

uint32_t linker_utils_relocate_nonnull(
    uint16_t machine, uint32_t r_type, int64_t value, uint8_t *dest, size_t dest_len);
static inline uint32_t linker_utils_relocate(
    uint16_t machine, uint32_t r_type, int64_t value, uint8_t *dest, size_t dest_len) {
    return linker_utils_relocate_nonnull(
        machine, r_type, value, LINKER_UTILS_SLICE(uint8_t, dest), dest_len);
}

size_t linker_utils_relocate_memory_nonnull(const uint8_t *relocations, size_t relocations_len);
static inline size_t linker_utils_relocate_memory(const struct linker_utils_section *section) {
    return linker_utils_relocate_memory_nonnull(
        LINKER_UTILS_RELAS(const uint8_t, section->relocations));
}

uint32_t linker_utils_relocate_section_nonnull(
    uint16_t machine, const struct linker_utils_addresses *addresses, const uint8_t *relocations,
    size_t relocations_len, const struct linker_utils_symbol *symbols, size_t symbols_len,
    uint8_t *section, size_t section_len, uint64_t *memory, size_t memory_len, size_t *faulty);
static inline uint32_t linker_utils_relocate_section(
    const struct linker_utils_link *link, const struct linker_utils_object *object,
    const struct linker_utils_section *section, uint64_t *memory, size_t memory_len,
    size_t *faulty) {
    size_t ignored;
    const struct linker_utils_addresses addresses = {section->address, link->got_base,
        link->thread_origin, link->module_origin, link->module_entry, link->has_tls};
    return linker_utils_relocate_section_nonnull(
        link->machine, &addresses, LINKER_UTILS_RELAS(const uint8_t, section->relocations),
        LINKER_UTILS_SLICE(const struct linker_utils_symbol, object->values), object->values_len,
        LINKER_UTILS_SLICE(uint8_t, section->bytes), section->bytes_len,
        LINKER_UTILS_SLICE(uint64_t, memory), memory_len, faulty ? faulty : &ignored);
}

uint32_t linker_utils_survey_nonnull(
    uint16_t machine, const struct linker_utils_output_facts *output,
    const struct linker_utils_symbol_facts *symbols, size_t symbols_len, const uint8_t *relocations,
    size_t relocations_len, const uint8_t *section, size_t section_len,
    struct linker_utils_unrelaxable_groups *kept, size_t kept_len);
static inline uint32_t linker_utils_survey(
    const struct linker_utils_link *link, const struct linker_utils_object *object,
    const struct linker_utils_section *section) {
    const struct linker_utils_output_facts output = {link->is_executable, link->is_fixed,
        link->has_near_symbols};
    return linker_utils_survey_nonnull(
        link->machine, &output,
        LINKER_UTILS_SLICE(const struct linker_utils_symbol_facts, object->facts),
        object->facts_len, LINKER_UTILS_RELAS(const uint8_t, section->relocations),
        LINKER_UTILS_SLICE(const uint8_t, section->bytes), section->bytes_len,
        LINKER_UTILS_SLICE(struct linker_utils_unrelaxable_groups, object->unrelaxable_groups),
        object->unrelaxable_groups_len);
}

uint32_t linker_utils_rewrite_section_nonnull(
    uint16_t machine, const struct linker_utils_output_facts *output,
    const struct linker_utils_symbol_facts *symbols, size_t symbols_len,
    const struct linker_utils_unrelaxable_groups *kept, size_t kept_len, uint8_t *relocations,
    size_t relocations_len, uint8_t *section, size_t section_len,
    struct linker_utils_decision *decisions, size_t decisions_len, size_t *faulty);
static inline uint32_t linker_utils_rewrite_section(
    const struct linker_utils_link *link, const struct linker_utils_object *object,
    const struct linker_utils_section *section, const struct linker_utils_rewritten *rewritten,
    size_t *faulty) {
    size_t ignored;
    const struct linker_utils_output_facts output = {link->is_executable, link->is_fixed,
        link->has_near_symbols};
    return linker_utils_rewrite_section_nonnull(
        link->machine, &output,
        LINKER_UTILS_SLICE(const struct linker_utils_symbol_facts, object->facts),
        object->facts_len,
        LINKER_UTILS_SLICE(const struct linker_utils_unrelaxable_groups, object->unrelaxable_groups),
        object->unrelaxable_groups_len, LINKER_UTILS_RELAS(uint8_t, section->relocations),
        LINKER_UTILS_SLICE(uint8_t, section->bytes), section->bytes_len,
        LINKER_UTILS_SLICE(struct linker_utils_decision, rewritten->decisions),
        rewritten->decisions_len, faulty ? faulty : &ignored);
}

uint32_t linker_utils_survey_placed_section_nonnull(
    uint16_t machine, uint32_t phase, const struct linker_utils_output_facts *output,
    const struct linker_utils_symbol_facts *symbols, size_t symbols_len,
    const struct linker_utils_addresses *addresses, const struct linker_utils_symbol *values,
    size_t values_len, const uint8_t *relocations, size_t relocations_len, const uint8_t *section,
    size_t section_len, struct linker_utils_unrelaxable_groups *kept, size_t kept_len);
static inline uint32_t linker_utils_survey_placed_section(
    const struct linker_utils_link *link, const struct linker_utils_object *object,
    const struct linker_utils_section *section, uint32_t phase) {
    const struct linker_utils_output_facts output = {link->is_executable, link->is_fixed,
        link->has_near_symbols};
    const struct linker_utils_addresses addresses = {section->address, link->got_base,
        link->thread_origin, link->module_origin, link->module_entry, link->has_tls};
    return linker_utils_survey_placed_section_nonnull(
        link->machine, phase, &output,
        LINKER_UTILS_SLICE(const struct linker_utils_symbol_facts, object->facts),
        object->facts_len, &addresses,
        LINKER_UTILS_SLICE(const struct linker_utils_symbol, object->values), object->values_len,
        LINKER_UTILS_RELAS(const uint8_t, section->relocations),
        LINKER_UTILS_SLICE(const uint8_t, section->bytes), section->bytes_len,
        LINKER_UTILS_SLICE(struct linker_utils_unrelaxable_groups, object->unrelaxable_groups),
        object->unrelaxable_groups_len);
}

uint32_t linker_utils_rewrite_placed_section_nonnull(
    uint16_t machine, uint32_t phase, const struct linker_utils_output_facts *output,
    const struct linker_utils_symbol_facts *symbols, size_t symbols_len,
    const struct linker_utils_addresses *addresses, const struct linker_utils_symbol *values,
    size_t values_len, const struct linker_utils_unrelaxable_groups *kept, size_t kept_len,
    uint8_t *relocations, size_t relocations_len, uint8_t *section, size_t section_len,
    struct linker_utils_decision *decisions, size_t decisions_len,
    struct linker_utils_deletion *deleted, size_t deleted_len, size_t *deleted_used,
    size_t *faulty);
static inline uint32_t linker_utils_rewrite_placed_section(
    const struct linker_utils_link *link, const struct linker_utils_object *object,
    const struct linker_utils_section *section, uint32_t phase,
    struct linker_utils_rewritten *rewritten, size_t *faulty) {
    size_t ignored;
    const struct linker_utils_output_facts output = {link->is_executable, link->is_fixed,
        link->has_near_symbols};
    const struct linker_utils_addresses addresses = {section->address, link->got_base,
        link->thread_origin, link->module_origin, link->module_entry, link->has_tls};
    return linker_utils_rewrite_placed_section_nonnull(
        link->machine, phase, &output,
        LINKER_UTILS_SLICE(const struct linker_utils_symbol_facts, object->facts),
        object->facts_len, &addresses,
        LINKER_UTILS_SLICE(const struct linker_utils_symbol, object->values), object->values_len,
        LINKER_UTILS_SLICE(const struct linker_utils_unrelaxable_groups, object->unrelaxable_groups),
        object->unrelaxable_groups_len, LINKER_UTILS_RELAS(uint8_t, section->relocations),
        LINKER_UTILS_SLICE(uint8_t, section->bytes), section->bytes_len,
        LINKER_UTILS_SLICE(struct linker_utils_decision, rewritten->decisions),
        rewritten->decisions_len,
        LINKER_UTILS_SLICE(struct linker_utils_deletion, rewritten->deleted),
        rewritten->deleted_len, &rewritten->deleted_used, faulty ? faulty : &ignored);
}

uint32_t linker_utils_choose_nonnull(
    uint16_t machine, uint32_t r_type, const uint8_t *section, size_t section_len, uint64_t offset,
    const struct linker_utils_link_facts *facts, struct linker_utils_choice *choice);
static inline uint32_t linker_utils_choose(
    uint16_t machine, uint32_t r_type, const struct linker_utils_section *section, uint64_t offset,
    const struct linker_utils_link_facts *facts, struct linker_utils_choice *choice) {
    return linker_utils_choose_nonnull(
        machine, r_type, LINKER_UTILS_SLICE(const uint8_t, section->bytes), section->bytes_len,
        offset, facts, choice);
}

uint32_t linker_utils_apply_nonnull(
    uint16_t machine, uint32_t rewrite, uint8_t opcode_len, uint8_t *section, size_t section_len,
    uint64_t *offset, int64_t *addend);
static inline uint32_t linker_utils_apply(
    uint16_t machine, uint32_t rewrite, uint8_t opcode_len,
    const struct linker_utils_section *section, uint64_t *offset, int64_t *addend) {
    return linker_utils_apply_nonnull(
        machine, rewrite, opcode_len, LINKER_UTILS_SLICE(uint8_t, section->bytes),
        section->bytes_len, offset, addend);
}

uint32_t linker_utils_rewritten_items_nonnull(
    uint16_t machine, const uint8_t *section, size_t section_len, uint64_t base,
    const struct linker_utils_rela *relocations, size_t relocations_len,
    const struct linker_utils_deletion *deleted, size_t deleted_len,
    struct linker_utils_item *items, size_t items_len, size_t *makers, size_t makers_len,
    size_t *len, size_t *faulty);
static inline uint32_t linker_utils_rewritten_items(
    uint16_t machine, const struct linker_utils_section *section,
    const struct linker_utils_rela *relocations, size_t relocations_len,
    struct linker_utils_items *items, size_t *faulty) {
    size_t ignored;
    return linker_utils_rewritten_items_nonnull(
        machine, LINKER_UTILS_SLICE(const uint8_t, section->bytes), section->bytes_len,
        section->base, LINKER_UTILS_SLICE(const struct linker_utils_rela, relocations),
        relocations_len, LINKER_UTILS_SLICE(const struct linker_utils_deletion, section->deleted),
        section->deleted_len, LINKER_UTILS_SLICE(struct linker_utils_item, items->items),
        items->items_len, LINKER_UTILS_SLICE(size_t, items->makers), items->makers_len,
        &items->items_used, faulty ? faulty : &ignored);
}

uint32_t linker_utils_relax_nonnull(
    const struct linker_utils_item *items, size_t items_len, uint64_t start, uint8_t *shapes,
    size_t shapes_len, uint64_t *kept, size_t kept_len, size_t *places, size_t places_len,
    uint64_t *freed, size_t freed_len, size_t *faulty);
static inline uint32_t linker_utils_relax(
    const struct linker_utils_run *run, const struct linker_utils_relaxed *relaxed,
    size_t *faulty) {
    size_t ignored;
    return linker_utils_relax_nonnull(
        LINKER_UTILS_SLICE(const struct linker_utils_item, run->items), run->items_len, run->start,
        LINKER_UTILS_SLICE(uint8_t, relaxed->shapes), relaxed->shapes_len,
        LINKER_UTILS_SLICE(uint64_t, relaxed->kept), relaxed->kept_len,
        LINKER_UTILS_SLICE(size_t, relaxed->places), relaxed->places_len,
        LINKER_UTILS_SLICE(uint64_t, relaxed->freed), relaxed->freed_len,
        faulty ? faulty : &ignored);
}

uint32_t linker_utils_run_deltas_nonnull(
    const struct linker_utils_item *items, size_t items_len, const uint64_t *kept, size_t kept_len,
    struct linker_utils_delta *deltas, size_t deltas_len, size_t *len);
static inline uint32_t linker_utils_run_deltas(
    const struct linker_utils_run *run, const struct linker_utils_relaxed *relaxed,
    struct linker_utils_delta *deltas, size_t deltas_len, size_t *len) {
    return linker_utils_run_deltas_nonnull(
        LINKER_UTILS_SLICE(const struct linker_utils_item, run->items), run->items_len,
        LINKER_UTILS_SLICE(const uint64_t, relaxed->kept), relaxed->kept_len,
        LINKER_UTILS_SLICE(struct linker_utils_delta, deltas), deltas_len, len);
}

uint64_t linker_utils_deltas_input_to_output_nonnull(
    const struct linker_utils_delta *deltas, size_t deltas_len, uint64_t input_offset);
static inline uint64_t linker_utils_deltas_input_to_output(
    const struct linker_utils_delta *deltas, size_t deltas_len, uint64_t input_offset) {
    return linker_utils_deltas_input_to_output_nonnull(
        LINKER_UTILS_SLICE(const struct linker_utils_delta, deltas), deltas_len, input_offset);
}

size_t linker_utils_packed_run_len_nonnull(
    uint64_t base, size_t section_len, const struct linker_utils_delta *deltas, size_t deltas_len);
static inline size_t linker_utils_packed_run_len(
    const struct linker_utils_section *section, const struct linker_utils_run *run) {
    return linker_utils_packed_run_len_nonnull(
        section->base, section->bytes_len,
        LINKER_UTILS_SLICE(const struct linker_utils_delta, run->deltas), run->deltas_len);
}

uint32_t linker_utils_pack_run_nonnull(
    uint16_t machine, const uint8_t *section, size_t section_len, uint64_t base,
    const struct linker_utils_item *items, size_t items_len,
    const struct linker_utils_delta *deltas, size_t deltas_len, uint64_t start,
    uint8_t *relocations, size_t relocations_len, uint8_t *packed, size_t packed_len,
    size_t *faulty);
static inline uint32_t linker_utils_pack_run(
    uint16_t machine, const struct linker_utils_section *section,
    const struct linker_utils_run *run, uint8_t *packed, size_t packed_len, size_t *faulty) {
    size_t ignored;
    return linker_utils_pack_run_nonnull(
        machine, LINKER_UTILS_SLICE(const uint8_t, section->bytes), section->bytes_len,
        section->base, LINKER_UTILS_SLICE(const struct linker_utils_item, run->items),
        run->items_len, LINKER_UTILS_SLICE(const struct linker_utils_delta, run->deltas),
        run->deltas_len, run->start, LINKER_UTILS_RELAS(uint8_t, section->relocations),
        LINKER_UTILS_SLICE(uint8_t, packed), packed_len, faulty ? faulty : &ignored);
}

uint32_t linker_utils_route_at_nonnull(
    uint16_t machine, const struct linker_utils_addresses *addresses, const uint8_t *relocations,
    size_t relocations_len, const struct linker_utils_symbol *symbols, size_t symbols_len,
    size_t index, const uint8_t *section, size_t section_len, struct linker_utils_route *route);
static inline uint32_t linker_utils_route_at(
    const struct linker_utils_link *link, const struct linker_utils_object *object,
    const struct linker_utils_section *section, size_t index, struct linker_utils_route *route) {
    const struct linker_utils_addresses addresses = {section->address, link->got_base,
        link->thread_origin, link->module_origin, link->module_entry, link->has_tls};
    return linker_utils_route_at_nonnull(
        link->machine, &addresses, LINKER_UTILS_RELAS(const uint8_t, section->relocations),
        LINKER_UTILS_SLICE(const struct linker_utils_symbol, object->values), object->values_len,
        index, LINKER_UTILS_SLICE(const uint8_t, section->bytes), section->bytes_len, route);
}

uint32_t linker_utils_route_by_word_nonnull(
    uint16_t machine, uint64_t word, const uint8_t *relocations, size_t relocations_len,
    size_t index, const uint8_t *section, size_t section_len, struct linker_utils_route *route);
static inline uint32_t linker_utils_route_by_word(
    uint16_t machine, uint64_t word, const struct linker_utils_section *section, size_t index,
    struct linker_utils_route *route) {
    return linker_utils_route_by_word_nonnull(
        machine, word, LINKER_UTILS_RELAS(const uint8_t, section->relocations), index,
        LINKER_UTILS_SLICE(const uint8_t, section->bytes), section->bytes_len, route);
}

uint32_t linker_utils_write_stub_nonnull(
    uint16_t machine, uint32_t kind, uint64_t place, uint64_t target, uint8_t *bytes,
    size_t bytes_len);
static inline uint32_t linker_utils_write_stub(
    uint16_t machine, uint32_t kind, uint64_t place, uint64_t target, uint8_t *bytes,
    size_t bytes_len) {
    return linker_utils_write_stub_nonnull(
        machine, kind, place, target, LINKER_UTILS_SLICE(uint8_t, bytes), bytes_len);
}

uint32_t linker_utils_read_value_nonnull(
    uint16_t machine, uint32_t r_type, const uint8_t *bytes, size_t bytes_len,
    struct linker_utils_field_value *value);
static inline uint32_t linker_utils_read_value(
    uint16_t machine, uint32_t r_type, const uint8_t *bytes, size_t bytes_len,
    struct linker_utils_field_value *value) {
    return linker_utils_read_value_nonnull(
        machine, r_type, LINKER_UTILS_SLICE(const uint8_t, bytes), bytes_len, value);
}

uint32_t linker_utils_relocation_name_nonnull(
    uint16_t machine, uint32_t r_type, uint8_t *name, size_t name_len, size_t *name_used);
static inline uint32_t linker_utils_relocation_name(
    uint16_t machine, uint32_t r_type, uint8_t *name, size_t name_len, size_t *name_used) {
    return linker_utils_relocation_name_nonnull(
        machine, r_type, LINKER_UTILS_SLICE(uint8_t, name), name_len, name_used);
}

uint32_t linker_utils_row_write_nonnull(
    uint32_t handle, int64_t value, uint8_t *dest, size_t dest_len);
static inline uint32_t linker_utils_row_write(
    uint32_t handle, int64_t value, uint8_t *dest, size_t dest_len) {
    return linker_utils_row_write_nonnull(
        handle, value, LINKER_UTILS_SLICE(uint8_t, dest), dest_len);
}

uint32_t linker_utils_row_apply_nonnull(
    uint32_t handle, const struct linker_utils_operands *operands, uint8_t *dest, size_t dest_len);
static inline uint32_t linker_utils_row_apply(
    uint32_t handle, const struct linker_utils_operands *operands, uint8_t *dest, size_t dest_len) {
    return linker_utils_row_apply_nonnull(
        handle, operands, LINKER_UTILS_SLICE(uint8_t, dest), dest_len);
}

uint32_t linker_utils_row_choose_nonnull(
    uint32_t handle, const uint8_t *section, size_t section_len, uint64_t offset,
    const struct linker_utils_link_facts *facts, struct linker_utils_choice *choice);
static inline uint32_t linker_utils_row_choose(
    uint32_t handle, const struct linker_utils_section *section, uint64_t offset,
    const struct linker_utils_link_facts *facts, struct linker_utils_choice *choice) {
    return linker_utils_row_choose_nonnull(
        handle, LINKER_UTILS_SLICE(const uint8_t, section->bytes), section->bytes_len, offset,
        facts, choice);
}

bool linker_utils_row_fits_nonnull(
    uint32_t handle, const uint8_t *section, size_t section_len, uint64_t offset,
    const struct linker_utils_link_facts *facts);
static inline bool linker_utils_row_fits(
    uint32_t handle, const struct linker_utils_section *section, uint64_t offset,
    const struct linker_utils_link_facts *facts) {
    return linker_utils_row_fits_nonnull(
        handle, LINKER_UTILS_SLICE(const uint8_t, section->bytes), section->bytes_len, offset,
        facts);
}

uint32_t linker_utils_value_at_nonnull(
    uint16_t machine, const struct linker_utils_addresses *addresses, const uint8_t *relocations,
    size_t relocations_len, const struct linker_utils_symbol *symbols, size_t symbols_len,
    size_t index, int64_t *value);
static inline uint32_t linker_utils_value_at(
    const struct linker_utils_link *link, const struct linker_utils_object *object,
    const struct linker_utils_section *section, size_t index, int64_t *value) {
    const struct linker_utils_addresses addresses = {section->address, link->got_base,
        link->thread_origin, link->module_origin, link->module_entry, link->has_tls};
    return linker_utils_value_at_nonnull(
        link->machine, &addresses, LINKER_UTILS_RELAS(const uint8_t, section->relocations),
        LINKER_UTILS_SLICE(const struct linker_utils_symbol, object->values), object->values_len,
        index, value);
}

uint32_t linker_utils_relocate_resolved_nonnull(
    uint16_t machine, const struct linker_utils_addresses *addresses, const uint8_t *relocations,
    size_t relocations_len, const struct linker_utils_resolved *resolved, size_t resolved_len,
    uint8_t *section, size_t section_len, uint64_t *memory, size_t memory_len, size_t *faulty);
static inline uint32_t linker_utils_relocate_resolved(
    const struct linker_utils_link *link, const struct linker_utils_section *section,
    uint64_t *memory, size_t memory_len, size_t *faulty) {
    size_t ignored;
    const struct linker_utils_addresses addresses = {section->address, link->got_base,
        link->thread_origin, link->module_origin, link->module_entry, link->has_tls};
    return linker_utils_relocate_resolved_nonnull(
        link->machine, &addresses, LINKER_UTILS_RELAS(const uint8_t, section->relocations),
        LINKER_UTILS_SLICE(const struct linker_utils_resolved, section->resolved),
        section->resolved_len, LINKER_UTILS_SLICE(uint8_t, section->bytes), section->bytes_len,
        LINKER_UTILS_SLICE(uint64_t, memory), memory_len, faulty ? faulty : &ignored);
}

uint32_t linker_utils_relocate_all_nonnull(
    uint16_t machine, uint8_t *section, size_t section_len,
    const struct linker_utils_relocation_entry *relocations, size_t relocations_len,
    size_t *faulty);
static inline uint32_t linker_utils_relocate_all(
    uint16_t machine, const struct linker_utils_section *section,
    const struct linker_utils_relocation_entry *relocations, size_t relocations_len,
    size_t *faulty) {
    size_t ignored;
    return linker_utils_relocate_all_nonnull(
        machine, LINKER_UTILS_SLICE(uint8_t, section->bytes), section->bytes_len,
        LINKER_UTILS_SLICE(const struct linker_utils_relocation_entry, relocations),
        relocations_len, faulty ? faulty : &ignored);
}

uint32_t linker_utils_read_crel_nonnull(
    const uint8_t *crel, size_t crel_len, uint8_t *relas, size_t relas_len, size_t *number,
    uint8_t *has_addends);
static inline uint32_t linker_utils_read_crel(
    const uint8_t *crel, size_t crel_len, void *relas, size_t relas_len, size_t *number,
    uint8_t *has_addends) {
    return linker_utils_read_crel_nonnull(
        LINKER_UTILS_SLICE(const uint8_t, crel), crel_len, LINKER_UTILS_RELAS(uint8_t, relas),
        number, has_addends);
}

uint32_t linker_utils_read_rela32_nonnull(
    uint16_t machine, const uint8_t *rela32, size_t rela32_len, uint8_t *relas, size_t relas_len);
static inline uint32_t linker_utils_read_rela32(
    uint16_t machine, const uint8_t *rela32, size_t rela32_len, void *relas, size_t relas_len) {
    return linker_utils_read_rela32_nonnull(
        machine, LINKER_UTILS_SLICE(const uint8_t, rela32), rela32_len,
        LINKER_UTILS_RELAS(uint8_t, relas));
}

uint32_t linker_utils_wrap_addends_nonnull(
    uint16_t machine, const struct linker_utils_addresses *addresses,
    const struct linker_utils_symbol *symbols, size_t symbols_len, uint8_t *relocations,
    size_t relocations_len);
static inline uint32_t linker_utils_wrap_addends(
    const struct linker_utils_link *link, const struct linker_utils_object *object,
    const struct linker_utils_section *section) {
    const struct linker_utils_addresses addresses = {section->address, link->got_base,
        link->thread_origin, link->module_origin, link->module_entry, link->has_tls};
    return linker_utils_wrap_addends_nonnull(
        link->machine, &addresses,
        LINKER_UTILS_SLICE(const struct linker_utils_symbol, object->values), object->values_len,
        LINKER_UTILS_RELAS(uint8_t, section->relocations));
}

uint32_t linker_utils_fits_nonnull(
    uint16_t machine, uint32_t form, uint64_t value, const uint8_t *bytes, size_t bytes_len);
static inline uint32_t linker_utils_fits(
    uint16_t machine, uint32_t form, uint64_t value, const uint8_t *bytes, size_t bytes_len) {
    return linker_utils_fits_nonnull(
        machine, form, value, LINKER_UTILS_SLICE(const uint8_t, bytes), bytes_len);
}

uint32_t linker_utils_write_nonnull(
    uint16_t machine, uint32_t form, uint64_t value, bool negative, uint8_t *dest, size_t dest_len);
static inline uint32_t linker_utils_write(
    uint16_t machine, uint32_t form, uint64_t value, bool negative, uint8_t *dest,
    size_t dest_len) {
    return linker_utils_write_nonnull(
        machine, form, value, negative, LINKER_UTILS_SLICE(uint8_t, dest), dest_len);
}

uint32_t linker_utils_read_nonnull(
    uint16_t machine, uint32_t form, const uint8_t *bytes, size_t bytes_len, uint64_t *value,
    uint8_t *negative);
static inline uint32_t linker_utils_read(
    uint16_t machine, uint32_t form, const uint8_t *bytes, size_t bytes_len, uint64_t *value,
    uint8_t *negative) {
    return linker_utils_read_nonnull(
        machine, form, LINKER_UTILS_SLICE(const uint8_t, bytes), bytes_len, value, negative);
}

uint32_t linker_utils_operand_nonnull(
    uint16_t machine, uint32_t form, const uint8_t *bytes, size_t bytes_len, int64_t *number);
static inline uint32_t linker_utils_operand(
    uint16_t machine, uint32_t form, const uint8_t *bytes, size_t bytes_len, int64_t *number) {
    return linker_utils_operand_nonnull(
        machine, form, LINKER_UTILS_SLICE(const uint8_t, bytes), bytes_len, number);
}

uint32_t linker_utils_write_mov_sequence_nonnull(
    uint8_t *dest, size_t dest_len, uint32_t rd, uint64_t value);
static inline uint32_t linker_utils_write_mov_sequence(
    uint8_t *dest, size_t dest_len, uint32_t rd, uint64_t value) {
    return linker_utils_write_mov_sequence_nonnull(
        LINKER_UTILS_SLICE(uint8_t, dest), dest_len, rd, value);
}

uint32_t linker_utils_write_address_sequence_nonnull(
    uint8_t *dest, size_t dest_len, uint64_t pc, uint64_t target);
static inline uint32_t linker_utils_write_address_sequence(
    uint8_t *dest, size_t dest_len, uint64_t pc, uint64_t target) {
    return linker_utils_write_address_sequence_nonnull(
        LINKER_UTILS_SLICE(uint8_t, dest), dest_len, pc, target);
}

uint32_t linker_utils_write_ha_lo_nonnull(
    uint8_t *ha, size_t ha_len, uint8_t *lo, size_t lo_len, uint64_t value);
static inline uint32_t linker_utils_write_ha_lo(
    uint8_t *ha, size_t ha_len, uint8_t *lo, size_t lo_len, uint64_t value) {
    return linker_utils_write_ha_lo_nonnull(
        LINKER_UTILS_SLICE(uint8_t, ha), ha_len, LINKER_UTILS_SLICE(uint8_t, lo), lo_len, value);
}

uint32_t linker_utils_write_uleb128_nonnull(uint8_t *dest, size_t dest_len, uint64_t value);
static inline uint32_t linker_utils_write_uleb128(uint8_t *dest, size_t dest_len, uint64_t value) {
    return linker_utils_write_uleb128_nonnull(LINKER_UTILS_SLICE(uint8_t, dest), dest_len, value);
}

uint32_t linker_utils_write_uleb128_pair_nonnull(
    uint16_t machine, uint32_t r_type, uint8_t *dest, size_t dest_len, uint64_t first,
    uint64_t second);
static inline uint32_t linker_utils_write_uleb128_pair(
    uint16_t machine, uint32_t r_type, uint8_t *dest, size_t dest_len, uint64_t first,
    uint64_t second) {
    return linker_utils_write_uleb128_pair_nonnull(
        machine, r_type, LINKER_UTILS_SLICE(uint8_t, dest), dest_len, first, second);
}

uint32_t linker_utils_u32_from_slice_nonnull(
    const uint8_t *bytes, size_t bytes_len, uint32_t *value);
static inline uint32_t linker_utils_u32_from_slice(
    const uint8_t *bytes, size_t bytes_len, uint32_t *value) {
    return linker_utils_u32_from_slice_nonnull(
        LINKER_UTILS_SLICE(const uint8_t, bytes), bytes_len, value);
}

uint32_t linker_utils_u64_from_slice_nonnull(
    const uint8_t *bytes, size_t bytes_len, uint64_t *value);
static inline uint32_t linker_utils_u64_from_slice(
    const uint8_t *bytes, size_t bytes_len, uint64_t *value) {
    return linker_utils_u64_from_slice_nonnull(
        LINKER_UTILS_SLICE(const uint8_t, bytes), bytes_len, value);
}

uint32_t linker_utils_read_u32_nonnull(
    const uint8_t *bytes, size_t bytes_len, uint32_t *value, size_t *consumed);
static inline uint32_t linker_utils_read_u32(
    const uint8_t *bytes, size_t bytes_len, uint32_t *value, size_t *consumed) {
    return linker_utils_read_u32_nonnull(
        LINKER_UTILS_SLICE(const uint8_t, bytes), bytes_len, value, consumed);
}

uint32_t linker_utils_read_uleb128_nonnull(
    const uint8_t *bytes, size_t bytes_len, uint64_t *value, size_t *consumed);
static inline uint32_t linker_utils_read_uleb128(
    const uint8_t *bytes, size_t bytes_len, uint64_t *value, size_t *consumed) {
    return linker_utils_read_uleb128_nonnull(
        LINKER_UTILS_SLICE(const uint8_t, bytes), bytes_len, value, consumed);
}

uint32_t linker_utils_decide_rewrites_nonnull(
    uint16_t machine, const struct linker_utils_output_facts *output,
    const struct linker_utils_symbol_facts *symbols, size_t symbols_len,
    const struct linker_utils_unrelaxable_groups *kept, size_t kept_len, const uint8_t *relocations,
    size_t relocations_len, const uint8_t *section, size_t section_len,
    struct linker_utils_decision *decisions, size_t decisions_len, size_t *faulty);
static inline uint32_t linker_utils_decide_rewrites(
    const struct linker_utils_link *link, const struct linker_utils_object *object,
    const struct linker_utils_section *section, const struct linker_utils_rewritten *rewritten,
    size_t *faulty) {
    size_t ignored;
    const struct linker_utils_output_facts output = {link->is_executable, link->is_fixed,
        link->has_near_symbols};
    return linker_utils_decide_rewrites_nonnull(
        link->machine, &output,
        LINKER_UTILS_SLICE(const struct linker_utils_symbol_facts, object->facts),
        object->facts_len,
        LINKER_UTILS_SLICE(const struct linker_utils_unrelaxable_groups, object->unrelaxable_groups),
        object->unrelaxable_groups_len, LINKER_UTILS_RELAS(const uint8_t, section->relocations),
        LINKER_UTILS_SLICE(const uint8_t, section->bytes), section->bytes_len,
        LINKER_UTILS_SLICE(struct linker_utils_decision, rewritten->decisions),
        rewritten->decisions_len, faulty ? faulty : &ignored);
}

uint32_t linker_utils_make_rewrites_nonnull(
    uint8_t *relocations, size_t relocations_len, uint8_t *section, size_t section_len,
    const struct linker_utils_decision *decisions, size_t decisions_len, size_t *faulty);
static inline uint32_t linker_utils_make_rewrites(
    const struct linker_utils_section *section, const struct linker_utils_rewritten *rewritten,
    size_t *faulty) {
    size_t ignored;
    return linker_utils_make_rewrites_nonnull(
        LINKER_UTILS_RELAS(uint8_t, section->relocations),
        LINKER_UTILS_SLICE(uint8_t, section->bytes), section->bytes_len,
        LINKER_UTILS_SLICE(const struct linker_utils_decision, rewritten->decisions),
        rewritten->decisions_len, faulty ? faulty : &ignored);
}

uint32_t linker_utils_snapshot_facts_nonnull(
    const struct linker_utils_output_facts *output, const struct linker_utils_symbol_facts *symbols,
    size_t symbols_len, struct linker_utils_facts_snapshot *kept, size_t kept_len);
static inline uint32_t linker_utils_snapshot_facts(
    const struct linker_utils_link *link, const struct linker_utils_object *object) {
    const struct linker_utils_output_facts output = {link->is_executable, link->is_fixed,
        link->has_near_symbols};
    return linker_utils_snapshot_facts_nonnull(
        &output, LINKER_UTILS_SLICE(const struct linker_utils_symbol_facts, object->facts),
        object->facts_len,
        LINKER_UTILS_SLICE(struct linker_utils_facts_snapshot, object->facts_snapshot),
        object->facts_snapshot_len);
}

uint32_t linker_utils_relocate_rewritten_section_nonnull(
    uint16_t machine, const struct linker_utils_output_facts *output,
    const struct linker_utils_symbol_facts *facts, size_t facts_len,
    const struct linker_utils_facts_snapshot *kept, size_t kept_len,
    const struct linker_utils_addresses *addresses, const uint8_t *relocations,
    size_t relocations_len, const struct linker_utils_symbol *symbols, size_t symbols_len,
    uint8_t *section, size_t section_len, uint64_t *memory, size_t memory_len, size_t *faulty);
static inline uint32_t linker_utils_relocate_rewritten_section(
    const struct linker_utils_link *link, const struct linker_utils_object *object,
    const struct linker_utils_section *section, uint64_t *memory, size_t memory_len,
    size_t *faulty) {
    size_t ignored;
    const struct linker_utils_output_facts output = {link->is_executable, link->is_fixed,
        link->has_near_symbols};
    const struct linker_utils_addresses addresses = {section->address, link->got_base,
        link->thread_origin, link->module_origin, link->module_entry, link->has_tls};
    return linker_utils_relocate_rewritten_section_nonnull(
        link->machine, &output,
        LINKER_UTILS_SLICE(const struct linker_utils_symbol_facts, object->facts),
        object->facts_len,
        LINKER_UTILS_SLICE(const struct linker_utils_facts_snapshot, object->facts_snapshot),
        object->facts_snapshot_len, &addresses,
        LINKER_UTILS_RELAS(const uint8_t, section->relocations),
        LINKER_UTILS_SLICE(const struct linker_utils_symbol, object->values), object->values_len,
        LINKER_UTILS_SLICE(uint8_t, section->bytes), section->bytes_len,
        LINKER_UTILS_SLICE(uint64_t, memory), memory_len, faulty ? faulty : &ignored);
}

uint32_t linker_utils_address_section_nonnull(
    uint16_t machine, uint8_t *name, size_t name_len, size_t *name_used);
static inline uint32_t linker_utils_address_section(
    uint16_t machine, uint8_t *name, size_t name_len, size_t *name_used) {
    return linker_utils_address_section_nonnull(
        machine, LINKER_UTILS_SLICE(uint8_t, name), name_len, name_used);
}

uint32_t linker_utils_survey_toc_loads_nonnull(
    uint16_t machine, const struct linker_utils_output_facts *output,
    const struct linker_utils_symbol_facts *symbols, size_t symbols_len,
    const struct linker_utils_addresses *addresses, const struct linker_utils_symbol *values,
    size_t values_len, uint64_t words_start, const uint8_t *words, size_t words_len,
    const uint8_t *relocations, size_t relocations_len, const uint8_t *section, size_t section_len,
    bool *kept, size_t kept_len);
static inline uint32_t linker_utils_survey_toc_loads(
    const struct linker_utils_link *link, const struct linker_utils_object *object,
    const struct linker_utils_section *section, const struct linker_utils_words *words) {
    const struct linker_utils_output_facts output = {link->is_executable, link->is_fixed,
        link->has_near_symbols};
    const struct linker_utils_addresses addresses = {section->address, link->got_base,
        link->thread_origin, link->module_origin, link->module_entry, link->has_tls};
    return linker_utils_survey_toc_loads_nonnull(
        link->machine, &output,
        LINKER_UTILS_SLICE(const struct linker_utils_symbol_facts, object->facts),
        object->facts_len, &addresses,
        LINKER_UTILS_SLICE(const struct linker_utils_symbol, object->values), object->values_len,
        words->address, LINKER_UTILS_RELAS(const uint8_t, words->relocations),
        LINKER_UTILS_RELAS(const uint8_t, section->relocations),
        LINKER_UTILS_SLICE(const uint8_t, section->bytes), section->bytes_len,
        LINKER_UTILS_SLICE(bool, words->kept), words->kept_len);
}

uint32_t linker_utils_rewrite_toc_loads_nonnull(
    uint16_t machine, const struct linker_utils_output_facts *output,
    const struct linker_utils_symbol_facts *symbols, size_t symbols_len,
    const struct linker_utils_addresses *addresses, const struct linker_utils_symbol *values,
    size_t values_len, uint64_t words_start, const uint8_t *words, size_t words_len,
    const bool *kept, size_t kept_len, uint8_t *relocations, size_t relocations_len,
    uint8_t *section, size_t section_len, struct linker_utils_decision *decisions,
    size_t decisions_len, size_t *faulty);
static inline uint32_t linker_utils_rewrite_toc_loads(
    const struct linker_utils_link *link, const struct linker_utils_object *object,
    const struct linker_utils_section *section, const struct linker_utils_words *words,
    const struct linker_utils_rewritten *rewritten, size_t *faulty) {
    size_t ignored;
    const struct linker_utils_output_facts output = {link->is_executable, link->is_fixed,
        link->has_near_symbols};
    const struct linker_utils_addresses addresses = {section->address, link->got_base,
        link->thread_origin, link->module_origin, link->module_entry, link->has_tls};
    return linker_utils_rewrite_toc_loads_nonnull(
        link->machine, &output,
        LINKER_UTILS_SLICE(const struct linker_utils_symbol_facts, object->facts),
        object->facts_len, &addresses,
        LINKER_UTILS_SLICE(const struct linker_utils_symbol, object->values), object->values_len,
        words->address, LINKER_UTILS_RELAS(const uint8_t, words->relocations),
        LINKER_UTILS_SLICE(const bool, words->kept), words->kept_len,
        LINKER_UTILS_RELAS(uint8_t, section->relocations),
        LINKER_UTILS_SLICE(uint8_t, section->bytes), section->bytes_len,
        LINKER_UTILS_SLICE(struct linker_utils_decision, rewritten->decisions),
        rewritten->decisions_len, faulty ? faulty : &ignored);
}

uint32_t linker_utils_survey_global_pointer_nonnull(
    uint16_t machine, const struct linker_utils_output_facts *output,
    const struct linker_utils_symbol_facts *symbols, size_t symbols_len,
    const struct linker_utils_addresses *addresses, const struct linker_utils_symbol *values,
    size_t values_len, uint64_t global_pointer, const uint8_t *relocations, size_t relocations_len,
    const uint8_t *section, size_t section_len, bool *kept, size_t kept_len);
static inline uint32_t linker_utils_survey_global_pointer(
    const struct linker_utils_link *link, const struct linker_utils_object *object,
    const struct linker_utils_section *section) {
    const struct linker_utils_output_facts output = {link->is_executable, link->is_fixed,
        link->has_near_symbols};
    const struct linker_utils_addresses addresses = {section->address, link->got_base,
        link->thread_origin, link->module_origin, link->module_entry, link->has_tls};
    return linker_utils_survey_global_pointer_nonnull(
        link->machine, &output,
        LINKER_UTILS_SLICE(const struct linker_utils_symbol_facts, object->facts),
        object->facts_len, &addresses,
        LINKER_UTILS_SLICE(const struct linker_utils_symbol, object->values), object->values_len,
        link->global_pointer, LINKER_UTILS_RELAS(const uint8_t, section->relocations),
        LINKER_UTILS_SLICE(const uint8_t, section->bytes), section->bytes_len,
        LINKER_UTILS_SLICE(bool, object->kept_high_parts), object->kept_high_parts_len);
}

uint32_t linker_utils_rewrite_global_pointer_nonnull(
    uint16_t machine, const struct linker_utils_output_facts *output,
    const struct linker_utils_symbol_facts *symbols, size_t symbols_len,
    const struct linker_utils_addresses *addresses, const struct linker_utils_symbol *values,
    size_t values_len, uint64_t global_pointer, const bool *kept, size_t kept_len,
    uint8_t *relocations, size_t relocations_len, const uint8_t *section, size_t section_len,
    struct linker_utils_decision *decisions, size_t decisions_len,
    struct linker_utils_deletion *deleted, size_t deleted_len, size_t *deleted_used,
    size_t *faulty);
static inline uint32_t linker_utils_rewrite_global_pointer(
    const struct linker_utils_link *link, const struct linker_utils_object *object,
    const struct linker_utils_section *section, struct linker_utils_rewritten *rewritten,
    size_t *faulty) {
    size_t ignored;
    const struct linker_utils_output_facts output = {link->is_executable, link->is_fixed,
        link->has_near_symbols};
    const struct linker_utils_addresses addresses = {section->address, link->got_base,
        link->thread_origin, link->module_origin, link->module_entry, link->has_tls};
    return linker_utils_rewrite_global_pointer_nonnull(
        link->machine, &output,
        LINKER_UTILS_SLICE(const struct linker_utils_symbol_facts, object->facts),
        object->facts_len, &addresses,
        LINKER_UTILS_SLICE(const struct linker_utils_symbol, object->values), object->values_len,
        link->global_pointer, LINKER_UTILS_SLICE(const bool, object->kept_high_parts),
        object->kept_high_parts_len, LINKER_UTILS_RELAS(uint8_t, section->relocations),
        LINKER_UTILS_SLICE(const uint8_t, section->bytes), section->bytes_len,
        LINKER_UTILS_SLICE(struct linker_utils_decision, rewritten->decisions),
        rewritten->decisions_len,
        LINKER_UTILS_SLICE(struct linker_utils_deletion, rewritten->deleted),
        rewritten->deleted_len, &rewritten->deleted_used, faulty ? faulty : &ignored);
}

uint32_t linker_utils_finish_gp_relaxation_nonnull(
    const struct linker_utils_addresses *addresses, const struct linker_utils_symbol *values,
    size_t values_len, uint64_t global_pointer, uint8_t *relocations, size_t relocations_len,
    uint8_t *section, size_t section_len, size_t *faulty);
static inline uint32_t linker_utils_finish_gp_relaxation(
    const struct linker_utils_link *link, const struct linker_utils_object *object,
    const struct linker_utils_section *section, size_t *faulty) {
    size_t ignored;
    const struct linker_utils_addresses addresses = {section->address, link->got_base,
        link->thread_origin, link->module_origin, link->module_entry, link->has_tls};
    return linker_utils_finish_gp_relaxation_nonnull(
        &addresses, LINKER_UTILS_SLICE(const struct linker_utils_symbol, object->values),
        object->values_len, link->global_pointer, LINKER_UTILS_RELAS(uint8_t, section->relocations),
        LINKER_UTILS_SLICE(uint8_t, section->bytes), section->bytes_len,
        faulty ? faulty : &ignored);
}

bool linker_utils_relocation_fits_nonnull(
    uint16_t machine, uint32_t r_type, const uint8_t *section, size_t section_len, uint64_t offset,
    const struct linker_utils_link_facts *facts);
static inline bool linker_utils_relocation_fits(
    uint16_t machine, uint32_t r_type, const struct linker_utils_section *section, uint64_t offset,
    const struct linker_utils_link_facts *facts) {
    return linker_utils_relocation_fits_nonnull(
        machine, r_type, LINKER_UTILS_SLICE(const uint8_t, section->bytes), section->bytes_len,
        offset, facts);
}

uint32_t linker_utils_matches_nonnull(
    uint16_t machine, uint32_t rewrite, uint8_t opcode_len, const uint8_t *section,
    size_t section_len, uint64_t offset);
static inline uint32_t linker_utils_matches(
    uint16_t machine, uint32_t rewrite, uint8_t opcode_len,
    const struct linker_utils_section *section, uint64_t offset) {
    return linker_utils_matches_nonnull(
        machine, rewrite, opcode_len, LINKER_UTILS_SLICE(const uint8_t, section->bytes),
        section->bytes_len, offset);
}

uint32_t linker_utils_can_apply_nonnull(
    uint16_t machine, uint32_t rewrite, uint8_t opcode_len, const uint8_t *section,
    size_t section_len, uint64_t offset);
static inline uint32_t linker_utils_can_apply(
    uint16_t machine, uint32_t rewrite, uint8_t opcode_len,
    const struct linker_utils_section *section, uint64_t offset) {
    return linker_utils_can_apply_nonnull(
        machine, rewrite, opcode_len, LINKER_UTILS_SLICE(const uint8_t, section->bytes),
        section->bytes_len, offset);
}

uint32_t linker_utils_deltas_create_nonnull(
    const struct linker_utils_deletion *deletions, size_t deletions_len,
    struct linker_utils_delta *deltas, size_t deltas_len, size_t *faulty);
static inline uint32_t linker_utils_deltas_create(
    const struct linker_utils_deletion *deletions, size_t deletions_len,
    struct linker_utils_delta *deltas, size_t deltas_len, size_t *faulty) {
    size_t ignored;
    return linker_utils_deltas_create_nonnull(
        LINKER_UTILS_SLICE(const struct linker_utils_deletion, deletions), deletions_len,
        LINKER_UTILS_SLICE(struct linker_utils_delta, deltas), deltas_len,
        faulty ? faulty : &ignored);
}

uint32_t linker_utils_deletions_valid_nonnull(
    const struct linker_utils_deletion *deletions, size_t deletions_len, size_t *faulty);
static inline uint32_t linker_utils_deletions_valid(
    const struct linker_utils_deletion *deletions, size_t deletions_len, size_t *faulty) {
    size_t ignored;
    return linker_utils_deletions_valid_nonnull(
        LINKER_UTILS_SLICE(const struct linker_utils_deletion, deletions), deletions_len,
        faulty ? faulty : &ignored);
}

uint32_t linker_utils_deltas_create_in_one_pass_nonnull(
    const struct linker_utils_deletion *deletions, size_t deletions_len,
    struct linker_utils_delta *deltas, size_t deltas_len, size_t *faulty);
static inline uint32_t linker_utils_deltas_create_in_one_pass(
    const struct linker_utils_deletion *deletions, size_t deletions_len,
    struct linker_utils_delta *deltas, size_t deltas_len, size_t *faulty) {
    size_t ignored;
    return linker_utils_deltas_create_in_one_pass_nonnull(
        LINKER_UTILS_SLICE(const struct linker_utils_deletion, deletions), deletions_len,
        LINKER_UTILS_SLICE(struct linker_utils_delta, deltas), deltas_len,
        faulty ? faulty : &ignored);
}

uint32_t linker_utils_deltas_output_to_input_nonnull(
    const struct linker_utils_delta *deltas, size_t deltas_len, uint64_t output_offset,
    uint64_t *input_offset);
static inline uint32_t linker_utils_deltas_output_to_input(
    const struct linker_utils_delta *deltas, size_t deltas_len, uint64_t output_offset,
    uint64_t *input_offset) {
    return linker_utils_deltas_output_to_input_nonnull(
        LINKER_UTILS_SLICE(const struct linker_utils_delta, deltas), deltas_len, output_offset,
        input_offset);
}

bool linker_utils_has_valid_deltas_nonnull(
    const struct linker_utils_delta *deltas, size_t deltas_len);
static inline bool linker_utils_has_valid_deltas(
    const struct linker_utils_delta *deltas, size_t deltas_len) {
    return linker_utils_has_valid_deltas_nonnull(
        LINKER_UTILS_SLICE(const struct linker_utils_delta, deltas), deltas_len);
}

uint64_t linker_utils_deltas_total_deleted_nonnull(
    const struct linker_utils_delta *deltas, size_t deltas_len);
static inline uint64_t linker_utils_deltas_total_deleted(
    const struct linker_utils_delta *deltas, size_t deltas_len) {
    return linker_utils_deltas_total_deleted_nonnull(
        LINKER_UTILS_SLICE(const struct linker_utils_delta, deltas), deltas_len);
}

uint32_t linker_utils_deletions_mergeable_nonnull(
    const struct linker_utils_delta *deltas, size_t deltas_len,
    const struct linker_utils_deletion *additional, size_t additional_len);
static inline uint32_t linker_utils_deletions_mergeable(
    const struct linker_utils_delta *deltas, size_t deltas_len,
    const struct linker_utils_deletion *additional, size_t additional_len) {
    return linker_utils_deletions_mergeable_nonnull(
        LINKER_UTILS_SLICE(const struct linker_utils_delta, deltas), deltas_len,
        LINKER_UTILS_SLICE(const struct linker_utils_deletion, additional), additional_len);
}

uint32_t linker_utils_deltas_merge_nonnull(
    const struct linker_utils_delta *deltas, size_t deltas_len,
    const struct linker_utils_deletion *additional, size_t additional_len,
    struct linker_utils_delta *merged, size_t merged_len, size_t *faulty);
static inline uint32_t linker_utils_deltas_merge(
    const struct linker_utils_delta *deltas, size_t deltas_len,
    const struct linker_utils_merge *merge, size_t *faulty) {
    size_t ignored;
    return linker_utils_deltas_merge_nonnull(
        LINKER_UTILS_SLICE(const struct linker_utils_delta, deltas), deltas_len,
        LINKER_UTILS_SLICE(const struct linker_utils_deletion, merge->additional),
        merge->additional_len, LINKER_UTILS_SLICE(struct linker_utils_delta, merge->merged),
        merge->merged_len, faulty ? faulty : &ignored);
}

uint32_t linker_utils_deltas_translate_all_nonnull(
    const struct linker_utils_delta *deltas, size_t deltas_len, const uint64_t *queries,
    size_t queries_len, uint64_t *outputs, size_t outputs_len, size_t *faulty);
static inline uint32_t linker_utils_deltas_translate_all(
    const struct linker_utils_delta *deltas, size_t deltas_len,
    const struct linker_utils_translation *translation, size_t *faulty) {
    size_t ignored;
    return linker_utils_deltas_translate_all_nonnull(
        LINKER_UTILS_SLICE(const struct linker_utils_delta, deltas), deltas_len,
        LINKER_UTILS_SLICE(const uint64_t, translation->queries), translation->queries_len,
        LINKER_UTILS_SLICE(uint64_t, translation->outputs), translation->outputs_len,
        faulty ? faulty : &ignored);
}

size_t linker_utils_deltas_block_count_nonnull(
    const struct linker_utils_delta *deltas, size_t deltas_len);
static inline size_t linker_utils_deltas_block_count(
    const struct linker_utils_delta *deltas, size_t deltas_len) {
    return linker_utils_deltas_block_count_nonnull(
        LINKER_UTILS_SLICE(const struct linker_utils_delta, deltas), deltas_len);
}

uint32_t linker_utils_deltas_heads_nonnull(
    const struct linker_utils_delta *deltas, size_t deltas_len,
    struct linker_utils_block_head *heads, size_t heads_len);
static inline uint32_t linker_utils_deltas_heads(
    const struct linker_utils_delta *deltas, size_t deltas_len,
    struct linker_utils_block_head *heads, size_t heads_len) {
    return linker_utils_deltas_heads_nonnull(
        LINKER_UTILS_SLICE(const struct linker_utils_delta, deltas), deltas_len,
        LINKER_UTILS_SLICE(struct linker_utils_block_head, heads), heads_len);
}

uint64_t linker_utils_deltas_input_to_output_by_heads_nonnull(
    const struct linker_utils_delta *deltas, size_t deltas_len,
    const struct linker_utils_block_head *heads, size_t heads_len, uint64_t input_offset);
static inline uint64_t linker_utils_deltas_input_to_output_by_heads(
    const struct linker_utils_delta *deltas, size_t deltas_len,
    const struct linker_utils_block_head *heads, size_t heads_len, uint64_t input_offset) {
    return linker_utils_deltas_input_to_output_by_heads_nonnull(
        LINKER_UTILS_SLICE(const struct linker_utils_delta, deltas), deltas_len,
        LINKER_UTILS_SLICE(const struct linker_utils_block_head, heads), heads_len, input_offset);
}

uint32_t linker_utils_deltas_output_to_input_by_heads_nonnull(
    const struct linker_utils_delta *deltas, size_t deltas_len,
    const struct linker_utils_block_head *heads, size_t heads_len, uint64_t output_offset,
    uint64_t *input_offset);
static inline uint32_t linker_utils_deltas_output_to_input_by_heads(
    const struct linker_utils_delta *deltas, size_t deltas_len,
    const struct linker_utils_block_head *heads, size_t heads_len, uint64_t output_offset,
    uint64_t *input_offset) {
    return linker_utils_deltas_output_to_input_by_heads_nonnull(
        LINKER_UTILS_SLICE(const struct linker_utils_delta, deltas), deltas_len,
        LINKER_UTILS_SLICE(const struct linker_utils_block_head, heads), heads_len, output_offset,
        input_offset);
}

uint32_t linker_utils_section_items_nonnull(
    uint16_t machine, const uint8_t *section, size_t section_len, uint64_t base,
    const struct linker_utils_rela *relocations, size_t relocations_len,
    struct linker_utils_item *items, size_t items_len, size_t *makers, size_t makers_len,
    size_t *len, size_t *faulty);
static inline uint32_t linker_utils_section_items(
    uint16_t machine, const struct linker_utils_section *section,
    const struct linker_utils_rela *relocations, size_t relocations_len,
    struct linker_utils_items *items, size_t *faulty) {
    size_t ignored;
    return linker_utils_section_items_nonnull(
        machine, LINKER_UTILS_SLICE(const uint8_t, section->bytes), section->bytes_len,
        section->base, LINKER_UTILS_SLICE(const struct linker_utils_rela, relocations),
        relocations_len, LINKER_UTILS_SLICE(struct linker_utils_item, items->items),
        items->items_len, LINKER_UTILS_SLICE(size_t, items->makers), items->makers_len,
        &items->items_used, faulty ? faulty : &ignored);
}

uint32_t linker_utils_items_relaxable_nonnull(
    const struct linker_utils_item *items, size_t items_len, uint64_t start, size_t *faulty);
static inline uint32_t linker_utils_items_relaxable(
    const struct linker_utils_run *run, size_t *faulty) {
    size_t ignored;
    return linker_utils_items_relaxable_nonnull(
        LINKER_UTILS_SLICE(const struct linker_utils_item, run->items), run->items_len, run->start,
        faulty ? faulty : &ignored);
}

uint32_t linker_utils_has_its_instructions_nonnull(
    uint16_t machine, const uint8_t *section, size_t section_len, uint64_t base,
    const struct linker_utils_item *item);
static inline uint32_t linker_utils_has_its_instructions(
    uint16_t machine, const struct linker_utils_section *section,
    const struct linker_utils_item *item) {
    return linker_utils_has_its_instructions_nonnull(
        machine, LINKER_UTILS_SLICE(const uint8_t, section->bytes), section->bytes_len,
        section->base, item);
}

uint32_t linker_utils_jal_site_nonnull(
    uint8_t *section, size_t section_len, uint64_t site, int64_t distance);
static inline uint32_t linker_utils_jal_site(
    const struct linker_utils_section *section, uint64_t site, int64_t distance) {
    return linker_utils_jal_site_nonnull(
        LINKER_UTILS_SLICE(uint8_t, section->bytes), section->bytes_len, site, distance);
}

uint32_t linker_utils_jal_site_with_nonnull(
    uint8_t *section, size_t section_len, uint64_t site, int64_t distance, uint32_t link);
static inline uint32_t linker_utils_jal_site_with(
    const struct linker_utils_section *section, uint64_t site, int64_t distance, uint32_t link) {
    return linker_utils_jal_site_with_nonnull(
        LINKER_UTILS_SLICE(uint8_t, section->bytes), section->bytes_len, site, distance, link);
}

uint32_t linker_utils_relax_call_nonnull(
    uint8_t *section, size_t section_len, const struct linker_utils_delta *deltas,
    size_t deltas_len, uint64_t site, uint64_t target);
static inline uint32_t linker_utils_relax_call(
    const struct linker_utils_section *section, const struct linker_utils_delta *deltas,
    size_t deltas_len, uint64_t site, uint64_t target) {
    return linker_utils_relax_call_nonnull(
        LINKER_UTILS_SLICE(uint8_t, section->bytes), section->bytes_len,
        LINKER_UTILS_SLICE(const struct linker_utils_delta, deltas), deltas_len, site, target);
}

bool linker_utils_is_plain_call_nonnull(const uint8_t *section, size_t section_len, uint64_t site);
static inline bool linker_utils_is_plain_call(
    const struct linker_utils_section *section, uint64_t site) {
    return linker_utils_is_plain_call_nonnull(
        LINKER_UTILS_SLICE(const uint8_t, section->bytes), section->bytes_len, site);
}

size_t linker_utils_packed_len_nonnull(
    const uint8_t *section, size_t section_len, const struct linker_utils_delta *deltas,
    size_t deltas_len);
static inline size_t linker_utils_packed_len(
    const struct linker_utils_section *section, const struct linker_utils_delta *deltas,
    size_t deltas_len) {
    return linker_utils_packed_len_nonnull(
        LINKER_UTILS_SLICE(const uint8_t, section->bytes), section->bytes_len,
        LINKER_UTILS_SLICE(const struct linker_utils_delta, deltas), deltas_len);
}

uint32_t linker_utils_pack_nonnull(
    const uint8_t *section, size_t section_len, const struct linker_utils_delta *deltas,
    size_t deltas_len, const struct linker_utils_call *calls, size_t calls_len, uint32_t link,
    uint8_t *packed, size_t packed_len, size_t *faulty);
static inline uint32_t linker_utils_pack(
    const struct linker_utils_section *section, const struct linker_utils_calls *calls,
    uint8_t *packed, size_t packed_len, size_t *faulty) {
    size_t ignored;
    return linker_utils_pack_nonnull(
        LINKER_UTILS_SLICE(const uint8_t, section->bytes), section->bytes_len,
        LINKER_UTILS_SLICE(const struct linker_utils_delta, calls->deltas), calls->deltas_len,
        LINKER_UTILS_SLICE(const struct linker_utils_call, calls->calls), calls->calls_len,
        calls->link, LINKER_UTILS_SLICE(uint8_t, packed), packed_len, faulty ? faulty : &ignored);
}

uint32_t linker_utils_calls_shrinkable_nonnull(
    const struct linker_utils_delta *deltas, size_t deltas_len,
    const struct linker_utils_call *calls, size_t calls_len, size_t *faulty);
static inline uint32_t linker_utils_calls_shrinkable(
    const struct linker_utils_calls *calls, size_t *faulty) {
    size_t ignored;
    return linker_utils_calls_shrinkable_nonnull(
        LINKER_UTILS_SLICE(const struct linker_utils_delta, calls->deltas), calls->deltas_len,
        LINKER_UTILS_SLICE(const struct linker_utils_call, calls->calls), calls->calls_len,
        faulty ? faulty : &ignored);
}

uint32_t linker_utils_shrink_calls_nonnull(
    const struct linker_utils_delta *deltas, size_t deltas_len,
    const struct linker_utils_call *calls, size_t calls_len, uint8_t *chosen, size_t chosen_len,
    size_t *faulty);
static inline uint32_t linker_utils_shrink_calls(
    const struct linker_utils_calls *calls, uint8_t *chosen, size_t chosen_len, size_t *faulty) {
    size_t ignored;
    return linker_utils_shrink_calls_nonnull(
        LINKER_UTILS_SLICE(const struct linker_utils_delta, calls->deltas), calls->deltas_len,
        LINKER_UTILS_SLICE(const struct linker_utils_call, calls->calls), calls->calls_len,
        LINKER_UTILS_SLICE(uint8_t, chosen), chosen_len, faulty ? faulty : &ignored);
}

uint32_t linker_utils_dynamic_name_nonnull(
    uint16_t machine, uint32_t r_type, uint8_t *name, size_t name_len, size_t *name_used);
static inline uint32_t linker_utils_dynamic_name(
    uint16_t machine, uint32_t r_type, uint8_t *name, size_t name_len, size_t *name_used) {
    return linker_utils_dynamic_name_nonnull(
        machine, r_type, LINKER_UTILS_SLICE(uint8_t, name), name_len, name_used);
}

uint32_t linker_utils_interpreter_nonnull(
    uint16_t machine, uint32_t flags, uint8_t *path, size_t path_len, size_t *path_used);
static inline uint32_t linker_utils_interpreter(
    uint16_t machine, uint32_t flags, uint8_t *path, size_t path_len, size_t *path_used) {
    return linker_utils_interpreter_nonnull(
        machine, flags, LINKER_UTILS_SLICE(uint8_t, path), path_len, path_used);
}

uint32_t linker_utils_get_provided_symbol_nonnull(
    uint16_t machine, size_t index, uint8_t *name, size_t name_len, size_t *name_used,
    struct linker_utils_provided_symbol *symbol);
static inline uint32_t linker_utils_get_provided_symbol(
    uint16_t machine, size_t index, uint8_t *name, size_t name_len, size_t *name_used,
    struct linker_utils_provided_symbol *symbol) {
    return linker_utils_get_provided_symbol_nonnull(
        machine, index, LINKER_UTILS_SLICE(uint8_t, name), name_len, name_used, symbol);
}

uint32_t linker_utils_get_save_restore_routines_nonnull(
    uint16_t machine, size_t index, uint8_t *prefix, size_t prefix_len, size_t *prefix_used,
    struct linker_utils_save_restore_routines *run);
static inline uint32_t linker_utils_get_save_restore_routines(
    uint16_t machine, size_t index, uint8_t *prefix, size_t prefix_len, size_t *prefix_used,
    struct linker_utils_save_restore_routines *run) {
    return linker_utils_get_save_restore_routines_nonnull(
        machine, index, LINKER_UTILS_SLICE(uint8_t, prefix), prefix_len, prefix_used, run);
}

uint32_t linker_utils_write_relr_nonnull(
    const uint64_t *addresses, size_t addresses_len, uint64_t *words, size_t words_len,
    size_t *needed);
static inline uint32_t linker_utils_write_relr(
    const uint64_t *addresses, size_t addresses_len, uint64_t *words, size_t words_len,
    size_t *needed) {
    return linker_utils_write_relr_nonnull(
        LINKER_UTILS_SLICE(const uint64_t, addresses), addresses_len,
        LINKER_UTILS_SLICE(uint64_t, words), words_len, needed);
}

uint32_t linker_utils_read_relr_nonnull(
    const uint64_t *words, size_t words_len, uint64_t *addresses, size_t addresses_len,
    size_t *needed);
static inline uint32_t linker_utils_read_relr(
    const uint64_t *words, size_t words_len, uint64_t *addresses, size_t addresses_len,
    size_t *needed) {
    return linker_utils_read_relr_nonnull(
        LINKER_UTILS_SLICE(const uint64_t, words), words_len,
        LINKER_UTILS_SLICE(uint64_t, addresses), addresses_len, needed);
}

uint32_t linker_utils_read_properties_nonnull(
    uint16_t machine, const uint8_t *notes, size_t notes_len,
    struct linker_utils_property *properties, size_t properties_len, size_t *number);
static inline uint32_t linker_utils_read_properties(
    uint16_t machine, const uint8_t *notes, size_t notes_len,
    struct linker_utils_property *properties, size_t properties_len, size_t *number) {
    return linker_utils_read_properties_nonnull(
        machine, LINKER_UTILS_SLICE(const uint8_t, notes), notes_len,
        LINKER_UTILS_SLICE(struct linker_utils_property, properties), properties_len, number);
}

uint32_t linker_utils_merge_properties_nonnull(
    uint16_t machine, const struct linker_utils_property *first, size_t first_len,
    const struct linker_utils_property *second, size_t second_len,
    struct linker_utils_property *properties, size_t properties_len, size_t *number);
static inline uint32_t linker_utils_merge_properties(
    uint16_t machine, const struct linker_utils_property_inputs *property_inputs,
    struct linker_utils_property *properties, size_t properties_len, size_t *number) {
    return linker_utils_merge_properties_nonnull(
        machine, LINKER_UTILS_SLICE(const struct linker_utils_property, property_inputs->first),
        property_inputs->first_len,
        LINKER_UTILS_SLICE(const struct linker_utils_property, property_inputs->second),
        property_inputs->second_len, LINKER_UTILS_SLICE(struct linker_utils_property, properties),
        properties_len, number);
}

uint32_t linker_utils_write_properties_nonnull(
    uint16_t machine, const struct linker_utils_property *properties, size_t properties_len,
    uint8_t *note, size_t note_len, size_t *number);
static inline uint32_t linker_utils_write_properties(
    uint16_t machine, const struct linker_utils_property *properties, size_t properties_len,
    uint8_t *note, size_t note_len, size_t *number) {
    return linker_utils_write_properties_nonnull(
        machine, LINKER_UTILS_SLICE(const struct linker_utils_property, properties), properties_len,
        LINKER_UTILS_SLICE(uint8_t, note), note_len, number);
}

uint32_t linker_utils_write_lazy_header_nonnull(
    uint16_t machine, uint32_t form, uint64_t header, uint64_t words, uint8_t *bytes,
    size_t bytes_len);
static inline uint32_t linker_utils_write_lazy_header(
    uint16_t machine, uint32_t form, uint64_t header, uint64_t words, uint8_t *bytes,
    size_t bytes_len) {
    return linker_utils_write_lazy_header_nonnull(
        machine, form, header, words, LINKER_UTILS_SLICE(uint8_t, bytes), bytes_len);
}

uint32_t linker_utils_write_lazy_entry_nonnull(
    uint16_t machine, uint32_t form, const struct linker_utils_lazy_entry *entry, uint8_t *bytes,
    size_t bytes_len);
static inline uint32_t linker_utils_write_lazy_entry(
    uint16_t machine, uint32_t form, const struct linker_utils_lazy_entry *entry, uint8_t *bytes,
    size_t bytes_len) {
    return linker_utils_write_lazy_entry_nonnull(
        machine, form, entry, LINKER_UTILS_SLICE(uint8_t, bytes), bytes_len);
}

uint32_t linker_utils_place_stubs_nonnull(
    const struct linker_utils_branch *branches, size_t branches_len, const uint64_t *targets,
    size_t targets_len, const uint64_t *boundaries, size_t boundaries_len,
    const struct linker_utils_stub_shape *shape, struct linker_utils_placed_stub *stubs,
    size_t stubs_len, size_t *stubs_used, size_t *ways, size_t ways_len, uint64_t *before,
    size_t before_len, size_t *faulty);
static inline uint32_t linker_utils_place_stubs(
    const struct linker_utils_branches *branches, const struct linker_utils_stub_shape *shape,
    struct linker_utils_placement *placement, size_t *faulty) {
    size_t ignored;
    return linker_utils_place_stubs_nonnull(
        LINKER_UTILS_SLICE(const struct linker_utils_branch, branches->branches),
        branches->branches_len, LINKER_UTILS_SLICE(const uint64_t, branches->targets),
        branches->targets_len, LINKER_UTILS_SLICE(const uint64_t, branches->boundaries),
        branches->boundaries_len, shape,
        LINKER_UTILS_SLICE(struct linker_utils_placed_stub, placement->stubs), placement->stubs_len,
        &placement->stubs_used, LINKER_UTILS_SLICE(size_t, placement->ways), placement->ways_len,
        LINKER_UTILS_SLICE(uint64_t, placement->before), placement->before_len,
        faulty ? faulty : &ignored);
}

uint32_t linker_utils_field_bits_nonnull(
    uint16_t machine, uint32_t r_type, const uint8_t *bytes, size_t bytes_len, uint64_t *bits);
static inline uint32_t linker_utils_field_bits(
    uint16_t machine, uint32_t r_type, const uint8_t *bytes, size_t bytes_len, uint64_t *bits) {
    return linker_utils_field_bits_nonnull(
        machine, r_type, LINKER_UTILS_SLICE(const uint8_t, bytes), bytes_len, bits);
}

bool linker_utils_same_but_for_nonnull(
    uint16_t machine, uint32_t r_type, const uint8_t *a, size_t a_len, const uint8_t *b,
    size_t b_len);
static inline bool linker_utils_same_but_for(
    uint16_t machine, uint32_t r_type, const uint8_t *a, size_t a_len, const uint8_t *b,
    size_t b_len) {
    return linker_utils_same_but_for_nonnull(
        machine, r_type, LINKER_UTILS_SLICE(const uint8_t, a), a_len,
        LINKER_UTILS_SLICE(const uint8_t, b), b_len);
}

uint32_t linker_utils_recognise_window_nonnull(
    uint16_t machine, uint32_t r_type, const uint8_t *original, size_t original_len,
    uint64_t offset, struct linker_utils_window_bounds *window);
static inline uint32_t linker_utils_recognise_window(
    uint16_t machine, uint32_t r_type, const struct linker_utils_windows *windows,
    struct linker_utils_window_bounds *window) {
    return linker_utils_recognise_window_nonnull(
        machine, r_type, LINKER_UTILS_SLICE(const uint8_t, windows->original),
        windows->original_len, windows->offset, window);
}

uint32_t linker_utils_recognise_nonnull(
    uint16_t machine, uint32_t r_type, const uint8_t *original, size_t original_len,
    uint64_t offset, const struct linker_utils_window_bits *others, size_t others_len,
    const uint8_t *linked, size_t linked_len, struct linker_utils_recognised *found,
    size_t found_len, size_t *count);
static inline uint32_t linker_utils_recognise(
    uint16_t machine, uint32_t r_type, const struct linker_utils_windows *windows,
    struct linker_utils_recognised *found, size_t found_len, size_t *count) {
    return linker_utils_recognise_nonnull(
        machine, r_type, LINKER_UTILS_SLICE(const uint8_t, windows->original),
        windows->original_len, windows->offset,
        LINKER_UTILS_SLICE(const struct linker_utils_window_bits, windows->others),
        windows->others_len, LINKER_UTILS_SLICE(const uint8_t, windows->linked),
        windows->linked_len, LINKER_UTILS_SLICE(struct linker_utils_recognised, found), found_len,
        count);
}

uint32_t linker_utils_recognise_chosen_nonnull(
    uint16_t machine, uint32_t r_type, const uint8_t *original, size_t original_len,
    uint64_t offset, const struct linker_utils_window_bits *others, size_t others_len,
    const uint8_t *linked, size_t linked_len, const struct linker_utils_link_facts *facts,
    struct linker_utils_recognised *found);
static inline uint32_t linker_utils_recognise_chosen(
    uint16_t machine, uint32_t r_type, const struct linker_utils_windows *windows,
    const struct linker_utils_link_facts *facts, struct linker_utils_recognised *found) {
    return linker_utils_recognise_chosen_nonnull(
        machine, r_type, LINKER_UTILS_SLICE(const uint8_t, windows->original),
        windows->original_len, windows->offset,
        LINKER_UTILS_SLICE(const struct linker_utils_window_bits, windows->others),
        windows->others_len, LINKER_UTILS_SLICE(const uint8_t, windows->linked),
        windows->linked_len, facts, found);
}

uint32_t linker_utils_get_destination_nonnull(
    uint16_t machine, const struct linker_utils_recognised *made, const uint8_t *original,
    size_t original_len, uint64_t offset, const struct linker_utils_operands *operands,
    uint8_t st_other, struct linker_utils_destination *destination);
static inline uint32_t linker_utils_get_destination(
    uint16_t machine, const struct linker_utils_recognised *made,
    const struct linker_utils_windows *windows, const struct linker_utils_operands *operands,
    uint8_t st_other, struct linker_utils_destination *destination) {
    return linker_utils_get_destination_nonnull(
        machine, made, LINKER_UTILS_SLICE(const uint8_t, windows->original), windows->original_len,
        windows->offset, operands, st_other, destination);
}

#undef LINKER_UTILS_SLICE
#undef LINKER_UTILS_RELAS

#endif
