/* SPDX-License-Identifier: MIT OR Apache-2.0 */
/* Passes null with a count of 0 for each slice of each call, and outputs that are not initialised. */
#include <stdio.h>
#include <string.h>

#include "linker_utils.h"

static int failures;

static void expect(const char *call, uint32_t status, uint32_t expected) {
    if (status == expected) return;
    failures++;
    printf("%s: %s\n", call, linker_utils_status_text(status));
}

#define EXPECT(status, call) expect(#call, linker_utils_##call, LINKER_UTILS_##status)

int main(void) {
    const uint16_t machine = LINKER_UTILS_AARCH64;
    uint64_t value, offset = 0;
    int64_t addend = 0;
    uint32_t word;
    uint8_t flag;
    size_t count;
    struct linker_utils_field_value known;
    struct linker_utils_recognised found[LINKER_UTILS_CANDIDATES];
    struct linker_utils_link_facts facts;
    memset(&facts, 0, sizeof facts);
    struct linker_utils_link link = {.machine = machine};
    struct linker_utils_object object = {.facts = NULL};
    struct linker_utils_section section = linker_utils_section_of(NULL, 0);
    struct linker_utils_rewritten rewritten = {.decisions = NULL};
    struct linker_utils_words words = {.relocations = NULL};
    struct linker_utils_windows windows = {.original = NULL};

    EXPECT(TOO_SHORT, fits(machine, 0, 0, NULL, 0));
    EXPECT(TOO_SHORT, write(machine, 0, 0, false, NULL, 0));
    EXPECT(TOO_SHORT, read(machine, 0, NULL, 0, &value, &flag));
    EXPECT(OK, can_apply(machine, LINKER_UTILS_AARCH64_REWRITE_NO_OP, 0, &section, 0));
    EXPECT(OK, matches(machine, LINKER_UTILS_AARCH64_REWRITE_NO_OP, 0, &section, 0));
    EXPECT(OK, apply(machine, LINKER_UTILS_AARCH64_REWRITE_NO_OP, 0, &section, &offset, &addend));
    EXPECT(TOO_SHORT, relocation_name(machine, 0, NULL, 0, &count));
    EXPECT(TOO_SHORT, value_at(&link, &object, &section, 0, &addend));
    if (linker_utils_relocate_memory(&section)) failures++;
    EXPECT(OK, relocate_section(&link, &object, &section, NULL, 0, NULL));
    EXPECT(OK, relocate_resolved(&link, &section, NULL, 0, NULL));
    EXPECT(OK, relocate_all(machine, &section, NULL, 0, NULL));
    EXPECT(OK, survey(&link, &object, &section));
    EXPECT(OK, rewrite_section(&link, &object, &section, &rewritten, NULL));
    EXPECT(OK, decide_rewrites(&link, &object, &section, &rewritten, NULL));
    EXPECT(OK, make_rewrites(&section, &rewritten, NULL));
    uint32_t phase = LINKER_UTILS_PHASE_SHORT_PC_REL;
    EXPECT(OK, survey_placed_section(&link, &object, &section, phase));
    EXPECT(OK, rewrite_placed_section(&link, &object, &section, phase, &rewritten, NULL));
    EXPECT(OK, snapshot_facts(&link, &object));
    EXPECT(OK, relocate_rewritten_section(&link, &object, &section, NULL, 0, NULL));
    EXPECT(OK, survey_toc_loads(&link, &object, &section, &words));
    EXPECT(OK, rewrite_toc_loads(&link, &object, &section, &words, &rewritten, NULL));
    EXPECT(OK, survey_global_pointer(&link, &object, &section));
    EXPECT(OK, rewrite_global_pointer(&link, &object, &section, &rewritten, NULL));
    EXPECT(OK, finish_gp_relaxation(&link, &object, &section, NULL));
    struct linker_utils_route route;
    EXPECT(TOO_SHORT, route_at(&link, &object, &section, 0, &route));
    EXPECT(TOO_SHORT, route_by_word(machine, 0, &section, 0, &route));
    struct linker_utils_choice choice;
    EXPECT(OK, choose(machine, 257, &section, 0, &facts, &choice)); /* R_AARCH64_ABS64 */
    if (linker_utils_relocation_fits(machine, 257, &section, 0, &facts)) failures++;
    const uint32_t handle = linker_utils_find(machine, 257);
    EXPECT(OK, row_choose(handle, &section, 0, &facts, &choice));
    if (linker_utils_row_fits(handle, &section, 0, &facts)) failures++;
    uint64_t before[1];
    struct linker_utils_branches branches = {.branches = NULL};
    struct linker_utils_placement placement = {.before = before, .before_len = 1};
    const struct linker_utils_stub_shape shape = {12, 4, 1, 1};
    EXPECT(OK, place_stubs(&branches, &shape, &placement, NULL));
    struct linker_utils_provided_symbol symbol;
    struct linker_utils_save_restore_routines run;
    EXPECT(TOO_SHORT, dynamic_name(LINKER_UTILS_X86_64, 8, NULL, 0, &count));
    EXPECT(TOO_SHORT, interpreter(LINKER_UTILS_X86_64, 0, NULL, 0, &count));
    EXPECT(TOO_SHORT, address_section(LINKER_UTILS_PPC64, NULL, 0, &count));
    EXPECT(TOO_SHORT, get_provided_symbol(LINKER_UTILS_PPC64, 0, NULL, 0, &count, &symbol));
    EXPECT(TOO_SHORT, get_save_restore_routines(LINKER_UTILS_PPC64, 0, NULL, 0, &count, &run));
    EXPECT(TOO_SHORT, write_stub(LINKER_UTILS_X86_64, LINKER_UTILS_STUB_LOAD, 0, 0, NULL, 0));
    struct linker_utils_lazy_entry lazy = {0, 0, 0, 0};
    EXPECT(TOO_SHORT, write_lazy_header(LINKER_UTILS_X86_64, 1, 0, 0, NULL, 0));
    EXPECT(TOO_SHORT, write_lazy_entry(LINKER_UTILS_X86_64, 1, &lazy, NULL, 0));
    EXPECT(OUT_OF_SECTION, jal_site(&section, 0, 0));
    EXPECT(OUT_OF_SECTION, relax_call(&section, NULL, 0, 0, 0));
    if (linker_utils_is_plain_call(&section, 0)) failures++;
    EXPECT(TOO_SHORT, write_mov_sequence(NULL, 0, 0, 0));
    EXPECT(TOO_SHORT, write_address_sequence(NULL, 0, 0, 0));
    EXPECT(TOO_SHORT, write_ha_lo(NULL, 0, NULL, 0, 0));
    EXPECT(TOO_SHORT, u32_from_slice(NULL, 0, &word));
    EXPECT(TOO_SHORT, u64_from_slice(NULL, 0, &value));
    EXPECT(TOO_SHORT, read_u32(NULL, 0, &word, &count));
    EXPECT(ULEB128_ENDED, read_uleb128(NULL, 0, &value, &count));
    EXPECT(ULEB128_ENDED, write_uleb128(NULL, 0, 0));
    EXPECT(OK, deletions_valid(NULL, 0, NULL));
    EXPECT(OK, deltas_create(NULL, 0, NULL, 0, NULL));
    EXPECT(OK, deltas_create_in_one_pass(NULL, 0, NULL, 0, NULL));
    EXPECT(OK, deletions_mergeable(NULL, 0, NULL, 0));
    const struct linker_utils_merge merge = {.merged = NULL};
    EXPECT(OK, deltas_merge(NULL, 0, &merge, NULL));
    if (!linker_utils_has_valid_deltas(NULL, 0)) failures++;
    if (linker_utils_deltas_total_deleted(NULL, 0) != 0) failures++;
    if (linker_utils_deltas_input_to_output(NULL, 0, 5) != 5) failures++;
    EXPECT(OK, deltas_output_to_input(NULL, 0, 5, &value));
    const struct linker_utils_translation translation = {.outputs = NULL};
    EXPECT(OK, deltas_translate_all(NULL, 0, &translation, NULL));
    if (linker_utils_deltas_block_count(NULL, 0) != 0) failures++;
    EXPECT(OK, deltas_heads(NULL, 0, NULL, 0));
    if (linker_utils_deltas_input_to_output_by_heads(NULL, 0, NULL, 0, 5) != 5) failures++;
    EXPECT(OK, deltas_output_to_input_by_heads(NULL, 0, NULL, 0, 5, &value));
    if (linker_utils_packed_len(&section, NULL, 0) != 0) failures++;
    struct linker_utils_calls calls = {.link = LINKER_UTILS_LINK_OF_JALR};
    EXPECT(OK, pack(&section, &calls, NULL, 0, NULL));
    calls.link = 2;
    EXPECT(UNKNOWN_LINK_REGISTER, pack(&section, &calls, NULL, 0, NULL));
    EXPECT(OK, calls_shrinkable(&calls, NULL));
    EXPECT(OK, shrink_calls(&calls, NULL, 0, NULL));
    const struct linker_utils_run none = {.items = NULL};
    struct linker_utils_items items = {.items = NULL};
    uint64_t freed[1] = {1};
    const struct linker_utils_relaxed relaxed = {.freed = freed, .freed_len = 1};
    EXPECT(OK, section_items(LINKER_UTILS_RISCV, &section, NULL, 0, &items, NULL));
    EXPECT(OK, rewritten_items(LINKER_UTILS_RISCV, &section, NULL, 0, &items, NULL));
    EXPECT(OK, items_relaxable(&none, NULL));
    EXPECT(OK, relax(&none, &relaxed, NULL));
    EXPECT(OK, run_deltas(&none, &relaxed, NULL, 0, &count));
    if (freed[0] != 0 || count != 0 || items.items_used != 0) failures++;
    if (linker_utils_packed_run_len(&section, &none) != 0) failures++;
    struct linker_utils_item item;
    memset(&item, 0, sizeof item);
    EXPECT(NOT_ITS_INSTRUCTIONS, has_its_instructions(LINKER_UTILS_RISCV, &section, &item));
    EXPECT(OK, pack_run(LINKER_UTILS_RISCV, &section, &none, NULL, 0, NULL));
    EXPECT(TOO_SHORT, read_value(machine, 257, NULL, 0, &known)); /* R_AARCH64_ABS64 */
    EXPECT(TOO_SHORT, field_bits(machine, 257, NULL, 0, &value));
    if (linker_utils_same_but_for(machine, 257, NULL, 0, NULL, 0)) failures++;
    struct linker_utils_window_bounds window;
    EXPECT(OK, recognise_window(machine, 257, &windows, &window));
    EXPECT(DIFFERENT_LENGTHS, recognise(machine, 257, &windows, NULL, 0, &count));
    EXPECT(OK, recognise(machine, 257, &windows, found, 6, &count));
    if (count != 0) failures++;
    EXPECT(LEAVES_OTHER_BYTES, recognise_chosen(machine, 257, &windows, &facts, found));
    return failures != 0;
}
