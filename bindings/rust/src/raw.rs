// SPDX-License-Identifier: MIT OR Apache-2.0
// Made by tools/generate of the exports in crates/linker_utils_c/src and of the headers.
//! The static library's own symbols, as `include/linker_utils.h` declares them: what each of them
//! requires of pointers and counts, and does, is said there. No pointer to a slice may be null.

pub use crate::{
    Addresses, BlockHead, Branch, Call, Deletion, Delta, DynamicFacts, DynamicTypes, FactsSnapshot,
    FieldBits, FieldValue, Item, LandingProperty, LazyEntry, LazyPlt, Operands, Origins,
    OutputFacts, PlacedStub, Property, Rela, Relocation, Resolved, RewriteWindow, Shape, Shapes,
    Stub, StubShape, Symbol, SymbolFacts, UnrelaxableGroups,
};
use std::ffi::c_char;

/// `struct linker_utils_requirements`.
#[repr(C)]
#[derive(Debug, Clone, Copy, Default, PartialEq, Eq)]
pub struct Requirements {
    pub entry_addend: i64,
    pub entry_class: u32,
    pub is_branch: u8,
    pub may_use_stub: u8,
    pub stub_only_if_undefined: u8,
    pub is_word: u8,
    pub depends_on_load: u8,
}

/// `struct linker_utils_got`.
#[repr(C)]
#[derive(Debug, Clone, Copy, Default, PartialEq, Eq)]
pub struct Got {
    pub base: u64,
    pub header: u64,
    pub has_header: u8,
}

/// `struct linker_utils_entry_words`.
#[repr(C)]
#[derive(Debug, Clone, Copy, Default, PartialEq, Eq)]
pub struct EntryWords {
    pub first: u64,
    pub second: u64,
}

/// `struct linker_utils_route`.
#[repr(C)]
#[derive(Debug, Clone, Copy, Default, PartialEq, Eq)]
pub struct Route {
    pub target: u64,
    pub entry: u64,
    pub kind: u32,
    pub is_by_stub: u8,
}

/// `struct linker_utils_relocation_info`.
#[repr(C)]
#[derive(Debug, Clone, Copy, Default, PartialEq, Eq)]
pub struct RelocationInfo {
    pub kind: u32,
    pub form: u32,
    pub mask: u32,
    pub machine: u16,
    pub is_bits: u8,
    pub byte_size: u8,
    pub first_bit: u8,
    pub end_bit: u8,
    pub has_range: u8,
    pub thunkable: u8,
    pub implicit_addend: u8,
    pub min: i64,
    pub max: i64,
    pub alignment: u64,
    pub bias: u64,
}

/// `struct linker_utils_relocation_reach`.
#[repr(C)]
#[derive(Debug, Clone, Copy, Default, PartialEq, Eq)]
pub struct Reach {
    pub min: i64,
    pub max: i64,
    pub has_range: u8,
}

/// `struct linker_utils_row`.
#[repr(C)]
#[derive(Debug, Clone, Copy, PartialEq, Eq)]
pub struct Row {
    pub alignment: u64,
    pub reach: Reach,
    pub needs: Requirements,
    pub r_type: u32,
    pub kind: u32,
    pub machine: u16,
    pub window: u8,
    pub may_use_plt: u8,
    pub is_relative: u8,
    pub name: [u8; 40],
}

impl Default for Row {
    fn default() -> Row {
        Row {
            alignment: Default::default(),
            reach: Default::default(),
            needs: Default::default(),
            r_type: Default::default(),
            kind: Default::default(),
            machine: Default::default(),
            window: Default::default(),
            may_use_plt: Default::default(),
            is_relative: Default::default(),
            name: [0; 40],
        }
    }
}

/// `struct linker_utils_decision`.
#[repr(C)]
#[derive(Debug, Clone, Copy, Default, PartialEq, Eq)]
pub struct Decision {
    pub addend: i64,
    pub symbol: u32,
    pub rewrite: u32,
    pub relocation: u32,
    pub machine: u16,
    pub fate: u8,
    pub opcode_len: u8,
}

/// `struct linker_utils_link_facts`.
#[repr(C)]
#[derive(Debug, Clone, Copy, Default, PartialEq, Eq)]
pub struct LinkFacts {
    pub is_local: u8,
    pub is_ifunc: u8,
    pub is_undefined_weak: u8,
    pub has_fixed_address: u8,
    pub is_pcrel_link_time_constant: u8,
    pub is_executable: u8,
    pub has_local_exec_base: u8,
    pub may_compress: u8,
    pub is_relaxable: u8,
    pub has_got_high_part: u8,
    pub is_label_relaxable: u8,
    pub toc_base_is_exclusive: u8,
    pub may_change_toc: u8,
    pub has_addresses: u8,
    pub group_fits: u8,
    pub is_class32: u8,
    pub operands: Operands,
}

/// `struct linker_utils_choice`.
#[repr(C)]
#[derive(Debug, Clone, Copy, Default, PartialEq, Eq)]
pub struct Choice {
    pub rewrite: u32,
    pub relocation: u32,
    pub modifier: u32,
    pub deleted_len: u32,
    pub deleted_start: u64,
    pub other_offset: i64,
    pub other_relocation: u32,
    pub has_other: u8,
    pub opcode_len: u8,
    pub skipped_offset: u8,
}

/// `struct linker_utils_word_types`.
#[repr(C)]
#[derive(Debug, Clone, Copy, Default, PartialEq, Eq)]
pub struct WordTypes {
    pub first: u32,
    pub second: u32,
}

/// `struct linker_utils_dynamic_entry`.
#[repr(C)]
#[derive(Debug, Clone, Copy, Default, PartialEq, Eq)]
pub struct DynamicEntry {
    pub tag: u64,
    pub value: u64,
}

/// `struct linker_utils_provided_symbol`.
#[repr(C)]
#[derive(Debug, Clone, Copy, Default, PartialEq, Eq)]
pub struct ProvidedSymbol {
    pub offset: u64,
    pub place: u32,
}

/// `struct linker_utils_save_restore_routines`.
#[repr(C)]
#[derive(Debug, Clone, Copy, Default, PartialEq, Eq)]
pub struct SaveRestoreRoutines {
    pub len: u64,
    pub first: u32,
    pub count: u32,
    pub spacing: u32,
}

/// `struct linker_utils_recognised`.
#[repr(C)]
#[derive(Debug, Clone, Copy, Default, PartialEq, Eq)]
pub struct Recognised {
    pub choice: Choice,
    pub offset: u64,
    pub value: FieldValue,
}

/// `struct linker_utils_destination`.
#[repr(C)]
#[derive(Debug, Clone, Copy, Default, PartialEq, Eq)]
pub struct Destination {
    pub address: FieldValue,
    pub addend: i64,
    pub symbol: u64,
    pub reference: u32,
    pub has_symbol: u8,
}

extern "C" {
    pub fn linker_utils_version() -> *const c_char;
    pub fn linker_utils_is_proved() -> bool;
    pub fn linker_utils_find(machine: u16, r_type: u32) -> u32;
    pub fn linker_utils_value(
        machine: u16,
        r_type: u32,
        operands: *const Operands,
        value: *mut i64,
    ) -> u32;
    pub fn linker_utils_relocate_nonnull(
        machine: u16,
        r_type: u32,
        value: i64,
        dest: *mut u8,
        dest_len: usize,
    ) -> u32;
    pub fn linker_utils_relocate_memory_nonnull(
        relocations: *const u8,
        relocations_len: usize,
    ) -> usize;
    pub fn linker_utils_relocate_section_nonnull(
        machine: u16,
        addresses: *const Addresses,
        relocations: *const u8,
        relocations_len: usize,
        symbols: *const Symbol,
        symbols_len: usize,
        section: *mut u8,
        section_len: usize,
        memory: *mut u64,
        memory_len: usize,
        faulty: *mut usize,
    ) -> u32;
    pub fn linker_utils_needs(
        machine: u16,
        r_type: u32,
        addend: i64,
        is_thread_local: bool,
        required: *mut Requirements,
    ) -> u32;
    pub fn linker_utils_get_origins(
        machine: u16,
        image: u64,
        image_len: u64,
        alignment: u64,
        origins: *mut Origins,
    ) -> u32;
    pub fn linker_utils_get_got(machine: u16, address: u64, dynamic: u64, got: *mut Got) -> u32;
    pub fn linker_utils_static_words(
        entry_class: u32,
        address: u64,
        origins: *const Origins,
        words: *mut EntryWords,
    ) -> u32;
    pub fn linker_utils_survey_nonnull(
        machine: u16,
        output: *const OutputFacts,
        symbols: *const SymbolFacts,
        symbols_len: usize,
        relocations: *const u8,
        relocations_len: usize,
        section: *const u8,
        section_len: usize,
        kept: *mut UnrelaxableGroups,
        kept_len: usize,
    ) -> u32;
    pub fn linker_utils_rewrite_section_nonnull(
        machine: u16,
        output: *const OutputFacts,
        symbols: *const SymbolFacts,
        symbols_len: usize,
        kept: *const UnrelaxableGroups,
        kept_len: usize,
        relocations: *mut u8,
        relocations_len: usize,
        section: *mut u8,
        section_len: usize,
        decisions: *mut Decision,
        decisions_len: usize,
        faulty: *mut usize,
    ) -> u32;
    pub fn linker_utils_survey_placed_section_nonnull(
        machine: u16,
        phase: u32,
        output: *const OutputFacts,
        symbols: *const SymbolFacts,
        symbols_len: usize,
        addresses: *const Addresses,
        values: *const Symbol,
        values_len: usize,
        relocations: *const u8,
        relocations_len: usize,
        section: *const u8,
        section_len: usize,
        kept: *mut UnrelaxableGroups,
        kept_len: usize,
    ) -> u32;
    pub fn linker_utils_rewrite_placed_section_nonnull(
        machine: u16,
        phase: u32,
        output: *const OutputFacts,
        symbols: *const SymbolFacts,
        symbols_len: usize,
        addresses: *const Addresses,
        values: *const Symbol,
        values_len: usize,
        kept: *const UnrelaxableGroups,
        kept_len: usize,
        relocations: *mut u8,
        relocations_len: usize,
        section: *mut u8,
        section_len: usize,
        decisions: *mut Decision,
        decisions_len: usize,
        deleted: *mut Deletion,
        deleted_len: usize,
        deleted_used: *mut usize,
        faulty: *mut usize,
    ) -> u32;
    pub fn linker_utils_choose_nonnull(
        machine: u16,
        r_type: u32,
        section: *const u8,
        section_len: usize,
        offset: u64,
        facts: *const LinkFacts,
        choice: *mut Choice,
    ) -> u32;
    pub fn linker_utils_apply_nonnull(
        machine: u16,
        rewrite: u32,
        opcode_len: u8,
        section: *mut u8,
        section_len: usize,
        offset: *mut u64,
        addend: *mut i64,
    ) -> u32;
    pub fn linker_utils_rewritten_items_nonnull(
        machine: u16,
        section: *const u8,
        section_len: usize,
        base: u64,
        relocations: *const Rela,
        relocations_len: usize,
        deleted: *const Deletion,
        deleted_len: usize,
        items: *mut Item,
        items_len: usize,
        makers: *mut usize,
        makers_len: usize,
        len: *mut usize,
        faulty: *mut usize,
    ) -> u32;
    pub fn linker_utils_relax_nonnull(
        items: *const Item,
        items_len: usize,
        start: u64,
        shapes: *mut u8,
        shapes_len: usize,
        kept: *mut u64,
        kept_len: usize,
        places: *mut usize,
        places_len: usize,
        freed: *mut u64,
        freed_len: usize,
        faulty: *mut usize,
    ) -> u32;
    pub fn linker_utils_run_deltas_nonnull(
        items: *const Item,
        items_len: usize,
        kept: *const u64,
        kept_len: usize,
        deltas: *mut Delta,
        deltas_len: usize,
        len: *mut usize,
    ) -> u32;
    pub fn linker_utils_deltas_input_to_output_nonnull(
        deltas: *const Delta,
        deltas_len: usize,
        input_offset: u64,
    ) -> u64;
    pub fn linker_utils_packed_run_len_nonnull(
        base: u64,
        section_len: usize,
        deltas: *const Delta,
        deltas_len: usize,
    ) -> usize;
    pub fn linker_utils_pack_run_nonnull(
        machine: u16,
        section: *const u8,
        section_len: usize,
        base: u64,
        items: *const Item,
        items_len: usize,
        deltas: *const Delta,
        deltas_len: usize,
        start: u64,
        relocations: *mut u8,
        relocations_len: usize,
        packed: *mut u8,
        packed_len: usize,
        faulty: *mut usize,
    ) -> u32;
    pub fn linker_utils_route_at_nonnull(
        machine: u16,
        addresses: *const Addresses,
        relocations: *const u8,
        relocations_len: usize,
        symbols: *const Symbol,
        symbols_len: usize,
        index: usize,
        section: *const u8,
        section_len: usize,
        route: *mut Route,
    ) -> u32;
    pub fn linker_utils_route_by_word_nonnull(
        machine: u16,
        word: u64,
        relocations: *const u8,
        relocations_len: usize,
        index: usize,
        section: *const u8,
        section_len: usize,
        route: *mut Route,
    ) -> u32;
    pub fn linker_utils_get_stub(machine: u16, kind: u32, stub: *mut Stub) -> u32;
    pub fn linker_utils_write_stub_nonnull(
        machine: u16,
        kind: u32,
        place: u64,
        target: u64,
        bytes: *mut u8,
        bytes_len: usize,
    ) -> u32;
    pub fn linker_utils_read_value_nonnull(
        machine: u16,
        r_type: u32,
        bytes: *const u8,
        bytes_len: usize,
        value: *mut FieldValue,
    ) -> u32;
    pub fn linker_utils_solve(
        machine: u16,
        r_type: u32,
        value: *const FieldValue,
        operands: *const Operands,
        reference: *mut u32,
        address: *mut FieldValue,
    ) -> u32;
    pub fn linker_utils_relocation(machine: u16, r_type: u32, info: *mut RelocationInfo) -> u32;
    pub fn linker_utils_relocation_name_nonnull(
        machine: u16,
        r_type: u32,
        name: *mut u8,
        name_len: usize,
        name_used: *mut usize,
    ) -> u32;
    pub fn linker_utils_asks_for_got(machine: u16, r_type: u32) -> bool;
    pub fn linker_utils_may_use_plt(machine: u16, r_type: u32) -> bool;
    pub fn linker_utils_clui_rel_info(info: *mut RelocationInfo);
    pub fn linker_utils_reach(machine: u16, r_type: u32, reach: *mut Reach) -> u32;
    pub fn linker_utils_row_of(handle: u32, row: *mut Row) -> u32;
    pub fn linker_utils_row_value(handle: u32, operands: *const Operands, value: *mut i64) -> u32;
    pub fn linker_utils_row_write_nonnull(
        handle: u32,
        value: i64,
        dest: *mut u8,
        dest_len: usize,
    ) -> u32;
    pub fn linker_utils_row_apply_nonnull(
        handle: u32,
        operands: *const Operands,
        dest: *mut u8,
        dest_len: usize,
    ) -> u32;
    pub fn linker_utils_row_reach(handle: u32, reach: *mut Reach) -> u32;
    pub fn linker_utils_row_needs(
        handle: u32,
        addend: i64,
        is_thread_local: bool,
        required: *mut Requirements,
    ) -> u32;
    pub fn linker_utils_row_choose_nonnull(
        handle: u32,
        section: *const u8,
        section_len: usize,
        offset: u64,
        facts: *const LinkFacts,
        choice: *mut Choice,
    ) -> u32;
    pub fn linker_utils_row_fits_nonnull(
        handle: u32,
        section: *const u8,
        section_len: usize,
        offset: u64,
        facts: *const LinkFacts,
    ) -> bool;
    pub fn linker_utils_value_at_nonnull(
        machine: u16,
        addresses: *const Addresses,
        relocations: *const u8,
        relocations_len: usize,
        symbols: *const Symbol,
        symbols_len: usize,
        index: usize,
        value: *mut i64,
    ) -> u32;
    pub fn linker_utils_relocate_resolved_nonnull(
        machine: u16,
        addresses: *const Addresses,
        relocations: *const u8,
        relocations_len: usize,
        resolved: *const Resolved,
        resolved_len: usize,
        section: *mut u8,
        section_len: usize,
        memory: *mut u64,
        memory_len: usize,
        faulty: *mut usize,
    ) -> u32;
    pub fn linker_utils_relocate_all_nonnull(
        machine: u16,
        section: *mut u8,
        section_len: usize,
        relocations: *const Relocation,
        relocations_len: usize,
        faulty: *mut usize,
    ) -> u32;
    pub fn linker_utils_read_crel_nonnull(
        crel: *const u8,
        crel_len: usize,
        relas: *mut u8,
        relas_len: usize,
        number: *mut usize,
        has_addends: *mut u8,
    ) -> u32;
    pub fn linker_utils_read_rela32_nonnull(
        machine: u16,
        rela32: *const u8,
        rela32_len: usize,
        relas: *mut u8,
        relas_len: usize,
    ) -> u32;
    pub fn linker_utils_wrap_addends_nonnull(
        machine: u16,
        addresses: *const Addresses,
        symbols: *const Symbol,
        symbols_len: usize,
        relocations: *mut u8,
        relocations_len: usize,
    ) -> u32;
    pub fn linker_utils_window(machine: u16, form: u32, window: *mut usize) -> u32;
    pub fn linker_utils_fits_nonnull(
        machine: u16,
        form: u32,
        value: u64,
        bytes: *const u8,
        bytes_len: usize,
    ) -> u32;
    pub fn linker_utils_write_nonnull(
        machine: u16,
        form: u32,
        value: u64,
        negative: bool,
        dest: *mut u8,
        dest_len: usize,
    ) -> u32;
    pub fn linker_utils_read_nonnull(
        machine: u16,
        form: u32,
        bytes: *const u8,
        bytes_len: usize,
        value: *mut u64,
        negative: *mut u8,
    ) -> u32;
    pub fn linker_utils_operand_nonnull(
        machine: u16,
        form: u32,
        bytes: *const u8,
        bytes_len: usize,
        number: *mut i64,
    ) -> u32;
    pub fn linker_utils_write_mov_sequence_nonnull(
        dest: *mut u8,
        dest_len: usize,
        rd: u32,
        value: u64,
    ) -> u32;
    pub fn linker_utils_write_address_sequence_nonnull(
        dest: *mut u8,
        dest_len: usize,
        pc: u64,
        target: u64,
    ) -> u32;
    pub fn linker_utils_highest_relocation_with_bias(s: u64, pc: u64) -> u64;
    pub fn linker_utils_write_ha_lo_nonnull(
        ha: *mut u8,
        ha_len: usize,
        lo: *mut u8,
        lo_len: usize,
        value: u64,
    ) -> u32;
    pub fn linker_utils_uleb128_role(machine: u16, r_type: u32) -> u32;
    pub fn linker_utils_write_uleb128_nonnull(dest: *mut u8, dest_len: usize, value: u64) -> u32;
    pub fn linker_utils_write_uleb128_pair_nonnull(
        machine: u16,
        r_type: u32,
        dest: *mut u8,
        dest_len: usize,
        first: u64,
        second: u64,
    ) -> u32;
    pub fn linker_utils_u32_from_slice_nonnull(
        bytes: *const u8,
        bytes_len: usize,
        value: *mut u32,
    ) -> u32;
    pub fn linker_utils_u64_from_slice_nonnull(
        bytes: *const u8,
        bytes_len: usize,
        value: *mut u64,
    ) -> u32;
    pub fn linker_utils_read_u32_nonnull(
        bytes: *const u8,
        bytes_len: usize,
        value: *mut u32,
        consumed: *mut usize,
    ) -> u32;
    pub fn linker_utils_read_uleb128_nonnull(
        bytes: *const u8,
        bytes_len: usize,
        value: *mut u64,
        consumed: *mut usize,
    ) -> u32;
    pub fn linker_utils_has_rewrites(machine: u16, phase: u32) -> bool;
    pub fn linker_utils_decide_rewrites_nonnull(
        machine: u16,
        output: *const OutputFacts,
        symbols: *const SymbolFacts,
        symbols_len: usize,
        kept: *const UnrelaxableGroups,
        kept_len: usize,
        relocations: *const u8,
        relocations_len: usize,
        section: *const u8,
        section_len: usize,
        decisions: *mut Decision,
        decisions_len: usize,
        faulty: *mut usize,
    ) -> u32;
    pub fn linker_utils_make_rewrites_nonnull(
        relocations: *mut u8,
        relocations_len: usize,
        section: *mut u8,
        section_len: usize,
        decisions: *const Decision,
        decisions_len: usize,
        faulty: *mut usize,
    ) -> u32;
    pub fn linker_utils_snapshot_facts_nonnull(
        output: *const OutputFacts,
        symbols: *const SymbolFacts,
        symbols_len: usize,
        kept: *mut FactsSnapshot,
        kept_len: usize,
    ) -> u32;
    pub fn linker_utils_relocate_rewritten_section_nonnull(
        machine: u16,
        output: *const OutputFacts,
        facts: *const SymbolFacts,
        facts_len: usize,
        kept: *const FactsSnapshot,
        kept_len: usize,
        addresses: *const Addresses,
        relocations: *const u8,
        relocations_len: usize,
        symbols: *const Symbol,
        symbols_len: usize,
        section: *mut u8,
        section_len: usize,
        memory: *mut u64,
        memory_len: usize,
        faulty: *mut usize,
    ) -> u32;
    pub fn linker_utils_address_section_nonnull(
        machine: u16,
        name: *mut u8,
        name_len: usize,
        name_used: *mut usize,
    ) -> u32;
    pub fn linker_utils_entry_relocation(machine: u16, r_type: u32, entry_type: *mut u32) -> u32;
    pub fn linker_utils_survey_toc_loads_nonnull(
        machine: u16,
        output: *const OutputFacts,
        symbols: *const SymbolFacts,
        symbols_len: usize,
        addresses: *const Addresses,
        values: *const Symbol,
        values_len: usize,
        words_start: u64,
        words: *const u8,
        words_len: usize,
        relocations: *const u8,
        relocations_len: usize,
        section: *const u8,
        section_len: usize,
        kept: *mut bool,
        kept_len: usize,
    ) -> u32;
    pub fn linker_utils_rewrite_toc_loads_nonnull(
        machine: u16,
        output: *const OutputFacts,
        symbols: *const SymbolFacts,
        symbols_len: usize,
        addresses: *const Addresses,
        values: *const Symbol,
        values_len: usize,
        words_start: u64,
        words: *const u8,
        words_len: usize,
        kept: *const bool,
        kept_len: usize,
        relocations: *mut u8,
        relocations_len: usize,
        section: *mut u8,
        section_len: usize,
        decisions: *mut Decision,
        decisions_len: usize,
        faulty: *mut usize,
    ) -> u32;
    pub fn linker_utils_survey_global_pointer_nonnull(
        machine: u16,
        output: *const OutputFacts,
        symbols: *const SymbolFacts,
        symbols_len: usize,
        addresses: *const Addresses,
        values: *const Symbol,
        values_len: usize,
        global_pointer: u64,
        relocations: *const u8,
        relocations_len: usize,
        section: *const u8,
        section_len: usize,
        kept: *mut bool,
        kept_len: usize,
    ) -> u32;
    pub fn linker_utils_rewrite_global_pointer_nonnull(
        machine: u16,
        output: *const OutputFacts,
        symbols: *const SymbolFacts,
        symbols_len: usize,
        addresses: *const Addresses,
        values: *const Symbol,
        values_len: usize,
        global_pointer: u64,
        kept: *const bool,
        kept_len: usize,
        relocations: *mut u8,
        relocations_len: usize,
        section: *const u8,
        section_len: usize,
        decisions: *mut Decision,
        decisions_len: usize,
        deleted: *mut Deletion,
        deleted_len: usize,
        deleted_used: *mut usize,
        faulty: *mut usize,
    ) -> u32;
    pub fn linker_utils_finish_gp_relaxation_nonnull(
        addresses: *const Addresses,
        values: *const Symbol,
        values_len: usize,
        global_pointer: u64,
        relocations: *mut u8,
        relocations_len: usize,
        section: *mut u8,
        section_len: usize,
        faulty: *mut usize,
    ) -> u32;
    pub fn linker_utils_relocation_fits_nonnull(
        machine: u16,
        r_type: u32,
        section: *const u8,
        section_len: usize,
        offset: u64,
        facts: *const LinkFacts,
    ) -> bool;
    pub fn linker_utils_matches_nonnull(
        machine: u16,
        rewrite: u32,
        opcode_len: u8,
        section: *const u8,
        section_len: usize,
        offset: u64,
    ) -> u32;
    pub fn linker_utils_can_apply_nonnull(
        machine: u16,
        rewrite: u32,
        opcode_len: u8,
        section: *const u8,
        section_len: usize,
        offset: u64,
    ) -> u32;
    pub fn linker_utils_is_unchanged(machine: u16, r_type: u32, choice: *const Choice) -> bool;
    pub fn linker_utils_may_be_skipped(machine: u16, r_type: u32) -> bool;
    pub fn linker_utils_rewrite_window(
        machine: u16,
        rewrite: u32,
        opcode_len: u8,
        window: *mut RewriteWindow,
    ) -> u32;
    pub fn linker_utils_next_modifier(
        machine: u16,
        rewrite: u32,
        opcode_len: u8,
        modifier: *mut u32,
    ) -> u32;
    pub fn linker_utils_deltas_create_nonnull(
        deletions: *const Deletion,
        deletions_len: usize,
        deltas: *mut Delta,
        deltas_len: usize,
        faulty: *mut usize,
    ) -> u32;
    pub fn linker_utils_deletions_valid_nonnull(
        deletions: *const Deletion,
        deletions_len: usize,
        faulty: *mut usize,
    ) -> u32;
    pub fn linker_utils_deltas_create_in_one_pass_nonnull(
        deletions: *const Deletion,
        deletions_len: usize,
        deltas: *mut Delta,
        deltas_len: usize,
        faulty: *mut usize,
    ) -> u32;
    pub fn linker_utils_deltas_output_to_input_nonnull(
        deltas: *const Delta,
        deltas_len: usize,
        output_offset: u64,
        input_offset: *mut u64,
    ) -> u32;
    pub fn linker_utils_has_valid_deltas_nonnull(deltas: *const Delta, deltas_len: usize) -> bool;
    pub fn linker_utils_deltas_total_deleted_nonnull(
        deltas: *const Delta,
        deltas_len: usize,
    ) -> u64;
    pub fn linker_utils_deletions_mergeable_nonnull(
        deltas: *const Delta,
        deltas_len: usize,
        additional: *const Deletion,
        additional_len: usize,
    ) -> u32;
    pub fn linker_utils_deltas_merge_nonnull(
        deltas: *const Delta,
        deltas_len: usize,
        additional: *const Deletion,
        additional_len: usize,
        merged: *mut Delta,
        merged_len: usize,
        faulty: *mut usize,
    ) -> u32;
    pub fn linker_utils_deltas_translate_all_nonnull(
        deltas: *const Delta,
        deltas_len: usize,
        queries: *const u64,
        queries_len: usize,
        outputs: *mut u64,
        outputs_len: usize,
        faulty: *mut usize,
    ) -> u32;
    pub fn linker_utils_deltas_block_count_nonnull(
        deltas: *const Delta,
        deltas_len: usize,
    ) -> usize;
    pub fn linker_utils_deltas_heads_nonnull(
        deltas: *const Delta,
        deltas_len: usize,
        heads: *mut BlockHead,
        heads_len: usize,
    ) -> u32;
    pub fn linker_utils_deltas_input_to_output_by_heads_nonnull(
        deltas: *const Delta,
        deltas_len: usize,
        heads: *const BlockHead,
        heads_len: usize,
        input_offset: u64,
    ) -> u64;
    pub fn linker_utils_deltas_output_to_input_by_heads_nonnull(
        deltas: *const Delta,
        deltas_len: usize,
        heads: *const BlockHead,
        heads_len: usize,
        output_offset: u64,
        input_offset: *mut u64,
    ) -> u32;
    pub fn linker_utils_standard_shapes(number: u32, shapes: *mut Shapes) -> u32;
    pub fn linker_utils_section_items_nonnull(
        machine: u16,
        section: *const u8,
        section_len: usize,
        base: u64,
        relocations: *const Rela,
        relocations_len: usize,
        items: *mut Item,
        items_len: usize,
        makers: *mut usize,
        makers_len: usize,
        len: *mut usize,
        faulty: *mut usize,
    ) -> u32;
    pub fn linker_utils_items_relaxable_nonnull(
        items: *const Item,
        items_len: usize,
        start: u64,
        faulty: *mut usize,
    ) -> u32;
    pub fn linker_utils_has_its_instructions_nonnull(
        machine: u16,
        section: *const u8,
        section_len: usize,
        base: u64,
        item: *const Item,
    ) -> u32;
    pub fn linker_utils_jal_site_nonnull(
        section: *mut u8,
        section_len: usize,
        site: u64,
        distance: i64,
    ) -> u32;
    pub fn linker_utils_jal_site_with_nonnull(
        section: *mut u8,
        section_len: usize,
        site: u64,
        distance: i64,
        link: u32,
    ) -> u32;
    pub fn linker_utils_relax_call_nonnull(
        section: *mut u8,
        section_len: usize,
        deltas: *const Delta,
        deltas_len: usize,
        site: u64,
        target: u64,
    ) -> u32;
    pub fn linker_utils_is_plain_call_nonnull(
        section: *const u8,
        section_len: usize,
        site: u64,
    ) -> bool;
    pub fn linker_utils_distance_fits_jal(distance: i64) -> bool;
    pub fn linker_utils_hi20_is_zero(value: u64) -> bool;
    pub fn linker_utils_hi20_fits_clui(value: u64) -> bool;
    pub fn linker_utils_rd_valid_for_clui(rd: u32) -> bool;
    pub fn linker_utils_packed_len_nonnull(
        section: *const u8,
        section_len: usize,
        deltas: *const Delta,
        deltas_len: usize,
    ) -> usize;
    pub fn linker_utils_pack_nonnull(
        section: *const u8,
        section_len: usize,
        deltas: *const Delta,
        deltas_len: usize,
        calls: *const Call,
        calls_len: usize,
        link: u32,
        packed: *mut u8,
        packed_len: usize,
        faulty: *mut usize,
    ) -> u32;
    pub fn linker_utils_calls_shrinkable_nonnull(
        deltas: *const Delta,
        deltas_len: usize,
        calls: *const Call,
        calls_len: usize,
        faulty: *mut usize,
    ) -> u32;
    pub fn linker_utils_shrink_calls_nonnull(
        deltas: *const Delta,
        deltas_len: usize,
        calls: *const Call,
        calls_len: usize,
        chosen: *mut u8,
        chosen_len: usize,
        faulty: *mut usize,
    ) -> u32;
    pub fn linker_utils_get_dynamic_types(machine: u16, types: *mut DynamicTypes) -> u32;
    pub fn linker_utils_dynamic_name_nonnull(
        machine: u16,
        r_type: u32,
        name: *mut u8,
        name_len: usize,
        name_used: *mut usize,
    ) -> u32;
    pub fn linker_utils_dynamic_words(
        machine: u16,
        entry_class: u32,
        is_bound: bool,
        is_executable: bool,
        words: *mut WordTypes,
    ) -> u32;
    pub fn linker_utils_get_entry_words(entry_class: u32) -> u64;
    pub fn linker_utils_join_flags(machine: u16, first: u32, second: u32, joined: *mut u32) -> u32;
    pub fn linker_utils_output_flags(machine: u16, joined: u32) -> u32;
    pub fn linker_utils_page(machine: u16) -> u64;
    pub fn linker_utils_code_unit(machine: u16, flags: u32) -> u64;
    pub fn linker_utils_filler(machine: u16, offset: u64) -> u8;
    pub fn linker_utils_interpreter_nonnull(
        machine: u16,
        flags: u32,
        path: *mut u8,
        path_len: usize,
        path_used: *mut usize,
    ) -> u32;
    pub fn linker_utils_get_dynamic_entry(
        machine: u16,
        facts: *const DynamicFacts,
        index: usize,
        entry: *mut DynamicEntry,
    ) -> u32;
    pub fn linker_utils_get_provided_symbol_nonnull(
        machine: u16,
        index: usize,
        name: *mut u8,
        name_len: usize,
        name_used: *mut usize,
        symbol: *mut ProvidedSymbol,
    ) -> u32;
    pub fn linker_utils_get_save_restore_routines_nonnull(
        machine: u16,
        index: usize,
        prefix: *mut u8,
        prefix_len: usize,
        prefix_used: *mut usize,
        run: *mut SaveRestoreRoutines,
    ) -> u32;
    pub fn linker_utils_provided_word(machine: u16, run: usize, index: u64, word: *mut u32) -> u32;
    pub fn linker_utils_write_relr_nonnull(
        addresses: *const u64,
        addresses_len: usize,
        words: *mut u64,
        words_len: usize,
        needed: *mut usize,
    ) -> u32;
    pub fn linker_utils_read_relr_nonnull(
        words: *const u64,
        words_len: usize,
        addresses: *mut u64,
        addresses_len: usize,
        needed: *mut usize,
    ) -> u32;
    pub fn linker_utils_is_property_known(machine: u16, kind: u32) -> bool;
    pub fn linker_utils_get_landing_property(machine: u16, landing: *mut LandingProperty) -> u32;
    pub fn linker_utils_read_properties_nonnull(
        machine: u16,
        notes: *const u8,
        notes_len: usize,
        properties: *mut Property,
        properties_len: usize,
        number: *mut usize,
    ) -> u32;
    pub fn linker_utils_merge_properties_nonnull(
        machine: u16,
        first: *const Property,
        first_len: usize,
        second: *const Property,
        second_len: usize,
        properties: *mut Property,
        properties_len: usize,
        number: *mut usize,
    ) -> u32;
    pub fn linker_utils_write_properties_nonnull(
        machine: u16,
        properties: *const Property,
        properties_len: usize,
        note: *mut u8,
        note_len: usize,
        number: *mut usize,
    ) -> u32;
    pub fn linker_utils_get_lazy_plt(machine: u16, form: u32, plt: *mut LazyPlt) -> u32;
    pub fn linker_utils_write_lazy_header_nonnull(
        machine: u16,
        form: u32,
        header: u64,
        words: u64,
        bytes: *mut u8,
        bytes_len: usize,
    ) -> u32;
    pub fn linker_utils_write_lazy_entry_nonnull(
        machine: u16,
        form: u32,
        entry: *const LazyEntry,
        bytes: *mut u8,
        bytes_len: usize,
    ) -> u32;
    pub fn linker_utils_lazy_header_word(
        machine: u16,
        index: usize,
        dynamic: u64,
        header: u64,
        word: *mut u64,
    ) -> u32;
    pub fn linker_utils_lazy_entry_word(
        machine: u16,
        form: u32,
        entry: u64,
        header: u64,
        dynamic: u64,
    ) -> u64;
    pub fn linker_utils_most_stubs(branches_len: usize) -> usize;
    pub fn linker_utils_place_stubs_nonnull(
        branches: *const Branch,
        branches_len: usize,
        targets: *const u64,
        targets_len: usize,
        boundaries: *const u64,
        boundaries_len: usize,
        shape: *const StubShape,
        stubs: *mut PlacedStub,
        stubs_len: usize,
        stubs_used: *mut usize,
        ways: *mut usize,
        ways_len: usize,
        before: *mut u64,
        before_len: usize,
        faulty: *mut usize,
    ) -> u32;
    pub fn linker_utils_join(
        high: *const FieldValue,
        low: *const FieldValue,
        whole: *mut FieldValue,
    ) -> u32;
    pub fn linker_utils_field_bits_nonnull(
        machine: u16,
        r_type: u32,
        bytes: *const u8,
        bytes_len: usize,
        bits: *mut u64,
    ) -> u32;
    pub fn linker_utils_same_but_for_nonnull(
        machine: u16,
        r_type: u32,
        a: *const u8,
        a_len: usize,
        b: *const u8,
        b_len: usize,
    ) -> bool;
    pub fn linker_utils_recognise_window_nonnull(
        machine: u16,
        r_type: u32,
        original: *const u8,
        original_len: usize,
        offset: u64,
        window: *mut RewriteWindow,
    ) -> u32;
    pub fn linker_utils_recognise_nonnull(
        machine: u16,
        r_type: u32,
        original: *const u8,
        original_len: usize,
        offset: u64,
        others: *const FieldBits,
        others_len: usize,
        linked: *const u8,
        linked_len: usize,
        found: *mut Recognised,
        found_len: usize,
        count: *mut usize,
    ) -> u32;
    pub fn linker_utils_recognise_chosen_nonnull(
        machine: u16,
        r_type: u32,
        original: *const u8,
        original_len: usize,
        offset: u64,
        others: *const FieldBits,
        others_len: usize,
        linked: *const u8,
        linked_len: usize,
        facts: *const LinkFacts,
        found: *mut Recognised,
    ) -> u32;
    pub fn linker_utils_get_destination_nonnull(
        machine: u16,
        made: *const Recognised,
        original: *const u8,
        original_len: usize,
        offset: u64,
        operands: *const Operands,
        st_other: u8,
        destination: *mut Destination,
    ) -> u32;
}
