// SPDX-License-Identifier: MIT OR Apache-2.0
// Made by tools/generate of the heads of the exports in crates/linker_utils_c/src.
//! The exports as C calls them: a slice is a pointer and a length, a reference a pointer.
#![allow(unsafe_code, reason = "the pointers are the caller's")]

use crate::choices::ChoiceNumbers;
use crate::choices::LinkFactNumbers;
use crate::lazy_plt::LazyPltNumbers;
use crate::output::DynamicNumbers;
use crate::output::EntryWords;
use crate::output::GotNumbers;
use crate::output::RunNumbers;
use crate::output::StubNumbers;
use crate::output::SymbolNumbers;
use crate::output::WordNumbers;
use crate::placement::PlacedStub;
use crate::reading::FieldValueNumbers;
use crate::recognising::DestinationNumbers;
use crate::recognising::RecognisedNumbers;
use crate::relocate::Reach;
use crate::relocate::Relocation;
use crate::routes::RouteNumbers;
use crate::rows::RowNumbers;
use crate::section_items::Rela;
use crate::sections::RequirementNumbers;
use linker_utils::elf::Operands;
use linker_utils::elf::RelocationNumbers;
use linker_utils::elf::RewriteWindow;
use linker_utils::relaxation::BlockHead;
use linker_utils::relaxation::RelaxDelta;
use linker_utils::riscv64::Call;
use linker_utils::source::output::DynamicEntry;
use linker_utils::source::output::DynamicFacts;
use linker_utils::source::output::LandingProperty;
use linker_utils::source::output::LazyEntry;
use linker_utils::source::output::Origins;
use linker_utils::source::output::Property;
use linker_utils::source::placement::Branch;
use linker_utils::source::placement::StubShape;
use linker_utils::source::recognise::FieldBits;
use linker_utils::source::rewriting::DecisionNumbers;
use linker_utils::source::rewriting::Deletion;
use linker_utils::source::rewriting::FactsSnapshot;
use linker_utils::source::rewriting::OutputFacts;
use linker_utils::source::rewriting::SymbolFacts;
use linker_utils::source::rewriting::UnrelaxableGroups;
use linker_utils::source::runs::ItemNumbers;
use linker_utils::source::runs::Shapes;
use linker_utils::source::section::Addresses;
use linker_utils::source::section::Resolved;
use linker_utils::source::section::Symbol;
use core::slice::{from_raw_parts, from_raw_parts_mut};

#[unsafe(no_mangle)]
unsafe extern "C" fn linker_utils_jal_site_nonnull(
    section: *mut u8,
    section_len: usize,
    site: u64,
    distance: i64,
) -> u32 {
    // SAFETY: the arguments are as the head of the header says.
    unsafe {
        crate::calls::linker_utils_jal_site_nonnull(
            from_raw_parts_mut(section, section_len),
            site,
            distance,
        )
    }
}

#[unsafe(no_mangle)]
unsafe extern "C" fn linker_utils_jal_site_with_nonnull(
    section: *mut u8,
    section_len: usize,
    site: u64,
    distance: i64,
    link: u32,
) -> u32 {
    // SAFETY: the arguments are as the head of the header says.
    unsafe {
        crate::calls::linker_utils_jal_site_with_nonnull(
            from_raw_parts_mut(section, section_len),
            site,
            distance,
            link,
        )
    }
}

#[unsafe(no_mangle)]
unsafe extern "C" fn linker_utils_relax_call_nonnull(
    section: *mut u8,
    section_len: usize,
    deltas: *const RelaxDelta,
    deltas_len: usize,
    site: u64,
    target: u64,
) -> u32 {
    // SAFETY: the arguments are as the head of the header says.
    unsafe {
        crate::calls::linker_utils_relax_call_nonnull(
            from_raw_parts_mut(section, section_len),
            from_raw_parts(deltas, deltas_len),
            site,
            target,
        )
    }
}

#[unsafe(no_mangle)]
unsafe extern "C" fn linker_utils_is_plain_call_nonnull(
    section: *const u8,
    section_len: usize,
    site: u64,
) -> bool {
    // SAFETY: the arguments are as the head of the header says.
    unsafe {
        crate::calls::linker_utils_is_plain_call_nonnull(
            from_raw_parts(section, section_len),
            site,
        )
    }
}

#[unsafe(no_mangle)]
extern "C" fn linker_utils_distance_fits_jal(
    distance: i64,
) -> bool {
    crate::calls::linker_utils_distance_fits_jal(
        distance,
    )
}

#[unsafe(no_mangle)]
extern "C" fn linker_utils_hi20_is_zero(
    value: u64,
) -> bool {
    crate::calls::linker_utils_hi20_is_zero(
        value,
    )
}

#[unsafe(no_mangle)]
extern "C" fn linker_utils_hi20_fits_clui(
    value: u64,
) -> bool {
    crate::calls::linker_utils_hi20_fits_clui(
        value,
    )
}

#[unsafe(no_mangle)]
extern "C" fn linker_utils_rd_valid_for_clui(
    rd: u32,
) -> bool {
    crate::calls::linker_utils_rd_valid_for_clui(
        rd,
    )
}

#[unsafe(no_mangle)]
unsafe extern "C" fn linker_utils_choose_nonnull(
    machine: u16,
    r_type: u32,
    section: *const u8,
    section_len: usize,
    offset: u64,
    facts: *const LinkFactNumbers,
    choice: *mut ChoiceNumbers,
) -> u32 {
    // SAFETY: the arguments are as the head of the header says.
    unsafe {
        crate::choices::linker_utils_choose_nonnull(
            machine,
            r_type,
            from_raw_parts(section, section_len),
            offset,
            &*facts,
            &mut *choice,
        )
    }
}

#[unsafe(no_mangle)]
unsafe extern "C" fn linker_utils_relocation_fits_nonnull(
    machine: u16,
    r_type: u32,
    section: *const u8,
    section_len: usize,
    offset: u64,
    facts: *const LinkFactNumbers,
) -> bool {
    // SAFETY: the arguments are as the head of the header says.
    unsafe {
        crate::choices::linker_utils_relocation_fits_nonnull(
            machine,
            r_type,
            from_raw_parts(section, section_len),
            offset,
            &*facts,
        )
    }
}

#[unsafe(no_mangle)]
unsafe extern "C" fn linker_utils_is_unchanged(
    machine: u16,
    r_type: u32,
    choice: *const ChoiceNumbers,
) -> bool {
    // SAFETY: the arguments are as the head of the header says.
    unsafe {
        crate::choices::linker_utils_is_unchanged(
            machine,
            r_type,
            &*choice,
        )
    }
}

#[unsafe(no_mangle)]
unsafe extern "C" fn linker_utils_read_crel_nonnull(
    crel: *const u8,
    crel_len: usize,
    relas: *mut u8,
    relas_len: usize,
    number: *mut usize,
    has_addends: *mut u8,
) -> u32 {
    // SAFETY: the arguments are as the head of the header says.
    unsafe {
        crate::crel::linker_utils_read_crel_nonnull(
            from_raw_parts(crel, crel_len),
            from_raw_parts_mut(relas, relas_len),
            &mut *number,
            &mut *has_addends,
        )
    }
}

#[unsafe(no_mangle)]
unsafe extern "C" fn linker_utils_deletions_valid_nonnull(
    deletions: *const Deletion,
    deletions_len: usize,
    faulty: *mut usize,
) -> u32 {
    // SAFETY: the arguments are as the head of the header says.
    unsafe {
        crate::deltas::linker_utils_deletions_valid_nonnull(
            from_raw_parts(deletions, deletions_len),
            &mut *faulty,
        )
    }
}

#[unsafe(no_mangle)]
unsafe extern "C" fn linker_utils_deltas_create_nonnull(
    deletions: *const Deletion,
    deletions_len: usize,
    deltas: *mut RelaxDelta,
    deltas_len: usize,
    faulty: *mut usize,
) -> u32 {
    // SAFETY: the arguments are as the head of the header says.
    unsafe {
        crate::deltas::linker_utils_deltas_create_nonnull(
            from_raw_parts(deletions, deletions_len),
            from_raw_parts_mut(deltas, deltas_len),
            &mut *faulty,
        )
    }
}

#[unsafe(no_mangle)]
unsafe extern "C" fn linker_utils_deltas_create_in_one_pass_nonnull(
    deletions: *const Deletion,
    deletions_len: usize,
    deltas: *mut RelaxDelta,
    deltas_len: usize,
    faulty: *mut usize,
) -> u32 {
    // SAFETY: the arguments are as the head of the header says.
    unsafe {
        crate::deltas::linker_utils_deltas_create_in_one_pass_nonnull(
            from_raw_parts(deletions, deletions_len),
            from_raw_parts_mut(deltas, deltas_len),
            &mut *faulty,
        )
    }
}

#[unsafe(no_mangle)]
unsafe extern "C" fn linker_utils_deltas_input_to_output_nonnull(
    deltas: *const RelaxDelta,
    deltas_len: usize,
    input_offset: u64,
) -> u64 {
    // SAFETY: the arguments are as the head of the header says.
    unsafe {
        crate::deltas::linker_utils_deltas_input_to_output_nonnull(
            from_raw_parts(deltas, deltas_len),
            input_offset,
        )
    }
}

#[unsafe(no_mangle)]
unsafe extern "C" fn linker_utils_deltas_output_to_input_nonnull(
    deltas: *const RelaxDelta,
    deltas_len: usize,
    output_offset: u64,
    input_offset: *mut u64,
) -> u32 {
    // SAFETY: the arguments are as the head of the header says.
    unsafe {
        crate::deltas::linker_utils_deltas_output_to_input_nonnull(
            from_raw_parts(deltas, deltas_len),
            output_offset,
            &mut *input_offset,
        )
    }
}

#[unsafe(no_mangle)]
unsafe extern "C" fn linker_utils_has_valid_deltas_nonnull(
    deltas: *const RelaxDelta,
    deltas_len: usize,
) -> bool {
    // SAFETY: the arguments are as the head of the header says.
    unsafe {
        crate::deltas::linker_utils_has_valid_deltas_nonnull(
            from_raw_parts(deltas, deltas_len),
        )
    }
}

#[unsafe(no_mangle)]
unsafe extern "C" fn linker_utils_deltas_total_deleted_nonnull(
    deltas: *const RelaxDelta,
    deltas_len: usize,
) -> u64 {
    // SAFETY: the arguments are as the head of the header says.
    unsafe {
        crate::deltas::linker_utils_deltas_total_deleted_nonnull(
            from_raw_parts(deltas, deltas_len),
        )
    }
}

#[unsafe(no_mangle)]
unsafe extern "C" fn linker_utils_deltas_translate_all_nonnull(
    deltas: *const RelaxDelta,
    deltas_len: usize,
    queries: *const u64,
    queries_len: usize,
    outputs: *mut u64,
    outputs_len: usize,
    faulty: *mut usize,
) -> u32 {
    // SAFETY: the arguments are as the head of the header says.
    unsafe {
        crate::deltas::linker_utils_deltas_translate_all_nonnull(
            from_raw_parts(deltas, deltas_len),
            from_raw_parts(queries, queries_len),
            from_raw_parts_mut(outputs, outputs_len),
            &mut *faulty,
        )
    }
}

#[unsafe(no_mangle)]
unsafe extern "C" fn linker_utils_window(
    machine: u16,
    form: u32,
    window: *mut usize,
) -> u32 {
    // SAFETY: the arguments are as the head of the header says.
    unsafe {
        crate::forms::linker_utils_window(
            machine,
            form,
            &mut *window,
        )
    }
}

#[unsafe(no_mangle)]
unsafe extern "C" fn linker_utils_fits_nonnull(
    machine: u16,
    form: u32,
    value: u64,
    bytes: *const u8,
    bytes_len: usize,
) -> u32 {
    // SAFETY: the arguments are as the head of the header says.
    unsafe {
        crate::forms::linker_utils_fits_nonnull(
            machine,
            form,
            value,
            from_raw_parts(bytes, bytes_len),
        )
    }
}

#[unsafe(no_mangle)]
unsafe extern "C" fn linker_utils_write_nonnull(
    machine: u16,
    form: u32,
    value: u64,
    negative: bool,
    dest: *mut u8,
    dest_len: usize,
) -> u32 {
    // SAFETY: the arguments are as the head of the header says.
    unsafe {
        crate::forms::linker_utils_write_nonnull(
            machine,
            form,
            value,
            negative,
            from_raw_parts_mut(dest, dest_len),
        )
    }
}

#[unsafe(no_mangle)]
unsafe extern "C" fn linker_utils_read_nonnull(
    machine: u16,
    form: u32,
    bytes: *const u8,
    bytes_len: usize,
    value: *mut u64,
    negative: *mut u8,
) -> u32 {
    // SAFETY: the arguments are as the head of the header says.
    unsafe {
        crate::forms::linker_utils_read_nonnull(
            machine,
            form,
            from_raw_parts(bytes, bytes_len),
            &mut *value,
            &mut *negative,
        )
    }
}

#[unsafe(no_mangle)]
unsafe extern "C" fn linker_utils_survey_global_pointer_nonnull(
    machine: u16,
    output: *const OutputFacts,
    symbols: *const SymbolFacts,
    symbols_len: usize,
    addresses: *const Addresses,
    values: *const Symbol,
    values_len: usize,
    global_pointer: u64,
    relocations: *const u8,
    relocations_len: usize,
    section: *const u8,
    section_len: usize,
    kept: *mut bool,
    kept_len: usize,
) -> u32 {
    // SAFETY: the arguments are as the head of the header says.
    unsafe {
        crate::global_pointer::linker_utils_survey_global_pointer_nonnull(
            machine,
            &*output,
            from_raw_parts(symbols, symbols_len),
            &*addresses,
            from_raw_parts(values, values_len),
            global_pointer,
            from_raw_parts(relocations, relocations_len),
            from_raw_parts(section, section_len),
            from_raw_parts_mut(kept, kept_len),
        )
    }
}

#[unsafe(no_mangle)]
unsafe extern "C" fn linker_utils_rewrite_global_pointer_nonnull(
    machine: u16,
    output: *const OutputFacts,
    symbols: *const SymbolFacts,
    symbols_len: usize,
    addresses: *const Addresses,
    values: *const Symbol,
    values_len: usize,
    global_pointer: u64,
    kept: *const bool,
    kept_len: usize,
    relocations: *mut u8,
    relocations_len: usize,
    section: *const u8,
    section_len: usize,
    decisions: *mut DecisionNumbers,
    decisions_len: usize,
    deleted: *mut Deletion,
    deleted_len: usize,
    deleted_used: *mut usize,
    faulty: *mut usize,
) -> u32 {
    // SAFETY: the arguments are as the head of the header says.
    unsafe {
        crate::global_pointer::linker_utils_rewrite_global_pointer_nonnull(
            machine,
            &*output,
            from_raw_parts(symbols, symbols_len),
            &*addresses,
            from_raw_parts(values, values_len),
            global_pointer,
            from_raw_parts(kept, kept_len),
            from_raw_parts_mut(relocations, relocations_len),
            from_raw_parts(section, section_len),
            from_raw_parts_mut(decisions, decisions_len),
            from_raw_parts_mut(deleted, deleted_len),
            &mut *deleted_used,
            &mut *faulty,
        )
    }
}

#[unsafe(no_mangle)]
unsafe extern "C" fn linker_utils_finish_gp_relaxation_nonnull(
    addresses: *const Addresses,
    values: *const Symbol,
    values_len: usize,
    global_pointer: u64,
    relocations: *mut u8,
    relocations_len: usize,
    section: *mut u8,
    section_len: usize,
    faulty: *mut usize,
) -> u32 {
    // SAFETY: the arguments are as the head of the header says.
    unsafe {
        crate::global_pointer::linker_utils_finish_gp_relaxation_nonnull(
            &*addresses,
            from_raw_parts(values, values_len),
            global_pointer,
            from_raw_parts_mut(relocations, relocations_len),
            from_raw_parts_mut(section, section_len),
            &mut *faulty,
        )
    }
}

#[unsafe(no_mangle)]
unsafe extern "C" fn linker_utils_deltas_block_count_nonnull(
    deltas: *const RelaxDelta,
    deltas_len: usize,
) -> usize {
    // SAFETY: the arguments are as the head of the header says.
    unsafe {
        crate::heads::linker_utils_deltas_block_count_nonnull(
            from_raw_parts(deltas, deltas_len),
        )
    }
}

#[unsafe(no_mangle)]
unsafe extern "C" fn linker_utils_deltas_heads_nonnull(
    deltas: *const RelaxDelta,
    deltas_len: usize,
    heads: *mut BlockHead,
    heads_len: usize,
) -> u32 {
    // SAFETY: the arguments are as the head of the header says.
    unsafe {
        crate::heads::linker_utils_deltas_heads_nonnull(
            from_raw_parts(deltas, deltas_len),
            from_raw_parts_mut(heads, heads_len),
        )
    }
}

#[unsafe(no_mangle)]
unsafe extern "C" fn linker_utils_deltas_input_to_output_by_heads_nonnull(
    deltas: *const RelaxDelta,
    deltas_len: usize,
    heads: *const BlockHead,
    heads_len: usize,
    input_offset: u64,
) -> u64 {
    // SAFETY: the arguments are as the head of the header says.
    unsafe {
        crate::heads::linker_utils_deltas_input_to_output_by_heads_nonnull(
            from_raw_parts(deltas, deltas_len),
            from_raw_parts(heads, heads_len),
            input_offset,
        )
    }
}

#[unsafe(no_mangle)]
unsafe extern "C" fn linker_utils_deltas_output_to_input_by_heads_nonnull(
    deltas: *const RelaxDelta,
    deltas_len: usize,
    heads: *const BlockHead,
    heads_len: usize,
    output_offset: u64,
    input_offset: *mut u64,
) -> u32 {
    // SAFETY: the arguments are as the head of the header says.
    unsafe {
        crate::heads::linker_utils_deltas_output_to_input_by_heads_nonnull(
            from_raw_parts(deltas, deltas_len),
            from_raw_parts(heads, heads_len),
            output_offset,
            &mut *input_offset,
        )
    }
}

#[unsafe(no_mangle)]
unsafe extern "C" fn linker_utils_snapshot_facts_nonnull(
    output: *const OutputFacts,
    symbols: *const SymbolFacts,
    symbols_len: usize,
    kept: *mut FactsSnapshot,
    kept_len: usize,
) -> u32 {
    // SAFETY: the arguments are as the head of the header says.
    unsafe {
        crate::kept::linker_utils_snapshot_facts_nonnull(
            &*output,
            from_raw_parts(symbols, symbols_len),
            from_raw_parts_mut(kept, kept_len),
        )
    }
}

#[unsafe(no_mangle)]
unsafe extern "C" fn linker_utils_relocate_rewritten_section_nonnull(
    machine: u16,
    output: *const OutputFacts,
    facts: *const SymbolFacts,
    facts_len: usize,
    kept: *const FactsSnapshot,
    kept_len: usize,
    addresses: *const Addresses,
    relocations: *const u8,
    relocations_len: usize,
    symbols: *const Symbol,
    symbols_len: usize,
    section: *mut u8,
    section_len: usize,
    memory: *mut u64,
    memory_len: usize,
    faulty: *mut usize,
) -> u32 {
    // SAFETY: the arguments are as the head of the header says.
    unsafe {
        crate::kept::linker_utils_relocate_rewritten_section_nonnull(
            machine,
            &*output,
            from_raw_parts(facts, facts_len),
            from_raw_parts(kept, kept_len),
            &*addresses,
            from_raw_parts(relocations, relocations_len),
            from_raw_parts(symbols, symbols_len),
            from_raw_parts_mut(section, section_len),
            from_raw_parts_mut(memory, memory_len),
            &mut *faulty,
        )
    }
}

#[unsafe(no_mangle)]
unsafe extern "C" fn linker_utils_get_lazy_plt(
    machine: u16,
    form: u32,
    plt: *mut LazyPltNumbers,
) -> u32 {
    // SAFETY: the arguments are as the head of the header says.
    unsafe {
        crate::lazy_plt::linker_utils_get_lazy_plt(
            machine,
            form,
            &mut *plt,
        )
    }
}

#[unsafe(no_mangle)]
unsafe extern "C" fn linker_utils_write_lazy_header_nonnull(
    machine: u16,
    form: u32,
    header: u64,
    words: u64,
    bytes: *mut u8,
    bytes_len: usize,
) -> u32 {
    // SAFETY: the arguments are as the head of the header says.
    unsafe {
        crate::lazy_plt::linker_utils_write_lazy_header_nonnull(
            machine,
            form,
            header,
            words,
            from_raw_parts_mut(bytes, bytes_len),
        )
    }
}

#[unsafe(no_mangle)]
unsafe extern "C" fn linker_utils_write_lazy_entry_nonnull(
    machine: u16,
    form: u32,
    entry: *const LazyEntry,
    bytes: *mut u8,
    bytes_len: usize,
) -> u32 {
    // SAFETY: the arguments are as the head of the header says.
    unsafe {
        crate::lazy_plt::linker_utils_write_lazy_entry_nonnull(
            machine,
            form,
            &*entry,
            from_raw_parts_mut(bytes, bytes_len),
        )
    }
}

#[unsafe(no_mangle)]
unsafe extern "C" fn linker_utils_lazy_header_word(
    machine: u16,
    index: usize,
    dynamic: u64,
    header: u64,
    word: *mut u64,
) -> u32 {
    // SAFETY: the arguments are as the head of the header says.
    unsafe {
        crate::lazy_plt::linker_utils_lazy_header_word(
            machine,
            index,
            dynamic,
            header,
            &mut *word,
        )
    }
}

#[unsafe(no_mangle)]
extern "C" fn linker_utils_lazy_entry_word(
    machine: u16,
    form: u32,
    entry: u64,
    header: u64,
    dynamic: u64,
) -> u64 {
    crate::lazy_plt::linker_utils_lazy_entry_word(
        machine,
        form,
        entry,
        header,
        dynamic,
    )
}

#[unsafe(no_mangle)]
unsafe extern "C" fn linker_utils_deletions_mergeable_nonnull(
    deltas: *const RelaxDelta,
    deltas_len: usize,
    additional: *const Deletion,
    additional_len: usize,
) -> u32 {
    // SAFETY: the arguments are as the head of the header says.
    unsafe {
        crate::merges::linker_utils_deletions_mergeable_nonnull(
            from_raw_parts(deltas, deltas_len),
            from_raw_parts(additional, additional_len),
        )
    }
}

#[unsafe(no_mangle)]
unsafe extern "C" fn linker_utils_deltas_merge_nonnull(
    deltas: *const RelaxDelta,
    deltas_len: usize,
    additional: *const Deletion,
    additional_len: usize,
    merged: *mut RelaxDelta,
    merged_len: usize,
    faulty: *mut usize,
) -> u32 {
    // SAFETY: the arguments are as the head of the header says.
    unsafe {
        crate::merges::linker_utils_deltas_merge_nonnull(
            from_raw_parts(deltas, deltas_len),
            from_raw_parts(additional, additional_len),
            from_raw_parts_mut(merged, merged_len),
            &mut *faulty,
        )
    }
}

#[unsafe(no_mangle)]
unsafe extern "C" fn linker_utils_get_dynamic_types(
    machine: u16,
    types: *mut DynamicNumbers,
) -> u32 {
    // SAFETY: the arguments are as the head of the header says.
    unsafe {
        crate::output::linker_utils_get_dynamic_types(
            machine,
            &mut *types,
        )
    }
}

#[unsafe(no_mangle)]
unsafe extern "C" fn linker_utils_dynamic_name_nonnull(
    machine: u16,
    r_type: u32,
    name: *mut u8,
    name_len: usize,
    name_used: *mut usize,
) -> u32 {
    // SAFETY: the arguments are as the head of the header says.
    unsafe {
        crate::output::linker_utils_dynamic_name_nonnull(
            machine,
            r_type,
            from_raw_parts_mut(name, name_len),
            &mut *name_used,
        )
    }
}

#[unsafe(no_mangle)]
unsafe extern "C" fn linker_utils_dynamic_words(
    machine: u16,
    entry_class: u32,
    is_bound: bool,
    is_executable: bool,
    words: *mut WordNumbers,
) -> u32 {
    // SAFETY: the arguments are as the head of the header says.
    unsafe {
        crate::output::linker_utils_dynamic_words(
            machine,
            entry_class,
            is_bound,
            is_executable,
            &mut *words,
        )
    }
}

#[unsafe(no_mangle)]
extern "C" fn linker_utils_get_entry_words(
    entry_class: u32,
) -> u64 {
    crate::output::linker_utils_get_entry_words(
        entry_class,
    )
}

#[unsafe(no_mangle)]
unsafe extern "C" fn linker_utils_static_words(
    entry_class: u32,
    address: u64,
    origins: *const Origins,
    words: *mut EntryWords,
) -> u32 {
    // SAFETY: the arguments are as the head of the header says.
    unsafe {
        crate::output::linker_utils_static_words(
            entry_class,
            address,
            &*origins,
            &mut *words,
        )
    }
}

#[unsafe(no_mangle)]
unsafe extern "C" fn linker_utils_get_origins(
    machine: u16,
    image: u64,
    image_len: u64,
    alignment: u64,
    origins: *mut Origins,
) -> u32 {
    // SAFETY: the arguments are as the head of the header says.
    unsafe {
        crate::output::linker_utils_get_origins(
            machine,
            image,
            image_len,
            alignment,
            &mut *origins,
        )
    }
}

#[unsafe(no_mangle)]
unsafe extern "C" fn linker_utils_get_got(
    machine: u16,
    address: u64,
    dynamic: u64,
    got: *mut GotNumbers,
) -> u32 {
    // SAFETY: the arguments are as the head of the header says.
    unsafe {
        crate::output::linker_utils_get_got(
            machine,
            address,
            dynamic,
            &mut *got,
        )
    }
}

#[unsafe(no_mangle)]
unsafe extern "C" fn linker_utils_join_flags(
    machine: u16,
    first: u32,
    second: u32,
    joined: *mut u32,
) -> u32 {
    // SAFETY: the arguments are as the head of the header says.
    unsafe {
        crate::output::linker_utils_join_flags(
            machine,
            first,
            second,
            &mut *joined,
        )
    }
}

#[unsafe(no_mangle)]
extern "C" fn linker_utils_output_flags(
    machine: u16,
    joined: u32,
) -> u32 {
    crate::output::linker_utils_output_flags(
        machine,
        joined,
    )
}

#[unsafe(no_mangle)]
extern "C" fn linker_utils_page(
    machine: u16,
) -> u64 {
    crate::output::linker_utils_page(
        machine,
    )
}

#[unsafe(no_mangle)]
extern "C" fn linker_utils_code_unit(
    machine: u16,
    flags: u32,
) -> u64 {
    crate::output::linker_utils_code_unit(
        machine,
        flags,
    )
}

#[unsafe(no_mangle)]
extern "C" fn linker_utils_filler(
    machine: u16,
    offset: u64,
) -> u8 {
    crate::output::linker_utils_filler(
        machine,
        offset,
    )
}

#[unsafe(no_mangle)]
unsafe extern "C" fn linker_utils_interpreter_nonnull(
    machine: u16,
    flags: u32,
    path: *mut u8,
    path_len: usize,
    path_used: *mut usize,
) -> u32 {
    // SAFETY: the arguments are as the head of the header says.
    unsafe {
        crate::output::linker_utils_interpreter_nonnull(
            machine,
            flags,
            from_raw_parts_mut(path, path_len),
            &mut *path_used,
        )
    }
}

#[unsafe(no_mangle)]
unsafe extern "C" fn linker_utils_address_section_nonnull(
    machine: u16,
    name: *mut u8,
    name_len: usize,
    name_used: *mut usize,
) -> u32 {
    // SAFETY: the arguments are as the head of the header says.
    unsafe {
        crate::output::linker_utils_address_section_nonnull(
            machine,
            from_raw_parts_mut(name, name_len),
            &mut *name_used,
        )
    }
}

#[unsafe(no_mangle)]
unsafe extern "C" fn linker_utils_entry_relocation(
    machine: u16,
    r_type: u32,
    entry_type: *mut u32,
) -> u32 {
    // SAFETY: the arguments are as the head of the header says.
    unsafe {
        crate::output::linker_utils_entry_relocation(
            machine,
            r_type,
            &mut *entry_type,
        )
    }
}

#[unsafe(no_mangle)]
unsafe extern "C" fn linker_utils_get_dynamic_entry(
    machine: u16,
    facts: *const DynamicFacts,
    index: usize,
    entry: *mut DynamicEntry,
) -> u32 {
    // SAFETY: the arguments are as the head of the header says.
    unsafe {
        crate::output::linker_utils_get_dynamic_entry(
            machine,
            &*facts,
            index,
            &mut *entry,
        )
    }
}

#[unsafe(no_mangle)]
unsafe extern "C" fn linker_utils_get_provided_symbol_nonnull(
    machine: u16,
    index: usize,
    name: *mut u8,
    name_len: usize,
    name_used: *mut usize,
    symbol: *mut SymbolNumbers,
) -> u32 {
    // SAFETY: the arguments are as the head of the header says.
    unsafe {
        crate::output::linker_utils_get_provided_symbol_nonnull(
            machine,
            index,
            from_raw_parts_mut(name, name_len),
            &mut *name_used,
            &mut *symbol,
        )
    }
}

#[unsafe(no_mangle)]
unsafe extern "C" fn linker_utils_get_save_restore_routines_nonnull(
    machine: u16,
    index: usize,
    prefix: *mut u8,
    prefix_len: usize,
    prefix_used: *mut usize,
    run: *mut RunNumbers,
) -> u32 {
    // SAFETY: the arguments are as the head of the header says.
    unsafe {
        crate::output::linker_utils_get_save_restore_routines_nonnull(
            machine,
            index,
            from_raw_parts_mut(prefix, prefix_len),
            &mut *prefix_used,
            &mut *run,
        )
    }
}

#[unsafe(no_mangle)]
unsafe extern "C" fn linker_utils_provided_word(
    machine: u16,
    run: usize,
    index: u64,
    word: *mut u32,
) -> u32 {
    // SAFETY: the arguments are as the head of the header says.
    unsafe {
        crate::output::linker_utils_provided_word(
            machine,
            run,
            index,
            &mut *word,
        )
    }
}

#[unsafe(no_mangle)]
unsafe extern "C" fn linker_utils_get_stub(
    machine: u16,
    kind: u32,
    stub: *mut StubNumbers,
) -> u32 {
    // SAFETY: the arguments are as the head of the header says.
    unsafe {
        crate::output::linker_utils_get_stub(
            machine,
            kind,
            &mut *stub,
        )
    }
}

#[unsafe(no_mangle)]
unsafe extern "C" fn linker_utils_write_stub_nonnull(
    machine: u16,
    kind: u32,
    place: u64,
    target: u64,
    bytes: *mut u8,
    bytes_len: usize,
) -> u32 {
    // SAFETY: the arguments are as the head of the header says.
    unsafe {
        crate::output::linker_utils_write_stub_nonnull(
            machine,
            kind,
            place,
            target,
            from_raw_parts_mut(bytes, bytes_len),
        )
    }
}

#[unsafe(no_mangle)]
unsafe extern "C" fn linker_utils_packed_run_len_nonnull(
    base: u64,
    section_len: usize,
    deltas: *const RelaxDelta,
    deltas_len: usize,
) -> usize {
    // SAFETY: the arguments are as the head of the header says.
    unsafe {
        crate::pack_runs::linker_utils_packed_run_len_nonnull(
            base,
            section_len,
            from_raw_parts(deltas, deltas_len),
        )
    }
}

#[unsafe(no_mangle)]
unsafe extern "C" fn linker_utils_has_its_instructions_nonnull(
    machine: u16,
    section: *const u8,
    section_len: usize,
    base: u64,
    item: *const ItemNumbers,
) -> u32 {
    // SAFETY: the arguments are as the head of the header says.
    unsafe {
        crate::pack_runs::linker_utils_has_its_instructions_nonnull(
            machine,
            from_raw_parts(section, section_len),
            base,
            &*item,
        )
    }
}

#[unsafe(no_mangle)]
unsafe extern "C" fn linker_utils_pack_run_nonnull(
    machine: u16,
    section: *const u8,
    section_len: usize,
    base: u64,
    items: *const ItemNumbers,
    items_len: usize,
    deltas: *const RelaxDelta,
    deltas_len: usize,
    start: u64,
    relocations: *mut u8,
    relocations_len: usize,
    packed: *mut u8,
    packed_len: usize,
    faulty: *mut usize,
) -> u32 {
    // SAFETY: the arguments are as the head of the header says.
    unsafe {
        crate::pack_runs::linker_utils_pack_run_nonnull(
            machine,
            from_raw_parts(section, section_len),
            base,
            from_raw_parts(items, items_len),
            from_raw_parts(deltas, deltas_len),
            start,
            from_raw_parts_mut(relocations, relocations_len),
            from_raw_parts_mut(packed, packed_len),
            &mut *faulty,
        )
    }
}

#[unsafe(no_mangle)]
unsafe extern "C" fn linker_utils_packed_len_nonnull(
    section: *const u8,
    section_len: usize,
    deltas: *const RelaxDelta,
    deltas_len: usize,
) -> usize {
    // SAFETY: the arguments are as the head of the header says.
    unsafe {
        crate::packing::linker_utils_packed_len_nonnull(
            from_raw_parts(section, section_len),
            from_raw_parts(deltas, deltas_len),
        )
    }
}

#[unsafe(no_mangle)]
unsafe extern "C" fn linker_utils_pack_nonnull(
    section: *const u8,
    section_len: usize,
    deltas: *const RelaxDelta,
    deltas_len: usize,
    calls: *const Call,
    calls_len: usize,
    link: u32,
    packed: *mut u8,
    packed_len: usize,
    faulty: *mut usize,
) -> u32 {
    // SAFETY: the arguments are as the head of the header says.
    unsafe {
        crate::packing::linker_utils_pack_nonnull(
            from_raw_parts(section, section_len),
            from_raw_parts(deltas, deltas_len),
            from_raw_parts(calls, calls_len),
            link,
            from_raw_parts_mut(packed, packed_len),
            &mut *faulty,
        )
    }
}

#[unsafe(no_mangle)]
extern "C" fn linker_utils_most_stubs(
    branches_len: usize,
) -> usize {
    crate::placement::linker_utils_most_stubs(
        branches_len,
    )
}

#[unsafe(no_mangle)]
unsafe extern "C" fn linker_utils_place_stubs_nonnull(
    branches: *const Branch,
    branches_len: usize,
    targets: *const u64,
    targets_len: usize,
    boundaries: *const u64,
    boundaries_len: usize,
    shape: *const StubShape,
    stubs: *mut PlacedStub,
    stubs_len: usize,
    stubs_used: *mut usize,
    ways: *mut usize,
    ways_len: usize,
    before: *mut u64,
    before_len: usize,
    faulty: *mut usize,
) -> u32 {
    // SAFETY: the arguments are as the head of the header says.
    unsafe {
        crate::placement::linker_utils_place_stubs_nonnull(
            from_raw_parts(branches, branches_len),
            from_raw_parts(targets, targets_len),
            from_raw_parts(boundaries, boundaries_len),
            &*shape,
            from_raw_parts_mut(stubs, stubs_len),
            &mut *stubs_used,
            from_raw_parts_mut(ways, ways_len),
            from_raw_parts_mut(before, before_len),
            &mut *faulty,
        )
    }
}

#[unsafe(no_mangle)]
extern "C" fn linker_utils_is_property_known(
    machine: u16,
    kind: u32,
) -> bool {
    crate::properties::linker_utils_is_property_known(
        machine,
        kind,
    )
}

#[unsafe(no_mangle)]
unsafe extern "C" fn linker_utils_read_properties_nonnull(
    machine: u16,
    notes: *const u8,
    notes_len: usize,
    properties: *mut Property,
    properties_len: usize,
    number: *mut usize,
) -> u32 {
    // SAFETY: the arguments are as the head of the header says.
    unsafe {
        crate::properties::linker_utils_read_properties_nonnull(
            machine,
            from_raw_parts(notes, notes_len),
            from_raw_parts_mut(properties, properties_len),
            &mut *number,
        )
    }
}

#[unsafe(no_mangle)]
unsafe extern "C" fn linker_utils_merge_properties_nonnull(
    machine: u16,
    first: *const Property,
    first_len: usize,
    second: *const Property,
    second_len: usize,
    properties: *mut Property,
    properties_len: usize,
    number: *mut usize,
) -> u32 {
    // SAFETY: the arguments are as the head of the header says.
    unsafe {
        crate::properties::linker_utils_merge_properties_nonnull(
            machine,
            from_raw_parts(first, first_len),
            from_raw_parts(second, second_len),
            from_raw_parts_mut(properties, properties_len),
            &mut *number,
        )
    }
}

#[unsafe(no_mangle)]
unsafe extern "C" fn linker_utils_write_properties_nonnull(
    machine: u16,
    properties: *const Property,
    properties_len: usize,
    note: *mut u8,
    note_len: usize,
    number: *mut usize,
) -> u32 {
    // SAFETY: the arguments are as the head of the header says.
    unsafe {
        crate::properties::linker_utils_write_properties_nonnull(
            machine,
            from_raw_parts(properties, properties_len),
            from_raw_parts_mut(note, note_len),
            &mut *number,
        )
    }
}

#[unsafe(no_mangle)]
unsafe extern "C" fn linker_utils_get_landing_property(
    machine: u16,
    landing: *mut LandingProperty,
) -> u32 {
    // SAFETY: the arguments are as the head of the header says.
    unsafe {
        crate::properties::linker_utils_get_landing_property(
            machine,
            &mut *landing,
        )
    }
}

#[unsafe(no_mangle)]
unsafe extern "C" fn linker_utils_u32_from_slice_nonnull(
    bytes: *const u8,
    bytes_len: usize,
    value: *mut u32,
) -> u32 {
    // SAFETY: the arguments are as the head of the header says.
    unsafe {
        crate::readers::linker_utils_u32_from_slice_nonnull(
            from_raw_parts(bytes, bytes_len),
            &mut *value,
        )
    }
}

#[unsafe(no_mangle)]
unsafe extern "C" fn linker_utils_u64_from_slice_nonnull(
    bytes: *const u8,
    bytes_len: usize,
    value: *mut u64,
) -> u32 {
    // SAFETY: the arguments are as the head of the header says.
    unsafe {
        crate::readers::linker_utils_u64_from_slice_nonnull(
            from_raw_parts(bytes, bytes_len),
            &mut *value,
        )
    }
}

#[unsafe(no_mangle)]
unsafe extern "C" fn linker_utils_read_u32_nonnull(
    bytes: *const u8,
    bytes_len: usize,
    value: *mut u32,
    consumed: *mut usize,
) -> u32 {
    // SAFETY: the arguments are as the head of the header says.
    unsafe {
        crate::readers::linker_utils_read_u32_nonnull(
            from_raw_parts(bytes, bytes_len),
            &mut *value,
            &mut *consumed,
        )
    }
}

#[unsafe(no_mangle)]
unsafe extern "C" fn linker_utils_read_uleb128_nonnull(
    bytes: *const u8,
    bytes_len: usize,
    value: *mut u64,
    consumed: *mut usize,
) -> u32 {
    // SAFETY: the arguments are as the head of the header says.
    unsafe {
        crate::readers::linker_utils_read_uleb128_nonnull(
            from_raw_parts(bytes, bytes_len),
            &mut *value,
            &mut *consumed,
        )
    }
}

#[unsafe(no_mangle)]
unsafe extern "C" fn linker_utils_operand_nonnull(
    machine: u16,
    form: u32,
    bytes: *const u8,
    bytes_len: usize,
    number: *mut i64,
) -> u32 {
    // SAFETY: the arguments are as the head of the header says.
    unsafe {
        crate::reading::linker_utils_operand_nonnull(
            machine,
            form,
            from_raw_parts(bytes, bytes_len),
            &mut *number,
        )
    }
}

#[unsafe(no_mangle)]
unsafe extern "C" fn linker_utils_read_value_nonnull(
    machine: u16,
    r_type: u32,
    bytes: *const u8,
    bytes_len: usize,
    value: *mut FieldValueNumbers,
) -> u32 {
    // SAFETY: the arguments are as the head of the header says.
    unsafe {
        crate::reading::linker_utils_read_value_nonnull(
            machine,
            r_type,
            from_raw_parts(bytes, bytes_len),
            &mut *value,
        )
    }
}

#[unsafe(no_mangle)]
unsafe extern "C" fn linker_utils_solve(
    machine: u16,
    r_type: u32,
    value: *const FieldValueNumbers,
    operands: *const Operands,
    reference: *mut u32,
    address: *mut FieldValueNumbers,
) -> u32 {
    // SAFETY: the arguments are as the head of the header says.
    unsafe {
        crate::reading::linker_utils_solve(
            machine,
            r_type,
            &*value,
            &*operands,
            &mut *reference,
            &mut *address,
        )
    }
}

#[unsafe(no_mangle)]
unsafe extern "C" fn linker_utils_join(
    high: *const FieldValueNumbers,
    low: *const FieldValueNumbers,
    whole: *mut FieldValueNumbers,
) -> u32 {
    // SAFETY: the arguments are as the head of the header says.
    unsafe {
        crate::reading::linker_utils_join(
            &*high,
            &*low,
            &mut *whole,
        )
    }
}

#[unsafe(no_mangle)]
unsafe extern "C" fn linker_utils_field_bits_nonnull(
    machine: u16,
    r_type: u32,
    bytes: *const u8,
    bytes_len: usize,
    bits: *mut u64,
) -> u32 {
    // SAFETY: the arguments are as the head of the header says.
    unsafe {
        crate::recognising::linker_utils_field_bits_nonnull(
            machine,
            r_type,
            from_raw_parts(bytes, bytes_len),
            &mut *bits,
        )
    }
}

#[unsafe(no_mangle)]
unsafe extern "C" fn linker_utils_same_but_for_nonnull(
    machine: u16,
    r_type: u32,
    a: *const u8,
    a_len: usize,
    b: *const u8,
    b_len: usize,
) -> bool {
    // SAFETY: the arguments are as the head of the header says.
    unsafe {
        crate::recognising::linker_utils_same_but_for_nonnull(
            machine,
            r_type,
            from_raw_parts(a, a_len),
            from_raw_parts(b, b_len),
        )
    }
}

#[unsafe(no_mangle)]
unsafe extern "C" fn linker_utils_recognise_window_nonnull(
    machine: u16,
    r_type: u32,
    original: *const u8,
    original_len: usize,
    offset: u64,
    window: *mut RewriteWindow,
) -> u32 {
    // SAFETY: the arguments are as the head of the header says.
    unsafe {
        crate::recognising::linker_utils_recognise_window_nonnull(
            machine,
            r_type,
            from_raw_parts(original, original_len),
            offset,
            &mut *window,
        )
    }
}

#[unsafe(no_mangle)]
unsafe extern "C" fn linker_utils_recognise_nonnull(
    machine: u16,
    r_type: u32,
    original: *const u8,
    original_len: usize,
    offset: u64,
    others: *const FieldBits,
    others_len: usize,
    linked: *const u8,
    linked_len: usize,
    found: *mut RecognisedNumbers,
    found_len: usize,
    count: *mut usize,
) -> u32 {
    // SAFETY: the arguments are as the head of the header says.
    unsafe {
        crate::recognising::linker_utils_recognise_nonnull(
            machine,
            r_type,
            from_raw_parts(original, original_len),
            offset,
            from_raw_parts(others, others_len),
            from_raw_parts(linked, linked_len),
            from_raw_parts_mut(found, found_len),
            &mut *count,
        )
    }
}

#[unsafe(no_mangle)]
unsafe extern "C" fn linker_utils_recognise_chosen_nonnull(
    machine: u16,
    r_type: u32,
    original: *const u8,
    original_len: usize,
    offset: u64,
    others: *const FieldBits,
    others_len: usize,
    linked: *const u8,
    linked_len: usize,
    facts: *const LinkFactNumbers,
    found: *mut RecognisedNumbers,
) -> u32 {
    // SAFETY: the arguments are as the head of the header says.
    unsafe {
        crate::recognising::linker_utils_recognise_chosen_nonnull(
            machine,
            r_type,
            from_raw_parts(original, original_len),
            offset,
            from_raw_parts(others, others_len),
            from_raw_parts(linked, linked_len),
            &*facts,
            &mut *found,
        )
    }
}

#[unsafe(no_mangle)]
unsafe extern "C" fn linker_utils_get_destination_nonnull(
    machine: u16,
    made: *const RecognisedNumbers,
    original: *const u8,
    original_len: usize,
    offset: u64,
    operands: *const Operands,
    st_other: u8,
    destination: *mut DestinationNumbers,
) -> u32 {
    // SAFETY: the arguments are as the head of the header says.
    unsafe {
        crate::recognising::linker_utils_get_destination_nonnull(
            machine,
            &*made,
            from_raw_parts(original, original_len),
            offset,
            &*operands,
            st_other,
            &mut *destination,
        )
    }
}

#[unsafe(no_mangle)]
unsafe extern "C" fn linker_utils_standard_shapes(
    number: u32,
    shapes: *mut Shapes,
) -> u32 {
    // SAFETY: the arguments are as the head of the header says.
    unsafe {
        crate::relaxing::linker_utils_standard_shapes(
            number,
            &mut *shapes,
        )
    }
}

#[unsafe(no_mangle)]
unsafe extern "C" fn linker_utils_items_relaxable_nonnull(
    items: *const ItemNumbers,
    items_len: usize,
    start: u64,
    faulty: *mut usize,
) -> u32 {
    // SAFETY: the arguments are as the head of the header says.
    unsafe {
        crate::relaxing::linker_utils_items_relaxable_nonnull(
            from_raw_parts(items, items_len),
            start,
            &mut *faulty,
        )
    }
}

#[unsafe(no_mangle)]
unsafe extern "C" fn linker_utils_relax_nonnull(
    items: *const ItemNumbers,
    items_len: usize,
    start: u64,
    shapes: *mut u8,
    shapes_len: usize,
    kept: *mut u64,
    kept_len: usize,
    places: *mut usize,
    places_len: usize,
    freed: *mut u64,
    freed_len: usize,
    faulty: *mut usize,
) -> u32 {
    // SAFETY: the arguments are as the head of the header says.
    unsafe {
        crate::relaxing::linker_utils_relax_nonnull(
            from_raw_parts(items, items_len),
            start,
            from_raw_parts_mut(shapes, shapes_len),
            from_raw_parts_mut(kept, kept_len),
            from_raw_parts_mut(places, places_len),
            from_raw_parts_mut(freed, freed_len),
            &mut *faulty,
        )
    }
}

#[unsafe(no_mangle)]
unsafe extern "C" fn linker_utils_run_deltas_nonnull(
    items: *const ItemNumbers,
    items_len: usize,
    kept: *const u64,
    kept_len: usize,
    deltas: *mut RelaxDelta,
    deltas_len: usize,
    len: *mut usize,
) -> u32 {
    // SAFETY: the arguments are as the head of the header says.
    unsafe {
        crate::relaxing::linker_utils_run_deltas_nonnull(
            from_raw_parts(items, items_len),
            from_raw_parts(kept, kept_len),
            from_raw_parts_mut(deltas, deltas_len),
            &mut *len,
        )
    }
}

#[unsafe(no_mangle)]
unsafe extern "C" fn linker_utils_value(
    machine: u16,
    r_type: u32,
    operands: *const Operands,
    value: *mut i64,
) -> u32 {
    // SAFETY: the arguments are as the head of the header says.
    unsafe {
        crate::relocate::linker_utils_value(
            machine,
            r_type,
            &*operands,
            &mut *value,
        )
    }
}

#[unsafe(no_mangle)]
unsafe extern "C" fn linker_utils_reach(
    machine: u16,
    r_type: u32,
    reach: *mut Reach,
) -> u32 {
    // SAFETY: the arguments are as the head of the header says.
    unsafe {
        crate::relocate::linker_utils_reach(
            machine,
            r_type,
            &mut *reach,
        )
    }
}

#[unsafe(no_mangle)]
unsafe extern "C" fn linker_utils_relocate_nonnull(
    machine: u16,
    r_type: u32,
    value: i64,
    dest: *mut u8,
    dest_len: usize,
) -> u32 {
    // SAFETY: the arguments are as the head of the header says.
    unsafe {
        crate::relocate::linker_utils_relocate_nonnull(
            machine,
            r_type,
            value,
            from_raw_parts_mut(dest, dest_len),
        )
    }
}

#[unsafe(no_mangle)]
unsafe extern "C" fn linker_utils_relocate_all_nonnull(
    machine: u16,
    section: *mut u8,
    section_len: usize,
    relocations: *const Relocation,
    relocations_len: usize,
    faulty: *mut usize,
) -> u32 {
    // SAFETY: the arguments are as the head of the header says.
    unsafe {
        crate::relocate::linker_utils_relocate_all_nonnull(
            machine,
            from_raw_parts_mut(section, section_len),
            from_raw_parts(relocations, relocations_len),
            &mut *faulty,
        )
    }
}

#[unsafe(no_mangle)]
extern "C" fn linker_utils_uleb128_role(
    machine: u16,
    r_type: u32,
) -> u32 {
    crate::relocate::linker_utils_uleb128_role(
        machine,
        r_type,
    )
}

#[unsafe(no_mangle)]
unsafe extern "C" fn linker_utils_write_uleb128_nonnull(
    dest: *mut u8,
    dest_len: usize,
    value: u64,
) -> u32 {
    // SAFETY: the arguments are as the head of the header says.
    unsafe {
        crate::relocate::linker_utils_write_uleb128_nonnull(
            from_raw_parts_mut(dest, dest_len),
            value,
        )
    }
}

#[unsafe(no_mangle)]
unsafe extern "C" fn linker_utils_write_uleb128_pair_nonnull(
    machine: u16,
    r_type: u32,
    dest: *mut u8,
    dest_len: usize,
    first: u64,
    second: u64,
) -> u32 {
    // SAFETY: the arguments are as the head of the header says.
    unsafe {
        crate::relocate::linker_utils_write_uleb128_pair_nonnull(
            machine,
            r_type,
            from_raw_parts_mut(dest, dest_len),
            first,
            second,
        )
    }
}

#[unsafe(no_mangle)]
unsafe extern "C" fn linker_utils_relocation(
    machine: u16,
    r_type: u32,
    info: *mut RelocationNumbers,
) -> u32 {
    // SAFETY: the arguments are as the head of the header says.
    unsafe {
        crate::relocations::linker_utils_relocation(
            machine,
            r_type,
            &mut *info,
        )
    }
}

#[unsafe(no_mangle)]
unsafe extern "C" fn linker_utils_clui_rel_info(
    info: *mut RelocationNumbers,
) {
    // SAFETY: the arguments are as the head of the header says.
    unsafe {
        crate::relocations::linker_utils_clui_rel_info(
            &mut *info,
        )
    }
}

#[unsafe(no_mangle)]
extern "C" fn linker_utils_asks_for_got(
    machine: u16,
    r_type: u32,
) -> bool {
    crate::relocations::linker_utils_asks_for_got(
        machine,
        r_type,
    )
}

#[unsafe(no_mangle)]
extern "C" fn linker_utils_may_use_plt(
    machine: u16,
    r_type: u32,
) -> bool {
    crate::relocations::linker_utils_may_use_plt(
        machine,
        r_type,
    )
}

#[unsafe(no_mangle)]
extern "C" fn linker_utils_may_be_skipped(
    machine: u16,
    r_type: u32,
) -> bool {
    crate::relocations::linker_utils_may_be_skipped(
        machine,
        r_type,
    )
}

#[unsafe(no_mangle)]
unsafe extern "C" fn linker_utils_relocation_name_nonnull(
    machine: u16,
    r_type: u32,
    name: *mut u8,
    name_len: usize,
    name_used: *mut usize,
) -> u32 {
    // SAFETY: the arguments are as the head of the header says.
    unsafe {
        crate::relocations::linker_utils_relocation_name_nonnull(
            machine,
            r_type,
            from_raw_parts_mut(name, name_len),
            &mut *name_used,
        )
    }
}

#[unsafe(no_mangle)]
unsafe extern "C" fn linker_utils_write_relr_nonnull(
    addresses: *const u64,
    addresses_len: usize,
    words: *mut u64,
    words_len: usize,
    needed: *mut usize,
) -> u32 {
    // SAFETY: the arguments are as the head of the header says.
    unsafe {
        crate::relr::linker_utils_write_relr_nonnull(
            from_raw_parts(addresses, addresses_len),
            from_raw_parts_mut(words, words_len),
            &mut *needed,
        )
    }
}

#[unsafe(no_mangle)]
unsafe extern "C" fn linker_utils_read_relr_nonnull(
    words: *const u64,
    words_len: usize,
    addresses: *mut u64,
    addresses_len: usize,
    needed: *mut usize,
) -> u32 {
    // SAFETY: the arguments are as the head of the header says.
    unsafe {
        crate::relr::linker_utils_read_relr_nonnull(
            from_raw_parts(words, words_len),
            from_raw_parts_mut(addresses, addresses_len),
            &mut *needed,
        )
    }
}

#[unsafe(no_mangle)]
unsafe extern "C" fn linker_utils_can_apply_nonnull(
    machine: u16,
    rewrite: u32,
    opcode_len: u8,
    section: *const u8,
    section_len: usize,
    offset: u64,
) -> u32 {
    // SAFETY: the arguments are as the head of the header says.
    unsafe {
        crate::rewrites::linker_utils_can_apply_nonnull(
            machine,
            rewrite,
            opcode_len,
            from_raw_parts(section, section_len),
            offset,
        )
    }
}

#[unsafe(no_mangle)]
unsafe extern "C" fn linker_utils_matches_nonnull(
    machine: u16,
    rewrite: u32,
    opcode_len: u8,
    section: *const u8,
    section_len: usize,
    offset: u64,
) -> u32 {
    // SAFETY: the arguments are as the head of the header says.
    unsafe {
        crate::rewrites::linker_utils_matches_nonnull(
            machine,
            rewrite,
            opcode_len,
            from_raw_parts(section, section_len),
            offset,
        )
    }
}

#[unsafe(no_mangle)]
unsafe extern "C" fn linker_utils_apply_nonnull(
    machine: u16,
    rewrite: u32,
    opcode_len: u8,
    section: *mut u8,
    section_len: usize,
    offset: *mut u64,
    addend: *mut i64,
) -> u32 {
    // SAFETY: the arguments are as the head of the header says.
    unsafe {
        crate::rewrites::linker_utils_apply_nonnull(
            machine,
            rewrite,
            opcode_len,
            from_raw_parts_mut(section, section_len),
            &mut *offset,
            &mut *addend,
        )
    }
}

#[unsafe(no_mangle)]
unsafe extern "C" fn linker_utils_rewrite_window(
    machine: u16,
    rewrite: u32,
    opcode_len: u8,
    window: *mut RewriteWindow,
) -> u32 {
    // SAFETY: the arguments are as the head of the header says.
    unsafe {
        crate::rewrites::linker_utils_rewrite_window(
            machine,
            rewrite,
            opcode_len,
            &mut *window,
        )
    }
}

#[unsafe(no_mangle)]
unsafe extern "C" fn linker_utils_next_modifier(
    machine: u16,
    rewrite: u32,
    opcode_len: u8,
    modifier: *mut u32,
) -> u32 {
    // SAFETY: the arguments are as the head of the header says.
    unsafe {
        crate::rewrites::linker_utils_next_modifier(
            machine,
            rewrite,
            opcode_len,
            &mut *modifier,
        )
    }
}

#[unsafe(no_mangle)]
extern "C" fn linker_utils_has_rewrites(
    machine: u16,
    phase: u32,
) -> bool {
    crate::rewriting::linker_utils_has_rewrites(
        machine,
        phase,
    )
}

#[unsafe(no_mangle)]
unsafe extern "C" fn linker_utils_survey_nonnull(
    machine: u16,
    output: *const OutputFacts,
    symbols: *const SymbolFacts,
    symbols_len: usize,
    relocations: *const u8,
    relocations_len: usize,
    section: *const u8,
    section_len: usize,
    kept: *mut UnrelaxableGroups,
    kept_len: usize,
) -> u32 {
    // SAFETY: the arguments are as the head of the header says.
    unsafe {
        crate::rewriting::linker_utils_survey_nonnull(
            machine,
            &*output,
            from_raw_parts(symbols, symbols_len),
            from_raw_parts(relocations, relocations_len),
            from_raw_parts(section, section_len),
            from_raw_parts_mut(kept, kept_len),
        )
    }
}

#[unsafe(no_mangle)]
unsafe extern "C" fn linker_utils_survey_placed_section_nonnull(
    machine: u16,
    phase: u32,
    output: *const OutputFacts,
    symbols: *const SymbolFacts,
    symbols_len: usize,
    addresses: *const Addresses,
    values: *const Symbol,
    values_len: usize,
    relocations: *const u8,
    relocations_len: usize,
    section: *const u8,
    section_len: usize,
    kept: *mut UnrelaxableGroups,
    kept_len: usize,
) -> u32 {
    // SAFETY: the arguments are as the head of the header says.
    unsafe {
        crate::rewriting::linker_utils_survey_placed_section_nonnull(
            machine,
            phase,
            &*output,
            from_raw_parts(symbols, symbols_len),
            &*addresses,
            from_raw_parts(values, values_len),
            from_raw_parts(relocations, relocations_len),
            from_raw_parts(section, section_len),
            from_raw_parts_mut(kept, kept_len),
        )
    }
}

#[unsafe(no_mangle)]
unsafe extern "C" fn linker_utils_rewrite_section_nonnull(
    machine: u16,
    output: *const OutputFacts,
    symbols: *const SymbolFacts,
    symbols_len: usize,
    kept: *const UnrelaxableGroups,
    kept_len: usize,
    relocations: *mut u8,
    relocations_len: usize,
    section: *mut u8,
    section_len: usize,
    decisions: *mut DecisionNumbers,
    decisions_len: usize,
    faulty: *mut usize,
) -> u32 {
    // SAFETY: the arguments are as the head of the header says.
    unsafe {
        crate::rewriting::linker_utils_rewrite_section_nonnull(
            machine,
            &*output,
            from_raw_parts(symbols, symbols_len),
            from_raw_parts(kept, kept_len),
            from_raw_parts_mut(relocations, relocations_len),
            from_raw_parts_mut(section, section_len),
            from_raw_parts_mut(decisions, decisions_len),
            &mut *faulty,
        )
    }
}

#[unsafe(no_mangle)]
unsafe extern "C" fn linker_utils_decide_rewrites_nonnull(
    machine: u16,
    output: *const OutputFacts,
    symbols: *const SymbolFacts,
    symbols_len: usize,
    kept: *const UnrelaxableGroups,
    kept_len: usize,
    relocations: *const u8,
    relocations_len: usize,
    section: *const u8,
    section_len: usize,
    decisions: *mut DecisionNumbers,
    decisions_len: usize,
    faulty: *mut usize,
) -> u32 {
    // SAFETY: the arguments are as the head of the header says.
    unsafe {
        crate::rewriting::linker_utils_decide_rewrites_nonnull(
            machine,
            &*output,
            from_raw_parts(symbols, symbols_len),
            from_raw_parts(kept, kept_len),
            from_raw_parts(relocations, relocations_len),
            from_raw_parts(section, section_len),
            from_raw_parts_mut(decisions, decisions_len),
            &mut *faulty,
        )
    }
}

#[unsafe(no_mangle)]
unsafe extern "C" fn linker_utils_make_rewrites_nonnull(
    relocations: *mut u8,
    relocations_len: usize,
    section: *mut u8,
    section_len: usize,
    decisions: *const DecisionNumbers,
    decisions_len: usize,
    faulty: *mut usize,
) -> u32 {
    // SAFETY: the arguments are as the head of the header says.
    unsafe {
        crate::rewriting::linker_utils_make_rewrites_nonnull(
            from_raw_parts_mut(relocations, relocations_len),
            from_raw_parts_mut(section, section_len),
            from_raw_parts(decisions, decisions_len),
            &mut *faulty,
        )
    }
}

#[unsafe(no_mangle)]
unsafe extern "C" fn linker_utils_rewrite_placed_section_nonnull(
    machine: u16,
    phase: u32,
    output: *const OutputFacts,
    symbols: *const SymbolFacts,
    symbols_len: usize,
    addresses: *const Addresses,
    values: *const Symbol,
    values_len: usize,
    kept: *const UnrelaxableGroups,
    kept_len: usize,
    relocations: *mut u8,
    relocations_len: usize,
    section: *mut u8,
    section_len: usize,
    decisions: *mut DecisionNumbers,
    decisions_len: usize,
    deleted: *mut Deletion,
    deleted_len: usize,
    deleted_used: *mut usize,
    faulty: *mut usize,
) -> u32 {
    // SAFETY: the arguments are as the head of the header says.
    unsafe {
        crate::rewriting::linker_utils_rewrite_placed_section_nonnull(
            machine,
            phase,
            &*output,
            from_raw_parts(symbols, symbols_len),
            &*addresses,
            from_raw_parts(values, values_len),
            from_raw_parts(kept, kept_len),
            from_raw_parts_mut(relocations, relocations_len),
            from_raw_parts_mut(section, section_len),
            from_raw_parts_mut(decisions, decisions_len),
            from_raw_parts_mut(deleted, deleted_len),
            &mut *deleted_used,
            &mut *faulty,
        )
    }
}

#[unsafe(no_mangle)]
unsafe extern "C" fn linker_utils_survey_toc_loads_nonnull(
    machine: u16,
    output: *const OutputFacts,
    symbols: *const SymbolFacts,
    symbols_len: usize,
    addresses: *const Addresses,
    values: *const Symbol,
    values_len: usize,
    words_start: u64,
    words: *const u8,
    words_len: usize,
    relocations: *const u8,
    relocations_len: usize,
    section: *const u8,
    section_len: usize,
    kept: *mut bool,
    kept_len: usize,
) -> u32 {
    // SAFETY: the arguments are as the head of the header says.
    unsafe {
        crate::rewriting::linker_utils_survey_toc_loads_nonnull(
            machine,
            &*output,
            from_raw_parts(symbols, symbols_len),
            &*addresses,
            from_raw_parts(values, values_len),
            words_start,
            from_raw_parts(words, words_len),
            from_raw_parts(relocations, relocations_len),
            from_raw_parts(section, section_len),
            from_raw_parts_mut(kept, kept_len),
        )
    }
}

#[unsafe(no_mangle)]
unsafe extern "C" fn linker_utils_rewrite_toc_loads_nonnull(
    machine: u16,
    output: *const OutputFacts,
    symbols: *const SymbolFacts,
    symbols_len: usize,
    addresses: *const Addresses,
    values: *const Symbol,
    values_len: usize,
    words_start: u64,
    words: *const u8,
    words_len: usize,
    kept: *const bool,
    kept_len: usize,
    relocations: *mut u8,
    relocations_len: usize,
    section: *mut u8,
    section_len: usize,
    decisions: *mut DecisionNumbers,
    decisions_len: usize,
    faulty: *mut usize,
) -> u32 {
    // SAFETY: the arguments are as the head of the header says.
    unsafe {
        crate::rewriting::linker_utils_rewrite_toc_loads_nonnull(
            machine,
            &*output,
            from_raw_parts(symbols, symbols_len),
            &*addresses,
            from_raw_parts(values, values_len),
            words_start,
            from_raw_parts(words, words_len),
            from_raw_parts(kept, kept_len),
            from_raw_parts_mut(relocations, relocations_len),
            from_raw_parts_mut(section, section_len),
            from_raw_parts_mut(decisions, decisions_len),
            &mut *faulty,
        )
    }
}

#[unsafe(no_mangle)]
unsafe extern "C" fn linker_utils_read_rela32_nonnull(
    machine: u16,
    rela32: *const u8,
    rela32_len: usize,
    relas: *mut u8,
    relas_len: usize,
) -> u32 {
    // SAFETY: the arguments are as the head of the header says.
    unsafe {
        crate::riscv32::linker_utils_read_rela32_nonnull(
            machine,
            from_raw_parts(rela32, rela32_len),
            from_raw_parts_mut(relas, relas_len),
        )
    }
}

#[unsafe(no_mangle)]
unsafe extern "C" fn linker_utils_wrap_addends_nonnull(
    machine: u16,
    addresses: *const Addresses,
    symbols: *const Symbol,
    symbols_len: usize,
    relocations: *mut u8,
    relocations_len: usize,
) -> u32 {
    // SAFETY: the arguments are as the head of the header says.
    unsafe {
        crate::riscv32::linker_utils_wrap_addends_nonnull(
            machine,
            &*addresses,
            from_raw_parts(symbols, symbols_len),
            from_raw_parts_mut(relocations, relocations_len),
        )
    }
}

#[unsafe(no_mangle)]
unsafe extern "C" fn linker_utils_route_at_nonnull(
    machine: u16,
    addresses: *const Addresses,
    relocations: *const u8,
    relocations_len: usize,
    symbols: *const Symbol,
    symbols_len: usize,
    index: usize,
    section: *const u8,
    section_len: usize,
    route: *mut RouteNumbers,
) -> u32 {
    // SAFETY: the arguments are as the head of the header says.
    unsafe {
        crate::routes::linker_utils_route_at_nonnull(
            machine,
            &*addresses,
            from_raw_parts(relocations, relocations_len),
            from_raw_parts(symbols, symbols_len),
            index,
            from_raw_parts(section, section_len),
            &mut *route,
        )
    }
}

#[unsafe(no_mangle)]
unsafe extern "C" fn linker_utils_route_by_word_nonnull(
    machine: u16,
    word: u64,
    relocations: *const u8,
    relocations_len: usize,
    index: usize,
    section: *const u8,
    section_len: usize,
    route: *mut RouteNumbers,
) -> u32 {
    // SAFETY: the arguments are as the head of the header says.
    unsafe {
        crate::routes::linker_utils_route_by_word_nonnull(
            machine,
            word,
            from_raw_parts(relocations, relocations_len),
            index,
            from_raw_parts(section, section_len),
            &mut *route,
        )
    }
}

#[unsafe(no_mangle)]
extern "C" fn linker_utils_find(
    machine: u16,
    r_type: u32,
) -> u32 {
    crate::rows::linker_utils_find(
        machine,
        r_type,
    )
}

#[unsafe(no_mangle)]
unsafe extern "C" fn linker_utils_row_value(
    handle: u32,
    operands: *const Operands,
    value: *mut i64,
) -> u32 {
    // SAFETY: the arguments are as the head of the header says.
    unsafe {
        crate::rows::linker_utils_row_value(
            handle,
            &*operands,
            &mut *value,
        )
    }
}

#[unsafe(no_mangle)]
unsafe extern "C" fn linker_utils_row_write_nonnull(
    handle: u32,
    value: i64,
    dest: *mut u8,
    dest_len: usize,
) -> u32 {
    // SAFETY: the arguments are as the head of the header says.
    unsafe {
        crate::rows::linker_utils_row_write_nonnull(
            handle,
            value,
            from_raw_parts_mut(dest, dest_len),
        )
    }
}

#[unsafe(no_mangle)]
unsafe extern "C" fn linker_utils_row_apply_nonnull(
    handle: u32,
    operands: *const Operands,
    dest: *mut u8,
    dest_len: usize,
) -> u32 {
    // SAFETY: the arguments are as the head of the header says.
    unsafe {
        crate::rows::linker_utils_row_apply_nonnull(
            handle,
            &*operands,
            from_raw_parts_mut(dest, dest_len),
        )
    }
}

#[unsafe(no_mangle)]
unsafe extern "C" fn linker_utils_row_reach(
    handle: u32,
    reach: *mut Reach,
) -> u32 {
    // SAFETY: the arguments are as the head of the header says.
    unsafe {
        crate::rows::linker_utils_row_reach(
            handle,
            &mut *reach,
        )
    }
}

#[unsafe(no_mangle)]
unsafe extern "C" fn linker_utils_row_needs(
    handle: u32,
    addend: i64,
    is_thread_local: bool,
    required: *mut RequirementNumbers,
) -> u32 {
    // SAFETY: the arguments are as the head of the header says.
    unsafe {
        crate::rows::linker_utils_row_needs(
            handle,
            addend,
            is_thread_local,
            &mut *required,
        )
    }
}

#[unsafe(no_mangle)]
unsafe extern "C" fn linker_utils_row_choose_nonnull(
    handle: u32,
    section: *const u8,
    section_len: usize,
    offset: u64,
    facts: *const LinkFactNumbers,
    choice: *mut ChoiceNumbers,
) -> u32 {
    // SAFETY: the arguments are as the head of the header says.
    unsafe {
        crate::rows::linker_utils_row_choose_nonnull(
            handle,
            from_raw_parts(section, section_len),
            offset,
            &*facts,
            &mut *choice,
        )
    }
}

#[unsafe(no_mangle)]
unsafe extern "C" fn linker_utils_row_fits_nonnull(
    handle: u32,
    section: *const u8,
    section_len: usize,
    offset: u64,
    facts: *const LinkFactNumbers,
) -> bool {
    // SAFETY: the arguments are as the head of the header says.
    unsafe {
        crate::rows::linker_utils_row_fits_nonnull(
            handle,
            from_raw_parts(section, section_len),
            offset,
            &*facts,
        )
    }
}

#[unsafe(no_mangle)]
unsafe extern "C" fn linker_utils_row_of(
    handle: u32,
    row: *mut RowNumbers,
) -> u32 {
    // SAFETY: the arguments are as the head of the header says.
    unsafe {
        crate::rows::linker_utils_row_of(
            handle,
            &mut *row,
        )
    }
}

#[unsafe(no_mangle)]
unsafe extern "C" fn linker_utils_section_items_nonnull(
    machine: u16,
    section: *const u8,
    section_len: usize,
    base: u64,
    relocations: *const Rela,
    relocations_len: usize,
    items: *mut ItemNumbers,
    items_len: usize,
    makers: *mut usize,
    makers_len: usize,
    len: *mut usize,
    faulty: *mut usize,
) -> u32 {
    // SAFETY: the arguments are as the head of the header says.
    unsafe {
        crate::section_items::linker_utils_section_items_nonnull(
            machine,
            from_raw_parts(section, section_len),
            base,
            from_raw_parts(relocations, relocations_len),
            from_raw_parts_mut(items, items_len),
            from_raw_parts_mut(makers, makers_len),
            &mut *len,
            &mut *faulty,
        )
    }
}

#[unsafe(no_mangle)]
unsafe extern "C" fn linker_utils_rewritten_items_nonnull(
    machine: u16,
    section: *const u8,
    section_len: usize,
    base: u64,
    relocations: *const Rela,
    relocations_len: usize,
    deleted: *const Deletion,
    deleted_len: usize,
    items: *mut ItemNumbers,
    items_len: usize,
    makers: *mut usize,
    makers_len: usize,
    len: *mut usize,
    faulty: *mut usize,
) -> u32 {
    // SAFETY: the arguments are as the head of the header says.
    unsafe {
        crate::section_items::linker_utils_rewritten_items_nonnull(
            machine,
            from_raw_parts(section, section_len),
            base,
            from_raw_parts(relocations, relocations_len),
            from_raw_parts(deleted, deleted_len),
            from_raw_parts_mut(items, items_len),
            from_raw_parts_mut(makers, makers_len),
            &mut *len,
            &mut *faulty,
        )
    }
}

#[unsafe(no_mangle)]
unsafe extern "C" fn linker_utils_needs(
    machine: u16,
    r_type: u32,
    addend: i64,
    is_thread_local: bool,
    required: *mut RequirementNumbers,
) -> u32 {
    // SAFETY: the arguments are as the head of the header says.
    unsafe {
        crate::sections::linker_utils_needs(
            machine,
            r_type,
            addend,
            is_thread_local,
            &mut *required,
        )
    }
}

#[unsafe(no_mangle)]
unsafe extern "C" fn linker_utils_value_at_nonnull(
    machine: u16,
    addresses: *const Addresses,
    relocations: *const u8,
    relocations_len: usize,
    symbols: *const Symbol,
    symbols_len: usize,
    index: usize,
    value: *mut i64,
) -> u32 {
    // SAFETY: the arguments are as the head of the header says.
    unsafe {
        crate::sections::linker_utils_value_at_nonnull(
            machine,
            &*addresses,
            from_raw_parts(relocations, relocations_len),
            from_raw_parts(symbols, symbols_len),
            index,
            &mut *value,
        )
    }
}

#[unsafe(no_mangle)]
unsafe extern "C" fn linker_utils_relocate_memory_nonnull(
    relocations: *const u8,
    relocations_len: usize,
) -> usize {
    // SAFETY: the arguments are as the head of the header says.
    unsafe {
        crate::sections::linker_utils_relocate_memory_nonnull(
            from_raw_parts(relocations, relocations_len),
        )
    }
}

#[unsafe(no_mangle)]
unsafe extern "C" fn linker_utils_relocate_section_nonnull(
    machine: u16,
    addresses: *const Addresses,
    relocations: *const u8,
    relocations_len: usize,
    symbols: *const Symbol,
    symbols_len: usize,
    section: *mut u8,
    section_len: usize,
    memory: *mut u64,
    memory_len: usize,
    faulty: *mut usize,
) -> u32 {
    // SAFETY: the arguments are as the head of the header says.
    unsafe {
        crate::sections::linker_utils_relocate_section_nonnull(
            machine,
            &*addresses,
            from_raw_parts(relocations, relocations_len),
            from_raw_parts(symbols, symbols_len),
            from_raw_parts_mut(section, section_len),
            from_raw_parts_mut(memory, memory_len),
            &mut *faulty,
        )
    }
}

#[unsafe(no_mangle)]
unsafe extern "C" fn linker_utils_relocate_resolved_nonnull(
    machine: u16,
    addresses: *const Addresses,
    relocations: *const u8,
    relocations_len: usize,
    resolved: *const Resolved,
    resolved_len: usize,
    section: *mut u8,
    section_len: usize,
    memory: *mut u64,
    memory_len: usize,
    faulty: *mut usize,
) -> u32 {
    // SAFETY: the arguments are as the head of the header says.
    unsafe {
        crate::sections::linker_utils_relocate_resolved_nonnull(
            machine,
            &*addresses,
            from_raw_parts(relocations, relocations_len),
            from_raw_parts(resolved, resolved_len),
            from_raw_parts_mut(section, section_len),
            from_raw_parts_mut(memory, memory_len),
            &mut *faulty,
        )
    }
}

#[unsafe(no_mangle)]
unsafe extern "C" fn linker_utils_write_mov_sequence_nonnull(
    dest: *mut u8,
    dest_len: usize,
    rd: u32,
    value: u64,
) -> u32 {
    // SAFETY: the arguments are as the head of the header says.
    unsafe {
        crate::sequences::linker_utils_write_mov_sequence_nonnull(
            from_raw_parts_mut(dest, dest_len),
            rd,
            value,
        )
    }
}

#[unsafe(no_mangle)]
unsafe extern "C" fn linker_utils_write_address_sequence_nonnull(
    dest: *mut u8,
    dest_len: usize,
    pc: u64,
    target: u64,
) -> u32 {
    // SAFETY: the arguments are as the head of the header says.
    unsafe {
        crate::sequences::linker_utils_write_address_sequence_nonnull(
            from_raw_parts_mut(dest, dest_len),
            pc,
            target,
        )
    }
}

#[unsafe(no_mangle)]
extern "C" fn linker_utils_highest_relocation_with_bias(
    s: u64,
    pc: u64,
) -> u64 {
    crate::sequences::linker_utils_highest_relocation_with_bias(
        s,
        pc,
    )
}

#[unsafe(no_mangle)]
unsafe extern "C" fn linker_utils_write_ha_lo_nonnull(
    ha: *mut u8,
    ha_len: usize,
    lo: *mut u8,
    lo_len: usize,
    value: u64,
) -> u32 {
    // SAFETY: the arguments are as the head of the header says.
    unsafe {
        crate::sequences::linker_utils_write_ha_lo_nonnull(
            from_raw_parts_mut(ha, ha_len),
            from_raw_parts_mut(lo, lo_len),
            value,
        )
    }
}

#[unsafe(no_mangle)]
unsafe extern "C" fn linker_utils_calls_shrinkable_nonnull(
    deltas: *const RelaxDelta,
    deltas_len: usize,
    calls: *const Call,
    calls_len: usize,
    faulty: *mut usize,
) -> u32 {
    // SAFETY: the arguments are as the head of the header says.
    unsafe {
        crate::shrinking::linker_utils_calls_shrinkable_nonnull(
            from_raw_parts(deltas, deltas_len),
            from_raw_parts(calls, calls_len),
            &mut *faulty,
        )
    }
}

#[unsafe(no_mangle)]
unsafe extern "C" fn linker_utils_shrink_calls_nonnull(
    deltas: *const RelaxDelta,
    deltas_len: usize,
    calls: *const Call,
    calls_len: usize,
    chosen: *mut u8,
    chosen_len: usize,
    faulty: *mut usize,
) -> u32 {
    // SAFETY: the arguments are as the head of the header says.
    unsafe {
        crate::shrinking::linker_utils_shrink_calls_nonnull(
            from_raw_parts(deltas, deltas_len),
            from_raw_parts(calls, calls_len),
            from_raw_parts_mut(chosen, chosen_len),
            &mut *faulty,
        )
    }
}
