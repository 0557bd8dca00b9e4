// SPDX-License-Identifier: MIT OR Apache-2.0
// Made by tools/generate of the exports in crates/linker_utils_c/src and of the headers.
layout! {
    "linker_utils_operands": raw::Operands {
        symbol, addend, place, got_entry, got_base, plt_entry, symbol_size, tls_base, has_got_entry,
        has_plt_entry, has_tls_base,
    }
    "linker_utils_symbol": raw::Symbol {
        address, size, stub, address_entry, thread_entry, module_entry, descriptor, entry_addend,
        other, is_thread_local, is_undefined_weak,
    }
    "linker_utils_requirements": raw::Requirements {
        entry_addend, entry_class, is_branch, may_use_stub, stub_only_if_undefined, is_word,
        depends_on_load,
    }
    "linker_utils_origins": raw::Origins {
        thread_pointer, module_block,
    }
    "linker_utils_got": raw::Got {
        base, header, has_header,
    }
    "linker_utils_entry_words": raw::EntryWords {
        first, second,
    }
    "linker_utils_symbol_facts": raw::SymbolFacts {
        is_local, is_ifunc, is_absolute, is_undefined_weak, is_tls_get_addr, other,
    }
    "linker_utils_deletion": raw::Deletion {
        offset, bytes,
    }
    "linker_utils_delta": raw::Delta {
        input_offset, cumulative_deleted, bytes_deleted,
    }
    "linker_utils_rela": raw::Rela {
        offset, target, addend, r_type, has_symbol, has_target, may_compress,
    }
    "linker_utils_route": raw::Route {
        target, entry, kind, is_by_stub,
    }
    "linker_utils_stub": raw::Stub {
        len, entry,
    }
    "linker_utils_field_value": raw::FieldValue {
        bits, rounding, first_bit, end_bit,
    }
    "linker_utils_relocation_info": raw::RelocationInfo {
        kind, form, mask, machine, is_bits, byte_size, first_bit, end_bit, has_range, thunkable,
        implicit_addend, min, max, alignment, bias,
    }
    "linker_utils_relocation_reach": raw::Reach {
        min, max, has_range,
    }
    "linker_utils_row": raw::Row {
        alignment, reach, needs, r_type, kind, machine, window, may_use_plt, is_relative, name,
    }
    "linker_utils_resolved": raw::Resolved {
        address, entry, stub, other, is_undefined_weak, is_left_out,
    }
    "linker_utils_relocation_entry": raw::Relocation {
        offset, value, r_type,
    }
    "linker_utils_unrelaxable_groups": raw::UnrelaxableGroups {
        initial_exec, general_dynamic, local_dynamic, descriptor, got_load,
    }
    "linker_utils_decision": raw::Decision {
        addend, symbol, rewrite, relocation, machine, fate, opcode_len,
    }
    "linker_utils_facts_snapshot": raw::FactsSnapshot {
        bits,
    }
    "linker_utils_link_facts": raw::LinkFacts {
        is_local, is_ifunc, is_undefined_weak, has_fixed_address, is_pcrel_link_time_constant,
        is_executable, has_local_exec_base, may_compress, is_relaxable, has_got_high_part,
        is_label_relaxable, toc_base_is_exclusive, may_change_toc, has_addresses, group_fits,
        is_class32, operands,
    }
    "linker_utils_choice": raw::Choice {
        rewrite, relocation, modifier, deleted_len, deleted_start, other_offset, other_relocation,
        has_other, opcode_len, skipped_offset,
    }
    "linker_utils_window_bounds": raw::RewriteWindow {
        back, len,
    }
    "linker_utils_block_head": raw::BlockHead {
        input_offset, output_offset,
    }
    "linker_utils_shape": raw::Shape {
        max_backward, max_forward, kept, granularity,
    }
    "linker_utils_shapes": raw::Shapes {
        short, longest, count,
    }
    "linker_utils_item": raw::Item {
        offset, target, alignment, max_skip, len, kind, shapes,
    }
    "linker_utils_call": raw::Call {
        site, target,
    }
    "linker_utils_dynamic_types": raw::DynamicTypes {
        word, relative, glob_dat, jump_slot, copy, irelative, module_number, module_offset,
        thread_offset, descriptor,
    }
    "linker_utils_word_types": raw::WordTypes {
        first, second,
    }
    "linker_utils_dynamic_facts": raw::DynamicFacts {
        first_entry, options, has_lazy_plt, has_landing_plt, has_signed_plt, has_variant_calls,
    }
    "linker_utils_dynamic_entry": raw::DynamicEntry {
        tag, value,
    }
    "linker_utils_provided_symbol": raw::ProvidedSymbol {
        offset, place,
    }
    "linker_utils_save_restore_routines": raw::SaveRestoreRoutines {
        len, first, count, spacing,
    }
    "linker_utils_property": raw::Property {
        kind, value, version,
    }
    "linker_utils_landing_property": raw::LandingProperty {
        bit, kind,
    }
    "linker_utils_lazy_plt": raw::LazyPlt {
        header_len, entry_len, alignment, header_words,
    }
    "linker_utils_lazy_entry": raw::LazyEntry {
        address, word, header, index,
    }
    "linker_utils_branch": raw::Branch {
        offset, target, max_backward, max_forward,
    }
    "linker_utils_stub_shape": raw::StubShape {
        len, unit, max_backward, max_forward,
    }
    "linker_utils_placed_stub": raw::PlacedStub {
        place, boundary, target,
    }
    "linker_utils_window_bits": raw::FieldBits {
        offset, bits,
    }
    "linker_utils_recognised": raw::Recognised {
        choice, offset, value,
    }
    "linker_utils_destination": raw::Destination {
        address, addend, symbol, reference, has_symbol,
    }
    "linker_utils_output_facts": raw::OutputFacts {
        is_executable, is_fixed, has_near_symbols,
    }
    "linker_utils_addresses": raw::Addresses {
        section, got_base, thread_origin, module_origin, module_entry, has_tls,
    }
}
