// SPDX-License-Identifier: MIT OR Apache-2.0
// The structs of the library that exports take, field by field: those of the exports' own are in what
// build.rs writes.

use linker_utils::elf::{Operands, RelocationNumbers, RewriteWindow};
use linker_utils::output::{DynamicEntry, DynamicFacts, LandingProperty, LazyEntry, Origins, Property};
use linker_utils::placement::{Branch, StubShape};
use linker_utils::recognise::FieldBits;
use linker_utils::relaxation::{BlockHead, Call, RelaxDelta};
use linker_utils::rewriting::{DecisionNumbers, Deletion, FactsSnapshot, UnrelaxableGroups, SymbolFacts};
use linker_utils::source::rewriting::OutputFacts;
use linker_utils::runs::ItemNumbers;
use linker_utils::section::{Addresses, Resolved, Symbol};

fields! { RelaxDelta: input_offset, bytes_deleted, cumulative_deleted, }
fields! { BlockHead: input_offset, output_offset, }
fields! {
    DecisionNumbers: addend, symbol, rewrite, relocation, machine, fate, opcode_len,
}
fields! { Deletion: offset, bytes, }
fields! { ItemNumbers: offset, target, alignment, max_skip, len, kind, shapes, }
fields! { Call: site, target, }
fields! { FieldBits: offset, bits, }
fields! { RewriteWindow: back, len, }
fields! {
    Symbol: address, size, stub, address_entry, thread_entry, module_entry, descriptor,
    entry_addend, other, is_thread_local, is_undefined_weak,
}
fields! { Resolved: address, entry, stub, other, is_undefined_weak, is_left_out, }
fields! { Addresses: section, got_base, thread_origin, module_origin, module_entry, has_tls, }
fields! {
    SymbolFacts: is_local, is_ifunc, is_absolute, is_undefined_weak, is_tls_get_addr, other,
}
fields! { OutputFacts: is_executable, is_fixed, has_near_symbols, }
fields! { UnrelaxableGroups: initial_exec, general_dynamic, local_dynamic, descriptor, got_load, }
fields! { FactsSnapshot: bits, }
fields! { Property: kind, value, version, }
fields! { LandingProperty: bit, kind, }
fields! { Origins: thread_pointer, module_block, }
fields! { LazyEntry: address, word, header, index, }
fields! {
    DynamicFacts: first_entry, options, has_lazy_plt, has_landing_plt, has_signed_plt,
    has_variant_calls,
}
fields! { DynamicEntry: tag, value, }
fields! { Branch: offset, target, max_backward, max_forward, }
fields! { StubShape: len, unit, max_backward, max_forward, }
fields! {
    Operands: symbol, addend, place, got_entry, got_base, plt_entry, symbol_size, tls_base,
    has_got_entry, has_plt_entry, has_tls_base,
}
fields! {
    RelocationNumbers: kind, form, mask, machine, is_bits, byte_size, first_bit, end_bit,
    has_range, thunkable, implicit_addend, min, max, alignment, bias,
}
