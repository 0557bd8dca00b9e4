#![no_std]
#![cfg_attr(docsrs, feature(doc_cfg))]
#![forbid(unsafe_code)]
#![allow(non_camel_case_types, reason = "a relocation has the name that its psABI gives it")]
#![allow(unused_imports, unused_variables, reason = "some are there for contracts alone")]
#![allow(clippy::complexity, clippy::style, reason = "the text is that of the proved source")]
#![allow(clippy::suspicious, reason = "the text is that of the proved source")]
#![allow(rustdoc::redundant_explicit_links, reason = "tools/generate links by whole paths")]
#![cfg_attr(
    not(all(
        feature = "aarch64",
        feature = "loongarch64",
        feature = "ppc64",
        feature = "riscv64",
        feature = "x86_64"
    )),
    allow(
        dead_code,
        irrefutable_let_patterns,
        unreachable_code,
        unreachable_patterns,
        unused_macros,
        unused_mut,
        reason = "what is of several architectures, and of none that is compiled"
    )
)]

extern crate alloc;

#[macro_use]
mod support;
#[cfg(test)]
mod tests;

#[cfg(feature = "compat")]
pub mod compat;
mod errors;
mod link;
mod linker_base;
mod linker_elf;
mod linker_output;
mod linker_reading;
mod linker_rewriting;
mod linker_riscv64;
mod linker_runs;
mod linker_section;
pub mod names;
pub mod readers;
pub mod recognise;
mod traits;

/// What `rust/exports` calls: for users `link` and `recognise` have it, with fewer parameters.
#[doc(hidden)]
pub mod source {
    pub use crate::{output, placement, reading};

    pub mod recognise {
        pub use crate::linker_reading::recognise::{recognise, recognise_chosen};
        pub use crate::recognise::*;

        pub mod architecture {
            pub use crate::linker_reading::recognise::architecture::{recognise, recognise_chosen};
            pub use crate::recognise::architecture::*;
        }
    }

    pub mod rewriting {
        pub use crate::linker_rewriting::facts::{OutputFacts, RelaxContext};
        pub use crate::linker_rewriting::global_pointer::{
            finish_gp_relaxation, rewrite_global_pointer, survey_global_pointer,
        };
        pub use crate::linker_rewriting::kept::{
            WritingError, snapshot_facts, relocate_rewritten_section,
        };
        pub use crate::linker_rewriting::sections::{
            decide_rewrites, make_rewrites, rewrite_placed_section, rewrite_section,
        };
        pub use crate::linker_rewriting::surveys::{survey, survey_placed_section};
        pub use crate::linker_rewriting::toc_indirection::{rewrite_toc_loads, survey_toc_loads};
        pub use crate::rewriting::*;
    }

    pub mod runs {
        pub use crate::linker_runs::items::{rewritten_items_into, section_items_into};
        pub use crate::linker_runs::packing::pack_run;
        pub use crate::runs::*;
    }

    pub mod section {
        pub use crate::linker_section::resolved::relocate_resolved;
        pub use crate::linker_section::sections::{SectionError, relocate_section};
        pub use crate::section::*;
    }
}

#[doc(hidden)]
pub use crate::linker_elf::elf::choice_table;

#[cfg(any(doc, doctest))]
pub mod link_in_ten_calls {
    #![doc = include_str!("../doc/link_in_ten_calls.md")]
    use crate::output::{LazyPlt, Target, merge_properties, read_properties, static_words};
    use crate::output::{write_properties, write_relr};
    use crate::placement::place_stubs;
    use crate::rewriting::{
        Decision, decide_rewrites, make_rewrites, snapshot_facts, relocate_rewritten_section,
        rewrite_placed_section, rewrite_section, survey, survey_placed_section,
    };
    use crate::runs::{pack_run, relax, rewritten_items_into};
    use crate::section::{memory_len, needs, read_crel, read_rela32, relocate_section, wrap_addends};
}

pub mod runs {
    #![doc = include_str!("../doc/runs.md")]
    pub use crate::link::{
        Run, pack_run, rewritten_items_into, section_items, section_items_into,
    };
    pub use crate::linker_runs::items::{
        AsRelocation, ItemNumbers, ItemsError, Relocation, RewrittenItemsError, SectionItems,
        first_malformed,
    };
    #[cfg(feature = "riscv64")]
    pub use crate::linker_runs::packing::Isa;
    pub use crate::linker_runs::packing::{
        ItemError, Machine, RejectedItem, has_its_instructions, packed_run_len,
    };
    pub use crate::linker_runs::relaxation::{
        Alignment, Fault, Item, ItemFault, Plan, Shape, Shapes, Site, are_items, deletions,
        first_faulty, relax, relax_into, translations_are_exact,
    };
    pub use crate::linker_runs::shapes;
}

/// Which forms an instruction has and the number in its immediate; what stands in the fields of
/// relocations: the bits of a value that are known from linked bytes, and the addresses that have such
/// a value.
pub mod reading {
    pub use crate::linker_reading::fields::FieldValue;
    pub use crate::linker_reading::operands::{forms_of, operand};
    pub use crate::linker_reading::reading::read;
    pub use crate::linker_reading::solving::{Origin, Reference, Terms, join, solve, terms_of};
}

pub mod section {
    #![doc = include_str!("../doc/section.md")]
    pub use crate::link::{
        Link, Object, Section, SectionError, relocate_resolved, relocate_section, relocations,
    };
    pub use crate::linker_section::crel::{Crel, CrelError, read_crel};
    pub use crate::linker_section::facts::{Addresses, Symbol};
    pub use crate::linker_section::needed::{Entry, EntryClass, Requirements, needs};
    pub use crate::linker_section::relocations::{
        RELA_LEN, Rela, first_from, is_ascending, relocation_at, relocations_len,
    };
    #[cfg(feature = "riscv64")]
    pub use crate::linker_section::riscv32::wrap_addends;
    pub use crate::linker_section::riscv32::{RELA32_LEN, read_rela32, relocations32_len};
    pub use crate::linker_section::resolved::{ByRelocation, Lookup, Resolved};
    pub use crate::linker_section::sections::{RelocationError, memory_len};
    pub use crate::linker_section::values::{ValueError, value};
}

pub mod rewriting {
    #![doc = include_str!("../doc/rewriting.md")]
    pub use crate::link::{
        Words, WritingError, decide_rewrites, first_changed, finish_gp_relaxation, make_rewrites,
        snapshot_facts, relocate_rewritten_section, rewrite_toc_loads, rewrite_global_pointer,
        rewrite_placed_section, rewrite_section, survey, survey_toc_loads,
        survey_global_pointer, survey_placed_section,
    };
    pub use crate::linker_rewriting::decisions::{
        Decision, DecisionError, DecisionNumbers, Deletion, RewritingError, Subject,
    };
    pub use crate::linker_rewriting::facts::SymbolFacts;
    pub use crate::linker_rewriting::global_pointer::{GPREL_I, GPREL_S};
    pub use crate::linker_rewriting::groups::{
        Group, UnrelaxableGroups, Scope, has_rewrites, scope_in, scope_of,
    };
    pub use crate::linker_rewriting::kept::FactsSnapshot;
    pub use crate::linker_rewriting::phases::Phase;
}

pub mod output {
    #![doc = include_str!("../doc/output.md")]
    pub use crate::linker_output::addresses::{AddressSection, WordLoad};
    pub use crate::linker_output::dynamic::{DynamicType, DynamicTypes};
    pub use crate::linker_output::flags::FlagRules;
    pub use crate::linker_output::got::{
        GotHeader, GotLayout, Origins, ThreadPointer, entry_words, static_words,
    };
    pub use crate::linker_output::layout::{
        CodeUnit, Interpreter, SaveRestoreRoutines, ProvidedSymbol, RunWord, SymbolPlace,
    };
    pub use crate::linker_output::lazy_plt::{
        LazyEntry, LazyField, LazyForm, LazyPiece, LazyPlt, LazyTarget, LazyWord,
    };
    pub use crate::linker_output::properties::{
        LandingProperty, Property, PropertyError, PropertyRule, merge_properties, property_rule,
        read_properties, write_properties,
    };
    pub use crate::linker_output::relr::{RelrError, read_relr, write_relr};
    pub use crate::linker_output::routes::{Route, RouteError};
    pub use crate::linker_output::stubs::{Stub, StubError, StubField, StubKind};
    pub use crate::linker_output::tags::{DynamicEntry, DynamicFacts, DynamicTag, TagRule};
    pub use crate::linker_output::description::Target;
}

pub mod placement {
    #![doc = include_str!("../doc/placement.md")]
    pub use crate::linker_output::placement::{
        Branch, Code, Layout, Part, PlaceError, Placement, StubAt, StubCounts, StubShape, place_stubs,
    };
}
