// SPDX-License-Identifier: MIT OR Apache-2.0
// Made by tools/generate of crates/linker_output/src/tags.rt.
//! The entries of the dynamic section that the psABI of one architecture has.

use crate::linker_output::description::Target;

/// Which outputs have a tag, by the fact of that name, and its value.
#[derive(Clone, Copy, Debug, PartialEq, Eq, Hash)]
pub enum TagRule {
    /// Those with [`DynamicFacts::has_landing_plt`](crate::output::DynamicFacts::has_landing_plt). The value is 0.
    LandingPlt,
    /// Those with [`DynamicFacts::has_signed_plt`](crate::output::DynamicFacts::has_signed_plt). The value is 0.
    SignedPlt,
    /// Those with [`DynamicFacts::has_variant_calls`](crate::output::DynamicFacts::has_variant_calls). The value is 0.
    VariantCalls,
    /// Those with [`DynamicFacts::has_lazy_plt`](crate::output::DynamicFacts::has_lazy_plt). The value is 32 below its first entry.
    LazyPlt,
    /// All. The value is [`DynamicFacts::options`](crate::output::DynamicFacts::options).
    Options,
}

/// A tag of the dynamic section.
#[derive(Clone, Copy, Debug, PartialEq, Eq, Hash)]
pub struct DynamicTag {
    /// Its number, `d_tag`.
    pub tag: u64,
    /// Which outputs have it, and its value.
    pub rule: TagRule,
}

/// A tag with a number and a rule.
macro_rules! tag {
    ($tag:literal, $rule:ident) => {
        $crate::linker_output::tags::DynamicTag {
            tag: $tag,
            rule: $crate::linker_output::tags::TagRule::$rule,
        }
    };
}

pub(crate) use tag;

/// What an output's dynamic section says to the dynamic linker. By default nothing.
#[repr(C)]
#[derive(Default, Clone, Copy, Debug, PartialEq, Eq, Hash)]
pub struct DynamicFacts {
    /// The address of the first entry of the lazy PLT, after its head, if `has_lazy_plt`.
    pub first_entry: u64,
    /// Bits that an output of PowerPC64 has: `PPC64_OPT_TLS`, 1, if calls of `__tls_get_addr` go by
    /// `__tls_get_addr_opt`; `PPC64_OPT_MULTI_TOC`, 2, if it has more than one TOC;
    /// `PPC64_OPT_LOCALENTRY`, 4, if calls of shared libraries don't save the TOC pointer.
    pub options: u64,
    /// There is a lazy PLT.
    pub has_lazy_plt: bool,
    /// The PLT's entries begin with an instruction to which indirect branches may go, as those that
    /// [`LandingProperty`](crate::output::LandingProperty) requires.
    pub has_landing_plt: bool,
    /// The PLT's entries authenticate the addresses that they load (`-z pac-plt`).
    pub has_signed_plt: bool,
    /// A relocation of type `jump_slot` names a symbol whose `st_other` has the bit 0x80:
    /// `STO_AARCH64_VARIANT_PCS` or `STO_RISCV_VARIANT_CC`.
    pub has_variant_calls: bool,
}

/// An entry of the dynamic section, `Elf64_Dyn`.
#[repr(C)]
#[derive(Clone, Copy, Debug, PartialEq, Eq, Hash)]
pub struct DynamicEntry {
    /// Its tag, `d_tag`.
    pub tag: u64,
    /// Its value, `d_un`.
    pub value: u64,
}

impl TagRule {
    /// Whether an output has the tag.
    fn holds(self, facts: &DynamicFacts) -> bool {
        match self {
            TagRule::LandingPlt => facts.has_landing_plt,
            TagRule::SignedPlt => facts.has_signed_plt,
            TagRule::VariantCalls => facts.has_variant_calls,
            TagRule::LazyPlt => facts.has_lazy_plt,
            TagRule::Options => true,
        }
    }
}

impl Target {
    /// The entry with an index, from 0 on, of those that an output's dynamic section has by the
    /// architecture's psABI. None from their number on.
    ///
    /// ```
    /// use linker_utils::output::Target;
    /// use linker_utils::output::DynamicFacts;
    /// use linker_utils::elf::Architecture;
    ///
    /// let facts = DynamicFacts { has_signed_plt: true, ..DynamicFacts::default() };
    /// let target = Target::of(Architecture::AArch64);
    /// // DT_AARCH64_PAC_PLT
    /// assert_eq!(target.dynamic_entry(&facts, 0).unwrap().tag, 0x7000_0003);
    /// assert!(target.dynamic_entry(&facts, 1).is_none());
    /// ```
    #[must_use]
    pub fn dynamic_entry(&self, facts: &DynamicFacts, index: usize) -> Option<DynamicEntry> {
        let mut before = index;
        for listed in self.dynamic_tags {
            if listed.rule.holds(facts) {
                if before == 0 {
                    return Some(DynamicEntry {
                        tag: listed.tag,
                        value: match listed.rule {
                            TagRule::LazyPlt => facts.first_entry.wrapping_sub(32),
                            TagRule::Options => facts.options,
                            _ => 0,
                        },
                    });
                }
                before -= 1;
            }
        }
        None
    }
}
