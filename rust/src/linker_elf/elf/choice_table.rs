// SPDX-License-Identifier: MIT OR Apache-2.0
// Made by tools/generate of crates/linker_elf/src/elf/choice_table.rt.
//! Tables of the rewrites that a linker chooses.

use crate::linker_elf::elf::{Choice, InstructionRewrite, LinkFacts, Operands, Row};

/// The definition in this output is what is used at run time, and is no indirect function:
/// `is_local` and not `is_ifunc`. This and the constants below are the facts of [`LinkFacts`](crate::elf::LinkFacts) that an
/// entry may require, each a bit of a mask.
pub const BOUND: u32 = 1 << 0;

/// `is_undefined_weak`.
pub const WEAK_ZERO: u32 = 1 << 1;

/// `has_fixed_address`.
pub const FIXED_ADDRESS: u32 = 1 << 2;

/// `is_pcrel_link_time_constant`.
pub const FIXED_DISTANCE: u32 = 1 << 3;

/// `is_executable`.
pub const EXECUTABLE: u32 = 1 << 4;

/// `has_local_exec_base`.
pub const LOCAL_EXEC_BASE: u32 = 1 << 5;

/// `may_compress`.
pub const COMPRESSIBLE: u32 = 1 << 6;

/// `is_relaxable`.
pub const RELAXABLE: u32 = 1 << 7;

/// `is_label_relaxable`.
pub const LABEL_RELAXABLE: u32 = 1 << 8;

/// `has_got_high_part`.
pub const GOT_HIGH_PART: u32 = 1 << 9;

/// `toc_base_is_exclusive`.
pub const EXCLUSIVE_TOC_BASE: u32 = 1 << 10;

/// `may_change_toc`.
pub const CHANGED_TOC: u32 = 1 << 11;

/// The symbol has no PLT entry: `plt_entry` is `symbol`.
pub const WITHOUT_PLT: u32 = 1 << 12;

/// `group_fits`.
pub const GROUP_FITS: u32 = 1 << 13;

/// `is_class32`.
pub const CLASS32: u32 = 1 << 14;

/// The numbers of 12 bits in two's complement, for `ValueCondition::Within`.
pub const SIGNED_12: (i64, i64) = (-0x800, 0x800);

/// What an entry requires of the value of a relocation, n bytes before
/// the place, or of S + A.
pub enum ValueCondition<R> {
    /// S + A is known, and is a number of 12 bits in two's complement.
    Low12,
    /// The value is known and can be written.
    InReach(R, u64),
    /// The same, unless no address is known.
    InReachIfKnown(R, u64),
    /// The value is known, and is from the first bound up, below the second.
    Within(R, (i64, i64), u64),
    /// The same, unless no address is known.
    WithinIfKnown(R, (i64, i64), u64),
}

/// What an entry requires of values: nothing, or one or two conditions.
pub enum ValueConditions<R> {
    /// Nothing.
    None,
    /// One condition.
    One(ValueCondition<R>),
    /// Two, which both have to hold.
    Both(ValueCondition<R>, ValueCondition<R>),
}

/// What an entry requires of what the linker knows.
pub struct Conditions<R> {
    /// The facts that have to hold.
    pub facts: u32,
    /// The addend that the relocation has to have, if any.
    pub addend: Option<i64>,
    /// What has to hold of values.
    pub values: ValueConditions<R>,
}

/// An entry of a table of choices: a rewrite, the relocation after it, and when it is chosen.
pub struct ChoiceEntry<O, K, R> {
    /// The instructions that it is for.
    pub originals: O,
    /// The rewrite.
    pub kind: K,
    /// The relocation after the rewrite.
    pub relocation: R,
    /// What has to hold.
    pub conditions: Conditions<R>,
}

/// A relocation's name, which has a row.
#[doc(hidden)]
pub trait RelocationName: Copy {
    /// Its row, if it has one.
    #[must_use]
    fn find_row(self) -> Option<Row>;
}

/// The rewrites of an architecture, as entries of its tables have them. The default is `NoOp`.
#[doc(hidden)]
pub trait RewriteSet: InstructionRewrite + Default + 'static {
    /// The names of its relocations.
    type Relocation: RelocationName + PartialEq + 'static;

    /// The instructions that an entry may be for.
    type Originals: 'static;

    /// `NoOp`.
    #[must_use]
    #[inline(always)]
    fn none() -> Self {
        Self::default()
    }

    /// Whether the instructions that an entry with this rewrite is for are at
    /// an offset of a section.
    #[must_use]
    fn matches_at(self, originals: &Self::Originals, section: &[u8], offset: u64) -> bool;

    /// The operands of the relocation after the rewrite at an offset, from those before it.
    #[must_use]
    fn operands_after(self, offset: u64, operands: &Operands) -> Operands;
}

/// The entries of a relocation of an architecture.
pub type Table<K> = &'static [ChoiceEntry<
    <K as RewriteSet>::Originals,
    K,
    <K as RewriteSet>::Relocation,
>];

/// The choice of a rewrite of an architecture.
pub type Chosen<K> = Choice<K, <K as RewriteSet>::Relocation>;

/// The rewrites of an architecture, which are chosen by tables.
#[doc(hidden)]
pub trait ChoiceTable: RewriteSet {
    /// The entries of a relocation at an offset of a section.
    #[must_use]
    fn entries(name: Self::Relocation, section: &[u8], offset: u64) -> Table<Self>;

    /// Whether a relocation has entries at an offset of some section.
    #[must_use]
    #[inline(always)]
    fn may_be_listed(name: Self::Relocation) -> bool {
        has_entries(Self::entries(name, &[0x8b], 2))
    }

    /// The choice for a relocation that is listed: `choice_by` of its table, which is a constant in
    /// an arm for each name.
    #[must_use]
    fn choose_listed(
        name: Self::Relocation,
        section: &[u8],
        offset: u64,
        facts: &LinkFacts,
    ) -> Chosen<Self>;

    /// The choice for a relocation. It is inlined, so that one that isn't listed costs no call.
    #[must_use]
    #[inline(always)]
    fn choose(
        name: Self::Relocation,
        section: &[u8],
        offset: u64,
        facts: &LinkFacts,
    ) -> Chosen<Self> {
        if Self::may_be_listed(name) {
            Self::choose_listed(name, section, offset, facts)
        } else {
            unchanged(name)
        }
    }

    /// Whether `choose` with `group_fits` changes a relocation.
    #[must_use]
    fn fits(name: Self::Relocation, section: &[u8], offset: u64, facts: &LinkFacts) -> bool {
        let facts = LinkFacts {
            group_fits: true,
            ..*facts
        };
        !Self::choose(name, section, offset, &facts).is_unchanged(name)
    }
}

/// Whether a table has entries.
#[inline(always)]
fn has_entries<O, K, R>(entries: &'static [ChoiceEntry<O, K, R>]) -> bool {
    !matches!(entries, [])
}

/// Whether a fact holds, if a mask has its bit.
#[inline(always)]
fn is_held(conditions: u32, fact: u32, holds: bool) -> bool {
    conditions & fact == 0 || holds
}

impl LinkFacts {
    /// Whether of the facts of a mask those hold that seldom do.
    #[inline(always)]
    fn seldom_hold(&self, conditions: u32) -> bool {
        is_held(conditions, WEAK_ZERO, self.is_undefined_weak)
            && is_held(conditions, FIXED_ADDRESS, self.has_fixed_address)
            && is_held(conditions, CLASS32, self.is_class32)
    }

    /// Whether the facts of a mask hold.
    #[inline(always)]
    fn hold(&self, conditions: u32) -> bool {
        let has_no_plt = self.operands.plt_entry == self.operands.symbol;
        is_held(conditions, BOUND, self.is_local && !self.is_ifunc)
            & is_held(conditions, WEAK_ZERO, self.is_undefined_weak)
            & is_held(conditions, FIXED_ADDRESS, self.has_fixed_address)
            & is_held(conditions, CLASS32, self.is_class32)
            & is_held(conditions, FIXED_DISTANCE, self.is_pcrel_link_time_constant)
            & is_held(conditions, EXECUTABLE, self.is_executable)
            & is_held(conditions, LOCAL_EXEC_BASE, self.has_local_exec_base)
            & is_held(conditions, COMPRESSIBLE, self.may_compress)
            & is_held(conditions, RELAXABLE, self.is_relaxable)
            & is_held(conditions, LABEL_RELAXABLE, self.is_label_relaxable)
            & is_held(conditions, GOT_HIGH_PART, self.has_got_high_part)
            & is_held(conditions, EXCLUSIVE_TOC_BASE, self.toc_base_is_exclusive)
            & is_held(conditions, CHANGED_TOC, self.may_change_toc)
            & is_held(conditions, WITHOUT_PLT, has_no_plt)
            & is_held(conditions, GROUP_FITS, self.group_fits)
    }
}

impl<R: RelocationName> ValueCondition<R> {
    /// Whether it holds.
    #[inline(always)]
    fn holds(&self, facts: &LinkFacts, after: &Operands) -> bool {
        match *self {
            ValueCondition::Low12 => facts.is_low_12(),
            ValueCondition::InReach(name, back) => {
                facts.is_in_reach(name.find_row(), after, back)
            }
            ValueCondition::InReachIfKnown(name, back) => {
                facts.is_in_reach_if_known(name.find_row(), after, back)
            }
            ValueCondition::Within(name, bounds, back) => {
                facts.is_within(name.find_row(), after, bounds, back)
            }
            ValueCondition::WithinIfKnown(name, bounds, back) => {
                facts.is_within_if_known(name.find_row(), after, bounds, back)
            }
        }
    }
}

/// Whether all conditions on values hold. By reference, so that LLVM sees those of a constant
/// entry, and doesn't compile each kind of condition for each entry.
#[inline(always)]
fn all_hold<R: RelocationName>(
    values: &ValueConditions<R>,
    facts: &LinkFacts,
    after: &Operands,
) -> bool {
    match values {
        ValueConditions::None => true,
        ValueConditions::One(one) => one.holds(facts, after),
        ValueConditions::Both(one, other) => one.holds(facts, after) && other.holds(facts, after),
    }
}

/// Whether the addend is the required one, if any.
#[inline(always)]
fn has_addend(addend: Option<i64>, facts: &LinkFacts) -> bool {
    match addend {
        Some(addend) => facts.operands.addend == addend,
        None => true,
    }
}

/// Whether an entry's instructions are at an offset of a section, and its conditions hold. The
/// instructions are tested before the facts, except for those that seldom hold.
#[inline(always)]
fn applies<K: RewriteSet>(
    entry: &'static ChoiceEntry<K::Originals, K, K::Relocation>,
    section: &[u8],
    offset: u64,
    facts: &LinkFacts,
) -> bool {
    let conditions = &entry.conditions;
    if !facts.seldom_hold(conditions.facts) {
        return false;
    }
    if !entry.kind.matches_at(&entry.originals, section, offset) {
        return false;
    }
    if !facts.hold(conditions.facts) {
        return false;
    }
    if !has_addend(conditions.addend, facts) {
        return false;
    }
    let after = entry.kind.operands_after(offset, &facts.operands);
    all_hold(&conditions.values, facts, &after)
}

/// The choice of the entry with an index, if there is one and it applies.
#[cfg_attr(not(debug_assertions), inline(always))]
fn choice_at<K: RewriteSet>(
    entries: Table<K>,
    index: usize,
    section: &[u8],
    offset: u64,
    facts: &LinkFacts,
) -> Option<Chosen<K>> {
    if index < entries.len() {
        let entry = &entries[index];
        if applies(entry, section, offset, facts) {
            return Some(Choice {
                kind: entry.kind,
                relocation: entry.relocation,
            });
        }
    }
    None
}

/// The choice that leaves the instruction and the relocation.
#[inline(always)]
fn unchanged<K: RewriteSet>(relocation: K::Relocation) -> Chosen<K> {
    Choice {
        kind: K::none(),
        relocation,
    }
}

/// The choice of the first entry that applies, and else another. Of a constant table the compiler
/// leaves the tests that its entries require: so it is inlined, and has no loop.
#[cfg_attr(not(debug_assertions), inline(always))]
fn first_entry<K: RewriteSet>(
    entries: Table<K>,
    section: &[u8],
    offset: u64,
    facts: &LinkFacts,
    otherwise: Chosen<K>,
) -> Chosen<K> {
    if let Some(chosen) = choice_at(entries, 0, section, offset, facts) {
        return chosen;
    }
    if let Some(chosen) = choice_at(entries, 1, section, offset, facts) {
        return chosen;
    }
    if let Some(chosen) = choice_at(entries, 2, section, offset, facts) {
        return chosen;
    }
    if let Some(chosen) = choice_at(entries, 3, section, offset, facts) {
        return chosen;
    }
    if let Some(chosen) = choice_at(entries, 4, section, offset, facts) {
        return chosen;
    }
    otherwise
}

/// The choice by the entries of a relocation.
///
/// # Requires
///
/// - table: the entries are those of the table of the relocation at the offset
/// - few: `entries.len() <= 5`
#[must_use]
#[cfg_attr(debug_assertions, track_caller)]
#[inline(always)]
pub fn choice_by<K: RewriteSet>(
    entries: Table<K>,
    name: K::Relocation,
    section: &[u8],
    offset: u64,
    facts: &LinkFacts,
) -> Chosen<K> {
    debug_assert!(entries.len() <= 5);
    first_entry(entries, section, offset, facts, unchanged(name))
}

// The macros below make an architecture's tables of its `choices!`, which lists for each
// relocation, or for several with `|` between, its entries in brackets. The module that calls them
// has the enums `RewriteKind`, `Pattern` and, by the name `Names`, that of the relocations.

/// Conditions on values, each a variant of `ValueCondition` with the name of a relocation. Without
/// a count of bytes before the place that is 0.
macro_rules! value_conditions {
    () => { $crate::linker_elf::elf::choice_table::ValueConditions::None };
    ($one:ident $($of_one:tt)?) => {
        $crate::linker_elf::elf::choice_table::ValueConditions::One(
            $crate::linker_elf::elf::choice_table::value_conditions!(@ $one $($of_one)?)
        )
    };
    ($one:ident $($of_one:tt)?, $other:ident $($of_other:tt)?) => {
        $crate::linker_elf::elf::choice_table::ValueConditions::Both(
            $crate::linker_elf::elf::choice_table::value_conditions!(@ $one $($of_one)?),
            $crate::linker_elf::elf::choice_table::value_conditions!(@ $other $($of_other)?)
        )
    };
    (@ $value:ident $(($name:ident $(, $bounds:ident)? $(, $back:literal)?))?) => {
        $crate::linker_elf::elf::choice_table::ValueCondition::$value
            $((Names::$name $(, $bounds)?, 0 $(+ $back)?))?
    };
}

/// Conditions: the constants of facts with `+` between, the addend as `Some(A)` if one is required,
/// and those on values.
macro_rules! conditions {
    ($fact:ident $(+ $other:ident)*, Some($addend:expr) $(, $($values:tt)+)?) => {
        $crate::linker_elf::elf::choice_table::Conditions {
            facts: $crate::linker_elf::elf::choice_table::$fact $(+ $crate::linker_elf::elf::choice_table::$other)*,
            addend: Some($addend),
            values: $crate::linker_elf::elf::choice_table::value_conditions!($($($values)+)?),
        }
    };
    ($fact:ident $(+ $other:ident)* $(, $($values:tt)+)?) => {
        $crate::linker_elf::elf::choice_table::Conditions {
            facts: $crate::linker_elf::elf::choice_table::$fact $(+ $crate::linker_elf::elf::choice_table::$other)*,
            addend: None,
            values: $crate::linker_elf::elf::choice_table::value_conditions!($($($values)+)?),
        }
    };
}

/// The instructions that an entry is for: those of its rewrite, if no others are named.
macro_rules! originals {
    () => { Pattern::OfRewrite };
    ($originals:ident $(($($argument:expr),*))?) => {
        Pattern::$originals $(($($argument),*))?
    };
}

/// A table: of each entry the rewrite, the instructions after `at`, the relocation after it, and
/// the name that the macro `$when` has for the conditions.
macro_rules! table_of {
    ($when:ident [$(
        $kind:ident $(($n:expr))? $(at $originals:ident $(($($argument:expr),*))?)?
            => $name:ident, $conditions:ident $(($($of:tt)*))?
    );* $(;)?]) => {
        &[
            $($crate::linker_elf::elf::choice_table::ChoiceEntry {
                originals: $crate::linker_elf::elf::choice_table::originals!(
                    $($originals $(($($argument),*))?)?
                ),
                kind: RewriteKind::$kind $(($n))?,
                relocation: Names::$name,
                conditions: $when!($conditions $($($of)*)?),
            },)*
        ]
    };
}

/// What the table of a name is used for, after other arms, if any: in an arm for each name, and
/// there of a constant table. The macro `$when` has the conditions.
macro_rules! by_table {
    (
        ($when:ident, $value:expr, $table:ident => $use:expr $(; $($before:tt)*)?)
        $($($name:ident)|+: $entries:tt)*
    ) => {
        match $value {
            $($($before)*)?
            $($(Names::$name)|+ => {
                let $table: $crate::linker_elf::elf::choice_table::Table<RewriteKind> =
                    $crate::linker_elf::elf::choice_table::table_of!($when $entries);
                $use
            })*
            _ => {
                let $table: $crate::linker_elf::elf::choice_table::Table<RewriteKind> = &[];
                $use
            }
        }
    };
}

pub(crate) use by_table;
pub(crate) use conditions;
pub(crate) use originals;
pub(crate) use table_of;
pub(crate) use value_conditions;
