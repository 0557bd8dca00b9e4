// SPDX-License-Identifier: MIT OR Apache-2.0
//! What each of the compared sides does in a round.

use crate::measure::Side;
use crate::table::Rewrite;

/// A value for a form, which its machine and number name.
#[derive(Clone, Copy)]
pub struct Value {
    pub machine: u16,
    pub form: u32,
    pub value: u64,
    pub negative: bool,
}

/// Which calls a round makes.
#[derive(Clone, Copy)]
pub enum Mix {
    /// Those of one form or rewrite, by its index in the table.
    One(usize),
    /// Those of a machine at random.
    All(u16),
}

/// A relocation to be applied. The bias of its row is already in the value.
#[derive(Clone, Copy)]
pub struct Fixup {
    pub offset: usize,
    pub r_type: u32,
    pub value: i64,
}

/// Deletions of a list, and those to merge into it.
pub type Halves = [Vec<(u64, u32)>; 2];

/// Applies relocations to a section. Whether all succeed.
pub type RelocateAll<'a> = Box<dyn Fn(&mut [u8]) -> bool + Sync + 'a>;

/// Tests of a number, for RISC-V.
#[derive(Clone, Copy)]
pub enum Test {
    HighIsZero,
    HighFitsClui,
    RegisterFitsClui,
    DistanceFitsJal,
}

/// Bytes between instructions: a window has at most eight.
pub const WINDOW: usize = 8;
/// Bytes of a section, in which the rewritten instruction is at `SITE`.
pub const SECTION: usize = 32;
pub const SITE: u64 = 8;

/// The next number made of a sum and what a call returned.
#[inline(always)]
pub fn added(sum: u64, number: u64) -> u64 {
    sum.rotate_left(1) ^ number
}

/// The calls of a round, for each kind of call. Numbers are made of all that they return.
pub trait Library: Sync {
    fn write(&self, mix: Mix, values: &[Value], words: &mut [u8]);
    fn read(&self, mix: Mix, values: &[Value], words: &[u8]) -> u64;
    fn apply(&self, mix: Mix, rewrites: &[Rewrite], sections: &mut [u8]) -> u64;
    fn rows(&self, machine: u16, r_types: &[u32]) -> u64;
    /// Looks up each relocation, tests the value, cuts its bits and writes them. Whether all
    /// succeed.
    fn relocate(&self, machine: u16, relocations: &[Fixup], section: &mut [u8]) -> bool;
    fn uleb128(&self, content: &[u8], count: usize) -> u64;
    /// How many of the values pass.
    fn passing(&self, test: Test, values: &[u64]) -> u64;
    /// The row at a `c.lui`, so many times.
    fn clui_rows(&self, count: usize) -> u64;
    /// The numbers of 4 and of 8 bytes, one after the other, as `u32_from_slice` and
    /// `u64_from_slice` read them.
    fn words_of_slices(&self, content: &[u8]) -> u64;
    fn longs_of_slices(&self, content: &[u8]) -> u64;
    /// By `read_u32`.
    fn words(&self, content: &[u8]) -> u64;
    fn highest_relocation_with_bias(&self, values: &[u64]) -> u64;
    fn deltas(&self, list: &[(u64, u32)]) -> Box<dyn Deltas>;
    /// The deltas of `lists_a_round` such lists.
    fn new_side<'a>(&self, list: &'a [(u64, u32)]) -> Side<'a>;
    /// Merges, each into other deltas.
    fn merge_side<'a>(&self, halves: &'a [Halves]) -> Side<'a>;

    // what not every side has

    /// The whole text of a row.
    fn row(&self, _machine: u16, _r_type: u32) -> Option<String> {
        None
    }
    /// `relocate` as one call of the library's.
    fn relocate_all<'a>(&self, _machine: u16, _: &'a [Fixup]) -> Option<RelocateAll<'a>> {
        None
    }
    /// `relocate`, each relocation by the library's call that looks it up, tests and writes.
    fn relocate_each(&self, _machine: u16, _: &[Fixup], _section: &mut [u8]) -> Option<bool> {
        None
    }
    fn modifiers(&self, _rewrites: &[Rewrite]) -> Option<u64> {
        None
    }
    fn strings(&self, _content: &[u8]) -> Option<u64> {
        None
    }
    /// A section packed with jumps in place of its calls, compared with a copy of as many bytes.
    fn pack_side<'a>(
        &self,
        _: &'a [u8],
        _: &[(u64, u32)],
        _: &'a [(u64, u64)],
    ) -> Option<Side<'a>> {
        None
    }
}

/// Deletions of a section.
pub trait Deltas: Sync {
    fn inputs(&self, queries: &[u64]) -> u64;
    fn outputs(&self, queries: &[u64]) -> u64;
    /// How many bytes all delete, so many times.
    fn totals(&self, count: usize) -> u64;
    /// Of all queries, by a cursor.
    fn walk(&self, queries: &[u64], outputs: &mut [u64]);
    /// The same by one call for each, or false where there is none.
    fn walk_each(&self, _queries: &[u64], _outputs: &mut [u64]) -> bool {
        false
    }
    /// The same, of which only the sum is made.
    fn walk_sum(&self, _queries: &[u64]) -> Option<u64> {
        None
    }
    /// The same deletions, searched by the heads of their blocks.
    fn by_heads(&self) -> Option<Box<dyn Deltas>> {
        None
    }
}

/// Of how many lists of so many deletions a round makes the deltas: for one of ten that takes hardly
/// longer than to read the clock.
pub fn lists_a_round(deletions: usize) -> usize {
    (1_000 / deletions).max(1)
}
