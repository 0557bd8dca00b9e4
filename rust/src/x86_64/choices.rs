// SPDX-License-Identifier: MIT OR Apache-2.0
// Made by tools/generate of crates/linker_utils/src/x86_64/choices.rt.
//! Which rewrite is chosen for a relocation of x86-64.

use super::rewrites::{after, by_row, is_lea_of_descriptor, is_legacy, of_row, rewrites};
use super::{RewriteKind, X86_64Relocation, X86_64Relocation as Names};
use crate::rewrite_rows::or;
use crate::linker_elf::elf::choice_table::{
    ChoiceTable, Chosen, RewriteSet, Table, by_table, choice_by, conditions, table_of,
};
use crate::linker_elf::elf::{Choice, InstructionRewrite, LinkFacts, Operands};

/// The instructions that an entry is for.
#[derive(Debug)]
pub enum Pattern {
    /// Those that its rewrite is for.
    OfRewrite,
    /// Of them those with an operand relative to the instruction pointer, n bytes before the
    /// field and this opcode.
    Legacy(u8, u8),
    /// Of them the `lea` of a TLS descriptor, with n bytes before the field.
    LeaOfDescriptor(u8),
}

impl RewriteSet for RewriteKind {
    type Relocation = Names;

    type Originals = Pattern;

    #[inline(always)]
    fn matches_at(self, originals: &Pattern, section: &[u8], offset: u64) -> bool {
        let is_pattern = match *originals {
            Pattern::OfRewrite => true,
            Pattern::Legacy(n, opcode) => is_legacy(section, offset, n, opcode),
            Pattern::LeaOfDescriptor(n) => is_lea_of_descriptor(section, offset, n),
        };
        is_pattern && self.can_apply(section, offset) && self.is_for(section, offset)
    }

    #[inline(always)]
    fn operands_after(self, offset: u64, operands: &Operands) -> Operands {
        let (at, addend) = rewrites!(self => [after offset operands.addend]);
        Operands {
            place: operands.place.wrapping_add(at).wrapping_sub(offset),
            addend,
            ..*operands
        }
    }
}

/// The addend of a value that counts from the end of its field.
const END_OF_FIELD: i64 = -4;

/// The conditions of entries.
macro_rules! when {
    // the operand becomes the distance to the symbol
    (distance) => {
        conditions!(
            BOUND + FIXED_DISTANCE,
            Some(END_OF_FIELD),
            InReachIfKnown(R_X86_64_PC32)
        )
    };
    // the operand becomes the symbol's address, that of a definition or 0
    (address $fact:ident $reach:ident $name:ident) => {
        conditions!($fact + FIXED_ADDRESS, Some(END_OF_FIELD), $reach($name))
    };
    // an access by the offset from the thread pointer; with `GROUP_FITS` of a sequence, which is
    // rewritten whole or not at all
    (local_exec $($fact:ident)?) => {
        conditions!(
            BOUND + EXECUTABLE $(+ $fact)?,
            Some(END_OF_FIELD),
            InReachIfKnown(R_X86_64_TPOFF32)
        )
    };
    // that offset in the GOT
    (to_initial_exec) => {
        conditions!(
            EXECUTABLE + GROUP_FITS,
            Some(END_OF_FIELD),
            InReachIfKnown(R_X86_64_GOTTPOFF)
        )
    };
    // nothing is relocated any more
    (unrelocated) => { conditions!(EXECUTABLE + GROUP_FITS) };
    // the same of a call for the module's TLS block
    (module) => { conditions!(EXECUTABLE + GROUP_FITS, Some(END_OF_FIELD)) };
    // an offset in the module's TLS block becomes one from the thread pointer
    (from_thread_pointer $name:ident) => {
        conditions!(EXECUTABLE + LOCAL_EXEC_BASE, InReachIfKnown($name))
    };
}

/// The entries of each relocation whose table isn't one of an opcode.
macro_rules! choices {
    ($make:ident $arguments:tt) => {
        $make! {
            $arguments
            R_X86_64_TLSGD: [
                TlsGdToLocalExec => R_X86_64_TPOFF32, local_exec(GROUP_FITS);
                TlsGdToLocalExecLarge => R_X86_64_TPOFF32, local_exec(GROUP_FITS);
                TlsGdToInitialExec => R_X86_64_GOTTPOFF, to_initial_exec;
            ]
            R_X86_64_TLSLD: [
                TlsLdToLocalExec => R_X86_64_NONE, module;
                TlsLdToLocalExecNoPlt => R_X86_64_NONE, module;
                TlsLdToLocalExec64 => R_X86_64_NONE, module;
            ]
            R_X86_64_DTPOFF32: [NoOp => R_X86_64_TPOFF32, from_thread_pointer(R_X86_64_TPOFF32)]
            R_X86_64_DTPOFF64: [NoOp => R_X86_64_TPOFF64, from_thread_pointer(R_X86_64_TPOFF64)]
            R_X86_64_GOTPC32_TLSDESC: [
                TlsDescToLocalExec(3) at LeaOfDescriptor(3)
                    => R_X86_64_TPOFF32, local_exec(GROUP_FITS);
                TlsDescToInitialExec at LeaOfDescriptor(3) => R_X86_64_GOTTPOFF, to_initial_exec;
            ]
            R_X86_64_CODE_4_GOTPC32_TLSDESC: [
                TlsDescToLocalExec(4) at LeaOfDescriptor(4)
                    => R_X86_64_TPOFF32, local_exec(GROUP_FITS);
                TlsDescToInitialExec at LeaOfDescriptor(4) => R_X86_64_GOTTPOFF, to_initial_exec;
            ]
            R_X86_64_TLSDESC_CALL: [SkipTlsDescCall => R_X86_64_NONE, unrelocated]
        }
    };
}

const BRANCH: Table<RewriteKind> = table_of!(when [
    CallIndirectToRelative => R_X86_64_PC32, distance;
    JmpIndirectToRelative => R_X86_64_PC32, distance;
]);

const LOAD: Table<RewriteKind> =
    table_of!(when [MovIndirectToLea at Legacy(3, 0x8b) => R_X86_64_PC32, distance]);

/// The entries of an operation on an operand in the GOT.
macro_rules! operation {
    ($kind:ident($n:literal) => $name:ident) => {
        table_of!(when [
            $kind($n) => $name, address(BOUND InReachIfKnown $name);
            $kind($n) => $name, address(WEAK_ZERO InReachIfKnown $name);
        ])
    };
}

/// Those of a `mov`, by the count of the bytes before the field, its rewrite and the relocation of
/// an immediate. It takes only an address that is known, since it also takes a distance.
macro_rules! moves {
    ($n:literal, $mov:ident $(($m:literal))? => $name:ident) => {
        table_of!(when [
            $mov $(($m))? at Legacy($n, 0x8b) => $name, address(BOUND InReach $name);
            $mov $(($m))? at Legacy($n, 0x8b) => $name, address(WEAK_ZERO InReach $name);
            MovIndirectToLea at Legacy($n, 0x8b) => R_X86_64_PC32, distance;
        ])
    };
}

/// What the table of an opcode is used for: that of an operation, by the same as for a `mov`, or
/// with `access` that of an initial-exec access.
macro_rules! by_opcode {
    ($n:literal; $($use:tt)*) => {
        by_opcode!($n, RexMovIndirectToAbsolute($n) => R_X86_64_32S; $($use)*)
    };
    ($n:literal, $mov:ident $(($m:literal))? => $name:ident; $($use:tt)*) => {
        by_opcode!(
            @ $($use)*;
            0x8b moves!($n, $mov $(($m))? => $name);
            0x03 operation!(RexAddIndirectToAbsolute($n) => $name);
            0x2b operation!(RexSubIndirectToAbsolute($n) => $name);
            0x3b operation!(RexCmpIndirectToAbsolute($n) => $name);
            0x13 operation!(RexAdcIndirectToAbsolute($n) => $name);
            0x23 operation!(RexAndIndirectToAbsolute($n) => $name);
            0x0b operation!(RexOrIndirectToAbsolute($n) => $name);
            0x1b operation!(RexSbbIndirectToAbsolute($n) => $name);
            0x33 operation!(RexXorIndirectToAbsolute($n) => $name);
            0x85 operation!(RexTestIndirectToAbsolute($n) => $name);
        )
    };
    (access $n:literal; $($use:tt)*) => {
        by_opcode!(
            @ $($use)*;
            0x8b table_of!(when [RexMovIndirectToAbsolute($n) => R_X86_64_TPOFF32, local_exec]);
            0x03 table_of!(when [RexAddIndirectToAbsolute($n) => R_X86_64_TPOFF32, local_exec]);
        )
    };
    (@ $opcode:expr, $table:ident => $use:expr; $($of_table:literal $entries:expr;)*) => {
        match $opcode {
            $($of_table => { let $table: Table<RewriteKind> = $entries; $use })*
            _ => { let $table: Table<RewriteKind> = &[]; $use }
        }
    };
}

/// What the table of a name and an opcode is used for.
macro_rules! by_name {
    ($name:expr, $opcode:expr, $table:ident => $use:expr) => {
        choices!(by_table(
            when, $name, $table => $use;
            Names::R_X86_64_GOTPCREL if $opcode == 0x8b => { let $table = LOAD; $use }
            Names::R_X86_64_GOTPCRELX if $opcode == 0xff => { let $table = BRANCH; $use }
            Names::R_X86_64_GOTPCRELX => {
                by_opcode!(2, MovIndirectToAbsolute => R_X86_64_32; $opcode, $table => $use)
            }
            Names::R_X86_64_REX_GOTPCRELX => by_opcode!(3; $opcode, $table => $use),
            Names::R_X86_64_CODE_4_GOTPCRELX => by_opcode!(4; $opcode, $table => $use),
            Names::R_X86_64_CODE_6_GOTPCRELX => by_opcode!(6; $opcode, $table => $use),
            Names::R_X86_64_GOTTPOFF => by_opcode!(access 3; $opcode, $table => $use),
            Names::R_X86_64_CODE_4_GOTTPOFF => by_opcode!(access 4; $opcode, $table => $use),
            Names::R_X86_64_CODE_6_GOTTPOFF => by_opcode!(access 6; $opcode, $table => $use),
        ))
    };
}

/// The entries of a relocation, by an opcode.
#[inline(always)]
fn entries_by(name: Names, opcode: u8) -> Table<RewriteKind> {
    by_name!(name, opcode, table => table)
}

/// The choice by a table of a name and an opcode.
#[cfg_attr(not(debug_assertions), inline(always))]
fn choice_by_opcode(
    table: Table<RewriteKind>,
    name: Names,
    opcode: u8,
    section: &[u8],
    offset: u64,
    facts: &LinkFacts,
) -> Chosen<RewriteKind> {
    choice_by(table, name, section, offset, facts)
}

/// The byte n before an offset, if there is one.
#[inline(always)]
fn byte_before(section: &[u8], offset: u64, n: u64) -> u8 {
    section
        .get(offset.saturating_sub(n) as usize)
        .copied()
        .unwrap_or(0)
}

/// The opcode of a relocation's instruction, two bytes before the offset. At `R_X86_64_GOTPCREL` it
/// is 0 where an EVEX prefix may begin six bytes before: 0x8b is then no `mov`.
#[inline(always)]
fn opcode_at(name: Names, section: &[u8], offset: u64) -> u8 {
    let opcode = byte_before(section, offset, 2);
    match name {
        Names::R_X86_64_GOTPCREL if offset >= 6 && byte_before(section, offset, 6) == 0x62 => 0,
        _ => opcode,
    }
}

impl ChoiceTable for RewriteKind {
    #[inline(always)]
    fn entries(name: Names, section: &[u8], offset: u64) -> Table<Self> {
        entries_by(name, opcode_at(name, section, offset))
    }

    #[inline(never)]
    fn choose_listed(name: Names, section: &[u8], offset: u64, facts: &LinkFacts) -> Chosen<Self> {
        match name {
            // what compilers write most, by its own test
            Names::R_X86_64_REX_GOTPCRELX if is_legacy(section, offset, 3, 0x8b) => {
                let table: Table<Self> = moves!(3, RexMovIndirectToAbsolute(3) => R_X86_64_32S);
                choice_by_opcode(table, name, 0x8b, section, offset, facts)
            }
            _ => {
                let opcode = opcode_at(name, section, offset);
                by_name!(
                    name, opcode,
                    table => choice_by_opcode(table, name, opcode, section, offset, facts)
                )
            }
        }
    }
}

/// The rewrite that a linker makes of the instruction or the sequence with a relocation, and the
/// relocation whose value it then writes (x86-64 psABI, "Optimize GOTPCRELX Relocations" and "ELF
/// Handling For Thread-Local Storage"). The offset is that of the relocation in the section. Any
/// bytes and any offset may be passed, and the rewrite can be applied there.
///
/// ```
/// use linker_utils::elf::{InstructionRewrite, LinkFacts, Operands};
/// use linker_utils::x86_64::{RewriteKind, X86_64Relocation, choose, row};
///
/// // mov x@GOTPCREL(%rip), %rdi, in an executable that is always loaded at one address
/// let mut section = [0x48, 0x8b, 0x3d, 0, 0, 0, 0];
/// let operands =
///     Operands { symbol: 0x404010, addend: -4, place: 0x401003, ..Operands::default() };
/// let facts = LinkFacts {
///     is_local: true,
///     has_fixed_address: true,
///     is_pcrel_link_time_constant: true,
///     is_executable: true,
///     has_addresses: true,
///     operands,
///     ..LinkFacts::default()
/// };
/// let choice = choose(X86_64Relocation::R_X86_64_REX_GOTPCRELX, &section, 3, &facts);
/// assert_eq!(choice.kind, RewriteKind::RexMovIndirectToAbsolute(3));
/// assert_eq!(choice.relocation, X86_64Relocation::R_X86_64_32S);
///
/// // it becomes mov $0x404010, %rdi
/// let (mut offset, mut addend) = (3, -4);
/// choice.kind.apply(&mut section, &mut offset, &mut addend);
/// let row = row(choice.relocation).unwrap();
/// let value = row.value(&Operands { addend, ..operands }).unwrap();
/// row.write(value, &mut section[offset as usize..]).unwrap();
/// assert_eq!(section, [0x48, 0xc7, 0xc7, 0x10, 0x40, 0x40, 0]);
/// ```
#[must_use]
#[inline]
#[doc = include_str!("../../doc/x86_64/choose.linker.md")]
#[doc = include_str!("../../doc/x86_64/choose.md")]
pub fn choose(
    name: X86_64Relocation,
    section: &[u8],
    offset: u64,
    facts: &LinkFacts,
) -> Choice<RewriteKind, X86_64Relocation> {
    RewriteKind::choose(name, section, offset, facts)
}

/// Whether a relocation can be rewritten, if all others of its sequence can: whether `choose` with
/// `group_fits` changes it. `architecture::fits` has an example.
#[must_use]
#[doc = include_str!("../../doc/choices/fits.md")]
pub fn fits(name: X86_64Relocation, section: &[u8], offset: u64, facts: &LinkFacts) -> bool {
    RewriteKind::fits(name, section, offset, facts)
}
