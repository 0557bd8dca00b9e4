// SPDX-License-Identifier: MIT OR Apache-2.0
// Made by tools/generate of crates/linker_elf/src/riscv64/relocations.rt.
//! What the relocations of RISC-V mean.

use super::forms::form_of;
use crate::linker_elf::elf::choice_table::RelocationName;
use crate::linker_elf::elf::engine::form;
use crate::linker_elf::elf::rows::{TableRow, listed, raw_info_in, row_in, text_at};
use crate::linker_elf::elf::{Row, RowInfo, Uleb128Role};
use core::fmt;

/// The relocations of RISC-V, by their names in the RISC-V ELF psABI, "Relocations". `from_elf`
/// takes the `r_type` that an ELF file has.
#[cfg_attr(not(exhaustive), non_exhaustive)]
#[derive(Clone, Copy, PartialEq, Eq, Hash, PartialOrd, Ord)]
pub enum RiscVRelocation {
    R_RISCV_NONE,
    R_RISCV_32,
    R_RISCV_64,
    R_RISCV_BRANCH,
    R_RISCV_JAL,
    R_RISCV_CALL,
    R_RISCV_CALL_PLT,
    R_RISCV_GOT_HI20,
    R_RISCV_TLS_GOT_HI20,
    R_RISCV_TLS_GD_HI20,
    R_RISCV_PCREL_HI20,
    R_RISCV_PCREL_LO12_I,
    R_RISCV_PCREL_LO12_S,
    R_RISCV_HI20,
    R_RISCV_LO12_I,
    R_RISCV_LO12_S,
    R_RISCV_TPREL_HI20,
    R_RISCV_TPREL_LO12_I,
    R_RISCV_TPREL_LO12_S,
    R_RISCV_TPREL_ADD,
    R_RISCV_ADD8,
    R_RISCV_ADD16,
    R_RISCV_ADD32,
    R_RISCV_ADD64,
    R_RISCV_SUB8,
    R_RISCV_SUB16,
    R_RISCV_SUB32,
    R_RISCV_SUB64,
    R_RISCV_GOT32_PCREL,
    R_RISCV_ALIGN,
    R_RISCV_RVC_BRANCH,
    R_RISCV_RVC_JUMP,
    /// What `R_RISCV_HI20` means once its `lui` has become a `c.lui`, by older versions of the
    /// psABI; later ones reserve the `r_type`. Its range is wider than what `c.lui` holds:
    /// `RelaxationKind::hi20_fits_clui` is the test.
    R_RISCV_RVC_LUI,
    R_RISCV_RELAX,
    R_RISCV_SUB6,
    R_RISCV_SET6,
    R_RISCV_SET8,
    R_RISCV_SET16,
    R_RISCV_SET32,
    R_RISCV_32_PCREL,
    R_RISCV_PLT32,
    /// The first of a pair at a ULEB128 number. Its row is `Relative` of 0 bytes, though the value
    /// isn't relative to the place, and `write` rejects it: `uleb128_role` tells what it does.
    R_RISCV_SET_ULEB128,
    /// The second of that pair.
    R_RISCV_SUB_ULEB128,
    R_RISCV_TLSDESC_HI20,
    R_RISCV_TLSDESC_LOAD_LO12,
    R_RISCV_TLSDESC_ADD_LO12,
    R_RISCV_TLSDESC_CALL,
    /// An `r_type` without a name here.
    Other(u32),
}

/// Each relocation: its `r_type`, its name and its row, in the order of the enum of names.
macro_rules! relocations {
    ($($made:tt)+) => { listed! { ($($made)+) 0 from 0 {
        0 R_RISCV_NONE (None, 0 bytes, any)
        1 R_RISCV_32 (Absolute, 4 bytes, signed_or_unsigned 32)
        2 R_RISCV_64 (Absolute, 8 bytes, any) [3 4 5 6 7 8 9 10 11 12 13 14 15]
        16 R_RISCV_BRANCH (Relative, 0..32 BType, within -4096..4095, alignment: 2)
        17 R_RISCV_JAL (Relative, 0..32 JType, within -1048576..1048575, alignment: 2)
        18 R_RISCV_CALL (PltRelative, 0..64 UiType, pair)
        19 R_RISCV_CALL_PLT (PltRelative, 0..64 UiType, pair)
        20 R_RISCV_GOT_HI20 (GotRelative, 0..32 UType, pair)
        21 R_RISCV_TLS_GOT_HI20 (GotTpOff, 0..32 UType, pair)
        22 R_RISCV_TLS_GD_HI20 (TlsGd, 0..32 UType, pair)
        23 R_RISCV_PCREL_HI20 (Relative, 0..32 UType, pair)
        24 R_RISCV_PCREL_LO12_I (RelativeRiscVLow12, 0..32 IType, pair)
        25 R_RISCV_PCREL_LO12_S (RelativeRiscVLow12, 0..32 SType, pair)
        26 R_RISCV_HI20 (Absolute, 0..32 UType, pair)
        27 R_RISCV_LO12_I (Absolute, 0..32 IType, pair)
        28 R_RISCV_LO12_S (Absolute, 0..32 SType, pair)
        29 R_RISCV_TPREL_HI20 (TpOff, 0..32 UType, pair)
        30 R_RISCV_TPREL_LO12_I (TpOff, 0..32 IType, pair)
        31 R_RISCV_TPREL_LO12_S (TpOff, 0..32 SType, pair)
        32 R_RISCV_TPREL_ADD (None, 0 bytes, any)
        33 R_RISCV_ADD8 (AbsoluteAddition, 1 bytes, any)
        34 R_RISCV_ADD16 (AbsoluteAddition, 2 bytes, any)
        35 R_RISCV_ADD32 (AbsoluteAddition, 4 bytes, any)
        36 R_RISCV_ADD64 (AbsoluteAddition, 8 bytes, any)
        37 R_RISCV_SUB8 (AbsoluteSubtraction, 1 bytes, any)
        38 R_RISCV_SUB16 (AbsoluteSubtraction, 2 bytes, any)
        39 R_RISCV_SUB32 (AbsoluteSubtraction, 4 bytes, any)
        40 R_RISCV_SUB64 (AbsoluteSubtraction, 8 bytes, any)
        41 R_RISCV_GOT32_PCREL (GotRelative, 4 bytes, signed_or_unsigned 32, reach: signed 32) [42]
        43 R_RISCV_ALIGN (Alignment, 0 bytes, any)
        44 R_RISCV_RVC_BRANCH (Relative, 0..16 CbType, within -256..255, alignment: 2)
        45 R_RISCV_RVC_JUMP (Relative, 0..16 CjType, within -2048..2047, alignment: 2)
        46 R_RISCV_RVC_LUI (Absolute, 0..32 CluiType, signed_or_unsigned 32,
            reach: within -0x20800..0x1f800, own: true) [47 48 49 50]
        51 R_RISCV_RELAX (None, 0 bytes, any)
        52 R_RISCV_SUB6 (AbsoluteSubtractionWord6, 1 bytes, any)
        53 R_RISCV_SET6 (AbsoluteSetWord6, 1 bytes, any)
        54 R_RISCV_SET8 (AbsoluteSet, 1 bytes, any)
        55 R_RISCV_SET16 (AbsoluteSet, 2 bytes, any)
        56 R_RISCV_SET32 (AbsoluteSet, 4 bytes, any)
        57 R_RISCV_32_PCREL (Relative, 4 bytes, signed_or_unsigned 32) [58]
        59 R_RISCV_PLT32 (PltRelative, 4 bytes, signed_or_unsigned 32, reach: signed 32)
        60 R_RISCV_SET_ULEB128 (Relative, 0 bytes, any)
        61 R_RISCV_SUB_ULEB128 (PairSubtractionULEB128RiscV, 8 bytes, any)
        62 R_RISCV_TLSDESC_HI20 (TlsDesc, 0..32 UType, pair, own: true)
        63 R_RISCV_TLSDESC_LOAD_LO12 (TlsDesc, 0..32 IType, pair, own: true)
        64 R_RISCV_TLSDESC_ADD_LO12 (TlsDesc, 0..32 IType, pair, own: true)
        65 R_RISCV_TLSDESC_CALL (TlsDescCall, 0 bytes, any, own: true)
    } } };
}

impl fmt::Debug for RiscVRelocation {
    fn fmt(&self, f: &mut fmt::Formatter<'_>) -> fmt::Result {
        match self {
            RiscVRelocation::Other(r_type) => f.debug_tuple("Other").field(r_type).finish(),
            _ => f.write_str(self.name()),
        }
    }
}

impl RiscVRelocation {
    /// The relocation with an `r_type`; `Other(r_type)` for one without a name.
    #[must_use]
    #[inline(always)]
    pub const fn from_elf(r_type: u32) -> RiscVRelocation {
        relocations!(name_of RiscVRelocation, r_type)
    }

    /// The `r_type` in ELF files.
    #[must_use]
    #[inline]
    pub const fn r_type(self) -> u32 {
        match self {
            RiscVRelocation::Other(r_type) => r_type,
            _ => R_TYPES[index(self)],
        }
    }

    /// The name, as "R_RISCV_32"; "unknown relocation" for `Other`.
    #[must_use]
    pub const fn name(self) -> &'static str {
        match self {
            RiscVRelocation::Other(_) => "unknown relocation",
            _ => text_at(TEXTS, index(self)),
        }
    }

    /// What a relocation of a ULEB128 number does; `None` for all others.
    #[must_use]
    pub fn uleb128_role(self) -> Option<Uleb128Role> {
        match self {
            RiscVRelocation::R_RISCV_SET_ULEB128 => Some(Uleb128Role::Sets),
            RiscVRelocation::R_RISCV_SUB_ULEB128 => Some(Uleb128Role::Subtracts),
            _ => None,
        }
    }
}

const NAMES: &[&[RiscVRelocation]] = &relocations!(names RiscVRelocation);

static R_TYPES: &[u32] = &relocations!(r_types);

static TEXTS: &[&str] = &relocations!(texts);

static ROWS: &[Option<TableRow>] = &relocations!(table [RiscV RiscVInstruction EM_RISCV]);

/// The index of a name in the table.
#[inline(always)]
const fn index(name: RiscVRelocation) -> usize {
    relocations!(index_of RiscVRelocation, name)
}

/// What a relocation means. It takes a name; [`RiscVRelocation::from_elf`](crate::riscv64::RiscVRelocation::from_elf) gives the name of an
/// `r_type`. Returns `None` for `Other`.
///
/// The value of the relocations of TLS descriptors ("TLS Descriptors") is the distance from the
/// place to the descriptor's GOT entry. The place of `R_RISCV_TLSDESC_LOAD_LO12` and
/// `R_RISCV_TLSDESC_ADD_LO12` is that of their `R_RISCV_TLSDESC_HI20`, which their symbol names.
/// `R_RISCV_TLSDESC_CALL` has no value.
///
/// # Ranges of pairs
///
/// `range.contains(value)` does not mean that a pair of instructions reaches `value`. The `_HI20`
/// relocations, `R_RISCV_CALL` and `R_RISCV_CALL_PLT` allow -2^31 to 2^32 - 1. A high part with its
/// signed low part is the value itself only up to 2^31 - 0x801; above, it is the value less 2^32.
/// `R_RISCV_CALL_PLT` allows 0x7ffff800, which the machine reads as -0x80000800. Where addresses
/// have 64 bits, test that bound too.
#[must_use]
#[inline(always)]
pub const fn row(name: RiscVRelocation) -> Option<Row> {
    row_in(&ROWS[index(name)])
}

impl RelocationName for RiscVRelocation {
    #[inline(always)]
    fn find_row(self) -> Option<Row> {
        row(self)
    }
}

/// What `R_RISCV_HI20` means once its `lui` has become a `c.lui`: the row of `R_RISCV_RVC_LUI`.
#[must_use]
pub const fn clui_row() -> Row {
    row(RiscVRelocation::R_RISCV_RVC_LUI).unwrap()
}

/// What a relocation means, if the crate `linker-utils` has a row for it.
#[must_use]
#[inline(always)]
pub const fn upstream_row(name: RiscVRelocation) -> Option<RowInfo> {
    raw_info_in(&ROWS[index(name)])
}
