// SPDX-License-Identifier: MIT OR Apache-2.0
// Made by tools/generate of crates/linker_section/src/conditions.rt.
//! What has to hold of a section's relocation besides that it has a value.

use crate::linker_section::facts::{Addresses, Symbol};
use crate::linker_section::relocations::{Rela, first_from, relocation_in, relocations_len};
use crate::linker_section::symbols::Known;
use crate::linker_base::utils::u32_from_slice;
use crate::linker_elf::elf::{AnyForm, Architecture, Length, RelocationKind, Row, RowSize};
#[cfg(feature = "loongarch64")]
use crate::linker_elf::elf::LoongArch64Instruction;
#[cfg(feature = "riscv64")]
use crate::linker_elf::elf::RiscVInstruction;
#[cfg(feature = "loongarch64")]
use crate::linker_elf::loongarch64::LoongArch64Relocation;
#[cfg(feature = "ppc64")]
use crate::linker_elf::ppc64::Ppc64Relocation;
#[cfg(feature = "riscv64")]
use crate::linker_elf::riscv64::RiscVRelocation;

/// Whether a symbol is a function of the output that may return with another TOC pointer, and has
/// no stub that keeps the caller's.
#[inline(always)]
fn changes_toc(symbol: &Symbol) -> bool {
    symbol.stub == 0 && !symbol.is_undefined_weak && symbol.other / 32 == 1
}

/// Whether a relocation is a call that keeps its TOC pointer.
#[inline(always)]
fn keeps_toc(architecture: Architecture, relocation: &Rela) -> bool {
    #[cfg(not(feature = "ppc64"))]
    {
        false
    }
    #[cfg(feature = "ppc64")]
    {
    matches_any!(architecture, #[cfg(feature = "ppc64")] Architecture::Ppc64)
        && relocation.r_type == Ppc64Relocation::R_PPC64_REL24.r_type()
    }
}

/// Whether a relocation is such a call, of such a symbol.
#[inline(always)]
pub(crate) fn lacks_stub<K: Known>(
    architecture: Architecture,
    relocation: &Rela,
    known: Option<K>,
) -> bool {
    if !keeps_toc(architecture, relocation) {
        return false;
    }
    match known {
        Some(known) => changes_toc(&known.symbol()),
        None => false,
    }
}

/// 2 to an exponent.
#[inline(always)]
fn power(exponent: u64) -> u64 {
    1 << exponent
}

/// Whether what is after n bytes of nops is at a multiple of the next power of two above
/// their count.
fn is_padded(place: u64, nops: u64) -> bool {
    let exponent = 64u32.saturating_sub(nops.leading_zeros()) as u64;
    exponent < 33 && place.wrapping_add(nops) % power(exponent) == 0
}

/// How many bytes are between an address and the next multiple of a power of two.
#[inline(always)]
fn needed(place: u64, power: u64) -> u64 {
    (power - place % power) % power
}

/// Whether the same holds of what the addend of an `R_LARCH_ALIGN` with a symbol says, or more
/// bytes would be needed than it allows.
fn is_stated(place: u64, addend: u64) -> bool {
    let exponent = addend % 256;
    if exponent >= 33 {
        return false;
    }
    let power = power(exponent);
    let most = addend / 256;
    place.wrapping_add(power.saturating_sub(4)) % power == 0
        || (most > 0 && most < needed(place, power))
}

/// Whether what is after the nops of an alignment is where it has to be. True of any other
/// relocation.
#[inline(always)]
pub(crate) fn is_filled(
    architecture: Architecture,
    addresses: &Addresses,
    relocation: &Rela,
) -> bool {
    let place = addresses.section.wrapping_add(relocation.offset);
    let addend = relocation.addend as u64;
    match architecture {
        #[cfg(feature = "riscv64")]
        Architecture::RiscV => {
            relocation.r_type != RiscVRelocation::R_RISCV_ALIGN.r_type() || is_padded(place, addend)
        }
        #[cfg(feature = "loongarch64")]
        Architecture::LoongArch64 => {
            if relocation.r_type != LoongArch64Relocation::R_LARCH_ALIGN.r_type() {
                true
            } else if relocation.symbol == 0 {
                is_padded(place, addend)
            } else {
                is_stated(place, addend)
            }
        }
        _ => true,
    }
}

/// The first byte; 0 if there is none.
#[inline(always)]
fn first_byte(there: &[u8]) -> u8 {
    if there.is_empty() { 0 } else { there[0] }
}

/// Whether bytes begin with an instruction of a length, as far as they show it.
#[inline(always)]
fn shows(length: Length, there: &[u8]) -> bool {
    match length {
        Length::Any => true,
        Length::Two => first_byte(there) % 4 != 3,
        Length::Four => first_byte(there) % 4 == 3,
        Length::Prefixed => there.len() > 3 && there[3] / 4 == 1,
    }
}

/// Whether the field of a row at an offset is in an instruction of its form's length. True where
/// it isn't in the section.
#[inline(always)]
pub(crate) fn has_length(row: &Row, offset: u64, section: &[u8]) -> bool {
    if (section.len() as u64) < offset {
        return true;
    }
    let there = &section[offset as usize..];
    there.len() < row.window() || shows(row.facts().length, there)
}

/// Whether a word of 8 bytes begins with an instruction as long as the form of a row, in an
/// architecture that has several lengths.
#[inline(always)]
pub(crate) fn begins_with(architecture: Architecture, row: &Row, word: u64) -> bool {
    if !matches_any!(architecture, #[cfg(feature = "ppc64")] Architecture::Ppc64, #[cfg(feature = "riscv64")] Architecture::RiscV) {
        return true;
    }
    match row.facts().length {
        Length::Any => true,
        Length::Two => word % 4 != 3,
        Length::Four => word % 4 == 3,
        Length::Prefixed => word / (1 << 26) % 64 == 1,
    }
}

/// Whether the base register of an instruction is the thread pointer.
#[inline(always)]
fn is_thread_based(size: RowSize, there: &[u8]) -> bool {
    match size {
        RowSize::BitMasking { range, insn } => match insn {
            #[cfg(feature = "riscv64")]
            AnyForm::RiscV(RiscVInstruction::IType | RiscVInstruction::SType) => {
                u32_from_slice(there) / (1 << 15) % 32 == 4
            }
            #[cfg(feature = "loongarch64")]
            AnyForm::LoongArch64(LoongArch64Instruction::Shift10) => {
                range.start == 0 && u32_from_slice(there) / (1 << 5) % 32 == 2
            }
            _ => false,
        },
        RowSize::ByteSize(_) => false,
    }
}

/// Whether an instruction adds the whole of an offset from the thread pointer, if its base is that.
/// True of any other value.
#[inline(always)]
fn holds_offset(row: &Row, value: i64, there: &[u8]) -> bool {
    !matches!(row.kind(), RelocationKind::TpOff)
        || (-0x800 <= value && value < 0x800)
        || !is_thread_based(row.info().size, there)
}

/// The same of the field of a row at an offset. True where it isn't in the section.
#[inline(always)]
pub(crate) fn has_offset(row: &Row, value: i64, offset: u64, section: &[u8]) -> bool {
    if (section.len() as u64) < offset {
        return true;
    }
    let there = &section[offset as usize..];
    there.len() < row.window() || holds_offset(row, value, there)
}

/// The `r_type` of the third relocation of a sequence of LoongArch for 64 bits, by that of the
/// first.
#[inline(always)]
fn upper_r_type(r_type: u32) -> Option<u32> {
    match r_type {
        // R_LARCH_ABS_HI20, R_LARCH_PCALA_HI20
        67 => Some(69),
        71 => Some(73),
        // R_LARCH_GOT_PC_HI20, R_LARCH_TLS_LD_PC_HI20, R_LARCH_TLS_GD_PC_HI20
        75 | 95 | 97 => Some(77),
        // R_LARCH_GOT_HI20, R_LARCH_TLS_LD_HI20, R_LARCH_TLS_GD_HI20
        79 | 96 | 98 => Some(81),
        // R_LARCH_TLS_LE_HI20, R_LARCH_TLS_IE_PC_HI20, R_LARCH_TLS_IE_HI20
        83 => Some(85),
        87 => Some(89),
        91 => Some(93),
        // R_LARCH_TLS_DESC_PC_HI20, R_LARCH_TLS_DESC_HI20
        111 => Some(113),
        115 => Some(117),
        _ => None,
    }
}

/// Whether such a first relocation is relative to the place.
#[inline(always)]
fn is_placed(r_type: u32) -> bool {
    matches!(r_type, 71 | 75 | 87 | 95 | 97 | 111)
}

/// Whether a relocation is the third of the sequence that another begins.
#[inline(always)]
fn is_upper(high: &Rela, other: &Rela) -> bool {
    let Some(r_type) = upper_r_type(high.r_type) else {
        return false;
    };
    other.r_type == r_type
        && other.symbol == high.symbol
        && other.addend == high.addend
        && (!is_placed(high.r_type) || other.offset == high.offset.wrapping_add(8))
}

/// Whether one of the relocations from an index to below another is.
fn has_upper_among(relocations: &[u8], high: &Rela, from: usize, to: usize) -> bool {
    for index in from..to {
        if is_upper(high, &relocation_in(relocations, index)) {
            return true;
        }
    }
    false
}

/// Whether any relocation is. Those from the place on are searched first.
#[inline(never)]
fn has_upper(relocations: &[u8], high: &Rela) -> bool {
    let first = first_from(relocations, high.offset);
    has_upper_among(relocations, high, first, relocations_len(relocations))
        || has_upper_among(relocations, high, 0, first)
}

/// Whether a value needs more than the instructions for 32 bits.
#[inline(always)]
pub(crate) fn needs_upper(architecture: Architecture, relocation: &Rela, value: i64) -> bool {
    #[cfg(not(feature = "loongarch64"))]
    {
        false
    }
    #[cfg(feature = "loongarch64")]
    {
    matches_any!(architecture, #[cfg(feature = "loongarch64")] Architecture::LoongArch64)
        && (value < -0x8000_0000 || 0x7fff_ffff < value)
        && (relocation.r_type == LoongArch64Relocation::R_LARCH_TLS_LE_HI20_R.r_type()
            || upper_r_type(relocation.r_type).is_some())
    }
}

/// Whether a value is one of 32 signed bits, if a relocation begins a sequence of LoongArch without
/// a part for the upper bits.
#[inline(always)]
pub(crate) fn is_in_reach(
    architecture: Architecture,
    relocations: &[u8],
    relocation: &Rela,
    value: i64,
) -> bool {
    !needs_upper(architecture, relocation, value) || has_upper(relocations, relocation)
}
