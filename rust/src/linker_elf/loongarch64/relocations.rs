// SPDX-License-Identifier: MIT OR Apache-2.0
// Made by tools/generate of crates/linker_elf/src/loongarch64/relocations.rt.
//! What the relocations of LoongArch mean.

use super::forms::form_of;
use crate::linker_elf::elf::choice_table::RelocationName;
use crate::linker_elf::elf::engine::form;
use crate::linker_elf::elf::rows::{TableRow, listed, raw_info_in, row_in, text_at};
use crate::linker_elf::elf::{RelocationKind, Row, RowInfo, SIZE_2KB, Uleb128Role};
use core::fmt;

/// The relocations of LoongArch, by their names in the LoongArch ELF psABI, "Relocation Types".
/// `from_elf` takes the `r_type` that an ELF file has.
#[cfg_attr(not(exhaustive), non_exhaustive)]
#[derive(Clone, Copy, PartialEq, Eq, Hash, PartialOrd, Ord)]
#[allow(non_camel_case_types)]
pub enum LoongArch64Relocation {
    R_LARCH_NONE,
    R_LARCH_32,
    R_LARCH_64,
    R_LARCH_TLS_DTPREL32,
    R_LARCH_TLS_DTPREL64,
    R_LARCH_MARK_LA,
    R_LARCH_ADD8,
    R_LARCH_ADD16,
    R_LARCH_ADD24,
    R_LARCH_ADD32,
    R_LARCH_ADD64,
    R_LARCH_SUB8,
    R_LARCH_SUB16,
    R_LARCH_SUB24,
    R_LARCH_SUB32,
    R_LARCH_SUB64,
    R_LARCH_B16,
    R_LARCH_B21,
    R_LARCH_B26,
    R_LARCH_ABS_HI20,
    R_LARCH_ABS_LO12,
    R_LARCH_ABS64_LO20,
    R_LARCH_ABS64_HI12,
    R_LARCH_PCALA_HI20,
    R_LARCH_PCALA_LO12,
    R_LARCH_PCALA64_LO20,
    R_LARCH_PCALA64_HI12,
    R_LARCH_GOT_PC_HI20,
    R_LARCH_GOT_PC_LO12,
    R_LARCH_GOT64_PC_LO20,
    R_LARCH_GOT64_PC_HI12,
    R_LARCH_TLS_LE_HI20,
    R_LARCH_TLS_LE_LO12,
    R_LARCH_TLS_LE64_LO20,
    R_LARCH_TLS_LE64_HI12,
    R_LARCH_TLS_IE_PC_HI20,
    R_LARCH_TLS_IE_PC_LO12,
    R_LARCH_TLS_IE64_PC_LO20,
    R_LARCH_TLS_IE64_PC_HI12,
    R_LARCH_TLS_IE_HI20,
    R_LARCH_TLS_IE_LO12,
    R_LARCH_TLS_IE64_LO20,
    R_LARCH_TLS_IE64_HI12,
    R_LARCH_TLS_LD_PC_HI20,
    R_LARCH_TLS_LD_HI20,
    R_LARCH_TLS_GD_PC_HI20,
    R_LARCH_TLS_GD_HI20,
    R_LARCH_32_PCREL,
    R_LARCH_RELAX,
    /// It writes nothing. But a linker that deletes bytes has to keep the alignment that the addend
    /// names, as for `R_RISCV_ALIGN`.
    R_LARCH_ALIGN,
    R_LARCH_PCREL20_S2,
    R_LARCH_ADD6,
    R_LARCH_SUB6,
    /// The first of a pair at a ULEB128 number. Its row is `Relative` of 0 bytes, though the value
    /// isn't relative to the place, and `write` rejects it: `uleb128_role` tells what it does.
    R_LARCH_ADD_ULEB128,
    /// The second of that pair.
    R_LARCH_SUB_ULEB128,
    R_LARCH_64_PCREL,
    R_LARCH_CALL36,
    R_LARCH_TLS_DESC_PC_HI20,
    R_LARCH_TLS_DESC_PC_LO12,
    R_LARCH_TLS_DESC64_PC_LO20,
    R_LARCH_TLS_DESC64_PC_HI12,
    R_LARCH_TLS_DESC_LD,
    R_LARCH_TLS_DESC_CALL,
    R_LARCH_TLS_LE_HI20_R,
    R_LARCH_TLS_LE_ADD_R,
    R_LARCH_TLS_LE_LO12_R,
    R_LARCH_TLS_LD_PCREL20_S2,
    R_LARCH_TLS_GD_PCREL20_S2,
    R_LARCH_TLS_DESC_PCREL20_S2,
    R_LARCH_CALL30,
    R_LARCH_PCADD_HI20,
    /// An `r_type` without a name here.
    Other(u32),
}

/// Each relocation: its `r_type`, its name and its row, in the order of the enum of names.
macro_rules! relocations {
    ($($made:tt)+) => { listed! { ($($made)+) 0 from 0 {
        0 R_LARCH_NONE (None, 0 bytes, any)
        1 R_LARCH_32 (Absolute, 4 bytes, signed_or_unsigned 32)
        2 R_LARCH_64 (Absolute, 8 bytes, any) [3 4 5 6 7]
        8 R_LARCH_TLS_DTPREL32 (DtpOff, 4 bytes, any)
        9 R_LARCH_TLS_DTPREL64 (DtpOff, 8 bytes, any) [10 11 12 13 14 15 16 17 18 19]
        20 R_LARCH_MARK_LA (None, 0 bytes, any, own: true)
            [21 22 23 24 25 26 27 28 29 30 31 32 33 34 35 36 37 38 39 40 41 42 43 44 45 46]
        47 R_LARCH_ADD8 (AbsoluteAddition, 1 bytes, any)
        48 R_LARCH_ADD16 (AbsoluteAddition, 2 bytes, any)
        49 R_LARCH_ADD24 (AbsoluteAddition, 3 bytes, any)
        50 R_LARCH_ADD32 (AbsoluteAddition, 4 bytes, any)
        51 R_LARCH_ADD64 (AbsoluteAddition, 8 bytes, any)
        52 R_LARCH_SUB8 (AbsoluteSubtraction, 1 bytes, any)
        53 R_LARCH_SUB16 (AbsoluteSubtraction, 2 bytes, any)
        54 R_LARCH_SUB24 (AbsoluteSubtraction, 3 bytes, any)
        55 R_LARCH_SUB32 (AbsoluteSubtraction, 4 bytes, any)
        56 R_LARCH_SUB64 (AbsoluteSubtraction, 8 bytes, any) [57 58 59 60 61 62 63]
        64 R_LARCH_B16 (Relative, 2..18 Shift10, signed 18, alignment: 4)
        65 R_LARCH_B21 (Relative, 2..23 Branch21, signed 23, alignment: 4)
        66 R_LARCH_B26 (PltRelative, 2..28 Branch26, signed 28, alignment: 4)
        67 R_LARCH_ABS_HI20 (Absolute, 12..32 Shift5, any)
        68 R_LARCH_ABS_LO12 (Absolute, 0..12 Shift10, any)
        69 R_LARCH_ABS64_LO20 (Absolute, 32..52 Shift5, any)
        70 R_LARCH_ABS64_HI12 (Absolute, 52..64 Shift10, any)
        71 R_LARCH_PCALA_HI20 (Relative, 12..32 Shift5, any, mask: PLACE_PAGES, bias: SIZE_2KB)
        72 R_LARCH_PCALA_LO12 (AbsoluteLowPart, 0..12 Shift10, any)
        73 R_LARCH_PCALA64_LO20 (RelativeLoongArchHigh, 32..52 Shift5, any)
        74 R_LARCH_PCALA64_HI12 (RelativeLoongArchHigh, 52..64 Shift10, any)
        75 R_LARCH_GOT_PC_HI20 (GotRelative, 12..32 Shift5, any, mask: ENTRY_PAGES, bias: SIZE_2KB)
        76 R_LARCH_GOT_PC_LO12 (Got, 0..12 Shift10, any)
        77 R_LARCH_GOT64_PC_LO20 (GotRelativeLoongArch64, 32..52 Shift5, any)
        78 R_LARCH_GOT64_PC_HI12 (GotRelativeLoongArch64, 52..64 Shift10, any) [79 80 81 82]
        83 R_LARCH_TLS_LE_HI20 (TpOff, 12..32 Shift5, any)
        84 R_LARCH_TLS_LE_LO12 (TpOff, 0..12 Shift10, any)
        85 R_LARCH_TLS_LE64_LO20 (TpOff, 32..52 Shift5, any)
        86 R_LARCH_TLS_LE64_HI12 (TpOff, 52..64 Shift10, any)
        87 R_LARCH_TLS_IE_PC_HI20 (GotTpOff, 12..32 Shift5, any, mask: ENTRY_PAGES, bias: SIZE_2KB)
        88 R_LARCH_TLS_IE_PC_LO12 (GotTpOffGot, 0..12 Shift10, any)
        89 R_LARCH_TLS_IE64_PC_LO20 (GotTpOffLoongArch64, 32..52 Shift5, any)
        90 R_LARCH_TLS_IE64_PC_HI12 (GotTpOffLoongArch64, 52..64 Shift10, any)
        91 R_LARCH_TLS_IE_HI20 (GotTpOffGot, 12..32 Shift5, any)
        92 R_LARCH_TLS_IE_LO12 (GotTpOffGot, 0..12 Shift10, any)
        93 R_LARCH_TLS_IE64_LO20 (GotTpOffGot, 32..52 Shift5, any)
        94 R_LARCH_TLS_IE64_HI12 (GotTpOffGot, 52..64 Shift10, any)
        95 R_LARCH_TLS_LD_PC_HI20 (TlsGd, 12..32 Shift5, any, mask: ENTRY_PAGES, bias: SIZE_2KB)
        96 R_LARCH_TLS_LD_HI20 (TlsGdGot, 12..32 Shift5, any)
        97 R_LARCH_TLS_GD_PC_HI20 (TlsGd, 12..32 Shift5, any, mask: ENTRY_PAGES, bias: SIZE_2KB)
        98 R_LARCH_TLS_GD_HI20 (TlsGdGot, 12..32 Shift5, any)
        99 R_LARCH_32_PCREL (Relative, 4 bytes, signed 32)
        100 R_LARCH_RELAX (None, 0 bytes, any) [101]
        102 R_LARCH_ALIGN (Alignment, 0 bytes, any)
        103 R_LARCH_PCREL20_S2 (Relative, 2..22 Shift5, signed 22, alignment: 4) [104]
        105 R_LARCH_ADD6 (AbsoluteAdditionWord6, 1 bytes, any)
        106 R_LARCH_SUB6 (AbsoluteSubtractionWord6, 1 bytes, any)
        107 R_LARCH_ADD_ULEB128 (Relative, 0 bytes, any)
        108 R_LARCH_SUB_ULEB128 (PairSubtractionULEB128LoongArch, 8 bytes, any)
        109 R_LARCH_64_PCREL (Relative, 8 bytes, any)
        110 R_LARCH_CALL36 (PltRelative, 2..38 Call36, signed 38,
            reach: within -0x2000020000..0x1ffffe0000, alignment: 4)
        111 R_LARCH_TLS_DESC_PC_HI20 (TlsDesc, 12..32 Shift5, any, mask: ENTRY_PAGES,
            bias: SIZE_2KB)
        112 R_LARCH_TLS_DESC_PC_LO12 (TlsDescGot, 0..12 Shift10, any)
        113 R_LARCH_TLS_DESC64_PC_LO20 (TlsDescLoongArch64, 32..52 Shift5, any)
        114 R_LARCH_TLS_DESC64_PC_HI12 (TlsDescLoongArch64, 52..64 Shift10, any) [115 116 117 118]
        119 R_LARCH_TLS_DESC_LD (None, 0 bytes, any)
        120 R_LARCH_TLS_DESC_CALL (TlsDescCall, 0 bytes, any)
        121 R_LARCH_TLS_LE_HI20_R (TpOff, 12..32 Shift5, any, bias: SIZE_2KB)
        122 R_LARCH_TLS_LE_ADD_R (None, 0 bytes, any)
        123 R_LARCH_TLS_LE_LO12_R (TpOff, 0..12 Shift10, any)
        124 R_LARCH_TLS_LD_PCREL20_S2 (TlsGd, 2..22 Shift5, signed 22, alignment: 4, own: true)
        125 R_LARCH_TLS_GD_PCREL20_S2 (TlsGd, 2..22 Shift5, signed 22, alignment: 4, own: true)
        126 R_LARCH_TLS_DESC_PCREL20_S2 (TlsDesc, 2..22 Shift5, signed 22, alignment: 4, own: true)
        127 R_LARCH_CALL30 (Relative, 2..19 Call30, any)
        128 R_LARCH_PCADD_HI20 (Relative, 12..32 Shift5, any, bias: SIZE_2KB)
    } } };
}

impl fmt::Debug for LoongArch64Relocation {
    fn fmt(&self, f: &mut fmt::Formatter<'_>) -> fmt::Result {
        match self {
            LoongArch64Relocation::Other(r_type) => f.debug_tuple("Other").field(r_type).finish(),
            _ => f.write_str(self.name()),
        }
    }
}

impl LoongArch64Relocation {
    /// The relocation with an `r_type`; `Other(r_type)` for one without a name.
    #[must_use]
    #[inline(always)]
    pub const fn from_elf(r_type: u32) -> LoongArch64Relocation {
        relocations!(name_of LoongArch64Relocation, r_type)
    }

    /// The `r_type` in ELF files.
    #[must_use]
    #[inline]
    pub const fn r_type(self) -> u32 {
        match self {
            LoongArch64Relocation::Other(r_type) => r_type,
            _ => R_TYPES[index(self)],
        }
    }

    /// The name, as "R_LARCH_32"; "unknown relocation" for `Other`.
    #[must_use]
    pub const fn name(self) -> &'static str {
        match self {
            LoongArch64Relocation::Other(_) => "unknown relocation",
            _ => text_at(TEXTS, index(self)),
        }
    }

    /// What a relocation of a ULEB128 number does; `None` for all others.
    #[must_use]
    pub fn uleb128_role(self) -> Option<Uleb128Role> {
        match self {
            LoongArch64Relocation::R_LARCH_ADD_ULEB128 => Some(Uleb128Role::Adds),
            LoongArch64Relocation::R_LARCH_SUB_ULEB128 => Some(Uleb128Role::Subtracts),
            _ => None,
        }
    }
}

const NAMES: &[&[LoongArch64Relocation]] = &relocations!(names LoongArch64Relocation);

static R_TYPES: &[u32] = &relocations!(r_types);

static TEXTS: &[&str] = &relocations!(texts);

static ROWS: &[Option<TableRow>] =
    &relocations!(table [LoongArch64 LoongArch64Instruction EM_LOONGARCH]);

/// The index of a name in the table.
#[inline(always)]
const fn index(name: LoongArch64Relocation) -> usize {
    relocations!(index_of LoongArch64Relocation, name)
}

/// What a relocation means. It takes a name; [`LoongArch64Relocation::from_elf`](crate::loongarch64::LoongArch64Relocation::from_elf) gives the name of an
/// `r_type`. Returns `None` for `Other`.
///
/// # Ranges of pairs
///
/// `R_LARCH_CALL36` allows -2^37 to 2^37 - 1. `pcaddu18i` with `jirl` reaches the value itself only
/// up to 2^37 - 2^17 - 4; above, it is the value less 2^38. Nothing is claimed of what the machine
/// makes of `R_LARCH_CALL30`'s pair.
#[must_use]
#[inline(always)]
pub const fn row(name: LoongArch64Relocation) -> Option<Row> {
    row_in(&ROWS[index(name)])
}

impl RelocationName for LoongArch64Relocation {
    #[inline(always)]
    fn find_row(self) -> Option<Row> {
        row(self)
    }
}

/// The row with the kind that the crate `linker-utils` has: there `R_LARCH_ALIGN` has no kind of
/// its own. Not by the name: LLVM compiles a match of it to a jump by the `r_type`.
#[inline(always)]
const fn with_raw_kind(row: Option<RowInfo>) -> Option<RowInfo> {
    match row {
        Some(row) => {
            let kind = match row.kind {
                RelocationKind::Alignment => RelocationKind::None,
                kind => kind,
            };
            Some(RowInfo { kind, ..row })
        }
        None => None,
    }
}

/// What a relocation means, if the crate `linker-utils` has a row for it.
#[must_use]
#[inline(always)]
pub const fn upstream_row(name: LoongArch64Relocation) -> Option<RowInfo> {
    with_raw_kind(raw_info_in(&ROWS[index(name)]))
}
