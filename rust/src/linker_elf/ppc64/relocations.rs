// SPDX-License-Identifier: MIT OR Apache-2.0
// Made by tools/generate of crates/linker_elf/src/ppc64/relocations.rt.
//! What the relocations of PowerPC64 mean.

use super::forms::form_of;
use crate::linker_elf::elf::choice_table::RelocationName;
use crate::linker_elf::elf::engine::form;
use crate::linker_elf::elf::rows::{TableRow, listed, raw_info_in, row_in, text_at};
use crate::linker_elf::elf::{Row, RowInfo};
use core::fmt;

/// The relocations of PowerPC64, by their names in the 64-bit ELF V2 ABI for Power, "Relocation
/// Types". `from_elf` takes the `r_type` that an ELF file has.
#[cfg_attr(not(exhaustive), non_exhaustive)]
#[allow(non_camel_case_types)]
#[derive(Clone, Copy, PartialEq, Eq, Hash, PartialOrd, Ord)]
pub enum Ppc64Relocation {
    R_PPC64_NONE,
    R_PPC64_ADDR32,
    R_PPC64_ADDR24,
    R_PPC64_ADDR16,
    R_PPC64_ADDR16_LO,
    R_PPC64_ADDR16_HI,
    R_PPC64_ADDR16_HA,
    R_PPC64_ADDR14,
    R_PPC64_REL24,
    R_PPC64_REL14,
    R_PPC64_GOT16,
    R_PPC64_GOT16_LO,
    R_PPC64_GOT16_HI,
    R_PPC64_GOT16_HA,
    R_PPC64_REL32,
    R_PPC64_PLT16_HA,
    R_PPC64_ADDR64,
    R_PPC64_ADDR16_HIGHER,
    R_PPC64_ADDR16_HIGHERA,
    R_PPC64_ADDR16_HIGHEST,
    R_PPC64_ADDR16_HIGHESTA,
    R_PPC64_REL64,
    R_PPC64_TOC16,
    R_PPC64_TOC16_LO,
    R_PPC64_TOC16_HI,
    R_PPC64_TOC16_HA,
    R_PPC64_ADDR16_DS,
    R_PPC64_ADDR16_LO_DS,
    R_PPC64_GOT16_DS,
    R_PPC64_GOT16_LO_DS,
    R_PPC64_PLT16_LO_DS,
    R_PPC64_TOC16_DS,
    R_PPC64_TOC16_LO_DS,
    R_PPC64_TLS,
    R_PPC64_TPREL16,
    R_PPC64_TPREL16_LO,
    R_PPC64_TPREL16_HI,
    R_PPC64_TPREL16_HA,
    R_PPC64_TPREL64,
    R_PPC64_DTPREL16,
    R_PPC64_DTPREL16_LO,
    R_PPC64_DTPREL16_HI,
    R_PPC64_DTPREL16_HA,
    R_PPC64_DTPREL64,
    R_PPC64_GOT_TLSGD16,
    R_PPC64_GOT_TLSGD16_LO,
    R_PPC64_GOT_TLSGD16_HI,
    R_PPC64_GOT_TLSGD16_HA,
    R_PPC64_GOT_TLSLD16,
    R_PPC64_GOT_TLSLD16_LO,
    R_PPC64_GOT_TLSLD16_HI,
    R_PPC64_GOT_TLSLD16_HA,
    R_PPC64_GOT_TPREL16_DS,
    R_PPC64_GOT_TPREL16_LO_DS,
    R_PPC64_GOT_TPREL16_HI,
    R_PPC64_GOT_TPREL16_HA,
    R_PPC64_TPREL16_DS,
    R_PPC64_TPREL16_LO_DS,
    R_PPC64_TPREL16_HIGHER,
    R_PPC64_TPREL16_HIGHERA,
    R_PPC64_TPREL16_HIGHEST,
    R_PPC64_TPREL16_HIGHESTA,
    R_PPC64_DTPREL16_DS,
    R_PPC64_DTPREL16_LO_DS,
    R_PPC64_DTPREL16_HIGHER,
    R_PPC64_DTPREL16_HIGHERA,
    R_PPC64_DTPREL16_HIGHEST,
    R_PPC64_DTPREL16_HIGHESTA,
    R_PPC64_TLSGD,
    R_PPC64_TLSLD,
    R_PPC64_ADDR16_HIGH,
    R_PPC64_ADDR16_HIGHA,
    R_PPC64_TPREL16_HIGH,
    R_PPC64_TPREL16_HIGHA,
    R_PPC64_DTPREL16_HIGH,
    R_PPC64_DTPREL16_HIGHA,
    R_PPC64_REL24_NOTOC,
    R_PPC64_ENTRY,
    R_PPC64_PLTSEQ,
    R_PPC64_PLTCALL,
    R_PPC64_PLTSEQ_NOTOC,
    R_PPC64_PLTCALL_NOTOC,
    R_PPC64_PCREL_OPT,
    R_PPC64_D34,
    R_PPC64_D34_LO,
    R_PPC64_D34_HI30,
    R_PPC64_D34_HA30,
    R_PPC64_PCREL34,
    R_PPC64_GOT_PCREL34,
    R_PPC64_PLT_PCREL34,
    R_PPC64_PLT_PCREL34_NOTOC,
    R_PPC64_TPREL34,
    R_PPC64_DTPREL34,
    R_PPC64_GOT_TLSGD_PCREL34,
    R_PPC64_GOT_TLSLD_PCREL34,
    R_PPC64_GOT_TPREL_PCREL34,
    R_PPC64_REL16,
    R_PPC64_REL16_LO,
    R_PPC64_REL16_HI,
    R_PPC64_REL16_HA,
    /// An `r_type` without a name here.
    Other(u32),
}

/// Each relocation: its `r_type`, its name and its row, in the order of the enum of names.
macro_rules! relocations {
    ($($made:tt)+) => { listed! { ($($made)+) 0 from 0 {
        0 R_PPC64_NONE (None, 0 bytes, any, own: true)
        1 R_PPC64_ADDR32 (Absolute, 4 bytes, signed_or_unsigned 32)
        2 R_PPC64_ADDR24 (Absolute, 0..26 Branch24, signed 26, alignment: 4, own: true)
        3 R_PPC64_ADDR16 (Absolute, 2 bytes, signed_or_unsigned 16, own: true)
        4 R_PPC64_ADDR16_LO (Absolute, 0..16 D, any, own: true)
        5 R_PPC64_ADDR16_HI (Absolute, 16..32 D, any, reach: signed 32, own: true)
        6 R_PPC64_ADDR16_HA (Absolute, 16..32 D, any, reach: signed 32, bias: 0x8000, own: true)
        7 R_PPC64_ADDR14 (Absolute, 0..16 Branch14, signed 16, alignment: 4, own: true) [8 9]
        10 R_PPC64_REL24 (Relative, 0..26 Branch24, signed 26, alignment: 4)
        11 R_PPC64_REL14 (Relative, 0..16 Branch14, signed 16, alignment: 4) [12 13]
        14 R_PPC64_GOT16 (GotRelGotBase, 0..16 D, signed 16, own: true)
        15 R_PPC64_GOT16_LO (GotRelGotBase, 0..16 D, any, own: true)
        16 R_PPC64_GOT16_HI (GotRelGotBase, 16..32 D, any, reach: signed 32, own: true)
        17 R_PPC64_GOT16_HA (GotRelGotBase, 16..32 D, any, reach: signed 32, bias: 0x8000,
            own: true) [18 19 20 21 22 23 24 25]
        26 R_PPC64_REL32 (Relative, 4 bytes, signed 32) [27 28 29 30]
        31 R_PPC64_PLT16_HA (PltRelGotBase, 16..32 D, any, reach: signed 32, bias: 0x8000,
            own: true) [32 33 34 35 36 37]
        38 R_PPC64_ADDR64 (Absolute, 8 bytes, any)
        39 R_PPC64_ADDR16_HIGHER (Absolute, 32..48 DUnsigned, any, own: true)
        40 R_PPC64_ADDR16_HIGHERA (Absolute, 32..48 DUnsigned, any, bias: 0x8000, own: true)
        41 R_PPC64_ADDR16_HIGHEST (Absolute, 48..64 D, any, own: true)
        42 R_PPC64_ADDR16_HIGHESTA (Absolute, 48..64 D, any, bias: 0x8000, own: true) [43]
        44 R_PPC64_REL64 (Relative, 8 bytes, any) [45 46]
        47 R_PPC64_TOC16 (SymRelGotBase, 0..16 D, signed 16, own: true)
        48 R_PPC64_TOC16_LO (SymRelGotBase, 0..16 D, any)
        49 R_PPC64_TOC16_HI (SymRelGotBase, 16..32 D, any, reach: signed 32, own: true)
        50 R_PPC64_TOC16_HA (SymRelGotBase, 16..32 D, any, reach: signed 32, bias: 0x8000)
            [51 52 53 54 55]
        56 R_PPC64_ADDR16_DS (Absolute, 0..16 Ds, signed 16, alignment: 4, own: true)
        57 R_PPC64_ADDR16_LO_DS (Absolute, 0..16 Ds, any, alignment: 4, own: true)
        58 R_PPC64_GOT16_DS (GotRelGotBase, 0..16 Ds, signed 16, alignment: 4, own: true)
        59 R_PPC64_GOT16_LO_DS (GotRelGotBase, 0..16 Ds, any, alignment: 4, own: true)
        60 R_PPC64_PLT16_LO_DS (PltRelGotBase, 0..16 Ds, any, alignment: 4, own: true) [61 62]
        63 R_PPC64_TOC16_DS (SymRelGotBase, 0..16 Ds, signed 16, alignment: 4, own: true)
        64 R_PPC64_TOC16_LO_DS (SymRelGotBase, 0..16 Ds, any, alignment: 4) [65 66]
        67 R_PPC64_TLS (None, 0 bytes, any) [68]
        69 R_PPC64_TPREL16 (TpOff, 0..16 D, signed 16)
        70 R_PPC64_TPREL16_LO (TpOff, 0..16 D, any)
        71 R_PPC64_TPREL16_HI (TpOff, 16..32 D, any, reach: signed 32)
        72 R_PPC64_TPREL16_HA (TpOff, 16..32 D, any, reach: signed 32, bias: 0x8000)
        73 R_PPC64_TPREL64 (TpOff, 8 bytes, any)
        74 R_PPC64_DTPREL16 (DtpOff, 0..16 D, signed 16)
        75 R_PPC64_DTPREL16_LO (DtpOff, 0..16 D, any)
        76 R_PPC64_DTPREL16_HI (DtpOff, 16..32 D, any, reach: signed 32)
        77 R_PPC64_DTPREL16_HA (DtpOff, 16..32 D, any, reach: signed 32, bias: 0x8000)
        78 R_PPC64_DTPREL64 (DtpOff, 8 bytes, any)
        79 R_PPC64_GOT_TLSGD16 (TlsGdGotBase, 0..16 D, signed 16)
        80 R_PPC64_GOT_TLSGD16_LO (TlsGdGotBase, 0..16 D, any)
        81 R_PPC64_GOT_TLSGD16_HI (TlsGdGotBase, 16..32 D, any, reach: signed 32)
        82 R_PPC64_GOT_TLSGD16_HA (TlsGdGotBase, 16..32 D, any, reach: signed 32, bias: 0x8000)
        83 R_PPC64_GOT_TLSLD16 (TlsLdGotBase, 0..16 D, signed 16)
        84 R_PPC64_GOT_TLSLD16_LO (TlsLdGotBase, 0..16 D, any)
        85 R_PPC64_GOT_TLSLD16_HI (TlsLdGotBase, 16..32 D, any, reach: signed 32)
        86 R_PPC64_GOT_TLSLD16_HA (TlsLdGotBase, 16..32 D, any, reach: signed 32, bias: 0x8000)
        87 R_PPC64_GOT_TPREL16_DS (GotTpOffGotBase, 0..16 Ds, signed 16, alignment: 4)
        88 R_PPC64_GOT_TPREL16_LO_DS (GotTpOffGotBase, 0..16 Ds, any, alignment: 4)
        89 R_PPC64_GOT_TPREL16_HI (GotTpOffGotBase, 16..32 D, any, reach: signed 32)
        90 R_PPC64_GOT_TPREL16_HA (GotTpOffGotBase, 16..32 D, any, reach: signed 32, bias: 0x8000)
            [91 92 93 94]
        95 R_PPC64_TPREL16_DS (TpOff, 0..16 Ds, signed 16, alignment: 4)
        96 R_PPC64_TPREL16_LO_DS (TpOff, 0..16 Ds, any, alignment: 4)
        97 R_PPC64_TPREL16_HIGHER (TpOff, 32..48 DUnsigned, any, own: true)
        98 R_PPC64_TPREL16_HIGHERA (TpOff, 32..48 DUnsigned, any, bias: 0x8000, own: true)
        99 R_PPC64_TPREL16_HIGHEST (TpOff, 48..64 D, any, own: true)
        100 R_PPC64_TPREL16_HIGHESTA (TpOff, 48..64 D, any, bias: 0x8000, own: true)
        101 R_PPC64_DTPREL16_DS (DtpOff, 0..16 Ds, signed 16, alignment: 4)
        102 R_PPC64_DTPREL16_LO_DS (DtpOff, 0..16 Ds, any, alignment: 4)
        103 R_PPC64_DTPREL16_HIGHER (DtpOff, 32..48 DUnsigned, any, own: true)
        104 R_PPC64_DTPREL16_HIGHERA (DtpOff, 32..48 DUnsigned, any, bias: 0x8000, own: true)
        105 R_PPC64_DTPREL16_HIGHEST (DtpOff, 48..64 D, any, own: true)
        106 R_PPC64_DTPREL16_HIGHESTA (DtpOff, 48..64 D, any, bias: 0x8000, own: true)
        107 R_PPC64_TLSGD (None, 0 bytes, any)
        108 R_PPC64_TLSLD (None, 0 bytes, any) [109]
        110 R_PPC64_ADDR16_HIGH (Absolute, 16..32 DUnsigned, any, own: true)
        111 R_PPC64_ADDR16_HIGHA (Absolute, 16..32 DUnsigned, any, bias: 0x8000, own: true)
        112 R_PPC64_TPREL16_HIGH (TpOff, 16..32 DUnsigned, any, own: true)
        113 R_PPC64_TPREL16_HIGHA (TpOff, 16..32 DUnsigned, any, bias: 0x8000, own: true)
        114 R_PPC64_DTPREL16_HIGH (DtpOff, 16..32 DUnsigned, any, own: true)
        115 R_PPC64_DTPREL16_HIGHA (DtpOff, 16..32 DUnsigned, any, bias: 0x8000, own: true)
        116 R_PPC64_REL24_NOTOC (Relative, 0..26 Branch24, signed 26, alignment: 4, own: true) [117]
        118 R_PPC64_ENTRY (None, 0 bytes, any, own: true)
        119 R_PPC64_PLTSEQ (None, 0 bytes, any, own: true)
        120 R_PPC64_PLTCALL (None, 0 bytes, any, own: true)
        121 R_PPC64_PLTSEQ_NOTOC (None, 0 bytes, any, own: true)
        122 R_PPC64_PLTCALL_NOTOC (None, 0 bytes, any, own: true)
        123 R_PPC64_PCREL_OPT (None, 0 bytes, any, own: true) [124 125 126 127]
        128 R_PPC64_D34 (Absolute, 0..34 Prefixed, signed 34, own: true)
        129 R_PPC64_D34_LO (Absolute, 0..34 Prefixed, any, own: true)
        130 R_PPC64_D34_HI30 (Absolute, 34..64 Prefixed, any, own: true)
        131 R_PPC64_D34_HA30 (Absolute, 34..64 Prefixed, any, bias: 0x200000000, own: true)
        132 R_PPC64_PCREL34 (Relative, 0..34 Prefixed, signed 34, own: true)
        133 R_PPC64_GOT_PCREL34 (GotRelative, 0..34 Prefixed, signed 34, own: true)
        134 R_PPC64_PLT_PCREL34 (PltRelative, 0..34 Prefixed, signed 34, own: true)
        135 R_PPC64_PLT_PCREL34_NOTOC (PltRelative, 0..34 Prefixed, signed 34, own: true)
            [136 137 138 139 140 141 142 143 144 145]
        146 R_PPC64_TPREL34 (TpOff, 0..34 Prefixed, signed 34, own: true)
        147 R_PPC64_DTPREL34 (DtpOff, 0..34 Prefixed, signed 34, own: true)
        148 R_PPC64_GOT_TLSGD_PCREL34 (TlsGd, 0..34 Prefixed, signed 34, own: true)
        149 R_PPC64_GOT_TLSLD_PCREL34 (TlsLd, 0..34 Prefixed, signed 34, own: true)
        150 R_PPC64_GOT_TPREL_PCREL34 (GotTpOff, 0..34 Prefixed, signed 34, own: true)
    } 1 from 249 {
        249 R_PPC64_REL16 (Relative, 2 bytes, signed 16, own: true)
        250 R_PPC64_REL16_LO (Relative, 0..16 D, any)
        251 R_PPC64_REL16_HI (Relative, 16..32 D, any, reach: signed 32, own: true)
        252 R_PPC64_REL16_HA (Relative, 16..32 D, any, reach: signed 32, bias: 0x8000)
    } } };
}

impl fmt::Debug for Ppc64Relocation {
    fn fmt(&self, f: &mut fmt::Formatter<'_>) -> fmt::Result {
        match self {
            Ppc64Relocation::Other(r_type) => f.debug_tuple("Other").field(r_type).finish(),
            _ => f.write_str(self.name()),
        }
    }
}

impl Ppc64Relocation {
    /// The relocation with an `r_type`; `Other(r_type)` for one without a name.
    #[must_use]
    #[inline(always)]
    pub const fn from_elf(r_type: u32) -> Ppc64Relocation {
        relocations!(name_of Ppc64Relocation, r_type)
    }

    /// The `r_type` in ELF files.
    #[must_use]
    #[inline]
    pub const fn r_type(self) -> u32 {
        match self {
            Ppc64Relocation::Other(r_type) => r_type,
            _ => R_TYPES[index(self)],
        }
    }

    /// The name, as "R_PPC64_REL24"; "unknown relocation" for `Other`.
    #[must_use]
    pub const fn name(self) -> &'static str {
        match self {
            Ppc64Relocation::Other(_) => "unknown relocation",
            _ => text_at(TEXTS, index(self)),
        }
    }
}

const NAMES: &[&[Ppc64Relocation]] = &relocations!(names Ppc64Relocation);

static R_TYPES: &[u32] = &relocations!(r_types);

static TEXTS: &[&str] = &relocations!(texts);

static ROWS: &[Option<TableRow>] = &relocations!(table [Ppc64 Ppc64Form EM_PPC64]);

/// The index of a name in the table.
#[inline(always)]
const fn index(name: Ppc64Relocation) -> usize {
    relocations!(index_of Ppc64Relocation, name)
}

/// What a relocation means. It takes a name; [`Ppc64Relocation::from_elf`](crate::ppc64::Ppc64Relocation::from_elf) gives the name of an
/// `r_type`. Returns `None` for `Other`. The adjusted parts (`_HA`, `_HIGHA`, `_HIGHERA`,
/// `_HIGHESTA`) have a bias of 0x8000. Checked halves have a range of 16 signed bits.
///
/// The PLT entry of `R_PPC64_PLT16_HA`, `R_PPC64_PLT16_LO_DS`, `R_PPC64_PLT_PCREL34` and its
/// `_NOTOC` is the doubleword of `.plt` that holds the function's address. `R_PPC64_ENTRY`,
/// `R_PPC64_PLTSEQ`, `R_PPC64_PLTCALL`, their `_NOTOC` and `R_PPC64_PCREL_OPT` mark instructions
/// and have no value.
///
/// # Ranges of pairs
///
/// The halves `_HA`, `_HI` and `_LO`, as `R_PPC64_TOC16_HA` and `R_PPC64_REL16_HA`, allow every
/// value. A `_HA` half with its signed low half is the value itself only from -2^31 - 0x8000 to
/// 2^31 - 0x8001. Elsewhere it is the value modulo 2^32.
///
/// `R_PPC64_D34_HA30` and `R_PPC64_D34_LO`, and `R_PPC64_D34_HI30` with an unsigned low part, are
/// the parts of a value of 64 bits. The 30 bits of a high part are written to an immediate of 34
/// bits, of which the upper 4 become 0.
///
/// `_HIGHEST`, `_HIGHER`, `_HIGH` and `_LO` are the parts of 16 bits of a value of 64 bits, and
/// `_HIGHESTA`, `_HIGHERA` and `_HIGHA` those above a signed low part. None of them is checked.
/// `_HIGHER`, `_HIGH` and the like are for instructions that take them without a sign, as `ori` and
/// `oris`.
#[must_use]
#[inline(always)]
pub const fn row(name: Ppc64Relocation) -> Option<Row> {
    row_in(&ROWS[index(name)])
}

impl RelocationName for Ppc64Relocation {
    #[inline(always)]
    fn find_row(self) -> Option<Row> {
        row(self)
    }
}

/// What a relocation means, if the crate `linker-utils` has a row for it.
#[must_use]
#[inline(always)]
pub const fn upstream_row(name: Ppc64Relocation) -> Option<RowInfo> {
    raw_info_in(&ROWS[index(name)])
}
