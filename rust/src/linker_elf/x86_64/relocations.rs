// SPDX-License-Identifier: MIT OR Apache-2.0
// Made by tools/generate of crates/linker_elf/src/x86_64/relocations.rt.
//! What the relocations of x86-64 mean.

use crate::linker_elf::elf::choice_table::RelocationName;
use crate::linker_elf::elf::rows::{TableRow, listed, raw_info_in, row_in, text_at};
use crate::linker_elf::elf::{Row, RowInfo};
use core::fmt;

/// The relocations of x86-64, by their names in the x86-64 psABI, "Relocation Types". `from_elf`
/// takes the `r_type` that an ELF file has.
#[cfg_attr(not(exhaustive), non_exhaustive)]
#[allow(non_camel_case_types)]
#[derive(Clone, Copy, PartialEq, Eq, Hash, PartialOrd, Ord)]
pub enum X86_64Relocation {
    R_X86_64_NONE,
    R_X86_64_64,
    R_X86_64_PC32,
    R_X86_64_GOT32,
    R_X86_64_PLT32,
    R_X86_64_GOTPCREL,
    R_X86_64_32,
    R_X86_64_32S,
    R_X86_64_16,
    R_X86_64_PC16,
    R_X86_64_8,
    R_X86_64_PC8,
    R_X86_64_DTPOFF64,
    R_X86_64_TPOFF64,
    R_X86_64_TLSGD,
    R_X86_64_TLSLD,
    R_X86_64_DTPOFF32,
    R_X86_64_GOTTPOFF,
    R_X86_64_TPOFF32,
    R_X86_64_PC64,
    R_X86_64_GOTOFF64,
    /// Its row is `Relative`, as that of `R_X86_64_PC32`: its formula is GOT + A - P, so the GOT's
    /// address is the symbol's. The same holds of `R_X86_64_GOTPC64`.
    R_X86_64_GOTPC32,
    R_X86_64_GOT64,
    R_X86_64_GOTPC64,
    R_X86_64_PLTOFF64,
    R_X86_64_SIZE32,
    R_X86_64_SIZE64,
    R_X86_64_GOTPC32_TLSDESC,
    R_X86_64_TLSDESC_CALL,
    R_X86_64_GOTPCRELX,
    R_X86_64_REX_GOTPCRELX,
    R_X86_64_CODE_4_GOTPCRELX,
    R_X86_64_CODE_4_GOTTPOFF,
    R_X86_64_CODE_4_GOTPC32_TLSDESC,
    R_X86_64_CODE_5_GOTPCRELX,
    R_X86_64_CODE_5_GOTTPOFF,
    R_X86_64_CODE_5_GOTPC32_TLSDESC,
    R_X86_64_CODE_6_GOTPCRELX,
    R_X86_64_CODE_6_GOTTPOFF,
    R_X86_64_CODE_6_GOTPC32_TLSDESC,
    /// An `r_type` without a name here.
    Other(u32),
}

/// Each relocation: its `r_type`, its name and its row, in the order of the enum of names.
macro_rules! relocations {
    ($($made:tt)+) => { listed! { ($($made)+) {
        0 R_X86_64_NONE (None, 0 bytes, any)
        1 R_X86_64_64 (Absolute, 8 bytes, any)
        2 R_X86_64_PC32 (Relative, 4 bytes, signed 32)
        3 R_X86_64_GOT32 (GotRelGotBase, 4 bytes, unsigned 32, reach: signed 32)
        4 R_X86_64_PLT32 (PltRelative, 4 bytes, signed 32)
        9 R_X86_64_GOTPCREL (GotRelative, 4 bytes, signed 32)
        10 R_X86_64_32 (Absolute, 4 bytes, unsigned 32)
        11 R_X86_64_32S (Absolute, 4 bytes, signed 32)
        12 R_X86_64_16 (Absolute, 2 bytes, signed_or_unsigned 16)
        13 R_X86_64_PC16 (Relative, 2 bytes, signed 16)
        14 R_X86_64_8 (Absolute, 1 bytes, signed_or_unsigned 8)
        15 R_X86_64_PC8 (Relative, 1 bytes, signed 8)
        17 R_X86_64_DTPOFF64 (DtpOff, 8 bytes, any)
        18 R_X86_64_TPOFF64 (TpOff, 8 bytes, any, own: true)
        19 R_X86_64_TLSGD (TlsGd, 4 bytes, signed 32)
        20 R_X86_64_TLSLD (TlsLd, 4 bytes, signed 32)
        21 R_X86_64_DTPOFF32 (DtpOff, 4 bytes, signed 32)
        22 R_X86_64_GOTTPOFF (GotTpOff, 4 bytes, signed 32)
        23 R_X86_64_TPOFF32 (TpOff, 4 bytes, signed 32)
        24 R_X86_64_PC64 (Relative, 8 bytes, any)
        25 R_X86_64_GOTOFF64 (SymRelGotBase, 8 bytes, any)
        26 R_X86_64_GOTPC32 (Relative, 4 bytes, signed 32)
        27 R_X86_64_GOT64 (GotRelGotBase, 8 bytes, any)
        29 R_X86_64_GOTPC64 (Relative, 8 bytes, any)
        31 R_X86_64_PLTOFF64 (PltRelGotBase, 8 bytes, any)
        32 R_X86_64_SIZE32 (SymbolSize, 4 bytes, unsigned 32)
        33 R_X86_64_SIZE64 (SymbolSize, 8 bytes, any)
        34 R_X86_64_GOTPC32_TLSDESC (TlsDesc, 4 bytes, signed 32)
        35 R_X86_64_TLSDESC_CALL (TlsDescCall, 0 bytes, any)
        41 R_X86_64_GOTPCRELX (GotRelative, 4 bytes, signed 32)
        42 R_X86_64_REX_GOTPCRELX (GotRelative, 4 bytes, signed 32)
        43 R_X86_64_CODE_4_GOTPCRELX (GotRelative, 4 bytes, signed 32)
        44 R_X86_64_CODE_4_GOTTPOFF (GotTpOff, 4 bytes, signed 32)
        45 R_X86_64_CODE_4_GOTPC32_TLSDESC (TlsDesc, 4 bytes, signed 32)
        46 R_X86_64_CODE_5_GOTPCRELX (GotRelative, 4 bytes, signed 32)
        47 R_X86_64_CODE_5_GOTTPOFF (GotTpOff, 4 bytes, signed 32)
        48 R_X86_64_CODE_5_GOTPC32_TLSDESC (TlsDesc, 4 bytes, signed 32)
        49 R_X86_64_CODE_6_GOTPCRELX (GotRelative, 4 bytes, signed 32)
        50 R_X86_64_CODE_6_GOTTPOFF (GotTpOff, 4 bytes, signed 32)
        51 R_X86_64_CODE_6_GOTPC32_TLSDESC (TlsDesc, 4 bytes, signed 32)
    } } };
}

impl fmt::Debug for X86_64Relocation {
    fn fmt(&self, f: &mut fmt::Formatter<'_>) -> fmt::Result {
        match self {
            X86_64Relocation::Other(r_type) => f.debug_tuple("Other").field(r_type).finish(),
            _ => f.write_str(self.name()),
        }
    }
}

impl X86_64Relocation {
    /// The relocation with an `r_type`; `Other(r_type)` for one without a name.
    #[must_use]
    #[inline(always)]
    pub const fn from_elf(r_type: u32) -> X86_64Relocation {
        relocations!(name_of X86_64Relocation, r_type)
    }

    /// The `r_type` in ELF files.
    #[must_use]
    #[inline]
    pub const fn r_type(self) -> u32 {
        match self {
            X86_64Relocation::Other(r_type) => r_type,
            _ => R_TYPES[index(self)],
        }
    }

    /// The name, as "R_X86_64_64"; "unknown relocation" for `Other`.
    #[must_use]
    pub const fn name(self) -> &'static str {
        match self {
            X86_64Relocation::Other(_) => "unknown relocation",
            _ => text_at(TEXTS, index(self)),
        }
    }
}

static R_TYPES: &[u32] = &relocations!(r_types);

static TEXTS: &[&str] = &relocations!(texts);

/// A constant, from which LLVM knows which types have a row, and what all rows share.
const ROWS: &[Option<TableRow>] = &relocations!(table []);

/// The index of a name in the table.
#[inline(always)]
const fn index(name: X86_64Relocation) -> usize {
    relocations!(index_of X86_64Relocation, name)
}

/// What a relocation means. It takes a name; [`X86_64Relocation::from_elf`](crate::x86_64::X86_64Relocation::from_elf) gives the name of an
/// `r_type`. Returns `None` for `Other`. Fields of 8 bytes are not checked. An address in 16 or 8
/// bits may be signed or unsigned.
#[must_use]
#[inline(always)]
pub const fn row(name: X86_64Relocation) -> Option<Row> {
    row_in(&ROWS[index(name)])
}

impl RelocationName for X86_64Relocation {
    #[inline(always)]
    fn find_row(self) -> Option<Row> {
        row(self)
    }
}

/// What a relocation means, if the crate `linker-utils` has a row for it.
#[must_use]
#[inline(always)]
pub const fn upstream_row(name: X86_64Relocation) -> Option<RowInfo> {
    raw_info_in(&ROWS[index(name)])
}
