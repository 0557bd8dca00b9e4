//! The sixth architecture: what its relocations mean. Its instructions are those of AArch64.

use crate::linker_elf::aarch64::forms::form_of;
use crate::linker_elf::elf::choice_table::RelocationName;
use crate::linker_elf::elf::engine::form;
use crate::linker_elf::elf::rows::{TableRow, listed, row_in, text_at};
use crate::linker_elf::elf::Row;
use core::fmt;

/// The relocations. Most types are such as other architectures have for something else.
#[cfg_attr(not(exhaustive), non_exhaustive)]
#[derive(Clone, Copy, PartialEq, Eq, Hash, PartialOrd, Ord)]
pub enum SixthRelocation {
    R_SIXTH_NONE,
    R_SIXTH_PAGE,
    R_SIXTH_ADD_LOW,
    R_SIXTH_CALL,
    R_SIXTH_TLS_OFFSET_LOW,
    R_SIXTH_JUMP,
    R_SIXTH_LOAD_LOW,
    R_SIXTH_GOT_PAGE,
    R_SIXTH_GOT_LOAD,
    R_SIXTH_TLS_GOT_PAGE,
    R_SIXTH_TLS_GOT_LOAD,
    R_SIXTH_TLS_OFFSET_HIGH,
    R_SIXTH_TLS_PAIR_PAGE,
    R_SIXTH_TLS_PAIR_ADD,
    R_SIXTH_GOT_DISTANCE,
    R_SIXTH_WORD,
    /// An `r_type` without a name here.
    Other(u32),
}

macro_rules! relocations {
    ($($made:tt)+) => { listed! { ($($made)+) {
        0 R_SIXTH_NONE (None, 0 bytes, any)
        // R_RISCV_GOT_HI20
        20 R_SIXTH_PAGE (Relative, 12..33 Adr, signed 33, mask: PLACE_PAGES)
        // R_RISCV_PCREL_LO12_I
        24 R_SIXTH_ADD_LOW (AbsoluteLowPart, 0..12 Add, any)
        // R_RISCV_ALIGN
        43 R_SIXTH_CALL (PltRelative, 2..28 JumpCall, signed 28, alignment: 4, thunkable: true)
        // R_PPC64_TOC16_HA
        50 R_SIXTH_TLS_OFFSET_LOW (TpOff, 0..12 Add, any)
        // R_RISCV_RELAX
        51 R_SIXTH_JUMP (PltRelative, 2..28 JumpCall, signed 28, alignment: 4, thunkable: true)
        // R_RISCV_TLSDESC_HI20
        62 R_SIXTH_LOAD_LOW (AbsoluteLowPart, 3..12 LdSt, any, alignment: 8)
        // R_LARCH_PCALA_HI20
        71 R_SIXTH_GOT_PAGE (GotRelative, 12..33 Adr, signed 33, mask: ENTRY_PAGES)
        // R_LARCH_PCALA_LO12
        72 R_SIXTH_GOT_LOAD (Got, 3..12 LdSt, any, alignment: 8)
        // R_LARCH_RELAX
        100 R_SIXTH_TLS_GOT_PAGE (GotTpOff, 12..33 Adr, signed 33, mask: ENTRY_PAGES)
        // R_LARCH_ALIGN
        102 R_SIXTH_TLS_GOT_LOAD (GotTpOffGot, 3..12 LdrRegister, any, alignment: 8)
        // R_PPC64_REL24_NOTOC
        116 R_SIXTH_TLS_OFFSET_HIGH (TpOff, 12..24 Add, unsigned 24)
        // R_AARCH64_ABS64
        257 R_SIXTH_TLS_PAIR_PAGE (TlsGd, 12..33 Adr, signed 33, mask: ENTRY_PAGES)
        // R_AARCH64_JUMP26
        282 R_SIXTH_TLS_PAIR_ADD (TlsGdGot, 0..12 Add, any)
        // R_AARCH64_CALL26
        283 R_SIXTH_GOT_DISTANCE (SymRelGotBase, 8 bytes, any)
        // R_AARCH64_RELATIVE
        1027 R_SIXTH_WORD (Absolute, 8 bytes, any)
    } } };
}

impl fmt::Debug for SixthRelocation {
    fn fmt(&self, f: &mut fmt::Formatter<'_>) -> fmt::Result {
        match self {
            SixthRelocation::Other(r_type) => f.debug_tuple("Other").field(r_type).finish(),
            _ => f.write_str(self.name()),
        }
    }
}

impl SixthRelocation {
    #[must_use]
    #[inline(always)]
    pub const fn from_elf(r_type: u32) -> SixthRelocation {
        relocations!(name_of SixthRelocation, r_type)
    }

    #[must_use]
    #[inline]
    pub const fn r_type(self) -> u32 {
        match self {
            SixthRelocation::Other(r_type) => r_type,
            _ => R_TYPES[index(self)],
        }
    }

    #[must_use]
    pub const fn name(self) -> &'static str {
        match self {
            SixthRelocation::Other(_) => "unknown relocation",
            _ => text_at(TEXTS, index(self)),
        }
    }
}

static R_TYPES: &[u32] = &relocations!(r_types);

static TEXTS: &[&str] = &relocations!(texts);

static ROWS: &[Option<TableRow>] = &relocations!(table [AArch64 AArch64Instruction EM_AARCH64]);

#[inline(always)]
const fn index(name: SixthRelocation) -> usize {
    relocations!(index_of SixthRelocation, name)
}

#[must_use]
#[inline(always)]
pub const fn row(name: SixthRelocation) -> Option<Row> {
    row_in(&ROWS[index(name)])
}

impl RelocationName for SixthRelocation {
    #[inline(always)]
    fn find_row(self) -> Option<Row> {
        row(self)
    }
}
