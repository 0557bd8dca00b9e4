// SPDX-License-Identifier: MIT OR Apache-2.0
// Made by tools/generate of crates/linker_elf/src/aarch64/relocations.rt.
//! What the relocations of AArch64 mean.

use super::forms::form_of;
use crate::linker_elf::elf::choice_table::RelocationName;
use crate::linker_elf::elf::engine::form;
use crate::linker_elf::elf::rows::{TableRow, listed, row_in, text_at};
use crate::linker_elf::elf::{Row, RowInfo};
use core::fmt;

/// The relocations of AArch64, by their names in ELF for the Arm 64-bit Architecture, "Relocation".
/// `from_elf` takes the `r_type` that an ELF file has.
#[cfg_attr(not(exhaustive), non_exhaustive)]
#[derive(Clone, Copy, PartialEq, Eq, Hash, PartialOrd, Ord)]
pub enum AArch64Relocation {
    R_AARCH64_NONE,
    R_AARCH64_ABS64,
    R_AARCH64_ABS32,
    R_AARCH64_ABS16,
    R_AARCH64_PREL64,
    R_AARCH64_PREL32,
    R_AARCH64_PREL16,
    R_AARCH64_MOVW_UABS_G0,
    R_AARCH64_MOVW_UABS_G0_NC,
    R_AARCH64_MOVW_UABS_G1,
    R_AARCH64_MOVW_UABS_G1_NC,
    R_AARCH64_MOVW_UABS_G2,
    R_AARCH64_MOVW_UABS_G2_NC,
    R_AARCH64_MOVW_UABS_G3,
    R_AARCH64_MOVW_SABS_G0,
    R_AARCH64_MOVW_SABS_G1,
    R_AARCH64_MOVW_SABS_G2,
    R_AARCH64_LD_PREL_LO19,
    R_AARCH64_ADR_PREL_LO21,
    R_AARCH64_ADR_PREL_PG_HI21,
    R_AARCH64_ADR_PREL_PG_HI21_NC,
    R_AARCH64_ADD_ABS_LO12_NC,
    R_AARCH64_LDST8_ABS_LO12_NC,
    R_AARCH64_TSTBR14,
    R_AARCH64_CONDBR19,
    R_AARCH64_JUMP26,
    R_AARCH64_CALL26,
    R_AARCH64_LDST16_ABS_LO12_NC,
    R_AARCH64_LDST32_ABS_LO12_NC,
    R_AARCH64_LDST64_ABS_LO12_NC,
    R_AARCH64_MOVW_PREL_G0,
    R_AARCH64_MOVW_PREL_G0_NC,
    R_AARCH64_MOVW_PREL_G1,
    R_AARCH64_MOVW_PREL_G1_NC,
    R_AARCH64_MOVW_PREL_G2,
    R_AARCH64_MOVW_PREL_G2_NC,
    R_AARCH64_MOVW_PREL_G3,
    R_AARCH64_LDST128_ABS_LO12_NC,
    R_AARCH64_MOVW_GOTOFF_G0,
    R_AARCH64_MOVW_GOTOFF_G0_NC,
    R_AARCH64_MOVW_GOTOFF_G1,
    R_AARCH64_MOVW_GOTOFF_G1_NC,
    R_AARCH64_MOVW_GOTOFF_G2,
    R_AARCH64_MOVW_GOTOFF_G2_NC,
    R_AARCH64_MOVW_GOTOFF_G3,
    R_AARCH64_GOTREL64,
    R_AARCH64_GOTREL32,
    R_AARCH64_GOT_LD_PREL19,
    R_AARCH64_LD64_GOTOFF_LO15,
    R_AARCH64_ADR_GOT_PAGE,
    R_AARCH64_LD64_GOT_LO12_NC,
    R_AARCH64_LD64_GOTPAGE_LO15,
    R_AARCH64_PLT32,
    R_AARCH64_GOTPCREL32,
    R_AARCH64_TLSGD_ADR_PREL21,
    R_AARCH64_TLSGD_ADR_PAGE21,
    R_AARCH64_TLSGD_ADD_LO12_NC,
    R_AARCH64_TLSGD_MOVW_G1,
    R_AARCH64_TLSGD_MOVW_G0_NC,
    R_AARCH64_TLSLD_ADR_PREL21,
    R_AARCH64_TLSLD_ADR_PAGE21,
    R_AARCH64_TLSLD_ADD_LO12_NC,
    R_AARCH64_TLSLD_MOVW_G1,
    R_AARCH64_TLSLD_MOVW_G0_NC,
    R_AARCH64_TLSLD_LD_PREL19,
    R_AARCH64_TLSLD_MOVW_DTPREL_G2,
    R_AARCH64_TLSLD_MOVW_DTPREL_G1,
    R_AARCH64_TLSLD_MOVW_DTPREL_G1_NC,
    R_AARCH64_TLSLD_MOVW_DTPREL_G0,
    R_AARCH64_TLSLD_MOVW_DTPREL_G0_NC,
    R_AARCH64_TLSLD_ADD_DTPREL_HI12,
    R_AARCH64_TLSLD_ADD_DTPREL_LO12,
    R_AARCH64_TLSLD_ADD_DTPREL_LO12_NC,
    R_AARCH64_TLSLD_LDST8_DTPREL_LO12,
    R_AARCH64_TLSLD_LDST8_DTPREL_LO12_NC,
    R_AARCH64_TLSLD_LDST16_DTPREL_LO12,
    R_AARCH64_TLSLD_LDST16_DTPREL_LO12_NC,
    R_AARCH64_TLSLD_LDST32_DTPREL_LO12,
    R_AARCH64_TLSLD_LDST32_DTPREL_LO12_NC,
    R_AARCH64_TLSLD_LDST64_DTPREL_LO12,
    R_AARCH64_TLSLD_LDST64_DTPREL_LO12_NC,
    R_AARCH64_TLSIE_MOVW_GOTTPREL_G1,
    R_AARCH64_TLSIE_MOVW_GOTTPREL_G0_NC,
    R_AARCH64_TLSIE_ADR_GOTTPREL_PAGE21,
    R_AARCH64_TLSIE_LD64_GOTTPREL_LO12_NC,
    R_AARCH64_TLSIE_LD_GOTTPREL_PREL19,
    R_AARCH64_TLSLE_MOVW_TPREL_G2,
    R_AARCH64_TLSLE_MOVW_TPREL_G1,
    R_AARCH64_TLSLE_MOVW_TPREL_G1_NC,
    R_AARCH64_TLSLE_MOVW_TPREL_G0,
    R_AARCH64_TLSLE_MOVW_TPREL_G0_NC,
    R_AARCH64_TLSLE_ADD_TPREL_HI12,
    R_AARCH64_TLSLE_ADD_TPREL_LO12,
    R_AARCH64_TLSLE_ADD_TPREL_LO12_NC,
    R_AARCH64_TLSLE_LDST8_TPREL_LO12,
    R_AARCH64_TLSLE_LDST8_TPREL_LO12_NC,
    R_AARCH64_TLSLE_LDST16_TPREL_LO12,
    R_AARCH64_TLSLE_LDST16_TPREL_LO12_NC,
    R_AARCH64_TLSLE_LDST32_TPREL_LO12,
    R_AARCH64_TLSLE_LDST32_TPREL_LO12_NC,
    R_AARCH64_TLSLE_LDST64_TPREL_LO12,
    R_AARCH64_TLSLE_LDST64_TPREL_LO12_NC,
    R_AARCH64_TLSDESC_LD_PREL19,
    R_AARCH64_TLSDESC_ADR_PREL21,
    R_AARCH64_TLSDESC_ADR_PAGE21,
    R_AARCH64_TLSDESC_LD64_LO12,
    R_AARCH64_TLSDESC_ADD_LO12,
    R_AARCH64_TLSDESC_OFF_G1,
    R_AARCH64_TLSDESC_OFF_G0_NC,
    R_AARCH64_TLSDESC_CALL,
    R_AARCH64_TLSLE_LDST128_TPREL_LO12,
    R_AARCH64_TLSLE_LDST128_TPREL_LO12_NC,
    R_AARCH64_TLSLD_LDST128_DTPREL_LO12,
    R_AARCH64_TLSLD_LDST128_DTPREL_LO12_NC,
    /// An `r_type` without a name here.
    Other(u32),
}

/// Each relocation: its `r_type`, its name and its row, in the order of the enum of names.
macro_rules! relocations {
    ($($made:tt)+) => { listed! { ($($made)+) 0 from 0 {
        0 R_AARCH64_NONE (None, 0 bytes, any)
    } 1 from 257 {
        257 R_AARCH64_ABS64 (Absolute, 8 bytes, any)
        258 R_AARCH64_ABS32 (Absolute, 4 bytes, signed_or_unsigned 32)
        259 R_AARCH64_ABS16 (Absolute, 2 bytes, signed_or_unsigned 16)
        260 R_AARCH64_PREL64 (Relative, 8 bytes, any)
        261 R_AARCH64_PREL32 (Relative, 4 bytes, signed_or_unsigned 32)
        262 R_AARCH64_PREL16 (Relative, 2 bytes, signed_or_unsigned 16)
        263 R_AARCH64_MOVW_UABS_G0 (Absolute, 0..16 Movkz, unsigned 16)
        264 R_AARCH64_MOVW_UABS_G0_NC (Absolute, 0..16 Movkz, any)
        265 R_AARCH64_MOVW_UABS_G1 (Absolute, 16..32 Movkz, unsigned 32)
        266 R_AARCH64_MOVW_UABS_G1_NC (Absolute, 16..32 Movkz, any)
        267 R_AARCH64_MOVW_UABS_G2 (Absolute, 32..48 Movkz, unsigned 48)
        268 R_AARCH64_MOVW_UABS_G2_NC (Absolute, 32..48 Movkz, any)
        269 R_AARCH64_MOVW_UABS_G3 (Absolute, 48..64 Movkz, any)
        270 R_AARCH64_MOVW_SABS_G0 (Absolute, 0..16 Movnz, signed 17)
        271 R_AARCH64_MOVW_SABS_G1 (Absolute, 16..32 Movnz, signed 33)
        272 R_AARCH64_MOVW_SABS_G2 (Absolute, 32..48 Movnz, signed 49)
        273 R_AARCH64_LD_PREL_LO19 (Relative, 2..21 Ldr, signed 21, alignment: 4)
        274 R_AARCH64_ADR_PREL_LO21 (Relative, 0..21 Adr, signed 21)
        275 R_AARCH64_ADR_PREL_PG_HI21 (Relative, 12..33 Adr, signed 33, mask: PLACE_PAGES)
        276 R_AARCH64_ADR_PREL_PG_HI21_NC (Relative, 12..33 Adr, any, mask: PLACE_PAGES)
        277 R_AARCH64_ADD_ABS_LO12_NC (AbsoluteLowPart, 0..12 Add, any)
        278 R_AARCH64_LDST8_ABS_LO12_NC (AbsoluteLowPart, 0..12 LdSt, any)
        279 R_AARCH64_TSTBR14 (Relative, 2..16 TstBr, signed 16, alignment: 4)
        280 R_AARCH64_CONDBR19 (Relative, 2..21 Bcond, signed 21, alignment: 4) [281]
        282 R_AARCH64_JUMP26 (PltRelative, 2..28 JumpCall, signed 28, alignment: 4, thunkable: true)
        283 R_AARCH64_CALL26 (PltRelative, 2..28 JumpCall, signed 28, alignment: 4, thunkable: true)
        284 R_AARCH64_LDST16_ABS_LO12_NC (AbsoluteLowPart, 1..12 LdSt, any, alignment: 2)
        285 R_AARCH64_LDST32_ABS_LO12_NC (AbsoluteLowPart, 2..12 LdSt, any, alignment: 4)
        286 R_AARCH64_LDST64_ABS_LO12_NC (AbsoluteLowPart, 3..12 LdSt, any, alignment: 8)
        287 R_AARCH64_MOVW_PREL_G0 (Relative, 0..16 Movnz, any, reach: signed 17)
        288 R_AARCH64_MOVW_PREL_G0_NC (Relative, 0..16 Movkz, any)
        289 R_AARCH64_MOVW_PREL_G1 (Relative, 16..32 Movnz, any, reach: signed 33)
        290 R_AARCH64_MOVW_PREL_G1_NC (Relative, 16..32 Movkz, any)
        291 R_AARCH64_MOVW_PREL_G2 (Relative, 32..48 Movnz, any, reach: signed 49)
        292 R_AARCH64_MOVW_PREL_G2_NC (Relative, 32..48 Movkz, any)
        293 R_AARCH64_MOVW_PREL_G3 (Relative, 48..64 Movnz, any) [294 295 296 297 298]
        299 R_AARCH64_LDST128_ABS_LO12_NC (AbsoluteLowPart, 4..12 LdSt, any, alignment: 16)
        300 R_AARCH64_MOVW_GOTOFF_G0 (GotRelGotBase, 0..16 Movnz, any, reach: signed 17)
        301 R_AARCH64_MOVW_GOTOFF_G0_NC (GotRelGotBase, 0..16 Movkz, any)
        302 R_AARCH64_MOVW_GOTOFF_G1 (GotRelGotBase, 16..32 Movnz, any, reach: signed 33)
        303 R_AARCH64_MOVW_GOTOFF_G1_NC (GotRelGotBase, 16..32 Movkz, any)
        304 R_AARCH64_MOVW_GOTOFF_G2 (GotRelGotBase, 32..48 Movnz, any, reach: signed 49)
        305 R_AARCH64_MOVW_GOTOFF_G2_NC (GotRelGotBase, 32..48 Movkz, any)
        306 R_AARCH64_MOVW_GOTOFF_G3 (GotRelGotBase, 48..64 Movnz, any)
        307 R_AARCH64_GOTREL64 (SymRelGotBase, 8 bytes, any)
        308 R_AARCH64_GOTREL32 (SymRelGotBase, 4 bytes, signed 32)
        309 R_AARCH64_GOT_LD_PREL19 (GotRelative, 2..21 Ldr, signed 21, alignment: 4)
        310 R_AARCH64_LD64_GOTOFF_LO15 (GotRelGotBase, 3..15 LdSt, unsigned 15, alignment: 8)
        311 R_AARCH64_ADR_GOT_PAGE (GotRelative, 12..33 Adr, signed 33, mask: ENTRY_PAGES)
        312 R_AARCH64_LD64_GOT_LO12_NC (Got, 3..12 LdSt, any, alignment: 8)
        313 R_AARCH64_LD64_GOTPAGE_LO15 (GotRelGotBase, 3..15 LdSt, unsigned 15, alignment: 8,
            mask: GOT_PAGE)
        314 R_AARCH64_PLT32 (PltRelative, 4 bytes, signed 32)
        315 R_AARCH64_GOTPCREL32 (GotRelative, 4 bytes, signed 32)
    } 2 from 512 {
        512 R_AARCH64_TLSGD_ADR_PREL21 (TlsGd, 0..21 Adr, signed 21)
        513 R_AARCH64_TLSGD_ADR_PAGE21 (TlsGd, 12..33 Adr, signed 33, mask: ENTRY_PAGES)
        514 R_AARCH64_TLSGD_ADD_LO12_NC (TlsGdGot, 0..12 Add, any)
        515 R_AARCH64_TLSGD_MOVW_G1 (TlsGdGotBase, 16..32 Movnz, any, reach: signed 33)
        516 R_AARCH64_TLSGD_MOVW_G0_NC (TlsGdGotBase, 0..16 Movkz, any)
        517 R_AARCH64_TLSLD_ADR_PREL21 (TlsLd, 0..21 Adr, signed 21)
        518 R_AARCH64_TLSLD_ADR_PAGE21 (TlsLd, 12..33 Adr, signed 33, mask: ENTRY_PAGES)
        519 R_AARCH64_TLSLD_ADD_LO12_NC (TlsLdGot, 0..12 Add, any)
        520 R_AARCH64_TLSLD_MOVW_G1 (TlsLdGotBase, 16..32 Movnz, any, reach: signed 33)
        521 R_AARCH64_TLSLD_MOVW_G0_NC (TlsLdGotBase, 0..16 Movkz, any)
        522 R_AARCH64_TLSLD_LD_PREL19 (TlsLd, 2..21 Ldr, signed 21, alignment: 4)
        523 R_AARCH64_TLSLD_MOVW_DTPREL_G2 (DtpOff, 32..48 Movnz, any, reach: signed 49)
        524 R_AARCH64_TLSLD_MOVW_DTPREL_G1 (DtpOff, 16..32 Movnz, any, reach: signed 33)
        525 R_AARCH64_TLSLD_MOVW_DTPREL_G1_NC (DtpOff, 16..32 Movkz, any)
        526 R_AARCH64_TLSLD_MOVW_DTPREL_G0 (DtpOff, 0..16 Movnz, any, reach: signed 17)
        527 R_AARCH64_TLSLD_MOVW_DTPREL_G0_NC (DtpOff, 0..16 Movkz, any)
        528 R_AARCH64_TLSLD_ADD_DTPREL_HI12 (DtpOff, 12..24 Add, unsigned 24)
        529 R_AARCH64_TLSLD_ADD_DTPREL_LO12 (DtpOff, 0..12 Add, unsigned 12)
        530 R_AARCH64_TLSLD_ADD_DTPREL_LO12_NC (DtpOff, 0..12 Add, any)
        531 R_AARCH64_TLSLD_LDST8_DTPREL_LO12 (DtpOff, 0..12 LdSt, unsigned 12)
        532 R_AARCH64_TLSLD_LDST8_DTPREL_LO12_NC (DtpOff, 0..12 LdSt, any)
        533 R_AARCH64_TLSLD_LDST16_DTPREL_LO12 (DtpOff, 1..12 LdSt, unsigned 12, alignment: 2)
        534 R_AARCH64_TLSLD_LDST16_DTPREL_LO12_NC (DtpOff, 1..12 LdSt, any, alignment: 2)
        535 R_AARCH64_TLSLD_LDST32_DTPREL_LO12 (DtpOff, 2..12 LdSt, unsigned 12, alignment: 4)
        536 R_AARCH64_TLSLD_LDST32_DTPREL_LO12_NC (DtpOff, 2..12 LdSt, any, alignment: 4)
        537 R_AARCH64_TLSLD_LDST64_DTPREL_LO12 (DtpOff, 3..12 LdSt, unsigned 12, alignment: 8)
        538 R_AARCH64_TLSLD_LDST64_DTPREL_LO12_NC (DtpOff, 3..12 LdSt, any, alignment: 8)
        539 R_AARCH64_TLSIE_MOVW_GOTTPREL_G1 (GotTpOffGotBase, 16..32 Movnz, any, reach: signed 33)
        540 R_AARCH64_TLSIE_MOVW_GOTTPREL_G0_NC (GotTpOffGotBase, 0..16 Movkz, any)
        541 R_AARCH64_TLSIE_ADR_GOTTPREL_PAGE21 (GotTpOff, 12..33 Adr, signed 33, mask: ENTRY_PAGES)
        542 R_AARCH64_TLSIE_LD64_GOTTPREL_LO12_NC (GotTpOffGot, 3..12 LdrRegister, any,
            alignment: 8)
        543 R_AARCH64_TLSIE_LD_GOTTPREL_PREL19 (GotTpOff, 2..21 Ldr, signed 21, alignment: 4)
        544 R_AARCH64_TLSLE_MOVW_TPREL_G2 (TpOff, 32..48 Movnz, any, reach: signed 49)
        545 R_AARCH64_TLSLE_MOVW_TPREL_G1 (TpOff, 16..32 Movnz, any, reach: signed 33)
        546 R_AARCH64_TLSLE_MOVW_TPREL_G1_NC (TpOff, 16..32 Movkz, any)
        547 R_AARCH64_TLSLE_MOVW_TPREL_G0 (TpOff, 0..16 Movnz, any, reach: signed 17)
        548 R_AARCH64_TLSLE_MOVW_TPREL_G0_NC (TpOff, 0..16 Movkz, any)
        549 R_AARCH64_TLSLE_ADD_TPREL_HI12 (TpOff, 12..24 Add, unsigned 24)
        550 R_AARCH64_TLSLE_ADD_TPREL_LO12 (TpOff, 0..12 Add, unsigned 12)
        551 R_AARCH64_TLSLE_ADD_TPREL_LO12_NC (TpOff, 0..12 Add, any)
        552 R_AARCH64_TLSLE_LDST8_TPREL_LO12 (TpOff, 0..12 LdSt, unsigned 12)
        553 R_AARCH64_TLSLE_LDST8_TPREL_LO12_NC (TpOff, 0..12 LdSt, any)
        554 R_AARCH64_TLSLE_LDST16_TPREL_LO12 (TpOff, 1..12 LdSt, unsigned 12, alignment: 2)
        555 R_AARCH64_TLSLE_LDST16_TPREL_LO12_NC (TpOff, 1..12 LdSt, any, alignment: 2)
        556 R_AARCH64_TLSLE_LDST32_TPREL_LO12 (TpOff, 2..12 LdSt, unsigned 12, alignment: 4)
        557 R_AARCH64_TLSLE_LDST32_TPREL_LO12_NC (TpOff, 2..12 LdSt, any, alignment: 4)
        558 R_AARCH64_TLSLE_LDST64_TPREL_LO12 (TpOff, 3..12 LdSt, unsigned 12, alignment: 8)
        559 R_AARCH64_TLSLE_LDST64_TPREL_LO12_NC (TpOff, 3..12 LdSt, any, alignment: 8)
        560 R_AARCH64_TLSDESC_LD_PREL19 (TlsDesc, 2..21 Ldr, signed 21, alignment: 4)
        561 R_AARCH64_TLSDESC_ADR_PREL21 (TlsDesc, 0..21 Adr, signed 21)
        562 R_AARCH64_TLSDESC_ADR_PAGE21 (TlsDesc, 12..33 Adr, signed 33, mask: ENTRY_PAGES)
        563 R_AARCH64_TLSDESC_LD64_LO12 (TlsDescGot, 3..12 LdrRegister, any, alignment: 8)
        564 R_AARCH64_TLSDESC_ADD_LO12 (TlsDescGot, 0..12 Add, any)
        565 R_AARCH64_TLSDESC_OFF_G1 (TlsDescGotBase, 16..32 Movnz, signed 33)
        566 R_AARCH64_TLSDESC_OFF_G0_NC (TlsDescGotBase, 0..16 Movkz, any) [567 568]
        569 R_AARCH64_TLSDESC_CALL (TlsDescCall, 0 bytes, any)
        570 R_AARCH64_TLSLE_LDST128_TPREL_LO12 (TpOff, 4..12 LdSt, unsigned 12, alignment: 16)
        571 R_AARCH64_TLSLE_LDST128_TPREL_LO12_NC (TpOff, 4..12 LdSt, any, alignment: 16)
        572 R_AARCH64_TLSLD_LDST128_DTPREL_LO12 (DtpOff, 4..12 LdSt, unsigned 12, alignment: 16)
        573 R_AARCH64_TLSLD_LDST128_DTPREL_LO12_NC (DtpOff, 4..12 LdSt, any, alignment: 16)
    } } };
}

impl fmt::Debug for AArch64Relocation {
    fn fmt(&self, f: &mut fmt::Formatter<'_>) -> fmt::Result {
        match self {
            AArch64Relocation::Other(r_type) => f.debug_tuple("Other").field(r_type).finish(),
            _ => f.write_str(self.name()),
        }
    }
}

impl AArch64Relocation {
    /// The relocation with an `r_type`; `Other(r_type)` for one without a name.
    #[must_use]
    #[inline(always)]
    pub const fn from_elf(r_type: u32) -> AArch64Relocation {
        relocations!(name_of AArch64Relocation, r_type)
    }

    /// The `r_type` in ELF files.
    #[must_use]
    #[inline]
    pub const fn r_type(self) -> u32 {
        match self {
            AArch64Relocation::Other(r_type) => r_type,
            _ => R_TYPES[index(self)],
        }
    }

    /// The name, as "R_AARCH64_CALL26"; "unknown relocation" for `Other`.
    #[must_use]
    pub const fn name(self) -> &'static str {
        match self {
            AArch64Relocation::Other(_) => "unknown relocation",
            _ => text_at(TEXTS, index(self)),
        }
    }
}

const NAMES: &[&[AArch64Relocation]] = &relocations!(names AArch64Relocation);

static R_TYPES: &[u32] = &relocations!(r_types);

static TEXTS: &[&str] = &relocations!(texts);

static ROWS: &[Option<TableRow>] = &relocations!(table [AArch64 AArch64Instruction EM_AARCH64]);

/// The index of a name in the table.
#[inline(always)]
const fn index(name: AArch64Relocation) -> usize {
    relocations!(index_of AArch64Relocation, name)
}

/// What a relocation means. It takes a name; [`AArch64Relocation::from_elf`](crate::aarch64::AArch64Relocation::from_elf) gives the name of an
/// `r_type`. Returns `None` for `Other`. The bias is added before the page mask is applied, and
/// both before the bits are taken.
///
/// ```
/// use linker_utils::aarch64::{AArch64Relocation, relocation_type_from_raw};
///
/// let call26 = relocation_type_from_raw(AArch64Relocation::from_elf(283)).unwrap();
/// assert_eq!(call26.alignment, 4);
/// assert!(call26.range.contains(-(1 << 27)));
/// assert!(!call26.range.contains(1 << 27));
/// ```
#[must_use]
#[inline(always)]
pub const fn row(name: AArch64Relocation) -> Option<Row> {
    row_in(&ROWS[index(name)])
}

impl RelocationName for AArch64Relocation {
    #[inline(always)]
    fn find_row(self) -> Option<Row> {
        row(self)
    }
}

/// What a relocation means, if the crate `linker-utils` has a row for it.
#[must_use]
#[inline(always)]
pub const fn upstream_row(name: AArch64Relocation) -> Option<RowInfo> {
    match row(name) {
        Some(row) => Some(row.info()),
        None => None,
    }
}
