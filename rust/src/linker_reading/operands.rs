// SPDX-License-Identifier: MIT OR Apache-2.0
// Made by tools/generate of crates/linker_reading/src/operands.rt.
//! Which forms the immediate of an instruction has, and the number that the machine makes of it.

#[cfg(feature = "aarch64")]
mod aarch64;
#[cfg(feature = "loongarch64")]
mod loongarch64;
#[cfg(feature = "ppc64")]
mod ppc64;
#[cfg(feature = "riscv64")]
mod riscv64;

use crate::linker_reading::reading::{number_held, number_of_bytes};
use crate::linker_base::bit_misc::BitExtraction;
use crate::linker_base::utils::u32_from_slice;
use crate::linker_elf::elf::{AnyForm, InstructionForm};
#[cfg(feature = "aarch64")]
use crate::linker_elf::elf::AArch64Instruction;
#[cfg(feature = "loongarch64")]
use crate::linker_elf::elf::LoongArch64Instruction;
#[cfg(feature = "ppc64")]
use crate::linker_elf::elf::Ppc64Form;
use crate::elf::Architecture;

/// Which registers of two instructions have to be the same: the destination of the first, and the
/// base of the second. Each has 5 bits.
#[derive(Clone, Copy)]
enum Base {
    /// None.
    Any,
    /// From bit 7 on, and from bit 15 of the second word on.
    From7And47,
    /// From bit 0 on, and from bit 5 of the second word on.
    From0And37,
}

/// An instruction, or two that make one value: the bits of its opcode, and the forms of its
/// immediate.
struct Encoding {
    /// Its bytes.
    len: usize,
    /// Which bits are the opcode's, of its bytes as a little-endian number.
    mask: u64,
    /// Those bits.
    bits: u64,
    /// Which registers have to be the same.
    base: Base,
    /// The forms.
    forms: &'static [AnyForm],
}

/// An encoding of n bytes of an architecture.
macro_rules! encoding {
    ($len:literal, $mask:expr, $bits:expr, $architecture:ident [$($form:expr),*]) => {
        Encoding {
            len: $len,
            mask: $mask,
            bits: $bits,
            base: Base::Any,
            forms: &[$(AnyForm::$architecture($form)),*],
        }
    };
}

pub(crate) use encoding;

/// The encodings of an architecture. x86-64's values are whole bytes, which no form has.
fn encodings(architecture: Architecture) -> &'static [Encoding] {
    match architecture {
        #[cfg(feature = "aarch64")]
        Architecture::AArch64 => aarch64::ENCODINGS,
        #[cfg(feature = "riscv64")]
        Architecture::RiscV => riscv64::ENCODINGS,
        #[cfg(feature = "loongarch64")]
        Architecture::LoongArch64 => loongarch64::ENCODINGS,
        #[cfg(feature = "ppc64")]
        Architecture::Ppc64 => ppc64::ENCODINGS,
        #[cfg(feature = "x86_64")]
        Architecture::X86_64 => &[],
    }
}

impl Encoding {
    /// Whether it is in a number of n bytes.
    fn is_in(&self, len: usize, number: u64) -> bool {
        if self.len > len {
            return false;
        }
        if number & self.mask != self.bits {
            return false;
        }
        match self.base {
            Base::Any => true,
            Base::From7And47 => number.extract_bit_range(7..12) == number.extract_bit_range(47..52),
            Base::From0And37 => number.extract_bit_range(0..5) == number.extract_bit_range(37..42),
        }
    }
}

/// The forms of the first encoding that is in a number of n bytes.
fn first_forms(encodings: &'static [Encoding], len: usize, number: u64) -> &'static [AnyForm] {
    for encoding in encodings {
        if encoding.is_in(len, number) {
            return encoding.forms;
        }
    }
    &[]
}

/// The forms that the immediate of the instruction that `bytes` begins with has, by its opcode in
/// the architecture's manual. `bytes` may be longer than the instruction: where it and the next one
/// make one value, as `auipc` and `jalr` by the same register do, the form of both is there too. So
/// a form of 4 bytes is returned where there are 4, and one of 8 bytes where there are 8. Empty
/// where the instruction has no immediate that a form holds, where there are too few bytes, and for
/// x86-64, whose values are whole bytes.
///
/// `LdSt`, `LdrRegister` and `MachOLow12` of AArch64 share their instructions, and so do `Movkz`
/// and `Movnz`, and `Add` and `MachOLow12`: [`operand`](crate::reading::operand()) of each is the same. `R_LARCH_CALL30`'s pair
/// isn't in the manual, so `Call30` is never returned.
///
/// ```
/// use linker_utils::reading::{forms_of, operand};
/// use linker_utils::elf::{AnyForm, Architecture, Ppc64Form};
///
/// // `b .-4`
/// let word = 0x4bff_fffcu32.to_le_bytes();
/// let forms = forms_of(Architecture::Ppc64, &word);
/// assert_eq!(forms, [AnyForm::Ppc64(Ppc64Form::Branch24)]);
/// assert_eq!(operand(forms[0], &word), Some(-4));
/// ```
#[must_use]
pub fn forms_of(architecture: Architecture, bytes: &[u8]) -> &'static [AnyForm] {
    let len = bytes.len().min(8);
    first_forms(encodings(architecture), len, number_of_bytes(len, bytes))
}

/// Whose forms these are.
fn architecture_of(form: AnyForm) -> Architecture {
    match form {
        #[cfg(feature = "aarch64")]
        AnyForm::AArch64(_) => Architecture::AArch64,
        #[cfg(feature = "riscv64")]
        AnyForm::RiscV(_) => Architecture::RiscV,
        #[cfg(feature = "ppc64")]
        AnyForm::Ppc64(_) => Architecture::Ppc64,
        #[cfg(feature = "loongarch64")]
        AnyForm::LoongArch64(_) => Architecture::LoongArch64,
    }
}

/// Whether bytes begin with an instruction of a form.
fn has_form(form: AnyForm, bytes: &[u8]) -> bool {
    if bytes.len() < form.window() {
        return false;
    }
    is_one_of(form, forms_of(architecture_of(form), bytes))
}

/// Whether a form is one of some.
fn is_one_of(form: AnyForm, forms: &'static [AnyForm]) -> bool {
    for other in forms {
        if *other == form {
            return true;
        }
    }
    false
}

/// The number in an immediate, modulo 2^64.
fn immediate_number(form: AnyForm, bytes: &[u8]) -> u64 {
    match form {
        #[cfg(feature = "aarch64")]
        AnyForm::AArch64(AArch64Instruction::Movnz) => {
            aarch64::moved_number(u32_from_slice(bytes) as u64)
        }
        #[cfg(feature = "loongarch64")]
        AnyForm::LoongArch64(LoongArch64Instruction::Shift10) => {
            loongarch64::shift10_number(u32_from_slice(bytes) as u64)
        }
        _ => number_held(form, bytes),
    }
}

/// Log2 of what an immediate counts.
fn scale_of(form: AnyForm, bytes: &[u8]) -> u64 {
    match form {
        #[cfg(feature = "aarch64")]
        AnyForm::AArch64(form) => aarch64::scale(form, u32_from_slice(bytes) as u64),
        #[cfg(feature = "riscv64")]
        AnyForm::RiscV(_) => 0,
        #[cfg(feature = "ppc64")]
        AnyForm::Ppc64(Ppc64Form::Prefixed) => 0,
        #[cfg(feature = "ppc64")]
        AnyForm::Ppc64(form) => ppc64::scale(form, u32_from_slice(bytes) as u64),
        #[cfg(feature = "loongarch64")]
        AnyForm::LoongArch64(LoongArch64Instruction::Call30) => 0,
        #[cfg(feature = "loongarch64")]
        AnyForm::LoongArch64(LoongArch64Instruction::Call36) => 2,
        #[cfg(feature = "loongarch64")]
        AnyForm::LoongArch64(form) => { loongarch64::scale(form, u32_from_slice(bytes) as u64) }
    }
}

/// The number that the machine makes of the immediate of the instruction that `bytes` begins with:
/// the immediate with its sign, times what it counts, in two's complement of 64 bits. So distances
/// and offsets are in bytes, and what an instruction adds, moves or compares is that number:
///
/// - Branches, `adr`, `auipc`, `pcaddi` and others that take the address of the instruction: the
///   distance from it, of `adrp` and `pcalau12i` from its page. Absolute branches of PowerPC64: the
///   address.
/// - Loads and stores: the offset from their base. `ldr x0, [x1, 0x7ff8]` has 0x7ff8, though the
///   instruction holds 0xfff.
/// - `lui` and `lu12i.w`: the number with its low 12 bits 0, whose bit 31 is its sign. `movz` and
///   `movk`: the 16 bits with their shift; `movn`: the complement of that, as of 64 bits. `addis`,
///   `oris`, `addu16i.d`, `lu32i.d` and `lu52i.d`: with their shift.
/// - A pair: what both add up to.
///
/// None where `form` isn't one that [`forms_of`](crate::reading::forms_of()) returns for these bytes.
///
/// ```
/// use linker_utils::reading::{forms_of, operand};
/// use linker_utils::elf::Architecture;
///
/// // `lui a0, 0x12345`
/// let word = 0x1234_5537u32.to_le_bytes();
/// let forms = forms_of(Architecture::RiscV, &word);
/// assert_eq!(operand(forms[0], &word), Some(0x1234_5000));
/// ```
#[must_use]
pub fn operand(form: AnyForm, bytes: &[u8]) -> Option<i64> {
    if !has_form(form, bytes) {
        return None;
    }
    let number = immediate_number(form, bytes) << scale_of(form, bytes);
    Some(number as i64)
}
