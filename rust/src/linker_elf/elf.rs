// SPDX-License-Identifier: MIT OR Apache-2.0
// Made by tools/generate of crates/linker_elf/src/elf.rt.
//! The vocabulary of relocations, the forms of instructions that hold a value, the interfaces of
//! forms and of rewrites, the architectures, and what a linker knows when it chooses a rewrite.

pub mod architecture;
mod choice;
pub mod choice_table;
pub(crate) mod engine;
mod entries;
mod facts;
mod instruction;
mod numbers;
mod relocate;
pub(crate) mod rows;
pub(crate) mod value;

#[cfg(feature = "aarch64")]
pub use crate::linker_elf::aarch64::AArch64Instruction;
#[cfg(feature = "loongarch64")]
pub use crate::linker_elf::loongarch64::LoongArch64Instruction;
#[cfg(feature = "ppc64")]
pub use crate::linker_elf::ppc64::Ppc64Form;
#[cfg(feature = "riscv64")]
pub use crate::linker_elf::riscv64::RiscVInstruction;
pub use architecture::{Architecture, HANDLE_UNIT, Uleb128PairError};
pub use choice::{Choice, LinkFacts, OtherRelocation};
pub use facts::{EntryUse, Length, RowFacts, Way};
use crate::linker_base::bit_misc::BitRange;
use crate::linker_base::relaxation::RelocationModifier;
pub use crate::linker_base::rewrite::RewriteWindow;
pub use numbers::RelocationNumbers;
pub use relocate::{ApplyError, RelocateError, WriteError};
pub use rows::Row;
pub use value::{FormulaError, Operands};

/// 2 KiB: half a page.
pub const SIZE_2KB: u64 = 0x800;

/// 4 KiB: a page.
pub const SIZE_4KB: u64 = 0x1000;

/// 2 GiB.
pub const SIZE_2GB: u64 = 1 << 31;

/// 4 GiB.
pub const SIZE_4GB: u64 = 1 << 32;

/// The bits of an address within its page of 4 KiB.
pub const PAGE_MASK_4KB: u64 = 0xfff;

/// `e_machine` in the ELF header of AArch64's files (ELF specification, "ELF Header").
#[cfg(feature = "aarch64")]
pub const EM_AARCH64: u16 = 183;

/// `e_machine` of RISC-V's files.
#[cfg(feature = "riscv64")]
pub const EM_RISCV: u16 = 243;

/// `e_machine` of LoongArch's files.
#[cfg(feature = "loongarch64")]
pub const EM_LOONGARCH: u16 = 258;

/// `e_machine` of files of 64-bit Power.
#[cfg(feature = "ppc64")]
pub const EM_PPC64: u16 = 21;

/// `e_machine` of x86-64's files.
#[cfg(feature = "x86_64")]
pub const EM_X86_64: u16 = 62;

/// The formula of a relocation's value. The letters are those of the psABIs: S is the symbol's
/// address, A the addend, P the place (the address of the field), V the number in the field, and Z
/// the symbol's size.
#[derive(Debug, Clone, Copy, PartialEq, Eq, Hash, PartialOrd, Ord)]
pub enum RelocationKind {
    /// No value; nothing is written.
    None,
    /// S + A.
    Absolute,
    /// S + A, of which bits of the offset in a page are taken.
    AbsoluteLowPart,
    /// S + A, in place of V.
    AbsoluteSet,
    /// S + A, in the low 6 bits of a byte.
    AbsoluteSetWord6,
    /// V + S + A.
    AbsoluteAddition,
    /// V + S + A, in the low 6 bits of a byte.
    AbsoluteAdditionWord6,
    /// V - S - A.
    AbsoluteSubtraction,
    /// V - S - A, in the low 6 bits of a byte.
    AbsoluteSubtractionWord6,
    /// The second of a pair of RISC-V relocations that set a ULEB128 number to a difference of
    /// symbols.
    PairSubtractionULEB128RiscV,
    /// The second of a pair of LoongArch relocations that add a difference of symbols to a ULEB128
    /// number.
    PairSubtractionULEB128LoongArch,
    /// S + A - P.
    Relative,
    /// The low 12 bits of the value of the high part that the symbol labels.
    RelativeRiscVLow12,
    /// The high 32 bits of a LoongArch address relative to the place.
    #[cfg(feature = "loongarch64")]
    RelativeLoongArchHigh,
    /// The GOT entry's address relative to the place.
    GotRelative,
    /// The high 32 bits of that, of LoongArch.
    #[cfg(feature = "loongarch64")]
    GotRelativeLoongArch64,
    /// The GOT entry's address relative to the GOT.
    GotRelGotBase,
    /// The GOT entry's address.
    Got,
    /// The symbol's address relative to the GOT.
    SymRelGotBase,
    /// The PLT entry's address relative to the GOT.
    PltRelGotBase,
    /// The PLT entry's address relative to the place.
    PltRelative,
    /// Z + A.
    SymbolSize,
    /// Padding that aligns what follows; no value.
    Alignment,
    /// The address of the pair of GOT entries of general-dynamic TLS, relative to the place.
    TlsGd,
    /// The address of that pair.
    TlsGdGot,
    /// The address of that pair relative to the GOT.
    TlsGdGotBase,
    /// The address of the pair of GOT entries of local-dynamic TLS, relative to the place.
    TlsLd,
    /// The address of that pair.
    TlsLdGot,
    /// The address of that pair relative to the GOT.
    TlsLdGotBase,
    /// The offset in the module's TLS block.
    DtpOff,
    /// The address of the GOT entry of the offset from the thread pointer, relative to the place.
    GotTpOff,
    /// The address of that entry.
    GotTpOffGot,
    /// The address of that entry relative to the GOT.
    GotTpOffGotBase,
    /// The high 32 bits of that entry's address relative to the place, of LoongArch.
    #[cfg(feature = "loongarch64")]
    GotTpOffLoongArch64,
    /// The offset from the thread pointer.
    TpOff,
    /// The address of the TLS descriptor, relative to the place.
    TlsDesc,
    /// The address of the TLS descriptor.
    TlsDescGot,
    /// The address of the TLS descriptor relative to the GOT.
    TlsDescGotBase,
    /// The high 32 bits of the descriptor's address relative to the place, of LoongArch.
    #[cfg(feature = "loongarch64")]
    TlsDescLoongArch64,
    /// The call through a TLS descriptor; no value.
    TlsDescCall,
}

/// What a relocation of a ULEB128 number does with its value, S + A. Two of them are at one
/// number. `utils::write_uleb128` writes the result of both: that of the first may
/// need more bytes than there are.
#[derive(Clone, Copy, Debug, PartialEq, Eq, Hash)]
pub enum Uleb128Role {
    /// The value is the number that the next one subtracts from.
    Sets,
    /// The value is added to the existing number.
    Adds,
    /// The value is subtracted from what the one before it has made.
    Subtracts,
}

/// Whether a bit field is read in two's complement.
#[derive(Debug, Clone, Copy, PartialEq, Eq, Hash)]
pub enum Sign {
    Signed,
    Unsigned,
}

/// Where a relocation's value is written.
#[derive(Debug, Clone, Copy, PartialEq, Eq, Hash)]
pub enum RowSize {
    /// This number of whole bytes.
    ByteSize(u8),
    /// A bit range of the value into an instruction of a form.
    BitMasking { range: BitRange, insn: AnyForm },
}

/// An instruction form of one of the architectures.
#[derive(Debug, Clone, Copy, PartialEq, Eq, Hash, PartialOrd, Ord)]
pub enum AnyForm {
    #[cfg(feature = "aarch64")]
    AArch64(AArch64Instruction),
    #[cfg(feature = "riscv64")]
    RiscV(RiscVInstruction),
    #[cfg(feature = "ppc64")]
    Ppc64(Ppc64Form),
    #[cfg(feature = "loongarch64")]
    LoongArch64(LoongArch64Instruction),
}

/// The size of the pages of a page mask.
#[derive(Debug, Clone, Copy, PartialEq, Eq, Hash)]
pub enum PageMaskPattern {
    /// 4 KiB.
    Size4KB,
}

/// The addresses whose offset in the page is cleared before a difference is taken.
#[derive(Debug, Clone, Copy, PartialEq, Eq, Hash)]
pub enum PageMask {
    /// The symbol's address plus the addend, and the place.
    SymbolPlusAddendAndPosition(PageMaskPattern),
    /// The GOT entry's address, and the place.
    GotEntryAndPosition(PageMaskPattern),
    /// The GOT's address.
    GotBase(PageMaskPattern),
}

/// A number, not 0, that is added to the symbol's address or the GOT entry's address. It is added
/// before the page mask is applied, and before the bit range is taken.
#[derive(Debug, Clone, Copy, PartialEq, Eq, Hash)]
pub struct Bias {
    value: u64,
}

impl Bias {
    /// A bias of `value`; `None` for 0.
    #[must_use]
    pub const fn from_value(value: u64) -> Option<Bias> {
        if value == 0 {
            None
        } else {
            Some(Bias { value })
        }
    }

    /// The number.
    #[must_use]
    pub const fn value(self) -> u64 {
        self.value
    }
}

/// The allowed values of a relocation: from the first bound up to, and not including, the second;
/// or every value.
///
/// ```
/// use linker_utils::elf::{AllowedRange, Sign};
///
/// let branch = AllowedRange::from_bit_size(28, Sign::Signed);
/// assert!(branch.contains(-(1 << 27)));
/// assert!(!branch.contains(1 << 27));
/// ```
#[derive(Debug, Clone, Copy, PartialEq, Eq, Hash)]
pub struct AllowedRange {
    /// The least allowed value, and the first above all; `None` if every value is allowed.
    pub bounds: Option<(i64, i64)>,
}

impl AllowedRange {
    /// From `min` up to, and not including, `max`.
    #[must_use]
    pub const fn new(min: i64, max: i64) -> AllowedRange {
        AllowedRange {
            bounds: Some((min, max)),
        }
    }

    /// Every value.
    #[must_use]
    pub const fn no_check() -> AllowedRange {
        AllowedRange { bounds: None }
    }

    /// The numbers of `n` bits: signed from -2^(n-1) to 2^(n-1) - 1, or unsigned below 2^n.
    ///
    /// # Requires
    ///
    /// - some: `1 <= n`
    /// - short: `n <= 62`
    #[must_use]
    #[cfg_attr(debug_assertions, track_caller)]
    pub const fn from_bit_size(n: u32, sign: Sign) -> AllowedRange {
        debug_assert!(1 <= n);
        debug_assert!(n <= 62);
        match sign {
            Sign::Signed => AllowedRange::new(-(1i64 << (n - 1)), 1i64 << (n - 1)),
            Sign::Unsigned => AllowedRange::new(0, 1i64 << n),
        }
    }

    /// The numbers of `k` bytes; for eight bytes, every value.
    ///
    /// # Requires
    ///
    /// - some: `1 <= k`
    /// - short: `k <= 8`
    #[must_use]
    #[cfg_attr(debug_assertions, track_caller)]
    pub const fn from_byte_size(k: u32, sign: Sign) -> AllowedRange {
        debug_assert!(1 <= k);
        debug_assert!(k <= 8);
        if k == 8 {
            AllowedRange::no_check()
        } else {
            AllowedRange::from_bit_size(8 * k, sign)
        }
    }

    /// Whether a value is in the range. Where two instructions hold the value, a row's range may be
    /// wider than what they reach: see [`Row::reach`](crate::elf::Row::reach).
    #[must_use]
    pub const fn contains(self, v: i64) -> bool {
        match self.bounds {
            Some((min, max)) => min <= v && v < max,
            None => true,
        }
    }
}

/// What a relocation means.
#[derive(Debug, Clone, Copy, PartialEq, Eq, Hash)]
pub struct RowInfo {
    /// The formula of its value.
    pub kind: RelocationKind,
    /// Where its value is written.
    pub size: RowSize,
    /// The addresses whose offset in the page is cleared.
    pub mask: Option<PageMask>,
    /// The allowed values.
    pub range: AllowedRange,
    /// The value is a multiple of this.
    pub alignment: u64,
    /// Added before the page mask is applied.
    pub bias: Option<Bias>,
    /// Whether a thunk may replace a target that is out of range.
    pub thunkable: bool,
    /// Whether the addend is in the section, and not in the relocation.
    pub implicit_addend: bool,
}

/// An instruction form: where the bits of an immediate are in an instruction, and which number
/// they are.
///
/// ```
/// use linker_utils::elf::{InstructionForm, RiscVInstruction};
///
/// let mut jal = 0x0000_00efu32.to_le_bytes();
/// RiscVInstruction::JType.write(8, false, &mut jal);
/// assert_eq!(u32::from_le_bytes(jal), 0x0080_00ef);
/// assert_eq!(RiscVInstruction::JType.read(&jal), (8, false));
/// ```
pub trait InstructionForm: Copy {
    /// The length in bytes of the window that the form reads and writes.
    #[must_use]
    fn window(self) -> usize;

    /// Whether a value can be written to the instruction that `bytes` begins with.
    ///
    /// # Requires
    ///
    /// - `self.window() <= bytes.len()`
    #[must_use]
    fn fits(self, value: u64, bytes: &[u8]) -> bool;

    /// Writes a value and its sign into the instruction that `dest` begins with. Only the form's
    /// bits change.
    ///
    /// # Requires
    ///
    /// - room: `self.window() <= dest.len()`
    /// - fits: `self.fits(value, dest)`
    fn write(self, value: u64, negative: bool, dest: &mut [u8]);

    /// The value in the instruction that `bytes` begins with, modulo 2^64, and the form's flag.
    ///
    /// # Requires
    ///
    /// - `self.window() <= bytes.len()`
    #[must_use]
    fn read(self, bytes: &[u8]) -> (u64, bool);
}

/// A rewrite of the instruction at an offset of a section, as relaxations apply it: which bytes it
/// changes, and what becomes of the relocation there and of the next one.
pub trait InstructionRewrite: Copy {
    /// Rewrites the instruction at an offset of a section. The offset and the addend become those
    /// of the relocation after it; all other bytes are unchanged.
    ///
    /// # Requires
    ///
    /// - `self.can_apply(section, *offset)`
    fn apply(self, section: &mut [u8], offset: &mut u64, addend: &mut i64);

    /// Whether `apply` may be called at an offset of a section: the bytes that it writes lie in the
    /// section, and the instruction meets what the rewrite requires of it. Most rewrites require
    /// nothing; then the instruction isn't tested, as `matches` of the library's rewrites tests it.
    #[must_use]
    fn can_apply(self, section: &[u8], offset: u64) -> bool;

    /// The bytes that `apply` writes: from how far before the offset, and how many. `NoOp`,
    /// `Delete` and other rewrites that leave the instruction write none. On x86-64 the field whose
    /// value is written afterwards lies after them, but for `JmpIndirectToRelative` and
    /// `TlsGdToLocalExecLarge`, which write 0 to it.
    #[must_use]
    fn window(self) -> RewriteWindow;

    /// What becomes of the relocation after the rewritten one. It is skipped where it is that of
    /// the call in a TLS sequence, which the rewrite removes, or the mark `R_RISCV_RELAX` of a call
    /// that becomes a jump or of a `lui` that `Hi20Delete` deletes. Else it is applied as usual.
    /// `skipped_offset` of the library's rewrites says where it is.
    #[must_use]
    fn next_modifier(&self) -> RelocationModifier;

    /// Whether it is `NoOp`, which leaves the instruction and all other relocations as they are.
    /// `Delete`, which writes no bytes either, isn't.
    #[must_use]
    fn is_no_op(self) -> bool;
}

/// What is made of a form, whichever architecture it is of.
macro_rules! of_form {
    ($insn:expr, $form:ident => $made:expr) => {
        match $insn {
            #[cfg(feature = "aarch64")]
            AnyForm::AArch64($form) => $made,
            #[cfg(feature = "riscv64")]
            AnyForm::RiscV($form) => $made,
            #[cfg(feature = "ppc64")]
            AnyForm::Ppc64($form) => $made,
            #[cfg(feature = "loongarch64")]
            AnyForm::LoongArch64($form) => $made,
        }
    };
}

pub(crate) use of_form;

impl InstructionForm for AnyForm {
    #[inline]
    fn window(self) -> usize {
        of_form!(self, insn => insn.window())
    }

    #[cfg_attr(debug_assertions, track_caller)]
    #[inline]
    fn fits(self, value: u64, bytes: &[u8]) -> bool {
        debug_assert!(self.window() <= bytes.len());
        of_form!(self, insn => insn.fits(value, bytes))
    }

    #[cfg_attr(debug_assertions, track_caller)]
    #[inline]
    fn write(self, value: u64, negative: bool, dest: &mut [u8]) {
        debug_assert!(self.window() <= dest.len());
        debug_assert!(self.fits(value, dest));
        of_form!(self, insn => insn.write(value, negative, dest))
    }

    #[cfg_attr(debug_assertions, track_caller)]
    #[inline]
    fn read(self, bytes: &[u8]) -> (u64, bool) {
        debug_assert!(self.window() <= bytes.len());
        of_form!(self, insn => insn.read(bytes))
    }
}
