// SPDX-License-Identifier: MIT OR Apache-2.0
// Made by tools/generate of crates/linker_elf/src/elf/architecture.rt.
//! The architectures: their relocations by `r_type` and handles, and their forms by numbers.

use super::{AnyForm, ApplyError, Operands, Row, Uleb128Role};
#[cfg(feature = "aarch64")]
use super::{AArch64Instruction, EM_AARCH64};
#[cfg(feature = "loongarch64")]
use super::{EM_LOONGARCH, LoongArch64Instruction};
#[cfg(feature = "ppc64")]
use super::{EM_PPC64, Ppc64Form};
#[cfg(feature = "riscv64")]
use super::{EM_RISCV, RiscVInstruction};
#[cfg(feature = "x86_64")]
use super::EM_X86_64;
#[cfg(feature = "loongarch64")]
use crate::linker_elf::loongarch64::LoongArch64Relocation;
#[cfg(feature = "riscv64")]
use crate::linker_elf::riscv64::RiscVRelocation;
use crate::linker_base::utils::{self, Uleb128Error};

/// How many handles an architecture has: one for each `r_type` below.
pub const HANDLE_UNIT: u32 = 0x1_0000;

/// Why a pair of relocations at a ULEB128 number isn't written.
#[cfg_attr(not(exhaustive), non_exhaustive)]
#[derive(Clone, Copy, PartialEq, Eq, Debug, Hash)]
pub enum Uleb128PairError {
    /// The first relocation is none that sets or adds to such a number.
    NotFirst,
    /// The existing number can't be replaced by theirs.
    Number(Uleb128Error),
}

/// The architectures whose relocations and instructions the library knows. A variant's number is
/// `e_machine` in the ELF header of its files: [`EM_AARCH64`](crate::elf::EM_AARCH64), [`EM_RISCV`](crate::elf::EM_RISCV), [`EM_LOONGARCH`](crate::elf::EM_LOONGARCH), [`EM_PPC64`](crate::elf::EM_PPC64)
/// and [`EM_X86_64`](crate::elf::EM_X86_64) (ELF specification, "ELF Header").
#[cfg_attr(not(exhaustive), non_exhaustive)]
#[derive(Clone, Copy, PartialEq, Eq, Debug, Hash, PartialOrd, Ord)]
pub enum Architecture {
    /// AArch64, little-endian.
    #[cfg(feature = "aarch64")]
    AArch64 = 183,
    /// RV64, with or without the C extension.
    #[cfg(feature = "riscv64")]
    RiscV = 243,
    /// LoongArch64.
    #[cfg(feature = "loongarch64")]
    LoongArch64 = 258,
    /// 64-bit Power, little-endian (ELFv2).
    #[cfg(feature = "ppc64")]
    Ppc64 = 21,
    /// x86-64.
    #[cfg(feature = "x86_64")]
    X86_64 = 62,
}

/// What a macro makes of what it is given and of all architectures: of each its variant, its
/// module, the enum of its relocations, and the quotient of its handles by `HANDLE_UNIT`.
macro_rules! architectures {
    ([$($make:tt)+] $given:tt) => {
        $($make)+!(
            $given
            #[cfg(feature = "aarch64")]
            AArch64 aarch64 AArch64Relocation 2,
            #[cfg(feature = "riscv64")]
            RiscV riscv64 RiscVRelocation 1,
            #[cfg(feature = "loongarch64")]
            LoongArch64 loongarch64 LoongArch64Relocation 4,
            #[cfg(feature = "ppc64")]
            Ppc64 ppc64 Ppc64Relocation 5,
            #[cfg(feature = "x86_64")]
            X86_64 x86_64 X86_64Relocation 3,
        )
    };
}

pub(crate) use architectures;

/// The architecture whose machine a number is.
macro_rules! of_machine {
    (($machine:expr) $(#[$gate:meta] $of:ident $module:ident $names:ident $handles:literal,)*) => {
        match $machine {
            $(#[$gate] number if number == Architecture::$of.machine() => Some(Architecture::$of),)*
            _ => None,
        }
    };
}

/// What a macro makes of an architecture's variant, of its module, of the enum of its relocations,
/// and of what it is given.
macro_rules! by_architecture {
    (
        ($architecture:expr, $make:ident $given:tt)
        $(#[$gate:meta] $of:ident $module:ident $names:ident $handles:literal,)*
    ) => {
        match $architecture {
            $(#[$gate] Architecture::$of => $make!($of $module $names $given),)*
        }
    };
    ($architecture:expr, $($made:tt)+) => {
        $crate::linker_elf::elf::architecture::architectures!(
            [$crate::linker_elf::elf::architecture::by_architecture] ($architecture, $($made)+)
        )
    };
}

pub(crate) use by_architecture;

macro_rules! row_of {
    ($of:ident $module:ident $names:ident ($r_type:expr)) => {
        crate::linker_elf::$module::row(crate::linker_elf::$module::$names::from_elf($r_type))
    };
}

/// `Architecture::apply`. Each listed `r_type` has code of its own, of which LLVM leaves what is
/// the formula's and the form's.
macro_rules! applied {
    (($architecture:expr, $r_type:expr, $operands:expr, $dest:expr) $($often:literal)+) => {
        match $r_type {
            $($often => $architecture.apply_in($r_type, $operands, $dest, true),)+
            _ => $architecture.apply_in($r_type, $operands, $dest, false),
        }
    };
}

macro_rules! text_of {
    ($of:ident $module:ident $names:ident ($r_type:expr)) => {
        match crate::linker_elf::$module::$names::from_elf($r_type) {
            crate::linker_elf::$module::$names::Other(_) => None,
            name => Some(name.name()),
        }
    };
}

/// The first of an architecture's handles.
macro_rules! first_of {
    (($architecture:expr) $(#[$gate:meta] $of:ident $module:ident $names:ident $handles:literal,)*) => {
        match $architecture {
            $(#[$gate] Architecture::$of => $handles * HANDLE_UNIT,)*
        }
    };
}

/// The architecture of a handle.
macro_rules! of_handle {
    (($handle:expr) $(#[$gate:meta] $of:ident $module:ident $names:ident $handles:literal,)*) => {{
        $(#[$gate] if $handle / HANDLE_UNIT == $handles {
            return Some(Architecture::$of);
        })*
        None
    }};
}

impl Architecture {
    /// The architecture of a file by `e_machine` of its ELF header. `None` for any other machine.
    #[must_use]
    pub const fn from_machine(e_machine: u16) -> Option<Architecture> {
        architectures!([of_machine](e_machine))
    }

    /// `e_machine` in the ELF header of the architecture's files.
    #[must_use]
    #[inline(always)]
    pub const fn machine(self) -> u16 {
        self as u16
    }

    /// What the relocation with an `r_type` means. None of one without a name, and of names without
    /// a row.
    ///
    /// ```
    /// use linker_utils::elf::Architecture;
    ///
    /// let call26 = Architecture::AArch64.row(283).unwrap();
    /// assert_eq!(call26.info().alignment, 4);
    /// ```
    #[must_use]
    #[inline(always)]
    pub const fn row(self, r_type: u32) -> Option<Row> {
        by_architecture!(self, row_of(r_type))
    }

    /// Computes the value of the relocation with an `r_type` and writes it, as [`Row::apply`](crate::elf::Row::apply) does.
    /// None of one without a row, and nothing is written.
    ///
    /// ```
    /// use linker_utils::elf::{Architecture, Operands};
    ///
    /// // bl, with R_AARCH64_CALL26, at 0x401000 for a function at 0x402000
    /// let mut bl = [0x00, 0x00, 0x00, 0x94];
    /// let operands = Operands::new(0x402000, 0, 0x401000);
    /// assert_eq!(Architecture::AArch64.apply(283, &operands, &mut bl), Some(Ok(())));
    /// assert_eq!(bl, [0x00, 0x04, 0x00, 0x94]);
    /// ```
    #[inline(always)]
    pub fn apply(
        self,
        r_type: u32,
        operands: &Operands,
        dest: &mut [u8],
    ) -> Option<Result<(), ApplyError>> {
        match self {
            // ADR_PREL_PG_HI21, ADD_ABS_LO12_NC, JUMP26, CALL26, LDST64_ABS_LO12_NC
            #[cfg(feature = "aarch64")]
            Architecture::AArch64 => {
                applied!((self, r_type, operands, dest) 275 277 282 283 286)
            }
            // BRANCH, JAL, CALL_PLT, PCREL_HI20, PCREL_LO12_I
            #[cfg(feature = "riscv64")]
            Architecture::RiscV => applied!((self, r_type, operands, dest) 16 17 19 23 24),
            // 64, B26, PCALA_HI20, CALL36
            #[cfg(feature = "loongarch64")]
            Architecture::LoongArch64 => applied!((self, r_type, operands, dest) 2 66 71 110),
            // REL24, ADDR64, TOC16_LO, TOC16_HA
            #[cfg(feature = "ppc64")]
            Architecture::Ppc64 => applied!((self, r_type, operands, dest) 10 38 48 50),
            // 64, PC32, PLT32, GOTPCREL, 32S, REX_GOTPCRELX
            #[cfg(feature = "x86_64")]
            Architecture::X86_64 => applied!((self, r_type, operands, dest) 1 2 4 9 11 42),
        }
    }

    /// The same, inlined with `in_place`.
    #[inline(always)]
    fn apply_in(
        self,
        r_type: u32,
        operands: &Operands,
        dest: &mut [u8],
        in_place: bool,
    ) -> Option<Result<(), ApplyError>> {
        match self.row(r_type) {
            Some(row) => Some(row.apply_in(operands, dest, in_place)),
            None => None,
        }
    }

    /// The handle of the relocation with an `r_type`: a number that names both, by which the
    /// library for C looks it up. 0 of one without a row.
    ///
    /// ```
    /// use linker_utils::elf::{Architecture, HANDLE_UNIT};
    ///
    /// // R_AARCH64_CALL26
    /// let handle = Architecture::AArch64.handle(283);
    /// assert_eq!(Architecture::of_handle(handle), Some(Architecture::AArch64));
    /// assert_eq!(handle % HANDLE_UNIT, 283);
    /// assert_eq!(Architecture::X86_64.handle(5), 0);
    /// ```
    #[must_use]
    pub fn handle(self, r_type: u32) -> u32 {
        match self.row(r_type) {
            // types with a row are below the unit
            Some(_) => self.first_handle() + r_type % HANDLE_UNIT,
            None => 0,
        }
    }

    #[inline(always)]
    fn first_handle(self) -> u32 {
        architectures!([first_of](self))
    }

    /// The architecture of a handle, whose `r_type` is the rest by [`HANDLE_UNIT`](crate::elf::HANDLE_UNIT). None of a number
    /// that is no handle.
    #[must_use]
    #[inline(always)]
    pub fn of_handle(handle: u32) -> Option<Architecture> {
        architectures!([of_handle](handle))
    }

    /// The name of a relocation in its psABI, as "R_AARCH64_CALL26", of at most 39 bytes. None of
    /// one without a name.
    #[must_use]
    pub const fn name(self, r_type: u32) -> Option<&'static str> {
        by_architecture!(self, text_of(r_type))
    }

    /// Whether the relocation with an `r_type` requires a GOT entry, as [`Row::asks_for_got`](crate::elf::Row::asks_for_got) says.
    /// False of one without a row.
    ///
    /// ```
    /// use linker_utils::elf::Architecture;
    ///
    /// // R_X86_64_GOTPCREL, and R_X86_64_GOTPC32, which only counts from the GOT's address
    /// assert!(Architecture::X86_64.asks_for_got(9));
    /// assert!(!Architecture::X86_64.asks_for_got(26));
    /// ```
    #[must_use]
    pub fn asks_for_got(self, r_type: u32) -> bool {
        match self.row(r_type) {
            Some(row) => row.asks_for_got(),
            None => false,
        }
    }

    /// Whether an entry of the PLT may serve as the target of the relocation with an `r_type`, as
    /// [`Row::may_use_plt`](crate::elf::Row::may_use_plt) says. False of one without a row.
    ///
    /// ```
    /// use linker_utils::elf::Architecture;
    ///
    /// // R_AARCH64_CALL26, and R_AARCH64_ABS64
    /// assert!(Architecture::AArch64.may_use_plt(283));
    /// assert!(!Architecture::AArch64.may_use_plt(257));
    /// ```
    #[must_use]
    pub fn may_use_plt(self, r_type: u32) -> bool {
        match self.row(r_type) {
            Some(row) => row.may_use_plt(),
            None => false,
        }
    }

    /// What a relocation of a ULEB128 number does; `None` for all others. There are two of them at
    /// one number: `write_uleb128_pair` writes what both make of it.
    #[must_use]
    pub fn uleb128_role(self, r_type: u32) -> Option<Uleb128Role> {
        match self {
            #[cfg(feature = "riscv64")]
            Architecture::RiscV => RiscVRelocation::from_elf(r_type).uleb128_role(),
            #[cfg(feature = "loongarch64")]
            Architecture::LoongArch64 => LoongArch64Relocation::from_elf(r_type).uleb128_role(),
            _ => None,
        }
    }

    /// Writes what two relocations make of the ULEB128 number that `dest` begins with, in as many
    /// bytes: `r_type` is that of the first, and `first` and `second` are their values, S + A. With
    /// `R_RISCV_SET_ULEB128` and `R_RISCV_SUB_ULEB128` it is the difference of both, and with
    /// `R_LARCH_ADD_ULEB128` and `R_LARCH_SUB_ULEB128` the existing number plus that, modulo 2^64.
    /// Bytes after the number are unchanged, and it is padded as `utils::write_uleb128` does.
    ///
    /// ```
    /// use linker_utils::elf::Architecture;
    ///
    /// // .uleb128 end - start, of three bytes, with R_RISCV_SET_ULEB128 and R_RISCV_SUB_ULEB128
    /// let mut bytes = [0x80, 0x80, 0x00, 0x07];
    /// Architecture::RiscV.write_uleb128_pair(60, &mut bytes, 0x1234, 0x1000).unwrap();
    /// assert_eq!(bytes, [0xb4, 0x84, 0x00, 0x07]);
    /// ```
    ///
    /// # Errors
    ///
    /// `NotFirst` if the relocation with the `r_type` is neither of those that set or add. Else
    /// `Number` with the error of `utils::write_uleb128`: a difference below 0 is one of 64 bits,
    /// which fits ten bytes alone. Nothing is written then.
    pub fn write_uleb128_pair(
        self,
        r_type: u32,
        dest: &mut [u8],
        first: u64,
        second: u64,
    ) -> Result<(), Uleb128PairError> {
        write_pair(self.uleb128_role(r_type), dest, first, second)
    }

    /// The form with a number, its place in the enum of its architecture's forms. None above the
    /// last, and of x86-64, whose fields are whole bytes.
    #[must_use]
    #[inline(always)]
    pub fn form(self, number: u32) -> Option<AnyForm> {
        match self {
            #[cfg(feature = "aarch64")]
            Architecture::AArch64 => {
                AArch64Instruction::from_number(number).map(AnyForm::AArch64)
            }
            #[cfg(feature = "riscv64")]
            Architecture::RiscV => { RiscVInstruction::from_number(number).map(AnyForm::RiscV) }
            #[cfg(feature = "loongarch64")]
            Architecture::LoongArch64 => {
                LoongArch64Instruction::from_number(number).map(AnyForm::LoongArch64)
            }
            #[cfg(feature = "ppc64")]
            Architecture::Ppc64 => { Ppc64Form::from_number(number).map(AnyForm::Ppc64) }
            #[cfg(feature = "x86_64")]
            Architecture::X86_64 => None,
        }
    }
}

/// The ULEB128 number that bytes begin with; 0 if they begin with none.
fn number_or_zero(bytes: &[u8]) -> u64 {
    let mut content = bytes;
    crate::readers::read_uleb128(&mut content).unwrap_or(0)
}

/// The number that the values of a pair make of the one that bytes begin with, modulo 2^64, by the
/// role of its first relocation: the difference of both, which `Adds` adds to the existing number;
/// that is 0 where bytes begin with none.
#[must_use]
#[inline]
pub fn pair_number(role: Uleb128Role, bytes: &[u8], first: u64, second: u64) -> u64 {
    let difference = first.wrapping_sub(second);
    match role {
        Uleb128Role::Adds => number_or_zero(bytes).wrapping_add(difference),
        _ => difference,
    }
}

/// Writes that number over the one that `dest` begins with.
fn write_pair_number(
    role: Uleb128Role,
    dest: &mut [u8],
    first: u64,
    second: u64,
) -> Result<(), Uleb128PairError> {
    let number = pair_number(role, dest, first, second);
    utils::write_uleb128(dest, number).map_err(Uleb128PairError::Number)
}

/// Writes it if the role is one of a first relocation.
fn write_pair(
    role: Option<Uleb128Role>,
    dest: &mut [u8],
    first: u64,
    second: u64,
) -> Result<(), Uleb128PairError> {
    match role {
        Some(Uleb128Role::Sets) => write_pair_number(Uleb128Role::Sets, dest, first, second),
        Some(Uleb128Role::Adds) => write_pair_number(Uleb128Role::Adds, dest, first, second),
        _ => Err(Uleb128PairError::NotFirst),
    }
}

#[cfg(feature = "aarch64")]
const _: () = assert!(Architecture::AArch64 as u16 == EM_AARCH64);

#[cfg(feature = "riscv64")]
const _: () = assert!(Architecture::RiscV as u16 == EM_RISCV);

#[cfg(feature = "loongarch64")]
const _: () = assert!(Architecture::LoongArch64 as u16 == EM_LOONGARCH);

#[cfg(feature = "ppc64")]
const _: () = assert!(Architecture::Ppc64 as u16 == EM_PPC64);

#[cfg(feature = "x86_64")]
const _: () = assert!(Architecture::X86_64 as u16 == EM_X86_64);
