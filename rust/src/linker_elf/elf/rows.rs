// SPDX-License-Identifier: MIT OR Apache-2.0
// Made by tools/generate of crates/linker_elf/src/elf/rows.rt.
//! Rows of the relocation tables, and the macros that make them from each architecture's list.

use crate::linker_elf::elf::engine::{Window, WritePlan, window_with};
use crate::linker_elf::elf::entries::{is_of_high_part, names_plt_entry};
use crate::linker_elf::elf::relocate::{is_encoded, store, write_bits, write_field, write_number};
use crate::linker_elf::elf::value::FormulaTerms;
use crate::linker_elf::elf::{
    AllowedRange, AnyForm, ApplyError, Bias, FormulaError, Operands, PageMask, RelocateError,
    RelocationKind, RelocationNumbers, RowFacts, RowInfo, RowSize,
};

/// An entry of a table: a row, the row in numbers, and what a write of it tests. Its range,
/// alignment and bias are among the numbers.
#[derive(Clone, Copy)]
pub(crate) struct TableRow {
    pub(crate) kind: RelocationKind,
    pub(crate) size: RowSize,
    pub(crate) mask: Option<PageMask>,
    pub(crate) numbers: RelocationNumbers,
    pub(crate) tests: WriteTests,
    pub(crate) plan: Option<WritePlan>,
    /// Which values can be written.
    pub(crate) reach: AllowedRange,
    pub(crate) terms: FormulaTerms,
    pub(crate) facts: RowFacts,
    /// Whether the crate `linker-utils` has no such row.
    pub(crate) is_own: bool,
}

/// What a write of a row tests.
#[derive(Clone, Copy)]
pub(crate) struct WriteTests {
    /// Whether the row can be written.
    pub(crate) is_supported: bool,
    /// Whether a write takes every value within the row's reach that is a multiple of its
    /// alignment, and writes it in the row's form, whatever instruction there is. The alignment is
    /// a power of two up to 16.
    pub(crate) takes_all: bool,
    /// How many bytes become the lowest of the value; 0 of instructions, and where the existing
    /// number counts.
    pub(crate) bytes: u8,
    /// The alignment less 1: the bits that are 0 in its multiples, if it is a power of two.
    pub(crate) low_bits: u8,
    /// How many bytes a write writes.
    pub(crate) window: usize,
    /// The least value within the row's reach; `i64::MAX` if there is none.
    pub(crate) least: i64,
    /// The last value within the row's reach; `i64::MIN` if there is none.
    pub(crate) last: i64,
}

/// What a relocation of the library's tables means. Each architecture's `row` returns it for a
/// name, and [`Architecture::row`](crate::elf::Architecture::row) for an `r_type`.
///
/// ```
/// use linker_utils::elf::Operands;
/// use linker_utils::riscv64::{self, RiscVRelocation};
///
/// // `jal ra, 0` at 0x1000 that calls 0x1008
/// let mut jal = 0x0000_00efu32.to_le_bytes();
/// let row = riscv64::row(RiscVRelocation::R_RISCV_JAL).unwrap();
/// let operands = Operands {
///     symbol: 0x1008,
///     place: 0x1000,
///     ..Operands::default()
/// };
/// let value = row.value(&operands).unwrap();
/// row.write(value, &mut jal).unwrap();
/// assert_eq!(u32::from_le_bytes(jal), 0x0080_00ef);
/// ```
#[derive(Clone, Copy)]
pub struct Row {
    entry: &'static TableRow,
}

/// The row of a table's entry, if there is one.
#[inline(always)]
pub(crate) const fn row_in(entry: &'static Option<TableRow>) -> Option<Row> {
    match entry {
        Some(entry) => Some(Row::of(entry)),
        None => None,
    }
}

/// What the row of a table's entry means, if the crate `linker-utils` has such a row.
#[inline(always)]
pub(crate) const fn raw_info_in(entry: &'static Option<TableRow>) -> Option<RowInfo> {
    match entry {
        // by the entry: LLVM compiles a match of the name to a jump by the `r_type`
        Some(entry) if !entry.is_own => Some(Row::of(entry).info()),
        _ => None,
    }
}

impl Row {
    /// The row of an entry.
    #[inline(always)]
    pub(crate) const fn of(entry: &'static TableRow) -> Row {
        Row { entry }
    }

    /// What the relocation means.
    #[must_use]
    #[inline(always)]
    pub const fn info(&self) -> RowInfo {
        let entry = self.entry;
        let numbers = &entry.numbers;
        // loaded before the test, so that LLVM needs no branch
        let both = (numbers.min, numbers.max);
        let bounds = if numbers.has_range == 1 {
            Some(both)
        } else {
            None
        };
        RowInfo {
            kind: entry.kind,
            size: entry.size,
            mask: entry.mask,
            range: AllowedRange { bounds },
            alignment: numbers.alignment,
            bias: Bias::from_value(numbers.bias),
            thunkable: numbers.thunkable == 1,
            implicit_addend: numbers.implicit_addend == 1,
        }
    }

    /// The formula of the relocation's value.
    #[must_use]
    #[inline(always)]
    pub const fn kind(&self) -> RelocationKind {
        self.entry.kind
    }

    /// The same in numbers.
    #[must_use]
    #[inline(always)]
    pub const fn numbers(&self) -> &'static RelocationNumbers {
        &self.entry.numbers
    }

    /// How many bytes `write` writes.
    #[must_use]
    #[inline(always)]
    pub const fn window(&self) -> usize {
        self.entry.tests.window
    }

    /// Which values, as `value` returns them, can be written. They are those that the machine reads
    /// back as they are from the written instruction, or from the pair that it is a half of. Where
    /// the psABI requires an overflow check that `range` lacks, they are also those that pass it.
    ///
    /// | Relocations | From | Below |
    /// |---|--:|--:|
    /// | RISC-V `HI20`, `LO12` and calls: what the pair holds | -2^31 - 0x800 | 2^31 - 0x800 |
    /// | `clui_rel_info`, with the low part | -0x20800 | 0x1f800 |
    /// | `R_LARCH_CALL36` | -2^37 - 0x20000 | 2^37 - 0x20000 |
    /// | PowerPC64's `_HA`, of the biased value, and `_HI` | -2^31 | 2^31 |
    /// | AArch64's `Movnz` of bits up to 16, 32 or 48 | -2^16, -2^32, -2^48 | 2^16, 2^32, 2^48 |
    /// | `R_X86_64_GOT32`, `R_RISCV_PLT32`, `R_RISCV_GOT32_PCREL` | -2^31 | 2^31 |
    /// | all others | `range` | |
    ///
    /// `clui_rel_info` has a hole: the ISA reserves the immediate 0 of a `c.lui`, so that the
    /// values from -0x800 up, below 0x800, can't be written.
    ///
    /// Relocations without a range take a part of every value, which the machine then reads modulo
    /// the part's size.
    ///
    /// No other aligned value is what the machine reads from an instruction of a row, or from its
    /// pair: see `others` of each `relocation_type_from_raw`. The exception is those relocations of
    /// LDR and STR of 2 to 16 bytes whose offset the psABI limits to 12 bits, as
    /// `R_AARCH64_TLSLE_LDST16_TPREL_LO12`: the machine reads 12 bits of such units.
    #[must_use]
    #[inline(always)]
    pub fn reach(&self) -> AllowedRange {
        self.entry.reach
    }

    /// The relocation's value: the formula of its kind, with the bias added first and the page mask
    /// applied after that, modulo 2^64 and read in two's complement. The first that applies of
    /// `NoEntry`, `NoTlsBase` and `NoValue`.
    ///
    /// Of LoongArch's high halves it is [`highest_relocation_with_bias`](crate::loongarch64::highest_relocation_with_bias()) of the symbol or the GOT
    /// entry. The place is that of the relocated instruction, which is the third of the sequence of
    /// five for bits 32 to 51 and the fourth for bits 52 to 63.
    ///
    /// Of a pair of relocations of a ULEB128 number, the value of the second is what is subtracted.
    /// The first, `R_RISCV_SET_ULEB128` or `R_LARCH_ADD_ULEB128`, has the value S + A, though its
    /// row is of kind `Relative`.
    #[inline(always)]
    pub fn value(&self, operands: &Operands) -> Result<i64, FormulaError> {
        self.info().value_by(&self.entry.terms, operands)
    }

    /// What `value` computes, of operands that are all read as they are.
    #[doc(hidden)]
    #[must_use]
    #[inline(always)]
    pub fn formula_value(&self, operands: &Operands) -> Option<i64> {
        self.value(&operands.as_given()).ok()
    }

    /// What it requires of a linker, and how its value is found.
    #[must_use]
    #[inline(always)]
    pub fn facts(&self) -> &'static RowFacts {
        &self.entry.facts
    }

    /// Whether the relocation has a value that can be written: one within `reach`, and a multiple
    /// of the row's alignment. Those that only the reserved immediate 0 of a `c.lui` would hold,
    /// from -0x800 up, below 0x800, can't be. False where `value` returns an error.
    #[must_use]
    #[inline(always)]
    pub fn reaches(&self, operands: &Operands) -> bool {
        match self.value(operands) {
            Ok(value) => self.info().is_in_reach(&self.entry.tests, value),
            Err(_) => false,
        }
    }

    /// The same of operands that are all read as they are.
    #[doc(hidden)]
    #[must_use]
    #[inline(always)]
    pub fn formula_reaches(&self, operands: &Operands) -> bool {
        self.reaches(&operands.as_given())
    }

    /// Whether the relocation requires a GOT entry: the symbol's, or its entries for
    /// general-dynamic, local-dynamic and initial-exec TLS, or its TLS descriptor. It does where
    /// its value depends on the entry's address.
    ///
    /// It doesn't where the value depends only on the GOT's address, as that of
    /// `R_X86_64_GOTOFF64` and `R_PPC64_TOC16`, nor where its symbol labels the high part of a
    /// RISC-V pair, as that of `R_RISCV_TLSDESC_LOAD_LO12`: the high part does.
    #[must_use]
    #[inline(always)]
    pub fn asks_for_got(&self) -> bool {
        let info = self.info();
        !is_of_high_part(info.size) && info.kind.names_got_entry()
    }

    /// Whether an entry of the PLT may serve as the relocation's target: its value depends on the
    /// PLT entry's address, or it is that of a branch, conditional or not, which does nothing with
    /// the address but go there. Where the formula of a branch has no L, the entry's address is
    /// passed as S.
    ///
    /// Compilers write calls of functions that may be elsewhere only with some of these: not with
    /// `R_RISCV_JAL` and RISC-V's conditional branches, of which the psABI says nothing.
    /// `R_X86_64_PC32` is none of them, since a load may have it too.
    #[must_use]
    #[inline(always)]
    pub fn may_use_plt(&self) -> bool {
        let info = self.info();
        info.size.is_branch() || names_plt_entry(info.kind)
    }

    /// Writes a value, as `value` returns it, to the bytes that `dest` begins with. The first that
    /// applies of `Unsupported`, `TooShort`, `Misaligned` and `OutOfReach` is returned, and then
    /// nothing is written.
    ///
    /// - Whole bytes become the lowest bytes of the value, the lowest first. Relocations that add
    ///   or subtract start from the existing number. Relocations of 6 bits keep the upper 2 bits of
    ///   the byte. The bytes' little-endian number is then that value, sum or difference, modulo
    ///   2^8 for each byte.
    /// - Of an instruction, the form's bits become those bits of the value that the relocation
    ///   takes, and the machine reads them from there; modulo their size if `reach` has no bounds.
    ///   The bits that the form only ORs need not be 0 before. All others are unchanged, except
    ///   for the opcode that `Movnz` sets by the value's sign; its shift has to be the first of the
    ///   relocation's bits. MOVN and MOVZ of 32 bits (bit 31 is 0) keep their size. A MOVK stays
    ///   one, and gets the bits as they are.
    /// - A `jirl` at `R_LARCH_PCALA_LO12` gets bits 2 to 17 of the value's low 12 bits in two's
    ///   complement, as a branch of 16 bits does.
    /// - A PowerPC64 instruction of DQ-form keeps its low 4 bits at a relocation of DS-form.
    /// - RISC-V's `UiType`, or a high half and a low half of one value, make the value itself, and
    ///   so does LoongArch's `Call36`. A `c.lui` is such a high half too. The ISA reserves its
    ///   immediate 0, so the values from -0x800 up, below 0x800, are `OutOfReach`.
    /// - PowerPC64's low half and the high half of the value plus 0x8000 make the value itself.
    /// - The bytes after `window` are unchanged. A relocation without a value writes nothing.
    #[inline(always)]
    pub fn write(&self, value: i64, dest: &mut [u8]) -> Result<(), RelocateError> {
        self.write_in(value, dest, false)
    }

    /// The same. With `in_place` all of it is inlined: by a constant row little is left of it.
    #[inline(always)]
    fn write_in(&self, value: i64, dest: &mut [u8], in_place: bool) -> Result<(), RelocateError> {
        write_row(self.entry, value, dest, in_place)
    }

    /// The same, with [`ApplyError`](crate::elf::ApplyError).
    #[inline(always)]
    fn write_applied(&self, value: i64, dest: &mut [u8], in_place: bool) -> Result<(), ApplyError> {
        match self.write_in(value, dest, in_place) {
            Ok(()) => Ok(()),
            Err(error) => Err(ApplyError::Write(error)),
        }
    }

    /// Computes the relocation's value and writes it, with the errors of `value` and `write`. With
    /// an error nothing is written.
    #[inline(always)]
    pub fn apply(&self, operands: &Operands, dest: &mut [u8]) -> Result<(), ApplyError> {
        self.apply_in(operands, dest, false)
    }

    /// The same, inlined with `in_place`.
    #[inline(always)]
    pub(crate) fn apply_in(
        &self,
        operands: &Operands,
        dest: &mut [u8],
        in_place: bool,
    ) -> Result<(), ApplyError> {
        match self.value(operands) {
            Ok(value) => self.write_applied(value, dest, in_place),
            Err(error) => Err(ApplyError::Formula(error)),
        }
    }

    /// Computes the relocation's value, of operands that are all read as they are, and writes it.
    /// False where it has none or `write` rejects it, and then nothing is written.
    #[doc(hidden)]
    #[inline(always)]
    pub fn apply_formula(&self, operands: &Operands, dest: &mut [u8]) -> bool {
        match self.formula_value(operands) {
            Some(value) => self.write(value, dest).is_ok(),
            None => false,
        }
    }
}

/// Whether a value is a multiple of an alignment, which is `low_bits` plus 1. Only the contract
/// uses `_alignment`.
#[inline(always)]
fn has_no_bits(low_bits: u8, value: i64, _alignment: u64) -> bool {
    value as u64 & low_bits as u64 == 0
}

/// [`Row::write`](crate::elf::Row::write), of the row of an entry. Only rows that don't take all values look at the
/// instruction. With `in_place` the bits of one are written here even without a plan.
#[inline(always)]
fn write_row(
    entry: &'static TableRow,
    value: i64,
    dest: &mut [u8],
    in_place: bool,
) -> Result<(), RelocateError> {
    let tests = &entry.tests;
    if !tests.takes_all
        || dest.len() < tests.window
        || !has_no_bits(tests.low_bits, value, entry.numbers.alignment)
        || value < tests.least
        || tests.last < value
    {
        return write_looking(entry, value, dest);
    }
    match tests.bytes {
        4 => store(4, value as u64, dest),
        8 => store(8, value as u64, dest),
        _ => match &entry.plan {
            Some(plan) if plan.is_word => {
                write_planned(entry, plan, Window::Four, value, dest);
            }
            Some(plan) => write_planned(entry, plan, Window::Eight, value, dest),
            None => match entry.size {
                RowSize::BitMasking { range, insn } if in_place => {
                    write_field(insn, range, value, dest);
                }
                _ => write_plain(entry, value, dest),
            },
        },
    }
    Ok(())
}

/// `write_row`, of any row. By itself, so that `write_row` is small.
#[inline(never)]
fn write_looking(entry: &'static TableRow, value: i64, dest: &mut [u8]) -> Result<(), RelocateError> {
    Row::of(entry)
        .info()
        .write_tested(&entry.tests, value, dest)
}

/// Writes a value of a row that takes all, by its plan: no branch depends on the form. The contract
/// alone uses `_entry`.
#[inline(always)]
fn write_planned(
    _entry: &'static TableRow,
    plan: &WritePlan,
    window: Window,
    value: i64,
    dest: &mut [u8],
) {
    let number = value as u64 >> plan.start & plan.taken;
    let steps = [plan.first, plan.second];
    let written = window_with(plan.replaced, &steps, number, window.load(dest));
    window.store(written, dest);
}

/// The same without a plan. By itself and with few arguments, so that a caller saves no registers,
/// and none is passed on the stack.
#[inline(never)]
fn write_plain(entry: &'static TableRow, value: i64, dest: &mut [u8]) {
    match entry.size {
        RowSize::ByteSize(len) => write_number(entry.kind, len as usize, value, dest),
        RowSize::BitMasking { range, insn } => match insn {
            #[cfg(feature = "riscv64")]
            AnyForm::RiscV(_) => write_field(insn, range, value, dest),
            // not reached: only RISC-V has forms without a plan
            _ => write_bits(entry.kind, insn, range, value, dest),
        },
    }
}

impl RowInfo {
    /// Whether a value is within `reach`, and an encoding holds it.
    #[inline(always)]
    fn is_reached(&self, tests: &WriteTests, value: i64) -> bool {
        if value < tests.least || tests.last < value {
            return false;
        }
        is_encoded(self.size, value)
    }

    /// Whether it is, and is a multiple of the row's alignment.
    #[inline(always)]
    fn is_in_reach(&self, tests: &WriteTests, value: i64) -> bool {
        tests.is_supported && self.is_aligned(value) && self.is_reached(tests, value)
    }

    /// `write`, of a row whose bits fit its instruction.
    #[inline(always)]
    fn write_tested(
        &self,
        tests: &WriteTests,
        value: i64,
        dest: &mut [u8],
    ) -> Result<(), RelocateError> {
        if !tests.is_supported {
            return Err(RelocateError::Unsupported);
        }
        if dest.len() < tests.window {
            return Err(RelocateError::TooShort);
        }
        if !self.is_multiple(value, dest) {
            return Err(RelocateError::Misaligned);
        }
        if !self.is_reached(tests, value) {
            return Err(RelocateError::OutOfReach);
        }
        match self.size {
            RowSize::ByteSize(len) => write_number(self.kind, len as usize, value, dest),
            RowSize::BitMasking { range, insn } => {
                write_bits(self.kind, insn, range, value, dest)
            }
        }
        Ok(())
    }
}

/// What is made of the relocations of an architecture. Its `relocations!` lists them as `r_type
/// NAME (row)` in the order of the enum of names, in parts of ascending types. After a relocation
/// stand the types up to the next one, which have no name. `names` makes the table of names by
/// `r_type`, part by part, and `name_of` looks an `r_type` up there. Of a list without parts, which
/// has no such table, `name_of` matches the `r_type`. `index_of` makes the index of a name in the
/// list. `r_types`, `texts` and `table` make tables by these indices: of types, of the names'
/// texts, and of rows, where the last entry is that of `Other`. `table` is given the variant of
/// `AnyForm`, the enum of the forms and the `e_machine`. A list has at most 124
/// names, since calls of macros nest at most 128 deep.
macro_rules! listed {
    ((name_of $names:ident, $r_type:ident) { $($number:literal $name:ident $row:tt)* }) => {
        match $r_type {
            $($number => $names::$name,)*
            _ => $names::Other($r_type),
        }
    };
    ((name_of $names:ident, $r_type:ident)) => { $names::Other($r_type) };
    (
        (name_of $names:ident, $r_type:ident)
        $part:literal from $first:literal $relocations:tt $($parts:tt)*
    ) => {
        $crate::linker_elf::elf::rows::name_at(
            NAMES[$part],
            $r_type.wrapping_sub($first),
            $crate::linker_elf::elf::rows::listed!((name_of $names, $r_type) $($parts)*),
        )
    };
    ((names $names:ident) $($part:literal from $first:literal {
        $($number:literal $name:ident $row:tt $([$($unnamed:literal)+])?)*
    })+) => {
        [$(&[$($names::$name, $($($names::Other($unnamed),)+)?)*]),+]
    };
    ($made:tt $($($part:literal from $first:literal)? {
        $($number:literal $name:ident $row:tt $([$($unnamed:literal)+])?)*
    })+) => {
        $crate::linker_elf::elf::rows::listed!(@ $made $($($number $name $row)*)+)
    };
    (@ (r_types) $($number:literal $name:ident $row:tt)*) => {
        [$($number,)*]
    };
    (@ (texts) $($number:literal $name:ident $row:tt)*) => {
        [$(stringify!($name),)*]
    };
    (@ (table $forms:tt) $($number:literal $name:ident $row:tt)*) => {
        [$(Some($crate::linker_elf::elf::rows::row!($forms $row)),)* None]
    };
    (@ (index_of $names:ident, $value:expr) $($number:literal $name:ident $row:tt)*) => {
        $crate::linker_elf::elf::rows::listed!(
            @ $names, $value, [$($name)*] []
            0 1 2 3 4 5 6 7 8 9 10 11 12 13 14 15 16 17 18 19 20 21 22 23 24 25 26 27 28 29 30 31
            32 33 34 35 36 37 38 39 40 41 42 43 44 45 46 47 48 49 50 51 52 53 54 55 56 57 58 59 60
            61 62 63 64 65 66 67 68 69 70 71 72 73 74 75 76 77 78 79 80 81 82 83 84 85 86 87 88 89
            90 91 92 93 94 95 96 97 98 99 100 101 102 103 104 105 106 107 108 109 110 111 112 113
            114 115 116 117 118 119 120 121 122 123 124
        )
    };
    (
        @ $names:ident, $value:expr, [$first:ident $($rest:ident)*] [$($arms:tt)*]
        $number:literal $($numbers:literal)*
    ) => {
        $crate::linker_elf::elf::rows::listed!(
            @ $names, $value, [$($rest)*] [$($arms)* $names::$first => $number,] $($numbers)*
        )
    };
    (@ $names:ident, $value:expr, [] [$($arms:tt)*] $number:literal $($numbers:literal)*) => {
        match $value { $($arms)* $names::Other(_) => $number }
    };
}

/// The name at an index, or another above the last.
#[inline(always)]
pub(crate) const fn name_at<N: Copy>(names: &[N], index: u32, other: N) -> N {
    let index = index as usize;
    if index < names.len() {
        names[index]
    } else {
        other
    }
}

/// The text at an index.
#[inline(always)]
pub(crate) const fn text_at(texts: &[&'static str], index: usize) -> &'static str {
    texts[index]
}

/// A row of an architecture: its kind; where its value goes, `4 bytes`, or as `12..33 Adr` the
/// value's bits from 12 up, below 33, into an instruction of a form; its range; and the fields that
/// most rows don't have. `reach` gives the row's reach where that isn't its range.
macro_rules! row {
    ($forms:tt ($kind:ident, $bytes:tt bytes, $($rest:tt)+)) => {
        $crate::linker_elf::elf::rows::row!(
            @ $kind [Bytes Bytes $kind 0 0 $bytes] [$crate::linker_elf::elf::RowSize::ByteSize($bytes)] [None]
            [form: 0, machine: 0, is_bits: 0, byte_size: $bytes, first_bit: 0, end_bit: 0]
            $($rest)+
        )
    };
    (
        [$architecture:ident $forms:ident $machine:ident]
        ($kind:ident, $start:tt .. $end:tt $form:ident, $($rest:tt)+)
    ) => {
        $crate::linker_elf::elf::rows::row!(
            @ $kind [$form $architecture $kind $start $end 0]
            [$crate::linker_elf::elf::RowSize::BitMasking {
                range: crate::linker_base::bit_misc::BitRange { start: $start, end: $end },
                insn: $crate::linker_elf::elf::AnyForm::$architecture($crate::linker_elf::elf::$forms::$form),
            }]
            [$crate::linker_elf::elf::rows::plan!($architecture $form $start $end)]
            [
                form: $crate::linker_elf::elf::$forms::$form as u32, machine: $crate::linker_elf::elf::$machine, is_bits: 1,
                byte_size: 0, first_bit: $start, end_bit: $end
            ]
            $($rest)+
        )
    };
    (
        @ $kind:ident [$($row:tt)+] [$size:expr] [$plan:expr] [$($of_size:tt)+]
        $range:ident $($number:literal $(.. $end:literal)?)?
        $(, reach: $reach:ident $reach_number:literal $(.. $reach_end:literal)?)?
        $(, alignment: $alignment:literal)?
        $(, mask: $mask:ident)?
        $(, bias: $bias:expr)?
        $(, thunkable: $thunkable:literal)?
        $(, own: $own:literal)?
    ) => {
        $crate::linker_elf::elf::rows::TableRow {
            kind: $crate::linker_elf::elf::RelocationKind::$kind,
            size: $size,
            mask: $crate::linker_elf::elf::rows::mask!($($mask)?),
            numbers: $crate::linker_elf::elf::RelocationNumbers {
                kind: $crate::linker_elf::elf::RelocationKind::$kind as u32,
                mask: $crate::linker_elf::elf::rows::bits!(number $($mask)?),
                has_range: $crate::linker_elf::elf::rows::bound!(has_range $range),
                thunkable: 0 $(+ $thunkable as u8)?,
                implicit_addend: 0,
                min: $crate::linker_elf::elf::rows::bound!(min $range $($number $(.. $end)?)?),
                max: $crate::linker_elf::elf::rows::bound!(max $range $($number $(.. $end)?)?),
                alignment: 1 $(* $alignment)?,
                bias: 0 $(+ $bias)?,
                $($of_size)+
            },
            tests: $crate::linker_elf::elf::rows::WriteTests {
                is_supported: !$crate::linker_elf::elf::rows::fact!(rejected $($row)+),
                takes_all: !$crate::linker_elf::elf::rows::fact!(looks $($row)+),
                bytes: $crate::linker_elf::elf::rows::fact!(bytes $($row)+),
                low_bits: 0 $(+ $alignment - 1)?,
                window: $crate::linker_elf::elf::rows::fact!(window $($row)+),
                least: $crate::linker_elf::elf::rows::bound!(
                    least [$($reach $reach_number $(.. $reach_end)?)?]
                    $range $($number $(.. $end)?)?
                ),
                last: $crate::linker_elf::elf::rows::bound!(
                    last [$($reach $reach_number $(.. $reach_end)?)?]
                    $range $($number $(.. $end)?)?
                ),
            },
            plan: $plan,
            reach: $crate::linker_elf::elf::AllowedRange {
                bounds: $crate::linker_elf::elf::rows::bound!(
                    reach [$($reach $reach_number $(.. $reach_end)?)?]
                    $range $($number $(.. $end)?)?
                ),
            },
            terms: $crate::linker_elf::elf::value::FormulaTerms {
                formula: $crate::linker_elf::elf::rows::entry!(formula $kind),
                is_word: $crate::linker_elf::elf::rows::fact!(loads $($row)+),
                bias: 0 $(+ $bias)?,
                symbol: $crate::linker_elf::elf::rows::bits!(symbol $($mask)?),
                entry: $crate::linker_elf::elf::rows::bits!(entry $($mask)?),
                entry_addend: $crate::linker_elf::elf::rows::bits!(entry_addend $($row)+),
                place: $crate::linker_elf::elf::rows::bits!(place $($mask)? $($row)+),
                got: $crate::linker_elf::elf::rows::bits!(got $($mask)?),
            },
            facts: $crate::linker_elf::elf::RowFacts {
                entry: $crate::linker_elf::elf::rows::entry!($($row)+),
                entry_has_addend: $crate::linker_elf::elf::rows::fact!(addend $($row)+),
                is_branch: $crate::linker_elf::elf::rows::fact!(branch $($row)+),
                may_use_stub: $crate::linker_elf::elf::rows::fact!(stub $($row)+),
                stub_only_if_undefined: $crate::linker_elf::elf::rows::fact!(bound $($row)+),
                is_word: $crate::linker_elf::elf::rows::fact!(word $($row)+),
                depends_on_load: $crate::linker_elf::elf::rows::fact!(load $($row)+),
                way: $crate::linker_elf::elf::rows::fact!(way $($row)+),
                length: $crate::linker_elf::elf::rows::fact!(length $($row)+),
            },
            is_own: false $(| $own)?,
        }
    };
}

/// The plan of a row. A write clears the bits that AArch64's forms only OR, and those of a
/// `Shift10` with an immediate of 16 bits: where it has 12, the opcode is there.
macro_rules! plan {
    (AArch64 $form:ident $start:tt $end:tt) => { form_of!($form [plan bits $start $end]) };
    (LoongArch64 Shift10 2 $end:tt) => { form_of!(Shift10 [plan bits 2 $end]) };
    ($architecture:ident $form:ident $start:tt $end:tt) => {
        form_of!($form [plan replaced $start $end])
    };
}

/// A bound of a range, or of a reach: `any`; `signed`, `unsigned` or `signed_or_unsigned` numbers
/// of n bits; those `within a..b`, `b` excluded; or `signed_or_unsigned` ones of 32 bits of a
/// `pair` of RISC-V, whose low part is signed, so that it reaches 0x800 less than 32 signed bits.
macro_rules! bound {
    (has_range any) => { 0 };
    (has_range $range:ident) => { 1 };
    (reach [] any) => { None };
    (reach [] pair) => { $crate::linker_elf::elf::rows::bound!(reach [] within -0x80000800..0x7ffff800) };
    (reach [] $($range:tt)+) => {
        Some(($crate::linker_elf::elf::rows::bound!(min $($range)+), $crate::linker_elf::elf::rows::bound!(max $($range)+)))
    };
    (least [] any) => { i64::MIN };
    (last [] any) => { i64::MAX };
    (least [] pair) => { -0x80000800 };
    (last [] pair) => { 0x7ffff7ff };
    (least [] $($range:tt)+) => { $crate::linker_elf::elf::rows::bound!(min $($range)+) };
    (last [] $($range:tt)+) => { $crate::linker_elf::elf::rows::bound!(max $($range)+) - 1 };
    ($end:ident [$($reach:tt)+] $($range:tt)+) => { $crate::linker_elf::elf::rows::bound!($end [] $($reach)+) };
    ($end:ident any) => { 0 };
    ($end:ident pair) => { $crate::linker_elf::elf::rows::bound!($end signed_or_unsigned 32) };
    (min within $min:literal .. $max:literal) => { $min };
    (max within $min:literal .. $max:literal) => { $max };
    (min unsigned $bits:literal) => { 0 };
    (min $range:ident $bits:literal) => { -(1 << ($bits - 1)) };
    (max signed $bits:literal) => { 1 << ($bits - 1) };
    (max $range:ident $bits:literal) => { 1 << $bits };
}

/// Which addresses of a row are cut to their pages of 4 KiB.
macro_rules! mask {
    () => { None };
    (PLACE_PAGES) => { $crate::linker_elf::elf::rows::mask!(@ SymbolPlusAddendAndPosition) };
    (ENTRY_PAGES) => { $crate::linker_elf::elf::rows::mask!(@ GotEntryAndPosition) };
    (GOT_PAGE) => { $crate::linker_elf::elf::rows::mask!(@ GotBase) };
    (@ $of:ident) => { Some($crate::linker_elf::elf::PageMask::$of($crate::linker_elf::elf::PageMaskPattern::Size4KB)) };
}

/// The number of a mask; or the bits of a term that count: all, those of its page of 4 KiB, or
/// none.
macro_rules! bits {
    (number) => { 0 };
    (number PLACE_PAGES) => { 1 };
    (number ENTRY_PAGES) => { 2 };
    (number GOT_PAGE) => { 3 };
    (symbol PLACE_PAGES) => { !0xfff };
    (entry ENTRY_PAGES) => { !0xfff };
    (got GOT_PAGE) => { !0xfff };
    (place PLACE_PAGES $($row:tt)+) => { !0xfff };
    (place ENTRY_PAGES $($row:tt)+) => { !0xfff };
    (place Bytes Bytes Relative 0 0 0) => { 0 };
    (entry_addend $form:ident AArch64 $($row:tt)+) => { 0 };
    (entry_addend $form:ident Ppc64 $($row:tt)+) => { 0 };
    ($term:ident $($given:tt)*) => { u64::MAX };
}

// The macros below take a row as its form, the form's architecture, its kind, its first bit, its
// end bit and its bytes. Where its value goes into bytes, its form and architecture are `Bytes`.

/// A fact of a row: what a write of it tests (`WriteTests`), and what a linker asks (`RowFacts`,
/// `facts_of` of `specs/`).
macro_rules! fact {
    // `write` doesn't take those of ULEB128 numbers and of `Call30`
    (rejected Bytes Bytes Relative 0 0 0) => { true };
    (rejected $form:ident $machine:ident PairSubtractionULEB128RiscV $($bits:tt)+) => { true };
    (rejected $form:ident $machine:ident PairSubtractionULEB128LoongArch $($bits:tt)+) => { true };
    (rejected Call30 $($row:tt)+) => { true };
    // it looks where a word of DQ-form, a `jirl` or a MOVK may stand, and at the value of `c.lui`
    (looks Ds $($row:tt)+) => { true };
    (looks Shift10 LoongArch64 AbsoluteLowPart $($bits:tt)+) => { true };
    (looks Movnz $($row:tt)+) => { true };
    (looks CluiType $($row:tt)+) => { true };
    (looks $($row:tt)+) => { $crate::linker_elf::elf::rows::fact!(rejected $($row)+) };
    (bytes Bytes Bytes AbsoluteAddition $($bits:tt)+) => { 0 };
    (bytes Bytes Bytes AbsoluteSubtraction $($bits:tt)+) => { 0 };
    (bytes Bytes Bytes AbsoluteSetWord6 $($bits:tt)+) => { 0 };
    (bytes Bytes Bytes AbsoluteAdditionWord6 $($bits:tt)+) => { 0 };
    (bytes Bytes Bytes AbsoluteSubtractionWord6 $($bits:tt)+) => { 0 };
    (bytes Bytes Bytes $kind:ident 0 0 $bytes:tt) => { $bytes };
    (bytes $($row:tt)+) => { 0 };
    (window Bytes Bytes $kind:ident 0 0 $bytes:tt) => { $bytes };
    (window $form:ident $($row:tt)+) => { form_of!($form [window]) };
    (length CbType $($row:tt)+) => { $crate::linker_elf::elf::Length::Two };
    (length CjType $($row:tt)+) => { $crate::linker_elf::elf::Length::Two };
    (length CluiType $($row:tt)+) => { $crate::linker_elf::elf::Length::Two };
    (length $form:ident RiscV $($row:tt)+) => { $crate::linker_elf::elf::Length::Four };
    (length Prefixed $($row:tt)+) => { $crate::linker_elf::elf::Length::Prefixed };
    (length $($row:tt)+) => { $crate::linker_elf::elf::Length::Any };
    (addend $form:ident Ppc64 PltRelGotBase $($bits:tt)+) => { true };
    (addend $form:ident Ppc64 PltRelative $($bits:tt)+) => { true };
    (addend $form:ident Ppc64 $kind:ident $($bits:tt)+) => {
        $crate::linker_elf::elf::rows::entry!(has_addend $kind)
    };
    (addend $form:ident AArch64 $kind:ident $($bits:tt)+) => {
        $crate::linker_elf::elf::rows::entry!(has_addend $kind)
    };
    (bound TstBr $($row:tt)+) => { true };
    (bound Bcond $($row:tt)+) => { true };
    (bound BType $($row:tt)+) => { true };
    (bound JType $($row:tt)+) => { true };
    (bound CbType $($row:tt)+) => { true };
    (bound CjType $($row:tt)+) => { true };
    (branch JumpCall $($row:tt)+) => { true };
    (branch UiType $($row:tt)+) => { true };
    (branch Branch14 $($row:tt)+) => { true };
    (branch Branch24 $($row:tt)+) => { true };
    (branch Branch21 $($row:tt)+) => { true };
    (branch Branch26 $($row:tt)+) => { true };
    (branch Call30 $($row:tt)+) => { true };
    (branch Call36 $($row:tt)+) => { true };
    (branch Shift10 LoongArch64 $kind:ident 2 18 0) => { true };
    (branch $($row:tt)+) => { $crate::linker_elf::elf::rows::fact!(bound $($row)+) };
    (stub $form:ident Ppc64 PltRelGotBase $($bits:tt)+) => { false };
    (stub $form:ident Ppc64 PltRelative $($bits:tt)+) => { false };
    (stub $form:ident $machine:ident PltRelGotBase $($bits:tt)+) => { true };
    (stub $form:ident $machine:ident PltRelative $($bits:tt)+) => { true };
    (stub $($row:tt)+) => { $crate::linker_elf::elf::rows::fact!(branch $($row)+) };
    (word Bytes Bytes Absolute 0 0 8) => { true };
    (loads $form:ident Ppc64 PltRelGotBase $($bits:tt)+) => { true };
    (loads $form:ident Ppc64 PltRelative $($bits:tt)+) => { true };
    (load $form:ident $machine:ident $kind:ident $start:tt 12 0) => { false };
    (load IType $($row:tt)+) => { false };
    (load SType $($row:tt)+) => { false };
    (load $form:ident $machine:ident Absolute $($bits:tt)+) => { true };
    (load $form:ident $machine:ident AbsoluteLowPart $($bits:tt)+) => { true };
    (load $form:ident $machine:ident Got $($bits:tt)+) => { true };
    (load $form:ident $machine:ident TlsGdGot $($bits:tt)+) => { true };
    (load $form:ident $machine:ident TlsLdGot $($bits:tt)+) => { true };
    (load $form:ident $machine:ident GotTpOffGot $($bits:tt)+) => { true };
    (load $form:ident $machine:ident TlsDescGot $($bits:tt)+) => { true };
    (way Bytes Bytes $kind:ident 0 0 0) => { $crate::linker_elf::elf::Way::Other };
    (way $form:ident $machine:ident TpOff $($bits:tt)+) => { $crate::linker_elf::elf::Way::Other };
    (way $form:ident $machine:ident DtpOff $($bits:tt)+) => { $crate::linker_elf::elf::Way::ModuleOffset };
    (way Bytes Bytes PairSubtractionULEB128RiscV $($bits:tt)+) => { $crate::linker_elf::elf::Way::Other };
    (way Bytes Bytes PairSubtractionULEB128LoongArch $($bits:tt)+) => { $crate::linker_elf::elf::Way::Other };
    (way $form:ident RiscV RelativeRiscVLow12 $($bits:tt)+) => { $crate::linker_elf::elf::Way::Low };
    (way IType RiscV TlsDesc $($bits:tt)+) => { $crate::linker_elf::elf::Way::Other };
    (way $form:ident Ppc64 PltRelGotBase $($bits:tt)+) => { $crate::linker_elf::elf::Way::Other };
    (way $form:ident Ppc64 PltRelative $($bits:tt)+) => { $crate::linker_elf::elf::Way::Other };
    (way UType RiscV Relative $($bits:tt)+) => { $crate::linker_elf::elf::Way::High };
    (way UType RiscV GotRelative $($bits:tt)+) => { $crate::linker_elf::elf::Way::High };
    (way UType RiscV GotTpOff $($bits:tt)+) => { $crate::linker_elf::elf::Way::High };
    (way UType RiscV TlsGd $($bits:tt)+) => { $crate::linker_elf::elf::Way::High };
    (way $($row:tt)+) => { $crate::linker_elf::elf::Way::Plain };
    ($fact:ident $($row:tt)+) => { false };
}

/// The entry that a row's formula has; or what is made of a kind's formula and its entry.
macro_rules! entry {
    (IType $($row:tt)+) => { $crate::linker_elf::elf::EntryUse::Without };
    ($form:ident Ppc64 PltRelGotBase $($bits:tt)+) => { $crate::linker_elf::elf::EntryUse::Address };
    ($form:ident Ppc64 PltRelative $($bits:tt)+) => { $crate::linker_elf::elf::EntryUse::Address };
    ($form:ident LoongArch64 $kind:ident $start:tt $end:tt $bytes:tt) => {
        $crate::linker_elf::elf::rows::entry!(low_half $kind)
    };
    ($form:ident $machine:ident $kind:ident $start:tt $end:tt $bytes:tt) => {
        $crate::linker_elf::elf::rows::entry!(use_of $kind)
    };
    ($make:ident GotRelative) => { $crate::linker_elf::elf::rows::entry!(@ $make Address EntryLessPlace) };
    ($make:ident GotRelativeLoongArch64) => {
        $crate::linker_elf::elf::rows::entry!(@ $make Address LoongArchEntry)
    };
    ($make:ident GotRelGotBase) => { $crate::linker_elf::elf::rows::entry!(@ $make Address EntryLessGot) };
    ($make:ident Got) => { $crate::linker_elf::elf::rows::entry!(@ $make Address Entry) };
    ($make:ident GotTpOff) => { $crate::linker_elf::elf::rows::entry!(@ $make ThreadOffset EntryLessPlace) };
    ($make:ident GotTpOffGot) => { $crate::linker_elf::elf::rows::entry!(@ $make ThreadOffset Entry) };
    ($make:ident GotTpOffGotBase) => {
        $crate::linker_elf::elf::rows::entry!(@ $make ThreadOffset EntryLessGot)
    };
    ($make:ident GotTpOffLoongArch64) => {
        $crate::linker_elf::elf::rows::entry!(@ $make ThreadOffset LoongArchEntry)
    };
    ($make:ident TlsGd) => { $crate::linker_elf::elf::rows::entry!(@ $make ModuleOffset EntryLessPlace) };
    ($make:ident TlsGdGot) => { $crate::linker_elf::elf::rows::entry!(@ $make ModuleOffset Entry) };
    ($make:ident TlsGdGotBase) => { $crate::linker_elf::elf::rows::entry!(@ $make ModuleOffset EntryLessGot) };
    ($make:ident TlsLd) => { $crate::linker_elf::elf::rows::entry!(@ $make Module EntryLessPlace) };
    ($make:ident TlsLdGot) => { $crate::linker_elf::elf::rows::entry!(@ $make Module Entry) };
    ($make:ident TlsLdGotBase) => { $crate::linker_elf::elf::rows::entry!(@ $make Module EntryLessGot) };
    ($make:ident TlsDesc) => { $crate::linker_elf::elf::rows::entry!(@ $make Descriptor EntryLessPlace) };
    ($make:ident TlsDescGot) => { $crate::linker_elf::elf::rows::entry!(@ $make Descriptor Entry) };
    ($make:ident TlsDescGotBase) => { $crate::linker_elf::elf::rows::entry!(@ $make Descriptor EntryLessGot) };
    ($make:ident TlsDescLoongArch64) => {
        $crate::linker_elf::elf::rows::entry!(@ $make Descriptor LoongArchEntry)
    };
    ($make:ident None) => { $crate::linker_elf::elf::rows::entry!(@ $make Without Without) };
    ($make:ident Alignment) => { $crate::linker_elf::elf::rows::entry!(@ $make Without Without) };
    ($make:ident TlsDescCall) => { $crate::linker_elf::elf::rows::entry!(@ $make Without Without) };
    ($make:ident Relative) => { $crate::linker_elf::elf::rows::entry!(@ $make Without SymbolLessPlace) };
    ($make:ident RelativeRiscVLow12) => {
        $crate::linker_elf::elf::rows::entry!(@ $make Without SymbolLessPlace)
    };
    ($make:ident RelativeLoongArchHigh) => {
        $crate::linker_elf::elf::rows::entry!(@ $make Without LoongArchHigh)
    };
    ($make:ident SymRelGotBase) => { $crate::linker_elf::elf::rows::entry!(@ $make Without SymbolLessGot) };
    ($make:ident PltRelGotBase) => { $crate::linker_elf::elf::rows::entry!(@ $make Without PltLessGot) };
    ($make:ident PltRelative) => { $crate::linker_elf::elf::rows::entry!(@ $make Without PltLessPlace) };
    ($make:ident SymbolSize) => { $crate::linker_elf::elf::rows::entry!(@ $make Without Size) };
    ($make:ident DtpOff) => { $crate::linker_elf::elf::rows::entry!(@ $make Without Offset) };
    ($make:ident TpOff) => { $crate::linker_elf::elf::rows::entry!(@ $make Without Offset) };
    ($make:ident $kind:ident) => { $crate::linker_elf::elf::rows::entry!(@ $make Without Symbol) };
    (@ formula $entry:ident $formula:ident) => { $crate::linker_elf::elf::value::Formula::$formula };
    (@ low_half Address $formula:ident) => { $crate::linker_elf::elf::EntryUse::LowHalf };
    (@ has_addend Module $formula:ident) => { false };
    (@ has_addend Without $formula:ident) => { false };
    (@ has_addend $entry:ident $formula:ident) => { true };
    (@ $make:ident $entry:ident $formula:ident) => { $crate::linker_elf::elf::EntryUse::$entry };
}

pub(crate) use bits;
pub(crate) use bound;
pub(crate) use entry;
pub(crate) use fact;
pub(crate) use listed;
pub(crate) use mask;
pub(crate) use plan;
pub(crate) use row;
