// SPDX-License-Identifier: MIT OR Apache-2.0
// Made by tools/generate of crates/linker_output/src/routes.rt.
//! How branches go to their targets: directly, or by a stub.

use crate::linker_output::description::Target;
use crate::linker_output::stubs::{Stub, StubKind};
use crate::linker_base::rewrite::has_window;
use crate::linker_base::utils::u32_from_slice;
use crate::linker_section::facts::{Addresses, Symbol};
use crate::linker_section::relocations::Rela;
use crate::linker_section::values::{ValueError, value};
use crate::elf::{AnyForm, Architecture, RelocateError, RelocationKind, Row, RowSize};
#[cfg(feature = "aarch64")]
use crate::elf::AArch64Instruction;
#[cfg(feature = "loongarch64")]
use crate::elf::LoongArch64Instruction;
#[cfg(feature = "ppc64")]
use crate::elf::Ppc64Form;
#[cfg(feature = "ppc64")]
use crate::ppc64::Ppc64Relocation;

/// How a branch goes.
#[derive(Clone, Copy, Debug, PartialEq, Eq, Hash)]
pub enum Route {
    /// To its target: the value of its relocation can be written, and on PowerPC64 the function
    /// gets, and the caller keeps, the TOC pointer.
    Direct,
    /// By a stub, which a linker has to place, or shares with other branches.
    Stub {
        /// The kind of the stub.
        kind: StubKind,
        /// At which offset the branch enters the stub. Where that is 0 and `Stub::entry` isn't, the
        /// stub stores PowerPC64's TOC pointer, and `ld 2,24(1)` has to be in place of a `nop`
        /// after the branch.
        entry: u64,
        /// What `Target::write_stub` takes as the target.
        target: u64,
    },
}

/// Why a branch goes no way.
#[cfg_attr(not(exhaustive), non_exhaustive)]
#[derive(Clone, Copy, Debug, PartialEq, Eq, Hash)]
pub enum RouteError {
    /// No stub may serve the relocation: it isn't that of a branch, and its formula has no L. Or
    /// its `r_type` has no row.
    NotABranch,
    /// The relocation has no value.
    Value(ValueError),
    /// A stub has to store PowerPC64's TOC pointer, and after the branch is neither a `nop` nor
    /// `ld 2,24(1)`, or it is no `bl`.
    NoRoom,
    /// It has to go by a stub of the kind `Jump`, of which the description has none.
    NoStub,
    /// Its value can't be written, for this reason, and no stub may serve it.
    Write(RelocateError),
}

/// Whether a branch may go by a stub to a target that it doesn't reach: by its kind, and a field
/// that is that of `R_AARCH64_CALL26`, `R_LARCH_B26` or `R_PPC64_REL24`.
#[inline(always)]
fn may_go_by_stub(row: &Row) -> bool {
    let RowSize::BitMasking { insn, .. } = row.info().size else {
        return false;
    };
    matches!(
        row.kind(),
        RelocationKind::Relative | RelocationKind::PltRelative
    ) && matches_any!(
        insn,
        #[cfg(feature = "aarch64")]
        AnyForm::AArch64(AArch64Instruction::JumpCall),
        #[cfg(feature = "loongarch64")]
        AnyForm::LoongArch64(LoongArch64Instruction::Branch26),
        #[cfg(feature = "ppc64")]
        AnyForm::Ppc64(Ppc64Form::Branch24)
    )
}

/// Whether it is a branch of PowerPC64's code that has a TOC pointer.
#[inline(always)]
fn has_toc(architecture: Architecture, r_type: u32) -> bool {
    match architecture {
        #[cfg(feature = "ppc64")]
        Architecture::Ppc64 => {
            r_type == Ppc64Relocation::R_PPC64_REL24.r_type()
                || r_type == Ppc64Relocation::R_PPC64_REL14.r_type()
        }
        _ => false,
    }
}

/// Whether a branch enters a function of the output itself that may leave another TOC pointer, and
/// the caller needs its own.
#[inline(always)]
fn loses_toc(architecture: Architecture, r_type: u32, symbol: &Symbol) -> bool {
    has_toc(architecture, r_type)
        && symbol.stub == 0
        && !symbol.is_undefined_weak
        && symbol.other / 32 == 1
}

/// Whether the function takes a TOC pointer, and the branch is of code that has none.
#[inline(always)]
fn lacks_toc(architecture: Architecture, r_type: u32, symbol: &Symbol) -> bool {
    match architecture {
        #[cfg(feature = "ppc64")]
        Architecture::Ppc64 => {
            r_type == Ppc64Relocation::R_PPC64_REL24_NOTOC.r_type()
                && symbol.stub == 0
                && !symbol.is_undefined_weak
                && 1 < symbol.other / 32
        }
        _ => false,
    }
}

/// How far after a function's global entry point a stub goes: to the local one for code that has a
/// TOC pointer.
#[inline(always)]
fn after_global(architecture: Architecture, r_type: u32, symbol: &Symbol) -> u64 {
    let logarithm = symbol.other / 32;
    if !has_toc(architecture, r_type) || logarithm < 2 {
        0
    } else {
        1 << logarithm
    }
}

/// What a stub goes to in place of a symbol, with the addend.
#[inline(always)]
fn stub_target(architecture: Architecture, symbol: &Symbol, relocation: &Rela) -> u64 {
    let addend = relocation.addend as u64;
    if symbol.stub != 0 {
        return symbol.stub.wrapping_add(addend);
    }
    let offset = after_global(architecture, relocation.r_type, symbol);
    symbol.address.wrapping_add(offset).wrapping_add(addend)
}

/// The word at an offset.
#[inline(always)]
fn word_at(section: &[u8], offset: u64) -> u32 {
    u32_from_slice(&section[offset as usize..])
}

/// Whether `bl`, and after it `nop` or `ld 2,24(1)`, are at an offset.
#[inline(always)]
fn has_room(section: &[u8], offset: u64) -> bool {
    if !has_window(section, offset, 0, 8) {
        return false;
    }
    let call = word_at(section, offset);
    let next = word_at(section, offset + 4);
    call / 0x400_0000 == 18 && call % 4 == 1 && (next == 0x6000_0000 || next == 0xe841_0018)
}

/// By a stub of a kind with an entry.
#[inline(always)]
fn by_stub(
    kind: StubKind,
    entry: u64,
    loses_toc: bool,
    has_room: bool,
    target: u64,
) -> Result<Route, RouteError> {
    if loses_toc && !has_room {
        return Err(RouteError::NoRoom);
    }
    Ok(Route::Stub {
        kind,
        entry: if loses_toc { 0 } else { entry },
        target,
    })
}

/// By a stub to a far target, if there is one.
#[inline(always)]
fn by_jump(
    stub: &Option<Stub>,
    loses_toc: bool,
    has_room: bool,
    target: u64,
) -> Result<Route, RouteError> {
    match stub {
        None => Err(RouteError::NoStub),
        Some(stub) => by_stub(StubKind::Jump, stub.entry, loses_toc, has_room, target),
    }
}

/// Why a value can't be written to the bytes that others begin with. None if it can.
fn obstacle_in(row: &Row, value: i64, there: &[u8]) -> Option<RelocateError> {
    let mut buffer = [0u8; 8];
    let len = there.len().min(8);
    let field = &mut buffer[..len];
    field.copy_from_slice(&there[..len]);
    match row.write(value, field) {
        Ok(()) => None,
        Err(error) => Some(error),
    }
}

/// Why a value can't be written at an offset. None if it can.
fn obstacle(row: &Row, value: i64, offset: u64, section: &[u8]) -> Option<RelocateError> {
    if (section.len() as u64) < offset {
        return Some(RelocateError::TooShort);
    }
    obstacle_in(row, value, &section[offset as usize..])
}

impl Target {
    /// The route of a branch whose function gets the TOC pointer as it expects.
    #[inline(always)]
    fn by_reach(
        &self,
        row: &Row,
        symbol: &Symbol,
        relocation: &Rela,
        obstacle: Option<RelocateError>,
    ) -> Result<Route, RouteError> {
        match obstacle {
            None => Ok(Route::Direct),
            Some(RelocateError::OutOfReach) => {
                if may_go_by_stub(row) && (symbol.stub != 0 || !symbol.is_undefined_weak) {
                    let target = stub_target(self.instructions, symbol, relocation);
                    by_jump(&self.jump_stub, false, false, target)
                } else {
                    Err(RouteError::Write(RelocateError::OutOfReach))
                }
            }
            Some(error) => Err(RouteError::Write(error)),
        }
    }

    /// The route of a branch, by whether there is room after it, and why it can't be written.
    #[inline(always)]
    fn route_by(
        &self,
        row: &Row,
        symbol: &Symbol,
        relocation: &Rela,
        has_room: bool,
        obstacle: Option<RelocateError>,
    ) -> Result<Route, RouteError> {
        let loses = loses_toc(self.instructions, relocation.r_type, symbol);
        let lacks = lacks_toc(self.instructions, relocation.r_type, symbol);
        if loses || lacks {
            let target = stub_target(self.instructions, symbol, relocation);
            by_jump(&self.jump_stub, loses, has_room, target)
        } else {
            self.by_reach(row, symbol, relocation, obstacle)
        }
    }

    /// The route of a branch with a value.
    fn route_with(
        &self,
        symbol: &Symbol,
        relocation: &Rela,
        section: &[u8],
        row: &Row,
        value: i64,
    ) -> Result<Route, RouteError> {
        let is_room = has_room(section, relocation.offset);
        let cause = obstacle(row, value, relocation.offset, section);
        self.route_by(row, symbol, relocation, is_room, cause)
    }

    /// The route of a relocation, by its value.
    fn route_of(
        &self,
        symbol: &Symbol,
        relocation: &Rela,
        section: &[u8],
        row: &Row,
        value: Result<Option<i64>, ValueError>,
    ) -> Result<Route, RouteError> {
        match value {
            Err(error) => Err(RouteError::Value(error)),
            Ok(None) => Err(RouteError::NotABranch),
            Ok(Some(value)) => self.route_with(symbol, relocation, section, row, value),
        }
    }
}

/// The value of a relocation of a symbol.
#[inline]
fn value_of(
    architecture: Architecture,
    addresses: &Addresses,
    symbol: &Symbol,
    relocation: &Rela,
) -> Result<Option<i64>, ValueError> {
    let alone = Rela {
        symbol: 0,
        ..*relocation
    };
    value(architecture, addresses, &[], &[*symbol], &alone)
}

/// The row of a relocation, if a stub may serve as its target.
#[inline]
fn served_row(architecture: Architecture, r_type: u32) -> Option<Row> {
    let row = architecture.row(r_type)?;
    if row.facts().may_use_stub {
        Some(row)
    } else {
        None
    }
}

impl Target {
    /// How the branch of a relocation to a symbol goes, by what [`relocate_section`](crate::section::relocate_section()) takes:
    /// `relocation` is one of a section that is at `addresses.section`, and `symbol` is what is
    /// known of its symbol.
    ///
    /// - `Direct` where its value can be written, and on PowerPC64 the TOC pointer is as the
    ///   function and the caller expect. It goes to [`Symbol::stub`](crate::section::Symbol::stub), if that isn't 0, else to the
    ///   symbol, on PowerPC64 to its local entry point.
    /// - A stub of the kind `Jump` where it doesn't reach, and may go by one: `R_AARCH64_CALL26`
    ///   and `R_AARCH64_JUMP26`, `R_LARCH_B26`, `R_PPC64_REL24` and `R_PPC64_REL24_NOTOC`. RISC-V's
    ///   and x86-64's calls reach as far as a stub would.
    /// - On PowerPC64 such a stub also for `R_PPC64_REL24` to a function that may leave
    ///   another TOC pointer (the high three bits of `st_other` are 1), and for
    ///   `R_PPC64_REL24_NOTOC` to one that has a local entry point (they are above 1).
    ///   `R_PPC64_REL14` to the former is `NoRoom`.
    ///
    /// With the address of its entry in the stub as [`Symbol::stub`](crate::section::Symbol::stub), and an addend of 0, the branch
    /// is `Direct` if it reaches that. A branch to an undefined weak symbol goes as
    /// `section` says, and by no stub.
    ///
    /// A function of another output and an indirect function are entered by the address in a word,
    /// as `route_by_word` says.
    ///
    /// # Errors
    ///
    /// `NotABranch`, `Value`, `NoRoom`, `NoStub` and `Write`, as [`RouteError`](crate::output::RouteError) says.
    ///
    /// ```
    /// use linker_utils::output::Target;
    /// use linker_utils::output::Route;
    /// use linker_utils::output::StubKind;
    /// use linker_utils::section::{Addresses, Symbol};
    /// use linker_utils::section::Rela;
    /// use linker_utils::elf::Architecture;
    ///
    /// // `bl`, of R_AARCH64_CALL26, over 128 MiB
    /// let target = Target::of(Architecture::AArch64);
    /// let addresses = Addresses { section: 0x40_0000, ..Addresses::default() };
    /// let far = Symbol { address: 0x1000_0000, ..Symbol::default() };
    /// let call = Rela { offset: 0, r_type: 283, symbol: 1, addend: 0 };
    /// let route = target.route(&addresses, &far, &call, &[0, 0, 0, 0x94]);
    /// let stub = Route::Stub { kind: StubKind::Jump, entry: 0, target: 0x1000_0000 };
    /// assert_eq!(route, Ok(stub));
    /// ```
    pub fn route(
        &self,
        addresses: &Addresses,
        symbol: &Symbol,
        relocation: &Rela,
        section: &[u8],
    ) -> Result<Route, RouteError> {
        let Some(row) = served_row(self.instructions, relocation.r_type) else {
            return Err(RouteError::NotABranch);
        };
        let value = value_of(self.instructions, addresses, symbol, relocation);
        self.route_of(symbol, relocation, section, &row, value)
    }

    /// How the branch of a relocation goes to the function whose address the word at an address
    /// has: a function of another output, or an indirect one. It goes by a stub of the kind `Load`.
    /// Of PowerPC64's `R_PPC64_REL24` that stores the TOC pointer.
    ///
    /// # Errors
    ///
    /// `NotABranch` and `NoRoom`, as [`RouteError`](crate::output::RouteError) says.
    ///
    /// ```
    /// use linker_utils::output::Target;
    /// use linker_utils::output::{Route, RouteError};
    /// use linker_utils::output::StubKind;
    /// use linker_utils::section::Rela;
    /// use linker_utils::elf::Architecture;
    ///
    /// // R_PPC64_REL24: `bl` and `nop`
    /// let target = Target::of(Architecture::Ppc64);
    /// let call = Rela { offset: 0, r_type: 10, symbol: 1, addend: 0 };
    /// let route = target.route_by_word(0x1002_0000, &call, &[1, 0, 0, 0x48, 0, 0, 0, 0x60]);
    /// let stub = Route::Stub { kind: StubKind::Load, entry: 0, target: 0x1002_0000 };
    /// assert_eq!(route, Ok(stub));
    /// let alone = target.route_by_word(0x1002_0000, &call, &[1, 0, 0, 0x48]);
    /// assert_eq!(alone, Err(RouteError::NoRoom));
    /// ```
    pub fn route_by_word(
        &self,
        word: u64,
        relocation: &Rela,
        section: &[u8],
    ) -> Result<Route, RouteError> {
        let Some(_) = served_row(self.instructions, relocation.r_type) else {
            return Err(RouteError::NotABranch);
        };
        let is_room = has_room(section, relocation.offset);
        let has_toc = has_toc(self.instructions, relocation.r_type);
        by_stub(StubKind::Load, self.load_stub.entry, has_toc, is_room, word)
    }
}
