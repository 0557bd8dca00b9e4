// SPDX-License-Identifier: MIT OR Apache-2.0
// Made by tools/generate of crates/linker_output/src/stubs.rt.
//! Code that a linker adds: stubs that jump to the address that a word has, or to a far target.

use crate::linker_output::description::Target;
use crate::linker_base::rewrite::overwrite;
use crate::elf::{AllowedRange, Architecture, Operands, RelocateError};

/// A stub that a linker adds to code.
#[derive(Clone, Copy, Debug, PartialEq, Eq, Hash)]
pub enum StubKind {
    /// It jumps to the address that a word of 8 bytes has: to a function of another output, whose
    /// address the dynamic linker puts there, or to what an indirect function returns.
    Load,
    /// It jumps to its target, which branches may not reach.
    Jump,
    /// It jumps to its target wherever that is, by the address in its last 8 bytes. In an output
    /// whose load address isn't fixed that address takes a dynamic relocation.
    Far,
    /// The same by the distance in its last 8 bytes, for any load address.
    FarRelative,
    /// The same as `Load`, for protected code: it begins with an instruction to which indirect
    /// branches may go, x86-64's `endbr64` or AArch64's `bti c`.
    LandingLoad,
    /// PowerPC64: the same as `Load`, by the TOC pointer in r2, which it stores at first.
    TocLoad,
    /// PowerPC64: it jumps to a function of this output with the same TOC, wherever that is, by the
    /// TOC pointer and a word of `.branch_lt` with the function's address.
    TocFar,
    /// PowerPC64: the same as `Load`, by a prefixed instruction of Power10.
    PrefixedLoad,
    /// PowerPC64: the same as `Jump`, by a prefixed instruction of Power10.
    PrefixedJump,
}

/// Why a stub isn't written.
#[cfg_attr(not(exhaustive), non_exhaustive)]
#[derive(Clone, Copy, Debug, PartialEq, Eq, Hash)]
pub enum StubError {
    /// The architecture has no such stub: branches reach as far as it would.
    Missing,
    /// There are fewer bytes than the stub has.
    TooShort,
    /// The distance to the target, or its low bits, can't be written. The first such field's error.
    Field(RelocateError),
}

/// A field of a stub's code.
#[derive(Clone, Copy, Debug, PartialEq, Eq, Hash)]
pub struct StubField {
    /// Its offset in the pair.
    pub offset: usize,
    /// The `r_type` of the relocation whose value it takes.
    pub relocation: u32,
    /// The values that lead to the target, where the relocation takes others too.
    pub range: AllowedRange,
}

/// The code of a stub: 8 bytes with the fields, and what stands before and after these.
#[derive(Clone, Copy, Debug, PartialEq, Eq, Hash)]
pub struct Stub {
    /// The code before the pair.
    pub head: &'static [u8],
    /// The bytes with the fields, which are 0.
    pub pair: [u8; 8],
    /// The first field.
    pub first: StubField,
    /// The second one.
    pub second: Option<StubField>,
    /// The code after the pair.
    pub tail: &'static [u8],
    /// The offset at which a call enters. PowerPC64's calls whose `nop` becomes `ld 2,24(1)` enter
    /// at 0, where the stub stores the TOC pointer.
    pub entry: u64,
    /// The offset of the address that the fields' values are relative to.
    pub origin: u64,
    /// The addend of the fields.
    pub addend: i64,
}

/// A field at an offset, with the value of a relocation, or a value of 32 signed bits of it.
macro_rules! field {
    ($offset:literal, $relocation:ident) => {
        field!($offset, $relocation, None)
    };
    ($offset:literal, ($relocation:ident, signed 32)) => {
        field!($offset, $relocation, Some((-0x8000_0000, 0x8000_0000)))
    };
    ($offset:literal, $relocation:ident, $bounds:expr) => {
        $crate::linker_output::stubs::StubField {
            offset: $offset,
            relocation: $crate::linker_output::r_types::r_type!($relocation),
            range: crate::elf::AllowedRange { bounds: $bounds },
        }
    };
}

pub(crate) use field;

/// The bytes of instructions of 4 bytes each.
macro_rules! words {
    ($($word:literal),+) => {
        [$(
            ($word as u32 & 0xff) as u8,
            ($word as u32 >> 8 & 0xff) as u8,
            ($word as u32 >> 16 & 0xff) as u8,
            ($word as u32 >> 24 & 0xff) as u8
        ),+]
    };
}

pub(crate) use words;

/// A stub: the code before the fields, the bytes with them, the fields and the code after them; and
/// the entry, the origin and the addend, where these aren't all 0.
macro_rules! stub {
    ($head:expr, $pair:expr, $first:expr, $second:expr, $tail:expr) => {
        stub!($head, $pair, $first, $second, $tail, 0, 0, 0)
    };
    (
        $head:expr, $pair:expr, $first:expr, $second:expr, $tail:expr, $entry:expr, $origin:expr,
        $addend:expr
    ) => {
        $crate::linker_output::stubs::Stub {
            head: $head,
            pair: $pair,
            first: $first,
            second: $second,
            tail: $tail,
            entry: $entry,
            origin: $origin,
            addend: $addend,
        }
    };
}

pub(crate) use stub;

/// What the values of a stub's fields are computed from.
#[inline]
fn operands_of(stub: &Stub, place: u64, target: u64) -> Operands {
    let origin = place.wrapping_add(stub.origin);
    Operands {
        got_entry: target,
        got_base: origin,
        has_got_entry: true,
        ..Operands::new(target, stub.addend, origin)
    }
}

/// Writes the value of a field.
pub(crate) fn write_field(
    architecture: Architecture,
    field: StubField,
    operands: &Operands,
    pair: &mut [u8; 8],
) -> Result<(), RelocateError> {
    let Some(row) = architecture.row(field.relocation) else {
        return Err(RelocateError::Unsupported);
    };
    let Some(value) = row.formula_value(operands) else {
        return Err(RelocateError::Unsupported);
    };
    if !field.range.contains(value) {
        return Err(RelocateError::OutOfReach);
    }
    row.write(value, &mut pair[field.offset.min(8)..])
}

/// The 8 bytes of a stub with its fields.
fn pair_of(
    architecture: Architecture,
    stub: &Stub,
    operands: &Operands,
) -> Result<[u8; 8], RelocateError> {
    let mut pair = stub.pair;
    write_field(architecture, stub.first, operands, &mut pair)?;
    if let Some(second) = stub.second {
        write_field(architecture, second, operands, &mut pair)?;
    }
    Ok(pair)
}

impl Stub {
    /// How many bytes it has, or `u64::MAX` if those are more.
    #[must_use]
    #[inline]
    pub fn len(&self) -> u64 {
        let others = self.head.len() as u64 + self.tail.len() as u64;
        others.saturating_add(8)
    }
}

impl Target {
    /// The code of a stub. None where the architecture has none of the kind.
    ///
    /// ```
    /// use linker_utils::output::StubKind;
    /// use linker_utils::output::Target;
    /// use linker_utils::elf::Architecture;
    ///
    /// let target = Target::of(Architecture::AArch64);
    /// assert_eq!(target.stub(StubKind::Jump).map(|stub| stub.len()), Some(12));
    /// // RISC-V's calls reach 2 GiB
    /// assert_eq!(Target::of(Architecture::RiscV).stub(StubKind::Jump), None);
    /// ```
    #[must_use]
    pub fn stub(&self, kind: StubKind) -> Option<&Stub> {
        match kind {
            StubKind::Load => Some(&self.load_stub),
            StubKind::Jump => self.jump_stub.as_ref(),
            StubKind::Far => self.far_stub.as_ref(),
            StubKind::FarRelative => self.far_relative_stub.as_ref(),
            StubKind::LandingLoad => self.landing_load_stub.as_ref(),
            StubKind::TocLoad => self.toc_load_stub.as_ref(),
            StubKind::TocFar => self.toc_far_stub.as_ref(),
            StubKind::PrefixedLoad => self.prefixed_load_stub.as_ref(),
            StubKind::PrefixedJump => self.prefixed_jump_stub.as_ref(),
        }
    }

    /// Writes the stub of a kind that stands at an address: to the word at `target` (`Load`,
    /// `LandingLoad`, `TocLoad`, `TocFar` and `PrefixedLoad`) or to the address `target` (else).
    /// Bytes after the stub are left, and with an error all are: in a slot of some size `nop`s may
    /// stand there before. Of `TocLoad` and `TocFar` `place` is the TOC pointer, which r2 has:
    /// these may stand anywhere.
    ///
    /// What a call changes on its way through a stub are registers that a function may change, in
    /// which no argument is: x16 and x17 of AArch64, t3 of RISC-V and LoongArch, and r0, r12 and
    /// ctr of PowerPC64, whose r12 has the target's address. So no stub may serve a call of
    /// PowerPC64's functions of a [`SaveRestoreRoutines`](crate::output::SaveRestoreRoutines), which take r0 or r12.
    ///
    /// On PowerPC64 calls with the TOC pointer in r2 (R_PPC64_REL24) may go by `TocLoad` in place
    /// of `Load`, and by `TocFar` in place of `Jump` to the local entry point of a function with
    /// the same TOC. Calls without it (R_PPC64_REL24_NOTOC) may go by `PrefixedLoad` and
    /// `PrefixedJump`. These two stand at multiples of 16, since no prefixed instruction may cross
    /// one of 64.
    ///
    /// In protected code an indirect branch may go only to `endbr64` (x86-64, where all inputs have
    /// the property IBT) or to `bti c` (AArch64, BTI). Calls and jumps to a stub are direct, so
    /// that `Load` serves there too, unless the stub's address is the function's in other outputs,
    /// or a stub of another kind goes to it: that is a `LandingLoad`. x86-64's is ld.lld's and GNU
    /// ld's entry of `.plt.sec`, of 16 bytes. AArch64's has 16 bytes, where ld.lld's entries have
    /// 24 ([`LazyForm`](crate::output::LazyForm)). All of these architectures' stubs branch indirectly: what they go to has to
    /// begin so too, which compilers leave out of functions that only their object calls.
    ///
    /// ```
    /// use linker_utils::output::StubKind;
    /// use linker_utils::output::Target;
    /// use linker_utils::elf::Architecture;
    ///
    /// // `jmp *word(%rip)` and 2 of `int3`
    /// let mut stub = [0; 8];
    /// let target = Target::of(Architecture::X86_64);
    /// target.write_stub(StubKind::Load, 0x40_1000, 0x40_3010, &mut stub)?;
    /// assert_eq!(stub, [0xff, 0x25, 0x0a, 0x20, 0, 0, 0xcc, 0xcc]);
    /// # Ok::<(), linker_utils::output::StubError>(())
    /// ```
    pub fn write_stub(
        &self,
        kind: StubKind,
        place: u64,
        target: u64,
        out: &mut [u8],
    ) -> Result<(), StubError> {
        let Some(stub) = self.stub(kind) else {
            return Err(StubError::Missing);
        };
        if (out.len() as u64) < stub.len() {
            return Err(StubError::TooShort);
        }
        let operands = operands_of(stub, place, target);
        let pair = match pair_of(self.instructions, stub, &operands) {
            Ok(pair) => pair,
            Err(error) => return Err(StubError::Field(error)),
        };
        let head_len = stub.head.len() as u64;
        overwrite(out, head_len + 8, stub.tail);
        overwrite(out, head_len, &pair);
        overwrite(out, 0, stub.head);
        Ok(())
    }
}
