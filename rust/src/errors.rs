// SPDX-License-Identifier: MIT OR Apache-2.0
//! What the library's errors print, and which error is the cause of another.

use crate::elf::{ApplyError, FormulaError, RelocateError, Uleb128PairError, WriteError};
use crate::output::{PropertyError, RelrError, RouteError, StubError};
use crate::placement::PlaceError;
use crate::relaxation::{OutOfMemory, SectionRelaxDeltas};
use crate::rewriting::{DecisionError, RewritingError, WritingError};
#[cfg(feature = "riscv64")]
use crate::riscv64::{CallError, JumpError, PackError, RejectedCall};
use crate::runs::{Fault, ItemError, ItemFault, ItemsError, RejectedItem, RewrittenItemsError};
use crate::section::{self, CrelError, RelocationError, SectionError};
use crate::utils::Uleb128Error;
use core::error::Error;
use core::fmt::{Display, Formatter, Result};

impl Display for FormulaError {
    fn fmt(&self, f: &mut Formatter<'_>) -> Result {
        f.write_str(match self {
            FormulaError::NoEntry => {
                "the relocation requires an entry of the GOT or a word with the function's \
                 address, and there is none"
            }
            FormulaError::NoTlsBase => {
                "the value counts from an origin of thread-local offsets, and there is none"
            }
            FormulaError::NoValue => "the relocation has no value",
        })
    }
}

impl Error for FormulaError {}

impl Display for RelocateError {
    fn fmt(&self, f: &mut Formatter<'_>) -> Result {
        f.write_str(match self {
            RelocateError::Unsupported => {
                "the relocation is one of a pair that computes a ULEB128 number, \
                 or R_LARCH_CALL30, or its row is not one that the library returns"
            }
            RelocateError::TooShort => "there are fewer bytes than the relocation writes",
            RelocateError::Misaligned => {
                "the value is not a multiple of the relocation's alignment"
            }
            RelocateError::OutOfReach => "the value is out of the relocation's reach",
        })
    }
}

impl Error for RelocateError {}

impl Display for ApplyError {
    fn fmt(&self, f: &mut Formatter<'_>) -> Result {
        match self {
            ApplyError::Formula(error) => error.fmt(f),
            ApplyError::Write(error) => error.fmt(f),
        }
    }
}

impl Error for ApplyError {}

impl Display for WriteError {
    fn fmt(&self, f: &mut Formatter<'_>) -> Result {
        let WriteError {
            error,
            value,
            least,
            greatest,
            alignment,
        } = self;
        write!(f, "{error}: {value}, where {least} to {greatest}")?;
        if *alignment > 1 {
            write!(f, " in multiples of {alignment}")?;
        }
        f.write_str(" can be written")
    }
}

// Its text has that of its cause, so that it has no cause of its own.
impl Error for WriteError {}

impl Display for StubError {
    fn fmt(&self, f: &mut Formatter<'_>) -> Result {
        f.write_str(match self {
            StubError::Missing => "the architecture has no such stub",
            StubError::TooShort => "there are fewer bytes than the stub has",
            StubError::Field(_) => "the stub does not lead to the target",
        })
    }
}

impl Display for RelrError {
    fn fmt(&self, f: &mut Formatter<'_>) -> Result {
        match self {
            RelrError::Unaligned => f.write_str("an address is not a multiple of 8"),
            RelrError::NotAscending => f.write_str("an address is not above the one before it"),
            RelrError::NoAddress => f.write_str("no address is before the first bitmap"),
            RelrError::Wraps => f.write_str("an address of a bitmap is past 2^64 - 1"),
            RelrError::TooShort(needed) => write!(f, "the slice has fewer than {needed}"),
        }
    }
}

impl Error for RelrError {}

impl Display for CrelError {
    fn fmt(&self, f: &mut Formatter<'_>) -> Result {
        match self {
            CrelError::CutOff(at) => write!(f, "the section ends in the number at {at:#x}, or there"),
            CrelError::TooLarge(at) => write!(f, "the number at {at:#x} has more than 64 bits"),
            CrelError::TooShort(needed) => write!(f, "the slice has fewer than {needed}"),
        }
    }
}

impl Error for CrelError {}

impl Display for PropertyError {
    fn fmt(&self, f: &mut Formatter<'_>) -> Result {
        match self {
            PropertyError::NotProperties(at) => write!(f, "no note of properties begins at {at:#x}"),
            PropertyError::CutOff(at) => write!(f, "the note or property at {at:#x} has no end"),
            PropertyError::WrongSize(at) => write!(f, "the property at {at:#x} has another size"),
            PropertyError::NotAscending(at) => {
                write!(f, "the type of the property at {at:#x} does not ascend")
            }
            PropertyError::Differs(kind) => write!(f, "the values of type {kind:#x} differ"),
            PropertyError::Unknown(kind) => write!(f, "the type {kind:#x} has no rule"),
            PropertyError::TooLarge(kind) => write!(f, "the value of type {kind:#x} does not fit"),
            PropertyError::TooMany => f.write_str("a note has at most 2^27 - 1 properties"),
            PropertyError::TooShort(needed) => write!(f, "the slice has fewer than {needed}"),
        }
    }
}

impl Error for PropertyError {}

impl Display for PlaceError {
    fn fmt(&self, f: &mut Formatter<'_>) -> Result {
        match self {
            PlaceError::OutOfMemory => f.write_str("out of memory"),
            PlaceError::NoLength => f.write_str("a stub has no bytes, or the unit is 0"),
            PlaceError::NotAscending(index) => {
                write!(f, "the boundary after that at index {index} is below it")
            }
            PlaceError::NoTarget(index) => {
                write!(f, "the target of the branch at index {index} is not in the table")
            }
            PlaceError::TooLong => f.write_str("an offset or the stubs do not fit below 2^62"),
            PlaceError::NoBoundary(index, _) => write!(
                f,
                "the branch at index {index} reaches neither its target nor a boundary for a stub"
            ),
            PlaceError::StubTooFar(index, _) => {
                write!(f, "the stub at index {index} does not reach its target")
            }
        }
    }
}

impl Error for PlaceError {}

impl Error for StubError {
    fn source(&self) -> Option<&(dyn Error + 'static)> {
        match self {
            StubError::Field(error) => Some(error),
            _ => None,
        }
    }
}

impl Display for RouteError {
    fn fmt(&self, f: &mut Formatter<'_>) -> Result {
        f.write_str(match self {
            RouteError::NotABranch => "the relocation is not that of a branch",
            RouteError::Value(_) => "the relocation has no value",
            RouteError::NoRoom => {
                "no instruction that can restore the TOC pointer is after the branch, or it is no \
                 `bl`"
            }
            RouteError::NoStub => "the architecture has no such stub",
            RouteError::Write(_) => "the value cannot be written, and no stub may serve the branch",
        })
    }
}

impl Error for RouteError {
    fn source(&self) -> Option<&(dyn Error + 'static)> {
        match self {
            RouteError::Value(error) => Some(error),
            RouteError::Write(error) => Some(error),
            RouteError::NotABranch | RouteError::NoRoom | RouteError::NoStub => None,
        }
    }
}

impl Display for Uleb128Error {
    fn fmt(&self, f: &mut Formatter<'_>) -> Result {
        f.write_str(match self {
            Uleb128Error::Ended => "the bytes end before the ULEB128 number does",
            Uleb128Error::TooLarge => "the tenth byte of the ULEB128 number is neither 0 nor 1",
            Uleb128Error::DoesNotFit => "the value does not fit the existing ULEB128 number",
        })
    }
}

impl Error for Uleb128Error {}

impl Display for Uleb128PairError {
    fn fmt(&self, f: &mut Formatter<'_>) -> Result {
        match self {
            Uleb128PairError::NotFirst => {
                f.write_str("the relocation is none that sets or adds to a ULEB128 number")
            }
            Uleb128PairError::Number(error) => error.fmt(f),
        }
    }
}

impl Error for Uleb128PairError {}

#[cfg(feature = "riscv64")]
impl Display for CallError {
    fn fmt(&self, f: &mut Formatter<'_>) -> Result {
        f.write_str(match self {
            CallError::OutOfSection => {
                "the four bytes at the site, or the eight where the `jalr`'s register is linked, \
                 are not in the section, or the target is past its end"
            }
            CallError::SiteDeleted => "one of the four bytes at the site is deleted",
            CallError::OddDistance => "the distance is odd",
            CallError::TooFar => "the distance is out of the range of `jal`",
        })
    }
}

#[cfg(feature = "riscv64")]
impl Error for CallError {}

// The same error where the cause is that of a call, so that it has no cause of its own.
#[cfg(feature = "riscv64")]
impl Display for JumpError {
    fn fmt(&self, f: &mut Formatter<'_>) -> Result {
        match self {
            JumpError::Call(error) => error.fmt(f),
            JumpError::NotACall => f.write_str(
                "the eight bytes at the site are not an `auipc` and a `jalr` whose base is its \
                 register",
            ),
        }
    }
}

#[cfg(feature = "riscv64")]
impl Error for JumpError {}

#[cfg(feature = "riscv64")]
impl Display for RejectedCall {
    fn fmt(&self, f: &mut Formatter<'_>) -> Result {
        write!(f, "the call at index {} does not become a jump", self.index)
    }
}

#[cfg(feature = "riscv64")]
impl Error for RejectedCall {
    fn source(&self) -> Option<&(dyn Error + 'static)> {
        Some(&self.error)
    }
}

#[cfg(feature = "riscv64")]
impl Display for PackError {
    fn fmt(&self, f: &mut Formatter<'_>) -> Result {
        match *self {
            PackError::OutOfMemory => f.write_str("out of memory for the packed section"),
            PackError::Call { index, error } => RejectedCall {
                index,
                error: error.into(),
            }
            .fmt(f),
        }
    }
}

#[cfg(feature = "riscv64")]
impl Error for PackError {
    fn source(&self) -> Option<&(dyn Error + 'static)> {
        match self {
            PackError::OutOfMemory => None,
            PackError::Call { error, .. } => Some(error),
        }
    }
}

impl Display for OutOfMemory {
    fn fmt(&self, f: &mut Formatter<'_>) -> Result {
        f.write_str("out of memory")
    }
}

impl Error for OutOfMemory {}

/// What `RelaxDeltaMap` hands back where it has no memory for another section.
impl Display for SectionRelaxDeltas {
    fn fmt(&self, f: &mut Formatter<'_>) -> Result {
        f.write_str("out of memory for the section's entry in the map")
    }
}

impl Error for SectionRelaxDeltas {}

impl Display for ItemsError {
    fn fmt(&self, f: &mut Formatter<'_>) -> Result {
        match self {
            ItemsError::OutOfMemory => f.write_str("out of memory"),
            ItemsError::Malformed(index) => write!(
                f,
                "the relocation at index {index} is not one that the psABI allows there"
            ),
        }
    }
}

impl Error for ItemsError {}

impl Display for RewrittenItemsError {
    fn fmt(&self, f: &mut Formatter<'_>) -> Result {
        match self {
            RewrittenItemsError::Malformed(index) => ItemsError::Malformed(*index).fmt(f),
            RewrittenItemsError::Misplaced(index) => write!(
                f,
                "the deletion at index {index} begins below the end of the one before it, or is \
                 not in the section"
            ),
            RewrittenItemsError::Overlaps(index) => write!(
                f,
                "the item of the relocation at index {index} begins below the end of that of an \
                 earlier relocation, or has deleted bytes"
            ),
        }
    }
}

impl Error for RewrittenItemsError {}

impl Display for ItemError {
    fn fmt(&self, f: &mut Formatter<'_>) -> Result {
        f.write_str(match self {
            ItemError::Overlaps => "the item begins below the end of the item before it",
            ItemError::OutOfSection => "the item is not in the section",
            ItemError::DeletedOutside => {
                "bytes between the item before it, or the begin of the section, and the item are \
                 deleted"
            }
            ItemError::NotItsFirstBytes => "the bytes of the item that stay are not its first ones",
            ItemError::NotItsInstructions => {
                "the instructions of the site are not those that its shapes stand for"
            }
            ItemError::NoShape => {
                "no instruction, or no nops, have as many bytes as stay of the item"
            }
            ItemError::OutOfReach => "the instructions do not reach the target",
        })
    }
}

impl Error for ItemError {}

impl Display for RejectedItem {
    fn fmt(&self, f: &mut Formatter<'_>) -> Result {
        write!(f, "the item at index {} is not written", self.index)
    }
}

impl Error for RejectedItem {
    fn source(&self) -> Option<&(dyn Error + 'static)> {
        Some(&self.error)
    }
}

impl Display for Fault {
    fn fmt(&self, f: &mut Formatter<'_>) -> Result {
        f.write_str(match self {
            Fault::Overlaps => "the item begins below the end of the item before it",
            Fault::TooHigh => "the address after the item is above 2^64 - 1",
            Fault::TooManyShapes => "the site has more than two short shapes",
            Fault::ShapeTooLong => "a shape keeps more bytes than the site has",
            Fault::ShapesNotAscending => "a short shape keeps no fewer bytes than the next shape",
            Fault::BadGranularity => {
                "the granularity of a short shape is not a power of two, or not a multiple of the \
                 next one's"
            }
            Fault::BadReach => {
                "a short shape does not reach its own offset, or reaches farther than the next \
                 short one"
            }
            Fault::BadAlignment => "the alignment is not a power of two",
            Fault::UnevenShape => {
                "a shape frees bytes that are not a multiple of the run's granularity"
            }
            Fault::Misaligned => "the value is not a multiple of the relocation's alignment",
            Fault::AlignmentBelowGranularity => {
                "the alignment is not a multiple of the run's granularity, and may keep other \
                 nops in other layouts"
            }
            Fault::UnevenEnd => {
                "the address after the nops is not a multiple of the run's granularity, and the \
                 alignment may keep other nops in other layouts"
            }
            Fault::TooFewNops => {
                "the alignment has a limit, and there are fewer nops than it less the granularity, \
                 and fewer than may stay"
            }
            Fault::UnevenNops => {
                "the alignment has a limit, and its nops are not a multiple of the run's \
                 granularity"
            }
            Fault::TargetInside => "the target is strictly inside the bytes that an item may lose",
            Fault::MayBeMisaligned => {
                "the alignment has no limit, and in some layout more nops may be needed than there \
                 are"
            }
        })
    }
}

impl Error for Fault {}

impl Display for ItemFault {
    fn fmt(&self, f: &mut Formatter<'_>) -> Result {
        write!(f, "the item at index {} is faulty", self.index)
    }
}

impl Error for ItemFault {
    fn source(&self) -> Option<&(dyn Error + 'static)> {
        Some(&self.fault)
    }
}

impl Display for section::ValueError {
    fn fmt(&self, f: &mut Formatter<'_>) -> Result {
        f.write_str(match self {
            section::ValueError::UnknownType => "the architecture has no relocation of this type",
            section::ValueError::NoSymbol => {
                "the relocation's symbol, or that of its high part, is not in the table"
            }
            section::ValueError::NoEntry => {
                "the relocation requires an entry of the GOT, and there is none of its class with \
                 its addend"
            }
            section::ValueError::NoTlsBase => {
                "the value counts from an origin of thread-local offsets, and the output has no \
                 TLS segment"
            }
            section::ValueError::NoHighPart => {
                "no high part is at the label that the symbol of the relocation is"
            }
            section::ValueError::NotAligned => {
                "the code after the nops of an alignment is not aligned: the section was not packed"
            }
            section::ValueError::NeedsStub => {
                "the function may return with another TOC pointer, and its symbol has no stub that \
                 keeps the caller's"
            }
            section::ValueError::OutOfReach => "the value is out of the relocation's reach",
        })
    }
}

impl Error for section::ValueError {}

// Its text is that of its cause, so that it has no cause of its own.
impl Display for RelocationError {
    fn fmt(&self, f: &mut Formatter<'_>) -> Result {
        match self {
            RelocationError::Value(error) => error.fmt(f),
            RelocationError::Overlaps => f.write_str(
                "the relocation's field overlaps that of one before it, and the two do not compose",
            ),
            RelocationError::OtherLength => f.write_str(
                "the instruction there is shorter or longer than the one that the relocation is for",
            ),
            RelocationError::Write(error) => error.fmt(f),
            RelocationError::Uleb128(error) => error.fmt(f),
        }
    }
}

impl Error for RelocationError {}

impl Display for SectionError {
    fn fmt(&self, f: &mut Formatter<'_>) -> Result {
        write!(f, "the relocation at index {} is not written", self.index)
    }
}

impl Error for SectionError {
    fn source(&self) -> Option<&(dyn Error + 'static)> {
        match &self.rejected {
            Some(error) => Some(error),
            None => Some(&self.error),
        }
    }
}

/// The text of two tables that contradict each other about a symbol.
fn contradiction(symbol: usize, f: &mut Formatter<'_>) -> Result {
    write!(f, "the facts and the values of the symbol at index {symbol} contradict each other")
}

impl Display for RewritingError {
    fn fmt(&self, f: &mut Formatter<'_>) -> Result {
        match self {
            RewritingError::TooShort => f.write_str(
                "there are fewer decisions than relocations, or less room for deletions than there are",
            ),
            RewritingError::NotSurveyed(index) => write!(
                f,
                "the instruction of the relocation at index {index} has no rewrite, and its group \
                 was not surveyed"
            ),
            RewritingError::Overlaps(index) => write!(
                f,
                "the rewrite of the relocation at index {index} overlaps that of one before it"
            ),
            RewritingError::Contradiction(symbol) => contradiction(*symbol, f),
        }
    }
}

impl Error for RewritingError {}

impl Display for DecisionError {
    fn fmt(&self, f: &mut Formatter<'_>) -> Result {
        match self {
            DecisionError::TooShort => f.write_str("there are fewer decisions than relocations"),
            DecisionError::Changed(index) => write!(
                f,
                "the instruction of the relocation at index {index} is not the one that was decided on"
            ),
            DecisionError::Overlaps(index) => write!(
                f,
                "the rewrite of the relocation at index {index} overlaps that of one before it"
            ),
        }
    }
}

impl Error for DecisionError {}

impl Display for WritingError {
    fn fmt(&self, f: &mut Formatter<'_>) -> Result {
        match self {
            WritingError::Contradiction(symbol) => contradiction(*symbol, f),
            WritingError::Changed(index) => write!(
                f,
                "other facts hold of the symbol of the relocation at index {index} than are kept"
            ),
            WritingError::NeedsStub(index) => write!(
                f,
                "the function that is called at the relocation at index {index} may return with \
                 another TOC pointer, and its symbol has no stub that keeps the caller's"
            ),
            WritingError::Section(error) => error.fmt(f),
        }
    }
}

// The text is that of the section's error, and so is the cause.
impl Error for WritingError {
    fn source(&self) -> Option<&(dyn Error + 'static)> {
        match self {
            WritingError::Section(error) => error.source(),
            _ => None,
        }
    }
}
