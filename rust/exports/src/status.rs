// SPDX-License-Identifier: MIT OR Apache-2.0
// Made by tools/generate of crates/linker_utils_c/src/status.rt.
//! What a call returns.

/// What a call returns: the sentences of `include/linker_utils.h`. 11 and 16 are unused.
#[derive(Clone, Copy)]
pub enum Status {
    /// Success.
    Success,
    /// No architecture has this machine number, or the call isn't for this architecture.
    UnknownArchitecture,
    /// The architecture has no form with this number.
    UnknownForm,
    /// The architecture has no rewrite with this number.
    UnknownRewrite,
    /// The architecture has no relocation of this type, or its meaning is not known.
    UnknownRelocation,
    /// There are fewer bytes than the call reads or writes.
    TooShort,
    /// The value does not fit the form, the existing ULEB128 number or the type of properties.
    DoesNotFit,
    /// The rewrite cannot be applied there.
    CannotApply,
    /// The register is not one of 0 to 30.
    BadRegister,
    /// The four bytes at the site, or the eight where the `jalr`'s register is linked, are not in
    /// the section, or the target is past its end.
    OutOfSection,
    /// One of the four bytes at the site is deleted.
    SiteDeleted,
    /// The distance is odd.
    OddDistance = 12,
    /// The distance is out of the range of `jal`.
    TooFar,
    /// The deletions do not strictly ascend, one reaches past the next, or one ends past 2^64 - 1
    /// or past the section.
    InvalidDeletions,
    /// Two deletions overlap or begin at one offset, or one ends past 2^64 - 1.
    NotMergeable,
    /// The input offset, or a bitmap's address, would be past 2^64 - 1, a number of compact
    /// relocations has more than 64 bits, or a note would be too long.
    TooLarge = 17,
    /// The queries, or the boundaries, decrease somewhere, or the addresses or types do not ascend.
    NotAscending,
    /// An output array does not have the length that the call takes.
    DifferentLengths,
    /// `malloc` or `realloc` returned null.
    OutOfMemory,
    /// The bytes end before the ULEB128 number does.
    Uleb128Ended,
    /// The tenth byte of the ULEB128 number is neither 0 nor 1.
    Uleb128TooLarge,
    /// No link register of a call has this number.
    UnknownLinkRegister,
    /// A call's site is less than 4 above that of the call before it.
    CallsNotApart,
    /// The eight bytes at the site are not an `auipc` and a `jalr` whose base is its register.
    NotACall,
    /// `linker_utils_calls_shrinkable` does not accept a call.
    CallsNotShrinkable,
    /// The value is not a multiple of the relocation's alignment.
    Misaligned,
    /// The value is out of the relocation's reach.
    OutOfReach,
    /// A relocation of this type has no value.
    NoValue,
    /// The relocation is one of a pair that computes a ULEB128 number, or R_LARCH_CALL30.
    Unsupported,
    /// The bytes there are not an instruction that the rewrite is meant for, or that has the form.
    DoesNotMatch,
    /// No shapes have this number.
    UnknownShapes,
    /// The relocation is not one that the psABI allows there.
    MalformedRelocation,
    /// The item begins below the end of the item before it.
    ItemsOverlap,
    /// The address after the item, or after the section, is above 2^64 - 1.
    EndsTooHigh,
    /// The site has more than two short shapes.
    TooManyShapes,
    /// A shape keeps more bytes than the site has.
    ShapeTooLong,
    /// A short shape keeps no fewer bytes than the next shape.
    ShapesNotAscending,
    /// The granularity of a short shape is not a power of two, or not a multiple of the next one's.
    BadGranularity,
    /// A short shape does not reach its own offset, or reaches farther than the next short one.
    BadReach,
    /// The alignment is not a power of two.
    BadAlignment,
    /// A shape frees bytes that are not a multiple of the run's granularity.
    UnevenShape,
    /// The alignment is not a multiple of the run's granularity, and may keep other nops in other
    /// layouts.
    AlignmentBelowGranularity,
    /// The address after the nops is not a multiple of the run's granularity, and the alignment
    /// may keep other nops in other layouts.
    UnevenEnd,
    /// The alignment has a limit, and there are fewer nops than it less the granularity, and fewer
    /// than may stay.
    TooFewNops,
    /// The alignment has a limit, and its nops are not a multiple of the run's granularity.
    UnevenNops,
    /// The target is strictly inside the bytes that an item may lose.
    TargetInside,
    /// The relocation's field does not hold bits of its value.
    HoldsNoValue,
    /// No bits are known, or some above bit 63, or there are more bits than are known.
    BadFieldValue,
    /// The relocation's value has no address, or the address is a page's and known from below bit
    /// 12, or no address is before the first bitmap.
    NoAddress,
    /// The low half does not have all bits below those of the high half, without rounding.
    NotHalves,
    /// The original bytes are more than 64.
    WindowTooLong,
    /// The item is not in the section.
    ItemOutOfSection,
    /// The bytes of the item that stay are not its first ones.
    NotItsFirstBytes,
    /// The instructions of the site are not those that its shapes stand for.
    NotItsInstructions,
    /// No instruction, or no nops, have as many bytes as stay of the item.
    NoShape,
    /// The instruction of as many bytes as stay does not reach the target: it is too far, or its
    /// distance is not a multiple of what the instruction counts in.
    TargetOutOfReach,
    /// The rewrite that is chosen leaves other bytes.
    LeavesOtherBytes,
    /// The alignment has no limit, and in some layout more nops may be needed than there are.
    MayBeMisaligned,
    /// Bytes before the item, or after the last one, are deleted that are of no item.
    DeletedOutside,
    /// The relocation's symbol, or that of its high part, is not in the table.
    NoSymbol,
    /// The relocation requires an entry of the GOT, and there is none of its class with its addend.
    NoEntry,
    /// No high part is at the label that the symbol of the relocation is.
    NoHighPart,
    /// The relocation's field overlaps that of one before it, and the two do not compose.
    Overlaps,
    /// The memory has fewer elements than the call needs.
    ShortMemory,
    /// The relocation cannot be rewritten, though its group does not stay: the section was surveyed
    /// with other facts, or not at all.
    NotSurveyed,
    /// No class of entries of the GOT has this number, or a static executable has no such entry.
    UnknownEntryClass,
    /// The psABI keeps objects with these `e_flags` apart, or does not define a bit of them.
    DifferentFlags,
    /// The architecture has none with this index, or glibc has none for these `e_flags`.
    NotProvided,
    /// No kind of stubs has this number, or the architecture has no stub of the kind.
    UnknownStub,
    /// No phase of rewrites has this number.
    UnknownPhase,
    /// No stub may serve the relocation: it is not that of a branch, or has no known meaning.
    NotABranch,
    /// A stub has to store the TOC pointer, and nothing after the branch restores it.
    NoRoom,
    /// A stub has no bytes, or the unit of stubs is 0.
    StubWithoutLength,
    /// The index of the branch's target is not in the table.
    NoTarget,
    /// An offset is not below 2^62, or the bytes of two stubs for each branch and one more, with a
    /// unit for each boundary, are not.
    CodeTooLong,
    /// The branch reaches neither its target nor a boundary for a stub.
    NoBoundary,
    /// A stub of the target does not reach it.
    StubTooFar,
    /// The facts of the relocation's symbol, or of the output, are not those that were kept.
    FactsChanged,
    /// The code after the nops of an alignment is not aligned: the section was not packed.
    NotAligned,
    /// The function may return with another TOC pointer, and its symbol has no stub that keeps the
    /// caller's.
    NeedsStub,
    /// The instruction there is shorter or longer than the one that the relocation is for.
    OtherLength,
    /// The facts and the values of a symbol contradict each other: it is local, and undefined and
    /// weak, or `other` is not the same.
    FactsContradict,
    /// The value counts from an origin of thread-local offsets, and the output has no TLS segment.
    NoTlsBase,
    /// An address is not a multiple of 8.
    UnalignedAddress,
    /// What begins at the offset is not a note of properties.
    NotProperties,
    /// The section ends at the offset, or in the note or number, or the note in the property, that
    /// begins there.
    CutOff,
    /// The property at the offset has another size than its type.
    WrongSize,
    /// The inputs have different values of the property of the type.
    DifferentValues,
    /// The type of the property has no rule.
    UnknownProperty,
}

/// Writes the index of what a status is about, and returns the status.
#[inline(always)]
pub(crate) fn at_fault(status: u32, index: usize, faulty: &mut usize) -> u32 {
    *faulty = index;
    status
}

/// What is found, or the call returns the status that says that there is none.
macro_rules! or_return {
    ($found:expr, $absent:ident) => {{
        let Some(found) = $found else {
            return crate::status::Status::$absent as u32;
        };
        found
    }};
}

pub(crate) use or_return;
