// SPDX-License-Identifier: MIT OR Apache-2.0
//! What errors print, and their causes.

use linker_utils::elf::{Architecture, RelocateError, Uleb128PairError, WriteError};
use linker_utils::output::{PropertyError, RelrError, RouteError, StubError};
use linker_utils::readers::{self, ReadError};
use linker_utils::relaxation::{OutOfMemory, PackError, RejectedCall, SectionRelaxDeltas};
use linker_utils::rewriting::{DecisionError, RewritingError, WritingError};
use linker_utils::riscv64::{CallError, JumpError};
use linker_utils::runs::{
    Fault, ItemError, ItemFault, ItemsError, RejectedItem, RewrittenItemsError,
};
use linker_utils::section::{self, CrelError, RelocationError, SectionError};
use linker_utils::utils::{self, Uleb128Error};
use std::error::Error;

/// What an error prints, and each error that caused it.
fn texts(error: impl Error + Send + Sync + 'static) -> Vec<String> {
    let error: Box<dyn Error> = Box::new(error);
    let chain = std::iter::successors(Some(&*error), |error| (*error).source());
    chain.map(|error| error.to_string()).collect()
}

/// A status's text in the header of the static library, as errors print it: with no capital and no
/// full stop.
fn status(name: &str) -> String {
    let header = include_str!("../../include/linker_utils_lists.h");
    let (_, entry) = header.split_once(&format!("    STATUS({name}, ")).expect(name);
    let (entry, _) = entry.split_once("\")").expect(name);
    let text: String = entry.split('"').skip(1).step_by(2).collect();
    let (capital, rest) = text.strip_suffix('.').expect(name).split_at(1);
    capital.to_lowercase() + rest
}

#[test]
fn errors_of_relocations_are_printed() {
    let unsupported = "the relocation is one of a pair that computes a ULEB128 number, \
                       or R_LARCH_CALL30, or its row is not one that the library returns";
    assert_eq!(texts(RelocateError::Unsupported), [unsupported]);
    assert!(unsupported.starts_with(&(status("UNSUPPORTED") + ",")));
    let short = "there are fewer bytes than the relocation writes";
    assert_eq!(texts(RelocateError::TooShort), [short]);
    let misaligned = "the value is not a multiple of the relocation's alignment";
    assert_eq!(texts(RelocateError::Misaligned), [misaligned]);
    assert_eq!(status("MISALIGNED"), misaligned);
    let out_of_reach = "the value is out of the relocation's reach";
    assert_eq!(texts(RelocateError::OutOfReach), [out_of_reach]);
    assert_eq!(status("OUT_OF_REACH"), out_of_reach);
}

#[test]
fn errors_of_values_name_what_can_be_written() {
    // R_AARCH64_TSTBR14 and R_RISCV_JAL
    for (architecture, r_type, value, text) in [
        (
            Architecture::AArch64,
            279,
            0x8000,
            "the value is out of the relocation's reach: 32768, where -32768 to 32767 in multiples of 4 \
             can be written",
        ),
        (
            Architecture::RiscV,
            17,
            3,
            "the value is not a multiple of the relocation's alignment: 3, where -1048576 to 1048574 in \
             multiples of 2 can be written",
        ),
    ] {
        let row = architecture.row(r_type).unwrap();
        let error = row.write(value, &mut [0; 8]).unwrap_err();
        assert_eq!(texts(WriteError::new(&row, value, error)), [text]);
    }
    // R_X86_64_64 is whole bytes without bounds
    let row = Architecture::X86_64.row(1).unwrap();
    let error = WriteError::new(&row, 5, RelocateError::TooShort);
    assert_eq!((error.least, error.greatest, error.alignment), (i64::MIN, i64::MAX, 1));
}

#[test]
fn errors_of_stubs_are_printed() {
    assert_eq!(texts(StubError::Missing), ["the architecture has no such stub"]);
    assert_eq!(texts(StubError::TooShort), ["there are fewer bytes than the stub has"]);
    let far = StubError::Field(RelocateError::OutOfReach);
    let cause = "the value is out of the relocation's reach";
    assert_eq!(texts(far), ["the stub does not lead to the target", cause]);
}

#[test]
fn errors_of_packed_relocations_are_printed() {
    assert_eq!(texts(RelrError::Unaligned), ["an address is not a multiple of 8"]);
    assert_eq!(texts(RelrError::NotAscending), ["an address is not above the one before it"]);
    assert_eq!(texts(RelrError::NoAddress), ["no address is before the first bitmap"]);
    assert_eq!(texts(RelrError::Wraps), ["an address of a bitmap is past 2^64 - 1"]);
    assert_eq!(texts(RelrError::TooShort(3)), ["the slice has fewer than 3"]);
}

#[test]
fn errors_of_compact_relocations_are_printed() {
    assert_eq!(texts(CrelError::CutOff(16)), ["the section ends in the number at 0x10, or there"]);
    assert_eq!(texts(CrelError::TooLarge(16)), ["the number at 0x10 has more than 64 bits"]);
    assert_eq!(texts(CrelError::TooShort(3)), ["the slice has fewer than 3"]);
}

#[test]
fn errors_of_properties_are_printed() {
    let at = PropertyError::NotProperties(0x30);
    assert_eq!(texts(at), ["no note of properties begins at 0x30"]);
    assert_eq!(texts(PropertyError::CutOff(16)), ["the note or property at 0x10 has no end"]);
    assert_eq!(texts(PropertyError::WrongSize(16)), ["the property at 0x10 has another size"]);
    let order = "the type of the property at 0x10 does not ascend";
    assert_eq!(texts(PropertyError::NotAscending(16)), [order]);
    assert_eq!(texts(PropertyError::Differs(0xc000_0001)), ["the values of type 0xc0000001 differ"]);
    assert_eq!(texts(PropertyError::Unknown(7)), ["the type 0x7 has no rule"]);
    assert_eq!(texts(PropertyError::TooLarge(2)), ["the value of type 0x2 does not fit"]);
    assert_eq!(texts(PropertyError::TooMany), ["a note has at most 2^27 - 1 properties"]);
    assert_eq!(texts(PropertyError::TooShort(3)), ["the slice has fewer than 3"]);
}

#[test]
fn errors_of_uleb128_numbers_are_printed() {
    let ended = "the bytes end before the ULEB128 number does";
    assert_eq!(texts(Uleb128Error::Ended), [ended]);
    assert_eq!(status("ULEB128_ENDED"), ended);
    let large = "the tenth byte of the ULEB128 number is neither 0 nor 1";
    assert_eq!(texts(Uleb128Error::TooLarge), [large]);
    assert_eq!(status("ULEB128_TOO_LARGE"), large);
    let fit = "the value does not fit the existing ULEB128 number";
    assert_eq!(texts(Uleb128Error::DoesNotFit), [fit]);
    assert_eq!(texts(Uleb128PairError::Number(Uleb128Error::DoesNotFit)), [fit]);
    let first = "the relocation is none that sets or adds to a ULEB128 number";
    assert_eq!(texts(Uleb128PairError::NotFirst), [first]);
}

/// Numbers of three bytes, and the difference of two addresses, as the psABIs say.
#[test]
fn pairs_write_uleb128_numbers() {
    let (riscv, loongarch) = (Architecture::RiscV, Architecture::LoongArch64);
    // R_RISCV_SET_ULEB128, R_LARCH_ADD_ULEB128 over 5
    let mut bytes = [0x85, 0x80, 0x00, 7];
    assert_eq!(riscv.write_uleb128_pair(60, &mut bytes, 0x1234, 0x1000), Ok(()));
    assert_eq!(bytes, [0xb4, 0x84, 0x00, 7]);
    let mut bytes = [0x85, 0x80, 0x00, 7];
    assert_eq!(loongarch.write_uleb128_pair(107, &mut bytes, 0x1234, 0x1000), Ok(()));
    assert_eq!(bytes, [0xb9, 0x84, 0x00, 7]);
    let negative = Err(Uleb128PairError::Number(Uleb128Error::DoesNotFit));
    assert_eq!(riscv.write_uleb128_pair(60, &mut bytes, 1, 2), negative);
    assert_eq!(bytes, [0xb9, 0x84, 0x00, 7]);
    // the second of the pair, and a relocation of another architecture
    for (architecture, code) in [(riscv, 61), (loongarch, 108), (Architecture::X86_64, 1)] {
        let pair = architecture.write_uleb128_pair(code, &mut bytes, 2, 1);
        assert_eq!(pair, Err(Uleb128PairError::NotFirst));
    }
}

const CALLS: [(CallError, &str, &str); 4] = [
    (
        CallError::OutOfSection,
        "OUT_OF_SECTION",
        "the four bytes at the site, or the eight where the `jalr`'s register is linked, \
         are not in the section, or the target is past its end",
    ),
    (CallError::SiteDeleted, "SITE_DELETED", "one of the four bytes at the site is deleted"),
    (CallError::OddDistance, "ODD_DISTANCE", "the distance is odd"),
    (CallError::TooFar, "TOO_FAR", "the distance is out of the range of `jal`"),
];

#[test]
fn errors_of_calls_are_printed() {
    for (error, name, text) in CALLS {
        assert_eq!(status(name), text);
        assert_eq!(texts(error), [text]);
        assert_eq!(texts(JumpError::Call(error)), [text]);
        let at = "the call at index 7 does not become a jump";
        assert_eq!(texts(RejectedCall { index: 7, error: error.into() }), [at, text]);
        assert_eq!(texts(PackError::Call { index: 7, error }), [at, text]);
    }
    let text =
        "the eight bytes at the site are not an `auipc` and a `jalr` whose base is its register";
    assert_eq!(status("NOT_A_CALL"), text);
    assert_eq!(texts(JumpError::NotACall), [text]);
    let rejected = RejectedCall { index: 18_446_744, error: JumpError::NotACall };
    assert_eq!(texts(rejected), ["the call at index 18446744 does not become a jump", text]);
    let cause = rejected.source().and_then(|error| error.downcast_ref());
    assert_eq!(cause, Some(&JumpError::NotACall));
    let packing = PackError::Call { index: 0, error: CallError::TooFar };
    let cause = packing.source().and_then(|error| error.downcast_ref());
    assert_eq!(cause, Some(&CallError::TooFar));
}

#[test]
fn errors_of_memory_are_printed() {
    assert_eq!(texts(OutOfMemory), ["out of memory"]);
    assert_eq!(texts(PackError::OutOfMemory), ["out of memory for the packed section"]);
    // what insertions into a map hand back
    let deltas = SectionRelaxDeltas::new(&[(4, 2)]).expect("memory");
    assert_eq!(texts(deltas), ["out of memory for the section's entry in the map"]);
}

#[test]
fn errors_of_runs_are_printed() {
    assert_eq!(texts(ItemsError::OutOfMemory), ["out of memory"]);
    let malformed = "the relocation at index 7 is not one that the psABI allows there";
    assert_eq!(texts(ItemsError::Malformed(7)), [malformed]);
    assert_eq!(malformed.replace(" at index 7", ""), status("MALFORMED_RELOCATION"));
    for (fault, name) in [
        (Fault::Overlaps, "ITEMS_OVERLAP"),
        (Fault::TooManyShapes, "TOO_MANY_SHAPES"),
        (Fault::ShapeTooLong, "SHAPE_TOO_LONG"),
        (Fault::ShapesNotAscending, "SHAPES_NOT_ASCENDING"),
        (Fault::BadGranularity, "BAD_GRANULARITY"),
        (Fault::BadReach, "BAD_REACH"),
        (Fault::BadAlignment, "BAD_ALIGNMENT"),
        (Fault::UnevenShape, "UNEVEN_SHAPE"),
        (Fault::Misaligned, "MISALIGNED"),
        (Fault::AlignmentBelowGranularity, "ALIGNMENT_BELOW_GRANULARITY"),
        (Fault::UnevenEnd, "UNEVEN_END"),
        (Fault::TooFewNops, "TOO_FEW_NOPS"),
        (Fault::UnevenNops, "UNEVEN_NOPS"),
        (Fault::TargetInside, "TARGET_INSIDE"),
        (Fault::MayBeMisaligned, "MAY_BE_MISALIGNED"),
    ] {
        let found = ItemFault { index: 3, fault };
        let said = status(name);
        assert_eq!(texts(found), ["the item at index 3 is faulty", said.as_str()]);
    }
    let high = "the address after the item is above 2^64 - 1";
    assert_eq!(texts(Fault::TooHigh), [high]);
    assert_eq!(high.replace("item", "item, or after the section,"), status("ENDS_TOO_HIGH"));
}

/// What a reader returns, with the text of its error, and how many bytes it leaves.
fn read<T, E: ToString>(
    bytes: &[u8],
    reader: fn(&mut &[u8]) -> Result<T, E>,
) -> (Result<T, String>, usize) {
    let mut content = bytes;
    let result = reader(&mut content);
    (result.map_err(|error| error.to_string()), content.len())
}

#[test]
fn readers_with_a_typed_error_read_the_same() {
    let (mut state, mut errors) = (0x9e37_79b9_7f4a_7c15_u64, [0; 3]);
    for _ in 0..100_000 {
        let mut bytes = [0; 12];
        for byte in &mut bytes {
            state = state.wrapping_mul(6_364_136_223_846_793_005).wrapping_add(1);
            // mostly a byte that another follows, and mostly 0 or 1 as the tenth
            *byte = match state >> 60 {
                0 => (state >> 57) as u8 & 3,
                _ => 0x80 | (state >> 40) as u8,
            };
        }
        let bytes = &bytes[..(state >> 32) as usize % 13];
        assert_eq!(read(bytes, readers::read_u32), read(bytes, utils::read_u32));
        let number = read(bytes, readers::read_uleb128);
        assert_eq!(number, read(bytes, utils::read_uleb128));
        errors[number.0.map_or_else(|text| 1 + usize::from(text.ends_with("ended")), |_| 0)] += 1;
    }
    assert!(errors.iter().all(|&count| count > 1_000), "{errors:?}");
}

#[test]
fn errors_of_readers_are_boxed() {
    let number = |mut bytes: &[u8]| -> Result<u64, Box<dyn Error>> {
        Ok(u64::from(readers::read_u32(&mut bytes)?) + readers::read_uleb128(&mut bytes)?)
    };
    assert_eq!(number(&[1, 0, 0, 0, 5]).ok(), Some(6));
    let ended = number(&[1, 0, 0, 0, 0x85]).unwrap_err();
    assert_eq!(ended.downcast_ref(), Some(&ReadError::Ended));
    assert_eq!(number(&[1]).unwrap_err().downcast_ref(), Some(&ReadError::TooShort));
}

#[test]
fn errors_of_sections_are_printed() {
    for (error, name) in [
        (RelocationError::Value(section::ValueError::NoSymbol), "NO_SYMBOL"),
        (RelocationError::Value(section::ValueError::NoEntry), "NO_ENTRY"),
        (RelocationError::Value(section::ValueError::NoTlsBase), "NO_TLS_BASE"),
        (RelocationError::Value(section::ValueError::NoHighPart), "NO_HIGH_PART"),
        (RelocationError::Value(section::ValueError::NotAligned), "NOT_ALIGNED"),
        (RelocationError::Value(section::ValueError::NeedsStub), "NEEDS_STUB"),
        (RelocationError::Value(section::ValueError::OutOfReach), "OUT_OF_REACH"),
        (RelocationError::Overlaps, "OVERLAPS"),
        (RelocationError::OtherLength, "OTHER_LENGTH"),
        (RelocationError::Write(RelocateError::Misaligned), "MISALIGNED"),
    ] {
        let place = "the relocation at index 7 is not written";
        let error = SectionError { index: 7, error, rejected: None };
        assert_eq!(texts(error), [place.into(), status(name)]);
    }
    // with the value it is told which can be written
    let cause = RelocateError::OutOfReach;
    let row = Architecture::AArch64.row(279).unwrap();
    let told = WriteError::new(&row, 0x8000, cause);
    let error = RelocationError::Write(cause);
    let error = SectionError { index: 7, error, rejected: Some(told) };
    assert_eq!(texts(error)[1], told.to_string());
    let unknown = RelocationError::Value(section::ValueError::UnknownType);
    assert!(status("UNKNOWN_RELOCATION").starts_with(&unknown.to_string()));
    let number = RelocationError::Uleb128(Uleb128Error::DoesNotFit);
    assert_eq!(texts(number), texts(Uleb128Error::DoesNotFit));
}

#[test]
fn errors_of_rewrites_are_printed() {
    for (error, text) in [
        (
            RewritingError::TooShort,
            "there are fewer decisions than relocations, or less room for deletions than there are",
        ),
        (
            RewritingError::NotSurveyed(3),
            "the instruction of the relocation at index 3 has no rewrite, and its group was not surveyed",
        ),
        (
            RewritingError::Overlaps(4),
            "the rewrite of the relocation at index 4 overlaps that of one before it",
        ),
    ] {
        assert_eq!(texts(error), [text]);
    }
    for (error, text) in [
        (DecisionError::TooShort, "there are fewer decisions than relocations"),
        (
            DecisionError::Changed(5),
            "the instruction of the relocation at index 5 is not the one that was decided on",
        ),
        (
            DecisionError::Overlaps(6),
            "the rewrite of the relocation at index 6 overlaps that of one before it",
        ),
    ] {
        assert_eq!(texts(error), [text]);
    }
}

#[test]
fn errors_of_routes_runs_and_rewritten_sections_are_errors() {
    let short = RelocateError::TooShort;
    assert_eq!(
        texts(RouteError::Write(short)),
        ["the value cannot be written, and no stub may serve the branch", &short.to_string()]
    );
    let unknown = section::ValueError::UnknownType;
    assert_eq!(
        texts(RouteError::Value(unknown)),
        ["the relocation has no value", &unknown.to_string()]
    );
    assert_eq!(texts(RouteError::NoRoom).len(), 1);
    let rejected = RejectedItem {
        index: 3,
        error: ItemError::OutOfReach,
    };
    assert_eq!(
        texts(rejected),
        ["the item at index 3 is not written", "the instructions do not reach the target"]
    );
    assert_eq!(
        texts(RewrittenItemsError::Malformed(4)),
        texts(ItemsError::Malformed(4))
    );
    let error = SectionError {
        index: 5,
        error: RelocationError::Overlaps,
        rejected: None,
    };
    assert_eq!(texts(WritingError::Section(error)), texts(error));
    assert_eq!(
        texts(WritingError::Changed(6)),
        ["other facts hold of the symbol of the relocation at index 6 than are kept"]
    );
    assert_eq!(
        texts(WritingError::Contradiction(7)),
        texts(RewritingError::Contradiction(7))
    );
    assert_eq!(texts(WritingError::NeedsStub(8)).len(), 1);
}
