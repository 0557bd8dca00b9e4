// SPDX-License-Identifier: MIT OR Apache-2.0
//! Notes of properties as GNU ld 2.40 (x86-64) and LLD 19 (AArch64) write them with `-shared`, of
//! objects that clang 19 assembled of such notes.

use linker_utils::elf::Architecture::{self, AArch64, LoongArch64, Ppc64, RiscV, X86_64};
use linker_utils::output::{
    Property, PropertyError, PropertyRule, merge_properties, property_rule, read_properties,
    write_properties,
};

/// Properties by type, size and value.
type Properties = &'static [(u32, u32, &'static [u32])];

const STACK_SIZE: u32 = 1;
const NO_COPY_ON_PROTECTED: u32 = 2;
const UINT32_AND: u32 = 0xb000_0000;
const UINT32_OR: u32 = 0xb000_8000;
const AARCH64_FEATURE_1_AND: u32 = 0xc000_0000;
const AARCH64_PAUTH: u32 = 0xc000_0001;
const X86_FEATURE_1_AND: u32 = 0xc000_0002;
const X86_ISA_1_NEEDED: u32 = 0xc000_8002;
const X86_ISA_1_USED: u32 = 0xc001_0002;

const A: Properties = &[
    (X86_FEATURE_1_AND, 4, &[3, 0]), (X86_ISA_1_NEEDED, 4, &[1, 0]), (X86_ISA_1_USED, 4, &[1, 0]),
];
const B: Properties = &[
    (X86_FEATURE_1_AND, 4, &[1, 0]), (X86_ISA_1_NEEDED, 4, &[2, 0]), (X86_ISA_1_USED, 4, &[4, 0]),
];
const C: Properties = &[(X86_FEATURE_1_AND, 4, &[2, 0]), (X86_ISA_1_NEEDED, 4, &[6, 0])];
const D: Properties = &[
    (STACK_SIZE, 8, &[0x1000, 0]), (UINT32_AND, 4, &[6, 0]), (UINT32_OR, 4, &[1, 0]),
];
const E: Properties = &[
    (STACK_SIZE, 8, &[0x800, 0]), (NO_COPY_ON_PROTECTED, 0, &[]), (UINT32_AND, 4, &[3, 0]),
    (UINT32_OR, 4, &[2, 0]),
];
const F: Properties = &[(UINT32_AND, 4, &[1, 0]), (X86_FEATURE_1_AND, 4, &[4, 0])];
const NONE: Properties = &[];

const PLATFORM: u32 = 0x1000_0002;
const BTI: Properties = &[(AARCH64_FEATURE_1_AND, 4, &[1, 0])];
const BTI_PAC: Properties = &[(AARCH64_FEATURE_1_AND, 4, &[3, 0])];
const PAUTH: Properties = &[
    (AARCH64_FEATURE_1_AND, 4, &[7, 0]), (AARCH64_PAUTH, 16, &[PLATFORM, 0, 85, 0]),
];
const PAUTH_LESS: Properties = &[
    (AARCH64_FEATURE_1_AND, 4, &[5, 0]), (AARCH64_PAUTH, 16, &[PLATFORM, 0, 85, 0]),
];
const PAUTH_OTHER: Properties = &[(AARCH64_PAUTH, 16, &[PLATFORM, 0, 86, 0])];

/// Inputs, and the output.
const LINKS: &[(Architecture, &[Properties], Properties)] = &[
    (X86_64, &[A], A),
    (
        X86_64, &[A, B],
        &[
            (X86_FEATURE_1_AND, 4, &[1, 0]), (X86_ISA_1_NEEDED, 4, &[3, 0]),
            (X86_ISA_1_USED, 4, &[5, 0]),
        ],
    ),
    (X86_64, &[A, B, C], &[(X86_ISA_1_NEEDED, 4, &[7, 0])]),
    (X86_64, &[A, NONE], &[(X86_ISA_1_NEEDED, 4, &[1, 0])]),
    (
        X86_64, &[D, E],
        &[
            (STACK_SIZE, 8, &[0x1000, 0]), (NO_COPY_ON_PROTECTED, 0, &[]), (UINT32_AND, 4, &[2, 0]),
            (UINT32_OR, 4, &[3, 0]),
        ],
    ),
    (
        X86_64, &[D, E, F],
        &[(STACK_SIZE, 8, &[0x1000, 0]), (NO_COPY_ON_PROTECTED, 0, &[]), (UINT32_OR, 4, &[3, 0])],
    ),
    (X86_64, &[F], F),
    (X86_64, &[A, F], &[(X86_ISA_1_NEEDED, 4, &[1, 0])]),
    (X86_64, &[D, NONE], &[(STACK_SIZE, 8, &[0x1000, 0]), (UINT32_OR, 4, &[1, 0])]),
    (
        X86_64, &[D, A],
        &[(STACK_SIZE, 8, &[0x1000, 0]), (UINT32_OR, 4, &[1, 0]), (X86_ISA_1_NEEDED, 4, &[1, 0])],
    ),
    (AArch64, &[BTI_PAC], BTI_PAC),
    (AArch64, &[BTI_PAC, BTI], BTI),
    (AArch64, &[BTI_PAC, NONE], NONE),
    (AArch64, &[PAUTH, PAUTH_LESS], PAUTH_LESS),
    (
        AArch64, &[PAUTH, BTI_PAC],
        &[(AARCH64_FEATURE_1_AND, 4, &[3, 0]), (AARCH64_PAUTH, 16, &[PLATFORM, 0, 85, 0])],
    ),
];

/// The bytes of a note.
fn note(properties: Properties) -> Vec<u8> {
    let words = properties.iter().flat_map(|(kind, size, value)| [&[*kind, *size], *value].concat());
    let described: Vec<u32> = words.collect();
    let header = [4, 4 * described.len() as u32, 5, u32::from_le_bytes(*b"GNU\0")];
    let words = if properties.is_empty() { vec![] } else { [&header[..], &described].concat() };
    words.iter().flat_map(|word| word.to_le_bytes()).collect()
}

fn of(kind: u32, value: u64, version: u64) -> Property {
    Property { kind, value, version }
}

fn read(architecture: Architecture, notes: &[u8]) -> Result<Vec<Property>, PropertyError> {
    let mut properties = [of(0, 0, 0); 8];
    let count = read_properties(architecture, notes, &mut properties)?;
    Ok(properties[..count].to_vec())
}

fn merge(
    architecture: Architecture,
    first: &[Property],
    second: &[Property],
) -> Result<Vec<Property>, PropertyError> {
    let mut properties = [of(0, 0, 0); 8];
    let count = merge_properties(architecture, first, second, &mut properties)?;
    Ok(properties[..count].to_vec())
}

fn linked(architecture: Architecture, inputs: &[Properties]) -> Result<Vec<u8>, PropertyError> {
    let first = read(architecture, &note(inputs[0]))?;
    let mut merged = merge(architecture, &first, &first)?;
    for input in &inputs[1..] {
        merged = merge(architecture, &merged, &read(architecture, &note(input))?)?;
    }
    let mut bytes = [0xaa; 128];
    let len = write_properties(architecture, &merged, &mut bytes)?;
    assert!(bytes[len..].iter().all(|byte| *byte == 0xaa));
    assert_eq!(read(architecture, &bytes[..len]), Ok(merged));
    Ok(bytes[..len].to_vec())
}

#[test]
fn notes_are_those_of_linkers() {
    for (index, (architecture, inputs, output)) in LINKS.iter().enumerate() {
        let expected = note(output);
        assert_eq!(linked(*architecture, inputs).as_ref(), Ok(&expected), "link {index}");
        let turned: Vec<Properties> = inputs.iter().rev().copied().collect();
        assert_eq!(linked(*architecture, &turned), Ok(expected), "link {index} turned");
    }
    // LLD: incompatible values of AArch64 PAuth core info found
    let differs = linked(AArch64, &[PAUTH, PAUTH_OTHER]);
    assert_eq!(differs, Err(PropertyError::Differs(AARCH64_PAUTH)));
}

#[test]
fn types_have_the_rules_of_their_psabi() {
    for architecture in [AArch64, LoongArch64, Ppc64, RiscV, X86_64] {
        let rule = |kind| property_rule(architecture, kind);
        assert_eq!(rule(STACK_SIZE), Some(PropertyRule::Largest));
        assert_eq!(rule(NO_COPY_ON_PROTECTED), Some(PropertyRule::Present));
        assert_eq!(rule(0xb000_7fff), Some(PropertyRule::All));
        assert_eq!(rule(0xb000_8000), Some(PropertyRule::Any));
        assert_eq!([0, 3, 0xb001_0000, 0xc001_8000, 0xe000_0000].map(rule), [None; 5]);
    }
    assert_eq!(property_rule(RiscV, 0xc000_0000), Some(PropertyRule::All));
    assert_eq!(property_rule(Ppc64, 0xc000_0000), None);
    // compatibility names of binutils: GNU_PROPERTY_X86_COMPAT_ISA_1_USED and _NEEDED
    let compat = [0xc000_0000, 0xc000_0001].map(|kind| property_rule(X86_64, kind));
    assert_eq!(compat, [Some(PropertyRule::AnyOfAll), Some(PropertyRule::Any)]);
    assert_eq!(property_rule(X86_64, 0xc000_7fff), Some(PropertyRule::All));
    assert_eq!(property_rule(X86_64, 0xc001_7fff), Some(PropertyRule::AnyOfAll));
}

#[test]
fn notes_that_are_not_well_formed_are_rejected() {
    let whole = note(A);
    let mut all = [of(0, 0, 0); 3];
    assert_eq!(read_properties(X86_64, &whole, &mut all), Ok(3));
    assert_eq!(read_properties(X86_64, &whole, &mut all[..2]), Err(PropertyError::TooShort(3)));
    let changed = |at: usize, byte: u8| {
        let mut bytes = whole.clone();
        bytes[at] = byte;
        read(X86_64, &bytes)
    };
    // namesz, n_type and the name
    for at in [0, 8, 12, 15] {
        assert_eq!(changed(at, 9), Err(PropertyError::NotProperties(0)), "byte {at}");
    }
    // descsz
    assert_eq!(changed(4, 0x38), Err(PropertyError::CutOff(0)));
    assert_eq!(changed(4, 0x2c), Err(PropertyError::CutOff(48)));
    // pr_datasz, and pr_type
    assert_eq!(changed(16 + 4, 8), Err(PropertyError::WrongSize(16)));
    assert_eq!(changed(48 + 4, 9), Err(PropertyError::CutOff(48)));
    assert_eq!(changed(32 + 1, 0), Err(PropertyError::NotAscending(32)));
    assert_eq!(read(X86_64, &whole[..15]), Err(PropertyError::CutOff(0)));
    // two notes in a section, whose types ascend or not
    let two = [note(D), note(A)].concat();
    assert_eq!(read(X86_64, &two).map(|read| read.len()), Ok(6));
    let again = [note(F), note(F)].concat();
    assert_eq!(read(X86_64, &again), Err(PropertyError::NotAscending(48 + 16)));
    // a type without a rule, of any size, is read and then dropped
    let unknown = read(Ppc64, &whole).unwrap();
    let kinds = [X86_FEATURE_1_AND, X86_ISA_1_NEEDED, X86_ISA_1_USED];
    assert_eq!(unknown, kinds.map(|kind| of(kind, 0, 0)));
    assert_eq!(merge(Ppc64, &unknown, &unknown), Ok(vec![]));
}

#[test]
fn properties_that_have_no_note_are_rejected() {
    let mut bytes = [0xaa; 32];
    let mut rejected = |properties: &[Property]| {
        let error = write_properties(X86_64, properties, &mut bytes).unwrap_err();
        assert_eq!(bytes, [0xaa; 32]);
        error
    };
    let feature = of(X86_FEATURE_1_AND, 3, 0);
    assert_eq!(rejected(&[feature, of(7, 0, 0)]), PropertyError::NotAscending(1));
    assert_eq!(rejected(&[of(7, 0, 0)]), PropertyError::Unknown(7));
    let large = of(X86_FEATURE_1_AND, 1 << 32, 0);
    assert_eq!(rejected(&[large]), PropertyError::TooLarge(X86_FEATURE_1_AND));
    assert_eq!(rejected(&[of(STACK_SIZE, 1 << 32, 1)]), PropertyError::TooLarge(STACK_SIZE));
    assert_eq!(rejected(&[of(2, 1, 0)]), PropertyError::TooLarge(2));
    assert_eq!(rejected(&[of(STACK_SIZE, 1 << 32, 0), feature]), PropertyError::TooShort(48));
}
