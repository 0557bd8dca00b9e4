// SPDX-License-Identifier: MIT OR Apache-2.0
// Made by tools/generate of crates/linker_output/src/properties.rt.
//! Program properties, which objects have in notes of a section `.note.gnu.property` (Linux
//! extensions to the generic ABI, "Program Property"), and of which a linker makes the output's.
//!
//! A note has `namesz` 4, `n_type` 5 (`NT_GNU_PROPERTY_TYPE_0`), the name "GNU" and a zero, and
//! then properties: `pr_type` and `pr_datasz`, of 4 bytes each, and the value, which zeros fill up
//! to a multiple of 8 bytes. The types of a section ascend. A section may have several notes.
//!
//! The output's properties are those of the first input, merged with themselves and then with those
//! of each other input, in any order. An input without a section has none.

use crate::linker_base::rewrite::overwrite;
use crate::linker_base::utils::u64_from_slice;
use crate::elf::Architecture;

/// How the values of a type of properties go together.
#[cfg_attr(not(exhaustive), non_exhaustive)]
#[derive(Clone, Copy, Debug, PartialEq, Eq, Hash)]
pub enum PropertyRule {
    /// The bits that all inputs have, of 4 bytes. A missing value is 0, and a property that is 0 is
    /// left out.
    All,
    /// The bits that any input has, of 4 bytes. A missing value is 0, and a property that is 0 is
    /// left out.
    Any,
    /// The bits that any input has, of 4 bytes, if all inputs have the property.
    AnyOfAll,
    /// The largest value, of 8 bytes.
    Largest,
    /// The output has it if any input has it. It has no value.
    Present,
    /// Those inputs that have it have the same value, of 16 bytes.
    Same,
}

/// A property.
#[repr(C)]
#[derive(Clone, Copy, Debug, PartialEq, Eq, Hash)]
pub struct Property {
    /// Its type, `pr_type`.
    pub kind: u32,
    /// Its value.
    pub value: u64,
    /// The value's second 8 bytes, which are the version of AArch64's PAuth ABI. 0 of all others.
    pub version: u64,
}

/// The bit of a property that says that indirect branches go only to instructions that are there
/// for them: x86-64's IBT or AArch64's BTI. The output's property has it if all inputs' have it, or
/// if the linker adds it to them (ld.lld's `-z force-ibt` and `-z force-bti`). Then stubs to which
/// indirect branches go are of the kind `LandingLoad`, and lazy PLTs of a form for such code.
#[repr(C)]
#[derive(Clone, Copy, Debug, PartialEq, Eq, Hash)]
pub struct LandingProperty {
    /// The bit, as a mask of the property's value.
    pub bit: u64,
    /// The property's type. Its rule is [`PropertyRule::All`](crate::output::PropertyRule::All).
    pub kind: u32,
}

/// Why properties aren't read, merged or written.
#[cfg_attr(not(exhaustive), non_exhaustive)]
#[derive(Clone, Copy, Debug, PartialEq, Eq, Hash)]
pub enum PropertyError {
    /// What begins at the offset isn't a note of properties.
    NotProperties(usize),
    /// The section ends in the note at the offset, or the note ends in the property there.
    CutOff(usize),
    /// The property at the offset has another size than its type.
    WrongSize(usize),
    /// The type at the offset isn't above the one before it, or that of the property at the index.
    NotAscending(usize),
    /// The values of this type differ.
    Differs(u32),
    /// The type has no rule.
    Unknown(u32),
    /// The value of this type doesn't fit its size.
    TooLarge(u32),
    /// A note can't be as long.
    TooMany,
    /// The slice is too short. It has how many bytes or properties are needed.
    TooShort(usize),
}

/// How the values of a type of properties go together. None of an unknown type.
///
/// Of all architectures these are `GNU_PROPERTY_STACK_SIZE`, `GNU_PROPERTY_NO_COPY_ON_PROTECTED`,
/// and the ranges `UINT32_AND` and `UINT32_OR`. The x86-64 psABI has ranges of three rules, AArch64
/// `FEATURE_1_AND` and `FEATURE_PAUTH`, and RISC-V `FEATURE_1_AND`.
///
/// ```
/// use linker_utils::output::{PropertyRule, property_rule};
/// use linker_utils::elf::Architecture;
///
/// // GNU_PROPERTY_X86_FEATURE_1_AND
/// let rule = property_rule(Architecture::X86_64, 0xc000_0002);
/// assert!(matches!(rule, Some(PropertyRule::All)));
/// assert!(property_rule(Architecture::Ppc64, 0xc000_0002).is_none());
/// ```
#[must_use]
pub fn property_rule(architecture: Architecture, kind: u32) -> Option<PropertyRule> {
    match (architecture, kind) {
        (_, 1) => Some(PropertyRule::Largest),
        (_, 2) => Some(PropertyRule::Present),
        (_, 0xb000_0000..=0xb000_7fff) => Some(PropertyRule::All),
        (_, 0xb000_8000..=0xb000_ffff) => Some(PropertyRule::Any),
        #[cfg(feature = "x86_64")]
        (Architecture::X86_64, 0xc000_0000) => Some(PropertyRule::AnyOfAll),
        #[cfg(feature = "x86_64")]
        (Architecture::X86_64, 0xc001_0000..=0xc001_7fff) => Some(PropertyRule::AnyOfAll),
        #[cfg(feature = "x86_64")]
        (Architecture::X86_64, 0xc000_0001) => Some(PropertyRule::Any),
        #[cfg(feature = "x86_64")]
        (Architecture::X86_64, 0xc000_8000..=0xc000_ffff) => Some(PropertyRule::Any),
        #[cfg(feature = "x86_64")]
        (Architecture::X86_64, 0xc000_0002..=0xc000_7fff) => Some(PropertyRule::All),
        #[cfg(feature = "aarch64")]
        ( Architecture::AArch64, 0xc000_0000) => Some(PropertyRule::All),
        #[cfg(feature = "riscv64")]
        ( Architecture::RiscV, 0xc000_0000) => Some(PropertyRule::All),
        #[cfg(feature = "aarch64")]
        (Architecture::AArch64, 0xc000_0001) => Some(PropertyRule::Same),
        _ => None,
    }
}

/// A property without a second 8 bytes.
fn of_value(kind: u32, value: u64) -> Property {
    Property {
        kind,
        value,
        version: 0,
    }
}

/// A property, unless its value is 0.
fn unless_zero(kind: u32, value: u64) -> Option<Property> {
    if value == 0 {
        None
    } else {
        Some(of_value(kind, value))
    }
}

/// The value, or 0.
fn value_of(property: Option<Property>) -> u64 {
    match property {
        Some(property) => property.value,
        None => 0,
    }
}

/// What two inputs' properties of a type make.
fn merge_values(
    rule: PropertyRule,
    kind: u32,
    first: Option<Property>,
    second: Option<Property>,
) -> Result<Option<Property>, PropertyError> {
    Ok(match (rule, first, second) {
        (PropertyRule::All, _, _) => unless_zero(kind, value_of(first) & value_of(second)),
        (PropertyRule::Any, _, _) => unless_zero(kind, value_of(first) | value_of(second)),
        (PropertyRule::AnyOfAll, Some(one), Some(other)) => {
            Some(of_value(kind, one.value | other.value))
        }
        (PropertyRule::AnyOfAll, _, _) => None,
        (_, None, _) => second,
        (_, _, None) => first,
        (PropertyRule::Largest, Some(one), Some(other)) => {
            Some(of_value(kind, one.value.max(other.value)))
        }
        (PropertyRule::Present, _, _) => Some(of_value(kind, 0)),
        (PropertyRule::Same, Some(one), Some(other)) => {
            if one.value != other.value || one.version != other.version {
                return Err(PropertyError::Differs(kind));
            }
            Some(Property { kind, ..one })
        }
    })
}

/// The first property of a type.
fn of_kind(properties: &[Property], kind: u32) -> Option<Property> {
    for property in properties {
        if property.kind == kind {
            return Some(*property);
        }
    }
    None
}

/// More than any type.
const NO_KIND: u64 = 1 << 32;

/// The least type from `from` on, or `known` if that is less.
fn least_kind(properties: &[Property], from: u64, known: u64) -> u64 {
    let mut least = known;
    for property in properties {
        let kind = u64::from(property.kind);
        if from <= kind && kind < least {
            least = kind;
        }
    }
    least
}

/// Writes a property at an index, if the slice has it, and returns the next index.
fn put(properties: &mut [Property], index: usize, property: Property) -> usize {
    if index < properties.len() {
        properties[index] = property;
    }
    index + 1
}

/// Writes as many merged properties as the slice has, and returns how many there are.
fn merge_into(
    architecture: Architecture,
    first: &[Property],
    second: &[Property],
    properties: &mut [Property],
) -> Result<usize, PropertyError> {
    let mut count = 0;
    let mut kind = least_kind(second, 0, least_kind(first, 0, NO_KIND));
    while kind < NO_KIND {
        let at = kind as u32;
        if let Some(rule) = property_rule(architecture, at) {
            let merged = merge_values(rule, at, of_kind(first, at), of_kind(second, at))?;
            if let Some(property) = merged {
                count = put(properties, count, property);
            }
        }
        kind = least_kind(second, kind + 1, least_kind(first, kind + 1, NO_KIND));
    }
    Ok(count)
}

/// Merges properties of two inputs, or of all inputs so far and of one more: of each type what its
/// properties make by [`property_rule`](crate::output::property_rule()). Writes them to the beginning of a slice, with ascending
/// types, and returns how many they are. Properties after those are left, and with an error all
/// are.
///
/// Types without a rule are dropped. Of several properties of one type in a list the first counts.
/// `Differs` has the type whose values differ. `TooShort` has how many properties are needed.
///
/// ```
/// use linker_utils::output::{Property, merge_properties};
/// use linker_utils::elf::Architecture;
///
/// let of = |kind, value| Property { kind, value, version: 0 };
/// // the bits of GNU_PROPERTY_X86_FEATURE_1_AND, and GNU_PROPERTY_X86_ISA_1_NEEDED
/// let first = [of(0xc000_0002, 3), of(0xc000_8002, 1)];
/// let second = [of(0xc000_0002, 1), of(0xc000_8002, 2)];
/// let mut merged = [of(0, 0); 2];
/// assert_eq!(merge_properties(Architecture::X86_64, &first, &second, &mut merged)?, 2);
/// assert_eq!((merged[0].value, merged[1].value), (1, 3));
/// // an input without properties
/// assert_eq!(merge_properties(Architecture::X86_64, &first, &[], &mut merged)?, 1);
/// assert_eq!((merged[0].kind, merged[0].value), (0xc000_8002, 1));
/// # Ok::<(), linker_utils::output::PropertyError>(())
/// ```
pub fn merge_properties(
    architecture: Architecture,
    first: &[Property],
    second: &[Property],
    properties: &mut [Property],
) -> Result<usize, PropertyError> {
    let needed = merge_into(architecture, first, second, &mut [])?;
    if properties.len() < needed {
        return Err(PropertyError::TooShort(needed));
    }
    merge_into(architecture, first, second, properties)
}

/// How far a section is read.
#[derive(Clone, Copy)]
struct Reading {
    /// The offset of what comes next.
    next: usize,
    /// The offset at which the note ends.
    end: usize,
    /// The least type that may come next.
    least: u64,
    /// The property that was read.
    property: Option<Property>,
}

/// The word of 8 bytes at an offset.
fn word_at(section: &[u8], at: usize) -> u64 {
    u64_from_slice(&section[at..])
}

impl PropertyRule {
    /// The size of a type's values.
    fn size(self) -> u64 {
        match self {
            PropertyRule::All | PropertyRule::Any | PropertyRule::AnyOfAll => 4,
            PropertyRule::Largest => 8,
            PropertyRule::Present => 0,
            PropertyRule::Same => 16,
        }
    }
}

/// Reads a note's header.
fn visit_note(section: &[u8], from: &Reading) -> Result<Reading, PropertyError> {
    let at = from.next;
    let room = section.len() - at;
    if room < 16 {
        return Err(PropertyError::CutOff(at));
    }
    let sizes = word_at(section, at);
    if sizes % (1 << 32) != 4 || word_at(section, at + 8) != 0x0055_4e47_0000_0005 {
        return Err(PropertyError::NotProperties(at));
    }
    let size = (sizes >> 32) as usize;
    if room - 16 < size {
        return Err(PropertyError::CutOff(at));
    }
    Ok(Reading {
        next: at + 16,
        end: at + 16 + size,
        least: from.least,
        property: None,
    })
}

/// The property whose value is at an offset.
fn property_at(rule: PropertyRule, section: &[u8], at: usize, kind: u32) -> Property {
    match rule {
        PropertyRule::Largest => of_value(kind, word_at(section, at)),
        PropertyRule::Present => of_value(kind, 0),
        PropertyRule::Same => Property {
            kind,
            value: word_at(section, at),
            version: word_at(section, at + 8),
        },
        _ => of_value(kind, word_at(section, at) % (1 << 32)),
    }
}

/// Reads a property.
fn visit_property(
    architecture: Architecture,
    section: &[u8],
    from: &Reading,
) -> Result<Reading, PropertyError> {
    let at = from.next;
    let room = from.end - at;
    if room < 8 {
        return Err(PropertyError::CutOff(at));
    }
    let word = word_at(section, at);
    let size = word >> 32;
    let padded = ((size + 7) / 8 * 8) as usize;
    if room - 8 < padded {
        return Err(PropertyError::CutOff(at));
    }
    let kind = (word % (1 << 32)) as u32;
    if u64::from(kind) < from.least {
        return Err(PropertyError::NotAscending(at));
    }
    let property = match property_rule(architecture, kind) {
        None => of_value(kind, 0),
        Some(rule) => {
            if size != rule.size() {
                return Err(PropertyError::WrongSize(at));
            }
            property_at(rule, section, at + 8, kind)
        }
    };
    Ok(Reading {
        next: at + 8 + padded,
        end: from.end,
        least: u64::from(kind) + 1,
        property: Some(property),
    })
}

/// Reads a note's header, or a property of the note.
fn visit(
    architecture: Architecture,
    section: &[u8],
    from: &Reading,
) -> Result<Reading, PropertyError> {
    if from.next == from.end {
        visit_note(section, from)
    } else {
        visit_property(architecture, section, from)
    }
}

/// Writes as many properties as the slice has, and returns how many the section has.
fn read_into(
    architecture: Architecture,
    section: &[u8],
    properties: &mut [Property],
) -> Result<usize, PropertyError> {
    let mut place = Reading {
        next: 0,
        end: 0,
        least: 0,
        property: None,
    };
    let mut count = 0;
    while place.next < section.len() {
        place = visit(architecture, section, &place)?;
        if let Some(property) = place.property {
            count = put(properties, count, property);
        }
    }
    Ok(count)
}

/// Reads the properties of a section. Writes them to the beginning of a slice, and returns how many
/// they are. Properties after those are left, and with an error all are.
///
/// A property whose type has no rule has the value 0. [`merge_properties`](crate::output::merge_properties()) drops it, so that a linker
/// may report its type. `NotProperties`, `CutOff`, `WrongSize` and `NotAscending` are of the first
/// note or property that isn't well-formed. `TooShort` has how many properties there are: with an
/// empty slice the call counts them.
///
/// ```
/// use linker_utils::output::{Property, PropertyError, read_properties};
/// use linker_utils::elf::Architecture;
///
/// // GNU_PROPERTY_X86_FEATURE_1_AND, of IBT and SHSTK
/// let note = b"\x04\0\0\0\x10\0\0\0\x05\0\0\0GNU\0\x02\0\0\xc0\x04\0\0\0\x03\0\0\0\0\0\0\0";
/// let mut read = [Property { kind: 0, value: 0, version: 0 }];
/// assert_eq!(read_properties(Architecture::X86_64, note, &mut read)?, 1);
/// assert_eq!((read[0].kind, read[0].value), (0xc000_0002, 3));
/// let cut = read_properties(Architecture::X86_64, &note[..24], &mut read);
/// assert!(matches!(cut, Err(PropertyError::CutOff(0))));
/// # Ok::<(), PropertyError>(())
/// ```
pub fn read_properties(
    architecture: Architecture,
    section: &[u8],
    properties: &mut [Property],
) -> Result<usize, PropertyError> {
    let needed = read_into(architecture, section, &mut [])?;
    if properties.len() < needed {
        return Err(PropertyError::TooShort(needed));
    }
    read_into(architecture, section, properties)
}

impl PropertyRule {
    /// Whether no part of a property is lost in a value of the type's size.
    fn fits(self, property: &Property) -> bool {
        match self {
            PropertyRule::Same => true,
            PropertyRule::Largest => property.version == 0,
            PropertyRule::Present => property.value == 0 && property.version == 0,
            _ => property.value < 1 << 32 && property.version == 0,
        }
    }
}

/// The rule of the property at an index, which can be written after types below the least one.
fn writable(
    architecture: Architecture,
    least: u64,
    index: usize,
    property: Property,
) -> Result<PropertyRule, PropertyError> {
    if u64::from(property.kind) < least {
        return Err(PropertyError::NotAscending(index));
    }
    match property_rule(architecture, property.kind) {
        None => Err(PropertyError::Unknown(property.kind)),
        Some(rule) => {
            if rule.fits(&property) {
                Ok(rule)
            } else {
                Err(PropertyError::TooLarge(property.kind))
            }
        }
    }
}

/// Writes a word at an offset, if the slice has it, and returns the offset after it.
fn put_word(note: &mut [u8], at: usize, word: u64) -> usize {
    if note.len() >= 8 && at <= note.len() - 8 {
        overwrite(note, at as u64, &word.to_le_bytes());
    }
    at + 8
}

/// The same of a property.
fn put_property(note: &mut [u8], at: usize, rule: PropertyRule, property: &Property) -> usize {
    let head = u64::from(property.kind) + (1 << 32) * rule.size();
    let value = put_word(note, at, head);
    match rule {
        PropertyRule::Present => value,
        PropertyRule::Same => {
            let version = put_word(note, value, property.value);
            put_word(note, version, property.version)
        }
        _ => put_word(note, value, property.value),
    }
}

/// Writes the properties after a note's header, if there is room for all, and returns the offset
/// after them.
fn encode(
    architecture: Architecture,
    properties: &[Property],
    note: &mut [u8],
) -> Result<usize, PropertyError> {
    let mut at = 16;
    let mut least = 0;
    for (index, property) in properties.iter().enumerate() {
        let rule = writable(architecture, least, index, *property)?;
        at = put_property(note, at, rule, property);
        least = u64::from(property.kind) + 1;
    }
    Ok(at)
}

/// Writes the note of properties to the beginning of a slice, and returns how many bytes it has: a
/// multiple of 8, and 0 of no properties. Bytes after it are left, and with an error all are.
///
/// The first that applies: `TooMany`, with 2^27 properties or more; of the first property that
/// can't be written `NotAscending`, with its index, `Unknown` or `TooLarge`, with its type;
/// `TooShort`, with how many bytes are needed.
///
/// ```
/// use linker_utils::output::{Property, write_properties};
/// use linker_utils::elf::Architecture;
///
/// // GNU_PROPERTY_AARCH64_FEATURE_1_AND, of BTI
/// let bti = Property { kind: 0xc000_0000, value: 1, version: 0 };
/// let mut note = [0; 32];
/// assert_eq!(write_properties(Architecture::AArch64, &[bti], &mut note)?, 32);
/// assert_eq!(note[..16], *b"\x04\0\0\0\x10\0\0\0\x05\0\0\0GNU\0");
/// assert_eq!(note[16..], [0, 0, 0, 0xc0, 4, 0, 0, 0, 1, 0, 0, 0, 0, 0, 0, 0]);
/// # Ok::<(), linker_utils::output::PropertyError>(())
/// ```
pub fn write_properties(
    architecture: Architecture,
    properties: &[Property],
    note: &mut [u8],
) -> Result<usize, PropertyError> {
    if properties.is_empty() {
        return Ok(0);
    }
    if properties.len() >= 1 << 27 {
        return Err(PropertyError::TooMany);
    }
    let len = encode(architecture, properties, &mut [])?;
    if note.len() < len {
        return Err(PropertyError::TooShort(len));
    }
    encode(architecture, properties, note)?;
    let name = put_word(note, 0, 4 + (1 << 32) * (len as u64 - 16));
    put_word(note, name, 0x0055_4e47_0000_0005);
    Ok(len)
}
