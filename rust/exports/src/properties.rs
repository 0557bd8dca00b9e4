// SPDX-License-Identifier: MIT OR Apache-2.0
// Made by tools/generate of crates/linker_utils_c/src/properties.rt.
//! Program properties.

use crate::status::{Status, or_return};
use linker_utils::source::output::Target;
use linker_utils::source::output::{
    LandingProperty, Property, PropertyError, merge_properties, property_rule, read_properties,
    write_properties,
};
use linker_utils::elf::Architecture;

/// The status of a call, which also writes how many there are or are needed, or what an error is
/// about.
fn status_of(made: Result<usize, PropertyError>, number: &mut usize) -> u32 {
    let (status, value) = match made {
        Ok(count) => (Status::Success as u32, count),
        Err(PropertyError::NotProperties(at)) => (Status::NotProperties as u32, at),
        Err(PropertyError::CutOff(at)) => (Status::CutOff as u32, at),
        Err(PropertyError::WrongSize(at)) => (Status::WrongSize as u32, at),
        Err(PropertyError::NotAscending(at)) => (Status::NotAscending as u32, at),
        Err(PropertyError::Differs(kind)) => (Status::DifferentValues as u32, kind as usize),
        Err(PropertyError::Unknown(kind)) => (Status::UnknownProperty as u32, kind as usize),
        Err(PropertyError::TooLarge(kind)) => (Status::DoesNotFit as u32, kind as usize),
        Err(PropertyError::TooMany) => (Status::TooLarge as u32, *number),
        Err(PropertyError::TooShort(needed)) => (Status::TooShort as u32, needed),
    };
    *number = value;
    status
}

/// Whether a type of properties has a rule, as `property_rule`. False of an unknown architecture.
pub fn linker_utils_is_property_known(machine: u16, kind: u32) -> bool {
    match Architecture::from_machine(machine) {
        Some(architecture) => property_rule(architecture, kind).is_some(),
        None => false,
    }
}

/// Writes the properties of a section to the beginning of `properties`, as `read_properties`, and
/// how many they are to `number`. The first that applies of `UnknownArchitecture`; of what isn't
/// well-formed `NotProperties`, `CutOff`, `WrongSize` and `NotAscending`, with its offset in
/// `number`; `TooShort`, with how many there are. Then `properties` are unchanged.
pub fn linker_utils_read_properties_nonnull(
    machine: u16,
    notes: &[u8],
    properties: &mut [Property],
    number: &mut usize,
) -> u32 {
    let architecture = or_return!(Architecture::from_machine(machine), UnknownArchitecture);
    status_of(read_properties(architecture, notes, properties), number)
}

/// Writes what properties of two inputs make to the beginning of `properties`, as
/// `merge_properties`, and how many they are to `number`. The first that applies of
/// `UnknownArchitecture`; `DifferentValues`, with the type in `number`; `TooShort`, with how many
/// are needed. Then `properties` are unchanged.
pub fn linker_utils_merge_properties_nonnull(
    machine: u16,
    first: &[Property],
    second: &[Property],
    properties: &mut [Property],
    number: &mut usize,
) -> u32 {
    let architecture = or_return!(Architecture::from_machine(machine), UnknownArchitecture);
    let merged = merge_properties(architecture, first, second, properties);
    status_of(merged, number)
}

/// Writes the note of properties to the beginning of `note`, as `write_properties`, and its length
/// to `number`. The first that applies of `UnknownArchitecture`; `TooLarge`, with 2^27 properties
/// or more; of the first property that can't be written `NotAscending`, with its index in `number`,
/// `UnknownProperty` or `DoesNotFit`, with its type; `TooShort`, with the length that is needed.
/// Then `note` is unchanged.
pub fn linker_utils_write_properties_nonnull(
    machine: u16,
    properties: &[Property],
    note: &mut [u8],
    number: &mut usize,
) -> u32 {
    let architecture = or_return!(Architecture::from_machine(machine), UnknownArchitecture);
    status_of(write_properties(architecture, properties, note), number)
}

/// Writes what says that code of an architecture is protected. The first that applies of
/// `UnknownArchitecture`; `NotProvided`, where the architecture has no such code.
pub fn linker_utils_get_landing_property(
    machine: u16,
    landing: &mut LandingProperty,
) -> u32 {
    let architecture = or_return!(Architecture::from_machine(machine), UnknownArchitecture);
    let property = or_return!(Target::of(architecture).landing_property, NotProvided);
    *landing = property;
    Status::Success as u32
}
