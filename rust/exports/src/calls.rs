// SPDX-License-Identifier: MIT OR Apache-2.0
// Made by tools/generate of crates/linker_utils_c/src/calls.rt.
//! RISC-V calls that become jumps, and tests for shorter instructions.

use crate::status::Status;
use linker_utils::elf::RiscVInstruction;
use linker_utils::relaxation::{DeltaSlice, RelaxDelta};
use linker_utils::riscv64::{self, CallError, JumpError, LinkRegister, RelaxationKind};

/// Turns the `auipc` at a site of a section into a `jal` by a distance in bytes, with the `auipc`'s
/// destination register. The first that applies of `OutOfSection`, `OddDistance`, `TooFar`.
pub fn linker_utils_jal_site_nonnull(section: &mut [u8], site: u64, distance: i64) -> u32 {
    call_status(riscv64::jal_site(section, site, distance))
}

/// Turns the call at a site of a section into a `jal` by a distance in bytes. It links the register
/// of the `auipc` (`link` 0) or, as linkers do, of the `jalr` (1), which takes the eight bytes of a
/// call. The first that applies of `UnknownLinkRegister`, `OutOfSection`, `NotACall`,
/// `OddDistance`, `TooFar`.
pub fn linker_utils_jal_site_with_nonnull(
    section: &mut [u8],
    site: u64,
    distance: i64,
    link: u32,
) -> u32 {
    match chosen_register(link) {
        Some(register) => { jump_status(riscv64::jal_site_with(section, site, distance, register)) }
        None => Status::UnknownLinkRegister as u32,
    }
}

// The register that a number chooses.
pub(crate) fn chosen_register(link: u32) -> Option<LinkRegister> {
    match link {
        0 => Some(LinkRegister::OfAuipc),
        1 => Some(LinkRegister::OfJalr),
        _ => None,
    }
}

// The status of a call that has become a jump, or of why it hasn't.
pub(crate) fn jump_status(outcome: Result<(), JumpError>) -> u32 {
    match outcome {
        Ok(()) => Status::Success as u32,
        Err(JumpError::NotACall) => Status::NotACall as u32,
        Err(JumpError::Call(CallError::OutOfSection)) => Status::OutOfSection as u32,
        Err(JumpError::Call(CallError::SiteDeleted)) => Status::SiteDeleted as u32,
        Err(JumpError::Call(CallError::OddDistance)) => Status::OddDistance as u32,
        Err(JumpError::Call(CallError::TooFar)) => Status::TooFar as u32,
    }
}

/// Replaces the call at a site by a jump to a target, in a section whose bytes are where they
/// stood before the deletions. The first that applies of `OutOfSection`, `SiteDeleted`,
/// `OddDistance` and `TooFar`.
pub fn linker_utils_relax_call_nonnull(
    section: &mut [u8],
    deltas: &[RelaxDelta],
    site: u64,
    target: u64,
) -> u32 {
    call_status(riscv64::relax_call_over(section, &DeltaSlice::new(deltas), site, target))
}

// The status of a call that has become a jump, or of why it hasn't for a cause that any choice of
// the register has.
#[inline(always)]
fn call_status(outcome: Result<(), CallError>) -> u32 {
    match outcome {
        Ok(()) => Status::Success as u32,
        Err(error) => jump_status(Err(JumpError::Call(error))),
    }
}

/// Whether the eight bytes at the site are a plain call: `auipc` and then `jalr` with the same
/// register as source and as both destinations.
pub fn linker_utils_is_plain_call_nonnull(section: &[u8], site: u64) -> bool {
    riscv64::is_plain_call(section, site)
}

/// Whether a distance in bytes lies in the range of `jal`.
pub fn linker_utils_distance_fits_jal(distance: i64) -> bool {
    riscv64::distance_fits_jal(distance)
}

/// Whether the high part of a value is 0.
pub fn linker_utils_hi20_is_zero(value: u64) -> bool {
    RelaxationKind::hi20_is_zero(value)
}

/// Whether `c.lui` holds the high part of a value.
pub fn linker_utils_hi20_fits_clui(value: u64) -> bool {
    RelaxationKind::hi20_fits_clui(value)
}

/// Whether a register can be the destination of `c.lui`.
pub fn linker_utils_rd_valid_for_clui(rd: u32) -> bool {
    RelaxationKind::rd_valid_for_clui(rd)
}
