// SPDX-License-Identifier: MIT OR Apache-2.0
// Made by tools/generate of crates/linker_riscv64/src/packing.rt.
//! The kept bytes of a section, with its calls made jumps.

use alloc::vec::Vec;
use crate::support::*;
use super::calls::{AsCall, CallError, JumpError, LinkRegister, jal_site, jump_of, test_distance};
use crate::linker_base::packing::copy_kept;
use crate::linker_base::relaxation::{DeltaSlice, RelaxDelta, SectionRelaxDeltas};
use crate::linker_base::rewrite::{has_window, overwrite};

/// The first of some calls that can't become a jump.
#[derive(Debug, Clone, Copy, PartialEq, Eq, Hash)]
pub struct RejectedCall {
    /// Its index among the calls.
    pub index: usize,
    /// Why it can't.
    pub error: JumpError,
}

/// Why a section isn't packed.
#[cfg_attr(not(exhaustive), non_exhaustive)]
#[derive(Debug, Clone, Copy, PartialEq, Eq, Hash)]
pub enum PackError {
    /// Out of memory for the packed section.
    OutOfMemory,
    /// The first call that can't become a jump.
    Call {
        /// Its index among the calls.
        index: usize,
        /// Why it can't.
        error: CallError,
    },
}

impl From<AllocError> for PackError {
    fn from(_error: AllocError) -> PackError {
        PackError::OutOfMemory
    }
}

impl<T> From<AllocFailed<T>> for PackError {
    fn from(_error: AllocFailed<T>) -> PackError {
        PackError::OutOfMemory
    }
}

/// The index of the first call whose site is less than 4 above the site before it. None where the
/// sites ascend by at least 4.
#[must_use]
#[inline]
pub fn first_not_apart<C: AsCall>(calls: &[C]) -> Option<usize> {
    for index in 1..calls.len() {
        let (before, _) = calls[index - 1].as_call();
        let (site, _) = calls[index].as_call();
        if site.saturating_sub(before) < 4 {
            return Some(index);
        }
    }
    None
}

/// Whether the sites of calls, each a site and a target, ascend by at least 4.
#[must_use]
pub fn calls_apart(calls: &[(u64, u64)]) -> bool {
    first_not_apart(calls).is_none()
}

/// Tests a call, and puts its jump into a packed section that has room for it. The errors are those
/// of [`CallError`](crate::riscv64::CallError) in their order, with `NotACall` after `SiteDeleted`.
fn put_call(
    section: &[u8],
    deltas: &DeltaSlice<'_>,
    site: u64,
    target: u64,
    link: LinkRegister,
    packed: &mut [u8],
) -> Result<(), JumpError> {
    let jump = jump_of(section, deltas, site, target, link)?;
    let Some(_register) = link.named_at(section, site) else {
        return Err(JumpError::NotACall);
    };
    if !has_window(packed, jump.output_offset, 0, 4) {
        test_distance(jump.distance)?;
        return Ok(());
    }
    // `jal_site` links the register of the instruction that it replaces.
    let start = (site + link.call_len() - 4) as usize;
    overwrite(packed, jump.output_offset, &section[start..start + 4]);
    jal_site(packed, jump.output_offset, jump.distance)?;
    Ok(())
}

/// Tests all calls, and puts their jumps into a packed section. The error is that of the first call
/// that can't become a jump. Into no bytes no jump is put: then the calls are only tested.
fn put_calls<C: AsCall>(
    section: &[u8],
    deltas: &DeltaSlice<'_>,
    calls: &[C],
    link: LinkRegister,
    packed: &mut [u8],
) -> Result<(), RejectedCall> {
    for index in 0..calls.len() {
        let (site, target) = calls[index].as_call();
        if let Err(error) = put_call(section, deltas, site, target, link, packed) {
            return Err(RejectedCall { index, error });
        }
    }
    Ok(())
}

/// How many bytes of a section are kept: as many as it takes when it is packed.
#[must_use]
#[inline]
pub fn packed_len(section: &[u8], deltas: &[RelaxDelta]) -> usize {
    DeltaSlice::new(deltas).input_to_output_offset(section.len() as u64) as usize
}

/// Packs a section into memory of the caller's: its kept bytes in order, and at each call's site,
/// in place of the `auipc`, a `jal` to where the target goes, which links the register that is
/// chosen. A deletion that reaches past the section's end deletes up to there, and one past it
/// nothing.
///
/// Requires sites that ascend by at least 4 ([`calls_apart`](crate::relaxation::calls_apart())), and an output of [`packed_len`](crate::relaxation::packed_len()) bytes.
/// The deltas are as [`SectionRelaxDeltas::deltas`](crate::relaxation::SectionRelaxDeltas::deltas) lists them ([`DeltaSlice::has_valid_deltas`](crate::relaxation::DeltaSlice::has_valid_deltas)). With
/// others the call is safe, but what it writes isn't specified. The error names the first call that
/// can't become a jump, and nothing is written then. It takes O(section + deltas + calls log
/// deltas).
///
/// # Requires
///
/// - apart: `first_not_apart(calls).is_none()`
/// - room: `!DeltaSlice::new(deltas).has_valid_deltas() || packed_len(section, deltas) == out.len()`
#[cfg_attr(debug_assertions, track_caller)]
pub fn pack_into<C: AsCall>(
    section: &[u8],
    deltas: &[RelaxDelta],
    calls: &[C],
    link: LinkRegister,
    out: &mut [u8],
) -> Result<(), RejectedCall> {
    debug_assert!(first_not_apart(calls).is_none());
    debug_assert!(!DeltaSlice::new(deltas).has_valid_deltas() || packed_len(section, deltas) == out.len());
    let view = DeltaSlice::new(deltas);
    put_calls(section, &view, calls, link, &mut [])?;
    copy_kept(section, 0, deltas, out);
    let _accepted = put_calls(section, &view, calls, link, out);
    Ok(())
}

/// A section packed: its kept bytes in order, and at each call's site, in place of the `auipc`, a
/// `jal` to where the target goes, with the `auipc`'s destination register.
/// A deletion that reaches past the section's end deletes up to there, and one past it nothing.
///
/// Requires sites that ascend by at least 4 ([`calls_apart`](crate::relaxation::calls_apart())). It allocates once, before it looks
/// at the calls, and O(section + deltas + calls log deltas). [`pack_into`](crate::relaxation::pack_into()) links the register of the
/// `jalr`, which `tail f` and `call t0, f` need.
///
/// # Requires
///
/// - `calls_apart(calls)`
#[cfg_attr(debug_assertions, track_caller)]
pub fn pack_section(
    section: &[u8],
    deltas: &SectionRelaxDeltas,
    calls: &[(u64, u64)],
) -> Result<Vec<u8>, PackError> {
    debug_assert!(calls_apart(calls));
    let view = deltas.as_delta_slice();
    let len = view.input_to_output_offset(section.len() as u64) as usize;
    let mut packed = try_vec![0; len]?;
    copy_kept(section, 0, view.deltas(), &mut packed);
    match put_calls(section, &view, calls, LinkRegister::OfAuipc, &mut packed) {
        Ok(()) => Ok(packed),
        Err(rejected) => match rejected.error {
            JumpError::Call(error) => Err(PackError::Call {
                index: rejected.index,
                error,
            }),
            JumpError::NotACall => unreachable!(),
        },
    }
}

/// In a packed section each call that was listed is a jump from where its site goes to where its
/// target goes.
#[doc(hidden)]
pub fn packed_calls_reach_targets() {}
