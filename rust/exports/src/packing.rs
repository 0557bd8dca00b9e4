// SPDX-License-Identifier: MIT OR Apache-2.0
// Made by tools/generate of crates/linker_utils_c/src/packing.rt.
//! The kept bytes of a section, with its calls made jumps.

use crate::calls::{chosen_register, jump_status};
use crate::status::{Status, or_return};
use linker_utils::relaxation::RelaxDelta;
use linker_utils::riscv64::{Call, LinkRegister, first_not_apart, pack_into, packed_len};

/// How many bytes of a section are kept: as many as `linker_utils_pack` writes.
pub fn linker_utils_packed_len_nonnull(section: &[u8], deltas: &[RelaxDelta]) -> usize {
    packed_len(section, deltas)
}

/// Writes the kept bytes of a section, in order, and at each call's site, in place of the `auipc`,
/// a `jal` to where the target goes. It links the register of the `auipc` (`link` 0) or, as linkers
/// do, of the `jalr` (1). A deletion that reaches past the section's end deletes up to there.
///
/// The first that applies of `UnknownLinkRegister`; `CallsNotApart`, where `faulty` is the index of
/// the first call whose site is less than 4 above the one before it; `DifferentLengths`, where
/// `packed` has not `linker_utils_packed_len` bytes; and of the first call that can't become a
/// jump, whose index is `faulty`, `OutOfSection`, `SiteDeleted`, `NotACall`, `OddDistance` and
/// `TooFar`. `packed` is unchanged then. `faulty` changes only with a status that is about a call.
pub fn linker_utils_pack_nonnull(
    section: &[u8],
    deltas: &[RelaxDelta],
    calls: &[Call],
    link: u32,
    packed: &mut [u8],
    faulty: &mut usize,
) -> u32 {
    let register = or_return!(chosen_register(link), UnknownLinkRegister);
    pack(section, deltas, calls, register, packed, faulty)
}

fn pack(
    section: &[u8],
    deltas: &[RelaxDelta],
    calls: &[Call],
    register: LinkRegister,
    packed: &mut [u8],
    faulty: &mut usize,
) -> u32 {
    if let Some(index) = first_not_apart(calls) {
        *faulty = index;
        return Status::CallsNotApart as u32;
    }
    if packed.len() != packed_len(section, deltas) {
        return Status::DifferentLengths as u32;
    }
    match pack_into(section, deltas, calls, register, packed) {
        Ok(()) => Status::Success as u32,
        Err(rejected) => {
            *faulty = rejected.index;
            jump_status(Err(rejected.error))
        }
    }
}
