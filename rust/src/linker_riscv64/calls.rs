// SPDX-License-Identifier: MIT OR Apache-2.0
// Made by tools/generate of crates/linker_riscv64/src/calls.rt.
//! RISC-V: calls that become jumps.

use super::fields::{base, destination, function, opcode};
use crate::linker_base::relaxation::{DeltaSlice, SectionRelaxDeltas};
use crate::linker_base::rewrite::{has_window, overwrite};
use crate::linker_base::utils::u32_from_slice;
use crate::linker_elf::elf::RiscVInstruction;

/// The least distance that [`distance_fits_jal`](crate::riscv64::distance_fits_jal()) accepts, in bytes.
pub const JAL_MIN: i64 = -1048576;

/// The greatest distance that [`distance_fits_jal`](crate::riscv64::distance_fits_jal()) accepts, in bytes. The J-immediate holds even
/// distances, so that the greatest that `jal` reaches is one less.
pub const JAL_MAX: i64 = 1048575;

/// Whether a distance in bytes lies in the range of `jal`'s signed 21 bits, both ends included
/// (RISC-V unprivileged ISA, "Unconditional Jumps").
#[must_use]
#[inline]
pub fn distance_fits_jal(distance: i64) -> bool {
    JAL_MIN <= distance && distance <= JAL_MAX
}

/// Whether the eight bytes at a site of a section are a call that `CallToJal` makes a jump
/// that links the same register: `auipc` and then `jalr` with the same register as base and as
/// both destinations. (RISC-V ELF psABI, "Function Call Relaxation"; linkers take the register of
/// the `jalr`, `CallToJal` that of the `auipc`.)
#[must_use]
#[inline(always)]
pub fn is_plain_call(section: &[u8], site: u64) -> bool {
    if !has_window(section, site, 0, 8) {
        return false;
    }
    let start = site as usize;
    let auipc = u32_from_slice(&section[start..]);
    let jalr = u32_from_slice(&section[start + 4..]);
    is_call_pair(auipc, jalr) && destination(jalr) == destination(auipc)
}

/// Whether the words are an `auipc` and a `jalr` whose base is the register of the `auipc`.
#[must_use]
#[inline(always)]
pub fn is_call_pair(auipc: u32, jalr: u32) -> bool {
    opcode(auipc) == 0x17
        && opcode(jalr) == 0x67
        && function(jalr) == 0
        && base(jalr) == destination(auipc)
}

/// A call in a section, as C has it.
#[repr(C)]
#[derive(Debug, Clone, Copy, PartialEq, Eq, Hash)]
pub struct Call {
    /// The offset in the input section of the `auipc`.
    pub site: u64,
    /// The offset in the input section of what it calls.
    pub target: u64,
}

/// A call in a section: a `Call`, or a pair of its site and its target. Others can't implement it.
pub trait AsCall: Copy {
    /// The offsets of the call's first instruction and of what it calls.
    #[must_use]
    fn as_call(self) -> (u64, u64);
}

impl AsCall for Call {
    #[inline(always)]
    fn as_call(self) -> (u64, u64) {
        (self.site, self.target)
    }
}

impl AsCall for (u64, u64) {
    #[inline(always)]
    fn as_call(self) -> (u64, u64) {
        self
    }
}

/// Which register the jump of a call links: the destination of one of the call's instructions,
/// bits 7 to 11.
#[derive(Debug, Clone, Copy, PartialEq, Eq, Hash)]
pub enum LinkRegister {
    /// The register of the `auipc`, as `RewriteKind::CallToJal` takes it. The call itself links
    /// it only where [`is_plain_call`](crate::riscv64::is_plain_call()) holds.
    OfAuipc,
    /// The register of the `jalr`, which is the one that the call links and that linkers take:
    /// x0 for `tail f`, t0 for `call t0, f`.
    OfJalr,
}

impl LinkRegister {
    /// How many bytes of a call say which register it is: 4 for `OfAuipc`, 8 for `OfJalr`.
    #[must_use]
    #[inline(always)]
    pub fn call_len(self) -> u64 {
        match self {
            LinkRegister::OfAuipc => 4,
            LinkRegister::OfJalr => 8,
        }
    }

    /// The register, where a call at a site of a section names it: any `auipc` does, a `jalr` only
    /// where its base is the register of an `auipc` before it. Requires `call_len` bytes at the
    /// site.
    ///
    /// # Requires
    ///
    /// - `(site as u128) + (self.call_len() as u128) <= (section.len() as u128)`
    #[must_use]
    #[cfg_attr(debug_assertions, track_caller)]
    #[inline(always)]
    pub fn named_at(self, section: &[u8], site: u64) -> Option<u32> {
        debug_assert!((site as u128) + (self.call_len() as u128) <= (section.len() as u128));
        let start = site as usize;
        let auipc = u32_from_slice(&section[start..]);
        match self {
            LinkRegister::OfAuipc => Some(destination(auipc)),
            LinkRegister::OfJalr => {
                let jalr = u32_from_slice(&section[start + 4..]);
                is_call_pair(auipc, jalr).then_some(destination(jalr))
            }
        }
    }
}

/// Why a call doesn't become a jump.
#[cfg_attr(not(exhaustive), non_exhaustive)]
#[derive(Debug, Clone, Copy, PartialEq, Eq, Hash)]
pub enum CallError {
    /// The four bytes at the site, or eight where the `jalr` says which register is linked, don't
    /// lie in the section, or the target is past its end.
    OutOfSection,
    /// One of the four bytes at the site is deleted.
    SiteDeleted,
    /// The distance is odd.
    OddDistance,
    /// The distance is out of the range of `jal`.
    TooFar,
}

/// Why a call doesn't become a jump that links the register that was chosen.
#[cfg_attr(not(exhaustive), non_exhaustive)]
#[derive(Debug, Clone, Copy, PartialEq, Eq, Hash)]
pub enum JumpError {
    /// For a cause that any choice has.
    Call(CallError),
    /// The register is that of the `jalr`, and the eight bytes at the site aren't an `auipc` and a
    /// `jalr`, with 0 in its bits 12 to 14, whose base is the register of the `auipc`.
    NotACall,
}

impl From<CallError> for JumpError {
    fn from(error: CallError) -> JumpError {
        JumpError::Call(error)
    }
}

/// Whether a `jal` jumps by a distance in bytes. The errors are `OddDistance` and `TooFar`, the
/// first of them that applies.
#[inline(always)]
pub(super) fn test_distance(distance: i64) -> Result<(), CallError> {
    if distance as u64 % 2 != 0 {
        return Err(CallError::OddDistance);
    }
    if !distance_fits_jal(distance) {
        return Err(CallError::TooFar);
    }
    Ok(())
}

/// Turns the `auipc` at a site of a section into a `jal` by a distance in bytes, with the `auipc`'s
/// destination register: `CallToJal` and then the J-immediate. [`is_plain_call`](crate::riscv64::is_plain_call()) returns whether the
/// call links that register; [`jal_site_with`](crate::riscv64::jal_site_with()) takes the `jalr`'s.
///
/// On an error the section is unchanged. The errors are `OutOfSection`, `OddDistance` and `TooFar`,
/// the first of them that applies.
pub fn jal_site(section: &mut [u8], site: u64, distance: i64) -> Result<(), CallError> {
    match jal_site_with(section, site, distance, LinkRegister::OfAuipc) {
        Ok(()) => Ok(()),
        Err(JumpError::Call(error)) => Err(error),
        Err(JumpError::NotACall) => unreachable!(),
    }
}

/// Replaces the call at a site of a section by a `jal` over a distance in bytes. The jump is in
/// place of the `auipc`, links the register that is chosen, and leaves all other bytes as they
/// were. Linkers take the register of the `jalr`, which `tail f` and `call t0, f` need (RISC-V ELF
/// psABI, "Function Call Relaxation").
///
/// On an error the section is unchanged. The errors are `OutOfSection`, `NotACall`, `OddDistance`
/// and `TooFar`, the first of them that applies. With `OfAuipc` four bytes have to lie in the
/// section, and any four are taken; with `OfJalr` it is eight, and they have to be a call.
pub fn jal_site_with(
    section: &mut [u8],
    site: u64,
    distance: i64,
    link: LinkRegister,
) -> Result<(), JumpError> {
    if !has_window(section, site, 0, link.call_len()) {
        return Err(JumpError::Call(CallError::OutOfSection));
    }
    let Some(register) = link.named_at(section, site) else {
        return Err(JumpError::NotACall);
    };
    test_distance(distance)?;
    let jal = 0x6f | register << 7;
    overwrite(section, site, &jal.to_le_bytes());
    let jal = &mut section[site as usize..];
    RiscVInstruction::JType.write_to_value(distance as u64, distance < 0, jal);
    Ok(())
}

/// Where a call stands once the deleted bytes are gone, and how far its jump goes then.
#[derive(Clone, Copy)]
pub(super) struct Jump {
    pub(super) output_offset: u64,
    pub(super) distance: i64,
}

/// The jump that a call becomes. The bytes that say which register it links have to lie in the
/// section. The errors are `OutOfSection` and `SiteDeleted`, the first of them that applies.
pub(super) fn jump_of(
    section: &[u8],
    deltas: &DeltaSlice<'_>,
    site: u64,
    target: u64,
    link: LinkRegister,
) -> Result<Jump, CallError> {
    if !has_window(section, site, 0, link.call_len()) || target > section.len() as u64 {
        return Err(CallError::OutOfSection);
    }
    let Some(output_offset) = deltas.kept_output_offset(site, 4) else {
        return Err(CallError::SiteDeleted);
    };
    let to = deltas.input_to_output_offset(target);
    let distance = to.wrapping_sub(output_offset) as i64;
    Ok(Jump {
        output_offset,
        distance,
    })
}

/// Replaces a call by a jump as [`jal_site`](crate::riscv64::jal_site()) does, in a section whose bytes are where they were
/// before the deletions: the distance is that from the site's output offset to the target's, so
/// that the jump is right once the deleted bytes are gone. A target inside a deletion is what
/// follows the deletion. The target may be the section's end.
///
/// On an error the section is unchanged. The errors are `OutOfSection`, `SiteDeleted`,
/// `OddDistance` and `TooFar`, the first of them that applies.
///
/// The jump links the register of the `auipc`, which for a plain call is the `jalr`'s too:
/// [`is_plain_call`](crate::riscv64::is_plain_call()) distinguishes these from others, as `tail f`.
pub fn relax_call(
    section: &mut [u8],
    deltas: &SectionRelaxDeltas,
    site: u64,
    target: u64,
) -> Result<(), CallError> {
    relax_call_over(section, &deltas.as_delta_slice(), site, target)
}

/// [`relax_call`](crate::riscv64::relax_call()) over deltas that anyone owns. It is safe for any deltas, and does what [`relax_call`](crate::riscv64::relax_call())
/// does where they are valid. It takes three searches.
pub fn relax_call_over(
    section: &mut [u8],
    deltas: &DeltaSlice<'_>,
    site: u64,
    target: u64,
) -> Result<(), CallError> {
    let jump = jump_of(section, deltas, site, target, LinkRegister::OfAuipc)?;
    jal_site(section, site, jump.distance)
}
