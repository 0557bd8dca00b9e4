// SPDX-License-Identifier: MIT OR Apache-2.0
// Made by tools/generate of crates/linker_utils_c/src/crel.rt.
//! Compact relocations.

use crate::status::Status;
use linker_utils::source::section::{Crel, CrelError, read_crel};

/// The status of a call, which also writes how many relocations there are, or what an error is
/// about, and whether they have addends.
fn status_of(read: Result<Crel, CrelError>, number: &mut usize, has_addends: &mut u8) -> u32 {
    let (status, value) = match read {
        Ok(crel) => {
            *has_addends = u8::from(crel.has_addends);
            (Status::Success as u32, crel.count)
        }
        Err(CrelError::CutOff(at)) => (Status::CutOff as u32, at),
        Err(CrelError::TooLarge(at)) => (Status::TooLarge as u32, at),
        Err(CrelError::TooShort(needed)) => (Status::TooShort as u32, needed),
    };
    *number = value;
    status
}

/// Writes the relocations of a section of type `SHT_CREL` to the beginning of `relas`, as
/// `read_crel`, how many they are to `number`, and whether they have addends. The first that
/// applies of `CutOff` and `TooLarge` of the header, with an offset in `number`; `TooShort`, with
/// how many there are; `CutOff` and `TooLarge` of a relocation. Then `relas` and `has_addends` are
/// unchanged.
pub fn linker_utils_read_crel_nonnull(
    crel: &[u8],
    relas: &mut [u8],
    number: &mut usize,
    has_addends: &mut u8,
) -> u32 {
    status_of(read_crel(crel, relas), number, has_addends)
}
