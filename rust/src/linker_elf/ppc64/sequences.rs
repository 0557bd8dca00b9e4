// SPDX-License-Identifier: MIT OR Apache-2.0
// Made by tools/generate of crates/linker_elf/src/ppc64/sequences.rt.
//! Addresses in two halves.

use super::Ppc64Form;
use crate::linker_elf::elf::InstructionForm;
use crate::linker_base::bit_misc::BitExtraction;

/// Writes a value into a pair of D-form instructions, as `addis` and `addi` (64-bit ELF V2 ABI for
/// Power, "@ha" and "@l"): the high half, adjusted for the low half's sign, into the instruction
/// that `ha` begins with, and the low half into the one that `lo` begins with. The pair adds the
/// value modulo 2^32. Read signed, it adds the value itself from -2^31 - 0x8000 to 2^31 - 0x8001.
///
/// ```
/// let (mut addis, mut addi) = (0x3c00_0000u32.to_le_bytes(), 0x3800_0000u32.to_le_bytes());
/// linker_utils::ppc64::write_ha_lo(&mut addis, &mut addi, 0x8000);
/// assert_eq!(u32::from_le_bytes(addis), 0x3c00_0001);
/// assert_eq!(u32::from_le_bytes(addi), 0x3800_8000);
/// ```
///
/// # Requires
///
/// - ha_room: `4 <= ha.len()`
/// - lo_room: `4 <= lo.len()`
#[cfg_attr(debug_assertions, track_caller)]
pub fn write_ha_lo(ha: &mut [u8], lo: &mut [u8], value: u64) {
    debug_assert!(4 <= ha.len());
    debug_assert!(4 <= lo.len());
    let high = value.wrapping_add(0x8000).extract_bit_range(16..32);
    Ppc64Form::D.write_to_value(high, false, ha);
    Ppc64Form::D.write_to_value(value.low_bits(16), false, lo);
}
