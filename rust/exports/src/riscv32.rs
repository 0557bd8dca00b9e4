// SPDX-License-Identifier: MIT OR Apache-2.0
// Made by tools/generate of crates/linker_utils_c/src/riscv32.rt.
//! Relocations of RV32, and the machine of its code.

use crate::status::Status;
use linker_utils::source::runs::{Isa, Machine};
use linker_utils::source::section::{Addresses, Symbol};
use linker_utils::source::section::relocations_len;
use linker_utils::source::section::{read_rela32, relocations32_len, wrap_addends};
use linker_utils::elf::Architecture;

/// `e_machine` of RISC-V and `LINKER_UTILS_CLASS32`, which is added for files of ELFCLASS32.
const RISCV32: u16 = 0x80f3;

/// The machine whose code becomes shorter, by `e_machine` and class.
#[inline]
pub(crate) fn packing_machine(machine: u16) -> Option<Machine> {
    if machine == RISCV32 {
        return Some(Machine::RiscV(Isa::Rv32));
    }
    Machine::of(Architecture::from_machine(machine)?)
}

/// Whether a machine has files of ELFCLASS32 whose relocations these are.
#[inline(always)]
fn has_class32(machine: u16) -> bool {
    matches!(
        Architecture::from_machine(machine),
        Some(Architecture::RiscV)
    )
}

/// Copies relocations of 12 bytes to the beginning of `relas`, as `read_rela32`. The first that
/// applies of `UnknownArchitecture`, of a machine without files of ELFCLASS32 here; `TooShort`,
/// where there is no room for all of them. Then `relas` is unchanged.
pub fn linker_utils_read_rela32_nonnull(
    machine: u16,
    rela32: &[u8],
    relas: &mut [u8],
) -> u32 {
    if !has_class32(machine) {
        return Status::UnknownArchitecture as u32;
    }
    if relocations_len(relas) < relocations32_len(rela32) {
        return Status::TooShort as u32;
    }
    read_rela32(rela32, relas);
    Status::Success as u32
}

/// Adds a multiple of 2^32 to the addends of a section's relocations, as `wrap_addends`.
/// `UnknownArchitecture`, as above: then they are unchanged.
pub fn linker_utils_wrap_addends_nonnull(
    machine: u16,
    addresses: &Addresses,
    symbols: &[Symbol],
    relocations: &mut [u8],
) -> u32 {
    if !has_class32(machine) {
        return Status::UnknownArchitecture as u32;
    }
    wrap_addends(addresses, symbols, relocations);
    Status::Success as u32
}
