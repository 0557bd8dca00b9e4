// SPDX-License-Identifier: MIT OR Apache-2.0
// Made by tools/generate of crates/linker_utils_c/src/relocations.rt.
//! What relocations mean, and their names, by `e_machine` and `r_type` of ELF files.

use crate::status::{Status, or_return};
use linker_utils::architecture::may_be_skipped;
use linker_utils::elf::{Architecture, RelocationNumbers};
use linker_utils::riscv64;

/// What the relocation with `r_type` means in files with `e_machine` `machine`.
/// `UnknownArchitecture`; `UnknownRelocation` where the library knows no meaning.
pub fn linker_utils_relocation(
    machine: u16,
    r_type: u32,
    info: &mut RelocationNumbers,
) -> u32 {
    let architecture = or_return!(Architecture::from_machine(machine), UnknownArchitecture);
    let row = or_return!(architecture.row(r_type), UnknownRelocation);
    *info = *row.numbers();
    Status::Success as u32
}

/// What a relocation of the high part of a value means once its `lui` has become a `c.lui`.
pub fn linker_utils_clui_rel_info(info: &mut RelocationNumbers) {
    *info = *riscv64::clui_row().numbers();
}

/// Whether the relocation with `r_type` requires a GOT entry in files with `e_machine` `machine`.
/// False where either is unknown.
pub fn linker_utils_asks_for_got(machine: u16, r_type: u32) -> bool {
    match Architecture::from_machine(machine) {
        Some(architecture) => architecture.asks_for_got(r_type),
        None => false,
    }
}

/// Whether an entry of the PLT may serve as the target of the relocation with `r_type` in files
/// with `e_machine` `machine`. False where either is unknown.
pub fn linker_utils_may_use_plt(machine: u16, r_type: u32) -> bool {
    match Architecture::from_machine(machine) {
        Some(architecture) => architecture.may_use_plt(r_type),
        None => false,
    }
}

/// Whether the relocation with `r_type` has a type that one skipped after a rewrite has in files
/// with `e_machine` `machine`. False where either is unknown.
pub fn linker_utils_may_be_skipped(machine: u16, r_type: u32) -> bool {
    match Architecture::from_machine(machine) {
        Some(architecture) => may_be_skipped(architecture, r_type),
        None => false,
    }
}

/// Writes the ELF name of a relocation, as "R_AARCH64_CALL26", to the beginning of `name`, without
/// a NUL after it, and its length to `name_used`. No name is longer than 64 bytes.
/// `UnknownArchitecture`; `UnknownRelocation` of a type without a name; `TooShort` where `name` has
/// too few bytes.
pub fn linker_utils_relocation_name_nonnull(
    machine: u16,
    r_type: u32,
    name: &mut [u8],
    name_used: &mut usize,
) -> u32 {
    let architecture = or_return!(Architecture::from_machine(machine), UnknownArchitecture);
    let text = or_return!(architecture.name(r_type), UnknownRelocation);
    let len = text.len();
    if name.len() < len {
        return Status::TooShort as u32;
    }
    name[..len].copy_from_slice(text.as_bytes());
    *name_used = len;
    Status::Success as u32
}
