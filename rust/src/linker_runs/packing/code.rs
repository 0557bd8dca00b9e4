// SPDX-License-Identifier: MIT OR Apache-2.0
// Made by tools/generate of crates/linker_runs/src/packing/code.rt.
//! Instructions, and the relocations that are applied to them.

use crate::linker_elf::elf::{Operands, Row};

/// The bytes of an instruction or of two.
#[derive(Clone, Copy, Debug, PartialEq, Eq, Hash)]
pub(crate) enum Code {
    Half([u8; 2]),
    Word([u8; 4]),
    Pair([u8; 8]),
}

/// An instruction that goes nowhere yet, and the relocation that gives it its target.
pub(crate) struct Template {
    pub(crate) row: Row,
    pub(crate) code: Code,
}

/// The eight bytes at an offset.
#[inline(always)]
pub(crate) fn pair_at(section: &[u8], offset: u64) -> [u8; 8] {
    let start = offset as usize;
    let mut pair = [0; 8];
    pair.copy_from_slice(&section[start..start + 8]);
    pair
}

/// The operands of a relocation at a place, of a symbol and a PLT entry at the target.
#[inline(always)]
pub(crate) fn operands_of(place: u64, target: u64) -> Operands {
    Operands {
        symbol: target,
        plt_entry: target,
        place,
        ..Operands::default()
    }
}

/// A template with its relocation applied, at an address and for a target's. None where the
/// relocation's value is rejected.
#[inline(always)]
pub(crate) fn relocated(template: Template, place: u64, target: u64) -> Option<Code> {
    let operands = operands_of(place, target);
    match template.code {
        Code::Half(bytes) => {
            let mut bytes = bytes;
            if template.row.apply_formula(&operands, &mut bytes) {
                Some(Code::Half(bytes))
            } else {
                None
            }
        }
        Code::Word(bytes) => {
            let mut bytes = bytes;
            if template.row.apply_formula(&operands, &mut bytes) {
                Some(Code::Word(bytes))
            } else {
                None
            }
        }
        Code::Pair(bytes) => {
            let mut bytes = bytes;
            if template.row.apply_formula(&operands, &mut bytes) {
                Some(Code::Pair(bytes))
            } else {
                None
            }
        }
    }
}
