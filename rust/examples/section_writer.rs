// SPDX-License-Identifier: MIT OR Apache-2.0
//! Writes the values of all relocations of a section at once, a difference of labels as a ULEB128 number
//! among them.

use linker_utils::elf::Architecture;
use linker_utils::riscv64::RiscVRelocation::*;
use linker_utils::section::{Link, Object, Section, Symbol, memory_len, relocate_section};

fn main() {
    // jal ra, f; the number 0 in two bytes; a word of 8 bytes
    let bytes = [0xef, 0, 0, 0, 0x80, 0, 0, 0, 0, 0, 0, 0, 0, 0];
    let values = [0, 0x402000, 0x402345].map(|address| Symbol { address, ..Symbol::default() });
    // r_offset, r_sym, r_type and r_addend
    let jal = (0, 1, R_RISCV_JAL, 0);
    let pair = [(4, 2, R_RISCV_SET_ULEB128, 0), (4, 1, R_RISCV_SUB_ULEB128, 0)];
    let rows = [jal, pair[0], pair[1], (6, 2, R_RISCV_64, -5i64)];
    let rela = rows.map(|(at, symbol, name, addend)| [at, symbol << 32 | u64::from(name.r_type()), addend as u64]);
    let rela = rela.as_flattened().iter().flat_map(|word: &u64| word.to_le_bytes()).collect::<Vec<_>>();
    let mut memory = vec![0; memory_len(&rela)];
    let (link, object) = (Link::new(Architecture::RiscV), Object { values: &values, ..Object::default() });
    let mut section = Section { address: 0x401000, ..Section::new(bytes, rela) };
    relocate_section(&link, &object, &mut section, &mut memory).unwrap();
    assert_eq!(section.bytes, [0xef, 0x10, 0, 0, 0xc5, 0x06, 0x40, 0x23, 0x40, 0, 0, 0, 0, 0]);
    // out of reach of the `jal`: the error names the first relocation, its value and the reach
    section.address = 0x1000;
    let error = relocate_section(&link, &object, &mut section, &mut memory).unwrap_err();
    println!("{error}: {}", error.rejected.unwrap());
}
