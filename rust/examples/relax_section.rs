// SPDX-License-Identifier: MIT OR Apache-2.0
//! Relaxes a RISC-V section: chooses the calls that can become `jal`, deletes their second
//! instructions, packs the section, and translates the offset of a symbol.

use linker_utils::relaxation::{SectionRelaxDeltas, pack_section, shrink_calls};
use std::error::Error;

fn main() -> Result<(), Box<dyn Error>> {
    // auipc ra, 0; jalr ra, 0(ra); nop; ret
    let section = [0x97, 0, 0, 0, 0xe7, 0x80, 0, 0, 0x13, 0, 0, 0, 0x67, 0x80, 0, 0];
    // the call at offset 0 calls offset 12
    let calls = [(0, 12)];
    let mut deltas = SectionRelaxDeltas::new(&[])?;

    let chosen = shrink_calls(&deltas, &calls)?;
    let jumps: Vec<(u64, u64)> =
        calls.into_iter().zip(chosen).filter(|(_, chosen)| *chosen).map(|(call, _)| call).collect();
    let freed: Vec<(u64, u32)> = jumps.iter().map(|(site, _)| (site + 4, 4)).collect();
    deltas.merge_additional(&freed)?;

    // jal ra, 8; nop; ret
    let packed = pack_section(&section, &deltas, &jumps)?;
    assert_eq!(packed, [0xef, 0, 0x80, 0, 0x13, 0, 0, 0, 0x67, 0x80, 0, 0]);
    // a symbol at the `ret`
    assert_eq!(deltas.input_to_output_offset(12), 8);
    assert_eq!(deltas.output_to_input_offset(8), 12);
    println!("{packed:02x?}");
    Ok(())
}
