// SPDX-License-Identifier: MIT OR Apache-2.0
//! Reads ULEB128 numbers one after the other, and writes a distance over one of them, as the
//! relocations `R_RISCV_SET_ULEB128` and `R_RISCV_SUB_ULEB128` do.

use linker_utils::riscv64::RiscVRelocation;
use linker_utils::utils::{read_uleb128, write_uleb128};

fn main() -> anyhow::Result<()> {
    // 624485, then 2 in three bytes
    let mut bytes = [0xe5, 0x8e, 0x26, 0x82, 0x80, 0x00];
    let mut content = &bytes[..];
    assert_eq!(read_uleb128(&mut content)?, 624_485);
    assert_eq!(read_uleb128(&mut content)?, 2);
    assert!(read_uleb128(&mut content).is_err());

    // the distance from one symbol to another, in as many bytes as are there
    let (from, to) = (0x1000_u64, 0x1150);
    for relocation in [RiscVRelocation::R_RISCV_SET_ULEB128, RiscVRelocation::R_RISCV_SUB_ULEB128] {
        println!("{}: {:?}", relocation.name(), relocation.uleb128_role());
    }
    write_uleb128(&mut bytes[3..], to - from).expect("three bytes hold the distance");
    assert_eq!(bytes, [0xe5, 0x8e, 0x26, 0xd0, 0x82, 0x00]);
    println!("{bytes:02x?}");
    Ok(())
}
