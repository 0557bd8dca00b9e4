// SPDX-License-Identifier: MIT OR Apache-2.0
//! Applies two relocations by their rows: those of the `adrp` and `add` of AArch64 that load the
//! address of a symbol. Then it shows how a value out of reach is rejected.

use linker_utils::aarch64::AArch64Relocation::{self, *};
use linker_utils::aarch64::row;
use linker_utils::elf::{FormulaError, Operands, RelocateError};

/// Computes the value of a relocation, and writes it to a field. `AArch64Relocation::from_elf` names the
/// one with an ELF type.
fn apply(
    relocation: AArch64Relocation,
    operands: &Operands,
    field: &mut [u8],
) -> Result<(), RelocateError> {
    let row = row(relocation).expect("a type that the library knows");
    let value = match row.value(operands) {
        Ok(value) => value,
        // a relocation without a value, as R_AARCH64_NONE, writes nothing
        Err(FormulaError::NoValue) => return Ok(()),
        Err(lacking) => panic!("{lacking}"),
    };
    row.write(value, field)?;
    println!("{}: value {value:#x}", relocation.name());
    Ok(())
}

fn main() -> Result<(), RelocateError> {
    // `adrp x0, 0` at 0x210000 and `add x0, x0, #0`
    let mut code = [0x00, 0x00, 0x00, 0x90, 0x00, 0x00, 0x00, 0x91];
    let symbol = 0x41_2345;
    apply(R_AARCH64_ADR_PREL_PG_HI21, &Operands::new(symbol, 0, 0x21_0000), &mut code)?;
    apply(R_AARCH64_ADD_ABS_LO12_NC, &Operands::new(symbol, 0, 0x21_0004), &mut code[4..])?;

    // adrp x0, 0x202000; add x0, x0, #0x345
    assert_eq!(code[..4], 0xd000_1000u32.to_le_bytes());
    assert_eq!(code[4..], 0x910d_1400u32.to_le_bytes());

    // `bl` reaches 128 MiB; a linker inserts a thunk for a target further away
    let mut bl = [0x00, 0x00, 0x00, 0x94];
    let far = Operands::new(0x1000_0000, 0, 0);
    assert_eq!(apply(R_AARCH64_CALL26, &far, &mut bl), Err(RelocateError::OutOfReach));
    let row = row(R_AARCH64_CALL26).expect("a row");
    println!("R_AARCH64_CALL26 reaches {:?}", row.reach());
    Ok(())
}
