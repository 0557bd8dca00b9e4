// SPDX-License-Identifier: MIT OR Apache-2.0
//! Prints the immediates of instructions: each form that an instruction has, and its operand, with its
//! sign and in bytes. A pair of instructions with one address has a form of 8 bytes.

use linker_utils::elf::{Architecture, InstructionForm};
use linker_utils::reading::{forms_of, operand};

/// A line for each form of each instruction.
fn disassemble(architecture: Architecture, code: &[u8], address: u64) -> Vec<String> {
    let mut lines = Vec::new();
    for at in (0..code.len()).step_by(4) {
        for &form in forms_of(architecture, &code[at..]) {
            let number = operand(form, &code[at..]).expect("the instruction has the form");
            lines.push(format!("{:x}: {form:?} of {}: {number:#x}", address + at as u64, form.window()));
        }
    }
    lines
}

fn main() {
    // bl .+8; ldr x0, [x1, 0x7ff8]; auipc a0, 2; addi a0, a0, -16
    let arm = [0x94000002u32, 0xf97ffc20].map(u32::to_le_bytes).concat();
    let risc_v = [0x00002517u32, 0xff050513].map(u32::to_le_bytes).concat();
    let mut lines = disassemble(Architecture::AArch64, &arm, 0x1000);
    lines.extend(disassemble(Architecture::RiscV, &risc_v, 0x2000));
    println!("{}", lines.join("\n"));
    for part in ["JumpCall) of 4: 0x8", "LdrRegister) of 4: 0x7ff8", "UType) of 4: 0x2000", "UiType) of 8: 0x1ff0"] {
        assert!(lines.iter().any(|line| line.ends_with(part)), "{part}");
    }
}
