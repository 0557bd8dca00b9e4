// SPDX-License-Identifier: MIT OR Apache-2.0
//! Finds what a linker made of relocations, by the object's bytes and the linked ones: which rewrite,
//! which relocation it then wrote, and the address of the symbol.

use linker_utils::elf::{Architecture, InstructionRewrite, Operands};
use linker_utils::reading::solve;
use linker_utils::recognise::{Windows, architecture::recognise};
use linker_utils::x86_64::X86_64Relocation::*;

fn main() {
    // mov x@GOTPCREL(%rip), %rax twice, with R_X86_64_REX_GOTPCRELX at 3 and 10, and
    // jmp *f@GOTPCREL(%rip), with R_X86_64_GOTPCRELX at 16; all have the addend -4
    let object = [
        0x48, 0x8b, 0x05, 0, 0, 0, 0, 0x48, 0x8b, 0x05, 0, 0, 0, 0, 0xff, 0x25, 0, 0, 0, 0,
    ];
    // what a linker made of them at 0x401000: lea x(%rip), %rax; mov $x, %rax; jmp f and a nop
    let linked = [
        0x48, 0x8d, 0x05, 0x09, 0x30, 0, 0, 0x48, 0xc7, 0xc0, 0x10, 0x40, 0x40, 0, 0xe9, 0xed, 0x0f,
        0, 0, 0x90,
    ];
    let (architecture, address, addend) = (Architecture::X86_64, 0x401000, -4);

    // the window of a relocation is its instruction, in both
    for (window, offset, name, wanted) in [
        (0..7, 3, R_X86_64_REX_GOTPCRELX, 0x404010),
        (7..14, 3, R_X86_64_REX_GOTPCRELX, 0x404010),
        (14..20, 2, R_X86_64_GOTPCRELX, 0x402000),
    ] {
        let (original, linked) = (&object[window.clone()], &linked[window.clone()]);
        let windows = Windows { original, offset, others: &[], linked };
        let found = recognise(architecture, name.r_type(), &windows);
        let made = found.into_iter().flatten().next().expect("a rewrite, or none");
        // the addend of the relocation after the rewrite
        let (mut bytes, mut at, mut addend) = (original.to_vec(), offset, addend);
        made.choice.kind.apply(&mut bytes, &mut at, &mut addend);
        let row = architecture.row(made.choice.relocation).expect("a relocation with a row");
        let place = address + window.start as u64 + made.offset;
        let operands = Operands { place, ..Operands::default() };
        let value = made.value.expect("a value in the field");
        // S + A
        let sum = solve(&row.info(), &value, &operands).expect("a value of an address");
        let symbol = sum.number().expect("all bits of it").wrapping_sub(addend as u64);
        let name = architecture.name(made.choice.relocation).expect("a name");
        println!("{:?}, then {name}: {symbol:#x}", made.choice.kind);
        assert_eq!(symbol, wanted);
    }
}
