// SPDX-License-Identifier: MIT OR Apache-2.0
//! Rewrites the instructions of a section as a linker does: which rewrites it makes, by what it knows of
//! the symbols, and the values that it then writes.

use linker_utils::architecture::{choose, fits, may_be_skipped};
use linker_utils::elf::{Architecture, InstructionRewrite, LinkFacts, Operands};
use linker_utils::relaxation::RelocationModifier;
use linker_utils::x86_64::X86_64Relocation::*;

struct Relocation {
    offset: u64,
    r_type: u32,
    addend: i64,
    symbol: &'static str,
}

/// Where symbols are: a variable, a thread-local one in the segment's image, and the segment's end,
/// where the thread pointer points to.
const SECTION: u64 = 0x401000;
const VARIABLE: u64 = 0x404010;
const THREAD_LOCAL: u64 = 0x403ff0;
const THREAD_POINTER: u64 = 0x404000;

fn main() {
    let architecture = Architecture::X86_64;
    // mov x@GOTPCREL(%rip), %rax
    let mut section = vec![0x48, 0x8b, 0x05, 0, 0, 0, 0];
    // data16 lea t@tlsgd(%rip), %rdi; data16 data16 rex64 call __tls_get_addr@PLT
    section.extend([0x66, 0x48, 0x8d, 0x3d, 0, 0, 0, 0, 0x66, 0x66, 0x48, 0xe8, 0, 0, 0, 0]);
    let relocations = [
        (3, R_X86_64_REX_GOTPCRELX, "x"),
        (11, R_X86_64_TLSGD, "t"),
        (19, R_X86_64_PLT32, "__tls_get_addr"),
    ]
    .map(|(offset, name, symbol)| Relocation { offset, r_type: name.r_type(), addend: -4, symbol });

    let mut skipped = Vec::new();
    for Relocation { offset, r_type, addend, symbol } in &relocations {
        if skipped.contains(offset) {
            continue;
        }
        let address = if *symbol == "t" { THREAD_LOCAL } else { VARIABLE };
        let mut operands = Operands::new(address, *addend, SECTION + offset);
        (operands.tls_base, operands.has_tls_base) = (THREAD_POINTER, true);
        // a position-independent executable that defines both
        let facts = LinkFacts {
            is_local: true,
            is_pcrel_link_time_constant: true,
            is_executable: true,
            has_addresses: true,
            operands,
            ..LinkFacts::default()
        };
        // a sequence is rewritten as a whole: if each of its relocations can be, and the one that is
        // skipped then is that of its call
        let all = LinkFacts { group_fits: true, ..facts };
        let if_all = choose(architecture, *r_type, &section, *offset, &all);
        let group_fits = fits(architecture, *r_type, &section, *offset, &facts)
            && if_all.kind.skipped_offset().is_none_or(|behind| {
                relocations.iter().any(|call| {
                    call.offset == offset + behind
                        && may_be_skipped(architecture, call.r_type)
                        && call.symbol == "__tls_get_addr"
                })
            });
        let facts = LinkFacts { group_fits, ..facts };

        let choice = choose(architecture, *r_type, &section, *offset, &facts);
        if choice.kind.next_modifier() == RelocationModifier::SkipNextRelocation {
            skipped.extend(choice.kind.skipped_offset().map(|behind| offset + behind));
        }
        let (mut at, mut addend) = (*offset, *addend);
        choice.kind.apply(&mut section, &mut at, &mut addend);
        let row = architecture.row(choice.relocation).expect("a relocation with a row");
        let operands = Operands { addend, place: SECTION + at, ..operands };
        let value = row.value(&operands).expect("a relocation with a value");
        row.write(value, &mut section[at as usize..]).expect("a value in reach");
        let name = architecture.name(choice.relocation).expect("a name");
        println!("{symbol}: {:?}, then {name} at {at}: {value}", choice.kind);
    }

    // lea 0x3009(%rip), %rax, at 0x401000
    assert_eq!(section[..7], [0x48, 0x8d, 0x05, 0x09, 0x30, 0, 0]);
    // mov %fs:0, %rax; lea -0x10(%rax), %rax
    let local_exec = [0x64, 0x48, 0x8b, 0x04, 0x25, 0, 0, 0, 0, 0x48, 0x8d, 0x80];
    assert_eq!(section[7..19], local_exec);
    assert_eq!(section[19..], [0xf0, 0xff, 0xff, 0xff]);
}
