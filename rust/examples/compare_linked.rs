// SPDX-License-Identifier: MIT OR Apache-2.0
//! Compares what two linkers made of each relocation of a section: the rewrite, and the symbol's address.

use linker_utils::elf::{Architecture, Operands};
use linker_utils::recognise::architecture::{destination_of, recognise, window_of};
use linker_utils::recognise::{FieldBits, Windows, field_bits};
use linker_utils::x86_64::X86_64Relocation::*;

/// What stands in a linked section, which is at an address, for the first of some relocations of the object's:
/// an offset, a type and an addend each.
fn made(of: Architecture, object: &[u8], linked: (u64, &[u8]), relocations: &[(usize, u32, i64)]) -> Vec<String> {
    let (at, r_type, addend) = relocations[0];
    let from = at.saturating_sub(16) / 4 * 4;
    let window = window_of(of, r_type, &object[from..object.len().min(at + 44)], (at - from) as u64);
    let range = at - window.back as usize..at - window.back as usize + window.len as usize;
    let others = relocations[1..].iter().filter(|other| range.contains(&other.0)).filter_map(|other| {
        let offset = (other.0 - range.start) as u64;
        Some(FieldBits { offset, bits: field_bits(&of.row(other.1)?, &object[other.0..]) })
    });
    let (others, original) = (others.collect::<Vec<_>>(), &object[range.clone()]);
    let (offset, others, linked_bytes) = (window.back, &others[..], &linked.1[range.clone()]);
    let found = recognise(of, r_type, &Windows { original, offset, others, linked: linked_bytes });
    found.into_iter().flatten().map(|made| {
        let operands = Operands { place: linked.0 + range.start as u64 + made.offset, addend, ..Operands::default() };
        let symbol = destination_of(of, &made, original, window.back, &operands).and_then(|to| to.symbol(0));
        format!("{:?} to {:x?}", made.choice.kind, symbol)
    }).collect()
}

fn main() {
    // mov x@GOTPCREL(%rip), %rax, jmp *f@GOTPCREL(%rip) and mov x@GOTPCREL(%rip), %r16: lea x(%rip), jmp f and
    // lea x(%rip) by one linker, mov $x, jmp f and mov $x by another
    let object = [0x48, 0x8b, 5, 0, 0, 0, 0, 0xff, 0x25, 0, 0, 0, 0, 0xd5, 0x48, 0x8b, 5, 0, 0, 0, 0];
    let one = [0x48, 0x8d, 5, 9, 0x30, 0, 0, 0xe9, 0xf4, 0xf, 0, 0, 0x90, 0xd5, 0x48, 0x8d, 5, 0xfb, 0x2f, 0, 0];
    let mov = [0xc7, 0xc0, 0x10, 0x50, 0x40, 0];
    let other = [&[0x48], &mov[..], &[0xe9, 0xf4, 0xf, 0, 0, 0x90, 0xd5, 0x18], &mov].concat();
    let relocations =
        [(3, R_X86_64_REX_GOTPCRELX, true), (9, R_X86_64_GOTPCRELX, false), (17, R_X86_64_CODE_4_GOTPCRELX, true)];
    for (at, name, differ) in relocations {
        let [a, b] = [(0x401000, &one[..]), (0x402000, &other[..])]
            .map(|linked| made(Architecture::X86_64, &object, linked, &[(at, name.r_type(), -4)]));
        println!("{at}: {a:?}, {b:?}");
        assert_eq!(a[0].split(" to ").next() != b[0].split(" to ").next(), differ);
    }
}
