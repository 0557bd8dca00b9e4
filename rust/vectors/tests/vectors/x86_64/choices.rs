// SPDX-License-Identifier: MIT OR Apache-2.0
//! The rewrites that linkers chose, by what they knew.

use super::{REWRITES, SEQUENCES};
use linker_utils::elf::{Choice, InstructionRewrite, LinkFacts, Operands};
use linker_utils::x86_64::{RewriteKind, X86_64Relocation, choose, row};

/// The address of a field before the rewrite.
const PLACE: u64 = 0x401000;

/// Whether other relocations have to fit too.
fn is_of_sequence(name: X86_64Relocation) -> bool {
    matches!(
        name,
        X86_64Relocation::R_X86_64_TLSGD
            | X86_64Relocation::R_X86_64_TLSLD
            | X86_64Relocation::R_X86_64_GOTPC32_TLSDESC
            | X86_64Relocation::R_X86_64_CODE_4_GOTPC32_TLSDESC
            | X86_64Relocation::R_X86_64_TLSDESC_CALL
    )
}

/// What a linker knows that makes a rewrite of a field, after which it writes a number there.
fn facts_of(name: X86_64Relocation, kind: RewriteKind, number: u32) -> LinkFacts {
    let number = i64::from(number as i32) as u64;
    let operands = Operands {
        addend: -4,
        place: PLACE,
        tls_base: 0x8000,
        has_got_entry: true,
        has_tls_base: true,
        ..Operands::default()
    };
    let group_fits = is_of_sequence(name);
    let facts = LinkFacts { has_addresses: true, group_fits, ..LinkFacts::default() };
    match kind {
        RewriteKind::MovIndirectToLea => LinkFacts {
            is_local: true,
            is_pcrel_link_time_constant: true,
            operands: Operands { symbol: number.wrapping_add(PLACE + 4), ..operands },
            ..facts
        },
        // the field is one byte lower
        RewriteKind::JmpIndirectToRelative => LinkFacts {
            is_local: true,
            is_pcrel_link_time_constant: true,
            operands: Operands { symbol: number.wrapping_add(PLACE + 3), ..operands },
            ..facts
        },
        RewriteKind::TlsDescToInitialExec => LinkFacts {
            is_executable: true,
            operands: Operands { got_entry: number.wrapping_add(PLACE + 4), ..operands },
            ..facts
        },
        // the field is eight bytes higher
        RewriteKind::TlsGdToInitialExec => LinkFacts {
            is_executable: true,
            operands: Operands { got_entry: number.wrapping_add(PLACE + 12), ..operands },
            ..facts
        },
        _ => match name {
            X86_64Relocation::R_X86_64_GOTPCRELX
            | X86_64Relocation::R_X86_64_REX_GOTPCRELX
            | X86_64Relocation::R_X86_64_CODE_4_GOTPCRELX
            | X86_64Relocation::R_X86_64_CODE_6_GOTPCRELX => LinkFacts {
                is_local: true,
                has_fixed_address: true,
                is_pcrel_link_time_constant: true,
                operands: Operands { symbol: number, ..operands },
                ..facts
            },
            _ => LinkFacts {
                is_local: true,
                is_executable: true,
                operands: Operands { symbol: number.wrapping_add(operands.tls_base), ..operands },
                ..facts
            },
        },
    }
}

/// Chooses a rewrite, makes it, and writes the field's value.
fn link(name: X86_64Relocation, section: &mut [u8], offset: u64, facts: &LinkFacts) -> RewriteKind {
    let choice = choose(name, section, offset, facts);
    let (mut at, mut addend) = (offset, facts.operands.addend);
    choice.kind.apply(section, &mut at, &mut addend);
    let place = facts.operands.place.wrapping_add(at).wrapping_sub(offset);
    let operands = Operands { place, addend, ..facts.operands };
    if let Some(row) = row(choice.relocation)
        && let Ok(value) = row.value(&operands)
        && at <= section.len() as u64
    {
        let _ = row.write(value, &mut section[at as usize..]);
    }
    choice.kind
}

fn linked(
    name: X86_64Relocation,
    before: [u8; 10],
    offset: u64,
    facts: &LinkFacts,
) -> (RewriteKind, [u8; 10]) {
    let mut section = before;
    let kind = link(name, &mut section, offset, facts);
    (kind, section)
}

#[test]
fn choices_are_those_of_linkers() {
    for rewrite in &REWRITES {
        let facts = facts_of(rewrite.name, rewrite.kind, rewrite.field.unwrap_or(0));
        let found = linked(rewrite.name, rewrite.before, rewrite.offset, &facts);
        assert_eq!(found, (rewrite.kind, rewrite.after), "{:?}", rewrite.kind);
    }
}

#[test]
fn choices_for_tls_sequences_are_those_of_linkers() {
    for sequence in &SEQUENCES {
        let number = match sequence.field {
            Some((_, number)) => number,
            None => 0,
        };
        let facts = facts_of(sequence.name, sequence.kind, number);
        let mut section = sequence.before;
        let kind = link(sequence.name, &mut section, sequence.offset, &facts);
        assert_eq!(kind, sequence.kind, "{:?}", sequence.kind);
        assert_eq!(section, sequence.after, "{:?}", sequence.kind);
    }
}

/// Without the fact that all of it fits, nothing of a sequence is rewritten.
#[test]
fn sequences_that_do_not_fit_stay() {
    let stays = |name, kind, number, section: &[u8], offset| {
        let fitting = facts_of(name, kind, number);
        let facts = LinkFacts { group_fits: false, ..fitting };
        let unchanged = Choice { kind: RewriteKind::NoOp, relocation: name };
        let chosen = choose(name, section, offset, &facts);
        assert_eq!(chosen == unchanged, is_of_sequence(name), "{name:?} {kind:?}");
        assert_ne!(choose(name, section, offset, &fitting), unchanged, "{name:?} {kind:?}");
    };
    for it in &SEQUENCES {
        stays(it.name, it.kind, it.field.map_or(0, |field| field.1), &it.before, it.offset);
    }
    for it in &REWRITES {
        stays(it.name, it.kind, it.field.unwrap_or(0), &it.before, it.offset);
    }
}

/// An instruction, and the bits that can be others so that it is still one with a rewrite: the
/// register, the width, and the operation.
pub(crate) struct Instruction {
    pub(crate) name: X86_64Relocation,
    pub(crate) offset: u64,
    pub(crate) bytes: [u8; 10],
    pub(crate) free: [u8; 10],
}

pub(crate) static INSTRUCTIONS: [Instruction; 15] = [
    // mov; or
    Instruction {
        name: X86_64Relocation::R_X86_64_REX_GOTPCRELX,
        offset: 3,
        bytes: [0x48, 0x8b, 0x1d, 0, 0, 0, 0, 0, 0, 0],
        free: [0x0c, 0x80, 0x38, 255, 255, 255, 255, 255, 255, 255],
    },
    Instruction {
        name: X86_64Relocation::R_X86_64_CODE_4_GOTPCRELX,
        offset: 4,
        bytes: [0xd5, 0x48, 0x8b, 0x1d, 0, 0, 0, 0, 0, 0],
        free: [0, 0x4c, 0x80, 0x38, 255, 255, 255, 255, 255, 255],
    },
    // mov alone
    Instruction {
        name: X86_64Relocation::R_X86_64_GOTPCREL,
        offset: 3,
        bytes: [0x48, 0x8b, 0x1d, 0, 0, 0, 0, 0, 0, 0],
        free: [0x0c, 0, 0x38, 255, 255, 255, 255, 255, 255, 255],
    },
    // add; or, adc, and
    Instruction {
        name: X86_64Relocation::R_X86_64_REX_GOTPCRELX,
        offset: 3,
        bytes: [0x48, 0x03, 0x2d, 0, 0, 0, 0, 0, 0, 0],
        free: [0x0c, 0x38, 0x38, 255, 255, 255, 255, 255, 255, 255],
    },
    Instruction {
        name: X86_64Relocation::R_X86_64_CODE_6_GOTPCRELX,
        offset: 6,
        bytes: [0x62, 0xf4, 0xec, 0x10, 0x03, 0x0d, 0, 0, 0, 0],
        free: [0, 0x90, 0xf8, 0x0c, 0x38, 0x38, 255, 255, 255, 255],
    },
    // cmp; xor, sub, sbb
    Instruction {
        name: X86_64Relocation::R_X86_64_REX_GOTPCRELX,
        offset: 3,
        bytes: [0x48, 0x3b, 0x2d, 0, 0, 0, 0, 0, 0, 0],
        free: [0x0c, 0x38, 0x38, 255, 255, 255, 255, 255, 255, 255],
    },
    // test
    Instruction {
        name: X86_64Relocation::R_X86_64_REX_GOTPCRELX,
        offset: 3,
        bytes: [0x48, 0x85, 0x2d, 0, 0, 0, 0, 0, 0, 0],
        free: [0x0c, 0, 0x38, 255, 255, 255, 255, 255, 255, 255],
    },
    // jmp, call
    Instruction {
        name: X86_64Relocation::R_X86_64_GOTPCRELX,
        offset: 2,
        bytes: [0xff, 0x25, 0, 0, 0, 0, 0, 0, 0, 0],
        free: [0, 0, 255, 255, 255, 255, 255, 255, 255, 255],
    },
    Instruction {
        name: X86_64Relocation::R_X86_64_GOTPCRELX,
        offset: 2,
        bytes: [0xff, 0x15, 0, 0, 0, 0, 0, 0, 0, 0],
        free: [0, 0, 255, 255, 255, 255, 255, 255, 255, 255],
    },
    // mov and add of an offset from the thread pointer
    Instruction {
        name: X86_64Relocation::R_X86_64_GOTTPOFF,
        offset: 3,
        bytes: [0x48, 0x8b, 0x05, 0, 0, 0, 0, 0, 0, 0],
        free: [0x0c, 0, 0x38, 255, 255, 255, 255, 255, 255, 255],
    },
    Instruction {
        name: X86_64Relocation::R_X86_64_GOTTPOFF,
        offset: 3,
        bytes: [0x48, 0x03, 0x25, 0, 0, 0, 0, 0, 0, 0],
        free: [0x0c, 0, 0x38, 255, 255, 255, 255, 255, 255, 255],
    },
    // lea and call of a descriptor
    Instruction {
        name: X86_64Relocation::R_X86_64_GOTPC32_TLSDESC,
        offset: 3,
        bytes: [0x48, 0x8d, 0x0d, 0, 0, 0, 0, 0, 0, 0],
        free: [0x04, 0, 0x38, 255, 255, 255, 255, 255, 255, 255],
    },
    Instruction {
        name: X86_64Relocation::R_X86_64_CODE_4_GOTPC32_TLSDESC,
        offset: 4,
        bytes: [0xd5, 0x48, 0x8d, 0x0d, 0, 0, 0, 0, 0, 0],
        free: [0, 0x44, 0, 0x38, 255, 255, 255, 255, 255, 255],
    },
    Instruction {
        name: X86_64Relocation::R_X86_64_TLSDESC_CALL,
        offset: 0,
        bytes: [0xff, 0x10, 0, 0, 0, 0, 0, 0, 0, 0],
        free: [0, 0, 255, 255, 255, 255, 255, 255, 255, 255],
    },
    // an offset whatever the instruction is
    Instruction {
        name: X86_64Relocation::R_X86_64_DTPOFF32,
        offset: 3,
        bytes: [0x48, 0x8d, 0x80, 0, 0, 0, 0, 0, 0, 0],
        free: [255; 10],
    },
];

/// Loads from the GOT by `mov`, the address of each, and what GNU ld 2.40 makes of them at
/// `R_X86_64_GOTPCREL`, where the symbol's address is 0x404000.
#[test]
fn loads_without_a_mark_become_lea() {
    let table = [
        ([0x48, 0x8b, 0x05], 0x401000, [0x48, 0x8d, 0x05, 0xf9, 0x2f, 0, 0]),
        ([0x4c, 0x8b, 0x25], 0x401007, [0x4c, 0x8d, 0x25, 0xf2, 0x2f, 0, 0]),
        ([0x44, 0x8b, 0x05], 0x401014, [0x44, 0x8d, 0x05, 0xe5, 0x2f, 0, 0]),
    ];
    for ([rex, opcode, modrm], address, want) in table {
        let mut bytes = [rex, opcode, modrm, 0, 0, 0, 0];
        let operands =
            Operands { symbol: 0x404000, addend: -4, place: address + 3, ..Operands::default() };
        // the address is an immediate only at relocations that mark the instruction
        let facts = LinkFacts {
            is_local: true,
            has_fixed_address: true,
            is_pcrel_link_time_constant: true,
            has_addresses: true,
            operands,
            ..LinkFacts::default()
        };
        let choice = choose(X86_64Relocation::R_X86_64_GOTPCREL, &bytes, 3, &facts);
        assert_eq!(choice.relocation, X86_64Relocation::R_X86_64_PC32, "{want:x?}");
        let (mut offset, mut addend) = (3, -4);
        choice.kind.apply(&mut bytes, &mut offset, &mut addend);
        let row = row(choice.relocation).expect("a row");
        let value = row.value(&operands).expect("a value");
        assert!(row.write(value, &mut bytes[3..]).is_ok(), "{want:x?}");
        assert_eq!(bytes, want);
    }
}

#[test]
fn other_instructions_are_not_rewritten() {
    let facts = LinkFacts {
        is_local: true,
        has_fixed_address: true,
        is_pcrel_link_time_constant: true,
        is_executable: true,
        has_local_exec_base: true,
        group_fits: true,
        has_addresses: true,
        operands: Operands { addend: -4, ..Operands::default() },
        ..LinkFacts::default()
    };
    for instruction in &INSTRUCTIONS {
        let name = instruction.name;
        let unchanged = Choice { kind: RewriteKind::NoOp, relocation: name };
        for index in 0..10 {
            for bit in [0x01, 0x02, 0x04, 0x08, 0x10, 0x20, 0x40, 0x80] {
                let mut bytes = instruction.bytes;
                bytes[index] ^= bit;
                let choice = choose(name, &bytes, instruction.offset, &facts);
                let is_rewritten = instruction.free[index] & bit != 0;
                assert_eq!(choice != unchanged, is_rewritten, "{bytes:?}");
            }
        }
    }
}
