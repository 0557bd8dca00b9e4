// SPDX-License-Identifier: MIT OR Apache-2.0
//! Choices of rewrites: what linkers made of pairs and sequences, under the facts that they had.

use super::{ADRP_TO_ADD, NOP_ADR, TO_MOVES};
use linker_utils::aarch64::{
    AArch64Relocation, RewriteKind, choose, is_tls_descriptor_sequence, row,
};
use linker_utils::architecture::fits;
use linker_utils::elf::{Architecture, Choice, LinkFacts, Operands};
use linker_utils::utils::u32_from_slice;

/// The bits beside the immediates of `adrp`, and of `add` and `ldr`.
const ADRP: u32 = 0x9f00_001f;

const LOW12: u32 = 0xffc0_03ff;

/// `adrp x0`, `ldr x1, [x0]`, `add x0, x0, #0` and `blr x1`.
static DESCRIPTOR: [u8; 16] = [0, 0, 0, 0x90, 1, 0, 0x40, 0xf9, 0, 0, 0, 0x91, 0x20, 0, 0x3f, 0xd6];

/// What ld.lld 19 made of it for an offset of 0x10000 from the thread pointer.
static LOCAL_EXEC: [u8; 16] =
    [0x20, 0, 0xa0, 0xd2, 0, 0, 0x80, 0xf2, 0x1f, 0x20, 3, 0xd5, 0x1f, 0x20, 3, 0xd5];

/// What ld.lld 14 made of it at 0x10358, for a GOT entry at 0x32828.
static INITIAL_EXEC: [u8; 16] =
    [0, 1, 0, 0xd0, 0, 0x14, 0x44, 0xf9, 0x1f, 0x20, 3, 0xd5, 0x1f, 0x20, 3, 0xd5];

/// The four relocations of a descriptor, and their offsets.
static DESCRIPTOR_RELOCATIONS: [(u64, AArch64Relocation); 4] = [
    (0, AArch64Relocation::R_AARCH64_TLSDESC_ADR_PAGE21),
    (4, AArch64Relocation::R_AARCH64_TLSDESC_LD64_LO12),
    (8, AArch64Relocation::R_AARCH64_TLSDESC_ADD_LO12),
    (12, AArch64Relocation::R_AARCH64_TLSDESC_CALL),
];

/// What an executable knows of a symbol that it defines.
fn own(operands: Operands) -> LinkFacts {
    LinkFacts {
        is_local: true,
        is_pcrel_link_time_constant: true,
        is_executable: true,
        has_addresses: true,
        operands,
        ..LinkFacts::default()
    }
}

/// The facts of a relocation some bytes on.
fn next(facts: &LinkFacts, distance: u64) -> LinkFacts {
    let place = facts.operands.place.wrapping_add(distance);
    LinkFacts { operands: Operands { place, ..facts.operands }, ..*facts }
}

fn unchanged(name: AArch64Relocation) -> Choice<RewriteKind, AArch64Relocation> {
    Choice { kind: RewriteKind::NoOp, relocation: name }
}

/// Rewrites as was chosen, and writes the value. Returns `false` if either is impossible.
fn is_made(
    section: &mut [u8],
    at: u64,
    choice: Choice<RewriteKind, AArch64Relocation>,
    facts: &LinkFacts,
) -> bool {
    if at > section.len() as u64 || !choice.kind.can_apply(section, at) {
        return false;
    }
    let mut offset = at;
    let mut addend = facts.operands.addend;
    choice.kind.apply(section, &mut offset, &mut addend);
    let Some(row) = row(choice.relocation) else {
        return false;
    };
    match row.value(&facts.operands) {
        Ok(value) => row.write(value, &mut section[at as usize..]).is_ok(),
        Err(_) => true,
    }
}

/// Whether something is chosen for a relocation, and is not once one bit is altered of those that
/// the masks of the words have.
fn is_chosen_by_each_bit(
    section: &mut [u8],
    masks: &[u32],
    name: AArch64Relocation,
    at: u64,
    facts: &LinkFacts,
) -> bool {
    if choose(name, section, at, facts) == unchanged(name) {
        return false;
    }
    for (word, mask) in masks.iter().enumerate() {
        for bit in 0..32u32 {
            if mask >> bit & 1 == 1 {
                let byte = 4 * word + (bit / 8) as usize;
                if byte >= section.len() {
                    return false;
                }
                section[byte] ^= 1u8 << (bit % 8);
                let choice = choose(name, section, at, facts);
                section[byte] ^= 1u8 << (bit % 8);
                if choice != unchanged(name) {
                    return false;
                }
            }
        }
    }
    true
}

#[test]
fn adr_is_chosen_as_by_linkers() {
    let name = AArch64Relocation::R_AARCH64_ADD_ABS_LO12_NC;
    for &(before, value, after) in &NOP_ADR {
        // the place of the `add`; the value has 21 bits with a sign
        let place = 0x4000_0004u64;
        let distance = (value ^ 0x10_0000).wrapping_sub(0x10_0000);
        let facts =
            own(Operands { symbol: place.wrapping_add(distance), place, ..Operands::default() });
        let mut section = before;
        assert!(is_chosen_by_each_bit(&mut section, &[ADRP, LOW12], name, 4, &facts), "{value}");
        let unknown = LinkFacts { has_addresses: false, ..facts };
        assert_eq!(choose(name, &section, 4, &unknown), unchanged(name), "{value:?}");
        let choice = choose(name, &section, 4, &facts);
        assert!(is_made(&mut section, 4, choice, &facts), "{value}");
        assert_eq!(section, after, "{value:?}");
    }
}

/// What a linker does with one of two relocations.
#[derive(Debug, Clone, Copy)]
enum Step {
    Rewrite(usize),
    Write(usize),
}

#[test]
fn values_are_written_before_rewrites_or_after_them() {
    use Step::{Rewrite, Write};
    let pair = [
        (0u64, AArch64Relocation::R_AARCH64_ADR_PREL_PG_HI21),
        (4, AArch64Relocation::R_AARCH64_ADD_ABS_LO12_NC),
    ];
    let orders = [
        [Rewrite(0), Rewrite(1), Write(0), Write(1)],
        [Rewrite(1), Rewrite(0), Write(1), Write(0)],
        [Rewrite(0), Write(0), Rewrite(1), Write(1)],
        [Rewrite(1), Write(1), Rewrite(0), Write(0)],
    ];
    for &(before, value, after) in &NOP_ADR {
        let place = 0x4000_0000u64;
        let distance = (value ^ 0x10_0000).wrapping_sub(0x10_0000);
        let symbol = (place + 4).wrapping_add(distance);
        let facts = own(Operands { symbol, place, ..Operands::default() });
        let chosen = pair.map(|(at, name)| choose(name, &before, at, &next(&facts, at)));
        let mut names = chosen.map(|choice| choice.relocation);
        for ((at, _), choice) in pair.iter().zip(chosen) {
            let Some(other) = choice.kind.other_relocation() else {
                continue;
            };
            for (name, (there, _)) in names.iter_mut().zip(pair) {
                if there == at.wrapping_add_signed(other.offset) {
                    *name = other.relocation;
                }
            }
        }
        for order in orders {
            let mut section = before;
            for step in order {
                match step {
                    Rewrite(index) => {
                        let (mut offset, mut addend) = (pair[index].0, 0);
                        chosen[index].kind.apply(&mut section, &mut offset, &mut addend);
                    }
                    Write(index) => {
                        let at = pair[index].0;
                        let row = row(names[index]).expect("a row");
                        if let Ok(value) = row.value(&next(&facts, at).operands) {
                            let written = row.write(value, &mut section[at as usize..]);
                            assert!(written.is_ok(), "{order:?}");
                        }
                    }
                }
            }
            assert_eq!(section, after, "{value:?}, {order:?}");
        }
    }
}

#[test]
fn entry_loads_become_addresses_as_by_linkers() {
    let page_name = AArch64Relocation::R_AARCH64_ADR_GOT_PAGE;
    let low_name = AArch64Relocation::R_AARCH64_LD64_GOT_LO12_NC;
    for &(before, page, low, after) in &ADRP_TO_ADD {
        let facts = own(Operands {
            symbol: 0x4000_0000 + page * 0x1000 + low,
            place: 0x4000_0000,
            ..Operands::default()
        });
        let mut section = before;
        for (name, at) in [(page_name, 0u64), (low_name, 4)] {
            let here = next(&facts, at);
            assert!(
                is_chosen_by_each_bit(&mut section, &[ADRP, LOW12], name, at, &here),
                "{page} and {low}"
            );
            let others = [
                LinkFacts { is_local: false, ..here },
                LinkFacts { is_ifunc: true, ..here },
                LinkFacts { is_pcrel_link_time_constant: false, ..here },
                next(&here, 1 << 33),
            ];
            for other in &others {
                assert_eq!(choose(name, &section, at, other), unchanged(name), "{page:?}");
            }
        }
        let first = choose(page_name, &section, 0, &facts);
        let second = choose(low_name, &section, 4, &next(&facts, 4));
        assert!(is_made(&mut section, 0, first, &facts), "{page} and {low}");
        assert!(is_made(&mut section, 4, second, &next(&facts, 4)), "{page} and {low}");
        assert_eq!(section, after, "{page:?}, {low:?}");
    }
}

#[test]
fn entry_loads_become_adr_as_by_linkers() {
    // `adrp x9, :got:v` and `ldr x9, [x9, :got_lo12:v]` at 0x10380, with v at 0x42840: ld.lld 14
    let mut section = 0xf940_0129_9000_0009u64.to_le_bytes();
    let facts = own(Operands { symbol: 0x4_2840, place: 0x1_0384, ..Operands::default() });
    for name in [
        AArch64Relocation::R_AARCH64_LD64_GOT_LO12_NC,
        AArch64Relocation::R_AARCH64_ADD_ABS_LO12_NC,
    ] {
        let choice = choose(name, &section, 4, &facts);
        assert!(choice != unchanged(name), "{name:?}");
        assert!(is_made(&mut section, 4, choice, &facts), "{name:?}");
    }
    assert_eq!(section, 0x1019_25e9_d503_201fu64.to_le_bytes());
}

#[test]
fn entry_loads_become_moves_as_by_linkers() {
    let page_name = AArch64Relocation::R_AARCH64_TLSIE_ADR_GOTTPREL_PAGE21;
    let low_name = AArch64Relocation::R_AARCH64_TLSIE_LD64_GOTTPREL_LO12_NC;
    for &(before, high, low, after) in &TO_MOVES {
        let facts = own(Operands {
            symbol: 0x2000 + high * 0x1_0000 + low,
            tls_base: 0x2000,
            has_tls_base: true,
            ..Operands::default()
        });
        let facts = LinkFacts { group_fits: true, ..facts };
        let library = LinkFacts { is_executable: false, ..facts };
        let others = LinkFacts { group_fits: false, ..facts };
        let mut section = before;
        for (name, at, masks) in [(page_name, 0u64, [ADRP & !0x1f, 0]), (low_name, 4, [0, LOW12])] {
            assert!(
                is_chosen_by_each_bit(&mut section, &masks, name, at, &facts),
                "{high} and {low}"
            );
            assert_eq!(choose(name, &section, at, &library), unchanged(name), "{high:?}");
            assert_eq!(choose(name, &section, at, &others), unchanged(name), "{high:?}");
        }
        let first = choose(page_name, &section, 0, &facts);
        let second = choose(low_name, &section, 4, &facts);
        assert!(is_made(&mut section, 0, first, &facts), "{high} and {low}");
        assert!(is_made(&mut section, 4, second, &facts), "{high} and {low}");
        assert_eq!(section, after, "{high:?}, {low:?}");
    }
}

/// The halves of initial-exec, by their offsets in code, as a linker rewrites them: whether each fits,
/// and what becomes of the words.
fn halves_made<const N: usize>(mut words: [u32; N], halves: &[(u64, bool)]) -> (bool, [u32; N]) {
    let mut section = [0u8; 64];
    for (bytes, word) in section.chunks_mut(4).zip(words) {
        bytes.copy_from_slice(&word.to_le_bytes());
    }
    // the variable is 0x12350 bytes after the thread pointer
    let operands = Operands { tls_base: 0x2000, has_tls_base: true, ..Operands::default() };
    let facts = own(Operands { symbol: 0x1_4350, ..operands });
    let named = |is_high: bool| match is_high {
        true => AArch64Relocation::R_AARCH64_TLSIE_ADR_GOTTPREL_PAGE21,
        false => AArch64Relocation::R_AARCH64_TLSIE_LD64_GOTTPREL_LO12_NC,
    };
    let group_fits = halves.iter().all(|&(at, is_high)| {
        let r_type = named(is_high).r_type();
        fits(Architecture::AArch64, r_type, &section, at, &facts)
    });
    let facts = LinkFacts { group_fits, ..facts };
    let chosen: Vec<_> = halves
        .iter()
        .map(|&(at, is_high)| (at, choose(named(is_high), &section, at, &facts)))
        .collect();
    for (at, choice) in chosen {
        if choice.kind != RewriteKind::NoOp {
            assert!(is_made(&mut section, at, choice, &facts), "{at:?}");
        }
    }
    for (bytes, word) in section.chunks(4).zip(&mut words) {
        *word = u32_from_slice(bytes);
    }
    (group_fits, words)
}

/// `adrp x0`; `b` over two instructions to `ldr x0, [x0]`; `add`; `adrp x0`; `add`; that `ldr`: it has
/// what either `adrp` leaves, and stands after none. The words are what ld.lld 19 and GNU ld 2.40
/// make of it.
#[test]
fn halves_are_rewritten_where_they_are() {
    let code = [0x9000_0000u32, 0x1400_0004, 0x9100_0421, 0x9000_0000, 0x9100_0442, 0xf940_0000];
    let linked = [0xd2a0_0020u32, 0x1400_0004, 0x9100_0421, 0xd2a0_0020, 0x9100_0442, 0xf284_6a00];
    assert_eq!(halves_made(code, &[(0, true), (12, true), (20, false)]), (true, linked));
}

/// `adrp x1`, `ldr x0, [x1]` and `ldr x3, [x1]`: `movk` of another register than `movz` has no high
/// half, which both linkers write nevertheless.
#[test]
fn halves_of_other_registers_stay() {
    let code = [0x9000_0001u32, 0xf940_0020, 0xf940_0023];
    assert_eq!(halves_made(code, &[(0, true), (4, false), (8, false)]), (false, code));
    // one of them is enough
    let mixed = [0x9000_0001u32, 0xf940_0020, 0xf940_0021];
    assert_eq!(halves_made(mixed, &[(0, true), (4, false), (8, false)]), (false, mixed));
}

/// What becomes of a descriptor's sequence by the choices for its four relocations.
fn descriptor_made(facts: &LinkFacts) -> Option<[u8; 16]> {
    let mut section = DESCRIPTOR;
    for &(at, name) in &DESCRIPTOR_RELOCATIONS {
        let here = next(facts, at);
        let choice = choose(name, &DESCRIPTOR, at, &here);
        if !is_made(&mut section, at, choice, &here) {
            return None;
        }
    }
    Some(section)
}

#[test]
fn descriptors_become_offsets_as_by_linkers() {
    let operands = Operands { tls_base: 0x2000, has_tls_base: true, ..Operands::default() };
    let local = own(Operands { symbol: 0x1_2000, ..operands });
    assert_eq!(descriptor_made(&local), Some(LOCAL_EXEC), "local-exec");
    let initial = LinkFacts {
        is_local: false,
        ..own(Operands {
            got_entry: 0x3_2828,
            has_got_entry: true,
            place: 0x1_0358,
            ..Operands::default()
        })
    };
    assert_eq!(descriptor_made(&initial), Some(INITIAL_EXEC), "initial-exec");
    let mut section = DESCRIPTOR;
    assert!(is_tls_descriptor_sequence(&section, 0));
    let masks = [ADRP, LOW12, LOW12, u32::MAX];
    for &(at, name) in &DESCRIPTOR_RELOCATIONS {
        for facts in [local, initial] {
            assert!(
                is_chosen_by_each_bit(&mut section, &masks, name, at, &next(&facts, at)),
                "{name:?}"
            );
            let library = LinkFacts { is_executable: false, ..facts };
            assert_eq!(choose(name, &section, at, &library), unchanged(name), "{name:?}");
        }
    }
}

#[test]
fn branches_to_undefined_weak_symbols_go_on() {
    let weak = LinkFacts { is_undefined_weak: true, ..LinkFacts::default() };
    for (name, word) in [
        (AArch64Relocation::R_AARCH64_CALL26, 0x9400_0000u32),
        (AArch64Relocation::R_AARCH64_JUMP26, 0x1400_0000),
    ] {
        let mut section = word.to_le_bytes();
        assert!(is_chosen_by_each_bit(&mut section, &[0xfc00_0000], name, 0, &weak), "{name:?}");
        let defined = LinkFacts::default();
        assert_eq!(choose(name, &section, 0, &defined), unchanged(name), "{name:?}");
        assert_eq!(choose(name, &section, u64::MAX, &weak), unchanged(name), "{name:?}");
        let choice = choose(name, &section, 0, &weak);
        assert!(is_made(&mut section, 0, choice, &weak), "{name:?}");
        assert_eq!(section, 0xd503_201fu32.to_le_bytes(), "{name:?}");
    }
}
