// SPDX-License-Identifier: MIT OR Apache-2.0
//! Calls that can become jumps at once, worked by hand: `jal` reaches even distances from -1048576
//! to 1048574 (RISC-V unprivileged ISA, "Unconditional Jumps").

use linker_utils::relaxation::{
    SectionRelaxDeltas, calls_apart, calls_shrinkable, pack_section, shrink_calls,
};

/// A call at each multiple of 1000 of what is 8 bytes on, except the first. Those at 1052000
/// and below lie before its target: 1053 calls, which lose 4212 bytes.
#[test]
fn many_calls_are_chosen_at_once() {
    let none = SectionRelaxDeltas::new(&[]).unwrap();
    let mut calls: Vec<_> = (0..1100).map(|at| (1000 * at, 1000 * at + 8)).collect();
    for (target, is_chosen) in [(1048574 + 4212, true), (1048576 + 4212, false)] {
        calls[0].1 = target;
        assert!(calls_shrinkable(&none, &calls));
        let chosen = shrink_calls(&none, &calls).unwrap();
        assert_eq!(chosen.len(), 1100, "{target:?}");
        for (at, &found) in chosen.iter().enumerate() {
            assert_eq!(found, is_chosen || at > 0, "{at:?}, {target:?}");
        }
    }
}

#[test]
fn a_pass_chooses_deletes_and_packs() {
    // `auipc ra, 0` and `jalr ra, 0(ra)`, and `nop`.
    let section = [0x97, 0x00, 0x00, 0x00, 0xe7, 0x80, 0x00, 0x00, 0x13, 0x00, 0x00, 0x00];
    let calls = [(0, 8)];
    let freed = [(4, 4)];
    let mut deltas = SectionRelaxDeltas::new(&[]).unwrap();
    assert!(calls_shrinkable(&deltas, &calls));
    let chosen = shrink_calls(&deltas, &calls).unwrap();
    assert_eq!(chosen, [true]);
    assert!(deltas.is_mergeable(&freed));
    deltas.merge_additional(&freed).unwrap();
    assert!(calls_apart(&calls));
    let packed = pack_section(&section, &deltas, &calls).unwrap();
    assert_eq!(packed, [0xef, 0x00, 0x40, 0x00, 0x13, 0x00, 0x00, 0x00]);
}
