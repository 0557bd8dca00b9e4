// SPDX-License-Identifier: MIT OR Apache-2.0
//! Runs worked by hand.

use super::{aligned, site};
use linker_utils::runs::shapes::{fixed, loongarch64, riscv64};
use linker_utils::runs::{Fault, Item, ItemFault, ItemNumbers, Shape, Shapes};
use linker_utils::runs::{are_items, first_faulty, relax};

/// Requires these shapes and kept bytes of a run.
fn expect_plan(items: &[ItemNumbers], shapes: &[u8], kept: &[u64]) {
    assert!(are_items(items, 0));
    let plan = relax(items, 0).unwrap();
    assert_eq!(plan.shapes, shapes);
    assert_eq!(plan.kept, kept);
}

/// With all nops kept the distance would be 1048576, which `jal` doesn't reach.
#[test]
fn a_call_takes_the_bytes_that_an_alignment_frees() {
    let items = [site(0, 1048580, riscv64::CALL), aligned(8, 14, 16, None)];
    expect_plan(&items, &[0, 0], &[4, 12]);
    assert!(are_items(&items, 0));
    let plan = relax(&items, 0).unwrap();
    assert_eq!(plan.deletions.input_to_output_offset(1048580), 1048574);
    let farther = [site(0, 1048582, riscv64::CALL), aligned(8, 14, 16, None)];
    expect_plan(&farther, &[1, 0], &[8, 8]);
}

#[test]
fn shapes_reach_as_far_as_their_instructions() {
    let rows: [(Shapes, u64, u8, u64); 8] = [
        (riscv64::CALL, 1048574 + 4, 0, 4),
        (riscv64::CALL, 1048576 + 4, 1, 8),
        (riscv64::TAIL_C, 2046 + 6, 0, 2),
        (riscv64::TAIL_C, 2048 + 6, 1, 4),
        (loongarch64::PCALA, 2097148 + 4, 0, 4),
        (loongarch64::PCALA, 2097152 + 4, 1, 8),
        (loongarch64::CALL36, 134217724 + 4, 0, 4),
        (loongarch64::CALL36, 134217728 + 4, 1, 8),
    ];
    for &(shapes, target, shape, kept) in &rows {
        expect_plan(&[site(0, target, shapes)], &[shape], &[kept]);
    }
    expect_plan(&[site(0, 0, fixed(4))], &[0], &[4]);
}

/// ld.lld 19 keeps none of 12 nops for the addend 0x404, where 8 bytes are needed.
#[test]
fn an_alignment_keeps_none_where_more_are_needed_than_may_stay() {
    let items = [aligned(8, 12, 16, Some(4))];
    expect_plan(&items, &[0], &[0]);
    let items = [aligned(8, 12, 16, Some(8))];
    expect_plan(&items, &[0], &[8]);
}

/// Requires that the item at an index is the first faulty one, and the fault its first.
fn expect_fault(items: &[ItemNumbers], index: usize, fault: Fault) {
    assert!(!are_items(items, 0));
    assert_eq!(first_faulty(items, 0), Some(ItemFault { index, fault }));
}

/// A site of eight bytes at 0 whose short shapes keep 4 bytes and more.
fn shaped(short: [Shape; 2], count: u8, longest: u32) -> ItemNumbers {
    site(0, 0, Shapes { short, count, longest })
}

fn reaching(kept: u32, max_backward: u64, max_forward: u64, granularity: u32) -> Shape {
    Shape { kept, max_backward, max_forward, granularity }
}

#[test]
fn items_by_themselves_are_rejected() {
    let call = riscv64::CALL;
    assert!(are_items(&[site(0, 8, call)], 0));
    expect_fault(&[site(0, 8, call), site(6, 8, call)], 1, Fault::Overlaps);
    expect_fault(&[site(8, 8, call), site(0, 8, call)], 1, Fault::Overlaps);
    expect_fault(&[site(u64::MAX - 7, 0, call)], 0, Fault::TooHigh);
    expect_fault(&[site(0, 0, fixed(9))], 0, Fault::ShapeTooLong);
    let jal = reaching(4, 1 << 20, 1 << 20, 2);
    let c_j = reaching(2, 1 << 11, 1 << 11, 2);
    expect_fault(&[shaped([c_j, jal], 3, 8)], 0, Fault::TooManyShapes);
    expect_fault(&[shaped([jal, c_j], 2, 8)], 0, Fault::ShapesNotAscending);
    expect_fault(&[shaped([jal, jal], 1, 4)], 0, Fault::ShapesNotAscending);
    let odd = reaching(4, 1 << 20, 1 << 20, 3);
    expect_fault(&[shaped([odd, jal], 1, 8)], 0, Fault::BadGranularity);
    let wide = reaching(4, 1 << 20, 1 << 20, 4);
    expect_fault(&[shaped([c_j, wide], 2, 8)], 0, Fault::BadGranularity);
    let ahead = reaching(4, 1 << 20, 0, 2);
    expect_fault(&[shaped([ahead, jal], 1, 8)], 0, Fault::BadReach);
    let far = reaching(2, 1 << 21, 1 << 11, 2);
    expect_fault(&[shaped([far, jal], 2, 8)], 0, Fault::BadReach);
    let items = [site(0, 0, call), aligned(8, 14, 12, None)];
    expect_fault(&items, 1, Fault::BadAlignment);
}

#[test]
fn items_are_rejected_among_the_others() {
    let call = riscv64::CALL;
    expect_fault(&[site(0, 6, call)], 0, Fault::TargetInside);
    let items = [site(0, 8, call), site(8, 14, call), site(16, 16, call)];
    expect_fault(&items, 1, Fault::TargetInside);
    let items = [site(0, 12, call), aligned(8, 14, 16, None)];
    expect_fault(&items, 0, Fault::TargetInside);
    let pcala = loongarch64::PCALA;
    let items = [site(0, 0, pcala), aligned(10, 2, 2, None)];
    expect_fault(&items, 1, Fault::AlignmentBelowGranularity);
    let items = [site(0, 0, pcala), aligned(10, 12, 16, None)];
    expect_fault(&items, 1, Fault::UnevenEnd);
    let items = [site(0, 0, call), aligned(8, 12, 16, Some(14))];
    expect_fault(&items, 1, Fault::TooFewNops);
    let items = [site(0, 0, pcala), aligned(10, 14, 16, Some(4))];
    expect_fault(&items, 1, Fault::UnevenNops);
    let items = [site(0, 0, fixed(6)), site(8, 0, pcala)];
    expect_fault(&items, 0, Fault::UnevenShape);
}

/// ld.lld: "improper alignment for relocation R_LARCH_CALL36: 0xA is not aligned to 4 bytes". A
/// pair of instructions computes any address.
#[test]
fn calls_of_loongarch_count_in_words() {
    let (call, pcala) = (loongarch64::CALL36, loongarch64::PCALA);
    for away in 1..4 {
        expect_fault(&[site(0, 8, call), site(8, 16 + away, call)], 1, Fault::Misaligned);
        expect_fault(&[site(20, 16 + away, call)], 0, Fault::Misaligned);
        assert!(are_items(&[site(2, 2 + 4 * away, call), site(10, 18 + away, pcala)], 0));
    }
}

/// Where a site has nothing to reach, its target may be inside of what is deleted.
#[test]
fn targets_of_decided_deletions_mean_nothing() {
    assert!(are_items(&[site(0, 6, fixed(4))], 0));
    assert!(are_items(&[site(0, 0, riscv64::CALL), site(8, 6, fixed(4))], 0));
}

/// The 12 bytes of nops that assemblers write for `.option norvc` and `.balign 16` are enough at
/// multiples of 4: after a `jal`, but not after a `c.j`, and not after a `c.nop`. GNU ld and
/// ld.lld reject the last: "12 bytes required for alignment to 16-byte boundary".
#[test]
fn fewer_nops_need_addresses_that_are_always_multiples() {
    let (call, tail) = (riscv64::CALL, riscv64::TAIL_C);
    let before = aligned(0, 14, 16, None);
    for start in [0, 2] {
        let run = |shapes, at| {
            [aligned(0, 16 - 2, 16, None), site(14, 14, shapes), aligned(at, 12, 16, None)]
        };
        let start = start + 2;
        assert!(are_items(&run(call, 22), start));
        assert_eq!(first(&run(tail, 22), start), Some((2, Fault::MayBeMisaligned)));
        assert_eq!(first(&run(call, 24), start), Some((2, Fault::MayBeMisaligned)));
        assert!(are_items(&run(call, 26), start));
    }
    // the run's address aligns, too
    let items = [site(0, 0, call), aligned(8, 12, 16, None)];
    assert!(are_items(&items, 0x1000));
    assert_eq!(first(&items, 0x1002), Some((1, Fault::MayBeMisaligned)));
    // an alignment to 2 doesn't; one with a limit lets multiples through, if there are only such
    let items = [before, aligned(14, 2, 2, None), site(16, 14, call), aligned(24, 12, 16, None)];
    assert_eq!(first(&items, 2), Some((3, Fault::MayBeMisaligned)));
    let items = [before, aligned(14, 4, 8, Some(4)), site(18, 14, call), aligned(26, 12, 16, None)];
    assert!(are_items(&items, 2));
    let items = [before, aligned(14, 6, 8, Some(4)), site(20, 14, call), aligned(28, 12, 16, None)];
    assert_eq!(first(&items, 2), Some((3, Fault::MayBeMisaligned)));
}

fn first(items: &[ItemNumbers], start: u64) -> Option<(usize, Fault)> {
    first_faulty(items, start).map(|found| (found.index, found.fault))
}

/// An alignment below the unit keeps what its input address needs.
#[test]
fn alignments_below_the_unit_keep_their_nops() {
    let pcala = loongarch64::PCALA;
    for (offset, nops, power) in [(9, 1, 2), (9, 5, 2), (9, 0, 1), (9, 4, 1), (10, 0, 2)] {
        let items = [site(0, 0, pcala), aligned(offset, nops, power, None)];
        assert!(are_items(&items, 0), "{offset} {nops} {power}");
        let plan = relax(&items, 0).unwrap();
        assert_eq!(plan.kept[1], offset % power, "{offset} {nops} {power}");
    }
    for (offset, nops, power) in [(9, 2, 2), (9, 1, 1), (9, 0, 2), (10, 1, 2)] {
        let items = [site(0, 0, pcala), aligned(offset, nops, power, None)];
        assert_eq!(
            first(&items, 0),
            Some((1, Fault::AlignmentBelowGranularity)),
            "{offset} {nops} {power}"
        );
    }
}

/// Sites 20 bytes apart that reach 101 bytes ahead or 102 back, and go to 109 of them: each is in reach
/// only with another short one in between.
pub fn cascade(
    count: u64,
    ahead: bool,
    between: impl Fn(u64) -> Option<ItemNumbers>,
) -> Vec<ItemNumbers> {
    let shapes =
        Shapes { short: [reaching(4, 102, 102, 1), riscv64::CALL.short[0]], count: 1, longest: 8 };
    let call = |index| {
        let offset = 1000 + 20 * index;
        site(offset, if ahead { offset + 109 } else { offset - 107 }, shapes)
    };
    (0..count).flat_map(|index| [Some(call(index)), between(1008 + 20 * index)]).flatten().collect()
}

/// The last site isn't in reach, hence not the one before it, and so on, in both directions. A round
/// each would take hours for so many.
#[test]
fn each_site_is_long_because_of_the_next_one() {
    for ahead in [true, false] {
        for count in [60, 70, 300_000] {
            let items = cascade(count, ahead, |_| None);
            let plan = relax(&items, 0).unwrap();
            assert!(plan.shapes.iter().all(|&shape| shape == 1), "{count} {ahead}");
            assert_eq!(plan.freed.last(), Some(&0));
        }
    }
}

/// The greatest choice that is in reach where each alignment keeps all its nops, by testing each site
/// until none is out of reach.
fn cautious(items: &[ItemNumbers]) -> Vec<u8> {
    let mut shapes = vec![0; items.len()];
    loop {
        let mut freed = vec![0];
        for (item, &shape) in items.iter().zip(&shapes) {
            let gone = match item.as_item() {
                Item::Site(site) if shape == 0 => 8 - u64::from(site.shapes.short[0].kept),
                _ => 0,
            };
            freed.push(freed[freed.len() - 1] + gone);
        }
        let output = |offset| {
            offset - freed[items.partition_point(|it| it.offset + u64::from(it.len) <= offset)]
        };
        let out_of_reach = |index: &usize| match items[*index].as_item() {
            Item::Site(site) => {
                let (from, to) = (site.offset - freed[*index], output(site.target));
                shapes[*index] == 0 && (to > from + 101 || from > to + 102)
            }
            Item::Aligned(_) => false,
        };
        let longer: Vec<usize> = (0..items.len()).filter(out_of_reach).collect();
        if longer.is_empty() {
            return shapes;
        }
        longer.into_iter().for_each(|index| shapes[index] = 1);
    }
}

/// Where 64 rounds are too few, alignments hold and each site is in reach, too.
#[test]
fn long_cascades_between_alignments_are_cautious() {
    for (ahead, every) in [(true, 100), (false, 100), (true, 7), (false, 3)] {
        let nops = |offset: u64| {
            let index = (offset - 1008) / 20;
            (index % every == every * 9 / 10).then(|| aligned(offset + 6, 3, 4, None))
        };
        let items = cascade(570, ahead, nops);
        assert_eq!(first(&items, 0), None);
        let plan = relax(&items, 0).unwrap();
        let expected = cautious(&items);
        for (index, item) in items.iter().enumerate() {
            if item.kind == 0 {
                assert!(plan.shapes[index] <= expected[index], "{index}");
                assert!(every < 100 || plan.shapes[index] == expected[index], "{index}");
            }
        }
        for (index, item) in items.iter().enumerate() {
            let at = item.offset - plan.freed[index];
            match item.as_item() {
                Item::Aligned(_) => assert_eq!((at + plan.kept[index]) % 4, 0, "{index}"),
                Item::Site(site) if plan.shapes[index] == 0 => {
                    let place =
                        items.partition_point(|it| it.offset + u64::from(it.len) <= site.target);
                    let to = site.target - plan.freed[place];
                    assert!(to <= at + 101 && at <= to + 102, "{index}");
                }
                Item::Site(_) => {}
            }
        }
    }
}
