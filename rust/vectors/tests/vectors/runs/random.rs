// SPDX-License-Identifier: MIT OR Apache-2.0
//! Random runs compared with a model, which lays a run out byte for byte and tries every choice.

use super::aligned;
use linker_utils::runs::{Alignment, Item, ItemNumbers, Plan, Shape, Shapes, Site};
use linker_utils::runs::{are_items, relax};

/// Numbers that only look random (Knuth's linear congruential generator MMIX).
struct Random {
    state: u64,
}

impl Random {
    /// The next number, below a limit.
    fn below(&mut self, limit: u64) -> u64 {
        self.state = self.state.wrapping_mul(6364136223846793005).wrapping_add(1442695040888963407);
        (self.state >> 33) % limit
    }
}

/// A short shape that reaches up to 64 bytes, and at least as far as the one before it.
fn random_shape(random: &mut Random, kept: u32, least: u64) -> Shape {
    let reach = least.max(2 << random.below(6));
    Shape { kept, max_backward: reach, max_forward: reach, granularity: 2 }
}

fn random_site(random: &mut Random, offset: u64) -> ItemNumbers {
    let first = random_shape(random, 2, 0);
    let short = [first, random_shape(random, 4, first.max_forward)];
    let count = 1 + random.below(2) as u8;
    ItemNumbers::from_item(Item::Site(Site {
        offset,
        len: 8,
        target: 2 * random.below(65),
        shapes: Shapes { short, count, longest: 8 },
    }))
}

fn random_alignment(random: &mut Random, offset: u64) -> ItemNumbers {
    let power = 2 << random.below(5);
    let most = if random.below(4) == 0 { Some(2 * random.below(8)) } else { None };
    aligned(offset, power - 2, u64::from(power), most)
}

/// Up to eight items.
fn random_run(random: &mut Random, has_alignments: bool) -> Vec<ItemNumbers> {
    let mut items = Vec::new();
    let mut offset = 0;
    for _ in 0..1 + random.below(8) {
        offset += 2 * random.below(8);
        let item = if has_alignments && random.below(3) == 0 {
            random_alignment(random, offset)
        } else {
            random_site(random, offset)
        };
        items.push(item);
        offset += u64::from(item.len);
    }
    items
}

/// How many bytes of the deletions lie below an input offset, where so many of each item stay.
fn deleted_below(items: &[ItemNumbers], kept: &[u64], offset: u64) -> u64 {
    let deleted = |(item, &kept): (&ItemNumbers, &u64)| {
        (u64::from(item.len) - kept).min(offset.saturating_sub(item.offset + kept))
    };
    items.iter().zip(kept).map(deleted).sum()
}

fn output_offset(items: &[ItemNumbers], kept: &[u64], offset: u64) -> u64 {
    offset - deleted_below(items, kept, offset)
}

/// How many shapes an item has.
fn count_shapes(item: &ItemNumbers) -> u64 {
    match item.as_item() {
        Item::Site(site) => u64::from(site.shapes.count) + 1,
        Item::Aligned(_) => 1,
    }
}

/// How many bytes from an address on are needed up to the next multiple of the alignment, one by
/// one.
fn count_needed(alignment: &Alignment, address: u64) -> u64 {
    (0..alignment.alignment)
        .find(|needed| (address + needed).is_multiple_of(alignment.alignment))
        .unwrap()
}

/// How many bytes of each item stay with a choice, from left to right.
fn kept_with(items: &[ItemNumbers], choice: &[u8], keeps_all: bool) -> Vec<u64> {
    let mut kept = Vec::new();
    for (item, &shape) in items.iter().zip(choice) {
        let bytes = match item.as_item() {
            Item::Site(site) => match shape {
                0 if site.shapes.count > 0 => u64::from(site.shapes.short[0].kept),
                1 if site.shapes.count > 1 => u64::from(site.shapes.short[1].kept),
                _ => u64::from(site.shapes.longest),
            },
            Item::Aligned(alignment) if keeps_all => u64::from(alignment.nops),
            Item::Aligned(alignment) => {
                let address = output_offset(items, &kept, alignment.offset);
                let needed = count_needed(&alignment, address);
                match alignment.max_skip {
                    Some(most) if needed > most => 0,
                    _ => needed,
                }
            }
        };
        kept.push(bytes);
    }
    kept
}

/// Whether a site reaches its target by one of its short shapes, where so many bytes of each item
/// stay.
fn reaches(items: &[ItemNumbers], kept: &[u64], site: &Site, short: &Shape) -> bool {
    let from = output_offset(items, kept, site.offset);
    let to = output_offset(items, kept, site.target);
    let is_near =
        if to >= from { to - from < short.max_forward } else { from - to <= short.max_backward };
    is_near && to.abs_diff(from).is_multiple_of(u64::from(short.granularity))
}

/// Whether each site reaches its target, where so many bytes of each item stay.
fn is_in_reach(items: &[ItemNumbers], choice: &[u8], kept: &[u64]) -> bool {
    items.iter().zip(choice).all(|(item, &shape)| match item.as_item() {
        Item::Site(site) if shape < site.shapes.count => {
            reaches(items, kept, &site, &site.shapes.short[usize::from(shape)])
        }
        _ => true,
    })
}

/// The choice at an index of all choices.
fn choice_at(items: &[ItemNumbers], index: u64) -> Vec<u8> {
    let mut rest = index;
    let mut shape_of = |item| {
        let count = count_shapes(item);
        let shape = (rest % count) as u8;
        rest /= count;
        shape
    };
    items.iter().map(&mut shape_of).collect()
}

fn is_nowhere_longer(shapes: &[u8], choice: &[u8]) -> bool {
    shapes.iter().zip(choice).all(|(a, b)| a <= b)
}

/// Requires of a run that the plan is exact, in reach, and nowhere longer than a choice that is in
/// reach where alignments keep all.
fn expect_run(items: &[ItemNumbers], plan: &Plan) {
    let kept = kept_with(items, &plan.shapes, false);
    assert_eq!(kept, plan.kept);
    assert!(is_in_reach(items, &plan.shapes, &kept), "{items:?}");
    let count = items.iter().map(count_shapes).product();
    for index in 0..count {
        let choice = choice_at(items, index);
        let kept = kept_with(items, &choice, true);
        if is_in_reach(items, &choice, &kept) {
            assert!(is_nowhere_longer(&plan.shapes, &choice), "{items:?}, {choice:?}");
        }
    }
}

fn expect_runs(seed: u64, has_alignments: bool) {
    let mut random = Random { state: seed };
    let mut relaxed = 0;
    for _ in 0..15000 {
        let items = random_run(&mut random, has_alignments);
        if are_items(&items, 0) {
            expect_run(&items, &relax(&items, 0).unwrap());
            relaxed += 1;
        }
    }
    assert!(relaxed > 1000, "{relaxed}");
}

#[test]
fn random_runs_of_sites_have_the_greatest_choice() {
    expect_runs(1, false);
}

#[test]
fn random_runs_with_alignments_are_exact() {
    expect_runs(2, true);
}
