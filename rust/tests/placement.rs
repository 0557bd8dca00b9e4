// SPDX-License-Identifier: MIT OR Apache-2.0
//! Placement of stubs: random code, of which each layout is laid out once more by other means.

use linker_utils::placement::{
    Branch, Code, Layout, Part, PlaceError, Placement, StubShape, place_stubs,
};

/// A generator of random numbers, xorshift64*.
struct Random(u64);

impl Random {
    fn below(&mut self, end: u64) -> u64 {
        self.0 ^= self.0 >> 12;
        self.0 ^= self.0 << 25;
        self.0 ^= self.0 >> 27;
        (self.0.wrapping_mul(0x2545_f491_4f6c_dd1d) >> 16) % end
    }
}

/// What stands one after the other in an output: each of the bytes of stubs at a boundary, and of
/// the code there.
struct Laid {
    /// Where each boundary's stubs begin, and where the code after them does.
    ends: Vec<(u64, u64)>,
}

impl Laid {
    /// Lays out boundaries one after the other, by how many stubs name each.
    fn new(code: &Code<'_>, layout: &Layout) -> Laid {
        let mut stubs_at = vec![0u64; code.boundaries.len()];
        for stub in &layout.stubs {
            stubs_at[stub.boundary] += 1;
        }
        let mut ends = Vec::new();
        let mut added = 0u64;
        for (boundary, stubs) in code.boundaries.iter().zip(stubs_at) {
            let begin = boundary + added;
            added += (stubs * code.shape.len).next_multiple_of(code.shape.unit);
            ends.push((begin, boundary + added));
        }
        Laid { ends }
    }

    /// Where what was at an offset is: it moves as the code does that begins at the last boundary at or
    /// below it.
    fn moved(&self, code: &Code<'_>, offset: u64) -> u64 {
        let mut moved = offset;
        for (boundary, (_, end)) in code.boundaries.iter().zip(&self.ends) {
            if *boundary <= offset {
                moved = offset - boundary + end;
            }
        }
        moved
    }
}

fn reaches(backward: u64, forward: u64, from: u64, to: u64) -> bool {
    let distance = i128::from(to) - i128::from(from);
    -i128::from(backward) <= distance && distance < i128::from(forward)
}

fn branch_reaches(branch: &Branch, from: u64, to: u64) -> bool {
    reaches(branch.max_backward, branch.max_forward, from, to)
}

/// Each stub is at its boundary, and no two share a byte.
fn check_stubs(code: &Code<'_>, layout: &Layout, laid: &Laid) {
    let mut all: Vec<(u64, u64)> = Vec::new();
    for (stub, &place) in layout.stubs.iter().zip(&layout.places) {
        let (begin, end) = laid.ends[stub.boundary];
        assert!(begin <= place && place + code.shape.len <= end, "{stub:?}");
        all.push((place, place + code.shape.len));
    }
    assert_eq!(layout.places.len(), layout.stubs.len());
    all.sort();
    assert!(all.windows(2).all(|pair| pair[0].1 <= pair[1].0));
}

/// Each branch reaches its target, or the stub of it that it goes by, and each stub its target.
fn check_placement(code: &Code<'_>, placement: &Placement) {
    let layout = &placement.layout;
    let laid = Laid::new(code, layout);
    check_stubs(code, layout, &laid);
    assert_eq!(placement.stubs.len(), code.branches.len());
    for (branch, stub) in code.branches.iter().zip(&placement.stubs) {
        let from = laid.moved(code, branch.offset);
        let to = match stub {
            None => laid.moved(code, code.targets[branch.target]),
            Some(stub) => {
                assert_eq!(layout.stubs[*stub].target, branch.target);
                layout.places[*stub]
            }
        };
        assert!(branch_reaches(branch, from, to), "{branch:?} {stub:?}");
    }
    for (stub, &place) in layout.stubs.iter().zip(&layout.places) {
        let to = laid.moved(code, code.targets[stub.target]);
        assert!(reaches(code.shape.max_backward, code.shape.max_forward, place, to));
    }
    check_sharing(code, placement);
}

/// Each stub has a branch that goes by it, and is the only one of its target in its part of the
/// boundary. A branch that reaches its target whatever stubs there are goes there.
fn check_sharing(code: &Code<'_>, placement: &Placement) {
    let stubs = &placement.layout.stubs;
    for (index, stub) in stubs.iter().enumerate() {
        assert!(placement.stubs.contains(&Some(index)), "{stub:?}");
    }
    let mut all: Vec<_> =
        stubs.iter().map(|stub| (stub.boundary, stub.part as u8, stub.target)).collect();
    all.sort();
    assert!(all.windows(2).all(|pair| pair[0] < pair[1]));
    let stub_bytes = code.shape.len * (2 * code.branches.len() as u64 + 1);
    let most = code.shape.unit * code.boundaries.len() as u64 + stub_bytes;
    for (branch, stub) in code.branches.iter().zip(&placement.stubs) {
        let target = code.targets[branch.target];
        if target + most < branch.offset + branch.max_forward
            && branch.offset + most <= target + branch.max_backward
        {
            assert_eq!(*stub, None, "{branch:?}");
        }
    }
}

/// Whether a branch reaches its target, a stub of it, or a boundary: with one more stub there, at any
/// place among those for branches next to it, it would be in reach of that stub.
fn has_way(code: &Code<'_>, layout: &Layout, branch: &Branch) -> bool {
    let laid = Laid::new(code, layout);
    check_stubs(code, layout, &laid);
    let from = laid.moved(code, branch.offset);
    if branch_reaches(branch, from, laid.moved(code, code.targets[branch.target])) {
        return true;
    }
    for (stub, &place) in layout.stubs.iter().zip(&layout.places) {
        if stub.target == branch.target && branch_reaches(branch, from, place) {
            return true;
        }
    }
    for (index, &(begin, end)) in laid.ends.iter().enumerate() {
        let of = |part| {
            layout.stubs.iter().filter(|stub| stub.boundary == index && stub.part == part).count()
                as u64
        };
        if code.boundaries[index] <= branch.offset {
            // one more stub before the last ones: the branch moves, and they stay after it
            let back = (of(Part::Back) + 1) * code.shape.len;
            if branch_reaches(branch, from - end + back, 0) {
                return true;
            }
        } else if branch_reaches(branch, from, begin + of(Part::Front) * code.shape.len) {
            return true;
        }
    }
    false
}

/// What became of random code.
#[derive(Default)]
struct Counts {
    placed: u64,
    with_stubs: u64,
    none: u64,
    in_reach: u64,
    too_far: u64,
}

/// Random code: sections with branches to a few targets, of which some are farther than a branch reaches.
fn try_code(random: &mut Random, counts: &mut Counts) {
    let reach = 1 << (9 + random.below(9));
    let apart = 1 + random.below(reach);
    let sections = 1 + random.below(60);
    let mut boundaries = vec![random.below(reach) & !3];
    for _ in 1..sections {
        let last = boundaries[boundaries.len() - 1];
        boundaries.push(last + (random.below(apart) & !3));
    }
    let end = boundaries[boundaries.len() - 1] + 4 + random.below(apart);
    let targets: Vec<u64> = (0..1 + random.below(12)).map(|_| random.below(end) & !3).collect();
    let mut branches: Vec<Branch> = (0..random.below(300))
        .map(|_| {
            let tight = random.below(20) == 0;
            let reach = if tight { reach - random.below(reach / 2) } else { reach };
            Branch {
                offset: random.below(end) & !3,
                target: random.below(targets.len() as u64) as usize,
                max_backward: reach,
                max_forward: if random.below(100) == 0 { 4 } else { reach },
            }
        })
        .collect();
    branches.sort_by_key(|branch| branch.offset);
    let far = if random.below(20) == 0 { 2 * reach } else { u64::MAX };
    let code = Code {
        branches: &branches,
        targets: &targets,
        boundaries: &boundaries,
        shape: StubShape {
            len: 4 * (1 + random.below(9)),
            unit: 4 << random.below(4),
            max_backward: far,
            max_forward: far,
        },
    };
    match place_stubs(&code) {
        Ok(placement) => {
            check_placement(&code, &placement);
            counts.placed += 1;
            counts.with_stubs += u64::from(!placement.layout.stubs.is_empty());
        }
        Err(PlaceError::NoBoundary(index, layout)) => {
            counts.none += 1;
            counts.in_reach += u64::from(has_way(&code, &layout, &branches[index]));
        }
        Err(PlaceError::StubTooFar(index, layout)) => {
            let laid = Laid::new(&code, &layout);
            check_stubs(&code, &layout, &laid);
            let to = laid.moved(&code, targets[layout.stubs[index].target]);
            assert!(!reaches(far, far, layout.places[index], to));
            counts.too_far += 1;
        }
        Err(error) => panic!("{error:?}"),
    }
}

/// `PLACEMENTS` in the environment is how many are tried; `.ci/nightly` has 100,000.
#[test]
fn no_branch_fails_that_a_boundary_is_in_reach_of() {
    let cases = std::env::var("PLACEMENTS").map_or(4000, |number| number.parse().unwrap());
    let mut random = Random(0x9e37_79b9_7f4a_7c15);
    let mut counts = Counts::default();
    for _ in 0..cases {
        try_code(&mut random, &mut counts);
    }
    println!(
        "{} placed, {} of them with stubs; {} where no boundary is in reach; {} with a stub too far",
        counts.placed, counts.with_stubs, counts.none, counts.too_far
    );
    assert_eq!(counts.in_reach, 0);
    assert!(counts.with_stubs > cases / 4 && counts.none > 0 && counts.too_far > 0);
}

#[test]
fn the_first_fault_is_returned() {
    let branch = |offset, target| Branch {
        offset,
        target,
        max_backward: 8,
        max_forward: 8,
    };
    let shape = StubShape {
        len: 8,
        unit: 8,
        max_backward: 1 << 32,
        max_forward: 1 << 32,
    };
    let far = 1 << 62;
    let whole = Code {
        branches: &[branch(0, 0), branch(4, 1), branch(far, 2)],
        targets: &[0x1000],
        boundaries: &[16, 8, 4],
        shape: StubShape { unit: 0, ..shape },
    };
    assert!(matches!(place_stubs(&whole), Err(PlaceError::NoLength)));
    let code = Code { shape, ..whole };
    assert!(matches!(place_stubs(&code), Err(PlaceError::NotAscending(0))));
    let code = Code { boundaries: &[16], ..code };
    assert!(matches!(place_stubs(&code), Err(PlaceError::NoTarget(1))));
    let code = Code { targets: &[0x1000; 3], ..code };
    assert!(matches!(place_stubs(&code), Err(PlaceError::TooLong)));
    let code = Code { branches: &[branch(0, 0), branch(4, 1)], ..code };
    assert!(matches!(place_stubs(&code), Err(PlaceError::NoBoundary(0, _))));
    let near = StubShape { max_forward: 8, ..shape };
    let code = Code { boundaries: &[4], shape: near, branches: &[branch(0, 0)], ..code };
    assert!(matches!(place_stubs(&code), Err(PlaceError::StubTooFar(0, _))));
}
