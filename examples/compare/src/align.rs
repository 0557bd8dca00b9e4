// SPDX-License-Identifier: MIT OR Apache-2.0
//! Which bytes linkers deleted of a section, by what is left. On RISC-V and LoongArch they delete
//! more than the library's rewrites do, and two symbols tell only how much is deleted between them.
//!
//! Each relocation that may be relaxed is tried with all numbers of deleted bytes. Those deletions
//! are taken that leave most of the bytes that no relocation changes, and most instructions as they
//! were or as a known rewrite makes them.

use crate::elf::{Linked, Relocation, Section};
use crate::made;
use crate::map::Anchors;
use crate::recognise::Deletable;
use linker_utils::elf::Architecture;
use std::ops::Range;

/// Of how many bytes before and behind an offset `fits` and `differences` look at.
const BEFORE: u64 = 256;
const BEHIND: u64 = 1024;

/// Whether the bytes of a section at an address are those around an offset, as far as no
/// relocation changes them, and but for one in four. If so, returned is how many are.
pub fn fits(linked: &Linked, it: &Section, offset: u64, address: u64) -> Option<usize> {
    let (others, all) = unlike(linked, it, offset, address);
    (4 * others <= all).then_some(all - others)
}

/// How many bytes of a section around an offset are others at an address, and of how many: of those
/// that no relocation changes, up to relocations before and behind that may delete some.
fn unlike(linked: &Linked, it: &Section, offset: u64, address: u64) -> (usize, usize) {
    if it.bytes.is_empty() {
        return (0, 0);
    }
    let (architecture, relocations) = (linked.architecture, &it.relocations[..]);
    let may_delete = |one: &Relocation| {
        made::may_delete(architecture, one.r_type) || made::is_mark(architecture, one.r_type)
    };
    // rewrites may change the instruction and the next one
    let past = |one: &Relocation| match made::alignment(architecture, one, 0) {
        Some((nops, _)) => one.offset + nops,
        None => one.offset + made::len(architecture, one.r_type).max(4) + 4,
    };
    let (first, last) = (offset.saturating_sub(BEFORE), offset.saturating_add(BEHIND));
    let last = last.min(it.bytes.len() as u64);
    // the bytes, and the relocations among them
    let (mut start, mut end) = (first, last);
    let here = relocations.partition_point(|one| one.offset < offset.min(last));
    let (mut from, mut to) = (here, here);
    while from > 0 && relocations[from - 1].offset >= start {
        from -= 1;
        if may_delete(&relocations[from]) {
            start = past(&relocations[from]).min(offset);
            from += relocations[from..here].partition_point(|one| one.offset < start);
        }
    }
    while to < relocations.len() && relocations[to].offset < end {
        if may_delete(&relocations[to]) {
            end = relocations[to].offset;
            to = here + relocations[here..to].partition_point(|one| one.offset < end);
            break;
        }
        to += 1;
    }
    let (mut all, mut others, mut at) = (0, 0, start);
    let mut compare = |from: u64, to: u64| {
        let Some(original) = it.bytes.get(from as usize..to as usize) else { return };
        let there = linked.bytes_at(address.wrapping_add(from).wrapping_sub(offset));
        let same = original.iter().zip(there.unwrap_or(&[])).filter(|(a, b)| a == b).count();
        all += original.len();
        others += original.len() - same;
    };
    for one in &relocations[from..to] {
        compare(at, one.offset.saturating_sub(4).max(at));
        at = at.max(past(one));
    }
    compare(at, end);
    (others, all)
}

/// How much is different of a section's next bytes from an offset on, if that is at an address, and
/// how many bytes they are.
pub fn differences(linked: &Linked, it: &Section, offset: u64, address: u64) -> (u32, u64) {
    if !may_delete(linked.architecture) {
        let (others, all) = unlike(linked, it, offset, address);
        return (others as u32, all as u64);
    }
    let end = (it.bytes.len() as u64).min(offset.saturating_add(BEHIND)).max(offset);
    let sites = sites(linked.architecture, it, between(it, offset, end));
    let delta = address.wrapping_sub(offset);
    let mut walk = Walk { linked, it, deletions: Vec::new() };
    let cost = walk.part(&mut Anchors::new(), &sites, (offset, end), delta, None);
    (cost, end - offset)
}

/// Whether linkers delete bytes of code.
pub fn may_delete(architecture: Architecture) -> bool {
    matches!(architecture, Architecture::RiscV | Architecture::LoongArch64)
}

/// The indices of the relocations from an offset on and up to another one.
fn between(it: &Section, from: u64, to: u64) -> Range<usize> {
    let start = it.relocations.partition_point(|one| one.offset < from);
    let end = it.relocations.partition_point(|one| one.offset < to);
    start..end.max(start)
}

/// The relocations at one offset.
struct Site {
    indices: Range<usize>,
    start: u64,
    end: u64,
    is_relaxable: bool,
    is_alignment: bool,
}

fn sites(architecture: Architecture, it: &Section, indices: Range<usize>) -> Vec<Site> {
    let mut first = indices.start;
    let all = it.relocations[indices].chunk_by(|one, next| one.offset == next.offset);
    all.map(|all| {
        let nops = |one: &Relocation| {
            made::alignment(architecture, one, 0).map(|(nops, _)| nops)
        };
        let is_alignment = all.iter().any(|one| nops(one).is_some());
        let is_relaxable = all.iter().any(|one| made::may_delete(architecture, one.r_type));
        let lens = all.iter().map(|one| {
            nops(one).unwrap_or_else(|| made::len(architecture, one.r_type))
        });
        let start = all[0].offset;
        let end = (start + lens.max().unwrap_or(0)).min(it.bytes.len() as u64).max(start);
        let indices = first..first + all.len();
        first = indices.end;
        Site { indices, start, end, is_relaxable, is_alignment }
    })
    .collect()
}

/// What may have been deleted up to an offset.
#[derive(Clone, Copy)]
struct State {
    /// What an address is above its offset.
    delta: u64,
    cost: u32,
    /// The last deletion, an index of `Walk::deletions`.
    last: Option<usize>,
}

/// States that cost more than the best one by this aren't followed, and at most so many are.
const MARGIN: u32 = 24;
const MOST: usize = 32;
/// What is unlikely: other bytes where no relocation is, and instructions that no rewrite makes.
const OTHER_BYTES: u32 = 4;
const UNKNOWN: u32 = 3;

struct Walk<'a> {
    linked: &'a Linked<'a>,
    it: &'a Section<'a>,
    /// An offset behind deleted bytes, its address, and the deletion before it.
    deletions: Vec<((u64, u64), Option<usize>)>,
}

/// The places of a section, by those of its symbols and by what is deleted between them.
pub fn map_of(linked: &Linked, it: &Section, anchors: &Anchors) -> Anchors {
    if it.bytes.is_empty() {
        return anchors.clone();
    }
    let all = sites(linked.architecture, it, 0..it.relocations.len());
    let may_shrink = |sites: &[Site]| sites.iter().any(Site::may_shrink);
    // what is inside of instructions or nops doesn't say what is deleted before and after
    let is_inside = |offset: u64| {
        let before = &all[..all.partition_point(|site| site.start < offset)];
        before.last().is_some_and(|site| site.may_shrink() && offset < site.end)
    };
    let anchors: Vec<_> = anchors.iter().filter(|(offset, _)| !is_inside(*offset)).collect();
    let between = |from: u64, to: u64| {
        let start = all.partition_point(|site| site.start < from);
        &all[start..all.partition_point(|site| site.start < to).max(start)]
    };
    let mut walk = Walk { linked, it, deletions: Vec::new() };
    let mut map = Anchors::new();
    let Some((first, address)) = anchors.first().copied() else { return map };
    let delta = address.wrapping_sub(*first);
    if *first > 0 {
        walk.part_before(&mut map, between(0, *first), (*first, delta));
    }
    let ends = anchors.iter().skip(1).map(Some).chain([None]);
    for ((from, address), end) in anchors.iter().zip(ends) {
        let delta = address.wrapping_sub(*from);
        let wanted = end.map(|(to, address)| address.wrapping_sub(*to));
        let to = end.map_or(it.bytes.len() as u64, |(to, _)| *to);
        let sites = between(*from, to);
        if wanted == Some(delta) || !may_shrink(sites) {
            map.push((*from, *address));
        } else {
            walk.part(&mut map, sites, (*from, to), delta, wanted);
        }
    }
    map
}

impl Site {
    fn may_shrink(&self) -> bool {
        self.is_relaxable || self.is_alignment
    }

    fn len(&self) -> u64 {
        self.end - self.start
    }
}

impl<'a> Walk<'a> {
    /// The deletions between two offsets, with what the address of the first is above it, and what
    /// that of the last has to be. Returned is how unlikely they are.
    fn part(
        &mut self,
        map: &mut Anchors,
        sites: &[Site],
        (from, to): (u64, u64),
        delta: u64,
        wanted: Option<u64>,
    ) -> u32 {
        let mut states = vec![State { delta, cost: 0, last: None }];
        let mut at = from;
        for site in sites {
            self.compare(&mut states, at, site.start);
            let values = self.values(site);
            let mut after = Vec::new();
            states.iter().for_each(|state| self.deletions_of(*state, site, &values, &mut after));
            states = self.best(after);
            at = at.max(site.end);
        }
        self.compare(&mut states, at, to);
        states.sort_by_key(|state| (wanted.is_some_and(|delta| delta != state.delta), state.cost));
        map.push((from, from.wrapping_add(delta)));
        let start = map.len();
        map.extend(self.take_deletions(&states));
        map[start..].reverse();
        states.first().map_or(0, |state| state.cost)
    }

    /// The deletions from a section's start to an offset, by what that one's address is above it.
    fn part_before(&mut self, map: &mut Anchors, sites: &[Site], (to, delta): (u64, u64)) {
        let mut states = vec![State { delta, cost: 0, last: None }];
        let mut at = to;
        for site in sites.iter().rev() {
            self.compare(&mut states, site.end, at);
            let most = if site.is_alignment { site.len() } else { site.len().min(8) };
            let values = self.values(site);
            let (mut all, mut after) = (Vec::new(), Vec::new());
            for state in &states {
                for deleted in (0..=most).step_by(2) {
                    let before = State { delta: state.delta.wrapping_add(deleted), ..*state };
                    self.deletions_of(before, site, &values, &mut after);
                    let after = after.drain(..).filter(|(after, _)| after.delta == state.delta);
                    all.extend(after.map(|(after, place)| {
                        (State { delta: before.delta, ..after }, place)
                    }));
                }
            }
            states = self.best(all);
            at = at.min(site.start);
        }
        self.compare(&mut states, 0, at);
        states.sort_by_key(|state| state.cost);
        let start = states.first().map_or(delta, |state| state.delta);
        map.push((0, start));
        map.extend(self.take_deletions(&states));
    }

    /// Those of the first state, the last one first.
    fn take_deletions(&mut self, states: &[State]) -> Anchors {
        let deletions = std::mem::take(&mut self.deletions);
        let mut last = states.first().and_then(|state| state.last);
        let next = || {
            let (place, before) = deletions[last?];
            last = before;
            Some(place)
        };
        std::iter::from_fn(next).collect()
    }

    /// Counts the bytes between two offsets that aren't as they were.
    fn compare(&self, states: &mut [State], from: u64, to: u64) {
        let unit = 2;
        let Some(original) = self.it.bytes.get(from as usize..to as usize) else { return };
        if original.is_empty() {
            return;
        }
        for state in states {
            let there = self.linked.bytes_at(from.wrapping_add(state.delta)).unwrap_or(&[]);
            let there = there.chunks(unit).chain(std::iter::repeat(&[][..]));
            let others = original.chunks(unit).zip(there).filter(|(a, b)| !b.starts_with(a));
            state.cost += OTHER_BYTES * others.take(MOST).count() as u32;
        }
    }

    /// The states to follow, with the deletions that lead to them: of those at one address the
    /// likeliest.
    fn best(&mut self, all: Vec<(State, Option<(u64, u64)>)>) -> Vec<State> {
        let mut best = Vec::<(State, Option<(u64, u64)>)>::new();
        for (state, place) in all {
            match best.iter_mut().find(|(one, _)| one.delta == state.delta) {
                Some(one) if one.0.cost > state.cost => *one = (state, place),
                Some(_) => {}
                None => best.push((state, place)),
            }
        }
        best.sort_by_key(|(state, _)| state.cost);
        let most = best.first().map_or(0, |(state, _)| state.cost) + MARGIN;
        best.retain(|(state, _)| state.cost <= most);
        best.truncate(MOST);
        let with_deletion = |(mut state, place): (State, Option<(u64, u64)>)| {
            if let Some(place) = place {
                self.deletions.push((place, state.last));
                state.last = Some(self.deletions.len() - 1);
            }
            state
        };
        best.into_iter().map(with_deletion).collect()
    }

    /// The relocations at an offset that have a value.
    fn values(&self, site: &Site) -> Vec<Deletable<'a>> {
        let architecture = self.linked.architecture;
        let is_value = |index: &usize| {
            !site.is_alignment && !made::is_mark(architecture, self.it.relocations[*index].r_type)
        };
        let values = site.indices.clone().filter(is_value);
        values.map(|index| Deletable::new(self.linked, self.it, index)).collect()
    }

    /// Adds the states behind the relocations at an offset, and the offset behind deleted bytes with
    /// its address.
    fn deletions_of(
        &self,
        state: State,
        site: &Site,
        values: &[Deletable],
        all: &mut Vec<(State, Option<(u64, u64)>)>,
    ) {
        let architecture = self.linked.architecture;
        let place = site.start.wrapping_add(state.delta);
        let after = |deleted: u64, cost: u32| State {
            delta: state.delta.wrapping_sub(deleted),
            cost: state.cost + cost,
            ..state
        };
        if site.is_alignment {
            let mut here = self.it.relocations[site.indices.clone()].iter();
            let nops = here.find_map(|one| made::alignment(architecture, one, place));
            match nops {
                Some((nops, kept)) if kept < nops => {
                    let place = (site.start + nops, place.wrapping_add(kept));
                    all.extend([(after(nops - kept, 0), Some(place)), (after(0, UNKNOWN), None)]);
                }
                _ => all.push((after(0, 0), None)),
            }
            return;
        }
        let counts: &[u64] = if site.is_relaxable { &[0, 2, 4, 6, 8] } else { &[0] };
        let counts = counts.iter().copied().take_while(|count| *count <= site.len());
        all.extend(counts.map(|count| {
            let (mut first, mut unknown) = (None, 0);
            for value in values {
                let start = value.start(place, count);
                unknown += u32::from(start.is_none());
                first = first.or(start);
            }
            let start = first.unwrap_or(site.len() - count);
            let past = (site.start + start + count, place.wrapping_add(start));
            (after(count, UNKNOWN * unknown), (count > 0).then_some(past))
        }));
    }
}
