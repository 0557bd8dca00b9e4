// SPDX-License-Identifier: MIT OR Apache-2.0
// Made by tools/generate of crates/vectors/src/refused_growth.rt.
//! Calls that run out of memory. `tools/test_refused_growth` lets each allocation of each test fail
//! in turn, one a run. So a call that has failed once succeeds when it is tried again, and each
//! test passes whichever allocation fails.

use crate::support::*;
use crate::calls::{PACKED, SHRUNK};
use crate::deltas::expect_listed;
use crate::readers::TEXTS;
use crate::rows::{copy_of, deltas_of, expect, expect_eq};
use linker_utils::relaxation::{
    OutOfMemory, PackError, RelaxDeltaMap, SectionRelaxDeltas, calls_apart, calls_shrinkable,
    pack_section, shrink_calls,
};
use linker_utils::utils::read_string;

/// Deletions, and where some kept bytes go, at which no deletion begins.
#[derive(Clone, Copy)]
struct Listing<'a> {
    deletions: &'a [(u64, u32)],
    // input offset and output offset
    kept: &'a [(u64, u64)],
}

const ONE: Listing = Listing {
    deletions: &[(4, 4)],
    kept: &[(3, 3), (8, 4), (12, 8), (20, 16), (8800, 8796)],
};

const THREE: Listing = Listing {
    deletions: &[(4, 4), (8, 4), (16, 4)],
    kept: &[(3, 3), (12, 4), (15, 7), (20, 8), (8800, 8788)],
};

/// Requires that the deltas list the deletions, and that the kept bytes are translated both ways.
fn expect_listing(deltas: &SectionRelaxDeltas, listing: Listing) {
    expect_listed(deltas, listing.deletions);
    for &(input, output) in listing.kept {
        expect(output, deltas.output_fits(output));
        let found = (
            deltas.input_to_output_offset(input),
            deltas.output_to_input_offset(output),
            deltas.has_delta_at(input),
            deltas.delta_bytes_at(input),
        );
        expect_eq(
            (listing.deletions, input),
            found,
            (output, input, false, 0),
        );
    }
}

/// Deltas, two pairs merged into them, and the deltas then.
static MERGED: [(Listing<'static>, [(u64, u32); 2], Listing<'static>); 3] = [
    (ONE, [(8, 4), (16, 4)], THREE),
    (ONE, [(16, 4), (8, 4)], THREE),
    (
        Listing {
            deletions: &[(8, 4)],
            kept: &[(3, 3), (12, 8), (20, 16)],
        },
        [(16, 4), (0, 2)],
        Listing {
            deletions: &[(0, 2), (8, 4), (16, 4)],
            kept: &[(2, 0), (4, 2), (20, 10)],
        },
    ),
];

/// Merges pairs into deltas. A merge that has failed leaves them.
fn merge(deltas: &mut SectionRelaxDeltas, before: Listing, more: &[(u64, u32)]) {
    expect(more, deltas.is_mergeable(more));
    if deltas.merge_additional(more).is_err() {
        expect_listing(deltas, before);
        expect(more, deltas.is_mergeable(more));
        expect(more, deltas.merge_additional(more).is_ok());
    }
}

/// Deletions of many blocks: of each eight bytes the last four. And where the bytes before them go.
fn many() -> ([(u64, u32); 1100], [(u64, u64); 1100]) {
    let (mut deletions, mut kept) = ([(0, 4); 1100], [(0, 0); 1100]);
    for at in 0..1100 {
        deletions[at] = (8 * at as u64 + 4, 4);
        kept[at] = (8 * at as u64 + 3, 4 * at as u64 + 3);
    }
    (deletions, kept)
}

#[test]
fn a_failed_merge_leaves_the_deltas() {
    for (before, more, after) in &MERGED {
        let mut merged = deltas_of(before.deletions);
        merge(&mut merged, *before, more);
        expect_listing(&copy_of(&merged), *after);
    }
}

#[test]
fn many_blocks_are_merged_and_copied() {
    let (deletions, kept) = many();
    let many = Listing {
        deletions: &deletions,
        kept: &kept,
    };
    let mut merged = deltas_of(ONE.deletions);
    merge(&mut merged, ONE, &deletions[1..]);
    expect_listing(&merged, many);
    let listed = deltas_of(&deletions);
    expect_listing(&copy_of(&listed), many);
    expect_listing(&listed, many);
}

/// A batch of no pairs, and one of each of two.
fn batches(pairs: &[(u64, u32); 2]) -> Result<Vec<Vec<(u64, u32)>>, OutOfMemory> {
    let (first, second) = ([pairs[0]].fallible_to_vec()?, [pairs[1]].fallible_to_vec()?);
    Ok(try_vec![Vec::new(), first, second]?)
}

/// The same, tried again.
pub fn batches_of(pairs: &[(u64, u32); 2]) -> Vec<Vec<(u64, u32)>> {
    match batches(pairs) {
        Ok(batches) => batches,
        Err(_) => batches(pairs).expect("no memory"),
    }
}

/// Merges batches into deltas. A merge that has failed leaves them.
fn merge_batches(
    deltas: &mut SectionRelaxDeltas,
    before: Listing,
    batches: &[Vec<(u64, u32)>],
) {
    expect(batches, deltas.are_mergeable(batches));
    if deltas.merge_all(batches).is_err() {
        expect_listing(deltas, before);
        expect(batches, deltas.are_mergeable(batches));
        expect(batches, deltas.merge_all(batches).is_ok());
    }
}

#[test]
fn failed_batches_leave_the_deltas() {
    for (before, more, after) in &MERGED {
        let batches = batches_of(more);
        let mut merged = deltas_of(before.deletions);
        merge_batches(&mut merged, *before, &batches);
        expect_listing(&copy_of(&merged), *after);
    }
}

#[test]
fn a_failed_copy_leaves_the_deltas() {
    let few = deltas_of(THREE.deletions);
    let copy = copy_of(&few);
    expect_listing(&few, THREE);
    expect_listing(&copy, THREE);
}

/// A section's index, and its deletions.
type Section = (usize, &'static [(u64, u32)]);

/// Requires that the map has the sections, and no others up to 12.
fn expect_sections(map: &RelaxDeltaMap, sections: &[Section]) {
    let mut last = None;
    for &(index, deletions) in sections {
        match map.get(index) {
            Some(deltas) => expect_listed(deltas, deletions),
            None => expect(index, false),
        }
        if last < Some(index) {
            last = Some(index);
        }
    }
    let mut count = 0usize;
    for index in 0..12 {
        count = count.wrapping_add(usize::from(map.get(index).is_some()));
    }
    let found = (count, map.is_empty(), map.last_index());
    expect_eq(last, found, (sections.len(), sections.is_empty(), last));
}

/// The same of a copy too.
fn expect_copied(map: &RelaxDeltaMap, sections: &[Section]) {
    let copied = map.try_clone();
    expect_sections(map, sections);
    match copied {
        Ok(copy) => expect_sections(&copy, sections),
        Err(_) => expect_sections(&map.try_clone().expect("no memory"), sections),
    }
}

/// Inserts a section, which a failed insertion hands back.
fn put(
    map: &mut RelaxDeltaMap,
    index: usize,
    deltas: SectionRelaxDeltas,
    is_sorted: bool,
) -> Option<SectionRelaxDeltas> {
    if is_sorted {
        expect(index, map.get(index).is_none());
        return map.insert_sorted(index, deltas).err();
    }
    match map.last_index() {
        Some(last) => {
            expect(index, last < index);
            map.insert(index, deltas).err()
        }
        None => map.insert(index, deltas).err(),
    }
}

/// Inserts a section into a map of those before it.
fn add_section(
    map: &mut RelaxDeltaMap,
    before: &[Section],
    section: Section,
    is_sorted: bool,
) {
    let (index, deletions) = section;
    let deltas = deltas_of(deletions);
    if let Some(back) = put(map, index, deltas, is_sorted) {
        expect_sections(map, before);
        expect_listed(&back, deletions);
        let again = put(map, index, back, is_sorted);
        expect(index, again.is_none());
    }
}

static SECTIONS: [Section; 6] = [
    (9, &[(36, 4)]),
    (7, &[(28, 4)]),
    (5, &[(20, 4)]),
    (3, &[(12, 4)]),
    (1, &[(4, 4)]),
    (11, &[(44, 4)]),
];

#[test]
fn a_failed_insertion_hands_the_section_back() {
    let mut map = RelaxDeltaMap::new();
    for at in 0..6 {
        add_section(
            &mut map,
            &SECTIONS[..at],
            SECTIONS[at],
            at < 5,
        );
    }
    expect_copied(&map, &SECTIONS);
}

#[test]
fn a_section_of_a_map_is_merged_into() {
    let mut map = RelaxDeltaMap::new();
    expect_copied(&map, &[]);
    let (third, first): (Section, Section) = ((3, &[(8, 2)]), (1, &[(4, 4)]));
    add_section(&mut map, &[], third, false);
    add_section(&mut map, &[third], first, true);
    expect_copied(&map, &[third, first]);
    if let Some(lent) = map.get_mut(1) {
        merge(lent, ONE, &[(0, 2)]);
    }
    expect_copied(&map, &[third, (1, &[(0, 2), (4, 4)])]);
}

#[test]
fn sections_are_packed() {
    for (section, raw, calls, packed) in &PACKED {
        let deltas = deltas_of(raw);
        expect(*calls, calls_apart(calls));
        let mut found = pack_section(section, &deltas, calls);
        // out of memory comes before the first call that can't become a jump
        if let Err(PackError::OutOfMemory) = found {
            found = pack_section(section, &deltas, calls);
        }
        match &found {
            Ok(found) => expect_eq(*calls, Ok(found.as_slice()), *packed),
            Err(error) => expect_eq(*calls, Err(*error), *packed),
        }
    }
}

#[test]
fn choices_are_the_greatest_in_reach() {
    for (raw, calls, chosen) in &SHRUNK {
        let deltas = deltas_of(raw);
        expect(*calls, calls_shrinkable(&deltas, calls));
        let found = match shrink_calls(&deltas, calls) {
            Ok(found) => found,
            Err(_) => shrink_calls(&deltas, calls).expect("no memory"),
        };
        expect_eq(*calls, found.as_slice(), *chosen);
    }
}

#[test]
fn texts_end_at_a_nul() {
    for (bytes, text, rest) in &TEXTS {
        let mut content = *bytes;
        let mut found = read_string(&mut content);
        if let Err(error) = found {
            let text = InlineText::<120>::of(error);
            expect_eq(
                *bytes,
                (text.as_str(), content),
                ("Out of memory", *bytes),
            );
            found = read_string(&mut content);
        }
        let found = found.expect("no memory");
        expect_eq(*bytes, (found.as_str(), content), (*text, *rest));
    }
    let endless: &[u8] = b"ab";
    let mut content = endless;
    let error = read_string(&mut content).expect_err("no NUL");
    let text = InlineText::<120>::of(error);
    let expected = ("No null terminator found in string", endless);
    expect_eq(endless, (text.as_str(), content), expected);
}
