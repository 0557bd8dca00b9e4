// SPDX-License-Identifier: MIT OR Apache-2.0
//! How the time of a whole call grows with its input, where an algorithm could be quadratic: a call
//! over so many entries beside one over a fourth of them. What is linear takes 4 times as long.

use crate::inputs::{Random, deletions};
use crate::measure::{Beside, Report, Side};
use sathunne::{Call, Deletion, Status};

pub fn growth(report: &mut Report) {
    report.heading(
        "Growth, a whole call",
        Beside::Task("a fourth of the input"),
    );
    rejected_merges(report);
    cascades(report);
    let name = "`linker_utils_relocate_section`, ascending";
    line(report, name, crate::sections::many, 10_000_000);
}

fn line<'a>(report: &mut Report, name: &str, of: impl Fn(usize) -> Side<'a>, count: usize) {
    let sides = [Some(of(count)), Some(of(count / 4)), None, None];
    report.line(&format!("{name}, {count}"), 1, false, sides);
}

/// Merges of which only the last deletion overlaps another.
fn rejected_merges(report: &mut Report) {
    type Order = fn(&mut Random, &mut Vec<(u64, u32)>);
    let orders: [(&str, Order); 4] = [
        ("ascending", |_, _| ()),
        ("descending", |_, list| list.reverse()),
        ("four ascending lists", |_, list| {
            let fourth = |first| list.iter().copied().skip(first).step_by(4);
            *list = (0..4).flat_map(fourth).collect();
        }),
        ("in any order", |random, list| random.shuffle(list)),
    ];
    for (name, order) in orders {
        let of = |count: usize| {
            let random = &mut Random::new(15);
            let (mut list, _) = deletions(random, count - 1);
            order(random, &mut list);
            list.push(list[list.len() - 1]);
            let more: Vec<Deletion> = list
                .into_iter()
                .map(|(offset, bytes)| Deletion { offset, bytes })
                .collect();
            let merged = vec![sathunne::Delta::default(); more.len()];
            Side::over(
                merged,
                |_| (),
                move |merged| {
                    let result = sathunne::deltas_merge(&[], &more, merged);
                    let error = result.expect_err("the last one overlaps");
                    let last = Some(more.len() - 1);
                    assert_eq!((error.status, error.index), (Status::NotMergeable, last));
                },
                |_| 0,
            )
        };
        line(
            report,
            &format!("rejected `linker_utils_deltas_merge`, {name}"),
            of,
            40_000,
        );
    }
}

/// Calls of which none can become a jump, but each only since others can't.
fn cascades(report: &mut Report) {
    const REACH: u64 = 1 << 20;
    let site = |k: usize| 2 * REACH + 8 * k as u64;
    // its target is in reach if its own bytes and those of one call after it are deleted
    let ahead = |k| Call {
        site: site(k),
        target: site(k) + REACH + 6,
    };
    // its target is in reach if the bytes of one call between are deleted
    let behind = |k| Call {
        site: site(k),
        target: site(k) - REACH - 4,
    };
    let of_next = |count| (0..count).map(ahead).collect();
    let of_last = |count| (0..count).map(behind).collect();
    // chains that turn around take a sweep for each turn, and aren't measured
    let chains: [(&str, &dyn Fn(usize) -> Vec<Call>); 2] = [
        ("each out of reach without the next", &of_next),
        ("each out of reach without the one before", &of_last),
    ];
    for (name, calls) in chains {
        let of = |count: usize| {
            let calls = calls(count);
            Side::over(
                vec![0; count],
                |_| (),
                move |chosen| {
                    assert_eq!(sathunne::shrink_calls(&[], &calls, chosen), Ok(()));
                    assert!(chosen.iter().all(|chosen| *chosen == 0));
                },
                |_| 0,
            )
        };
        line(
            report,
            &format!("`linker_utils_shrink_calls`, {name}"),
            of,
            32_000,
        );
    }
}
