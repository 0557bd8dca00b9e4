// SPDX-License-Identifier: MIT OR Apache-2.0
//! Calls for which `malloc` fails, and calls that don't need it. They run in processes of their own,
//! under a limit of 1 GB.

use sathunne::*;
use std::alloc::{alloc_zeroed, Layout};
use std::env;
use std::process::Command;

const WITHIN_LIMIT: &str = "SATHUNNE_WITHIN_LIMIT";

#[test]
fn merges_without_memory_change_nothing() {
    within_limit("merges_without_memory_change_nothing", merge_too_many);
}

#[test]
fn runs_take_no_memory() {
    within_limit("runs_take_no_memory", relax_many);
}

/// Makes the calls of a test in a process with the limit, which is the same test.
fn within_limit(test: &str, calls: fn()) {
    if env::var_os(WITHIN_LIMIT).is_some() {
        calls();
        return;
    }
    let status = Command::new("sh")
        .args(["-c", "ulimit -v 1000000 && exec \"$0\" --exact \"$1\""])
        .arg(env::current_exe().expect("this test has a path"))
        .arg(test)
        .env(WITHIN_LIMIT, "1")
        .status()
        .expect("`sh` runs");
    assert!(status.success());
}

/// Deletions of 320 MB, of which a merge has to make a copy, and places of 480 MB.
fn merge_too_many() {
    const COUNT: usize = 20_000_000;
    let deletions: &mut [Deletion] = zeros(COUNT);
    let merged: &mut [Delta] = zeros(COUNT);
    for (deletion, offset) in deletions.iter_mut().zip(1..) {
        deletion.offset = offset;
    }
    // the last lies before all others, and then begins where the first does
    for (offset, mergeable, status, index) in [
        (0, Ok(()), Status::OutOfMemory, None),
        (
            1,
            Err(Status::NotMergeable),
            Status::NotMergeable,
            Some(COUNT - 1),
        ),
    ] {
        deletions[COUNT - 1].offset = offset;
        assert_eq!(deletions_mergeable(&[], deletions), mergeable);
        assert_eq!(
            deltas_merge(&[], deletions, merged),
            Err(ArrayError { status, index })
        );
        assert_eq!(
            (merged[0], merged[COUNT - 1]),
            (Delta::default(), Delta::default())
        );
    }
}

/// Items of 440 MB, of which there is no room for a copy, with the arrays that the calls write and a
/// section: each item is 4 bytes that stay.
fn relax_many() {
    const COUNT: usize = 5_000_000;
    let items: &mut [Item] = zeros(COUNT);
    for (item, offset) in items.iter_mut().zip((0..).step_by(4)) {
        *item = Item::site(offset, 4, 0, Shapes { longest: 4, ..Shapes::default() });
    }
    assert_eq!(items_relaxable(items, 0), Ok(()));
    let (shapes, kept) = (zeros::<u8>(COUNT), zeros::<u64>(COUNT));
    let (places, freed) = (zeros::<usize>(COUNT), zeros::<u64>(COUNT + 1));
    (freed[0], freed[COUNT]) = (7, 7);
    let relaxed = Relaxed {
        shapes,
        kept: &mut *kept,
        places,
        freed: &mut *freed,
    };
    assert_eq!(relax(items, 0, relaxed), Ok(()));
    assert_eq!((kept[0], kept[COUNT - 1]), (4, 4));
    assert_eq!((freed[0], freed[COUNT]), (0, 0));
    let (section, packed) = (zeros::<u8>(4 * COUNT), zeros::<u8>(4 * COUNT));
    (section[0], section[4 * COUNT - 1]) = (1, 2);
    assert_eq!(pack_run(Architecture::RiscV, section, 0, items, &[], 0, &mut [], packed), Ok(()));
    assert_eq!((packed[0], packed[4 * COUNT - 1]), (1, 2));
}

/// Places that are never freed, of a type that has only numbers.
fn zeros<T>(count: usize) -> &'static mut [T] {
    let layout = Layout::array::<T>(count).expect("a layout");
    // SAFETY: the layout has a size, and zeros are a value of the type.
    unsafe {
        let at = alloc_zeroed(layout).cast::<T>();
        assert!(!at.is_null(), "the limit leaves room for the slices");
        std::slice::from_raw_parts_mut(at, count)
    }
}
