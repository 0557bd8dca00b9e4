// SPDX-License-Identifier: MIT OR Apache-2.0
//! How many times as long a call takes on a longer list, and lists of deletions in the orders that linkers
//! make. `bindings/rust/tests/growth.rs` includes it too.

use std::time::{Duration, Instant};

/// How long lists are: in the gate, and in the nightly run.
pub const SHORT: usize = 16_000;
pub const LONG: usize = 1_000_000;

/// The processor time of this thread, which other work on the machine doesn't lengthen much. Only Linux
/// has this clock.
fn processor_time() -> Option<Duration> {
    unsafe extern "C" {
        fn clock_gettime(clock: i32, time: *mut [i64; 2]) -> i32;
    }
    const CLOCK_THREAD_CPUTIME_ID: i32 = 3;
    let mut time = [0; 2];
    if !cfg!(all(target_os = "linux", target_pointer_width = "64")) {
        return None;
    }
    // SAFETY: on 64-bit Linux a `timespec` is two numbers of 64 bits, which the call writes.
    let status = unsafe { clock_gettime(CLOCK_THREAD_CPUTIME_ID, &mut time) };
    (status == 0).then(|| Duration::new(time[0] as u64, time[1] as u32))
}

/// The least time of three calls, each on an input of its own.
fn least<I>(count: usize, make: &impl Fn(usize) -> I, call: &impl Fn(I)) -> Duration {
    let time = |()| {
        let input = make(count);
        let (started, before) = (Instant::now(), processor_time());
        call(input);
        match (before, processor_time()) {
            (Some(before), Some(after)) => after - before,
            _ => started.elapsed(),
        }
    };
    [(); 3].map(time).into_iter().min().expect("three times")
}

/// Requires that a call takes at most 64 times as long on a list as on a sixteenth of it, and of long lists
/// 160 times.
pub fn expect_growth<I>(name: &str, count: usize, make: impl Fn(usize) -> I, call: impl Fn(I)) {
    let most = if count < LONG { 64.0 } else { 160.0 };
    let ratio = || {
        let few = least(count / 16, &make, &call).max(Duration::from_micros(1));
        least(count, &make, &call).as_secs_f64() / few.as_secs_f64()
    };
    // a machine with other work may double a time, but not in each of three tries
    let mut ratios = Vec::new();
    while ratios.last().is_none_or(|last| *last > most) {
        assert!(ratios.len() < 3, "{name}: {ratios:?} times as long");
        ratios.push(ratio());
    }
}

pub fn pair(index: usize) -> (u64, u32) {
    (8 * index as u64 + 4, 4)
}

/// Numbers below a count in no order.
pub fn mixed(count: usize) -> Vec<usize> {
    let mut all: Vec<usize> = (0..count).collect();
    let mut state = 0x5eed_u64;
    for last in (1..count).rev() {
        state =
            state.wrapping_mul(6_364_136_223_846_793_005).wrapping_add(1_442_695_040_888_963_407);
        all.swap(last, (state >> 33) as usize % (last + 1));
    }
    all
}

/// Inputs by a count, and their name.
pub type Named<T> = (&'static str, fn(usize) -> Vec<T>);

/// Deletions in all orders that a linker's passes make.
pub const ORDERS: [Named<(u64, u32)>; 4] = [
    ("ascending", |count| (0..count).map(pair).collect()),
    ("descending", |count| (0..count).rev().map(pair).collect()),
    ("four ascending lists", |count| {
        (0..4).flat_map(|first| (first..count).step_by(4)).map(pair).collect()
    }),
    ("in no order", |count| mixed(count).into_iter().map(pair).collect()),
];
