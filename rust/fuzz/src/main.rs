// SPDX-License-Identifier: MIT OR Apache-2.0
//! Calls all functions with random bytes, without libFuzzer. usage: fuzz SECONDS [SEED]
//! Its status is 0, or that of an abort after a panic, where the bytes are printed.

use std::cell::RefCell;
use std::time::{Duration, Instant};

thread_local! {
    static BYTES: RefCell<Vec<u8>> = const { RefCell::new(Vec::new()) };
}

fn main() {
    let mut numbers = std::env::args().skip(1).map(|text| text.parse().expect("a number"));
    let seconds = Duration::from_secs(numbers.next().expect("usage: fuzz SECONDS [SEED]"));
    let mut state = numbers.next().unwrap_or(1).max(1);
    // Marsaglia's xorshift
    let mut word = move || {
        state ^= state << 13;
        state ^= state >> 7;
        state ^= state << 17;
        state
    };
    let print = std::panic::take_hook();
    std::panic::set_hook(Box::new(move |why| {
        BYTES.with_borrow(|bytes| eprintln!("with the bytes {bytes:02x?}:"));
        print(why);
    }));
    let (start, mut calls) = (Instant::now(), 0u64);
    while calls % 256 > 0 || start.elapsed() < seconds {
        let bytes = BYTES.with_borrow_mut(|bytes| {
            bytes.clear();
            let len = word() % 400;
            // few bits of a byte make small numbers and short arrays
            let mask = [0xff, 0x3f, 0x0f][(word() % 3) as usize];
            bytes.extend((0..len).map(|at| word() as u8 & if at < 2 { 0xff } else { mask }));
            bytes.clone()
        });
        fuzz::call(&bytes);
        calls += 1;
    }
    println!("{calls} calls of {} functions", fuzz::FUNCTIONS);
}
