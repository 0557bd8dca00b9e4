// SPDX-License-Identifier: MIT OR Apache-2.0
//! A program that calls no library: what the others' sizes are compared with.

fn main() {
    let args: Vec<u8> = std::env::args().flat_map(String::into_bytes).collect();
    std::process::exit(i32::from(args[0]));
}
