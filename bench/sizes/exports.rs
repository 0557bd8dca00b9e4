// SPDX-License-Identifier: MIT OR Apache-2.0
//! Calls of the static library: a row, a write, a rewrite, deltas and a ULEB128 number.

use sathunne::*;

fn main() {
    let mut args: Vec<u8> = std::env::args().flat_map(String::into_bytes).collect();
    let number = u64::from(args[0]);
    let architecture = Architecture::from_machine(number as u16).expect("a machine");
    let info = relocation(architecture, number as u32).expect("a row");
    if let RelocationSize::Bits { form, .. } = info.size {
        write(form, number, false, &mut args).expect("it fits");
    }
    let (mut offset, mut addend) = (number, 0);
    let rewrite = X86_64Rewrite::TlsGdToLocalExec;
    apply(rewrite, &mut args, &mut offset, &mut addend).expect("it may");
    let list = [Deletion { offset, bytes: 2 }];
    let (mut deltas, mut merged) = ([Delta::default()], [Delta::default(); 2]);
    deltas_create(&list, &mut deltas).expect("valid");
    deltas_merge(&deltas, &list, &mut merged).expect("mergeable");
    let place = deltas_input_to_output(&merged, number);
    let uleb128 = read_uleb128(&mut &args[..]).expect("a number");
    std::process::exit((place ^ uleb128) as i32);
}
