// SPDX-License-Identifier: MIT OR Apache-2.0
//! Lists what the library knows of each architecture, by `e_machine` of its files: each relocation
//! with its `r_type`, its name and whether it has a row, and each rewrite.
//! `tools/statistics/census.py` reads it.

use linker_utils::architecture::Relaxation;
use linker_utils::elf::Architecture;
use std::io::{self, Write};

fn main() -> io::Result<()> {
    let mut out = io::stdout().lock();
    for &architecture in Architecture::ALL {
        let machine = architecture.machine();
        // no psABI has a type above
        for r_type in 0..0x1_0000 {
            let Some(name) = architecture.name(r_type) else { continue };
            let row = if architecture.row(r_type).is_some() { "row" } else { "none" };
            writeln!(out, "relocation {machine} {r_type} {name} {row}")?;
        }
        for kind in (0..).map_while(|number| Relaxation::from_number(architecture, number, 3)) {
            // as `X86_64(TlsDescToLocalExec(3))`
            let text = format!("{kind:?}");
            let name = text.split(['(', ')']).nth(1).expect("a variant in parentheses");
            writeln!(out, "rewrite {machine} {name}")?;
        }
    }
    Ok(())
}
