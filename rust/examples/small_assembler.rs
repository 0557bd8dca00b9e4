// SPDX-License-Identifier: MIT OR Apache-2.0
//! An assembler of a few instructions of AArch64 and RISC-V: labels, branches and addresses. A line is a
//! label, as `f:`, or a word and what it refers to, as `94000000 CALL26 f`, by the relocation's name.

use linker_utils::elf::{Architecture, Operands, RelocationKind, Row, WriteError};
use std::collections::HashMap;

type Fixup<'a> = (usize, Row, &'a str); // where the instruction is, the relocation and its label

/// The bytes of a text whose first instruction is at an address. Further labels have addresses too.
fn assemble<'a>(
    architecture: Architecture,
    text: &'a str,
    address: u64,
    mut labels: HashMap<&'a str, u64>,
) -> Result<Vec<u8>, String> {
    let (mut code, mut fixups, mut high) = (Vec::new(), Vec::<Fixup>::new(), HashMap::new());
    for line in text.lines() {
        if let Some(label) = line.strip_suffix(':') {
            labels.insert(label, address + code.len() as u64);
            continue;
        }
        let words: Vec<&str> = line.split(' ').collect();
        let word = u32::from_str_radix(words[0], 16).map_err(|error| format!("{line}: {error}"))?;
        if let [_, name, label] = words[..] {
            let row = (0..1024).find(|code| architecture.name(*code).is_some_and(|it| it.ends_with(name)));
            let row = row.and_then(|code| architecture.row(code)).ok_or(format!("no relocation {name}"))?;
            fixups.push((code.len(), row, label));
        }
        code.extend(word.to_le_bytes());
    }
    for (at, row, label) in fixups {
        let place = address + at as u64;
        let symbol = *labels.get(label).ok_or(format!("no label {label}"))?;
        // a low part of RISC-V names its high part's label: both have the high part's operands
        let operands = match row.info().kind {
            RelocationKind::RelativeRiscVLow12 => *high.get(&symbol).ok_or(format!("{label}: no high part"))?,
            _ => Operands::new(symbol, 0, place),
        };
        high.insert(place, operands);
        let value = row.value(&operands).map_err(|error| format!("{label}: {error}"))?;
        let written = row.write(value, &mut code[at..]);
        written.map_err(|error| format!("{place:#x}: {label}: {}", WriteError::new(&row, value, error)))?;
    }
    Ok(code)
}

fn main() {
    let labels = || HashMap::from([("data", 0x412345), ("far", 0x1000_0000)]);
    let text = "start:\n90000000 ADR_PREL_PG_HI21 data\n91000000 ADD_ABS_LO12_NC data\nb4000000 CONDBR19 done\n\
                94000000 CALL26 f\n14000000 JUMP26 start\ndone:\nd65f03c0\nf:\nd65f03c0";
    let made = assemble(Architecture::AArch64, text, 0x210000, labels()).unwrap();
    // what clang and ld.lld make of the same lines
    let wanted = [0xd0001000u32, 0x910d1400, 0xb4000060, 0x94000003, 0x17fffffc, 0xd65f03c0, 0xd65f03c0];
    assert_eq!(made, wanted.map(u32::to_le_bytes).concat());
    let text = "high:\n00000517 _PCREL_HI20 data\n00050513 PCREL_LO12_I high\n00050463 BRANCH high\n0000006f JAL high";
    let made = assemble(Architecture::RiscV, text, 0x210000, labels()).unwrap();
    let wanted = [0x00202517u32, 0x34550513, 0xfe050ce3, 0xff5ff06f];
    assert_eq!(made, wanted.map(u32::to_le_bytes).concat());
    println!("{}", assemble(Architecture::AArch64, "94000000 CALL26 far", 0, labels()).unwrap_err());
}
