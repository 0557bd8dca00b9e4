// SPDX-License-Identifier: MIT OR Apache-2.0
//! The interpreter on the tables of what qemu made of single instructions.

use super::{Interpreter, signed};
use linker_utils::elf::Architecture;
use std::collections::HashMap;

// places of a state beside the registers
const MEMORY: u64 = 96;
const PC: u64 = 101;
const AT: u64 = 102;
/// Registers, LR and CTR.
const NUMBERS: u64 = 66;

/// A row of a table: its number, the instruction, the numbers before and those after.
struct Row {
    number: u64,
    code: u64,
    given: HashMap<u64, u64>,
    left: HashMap<u64, u64>,
}

fn place(text: &str) -> u64 {
    match text {
        "m0" | "m1" | "m2" | "m3" => MEMORY + u64::from(text.as_bytes()[1] - b'0'),
        "pc" => PC,
        "at" => AT,
        number => number.parse().expect("a place"),
    }
}

fn number(text: &str) -> Option<u64> {
    match text.strip_prefix("0x") {
        // the low part of a vector's, which is longer
        Some(digits) => u64::from_str_radix(&digits[digits.len().saturating_sub(16)..], 16).ok(),
        None => text.parse().ok(),
    }
}

/// The pairs behind a word, `with` or `=>`.
fn pairs(text: &str, word: &str) -> Option<HashMap<u64, u64>> {
    let mut found = HashMap::new();
    let mut rest = text;
    while let Some((_, behind)) = rest.split_once(word) {
        let (inner, after) = behind.split_once('(')?.1.split_once(')')?;
        let (at, value) = inner.split_once(", ")?;
        found.insert(place(at), number(value)?);
        rest = after;
    }
    Some(found)
}

/// The rows of a file by the names of instructions. Of vectors they have the low parts.
fn rows(text: &str) -> Vec<(String, Row)> {
    let mut name = String::new();
    let mut rows = Vec::new();
    for part in text.split("\n    ").map(|part| part.replace("\n", " ")) {
        if let Some(of) = part.strip_prefix("-- ") {
            name = of.trim().to_string();
            continue;
        }
        if let Some(more) = part
            .strip_prefix("=>")
            .map(|rest| format!("=>{rest}"))
            .or_else(|| part.strip_prefix("with").map(|rest| format!("with{rest}")))
        {
            // the row goes on
            let Some((_, last)) = rows.last_mut() else { continue };
            let last: &mut Row = last;
            last.given.extend(pairs(&more, "with").unwrap_or_default());
            last.left.extend(pairs(&more, "=>").unwrap_or_default());
            continue;
        }
        let Some(row) = part.strip_prefix("row ") else { continue };
        let mut words = row.split(' ');
        let of = words.next().and_then(number).expect("a row's number");
        let code = words.next().and_then(number).expect("an instruction");
        let (Some(given), Some(left)) = (pairs(row, "with"), pairs(row, "=>")) else { continue };
        rows.push((name.clone(), Row { number: of, code, given, left }));
    }
    rows
}

/// The middle of a square.
fn noise(row: u64, place: u64) -> u64 {
    let number = (256 * row + place).wrapping_mul(0xf86c_6a11_d0c1_8e95);
    ((u128::from(number) * u128::from(number)) >> 32) as u64
}

/// A product modulo 2^256, by numbers of 64 bits, of which the lowest is the first.
fn product(one: [u64; 4], other: [u64; 4]) -> [u64; 4] {
    let mut sum = [0; 4];
    for (at, &factor) in one.iter().enumerate() {
        let mut carry = 0;
        for (digit, &by) in sum[at..].iter_mut().zip(&other) {
            carry += u128::from(*digit) + u128::from(factor) * u128::from(by);
            *digit = carry as u64;
            carry >>= 64;
        }
    }
    sum
}

/// The low part of what `noise` is for a vector of 256 bits.
fn vector_noise(row: u64, place: u64) -> u64 {
    const GOLDEN: [u64; 4] = [
        0xf86c_6a11_d0c1_8e95,
        0x1082_276b_f3a2_7251,
        0xf39c_c060_5ced_c834,
        0x9e37_79b9_7f4a_7c15,
    ];
    let number = product([256 * row + place, 0, 0, 0], GOLDEN);
    product(number, number)[2]
}

fn made(row: u64, place: u64, is_loongarch: bool) -> u64 {
    const PARTS: [u64; 3] = [0, 1 << 33, 1 << 34];
    let number = noise(row, place);
    match place {
        PC => {
            let words = (1 << 14) / 4 - (1 << 9);
            PARTS[number as usize % 3]
                + (1 << 20)
                + (1 << 14) * row
                + (1 << 10)
                + 4 * (number / 3 % words)
        }
        AT => PARTS[number as usize % 3] + (1 << 26) + number / 3 % (1 << 24),
        0 if is_loongarch => 0,
        32..64 if is_loongarch => vector_noise(row, place),
        _ => number,
    }
}

/// Runs all rows of instructions that the interpreter has, and returns how many these are.
fn replayed(architecture: Architecture, text: &str, skipped: &[&str]) -> usize {
    let is_loongarch = architecture == Architecture::LoongArch64;
    let mut count = 0;
    for (name, row) in rows(text) {
        // functions, whose rows are of many instructions, have names with `_` in front
        if skipped.contains(&name.as_str()) || name.starts_with('_') {
            continue;
        }
        let before = |place: u64| {
            row.given.get(&place).copied().unwrap_or_else(|| made(row.number, place, is_loongarch))
        };
        let mut machine = Interpreter::new(architecture);
        for place in 0..NUMBERS {
            machine.registers[place as usize] = before(place);
        }
        for n in 0..4 {
            machine.memory.write(before(AT).wrapping_add(8 * n), &before(MEMORY + n).to_le_bytes());
        }
        machine.pc = before(PC);
        let len = if row.code >> 32 == 0 { 4 } else { 8 };
        machine.memory.write(machine.pc, &row.code.to_le_bytes()[..len]);
        assert_eq!(machine.step(), Some(()), "{name}: row {}", row.number);
        let after = |place: u64| match row.left.get(&place) {
            Some(&number) => number,
            None if place == PC => before(PC).wrapping_add(len as u64),
            None => before(place),
        };
        // the upper parts of vectors aren't here
        for place in 0..NUMBERS {
            assert_eq!(
                machine.registers[place as usize],
                after(place),
                "{name}: row {} at {place}",
                row.number
            );
        }
        for n in 0..4 {
            let address = before(AT).wrapping_add(8 * n);
            assert_eq!(
                machine.memory.load(address, 8),
                after(MEMORY + n),
                "{name}: row {}",
                row.number
            );
        }
        assert_eq!(machine.pc, after(PC), "{name}: row {}", row.number);
        count += 1;
    }
    count
}

#[test]
fn numbers_are_extended() {
    assert_eq!(signed(0x800, 12), 0xffff_ffff_ffff_f800);
    assert_eq!(signed(0x7ff, 12), 0x7ff);
}

#[test]
fn powerpc64_is_as_in_qemu() {
    let table = include_str!("../../../../crates/linker_final/specs/Ppc64Steps.antt");
    // the interpreter has no vectors
    let count = replayed(Architecture::Ppc64, table, &["stvx", "lvx"]);
    // 46 instructions, one of which is `nop`
    assert_eq!(count, 45 * 40 + 4, "rows");
}

#[test]
fn loongarch_is_as_in_qemu() {
    let table = include_str!("../../../../crates/linker_final/specs/LoongArchSteps.antt");
    let others = [
        // the interpreter has no vectors, and single precision only in stores
        "preld", "vld", "vst", "xvld", "xvst", "fld.s",
    ];
    let count = replayed(Architecture::LoongArch64, table, &others);
    // 29 instructions
    assert_eq!(count, 29 * 40, "rows");
}
