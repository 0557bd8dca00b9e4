// SPDX-License-Identifier: MIT OR Apache-2.0
// Made by tools/generate of crates/vectors/src/calls.rt.
//! Calls of RISC-V that become jumps, and sections without the bytes that this frees, worked by
//! hand from the RISC-V unprivileged ISA's `jal`, which reaches even distances from -1048576 to
//! 1048574.

use crate::rows::{deltas_of, expect_eq};
use linker_utils::relaxation::{PackError, calls_apart, calls_shrinkable};
use linker_utils::riscv64::{CallError, RelaxationKind, distance_fits_jal, jal_site, relax_call};
use linker_utils::utils::u32_from_slice;
use core::fmt::Debug;

type Pairs = &'static [(u64, u32)];

/// Sites and targets.
type Calls = &'static [(u64, u64)];

/// `auipc ra, 0` and `jalr ra, 0(ra)`, and `nop`.
const CALL: [u8; 12] = *b"\x97\0\0\0\xe7\x80\0\0\x13\0\0\0";

/// Two such calls, and `nop`.
const TWO_CALLS: [u8; 20] = *b"\x97\0\0\0\xe7\x80\0\0\x97\0\0\0\xe7\x80\0\0\x13\0\0\0";

/// A site, a distance, and the word that is there afterwards.
static JUMPS: [(u64, i64, Result<u32, CallError>); 12] = [
    (0, 8, Ok(0x0080_00ef)),
    (0, -1_048_576, Ok(0x8000_00ef)),
    (0, 1_048_574, Ok(0x7fff_f0ef)),
    (0, 1_048_576, Err(CallError::TooFar)),
    (0, -1_048_578, Err(CallError::TooFar)),
    (0, 1_048_575, Err(CallError::OddDistance)),
    (0, 1_048_577, Err(CallError::OddDistance)),
    (9, 8, Err(CallError::OutOfSection)),
    (10, 8, Err(CallError::OutOfSection)),
    (9, 1_048_577, Err(CallError::OutOfSection)),
    (u64::MAX, 8, Err(CallError::OutOfSection)),
    (u64::MAX - 3, 8, Err(CallError::OutOfSection)),
];

/// Requires that the first word of `CALL` became a jump, or that it is unchanged.
fn expect_jump<R: Copy + Debug>(
    row: R,
    section: &[u8; 12],
    found: Result<(), CallError>,
    word: Result<u32, CallError>,
) {
    match found {
        Ok(()) => {
            expect_eq(row, Ok(u32_from_slice(section)), word);
            expect_eq(row, &section[4..], &CALL[4..]);
        }
        Err(error) => expect_eq(row, (Err(error), *section), (word, CALL)),
    }
}

/// Distances, and whether `jal` reaches them.
static REACHED: [(i64, bool); 4] = [
    (-1_048_577, false),
    (-1_048_576, true),
    (1_048_575, true),
    (1_048_576, false),
];

#[test]
fn sites_jump_by_their_distance() {
    for (site, distance, word) in &JUMPS {
        let mut section = CALL;
        let found = jal_site(&mut section, *site, *distance);
        expect_jump((site, distance), &section, found, *word);
    }
    for (distance, fits) in &REACHED {
        expect_eq(distance, distance_fits_jal(*distance), *fits);
    }
}

/// Deletions, a site and its target, and the word that is there afterwards.
static RELAXED: [(Pairs, u64, u64, Result<u32, CallError>); 12] = [
    (&[], 0, 8, Ok(0x0080_00ef)),
    (&[(4, 4)], 0, 8, Ok(0x0040_00ef)),
    (&[(4, 4)], 0, 12, Ok(0x0080_00ef)),
    (&[(0, 4)], 0, 8, Err(CallError::SiteDeleted)),
    (&[(4, 4)], 3, 8, Err(CallError::SiteDeleted)),
    (&[(2, 0)], 0, 8, Ok(0x0080_00ef)),
    (&[(4, 4)], 0, 6, Ok(0x0040_00ef)),
    (&[(4, 1)], 0, 8, Err(CallError::OddDistance)),
    (&[(10, 4)], 0, 12, Ok(0x00a0_00ef)),
    (&[], 0, 13, Err(CallError::OutOfSection)),
    (&[], 10, 0, Err(CallError::OutOfSection)),
    (&[], u64::MAX, 0, Err(CallError::OutOfSection)),
];

#[test]
fn calls_jump_to_their_translated_target() {
    for (raw, site, target, word) in &RELAXED {
        let mut section = CALL;
        let deltas = deltas_of(raw);
        let found = relax_call(&mut section, &deltas, *site, *target);
        expect_jump((raw, site, target), &section, found, *word);
    }
}

/// A section, deletions, calls, and the section without the deleted bytes.
pub static PACKED: [(
    &'static [u8],
    Pairs,
    Calls,
    Result<&'static [u8], PackError>,
); 9] = [
    (&CALL, &[(4, 4)], &[(0, 8)], Ok(b"\xef\x00\x40\0\x13\0\0\0")),
    (&CALL, &[(4, 4)], &[(0, 6)], Ok(b"\xef\x00\x40\0\x13\0\0\0")),
    (
        &CALL,
        &[(4, 4)],
        &[(0, 8), (4, 0)],
        Err(PackError::Call {
            index: 1,
            error: CallError::SiteDeleted,
        }),
    ),
    (
        &CALL,
        &[(4, 4)],
        &[(0, 13), (4, 0)],
        Err(PackError::Call {
            index: 0,
            error: CallError::OutOfSection,
        }),
    ),
    (
        &CALL,
        &[(4, 4)],
        &[(4, 0)],
        Err(PackError::Call {
            index: 0,
            error: CallError::SiteDeleted,
        }),
    ),
    (&CALL, &[(10, 4)], &[], Ok(b"\x97\0\0\0\xe7\x80\0\0\x13\0")),
    (&CALL, &[(12, 4)], &[], Ok(&CALL)),
    (
        &TWO_CALLS,
        &[(4, 4), (12, 4)],
        &[(0, 16), (8, 0)],
        Ok(b"\xef\x00\x80\0\xef\xf0\xdf\xff\x13\0\0\0"),
    ),
    (&[], &[], &[], Ok(&[])),
];

/// Deletions, calls, and which of them lose the four bytes after their first instruction.
pub static SHRUNK: [(Pairs, Calls, &'static [bool]); 8] = [
    (&[], &[(0, 8)], &[true]),
    (&[], &[(0, 1_048_578)], &[true]),
    (&[], &[(0, 1_048_580)], &[false]),
    (&[], &[(0, 9)], &[false]),
    (&[(16, 8)], &[(0, 1_048_586)], &[true]),
    (&[], &[(0, 1_048_578), (8, 1_048_600)], &[true, false]),
    // each of the two needs the other
    (&[], &[(100, 1_048_680), (1_048_580, 0)], &[true, true]),
    (&[], &[(100, 1_048_688), (1_048_580, 0)], &[false, false]),
];

/// Deletions, calls, whether their sites ascend by 4, and whether they can be asked about.
static ASKED: [(Pairs, Calls, bool, bool); 12] = [
    (&[], &[], true, true),
    (&[], &[(0, 8), (4, 0)], true, false),
    (&[], &[(0, 8), (3, 0)], false, false),
    (&[], &[(4, 0), (0, 8)], false, false),
    (&[], &[(u64::MAX - 4, 0), (u64::MAX, 0)], true, false),
    (&[], &[(u64::MAX - 1, 0), (u64::MAX, 0)], false, false),
    (&[], &[(0, 8)], true, true),
    (&[], &[(u64::MAX - 8, 0)], true, true),
    (&[], &[(0, 6)], true, false),
    (&[], &[(0, 16), (4, 16)], true, false),
    (&[], &[(u64::MAX - 7, 0)], true, false),
    (&[(2, 1)], &[(0, 16)], true, false),
];

#[test]
fn calls_apart_may_be_shrinkable() {
    for (raw, calls, is_apart, is_shrinkable) in &ASKED {
        let deltas = deltas_of(raw);
        let found = (calls_apart(calls), calls_shrinkable(&deltas, calls));
        expect_eq(*calls, found, (*is_apart, *is_shrinkable));
    }
}

/// A value, whether its high part is 0, and whether it is an immediate of `c.lui`.
static HIGH_PARTS: [(i64, bool, bool); 12] = [
    (0x7ff, true, false),
    (1 << 32, true, false),
    (0x800, false, true),
    (0, true, false),
    (-0x800, true, false),
    (-0x1000, false, true),
    (-0x20800, false, true),
    (-0x20801, false, false),
    (0x1000, false, true),
    (0x1f7ff, false, true),
    (0x1f800, false, false),
    (0x20000, false, false),
];

/// Registers, and whether `c.lui` can write them.
static REGISTERS: [(u32, bool); 4] = [(0, false), (1, true), (2, false), (31, true)];

#[test]
fn high_parts_are_zero_or_fit_c_lui() {
    for (value, is_zero, fits) in &HIGH_PARTS {
        let number = u64::from_le_bytes(value.to_le_bytes());
        let found = (
            RelaxationKind::hi20_is_zero(number),
            RelaxationKind::hi20_fits_clui(number),
        );
        expect_eq(value, found, (*is_zero, *fits));
    }
    for (register, is_valid) in &REGISTERS {
        let found = RelaxationKind::rd_valid_for_clui(*register);
        expect_eq(register, found, *is_valid);
    }
}
