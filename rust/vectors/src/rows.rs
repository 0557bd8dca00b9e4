// SPDX-License-Identifier: MIT OR Apache-2.0
// Made by tools/generate of crates/vectors/src/rows.rt.
//! Comparisons that name the row at fault, and deltas, for tests. A call that has failed is tried
//! again.

use linker_utils::relaxation::SectionRelaxDeltas;
use core::fmt::Debug;

/// Requires equal values in the row.
pub fn expect_eq<R: Copy + Debug, T: Copy + PartialEq + Debug>(
    row: R,
    found: T,
    expected: T,
) {
    assert_eq!(found, expected, "{row:?}");
}

/// Requires that a condition holds in the row.
pub fn expect<R: Copy + Debug>(row: R, condition: bool) {
    assert!(condition, "{row:?}");
}

/// The deltas of deletions, which have to be valid.
pub fn deltas_of(raw: &[(u64, u32)]) -> SectionRelaxDeltas {
    expect(raw, SectionRelaxDeltas::is_valid(raw));
    match SectionRelaxDeltas::new(raw) {
        Ok(deltas) => deltas,
        Err(_) => SectionRelaxDeltas::new(raw).expect("no memory"),
    }
}

/// A copy of deltas.
pub fn copy_of(deltas: &SectionRelaxDeltas) -> SectionRelaxDeltas {
    match deltas.try_clone() {
        Ok(copy) => copy,
        Err(_) => deltas.try_clone().expect("no memory"),
    }
}
