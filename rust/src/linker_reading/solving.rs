// SPDX-License-Identifier: MIT OR Apache-2.0
// Made by tools/generate of crates/linker_reading/src/solving.rt.
//! The address that a relocation's value comes from, and that of a pair of instructions.

use crate::linker_reading::fields::{FieldValue, bits_of, power_of_two};
use crate::linker_base::bit_misc::BitRange;
use crate::linker_elf::elf::{Bias, Operands, PageMask, RelocationKind, RowInfo, RowSize};

/// Which address a relocation's value is computed from.
#[derive(Clone, Copy, Debug, PartialEq, Eq, Hash)]
pub enum Reference {
    /// S + A.
    Symbol,
    /// The address of the GOT entry, of TLS too, plus A where the value has it.
    GotEntry,
    /// L + A.
    PltEntry,
}

/// What is taken off it.
#[derive(Clone, Copy, Debug, PartialEq, Eq, Hash)]
pub enum Origin {
    /// Nothing.
    Zero,
    /// P, or the address of its page.
    Place,
    /// The GOT's address, or that of its page.
    Got,
    /// What offsets of TLS count from.
    Tls,
}

/// The terms of the formula of a value: the address, biased and cut to its page where the row says
/// so, less the origin.
#[derive(Clone, Copy, Debug, PartialEq, Eq, Hash)]
pub struct Terms {
    /// The address.
    pub reference: Reference,
    /// What is taken off it.
    pub origin: Origin,
}

/// Both terms.
fn make_terms(reference: Reference, origin: Origin) -> Option<Terms> {
    Some(Terms { reference, origin })
}

/// [`terms_of`](crate::reading::terms_of()), of a row that has bytes.
fn terms_of_kind(kind: RelocationKind) -> Option<Terms> {
    match kind {
        RelocationKind::Absolute
        | RelocationKind::AbsoluteLowPart
        | RelocationKind::AbsoluteSet
        | RelocationKind::AbsoluteSetWord6 => make_terms(Reference::Symbol, Origin::Zero),
        RelocationKind::Relative | RelocationKind::RelativeRiscVLow12 => {
            make_terms(Reference::Symbol, Origin::Place)
        }
        RelocationKind::SymRelGotBase => make_terms(Reference::Symbol, Origin::Got),
        RelocationKind::DtpOff | RelocationKind::TpOff => make_terms(
            Reference::Symbol,
            Origin::Tls,
        ),
        RelocationKind::GotRelative
        | RelocationKind::TlsGd
        | RelocationKind::TlsLd
        | RelocationKind::GotTpOff
        | RelocationKind::TlsDesc => make_terms(Reference::GotEntry, Origin::Place),
        RelocationKind::GotRelGotBase
        | RelocationKind::TlsGdGotBase
        | RelocationKind::TlsLdGotBase
        | RelocationKind::GotTpOffGotBase
        | RelocationKind::TlsDescGotBase => make_terms(Reference::GotEntry, Origin::Got),
        RelocationKind::Got
        | RelocationKind::TlsGdGot
        | RelocationKind::TlsLdGot
        | RelocationKind::GotTpOffGot
        | RelocationKind::TlsDescGot => make_terms(Reference::GotEntry, Origin::Zero),
        RelocationKind::PltRelative => make_terms(Reference::PltEntry, Origin::Place),
        RelocationKind::PltRelGotBase => make_terms(Reference::PltEntry, Origin::Got),
        _ => None,
    }
}

/// Which address a row's value is computed from, and what is taken off it. `None` of rows without
/// an inverse: those without a value or without bytes, of sizes, of sums and differences with what
/// stood there, of ULEB128 numbers, and LoongArch's bits 32 to 63 of a distance, which depend on
/// the low bits of the address too.
#[must_use]
pub fn terms_of(kind: RelocationKind, size: RowSize) -> Option<Terms> {
    match size {
        RowSize::ByteSize(0) => None,
        _ => terms_of_kind(kind),
    }
}

/// The address of the page of 4 KiB that contains an address, if `masked`.
fn page_if(masked: bool, address: u64) -> u64 {
    if masked {
        address - address % 4096
    } else {
        address
    }
}

/// Whether there is what a formula takes off the address.
fn has_base(origin: Origin, operands: &Operands) -> bool {
    match origin {
        Origin::Zero | Origin::Place | Origin::Got => true,
        Origin::Tls => operands.has_tls_base,
    }
}

/// What a row's formula takes off the address.
fn base(origin: Origin, row: &RowInfo, operands: &Operands) -> u64 {
    match origin {
        Origin::Zero => 0,
        Origin::Place => {
            let masked = matches!(
                row.mask,
                Some(PageMask::SymbolPlusAddendAndPosition(_) | PageMask::GotEntryAndPosition(_))
            );
            page_if(masked, operands.place)
        }
        Origin::Got => page_if(
            matches!(row.mask, Some(PageMask::GotBase(_))),
            operands.got_base,
        ),
        Origin::Tls => operands.tls_base,
    }
}

/// Whether the page of the address is taken.
fn is_paged(reference: Reference, mask: Option<PageMask>) -> bool {
    match reference {
        Reference::Symbol => matches!(mask, Some(PageMask::SymbolPlusAddendAndPosition(_))),
        Reference::GotEntry => matches!(mask, Some(PageMask::GotEntryAndPosition(_))),
        Reference::PltEntry => false,
    }
}

/// What is added to the address.
fn bias_or_zero(bias: Option<Bias>) -> u64 {
    match bias {
        Some(bias) => bias.value(),
        None => 0,
    }
}

/// Known bits from bit 0 up, without rounding; others as they are.
fn without_rounding(field: FieldValue) -> FieldValue {
    if field.known.start != 0 {
        return field;
    }
    FieldValue {
        known: field.known,
        bits: bits_of(field.bits.wrapping_sub(field.rounding), 0, field.known.end),
        rounding: 0,
    }
}

/// What is known of the address that a value comes from: the inverse of
/// [`Row::value`](crate::elf::Row::value). [`terms_of`](crate::reading::terms_of()) says which address it is. `field` is what is known of
/// the value, as `read` returns it. Of the operands only the place, the GOT's address and the base
/// of TLS are read, whichever the formula takes off.
///
/// With these, an address has the bits of the result exactly if its value has those of `field`. The
/// same bits are known of both. Where bit 0 is known the rounding is 0, and else it is the row's
/// bias and what is left of the rounding of `field` less what the formula takes off. Of a row that
/// takes the page of the address, bits 12 and up are known, and the page of that rest counts: of
/// what `read` returns, the rounding is the bias less the page of the place or of the GOT.
///
/// `None` of rows without an inverse, as [`terms_of`](crate::reading::terms_of()) says; of an offset of a TLS symbol where there
/// is no `tls_base`; and of a row of pages if `field` begins below bit 12.
///
/// # Requires
///
/// - `field.is_proper()`
#[must_use]
#[cfg_attr(debug_assertions, track_caller)]
pub fn solve(row: &RowInfo, field: &FieldValue, operands: &Operands) -> Option<FieldValue> {
    debug_assert!(field.is_proper());
    match terms_of(row.kind, row.size) {
        Some(terms) => {
            if !has_base(terms.origin, operands) {
                return None;
            }
            let base = base(terms.origin, row, operands);
            let bias = bias_or_zero(row.bias);
            let rest = field.rounding.wrapping_sub(base);
            let paged = is_paged(terms.reference, row.mask);
            if paged && field.known.start < 12 {
                return None;
            }
            Some(without_rounding(FieldValue {
                known: field.known,
                bits: field.bits,
                rounding: bias.wrapping_add(page_if(paged, rest)),
            }))
        }
        None => None,
    }
}

/// What is known of an address from both halves of a pair, as [`solve`](crate::reading::solve()) returns them: `adrp` and
/// `add`, `auipc` and `addi`, `addis` and `addi`, `pcalau12i` and `addi.d`. A number has the bits
/// of the result exactly if it has those of both. The bits are known from bit 0 up to the last of
/// the high half, without rounding. If that is bit 63, as `reach` makes it, `number` of the result
/// is the address.
///
/// `None` unless the low half has all bits below the high half's, from bit 0 up, without rounding.
///
/// # Requires
///
/// - high: `high.is_proper()`
/// - low: `low.is_proper()`
#[must_use]
#[cfg_attr(debug_assertions, track_caller)]
pub fn join(high: &FieldValue, low: &FieldValue) -> Option<FieldValue> {
    debug_assert!(high.is_proper());
    debug_assert!(low.is_proper());
    if low.known.start != 0 || low.rounding != 0 || low.known.end != high.known.start {
        return None;
    }
    let unit = power_of_two(low.known.end);
    let below = low.bits.wrapping_add(high.rounding) % unit;
    Some(without_rounding(FieldValue {
        known: BitRange {
            start: 0,
            end: high.known.end,
        },
        bits: high.bits * unit + below,
        rounding: high.rounding,
    }))
}
