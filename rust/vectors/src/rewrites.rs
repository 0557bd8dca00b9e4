// SPDX-License-Identifier: MIT OR Apache-2.0
// Made by tools/generate of crates/vectors/src/rewrites.rt.
//! Rewrites of all architectures, and how many bytes they require. The instructions are worked by
//! hand from the manuals.

use crate::rows::{expect, expect_eq};
use linker_utils::aarch64::RelaxationKind as AArch64Kind;
use linker_utils::loongarch64::RelaxationKind as LoongArch64Kind;
use linker_utils::ppc64::RelaxationKind as Ppc64Kind;
use linker_utils::relaxation::RelocationModifier;
use linker_utils::riscv64::RelaxationKind as RiscVKind;
use linker_utils::x86_64::RelaxationKind as X86Kind;

/// A rewrite of one of the architectures.
#[derive(Debug, Clone, Copy)]
enum Kind {
    AArch64(AArch64Kind),
    RiscV(RiscVKind),
    LoongArch64(LoongArch64Kind),
    Ppc64(Ppc64Kind),
    X86_64(X86Kind),
}

use Kind::{AArch64, LoongArch64, Ppc64, RiscV, X86_64};

/// What is made of a rewrite, whichever architecture it is of.
macro_rules! of_kind {
    ($of:expr, $kind:ident => $made:expr) => {
        match $of {
            AArch64($kind) => $made,
            RiscV($kind) => $made,
            LoongArch64($kind) => $made,
            Ppc64($kind) => $made,
            X86_64($kind) => $made,
        }
    };
}

/// Bytes, an offset and an addend.
type State = (&'static [u8], u64, i64);

/// A rewrite, and what is before and after it.
static REWRITTEN: [(Kind, State, State); 16] = [
    (
        AArch64(AArch64Kind::AdrpAddToNopAdr),
        (b"\x03\0\0\x90\x63\0\0\x91", 4, 7),
        (b"\x1f\x20\x03\xd5\x03\0\0\x10", 4, 7),
    ),
    (
        AArch64(AArch64Kind::LdrToAdd),
        (b"\x21\x04\x40\xf9", 0, 7),
        (b"\x21\x04\0\x91", 0, 7),
    ),
    (
        AArch64(AArch64Kind::MovkXn),
        (b"\x21\0\x40\xf9", 0, 7),
        (b"\x01\0\x80\xf2", 0, 7),
    ),
    (
        AArch64(AArch64Kind::LdrToAdr),
        (b"\0\0\x40\xf9", 0, 7),
        (b"\0\0\x40\x70", 0, 7),
    ),
    (
        RiscV(RiscVKind::Hi20ToCLui),
        (b"\x37\x05\0\0", 0, 7),
        (b"\x01\x65\0\0", 0, 7),
    ),
    (
        RiscV(RiscVKind::Lo12Rs1ToZero),
        (b"\x13\x05\x05\0", 0, 7),
        (b"\x13\x05\0\0", 0, 7),
    ),
    (
        RiscV(RiscVKind::ReplaceWithNop),
        (b"\x13\x05\x05\0", 0, 7),
        (b"\x01\0\x01\0", 0, 7),
    ),
    (
        RiscV(RiscVKind::CallToJal),
        (b"\x97\0\0\0", 0, 7),
        (b"\xef\0\0\0", 0, 7),
    ),
    (
        LoongArch64(LoongArch64Kind::ReplaceWithNop),
        (&[0xff; 4], 0, 7),
        (b"\0\0\x40\x03", 0, 7),
    ),
    (Ppc64(Ppc64Kind::NoOp), (b"\x01", 9, 7), (b"\x01", 9, 7)),
    (
        X86_64(X86Kind::RexMovIndirectToAbsolute(3)),
        (b"\x4c\x8b\x15\0\0\0\0", 3, 7),
        (b"\x49\xc7\xc2\0\0\0\0", 3, 0),
    ),
    (
        X86_64(X86Kind::JmpIndirectToRelative),
        (b"\xff\x25\0\0\0\0", 2, -4),
        (b"\xe9\0\0\0\0\x90", 1, -4),
    ),
    (
        X86_64(X86Kind::RexAddIndirectToAbsolute(6)),
        (b"\x64\0\0\x03\x15", 5, 7),
        (b"\xdc\0\0\x81\xc2", 5, 0),
    ),
    (
        X86_64(X86Kind::RexSubIndirectToAbsolute(4)),
        (b"\x44\x2b\x0d", 3, 7),
        (b"\x11\x81\xe9", 3, 0),
    ),
    (
        X86_64(X86Kind::RexCmpIndirectToAbsolute(3)),
        (b"\x4c\x3b\x3d", 3, 7),
        (b"\x49\x81\xff", 3, 0),
    ),
    (
        X86_64(X86Kind::TlsGdToLocalExec),
        (&[0; 12], 4, 7),
        (b"\x64\x48\x8b\x04\x25\0\0\0\0\x48\x8d\x80", 12, 0),
    ),
];

/// Rewrites, and what they do to the relocation after their own.
static MODIFIERS: [(Kind, RelocationModifier); 3] = [
    (
        X86_64(X86Kind::TlsGdToLocalExec),
        RelocationModifier::SkipNextRelocation,
    ),
    (X86_64(X86Kind::SkipTlsDescCall), RelocationModifier::Normal),
    (
        RiscV(RiscVKind::CallToJal),
        RelocationModifier::SkipNextRelocation,
    ),
];

/// Requires that a rewrite of a section at an offset with an addend leaves what is after it.
fn expect_rewritten(
    kind: Kind,
    section: &mut [u8],
    mut offset: u64,
    mut addend: i64,
    after: State,
) {
    of_kind!(kind, it => {
        expect(kind, it.can_apply(section, offset));
        it.apply(section, &mut offset, &mut addend);
    });
    expect_eq(kind, (&*section, offset, addend), after);
}

#[test]
fn rewrites_leave_their_bytes() {
    for (kind, (before, offset, addend), after) in &REWRITTEN {
        let (len, mut bytes) = (before.len(), [0; 12]);
        expect(*kind, len <= 12);
        let section = &mut bytes[..len];
        section.copy_from_slice(before);
        expect_rewritten(*kind, section, *offset, *addend, *after);
    }
    for (kind, modifier) in &MODIFIERS {
        let found = of_kind!(*kind, it => it.next_modifier());
        expect_eq(kind, found, *modifier);
    }
}

/// Rewrites of one instruction of AArch64: `ldr x1, [x1]` can be all of them.
static OF_A_LOAD: [AArch64Kind; 11] = [
    AArch64Kind::ReplaceWithNop,
    AArch64Kind::MovzX0Lsl16,
    AArch64Kind::MovkX0,
    AArch64Kind::MovzXnLsl16,
    AArch64Kind::AdrpToAdr,
    AArch64Kind::AdrpX0,
    AArch64Kind::LdrX0,
    AArch64Kind::AddToAdr,
    AArch64Kind::LdrToAdr,
    AArch64Kind::MovkXn,
    AArch64Kind::LdrToAdd,
];

/// Other rewrites, the offset in a section that is just their window, and the section's length.
static WINDOWS: [(Kind, u64, usize); 27] = [
    (AArch64(AArch64Kind::AdrpAddToNopAdr), 4, 8),
    (RiscV(RiscVKind::ReplaceWithNop), 0, 4),
    (RiscV(RiscVKind::CallToJal), 0, 4),
    (RiscV(RiscVKind::Lo12Rs1ToZero), 0, 4),
    (RiscV(RiscVKind::Hi20ToCLui), 0, 2),
    (LoongArch64(LoongArch64Kind::ReplaceWithNop), 0, 4),
    (X86_64(X86Kind::MovIndirectToLea), 2, 1),
    (X86_64(X86Kind::MovIndirectToAbsolute), 2, 2),
    (X86_64(X86Kind::RexMovIndirectToAbsolute(3)), 3, 3),
    (X86_64(X86Kind::RexAddIndirectToAbsolute(0)), 2, 2),
    (X86_64(X86Kind::RexAddIndirectToAbsolute(3)), 3, 3),
    (X86_64(X86Kind::RexAddIndirectToAbsolute(4)), 3, 3),
    (X86_64(X86Kind::RexAddIndirectToAbsolute(6)), 5, 5),
    (X86_64(X86Kind::RexSubIndirectToAbsolute(4)), 3, 3),
    (X86_64(X86Kind::RexCmpIndirectToAbsolute(5)), 3, 3),
    (X86_64(X86Kind::CallIndirectToRelative), 2, 2),
    (X86_64(X86Kind::JmpIndirectToRelative), 2, 6),
    (X86_64(X86Kind::TlsGdToLocalExec), 4, 12),
    (X86_64(X86Kind::TlsGdToLocalExecLarge), 3, 22),
    (X86_64(X86Kind::TlsLdToLocalExec), 3, 12),
    (X86_64(X86Kind::TlsLdToLocalExecNoPlt), 3, 13),
    (X86_64(X86Kind::TlsLdToLocalExec64), 3, 22),
    (X86_64(X86Kind::TlsGdToInitialExec), 4, 12),
    (X86_64(X86Kind::TlsDescToLocalExec(3)), 3, 3),
    (X86_64(X86Kind::TlsDescToLocalExec(4)), 3, 3),
    (X86_64(X86Kind::TlsDescToInitialExec), 2, 1),
    (X86_64(X86Kind::SkipTlsDescCall), 0, 2),
];

/// Rewrites of no bytes.
static OF_NOTHING: [Kind; 6] = [
    AArch64(AArch64Kind::NoOp),
    RiscV(RiscVKind::NoOp),
    RiscV(RiscVKind::Hi20Delete),
    LoongArch64(LoongArch64Kind::NoOp),
    Ppc64(Ppc64Kind::NoOp),
    X86_64(X86Kind::NoOp),
];

fn can_apply(kind: Kind, section: &[u8], offset: u64) -> bool {
    of_kind!(kind, it => it.can_apply(section, offset))
}

/// Requires that a rewrite may be applied to a section that is just its window, of which the bytes
/// from `back` on are the instruction at the offset, and not where a byte of it is missing.
fn requires_window(kind: Kind, section: &[u8], back: u64) {
    expect_eq(kind, can_apply(kind, section, back), true);
    for len in 0..section.len() {
        expect_eq(
            (kind, len),
            can_apply(kind, &section[..len], back),
            false,
        );
    }
    for below in 0..back {
        expect_eq(kind, can_apply(kind, section, below), false);
    }
    for offset in [back.wrapping_add(1), back.wrapping_add(1 << 32), u64::MAX] {
        expect_eq((kind, offset), can_apply(kind, section, offset), false);
    }
}

#[test]
fn rewrites_require_their_window() {
    for kind in &OF_A_LOAD {
        requires_window(AArch64(*kind), b"\x21\0\x40\xf9", 0);
    }
    let bytes = [0xff; 22];
    for (kind, back, len) in &WINDOWS {
        expect(*kind, *len <= 22);
        requires_window(*kind, &bytes[..*len], *back);
    }
    for kind in &OF_NOTHING {
        for offset in [0, 5, u64::MAX] {
            expect_eq((kind, offset), can_apply(*kind, &[], offset), true);
        }
    }
    // `ldr w1, [x1]`, and `ldr x1, [x2]`
    for (kind, word) in [
        (AArch64Kind::LdrToAdd, b"\x21\x04\x40\xb9"),
        (AArch64Kind::MovkXn, b"\x41\0\x40\xf9"),
    ] {
        expect_eq(kind, kind.can_apply(word, 0), false);
    }
}
