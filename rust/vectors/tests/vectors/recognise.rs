// SPDX-License-Identifier: MIT OR Apache-2.0
//! What linkers made of instructions and sequences.

use crate::{aarch64, loongarch64, ppc64, riscv64, x86_64};
use linker_utils::aarch64::{AArch64Relocation, RewriteKind as AArch64Kind};
use linker_utils::architecture::Relaxation;
use linker_utils::bit_misc::BitRange;
use linker_utils::choice_table::ChoiceTable;
use linker_utils::elf::{
    Architecture, Choice, InstructionRewrite, LinkFacts, Operands, RelocateError,
};
use linker_utils::loongarch64::{LoongArch64Relocation, RewriteKind as LoongArchKind};
use linker_utils::ppc64::{Ppc64Relocation, RewriteKind as Ppc64Kind};
use linker_utils::reading::FieldValue;
use linker_utils::recognise::{
    FieldBits, Recognised, Windows, architecture, recognise, same_but_for,
};
use linker_utils::riscv64::{RewriteKind as RiscVKind, RiscVRelocation};
use linker_utils::x86_64::{RewriteKind as X86Kind, X86_64Relocation};
use std::collections::BTreeSet;

fn x86_64_choice(kind: X86Kind, relocation: X86_64Relocation) -> Choice<X86Kind, X86_64Relocation> {
    Choice { kind, relocation }
}

/// A value of which all 64 bits are known.
fn whole(number: i64) -> FieldValue {
    FieldValue { known: BitRange { start: 0, end: 64 }, bits: number as u64, rounding: 0 }
}

/// A value of which the bits below `end` are known.
fn low_bits(end: u8, bits: u64) -> FieldValue {
    FieldValue { known: BitRange { start: 0, end }, bits, rounding: 0 }
}

/// A general-dynamic TLS sequence as GNU as assembles it, and a byte after it.
const GENERAL_DYNAMIC: [u8; 17] = [
    0x66, 0x48, 0x8d, 0x3d, 0x00, 0x00, 0x00, 0x00, 0x66, 0x66, 0x48, 0xe8, 0x00, 0x00, 0x00, 0x00,
    0xc3,
];

/// As GNU ld links it into a program that defines the variable.
const LOCAL_EXEC: [u8; 17] = [
    0x64, 0x48, 0x8b, 0x04, 0x25, 0x00, 0x00, 0x00, 0x00, 0x48, 0x8d, 0x80, 0x48, 0xf3, 0xff, 0xff,
    0xc3,
];

#[test]
fn a_sequence_that_gnu_ld_rewrote_is_recognised() {
    let name = X86_64Relocation::R_X86_64_TLSGD;
    let local_exec = x86_64_choice(X86Kind::TlsGdToLocalExec, X86_64Relocation::R_X86_64_TPOFF32);
    let found = recognise(
        name,
        &Windows { original: &GENERAL_DYNAMIC, offset: 4, others: &[], linked: &LOCAL_EXEC },
    );
    // lea -0xcb8(%rax), %rax
    let made = Recognised { choice: local_exec, offset: 12, value: Some(whole(-0xcb8)) };
    assert_eq!(found, [Some(made), None, None, None, None, None]);

    // with another operation on `%rax`, and with another byte after the sequence
    for at in [10, 16] {
        let mut altered = LOCAL_EXEC;
        altered[at] ^= 8;
        let found = recognise(
            name,
            &Windows { original: &GENERAL_DYNAMIC, offset: 4, others: &[], linked: &altered },
        );
        assert_eq!(found, [None; 6]);
    }
}

#[test]
fn fields_of_other_relocations_are_ignored_and_their_neighbours_are_not() {
    // the sequence as it is in a shared object: the call's field is another relocation's
    let mut linked = GENERAL_DYNAMIC;
    linked[4] = 0x10;
    linked[12] = 0x20;
    let name = X86_64Relocation::R_X86_64_TLSGD;
    let unchanged = x86_64_choice(X86Kind::NoOp, name);
    let call = FieldBits { offset: 12, bits: 0xffff_ffff };
    let found = recognise(
        name,
        &Windows { original: &GENERAL_DYNAMIC, offset: 4, others: &[call], linked: &linked },
    );
    let made = Recognised { choice: unchanged, offset: 4, value: Some(whole(0x10)) };
    assert_eq!(found, [None, None, None, Some(made), None, None]);
    let found = recognise(
        name,
        &Windows { original: &GENERAL_DYNAMIC, offset: 4, others: &[], linked: &linked },
    );
    assert_eq!(found, [None; 6]);
    linked[11] ^= 1;
    let found = recognise(
        name,
        &Windows { original: &GENERAL_DYNAMIC, offset: 4, others: &[call], linked: &linked },
    );
    assert_eq!(found, [None; 6]);
}

/// `ldr x1, [x0, :tlsdesc_lo12:v]`, and what ld.lld made of it: `movk x0, #0`, and `ldr x0, [x0,
/// #0x828]`.
#[test]
fn instructions_of_aarch64_that_lld_rewrote_are_recognised() {
    let name = AArch64Relocation::R_AARCH64_TLSDESC_LD64_LO12;
    for (linked, kind, relocation, number, end) in [
        (
            [0x00, 0x00, 0x80, 0xf2],
            AArch64Kind::MovkX0,
            AArch64Relocation::R_AARCH64_TLSLE_MOVW_TPREL_G0_NC,
            0,
            16,
        ),
        (
            [0x00, 0x14, 0x44, 0xf9],
            AArch64Kind::LdrX0,
            AArch64Relocation::R_AARCH64_TLSIE_LD64_GOTTPREL_LO12_NC,
            0x828,
            12,
        ),
    ] {
        let found = recognise(
            name,
            &Windows {
                original: &[0x01, 0x00, 0x40, 0xf9],
                offset: 0,
                others: &[],
                linked: &linked,
            },
        );
        let mut choices = found.into_iter().flatten();
        let made = Recognised {
            choice: Choice { kind, relocation },
            offset: 0,
            value: Some(low_bits(end, number)),
        };
        assert_eq!(choices.next(), Some(made));
        assert_eq!(choices.next(), None);
    }
}

/// `lui a0, 0` was deleted, and `lui s1, 2` became `c.lui s1, 2`, by GNU ld; a call became a `jal`
/// by both linkers.
#[test]
fn what_linkers_deleted_on_riscv_is_not_compared() {
    let delete = Choice { kind: RiscVKind::Hi20Delete, relocation: RiscVRelocation::R_RISCV_NONE };
    let compress =
        Choice { kind: RiscVKind::Hi20ToCLui, relocation: RiscVRelocation::R_RISCV_RVC_LUI };
    let name = RiscVRelocation::R_RISCV_HI20;
    let lui = [0x37, 0x05, 0x00, 0x00];
    let found = recognise(name, &Windows { original: &lui, offset: 0, others: &[], linked: &[] });
    let deleted = Recognised { choice: delete, offset: 0, value: None };
    assert_eq!(found, [Some(deleted), None, None, None, None, None]);
    let lui = [0xb7, 0x04, 0x00, 0x00];
    let found =
        recognise(name, &Windows { original: &lui, offset: 0, others: &[], linked: &[0x89, 0x64] });
    let made = found[1].expect("a choice");
    assert_eq!(found, [None, Some(made), None, None, None, None]);
    assert_eq!((made.choice, made.offset), (compress, 0));
    let value = made.value.expect("a value");
    for (number, is_read) in [(0x1800, true), (0x27ff, true), (0x2800, false), (0, false)] {
        assert_eq!(value.is_of(number), is_read);
    }
    // `c.li s1, 2` isn't what a linker makes of it
    let found =
        recognise(name, &Windows { original: &lui, offset: 0, others: &[], linked: &[0x89, 0x44] });
    assert_eq!(found, [None; 6]);
}

/// `c.lui a0, 1` became `c.li a0, 0` by both linkers. With another register it would be none.
#[test]
fn what_linkers_made_of_clui_is_recognised() {
    let name = RiscVRelocation::R_RISCV_RVC_LUI;
    let zeroed = Choice { kind: RiscVKind::CLuiToCLi, relocation: RiscVRelocation::R_RISCV_NONE };
    let made = Recognised { choice: zeroed, offset: 0, value: None };
    let found = recognise(
        name,
        &Windows { original: &[0x05, 0x65], offset: 0, others: &[], linked: &[0x01, 0x45] },
    );
    assert_eq!(found, [Some(made), None, None, None, None, None]);
    let found = recognise(
        name,
        &Windows { original: &[0x05, 0x65], offset: 0, others: &[], linked: &[0x81, 0x45] },
    );
    assert_eq!(found, [None; 6]);
}

/// GNU ld made `pcaddi` of `pcalau12i a0` and deleted `ld.d a0, a0`. The instruction of the other
/// relocation is named whole.
#[test]
fn what_gnu_ld_made_on_loongarch_is_recognised() {
    let near = Choice {
        kind: LoongArchKind::PcalaToPcaddi,
        relocation: LoongArch64Relocation::R_LARCH_PCREL20_S2,
    };
    let delete =
        Choice { kind: LoongArchKind::Delete, relocation: LoongArch64Relocation::R_LARCH_NONE };
    let first = FieldBits { offset: 0, bits: 0xffff_ffff };
    let second = FieldBits { offset: 4, ..first };
    let pair = [0x04, 0x00, 0x00, 0x1a, 0x84, 0x00, 0xc0, 0x28];
    let linked = [0xc4, 0xec, 0x0f, 0x18, 0x04, 0x64, 0x00, 0x1a];
    let name = LoongArch64Relocation::R_LARCH_GOT_PC_HI20;
    let found = recognise(
        name,
        &Windows { original: &pair, offset: 0, others: &[second], linked: &linked },
    );
    // `pcaddi a0, 0x7f66`, in units of 4 bytes
    let made = Recognised { choice: near, offset: 0, value: Some(whole(0x1fd98)) };
    assert_eq!(found, [Some(made), None, None, None, None, None]);
    let name = LoongArch64Relocation::R_LARCH_GOT_PC_LO12;
    let found = recognise(
        name,
        &Windows { original: &pair, offset: 4, others: &[first], linked: &linked[..4] },
    );
    let made = Recognised { choice: delete, offset: 4, value: None };
    assert_eq!(found, [Some(made), None, None, None, None, None]);
    // into another register
    let altered = [0xc5, 0xec, 0x0f, 0x18, 0x04, 0x64, 0x00, 0x1a];
    let name = LoongArch64Relocation::R_LARCH_GOT_PC_HI20;
    let found = recognise(
        name,
        &Windows { original: &pair, offset: 0, others: &[second], linked: &altered },
    );
    assert_eq!(found, [None; 6]);
}

/// `addis 3, 2, 0` became `nop`, and `addi 3, 3, 0` became `addi 3, 2, -32512`, by ld.lld and GNU
/// ld.
#[test]
fn what_linkers_made_on_powerpc64_is_recognised() {
    let nop = Choice { kind: Ppc64Kind::AddisToNop, relocation: Ppc64Relocation::R_PPC64_NONE };
    let low = Choice { kind: Ppc64Kind::BaseToToc, relocation: Ppc64Relocation::R_PPC64_TOC16 };
    let name = Ppc64Relocation::R_PPC64_TOC16_HA;
    let original = 0x3c62_0000u32.to_le_bytes();
    let found = recognise(
        name,
        &Windows {
            original: &original,
            offset: 0,
            others: &[],
            linked: &0x6000_0000u32.to_le_bytes(),
        },
    );
    let made = Recognised { choice: nop, offset: 0, value: None };
    assert_eq!(found, [Some(made), None, None, None, None, None]);
    let name = Ppc64Relocation::R_PPC64_TOC16_LO;
    let original = 0x3863_0000u32.to_le_bytes();
    let found = recognise(
        name,
        &Windows {
            original: &original,
            offset: 0,
            others: &[],
            linked: &0x3862_8100u32.to_le_bytes(),
        },
    );
    let made = Recognised { choice: low, offset: 0, value: Some(whole(-32512)) };
    assert_eq!(found, [Some(made), None, None, None, None, None]);
    // `addis 9, 13, 0` became `nop`, and `lwz 3, 0(9)` became `lwz 3, -28656(13)`, by GNU ld
    let nop = Choice { kind: Ppc64Kind::AddisThreadToNop, ..nop };
    let low =
        Choice { kind: Ppc64Kind::BaseToThread, relocation: Ppc64Relocation::R_PPC64_TPREL16 };
    let name = Ppc64Relocation::R_PPC64_TPREL16_HA;
    let original = 0x3d2d_0000u32.to_le_bytes();
    let found = recognise(
        name,
        &Windows {
            original: &original,
            offset: 0,
            others: &[],
            linked: &0x6000_0000u32.to_le_bytes(),
        },
    );
    let made = Recognised { choice: nop, offset: 0, value: None };
    assert_eq!(found, [Some(made), None, None, None, None, None]);
    let name = Ppc64Relocation::R_PPC64_TPREL16_LO;
    let original = 0x8069_0000u32.to_le_bytes();
    let found = recognise(
        name,
        &Windows {
            original: &original,
            offset: 0,
            others: &[],
            linked: &0x806d_9010u32.to_le_bytes(),
        },
    );
    let made = Recognised { choice: low, offset: 0, value: Some(whole(-28656)) };
    assert_eq!(found, [Some(made), None, None, None, None, None]);
}

/// `lq`, whose lowest four bits aren't its displacement's, and `ld`, of which that are two.
#[test]
fn a_field_is_that_of_the_instruction() {
    let row = linker_utils::ppc64::row(Ppc64Relocation::R_PPC64_TOC16_LO_DS);
    let row = row.expect("a row");
    let lq = 0xe083_0000u32;
    let ld = 0xe883_0000u32;
    for (word, bit, is_in) in [
        (lq, 0x8, false),
        (lq, 0x10, true),
        (lq, 0x8000, true),
        (lq, 0x1_0000, false),
        (ld, 0x2, false),
        (ld, 0x4, true),
        (ld, 0x8000, true),
        (ld, 0x1_0000, false),
    ] {
        let other: u32 = word ^ bit;
        assert_eq!(same_but_for(&row, &word.to_le_bytes(), &other.to_le_bytes()), is_in);
    }
}

/// R_RISCV_CALL_PLT (19) at `auipc` and `jalr`, which became `jal ra, -8`, R_RISCV_JAL (17).
#[test]
fn a_relocation_is_recognised_by_its_code() {
    let pair = [0x97, 0x00, 0x00, 0x00, 0xe7, 0x80, 0x00, 0x00];
    let jal = 0xff9f_f0efu32.to_le_bytes();
    let made = Recognised {
        choice: Choice { kind: Relaxation::RiscV(RiscVKind::CallToJal), relocation: 17 },
        offset: 0,
        value: Some(whole(-8)),
    };
    let found = architecture::recognise(
        Architecture::RiscV,
        19,
        &Windows { original: &pair, offset: 0, others: &[], linked: &jal },
    );
    assert_eq!(found, [None, None, None, Some(made), None, None]);
    // nothing is known that lets `choose` choose it
    let facts = LinkFacts::default();
    let found = architecture::recognise_chosen(
        Architecture::RiscV,
        19,
        &Windows { original: &pair, offset: 0, others: &[], linked: &jal },
        &facts,
    );
    assert_eq!(found, None);
}

/// Both ways of erasing an instruction of a TLS descriptor leave the same bytes.
#[test]
fn no_choice_is_returned_twice() {
    let name = RiscVRelocation::R_RISCV_TLSDESC_HI20;
    let auipc = [0x17, 0x05, 0x00, 0x00];
    let made = Recognised {
        choice: Choice { kind: RiscVKind::Delete, relocation: RiscVRelocation::R_RISCV_NONE },
        offset: 0,
        value: None,
    };
    let found = recognise(name, &Windows { original: &auipc, offset: 0, others: &[], linked: &[] });
    assert_eq!(found, [Some(made), None, None, None, None, None]);
}

/// `jirl ra, t0, %pc_lo12(f)` and `movk x0, #:prel_g0:f` before and after ld.lld 19.1.7. What differs
/// is in the field only, and stands there.
#[test]
fn jumps_and_kept_moves_are_recognised() {
    let name = LoongArch64Relocation::R_LARCH_PCALA_LO12;
    let before = 0x4c00_0180u32.to_le_bytes();
    let found = recognise(
        name,
        &Windows {
            original: &before,
            offset: 0,
            others: &[],
            linked: &0x4ff8_0180u32.to_le_bytes(),
        },
    );
    let choice = Choice { kind: LoongArchKind::NoOp, relocation: name };
    let made = Recognised { choice, offset: 0, value: Some(low_bits(12, 0x800)) };
    assert!(found.contains(&Some(made)), "{found:?}");
    // an `addi.d` has no bits above its 12, and another register isn't in the field
    let row = linker_utils::loongarch64::row(name).expect("a row");
    for (word, other, is_same) in [
        (0x4c00_0180u32, 0x4ff8_0180u32, true),
        (0x02c0_0084, 0x02ff_fc84, true),
        (0x02c0_0084, 0x0380_0084, false),
        (0x4c00_0180, 0x4ff8_0181, false),
    ] {
        assert_eq!(same_but_for(&row, &word.to_le_bytes(), &other.to_le_bytes()), is_same);
    }
    let g0 = AArch64Relocation::R_AARCH64_MOVW_PREL_G0;
    let row = linker_utils::aarch64::row(g0).expect("a row");
    for (word, other, is_same) in [
        (0xf280_0000u32, 0xf29d_ff80u32, true),
        (0xf280_0000, 0xd29d_ff80, false),
        (0xd280_0000, 0x9282_0060, true),
    ] {
        assert_eq!(same_but_for(&row, &word.to_le_bytes(), &other.to_le_bytes()), is_same);
    }
}

/// Bytes of an object with a relocation, and what a linker made of them.
struct Site {
    architecture: Architecture,
    r_type: u32,
    offset: usize,
    before: Vec<u8>,
    after: Vec<u8>,
    /// The rewrite, where a table names it.
    kind: Option<Relaxation>,
    /// Whether all but the relocation's own instruction is that of other relocations.
    is_one_of_many: bool,
}

fn bytes_of(words: &[u32]) -> Vec<u8> {
    words.iter().copied().flat_map(u32::to_le_bytes).collect()
}

/// All that linkers left in the tables of this folder.
fn sites() -> Vec<Site> {
    let mut all = vec![];
    let mut add = |architecture, r_type, offset, before: &[u8], after: &[u8], kind| {
        let (before, after) = (before.to_vec(), after.to_vec());
        let is_one_of_many = false;
        all.push(Site { architecture, r_type, offset, before, after, kind, is_one_of_many });
    };
    for it in &x86_64::REWRITES {
        let kind = Some(Relaxation::X86_64(it.kind));
        let (r_type, offset) = (it.name.r_type(), it.offset as usize);
        add(Architecture::X86_64, r_type, offset, &it.before, &it.after, kind);
    }
    for it in &x86_64::SEQUENCES {
        let kind = Some(Relaxation::X86_64(it.kind));
        let (r_type, offset) = (it.name.r_type(), it.offset as usize);
        add(Architecture::X86_64, r_type, offset, &it.before, &it.after, kind);
    }
    for &(r_type, _, _, place, before, after) in &ppc64::linked::SITES {
        let (before, after) = (before.to_le_bytes(), after.to_le_bytes());
        add(Architecture::Ppc64, r_type, (place % 4) as usize, &before, &after, None);
    }
    for &(r_type, _, _, _, _, before, after) in &riscv64::linked::SITES {
        let left = after.to_le_bytes();
        let left = if after == 0 { &[][..] } else { &left[..] };
        add(Architecture::RiscV, r_type, 0, &before.to_le_bytes(), left, None);
    }
    let pairs = riscv64::pairs::SHORTENED_LUI.iter();
    for (before, after) in pairs.map(|(before, _, after)| (&before[..4], &after[..2])) {
        let kind = Some(Relaxation::RiscV(RiscVKind::Hi20ToCLui));
        add(Architecture::RiscV, 26, 0, before, after, kind);
    }
    for (before, _, after) in &aarch64::NOP_ADR {
        let kind = Some(Relaxation::AArch64(AArch64Kind::AdrpAddToNopAdr));
        add(Architecture::AArch64, 277, 4, before, after, kind);
    }
    for &(r_type, offset, _, _, words, left) in &loongarch64::relaxed::SITES {
        let listed = listed(Architecture::LoongArch64, r_type, &[], 0);
        // GNU ld deletes what is a `nop` by the library
        if left == 0 && listed.iter().all(|it| it.kind.deleted().is_none()) {
            continue;
        }
        let index = (offset / 4) as usize;
        let mut after = words.to_vec();
        let mut kind = None;
        match left {
            0 => drop(after.remove(index)),
            _ => after[index] = left,
        }
        // `pcaddi`, `bl` and `b`
        match (left >> 25, left >> 26) {
            (0x0c, _) => kind = Some(LoongArchKind::PcalaToPcaddi),
            (_, 0x15) => kind = Some(LoongArchKind::CallToBl),
            (_, 0x14) => kind = Some(LoongArchKind::CallToB),
            _ => {}
        }
        if matches!(kind, Some(LoongArchKind::CallToBl | LoongArchKind::CallToB)) {
            after.remove(index + 1);
        }
        all.push(Site {
            architecture: Architecture::LoongArch64,
            r_type,
            offset: offset as usize,
            before: bytes_of(&words),
            after: bytes_of(&after),
            kind: kind.map(Relaxation::LoongArch64),
            is_one_of_many: true,
        });
    }
    all
}

/// Filler before and after the bytes of a site, so that there are 16 before an offset and 44 from
/// there on, or more.
fn between(bytes: &[u8]) -> Vec<u8> {
    [&[0xa5; 16][..], bytes, &[0xa5; 44]].concat()
}

/// What is recognised in exactly the window of `window_of`, the original bytes of the window, and
/// the offset there.
fn found_in_window(site: &Site) -> (Vec<Choice<Relaxation, u32>>, Vec<u8>, u64) {
    let (before, after) = (between(&site.before), between(&site.after));
    let from = site.offset / 4 * 4;
    let ample = &before[from..from + 60];
    let offset = 16 + site.offset - from;
    let window = architecture::window_of(site.architecture, site.r_type, ample, offset as u64);
    let begin = from + offset - window.back as usize;
    let original = &before[begin..begin + window.len as usize];
    let linked = &after[begin..begin + original.len() - (site.before.len() - site.after.len())];
    let own = window.back..window.back + 4;
    let others: Vec<FieldBits> = (0..window.len)
        .filter(|at| site.is_one_of_many && !own.contains(at))
        .map(|offset| FieldBits { offset, bits: 0xff })
        .collect();
    let found = architecture::recognise(
        site.architecture,
        site.r_type,
        &Windows { original, offset: window.back, others: &others, linked },
    );
    let choices = found.into_iter().flatten().map(|made| made.choice).collect();
    (choices, original.to_vec(), window.back)
}

#[test]
fn what_linkers_made_is_recognised_in_its_window() {
    for (index, site) in sites().iter().enumerate() {
        let (found, original, _) = found_in_window(site);
        let what = (index, site.architecture, site.r_type, original, &site.after);
        match site.kind {
            Some(kind) => assert!(found.iter().any(|it| it.kind == kind), "{what:x?}: {found:?}"),
            None => assert!(!found.is_empty(), "{what:x?}"),
        }
    }
}

/// The choices of a table, of whatever stands there.
macro_rules! listed {
    ($variant:ident, $kinds:ty, $names:ty, $r_type:expr, $bytes:expr, $at:expr) => {
        <$kinds as ChoiceTable>::entries(<$names>::from_elf($r_type), $bytes, $at)
            .iter()
            .map(|it| Choice {
                kind: Relaxation::$variant(it.kind),
                relocation: it.relocation.r_type(),
            })
            .collect()
    };
}

fn listed(
    architecture: Architecture,
    r_type: u32,
    bytes: &[u8],
    at: u64,
) -> Vec<Choice<Relaxation, u32>> {
    match architecture {
        Architecture::AArch64 => {
            listed!(AArch64, AArch64Kind, AArch64Relocation, r_type, bytes, at)
        }
        Architecture::RiscV => listed!(RiscV, RiscVKind, RiscVRelocation, r_type, bytes, at),
        Architecture::LoongArch64 => {
            listed!(LoongArch64, LoongArchKind, LoongArch64Relocation, r_type, bytes, at)
        }
        Architecture::Ppc64 => listed!(Ppc64, Ppc64Kind, Ppc64Relocation, r_type, bytes, at),
        Architecture::X86_64 => listed!(X86_64, X86Kind, X86_64Relocation, r_type, bytes, at),
        _ => unreachable!(),
    }
}

/// Each entry of each table, at instructions that its rewrite is meant for.
#[test]
fn each_entry_is_recognised_in_its_window() {
    let words = |words: &[u32], offsets: &[usize]| -> Vec<(Vec<u8>, usize)> {
        offsets.iter().map(|offset| (bytes_of(words), *offset)).collect()
    };
    let mut samples: Vec<(Architecture, Vec<u8>, usize)> = vec![];
    for site in sites() {
        samples.push((site.architecture, site.before, site.offset));
    }
    let others = [
        // adrp x0; ldr x0, [x0]; add x0, x0, #0; blr x1
        (
            Architecture::AArch64,
            words(&[0x9000_0000, 0xf940_0000, 0x9100_0000, 0xd63f_0020], &[0, 4, 8, 12]),
        ),
        // auipc ra; jalr ra, 0(ra); auipc t1; jr t1; lui a0; ld a1, 0(a0); sd a1, 0(a0)
        (
            Architecture::RiscV,
            words(
                &[0x97, 0x80e7, 0x317, 0x3_0067, 0x537, 0x5_3583, 0xb5_3023],
                &[0, 8, 16, 20, 24],
            ),
        ),
        // addi a0, a0, 0; jalr t0, 0(a1); c.lui a0, 1
        (Architecture::RiscV, words(&[0x5_0513, 0x5_82e7, 0x6505], &[0, 4, 8])),
        // pcaddu18i ra; jirl ra, ra; pcaddu18i t0; jr t0; pcalau12i a0; addi.d a0, a0
        (
            Architecture::LoongArch64,
            words(
                &[0x1e00_0001, 0x4c00_0021, 0x1e00_000c, 0x4c00_0180, 0x1a00_0004, 0x02c0_0084],
                &[0, 8, 16, 20],
            ),
        ),
        // addis 2, 12; addi 2, 2; bl; nop; addis 3, 13; addi 3, 3
        (
            Architecture::Ppc64,
            words(
                &[0x3c4c_0000, 0x3842_0000, 0x4800_0001, 0x6000_0000, 0x3c6d_0000, 0x3863_0000],
                &[0, 4, 8, 16, 20],
            ),
        ),
    ];
    for (architecture, all) in others {
        samples.extend(all.into_iter().map(|(bytes, offset)| (architecture, bytes, offset)));
    }
    for it in &x86_64::INSTRUCTIONS {
        samples.push((Architecture::X86_64, it.bytes.to_vec(), it.offset as usize));
    }
    // adc, and, or, sbb and xor with REX2 and EVEX
    for opcode in [0x13, 0x23, 0x0b, 0x1b, 0x33] {
        let (rex2, evex) = ([0xd5, 0x48, opcode, 0x1d], [0x62, 0xf4, 0xec, 0x10, opcode, 0x0d]);
        samples.push((Architecture::X86_64, [&rex2[..], &[0; 4]].concat(), 4));
        samples.push((Architecture::X86_64, [&evex[..], &[0; 4]].concat(), 6));
    }
    let (mut all, mut tried) = (BTreeSet::new(), BTreeSet::new());
    let name = |r_type: u32, it: &Choice<Relaxation, u32>| {
        (r_type, format!("{:?}", it.kind), it.relocation)
    };
    for r_type in 0..300 {
        for architecture in [
            Architecture::AArch64,
            Architecture::RiscV,
            Architecture::LoongArch64,
            Architecture::Ppc64,
        ] {
            all.extend(listed(architecture, r_type, &[], 0).iter().map(|it| name(r_type, it)));
        }
        for opcode in 0..=u8::MAX {
            let entries = listed(Architecture::X86_64, r_type, &[opcode, 0], 2);
            all.extend(entries.iter().map(|it| name(r_type, it)));
        }
        for (architecture, before, offset) in &samples {
            let mut site = Site {
                architecture: *architecture,
                r_type,
                offset: *offset,
                before: before.clone(),
                after: before.clone(),
                kind: None,
                is_one_of_many: false,
            };
            for choice in listed(*architecture, r_type, before, *offset as u64) {
                if !choice.kind.matches(before, *offset as u64) {
                    continue;
                }
                let (mut at, mut addend) = (*offset as u64, 0);
                site.after = before.clone();
                choice.kind.apply(&mut site.after, &mut at, &mut addend);
                if let Some(deleted) = choice.kind.deleted() {
                    let start = offset + deleted.start as usize;
                    site.after.drain(start..start + deleted.count as usize);
                }
                let (found, original, back) = found_in_window(&site);
                assert!(found.contains(&choice), "{r_type}: {choice:?} in {original:x?} at {back}");
                tried.insert(name(r_type, &choice));
            }
        }
    }
    // no `mov`, `sub`, `cmp` or `test` has EVEX
    let without = ["Mov", "Sub", "Cmp", "Test"].map(|it| format!("Rex{it}IndirectToAbsolute(6)"));
    let untried: Vec<_> = all
        .difference(&tried)
        .filter(|(_, kind, _)| !without.iter().any(|it| kind.contains(it)))
        .collect();
    assert!(untried.is_empty(), "{} of {}: {untried:?}", untried.len(), all.len());
}

/// Branches of PowerPC64 and a word with an address, as ld.lld 19.1.7 linked them: the relocation,
/// the words before and after, the address, and the symbol's `st_other` and value. GNU ld 2.40 wrote
/// the same branches. Those of functions with two entry points go to the local one.
#[test]
fn a_branch_leads_to_the_symbol_of_its_local_entry() {
    let table: [(u32, u64, u64, u64, u8, u64, u64); 6] = [
        (10, 0x4800_0001, 0x4800_0029, 0x1001_01c8, 0x60, 0x1001_01e8, 0x1001_01f0),
        (10, 0x4800_0001, 0x4800_0035, 0x1001_01d0, 0x80, 0x1001_01f4, 0x1001_0204),
        (116, 0x4800_0001, 0x4800_0031, 0x1001_01d8, 0x20, 0x1001_0208, 0x1001_0208),
        (11, 0x4182_0000, 0x4182_0014, 0x1001_01dc, 0x60, 0x1001_01e8, 0x1001_01f0),
        (10, 0x4800_0001, 0x4800_0011, 0x1001_01e0, 0x60, 0x1001_01e8, 0x1001_01f0),
        // R_PPC64_ADDR64
        (38, 0, 0x1001_01e8, 0x1003_0200, 0x60, 0x1001_01e8, 0x1001_01e8),
    ];
    for (r_type, before, after, place, st_other, symbol, entry) in table {
        let is_branch = r_type != 38;
        let len = if is_branch { 4 } else { 8 };
        let (original, linked) = (before.to_le_bytes(), after.to_le_bytes());
        let (original, linked) = (&original[..len], &linked[..len]);
        let of = Architecture::Ppc64;
        let found = architecture::recognise(
            of,
            r_type,
            &Windows { original, offset: 0, others: &[], linked },
        );
        let made = found.into_iter().flatten().next().expect("a choice");
        let operands = Operands { place, ..Operands::default() };
        let led = architecture::destination_of(of, &made, original, 0, &operands);
        let led = led.expect("a destination");
        assert_eq!(
            (led.symbol(st_other), led.local_entry()),
            (Some(symbol), Some(entry)),
            "{r_type}"
        );
        assert_eq!(led.is_local_entry, is_branch, "{r_type}");
    }
}

/// A field is at an offset of the whole window. Of what begins there it isn't.
#[test]
fn a_field_outside_of_the_window_is_an_error() {
    let row = linker_utils::riscv64::row(RiscVRelocation::R_RISCV_JAL).expect("a row");
    // c.nop; jal zero, 0
    let window = [0x01, 0x00, 0x6f, 0x00, 0x00, 0x00];
    let field = FieldBits { offset: 2, bits: 0xffff_f000 };
    assert_eq!(FieldBits::of_row(&row, 2, &window), Ok(field));
    assert_eq!(FieldBits::of_row(&row, 2, &window[2..]), Err(RelocateError::TooShort));
    assert_eq!(FieldBits::of_row(&row, u64::MAX, &window), Err(RelocateError::TooShort));
}
