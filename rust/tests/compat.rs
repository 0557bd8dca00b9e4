// SPDX-License-Identifier: MIT OR Apache-2.0
//! A linker that used the crate `linker-utils` runs with `compat` in its place.

use linker_utils::compat as linker_utils;

use linker_utils::aarch64;
use linker_utils::bit_misc::BitExtraction;
use linker_utils::elf::{
    Ppc64Instruction, RelocationInstruction, RelocationKind, RelocationKindInfo, RelocationSize,
    RiscVInstruction,
};
use linker_utils::relaxation::{
    RelaxDelta, RelaxDeltaMap, RelocationModifier, SectionRelaxDeltas, opt_input_to_output,
};
use linker_utils::riscv64::{self, JAL_RANGE, distance_fits_jal};
use linker_utils::utils::{read_uleb128, slice_from_all_bytes, slice_from_all_bytes_mut};
use linker_utils::{loongarch64, ppc64, x86_64};

#[test]
fn relocations_are_numbers() {
    // the codes of elf.h
    let rows = [
        (aarch64::relocation_type_from_raw(283), RelocationKind::PltRelative),
        (riscv64::relocation_type_from_raw(17), RelocationKind::Relative),
        (loongarch64::relocation_type_from_raw(2), RelocationKind::Absolute),
        (ppc64::relocation_type_from_raw(38), RelocationKind::Absolute),
        (x86_64::relocation_from_raw(4), RelocationKind::PltRelative),
    ];
    for (row, kind) in rows {
        assert_eq!(row.expect("a row").kind, kind);
    }
    // TLS descriptors of RISC-V have no row there
    assert_eq!(riscv64::relocation_type_from_raw(62), None);
    assert_eq!(aarch64::relocation_type_from_raw(u32::MAX), None);
}

#[test]
fn deletions_are_vectors() {
    let mut map = RelaxDeltaMap::default();
    assert!(map.is_empty());
    map.insert(5, SectionRelaxDeltas::new(vec![(4, 4)]));
    map.insert_sorted(2, SectionRelaxDeltas::default());
    map.get_mut(5).expect("a section").merge_additional(vec![(20, 2), (16, 2)]);
    let deltas = map.get(5).expect("a section");
    let listed = [(4, 4, 4), (16, 6, 2), (20, 8, 2)].map(
        |(input_offset, cumulative_deleted, bytes_deleted)| RelaxDelta {
            input_offset,
            cumulative_deleted,
            bytes_deleted,
        },
    );
    assert_eq!(deltas.deltas(), listed);
    assert_eq!(opt_input_to_output(Some(deltas), 32), 24);
    assert_eq!(opt_input_to_output(map.get(3), 32), 32);
    assert_eq!(deltas.output_to_input_offset(24), 32);
    let mut merged = SectionRelaxDeltas::default();
    merged.merge_additional(vec![(16, 2), (4, 4)]);
    merged.merge_additional(vec![]);
    assert_eq!(merged, SectionRelaxDeltas::new(vec![(4, 4), (16, 2)]));
    let mut cursor = deltas.cursor();
    assert_eq!((cursor.translate(4), cursor.translate(18)), (4, 12));
    assert_eq!(map.clone().get(2).map(|deltas| deltas.is_empty()), Some(true));
}

#[test]
fn calls_are_relaxed() {
    assert_eq!((*JAL_RANGE.start(), *JAL_RANGE.end()), (-(1 << 20), (1 << 20) - 1));
    for distance in [-(1 << 20) - 1, -(1 << 20), 0, (1 << 20) - 1, 1 << 20] {
        assert_eq!(JAL_RANGE.contains(&distance), distance_fits_jal(distance));
    }
    // `auipc ra, 0` and `jalr ra, 0(ra)`
    let mut section = [0x97, 0, 0, 0, 0xe7, 0x80, 0, 0];
    let (mut offset, mut addend) = (0, 0);
    let kind = riscv64::RelaxationKind::CallToJal;
    kind.apply(&mut section, &mut offset, &mut addend);
    assert_eq!(kind.next_modifier(), RelocationModifier::SkipNextRelocation);
    let row = riscv64::relocation_type_from_raw(17).expect("R_RISCV_JAL");
    let RelocationSize::BitMasking { range, insn } = row.size else { panic!("bits") };
    assert_eq!((range.start, range.end), (0, 32));
    assert_eq!(insn, RelocationInstruction::RiscV(RiscVInstruction::JType));
    RiscVInstruction::JType.write_to_value(8u64.extract_bit_range(0..32), false, &mut section);
    assert_eq!(section[..4], 0x0080_00efu32.to_le_bytes()); // jal ra, 8
}

/// The name of a rewrite, by a match with an arm for each of the original's and no other.
macro_rules! name_of {
    ($kind:expr, $module:ident: $($name:ident $(($count:pat))?)*) => {
        match $kind {
            $($module::RelaxationKind::$name$(($count))? => stringify!($name),)*
        }
    };
}

#[test]
fn rewrites_are_those_of_the_original() {
    let kind = aarch64::RelaxationKind::LdrToAdd;
    let name = name_of! { kind, aarch64:
        NoOp ReplaceWithNop MovzX0Lsl16 MovkX0 MovzXnLsl16 MovkXn AdrpToAdr AdrpX0 LdrX0 AddToAdr
        LdrToAdr LdrToAdd AdrpAddToNopAdr
    };
    assert_eq!(name, "LdrToAdd");
    let kind = riscv64::RelaxationKind::Hi20Delete;
    let name = name_of! { kind, riscv64:
        NoOp ReplaceWithNop CallToJal Hi20ToCLui Hi20Delete Lo12Rs1ToZero
    };
    assert_eq!(name, "Hi20Delete");
    let kind = loongarch64::RelaxationKind::ReplaceWithNop;
    assert_eq!(name_of!(kind, loongarch64: NoOp ReplaceWithNop), "ReplaceWithNop");
    assert_eq!(name_of!(ppc64::RelaxationKind::NoOp, ppc64: NoOp), "NoOp");
    let kind = x86_64::RelaxationKind::RexCmpIndirectToAbsolute(3);
    let name = name_of! { kind, x86_64:
        MovIndirectToLea MovIndirectToAbsolute RexMovIndirectToAbsolute(_)
        RexAddIndirectToAbsolute(_) RexSubIndirectToAbsolute(_) RexCmpIndirectToAbsolute(_)
        CallIndirectToRelative JmpIndirectToRelative NoOp TlsGdToLocalExec TlsGdToLocalExecLarge
        TlsLdToLocalExec TlsLdToLocalExecNoPlt TlsLdToLocalExec64 TlsGdToInitialExec
        TlsDescToLocalExec(_) TlsDescToInitialExec SkipTlsDescCall
    };
    assert_eq!(name, "RexCmpIndirectToAbsolute");
}

/// By matches with an arm for each form of the original's and no other.
#[test]
fn forms_are_those_of_the_original() {
    let mut counts = [0; 4];
    for row in (0..256).filter_map(ppc64::relocation_type_from_raw) {
        let RelocationSize::BitMasking { insn, .. } = row.size else { continue };
        let form = match insn {
            RelocationInstruction::Ppc64(form) => form,
            RelocationInstruction::AArch64(_)
            | RelocationInstruction::RiscV(_)
            | RelocationInstruction::LoongArch64(_) => panic!("{insn:?}"),
        };
        counts[match form {
            Ppc64Instruction::D => 0,
            Ppc64Instruction::Ds => 1,
            Ppc64Instruction::Branch14 => 2,
            Ppc64Instruction::Branch24 => 3,
        }] += 1;
    }
    assert_eq!(counts, [22, 7, 1, 1]);
    // R_PPC64_PCREL34
    let row = ppc64::row(ppc64::Ppc64Relocation::from_elf(132)).expect("a row");
    assert_eq!(RelocationKindInfo::of(row.info()), None);
}

#[test]
fn bytes_are_slices() {
    let mut words = [1u32, 2, 3];
    // of the words' own bytes, so that they are aligned
    let bytes: &mut [u8] = object::bytes_of_slice_mut(&mut words);
    slice_from_all_bytes_mut::<u32>(&mut bytes[..11])[1] = 7;
    assert_eq!(slice_from_all_bytes::<u32>(bytes), [1, 7, 3]);
    let mut content: &[u8] = &[0xe5, 0x8e, 0x26, 0x07];
    assert_eq!((read_uleb128(&mut content).expect("a number"), content), (624_485, &[7][..]));
}

#[test]
#[cfg(debug_assertions)]
fn sections_that_are_there_or_not_in_order_are_rejected() {
    let one = || {
        let mut map = RelaxDeltaMap::new();
        map.insert(5, SectionRelaxDeltas::default());
        map
    };
    let rejects = |insert: fn(&mut RelaxDeltaMap, usize, SectionRelaxDeltas), index| {
        let mut map = one();
        std::panic::catch_unwind(move || insert(&mut map, index, SectionRelaxDeltas::default()))
            .is_err()
    };
    assert!(rejects(RelaxDeltaMap::insert, 5) && rejects(RelaxDeltaMap::insert, 4));
    assert!(rejects(RelaxDeltaMap::insert_sorted, 5) && !rejects(RelaxDeltaMap::insert_sorted, 4));
}
