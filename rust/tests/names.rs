// SPDX-License-Identifier: MIT OR Apache-2.0
//! Names of relocations and architectures: their texts and numbers, and lists of all.

use linker_utils::aarch64::AArch64Relocation;
use linker_utils::elf::Architecture;
use linker_utils::loongarch64::LoongArch64Relocation;
use linker_utils::names::{UnknownMachine, UnknownName};
use linker_utils::ppc64::Ppc64Relocation;
use linker_utils::riscv64::RiscVRelocation;
use linker_utils::x86_64::X86_64Relocation;

/// The variants but `Other` that the source of an enum has.
fn variants(source: &str) -> Vec<&str> {
    let (_, body) = source.split_once("\npub enum ").expect("an enum");
    let (body, _) = body.split_once("\n}").expect("its end");
    let variants = body.lines().map(str::trim).filter_map(|line| line.strip_suffix(','));
    variants.filter(|name| !name.contains('(')).collect()
}

macro_rules! all_names {
    ($names:ident, $folder:literal, $other:literal) => {
        let mut listed: Vec<&str> = $names::ALL.iter().map(|name| name.name()).collect();
        assert!($names::ALL.windows(2).all(|pair| u32::from(pair[0]) < u32::from(pair[1])));
        for &name in $names::ALL {
            assert_eq!($names::from(u32::from(name)), name);
            assert_eq!(name.to_string().parse(), Ok(name));
        }
        let mut wanted = variants(include_str!(concat!("../src/linker_elf/", $folder, "/relocations.rs")));
        listed.sort();
        wanted.sort();
        assert_eq!(listed, wanted);

        let other = $names::from($other);
        assert_eq!((other, u32::from(other)), ($names::Other($other), $other));
        assert_eq!(other.to_string(), format!("unknown relocation {}", $other));
        assert_eq!(other.name().parse::<$names>(), Err(UnknownName));
    };
}

#[test]
fn all_names_are_listed_and_parsed() {
    all_names!(AArch64Relocation, "aarch64", 1);
    all_names!(LoongArch64Relocation, "loongarch64", 0x1_0000);
    all_names!(Ppc64Relocation, "ppc64", 2047);
    all_names!(RiscVRelocation, "riscv64", 2048);
    all_names!(X86_64Relocation, "x86_64", 4_294_967_295u32);
}

#[test]
fn architectures_are_numbers_and_texts() {
    // EM_PPC64, EM_X86_64, EM_AARCH64, EM_RISCV and EM_LOONGARCH of elf.h
    let texts = [21, 62, 183, 243, 258].map(|machine| {
        let architecture = Architecture::try_from(machine).expect("a known machine");
        assert_eq!(u16::from(architecture), machine);
        architecture.to_string()
    });
    assert_eq!(texts, ["PowerPC64", "x86-64", "AArch64", "RISC-V", "LoongArch"]);
    let mut machines = Architecture::ALL.iter().map(|of| of.machine()).collect::<Vec<_>>();
    machines.sort();
    assert_eq!(machines, [21, 62, 183, 243, 258]);
    assert_eq!(Architecture::try_from(3), Err(UnknownMachine(3)));
    assert_eq!(UnknownMachine(3).to_string(), "the architecture with e_machine 3 is not known");
}

#[test]
fn rows_are_constants() {
    const ROW: Option<linker_utils::elf::RelocationKindInfo> =
        linker_utils::aarch64::relocation_type_from_raw(AArch64Relocation::R_AARCH64_CALL26);
    let row = linker_utils::aarch64::row(AArch64Relocation::R_AARCH64_CALL26).expect("a row");
    assert_eq!(ROW, linker_utils::elf::RelocationKindInfo::of(row.info()));
    assert_eq!(Some(row), Architecture::AArch64.row(283));
    assert!(format!("{row:?}").starts_with("Row(RowInfo { kind: "));
    for &architecture in Architecture::ALL {
        let of_codes = (0..0x1_0000).filter_map(|r_type| Some((r_type, architecture.row(r_type)?)));
        assert!(architecture.rows().eq(of_codes));
    }
}
