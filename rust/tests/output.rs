// SPDX-License-Identifier: MIT OR Apache-2.0
//! What a linker adds to an output, against `<elf.h>` of the machine and numbers of linkers.

use linker_utils::elf::{AllowedRange, Architecture, RelocateError};
use linker_utils::output::{
    AddressSection, CodeUnit, DynamicType, DynamicTypes, FlagRules, GotHeader, GotLayout, Origins,
    Stub, StubError, StubField, StubKind, Target, ThreadPointer, WordLoad, entry_words,
    static_words,
};
use linker_utils::section::EntryClass;
use std::collections::HashMap;
use std::fs;

const ALL: [Architecture; 5] = [
    Architecture::AArch64,
    Architecture::RiscV,
    Architecture::LoongArch64,
    Architecture::Ppc64,
    Architecture::X86_64,
];

/// The constants that `<elf.h>` defines as numbers, or as other constants.
fn constants() -> HashMap<String, u32> {
    let text = fs::read_to_string("/usr/include/elf.h").unwrap();
    let mut numbers: HashMap<String, u32> = HashMap::new();
    for line in text.lines() {
        let mut words = line.split_whitespace();
        if words.next() != Some("#define") {
            continue;
        }
        let (Some(name), Some(value)) = (words.next(), words.next()) else {
            continue;
        };
        let number = match value.strip_prefix("0x") {
            Some(digits) => u32::from_str_radix(digits, 16).ok(),
            None => value.parse().ok().or_else(|| numbers.get(value).copied()),
        };
        if let Some(number) = number {
            numbers.insert(name.to_string(), number);
        }
    }
    numbers
}

fn listed(types: &DynamicTypes) -> Vec<DynamicType> {
    let mut all = vec![
        types.word,
        types.relative,
        types.glob_dat,
        types.jump_slot,
        types.copy,
        types.irelative,
        types.module_number,
        types.module_offset,
        types.thread_offset,
    ];
    all.extend(types.descriptor);
    all
}

#[test]
fn types_have_the_codes_of_elf_h() {
    // glibc has these since 2.38 and 2.39
    let newer = [("R_LARCH_TLS_DESC64", 14), ("R_RISCV_TLSDESC", 12)];
    let constants = constants();
    let mut compared = 0;
    for target in ALL.map(|architecture| *Target::of(architecture)).iter().chain([&Target::riscv32()]) {
        for kind in listed(&target.dynamic) {
            let known = constants.get(kind.name).copied().or_else(|| {
                newer
                    .iter()
                    .find(|(name, _)| *name == kind.name)
                    .map(|(_, code)| *code)
            });
            assert_eq!(Some(kind.r_type), known, "{}", kind.name);
            assert_eq!(target.dynamic_name(kind.r_type), Some(kind.name));
            compared += 1;
        }
        assert_eq!(target.dynamic_name(0), None);
    }
    assert_eq!(compared, 59);
}

#[test]
fn loads_of_words_have_the_codes_of_elf_h() {
    let constants = constants();
    for architecture in ALL {
        let target = Target::of(architecture);
        let name = target.address_section.map(|section| section.name);
        let expected = (architecture == Architecture::Ppc64).then_some(".toc");
        assert_eq!(name, expected);
        // the same halves of an address, by the TOC pointer and by an entry of the GOT
        for half in ["HA", "LO", "LO_DS"] {
            let code = |of: &str| constants[&format!("R_PPC64_{of}16_{half}")];
            let entry = name.map(|_| code("GOT"));
            assert_eq!(target.entry_r_type(code("TOC")), entry);
            assert_eq!(target.entry_r_type(code("GOT")), None);
        }
        for other in ["R_PPC64_TOC16", "R_PPC64_TOC16_DS", "R_PPC64_TOC16_HI"] {
            assert_eq!(target.entry_r_type(constants[other]), None);
        }
    }
}

#[test]
fn flags_are_those_of_elf_h() {
    let constants = constants();
    let of = |name: &str| constants[name];

    let riscv = Target::of(Architecture::RiscV);
    let (rvc, rve, tso) = (of("EF_RISCV_RVC"), of("EF_RISCV_RVE"), of("EF_RISCV_TSO"));
    let double = of("EF_RISCV_FLOAT_ABI_DOUBLE");
    assert_eq!(riscv.flags.same, of("EF_RISCV_FLOAT_ABI") | rve);
    assert_eq!(riscv.flags.joined, rvc | tso);
    assert_eq!(
        riscv.join_flags(double | rvc, double | tso),
        Some(double | rvc | tso)
    );
    assert_eq!(
        riscv.join_flags(double, of("EF_RISCV_FLOAT_ABI_SINGLE")),
        None
    );
    assert_eq!(riscv.join_flags(double, 0), None);
    assert_eq!(riscv.join_flags(rve, 0), None);
    assert_eq!(riscv.join_flags(0x20, 0), None);

    let loongarch = Target::of(Architecture::LoongArch64);
    let hard = of("EF_LARCH_ABI_DOUBLE_FLOAT") | of("EF_LARCH_OBJABI_V1");
    assert_eq!(loongarch.join_flags(hard, hard), Some(hard));
    let soft = of("EF_LARCH_ABI_SOFT_FLOAT") | of("EF_LARCH_OBJABI_V1");
    assert_eq!(loongarch.join_flags(hard, soft), None);
    assert_eq!(
        loongarch.join_flags(hard, of("EF_LARCH_ABI_DOUBLE_FLOAT")),
        None
    );

    let ppc64 = Target::of(Architecture::Ppc64);
    assert_eq!(of("EF_PPC64_ABI"), 3);
    assert_eq!(ppc64.join_flags(0, 2), Some(2));
    assert_eq!(ppc64.join_flags(2, 0), Some(2));
    assert_eq!(
        ppc64
            .join_flags(0, 0)
            .map(|joined| ppc64.output_flags(joined)),
        Some(2)
    );
    assert_eq!(ppc64.join_flags(2, 1), None);
    assert_eq!(ppc64.join_flags(1, 1), None);

    for architecture in [Architecture::AArch64, Architecture::X86_64] {
        assert_eq!(Target::of(architecture).join_flags(0, 0), Some(0));
        assert_eq!(Target::of(architecture).join_flags(0, 1), None);
    }
}

/// `local-exec` offsets of a variable at the start of an image with these addresses, lengths and
/// alignments, as ld.lld writes them.
#[test]
fn thread_pointers_are_where_linkers_have_them() {
    // architecture, image, length, alignment, offset from the thread pointer, offset in the block
    let cases: &[(Architecture, u64, u64, u64, i64, i64)] = &[
        (Architecture::X86_64, 0x20_0000, 0x14, 8, -0x18, 0),
        (Architecture::X86_64, 0x20_0000, 0x40, 64, -0x40, 0),
        (Architecture::AArch64, 0x20_0000, 0x14, 8, 0x10, 0),
        (Architecture::AArch64, 0x20_0000, 0x14, 64, 0x40, 0),
        (Architecture::RiscV, 0x20_0000, 0x14, 64, 0, -0x800),
        (Architecture::LoongArch64, 0x20_0000, 0x14, 64, 0, 0),
        (Architecture::Ppc64, 0x20_0000, 0x14, 64, -0x7000, -0x8000),
    ];
    for &(architecture, image, len, alignment, thread, block) in cases {
        let origins = Target::of(architecture).origins(image, len, alignment);
        assert_eq!(
            image.wrapping_sub(origins.thread_pointer) as i64,
            thread
        );
        assert_eq!(
            image.wrapping_sub(origins.module_block) as i64,
            block
        );
        let none = Target::of(architecture).origins(image, len, 0);
        assert_eq!(none, Target::of(architecture).origins(image, len, 1));
    }
}

#[test]
fn entries_have_the_words_of_their_class() {
    let origins = Origins {
        thread_pointer: 0x3_0000,
        module_block: 0x2_0800,
    };
    for (class, len, words) in [
        (EntryClass::Address, 1, Some([0x2_0010, 0])),
        (
            EntryClass::ThreadOffset,
            1,
            Some([0_u64.wrapping_sub(0xfff0), 0]),
        ),
        (
            EntryClass::ModuleOffset,
            2,
            Some([1, 0_u64.wrapping_sub(0x7f0)]),
        ),
        (EntryClass::Module, 2, Some([1, 0])),
        (EntryClass::Descriptor, 2, None),
    ] {
        assert_eq!(entry_words(class), len);
        assert_eq!(static_words(class, 0x2_0010, origins), words);
    }
}

#[test]
fn dynamic_relocations_are_those_of_words_that_are_not_known() {
    for architecture in ALL {
        let target = Target::of(architecture);
        let types = &target.dynamic;
        let all = |class| {
            [(false, false), (false, true), (true, false), (true, true)].map(
                |(is_bound, is_executable)| target.dynamic_words(class, is_bound, is_executable),
            )
        };
        let imported = [Some(types.glob_dat.r_type), None];
        let own = [Some(types.relative.r_type), None];
        assert_eq!(all(EntryClass::Address), [imported, imported, own, own]);
        let offset = [Some(types.thread_offset.r_type), None];
        assert_eq!(
            all(EntryClass::ThreadOffset),
            [offset, offset, offset, [None, None]]
        );
        let module = [Some(types.module_number.r_type), None];
        let both = [
            Some(types.module_number.r_type),
            Some(types.module_offset.r_type),
        ];
        assert_eq!(
            all(EntryClass::ModuleOffset),
            [both, both, module, [None, None]]
        );
        let unknown = [None, None];
        assert_eq!(all(EntryClass::Module), [module, unknown, module, unknown]);
        let descriptor = [types.descriptor.map(|kind| kind.r_type), None];
        assert_eq!(all(EntryClass::Descriptor), [descriptor; 4]);
    }
}

#[test]
fn texts_and_fillers_are_those_of_each_architecture() {
    // paths as `-dumpspecs` of GCC has them
    for (architecture, flags, path) in [
        (Architecture::AArch64, 0, Some("/lib/ld-linux-aarch64.so.1")),
        (
            Architecture::RiscV,
            1,
            Some("/lib/ld-linux-riscv64-lp64.so.1"),
        ),
        (
            Architecture::RiscV,
            0x13,
            Some("/lib/ld-linux-riscv64-lp64f.so.1"),
        ),
        (
            Architecture::RiscV,
            4,
            Some("/lib/ld-linux-riscv64-lp64d.so.1"),
        ),
        (Architecture::RiscV, 6, None),
        (
            Architecture::LoongArch64,
            0x41,
            Some("/lib64/ld-linux-loongarch-lp64s.so.1"),
        ),
        (
            Architecture::LoongArch64,
            0x42,
            Some("/lib64/ld-linux-loongarch-lp64f.so.1"),
        ),
        (
            Architecture::LoongArch64,
            0x43,
            Some("/lib64/ld-linux-loongarch-lp64d.so.1"),
        ),
        (Architecture::LoongArch64, 0x40, None),
        (Architecture::Ppc64, 2, Some("/lib64/ld64.so.2")),
        (Architecture::X86_64, 0, Some("/lib64/ld-linux-x86-64.so.2")),
    ] {
        assert_eq!(Target::of(architecture).interpreter(flags), path);
    }
    let filler = |architecture| {
        let target = Target::of(architecture);
        u32::from_le_bytes([4, 5, 6, 7].map(|offset| target.filler(offset)))
    };
    // `udf #0`, `break 0`, `trap` and four of `int3`
    assert_eq!(filler(Architecture::AArch64), 0);
    assert_eq!(filler(Architecture::LoongArch64), 0x002a_0000);
    assert_eq!(filler(Architecture::Ppc64), 0x7fe0_0008);
    assert_eq!(filler(Architecture::X86_64), 0xcccc_cccc);
    assert_eq!(Target::of(Architecture::Ppc64).symbols[0].name, ".TOC.");
    assert_eq!(Target::of(Architecture::RiscV).symbols[0].offset, 0x800);
    assert_eq!(
        Target::of(Architecture::X86_64).symbols[0].name,
        "_TLS_MODULE_BASE_"
    );
}

const PLACE: u64 = 0x40_1000;
const WORD: u64 = 0x4_1238;
const FAR: u64 = 0x334_5678;

/// Of each stub the bytes that clang 19 and ld.lld 19 make of its instructions, and of PowerPC64's GNU
/// as, at `PLACE`, for a word at `WORD` or a target at `FAR`.
const STUBS: [(Architecture, StubKind, &str); 10] = [
    (Architecture::X86_64, StubKind::Load, "ff253202c4ffcccc"),
    (
        Architecture::X86_64,
        StubKind::LandingLoad,
        "f30f1efaff252e02c4ff660f1f440000",
    ),
    (
        Architecture::AArch64,
        StubKind::LandingLoad,
        "5f2403d510e2ff90111e41f920021fd6",
    ),
    (
        Architecture::AArch64,
        StubKind::Load,
        "10e2ff90111e41f920021fd6",
    ),
    (
        Architecture::AArch64,
        StubKind::Jump,
        "307a019010e2199100021fd6",
    ),
    (
        Architecture::RiscV,
        StubKind::Load,
        "170ec4ff033e8e2367000e00",
    ),
    (
        Architecture::LoongArch64,
        StubKind::Load,
        "0f88ff1befe1c828e001004c",
    ),
    (
        Architecture::LoongArch64,
        StubKind::Jump,
        "af17001ee079464c",
    ),
    (
        Architecture::Ppc64,
        StubKind::Load,
        "180041f8a602087c05009f42a602887da603087cc4ff8c3d2c028ce9a603897d2004804e",
    ),
    (
        Architecture::Ppc64,
        StubKind::Jump,
        "180041f8a602087c05009f42a602887da603087cf4028c3d6c468c39a603897d2004804e",
    ),
];

fn bytes(hex: &str) -> Vec<u8> {
    let digits = |at: usize| u8::from_str_radix(&hex[at..at + 2], 16).unwrap();
    (0..hex.len()).step_by(2).map(digits).collect()
}

/// The first is ld.lld 19's `__AArch64AbsLongThunk_far`, the second GNU ld 2.40's `__far_veneer`, both
/// linked with `--defsym far=0x123456789abcdef0`.
#[test]
fn stubs_to_anywhere_are_those_of_linkers() {
    let (target, far) = (Target::of(Architecture::AArch64), 0x1234_5678_9abc_def0);
    for (kind, place, hex) in [
        (StubKind::Far, 0x21_0004, "5000005800021fd6f0debc9a78563412"),
        (
            StubKind::FarRelative,
            0x21_0010,
            "90000058110000101002118b00021fd6dcde9b9a78563412",
        ),
    ] {
        let expected = bytes(hex);
        let mut out = vec![0x55; expected.len()];
        assert_eq!(target.write_stub(kind, place, far, &mut out), Ok(()));
        assert_eq!(out, expected);
        for other in ALL.into_iter().filter(|other| *other != Architecture::AArch64) {
            assert_eq!(Target::of(other).stub(kind), None);
        }
    }
    // to an address below the stub's
    let mut out = [0; 24];
    assert_eq!(target.write_stub(StubKind::FarRelative, 0x10_0000, 0x1000, &mut out), Ok(()));
    assert_eq!(out[16..], 0x1000_u64.wrapping_sub(0x10_0004).to_le_bytes());
}

/// ld.lld 19's `__plt_f` and `__long_branch_far`, of words by the TOC pointer 0x2001_8140, and with
/// `--power10-stubs=yes` `__plt_pcrel_f` and `__gep_setup_g`.
#[test]
fn stubs_of_ppc64_are_those_of_ld_lld() {
    let target = Target::of(Architecture::Ppc64);
    let toc = 0x2001_8140;
    for (kind, place, to, entry, hex) in [
        (StubKind::TocLoad, toc, 0x2123_4578, 4, "180041f82201823d38c48ce9a603897d2004804e"),
        (StubKind::TocFar, toc, 0x20fe_7ff8, 0, "fd00823db8fe8ce9a603897d2004804e"),
        (StubKind::PrefixedLoad, 0x1001_0020, 0x3123_4578, 0, "22211004584580e5a603897d2004804e"),
        (StubKind::PrefixedJump, 0x1001_0040, 0x1001_0010, 0, "ffff1306d0ff8039a603897d2004804e"),
    ] {
        let expected = bytes(hex);
        let mut out = vec![0x55; expected.len()];
        assert_eq!(target.write_stub(kind, place, to, &mut out), Ok(()));
        assert_eq!(out, expected, "{kind:?}");
        let stub = target.stub(kind).unwrap();
        assert_eq!((stub.len(), stub.entry), (expected.len() as u64, entry));
        for other in ALL.into_iter().filter(|other| *other != Architecture::Ppc64) {
            assert_eq!(Target::of(other).stub(kind), None);
        }
    }
}

#[test]
fn stubs_are_what_assemblers_make_of_their_instructions() {
    for (architecture, kind, hex) in STUBS {
        let target = Target::of(architecture);
        let expected = bytes(hex);
        let to = match kind {
            StubKind::Load | StubKind::LandingLoad => WORD,
            _ => FAR,
        };
        let stub = target.stub(kind).unwrap();
        assert_eq!(stub.len(), expected.len() as u64);

        let mut out = vec![0x55; expected.len() + 3];
        assert_eq!(target.write_stub(kind, PLACE, to, &mut out), Ok(()));
        assert_eq!(out[..expected.len()], expected, "{architecture:?} {kind:?}");
        assert_eq!(out[expected.len()..], [0x55; 3]);

        let mut short = vec![0x55; expected.len() - 1];
        assert_eq!(
            target.write_stub(kind, PLACE, to, &mut short),
            Err(StubError::TooShort)
        );
        assert_eq!(short, vec![0x55; expected.len() - 1]);
    }
    for architecture in [Architecture::X86_64, Architecture::RiscV] {
        let written = Target::of(architecture).write_stub(StubKind::Jump, PLACE, FAR, &mut [0; 64]);
        assert_eq!(written, Err(StubError::Missing));
    }
}

/// The last address that a stub reaches above its own, and the first beyond, and the same below.
#[test]
fn stubs_reach_as_far_as_their_fields() {
    use Architecture::{AArch64, LoongArch64, Ppc64, RiscV, X86_64};
    let place = 1 << 40;
    for (architecture, kind, least, last, unit) in [
        // from the next instruction, 6 bytes on
        (X86_64, StubKind::Load, -(1 << 31) + 6, (1 << 31) - 1 + 6, 1),
        // pages within 4 GiB
        (
            X86_64,
            StubKind::LandingLoad,
            -(1 << 31) + 10,
            (1 << 31) - 1 + 10,
            1,
        ),
        (AArch64, StubKind::Load, -(1i64 << 32), (1 << 32) - 8, 8),
        (
            AArch64,
            StubKind::LandingLoad,
            -(1i64 << 32),
            (1 << 32) - 8,
            8,
        ),
        (AArch64, StubKind::Jump, -(1i64 << 32), (1 << 32) - 1, 1),
        (
            RiscV,
            StubKind::Load,
            -(1 << 31) - 0x800,
            (1 << 31) - 0x801,
            1,
        ),
        (
            LoongArch64,
            StubKind::Load,
            -(1 << 31) - 0x800,
            (1 << 31) - 0x801,
            1,
        ),
        (
            LoongArch64,
            StubKind::Jump,
            -(1i64 << 37) - 0x2_0000,
            (1i64 << 37) - 0x2_0004,
            4,
        ),
        // from the fourth instruction
        (
            Ppc64,
            StubKind::Load,
            -(1 << 31) - 0x8000 + 12,
            (1 << 31) - 0x8004 + 12,
            4,
        ),
        (
            Ppc64,
            StubKind::Jump,
            -(1 << 31) - 0x8000 + 12,
            (1 << 31) - 0x8001 + 12,
            1,
        ),
        (
            Ppc64,
            StubKind::TocLoad,
            -(1 << 31) - 0x8000,
            (1 << 31) - 0x8004,
            4,
        ),
        (
            Ppc64,
            StubKind::TocFar,
            -(1 << 31) - 0x8000,
            (1 << 31) - 0x8004,
            4,
        ),
        (Ppc64, StubKind::PrefixedLoad, -(1i64 << 33), (1 << 33) - 1, 1),
        (Ppc64, StubKind::PrefixedJump, -(1i64 << 33), (1 << 33) - 1, 1),
    ] {
        let target = Target::of(architecture);
        let mut out = [0; 64];
        let mut write = |distance: i64| {
            target.write_stub(kind, place, place.wrapping_add_signed(distance), &mut out)
        };
        assert_eq!(write(least), Ok(()), "{architecture:?} {kind:?}");
        assert_eq!(write(last), Ok(()), "{architecture:?} {kind:?}");
        let beyond = Err(StubError::Field(RelocateError::OutOfReach));
        assert_eq!(write(least - unit), beyond, "{architecture:?} {kind:?}");
        assert_eq!(write(last + unit), beyond, "{architecture:?} {kind:?}");
        if unit > 1 {
            let misaligned = Err(StubError::Field(RelocateError::Misaligned));
            assert_eq!(write(0x101), misaligned, "{architecture:?} {kind:?}");
        }
    }
}

/// A further architecture: RISC-V's instructions, with other numbers and a longer stub.
#[test]
fn a_further_architecture_is_a_value() {
    let riscv = Target::of(Architecture::RiscV);
    let load = &riscv.load_stub;
    let kind = |r_type| DynamicType {
        r_type,
        name: "R_SIXTH",
    };
    let sixth = Target {
        dynamic: DynamicTypes {
            word: kind(101),
            relative: kind(102),
            glob_dat: kind(103),
            jump_slot: kind(104),
            copy: kind(105),
            irelative: kind(106),
            module_number: kind(107),
            module_offset: kind(108),
            thread_offset: kind(109),
            descriptor: None,
        },
        thread_pointer: ThreadPointer::BelowImage {
            reserved: 24,
            bias: 0x100,
        },
        module_bias: 0x10,
        got: GotLayout {
            header: Some(GotHeader::Base),
            bias: 0x20,
        },
        address_section: Some(AddressSection {
            name: ".addresses",
            loads: &[WordLoad { word: 7, entry: 9 }],
        }),
        page: 0x4000,
        code_unit: CodeUnit {
            len: 8,
            flag: 0x100,
            flagged_len: 4,
        },
        filler: [1, 2, 3, 4],
        flags: FlagRules {
            same: 0xf0,
            joined: 0x0f,
            own: 1,
        },
        symbols: &[],
        runs: &[],
        interpreter_flags: 0,
        interpreters: &[],
        dynamic_tags: &[],
        landing_property: None,
        instructions: Architecture::RiscV,
        // `nop` in front, and after
        load_stub: Stub {
            head: &[0x13, 0, 0, 0],
            pair: load.pair,
            first: load.first,
            second: load.second,
            tail: &[0x67, 0, 0x0e, 0, 0x13, 0, 0, 0],
            entry: 4,
            origin: 4,
            addend: 0,
        },
        landing_load_stub: None,
        jump_stub: None,
        far_stub: None,
        far_relative_stub: None,
        toc_load_stub: None,
        toc_far_stub: None,
        prefixed_load_stub: None,
        prefixed_jump_stub: None,
    };
    assert_eq!(
        sixth.dynamic_words(EntryClass::Address, false, true),
        [Some(103), None]
    );
    assert_eq!(
        sixth.dynamic_words(EntryClass::Descriptor, false, true),
        [None, None]
    );
    // 24 bytes below the image, down to a multiple of 32, and 0x100 above that
    let origins = sixth.origins(0x1_0000, 0x40, 32);
    assert_eq!(
        origins,
        Origins {
            thread_pointer: 0x1_00e0,
            module_block: 0x1_0010
        }
    );
    assert_eq!(sixth.got_header(0x2000, 0x3000), Some(0x2020));
    assert_eq!((sixth.unit(0x100), sixth.unit(0)), (4, 8));
    assert_eq!(sixth.join_flags(0x31, 0x34), Some(0x35));
    assert_eq!(sixth.join_flags(0x31, 0x41), None);
    assert_eq!(sixth.interpreter(0), None);
    assert_eq!((sixth.entry_r_type(7), sixth.entry_r_type(9)), (Some(9), None));

    let mut out = [0; 20];
    sixth
        .write_stub(StubKind::Load, PLACE - 4, WORD, &mut out)
        .unwrap();
    let (_, _, code) = STUBS[5];
    assert_eq!(out[4..16], bytes(code));
    assert_eq!(
        (&out[..4], &out[16..]),
        (&[0x13, 0, 0, 0][..], &[0x13, 0, 0, 0][..])
    );
    // a field after the pair, and one without a row
    for (offset, relocation, error) in [
        (9, 23, RelocateError::TooShort),
        (usize::MAX, 23, RelocateError::TooShort),
        (0, 0xffff, RelocateError::Unsupported),
        // R_RISCV_RELAX has no value
        (0, 51, RelocateError::Unsupported),
    ] {
        let first = StubField {
            offset,
            relocation,
            range: AllowedRange { bounds: None },
        };
        let load_stub = Stub {
            first,
            ..sixth.load_stub
        };
        let faulty = Target { load_stub, ..sixth };
        let written = faulty.write_stub(StubKind::Load, PLACE, WORD, &mut [0; 64]);
        assert_eq!(written, Err(StubError::Field(error)));
    }
}

/// `_savegpr0_30` and so on, as GNU as makes them of their instructions.
#[test]
fn provided_functions_are_what_an_assembler_makes_of_them() {
    let runs = Target::of(Architecture::Ppc64).runs;
    for (prefix, words) in [
        (
            "_savegpr0_",
            &[0xfbc1_fff0, 0xfbe1_fff8, 0xf801_0010, 0x4e80_0020][..],
        ),
        (
            "_restgpr0_",
            &[
                0xebc1_fff0,
                0xebe1_fff8,
                0xe801_0010,
                0x7c08_03a6,
                0x4e80_0020,
            ][..],
        ),
        ("_savegpr1_", &[0xfbcc_fff0, 0xfbec_fff8, 0x4e80_0020][..]),
        ("_restgpr1_", &[0xebcc_fff0, 0xebec_fff8, 0x4e80_0020][..]),
        (
            "_savefpr_",
            &[0xdbc1_fff0, 0xdbe1_fff8, 0xf801_0010, 0x4e80_0020][..],
        ),
        (
            "_restfpr_",
            &[
                0xcbc1_fff0,
                0xcbe1_fff8,
                0xe801_0010,
                0x7c08_03a6,
                0x4e80_0020,
            ][..],
        ),
    ] {
        let run = runs.iter().find(|run| run.prefix == prefix).unwrap();
        assert_eq!((run.first, run.count), (14, 18));
        assert_eq!(run.len(), 16 + words.len() as u64);
        for (at, word) in words.iter().enumerate() {
            assert_eq!(run.word_at(16 + at as u64), Some(*word), "{prefix} {at}");
        }
        assert_eq!(run.word_at(run.len()), None);
        // that of register 14 is 128 bytes below that of register 30
        let between = (16 << 21) - 0xff70 + 0xfff0;
        assert_eq!(run.word_at(0), Some(words[0] - between));
    }
}
