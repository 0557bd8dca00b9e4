// SPDX-License-Identifier: MIT OR Apache-2.0
//! What relocations require, and the values of a section's relocations: values by the psABIs' formulas,
//! and the instructions' fields by the manuals.

use sathunne::*;

const AARCH64: Architecture = Architecture::AArch64;
const RISCV: Architecture = Architecture::RiscV;
const LOONGARCH: Architecture = Architecture::LoongArch64;
const PPC64: Architecture = Architecture::Ppc64;
const X86_64: Architecture = Architecture::X86_64;

/// The bytes of relocations: their offsets, types, symbols and addends.
fn relas(listed: &[(u64, u32, u32, i64)]) -> Vec<u8> {
    let words = |(offset, r_type, symbol, addend): &(u64, u32, u32, i64)| {
        [*offset, u64::from(*symbol) << 32 | u64::from(*r_type), *addend as u64]
    };
    listed.iter().flat_map(words).flat_map(u64::to_le_bytes).collect()
}

fn at(address: u64) -> Symbol {
    Symbol {
        address,
        ..Symbol::default()
    }
}

/// A section at 0x401000, whose GOT is at 0x413000.
const ADDRESSES: Addresses = Addresses {
    section: 0x401000,
    got_base: 0x413000,
    thread_origin: 0x411000,
    module_origin: 0x411000,
    module_entry: 0,
    has_tls: true,
};

/// The words of a section after its relocations.
fn words(
    architecture: Architecture,
    relocations: &[u8],
    symbols: &[Symbol],
    section: &[u32],
) -> Result<Vec<u32>, ArrayError> {
    let mut bytes: Vec<u8> = section.iter().flat_map(|word| word.to_le_bytes()).collect();
    let before = bytes.clone();
    let mut memory = vec![7; relocate_memory(relocations)];
    let (addresses, memory) = (&ADDRESSES, &mut memory);
    let done = relocate_section(architecture, addresses, relocations, symbols, &mut bytes, memory);
    assert!(done.is_ok() || bytes == before, "an error leaves the section");
    done?;
    let words = bytes.chunks(4).map(|word| u32::from_le_bytes(word.try_into().expect("four")));
    Ok(words.collect())
}

fn error(status: Status, index: usize) -> Result<Vec<u32>, ArrayError> {
    let index = Some(index);
    Err(ArrayError { status, index })
}

#[test]
fn requirements_are_those_of_the_psabis() {
    let entry = |architecture, r_type, addend, is_thread_local| {
        let needs = needs(architecture, r_type, addend, is_thread_local);
        let entry = needs.expect("a row").entry;
        entry.map(|entry| (entry.class, entry.addend))
    };
    // R_X86_64_GOTTPOFF, R_X86_64_TLSGD, R_X86_64_TLSLD, R_X86_64_GOTPC32_TLSDESC, R_X86_64_PC32
    assert_eq!(entry(X86_64, 22, -4, true), Some((EntryClass::ThreadOffset, 0)));
    assert_eq!(entry(X86_64, 19, -4, true), Some((EntryClass::ModuleOffset, 0)));
    assert_eq!(entry(X86_64, 20, -4, true), Some((EntryClass::Module, 0)));
    assert_eq!(entry(X86_64, 34, -4, true), Some((EntryClass::Descriptor, 0)));
    assert_eq!(entry(X86_64, 2, -4, false), None);
    // R_AARCH64_ADR_GOT_PAGE of S + 8, R_PPC64_GOT16_HA, R_PPC64_PLT16_HA
    assert_eq!(entry(AARCH64, 311, 8, false), Some((EntryClass::Address, 8)));
    assert_eq!(entry(PPC64, 17, 8, false), Some((EntryClass::Address, 8)));
    assert_eq!(entry(PPC64, 31, 0, false), Some((EntryClass::Address, 0)));
    // R_LARCH_GOT_PC_LO12 of a variable, and of a thread-local one
    assert_eq!(entry(LOONGARCH, 76, 8, false), Some((EntryClass::Address, 0)));
    assert_eq!(entry(LOONGARCH, 76, 0, true), Some((EntryClass::ModuleOffset, 0)));
    // R_AARCH64_CALL26, R_RISCV_64, R_RISCV_ADD32, and a type that there isn't
    let call = needs(AARCH64, 283, 0, false).expect("a row");
    assert!(call.is_branch && call.may_use_stub && !call.depends_on_load && !call.is_word);
    assert!(!call.stub_only_if_undefined);
    // R_RISCV_BRANCH
    assert!(needs(RISCV, 16, 0, false).expect("a row").stub_only_if_undefined);
    let word = needs(RISCV, 2, 0, false).expect("a row");
    assert!(word.is_word && word.depends_on_load && !word.is_branch);
    assert!(!needs(RISCV, 35, 0, false).expect("a row").depends_on_load);
    assert_eq!(needs(X86_64, 200, 0, false), Err(Status::UnknownRelocation));
}

#[test]
fn low_parts_take_their_high_part() {
    // auipc a0, %got_pcrel_hi(variable); ld a0, %pcrel_lo(label)(a0); call function
    let relocations = relas(&[(0, 20, 1, 0), (4, 24, 2, -1), (8, 19, 3, 0)]);
    let code = [0x00000517, 0x00053503, 0x00000097, 0x000080e7];
    let variable = Symbol {
        address_entry: 0x413008,
        ..at(0x412344)
    };
    let symbols = [Symbol::default(), variable, at(0x401000), at(0x402000)];
    let linked = words(RISCV, &relocations, &symbols, &code);
    assert_eq!(linked, Ok(vec![0x00012517, 0x00853503, 0x00001097, 0xff8080e7]));
    let value = |index| value_at(RISCV, &ADDRESSES, &relocations, &symbols, index);
    assert_eq!([value(0), value(1), value(2)], [Ok(Some(0x12008)), Ok(Some(0x12008)), Ok(Some(0xff8))]);
    assert_eq!(value(3), Err(Status::TooShort));

    // no label there, no entry of the GOT, no symbol
    let moved = [Symbol::default(), variable, at(0x401004), at(0x402000)];
    assert_eq!(words(RISCV, &relocations, &moved, &code), error(Status::NoHighPart, 1));
    let without = [Symbol::default(), at(0x412344), at(0x401000), at(0x402000)];
    assert_eq!(words(RISCV, &relocations, &without, &code), error(Status::NoEntry, 0));
    assert_eq!(words(RISCV, &relocations, &symbols[..3], &code), error(Status::NoSymbol, 2));
    // the call is cut, and what is before it isn't written
    assert_eq!(words(RISCV, &relocations, &symbols, &code[..3]), error(Status::TooShort, 2));
}

#[test]
fn offsets_count_from_a_tls_segment() {
    // R_X86_64_TPOFF32 and R_X86_64_DTPOFF32, 0x10 bytes into the image
    let relocations = relas(&[(0, 23, 1, 0), (4, 21, 1, 0)]);
    let symbols = [Symbol::default(), Symbol { is_thread_local: true, ..at(0x411010) }];
    assert_eq!(words(X86_64, &relocations, &symbols, &[0, 0]), Ok(vec![0x10, 0x10]));
    let without = Addresses { has_tls: false, ..ADDRESSES };
    for index in 0..2 {
        let value = value_at(X86_64, &without, &relocations, &symbols, index);
        assert_eq!(value, Err(Status::NoTlsBase));
    }
    let (mut section, mut memory) = ([0; 8], [0; 2]);
    let done = relocate_section(X86_64, &without, &relocations, &symbols, &mut section, &mut memory);
    assert_eq!(done, Err(ArrayError { status: Status::NoTlsBase, index: Some(0) }));
}

#[test]
fn each_relocation_may_have_its_own_stub_or_be_left_out() {
    // two calls by R_AARCH64_CALL26 of one symbol, and R_AARCH64_ABS64
    let relocations = relas(&[(0, 283, 1, 0), (4, 283, 1, 0), (8, 257, 1, 0)]);
    let function = Resolved { address: 0x40500000, ..Resolved::default() };
    let resolved = [
        Resolved { stub: 0x401100, ..function },
        Resolved { stub: 0x401204, ..function },
        Resolved { is_left_out: true, ..function },
    ];
    let mut section = [0, 0, 0, 0x94, 0, 0, 0, 0x94, 1, 2, 3, 4, 5, 6, 7, 8];
    let linked = [0x40, 0, 0, 0x94, 0x80, 0, 0, 0x94, 1, 2, 3, 4, 5, 6, 7, 8];
    let mut memory = [0; 3];
    let mut write = |resolved: &[Resolved], memory: &mut [u64]| {
        relocate_resolved(AARCH64, &ADDRESSES, &relocations, resolved, &mut section, memory)
    };
    let error = |status, index| Err(ArrayError { status, index });
    assert_eq!(write(&resolved, &mut memory[1..]), error(Status::ShortMemory, None));
    assert_eq!(write(&resolved[..2], &mut memory), error(Status::NoSymbol, Some(2)));
    let far = [function; 3];
    assert_eq!(write(&far, &mut memory), error(Status::OutOfReach, Some(0)));
    assert_eq!(write(&resolved, &mut memory), Ok(()));
    assert_eq!(section, linked);
}

#[test]
fn relocations_lie_at_any_alignment() {
    // call function; R_X86_64_PLT32, and some bytes that are no whole relocation
    let relocations = relas(&[(1, 4, 1, -4)]);
    let symbols = [Symbol::default(), at(0x402005)];
    for shift in 0..8 {
        let mut shifted = vec![0xff; shift];
        shifted.extend(&relocations);
        shifted.extend(vec![0xff; shift]);
        let mut call = [0xe8, 0, 0, 0, 0];
        let mut memory = [0; 1];
        let given = &shifted[shift..];
        assert_eq!(relocate_memory(given), 1);
        let memory = &mut memory;
        let done = relocate_section(X86_64, &ADDRESSES, given, &symbols, &mut call, memory);
        assert_eq!((done, call), (Ok(()), [0xe8, 0x00, 0x10, 0, 0]));
    }
}

#[test]
fn relocations_at_one_offset_compose() {
    // .word end - begin, by R_RISCV_ADD32 and R_RISCV_SUB32; and .uleb128, by R_RISCV_SET_ULEB128 and
    // R_RISCV_SUB_ULEB128, in two bytes
    let relocations = relas(&[(0, 35, 1, 0), (0, 39, 2, 0), (4, 60, 1, 0), (4, 61, 2, 0)]);
    let symbols = [Symbol::default(), at(0x401150), at(0x401000)];
    let linked = words(RISCV, &relocations, &symbols, &[5, 0x80]);
    assert_eq!(linked, Ok(vec![0x155, 0x02d0]));
    // it has one byte, and 0x150 needs two
    let short = words(RISCV, &relocations, &symbols, &[5, 0]);
    assert_eq!(short, error(Status::DoesNotFit, 2));
    // two words at one offset, and two that have bytes in common, in either order
    for (first, second) in [(0, 0), (0, 3), (3, 0)] {
        let twice = relas(&[(first, 1, 1, 0), (second, 1, 1, 0)]);
        assert_eq!(words(RISCV, &twice, &symbols, &[0; 2]), error(Status::Overlaps, 1));
    }
}

#[test]
fn memory_has_to_be_long_enough() {
    let relocations = relas(&[(0, 1, 1, 0), (4, 1, 1, 0)]);
    let (symbols, mut section) = ([Symbol::default(), at(0x100)], [1; 8]);
    let needed = relocate_memory(&relocations);
    assert!(needed > 0);
    let mut memory = vec![0; needed];
    let mut with = |memory: &mut [u64]| {
        relocate_section(RISCV, &ADDRESSES, &relocations, &symbols, &mut section, memory)
    };
    assert_eq!(with(&mut memory[1..]), Err(Status::ShortMemory.into()));
    assert_eq!(with(&mut memory), Ok(()));
    assert_eq!(section, [0, 1, 0, 0, 0, 1, 0, 0]);
    assert_eq!(relocate_memory(&[]), 0);
    assert_eq!(relocate_section(RISCV, &ADDRESSES, &[], &[], &mut [], &mut []), Ok(()));
}

#[test]
fn values_are_by_what_is_known_of_symbols() {
    let value = |architecture, r_type, addend, symbol: Symbol| {
        let relocations = relas(&[(8, r_type, 1, addend)]);
        let symbols = [Symbol::default(), symbol];
        value_at(architecture, &ADDRESSES, &relocations, &symbols, 0)
    };
    // R_PPC64_REL24: to the local entry point, 8 bytes on, or to the stub
    let function = Symbol {
        other: 3 << 5,
        ..at(0x402000)
    };
    assert_eq!(value(PPC64, 10, 0, function), Ok(Some(0x402008 - 0x401008)));
    let stubbed = Symbol {
        stub: 0x404000,
        ..function
    };
    assert_eq!(value(PPC64, 10, 0, stubbed), Ok(Some(0x404000 - 0x401008)));
    // R_AARCH64_CALL26 of an undefined weak function goes to the next instruction
    let nowhere = Symbol {
        is_undefined_weak: true,
        ..at(0x402000)
    };
    assert_eq!(value(AARCH64, 283, 0, nowhere), Ok(Some(4)));
    assert_eq!(value(AARCH64, 275, 0, nowhere), Ok(Some(0)));
    // R_RISCV_TPREL_HI20; R_RISCV_RELAX has no value, whatever its symbol
    let variable = Symbol {
        is_thread_local: true,
        ..at(0x411010)
    };
    assert_eq!(value(RISCV, 29, 4, variable), Ok(Some(0x14)));
    assert_eq!(value(RISCV, 51, 0, nowhere), Ok(None));
    assert_eq!(value(X86_64, 200, 0, variable), Err(Status::UnknownRelocation));
}

#[test]
fn values_of_rv32_are_modulo_2_to_32() {
    // R_RISCV_PCREL_HI20 at 0 and R_RISCV_PCREL_LO12_I at 4, of symbols 1 and 2, with the addend -4
    let entries = [0u32, 0x117, 0xffff_fffc, 4, 0x218, 0].map(u32::to_le_bytes).concat();
    let mut listed = read_rela32(RISCV, &entries).unwrap();
    assert_eq!(listed, relas(&[(0, 23, 1, -4), (4, 24, 2, 0)]));
    let (addresses, symbols) =
        (Addresses { section: 0x1000, ..ADDRESSES }, [at(0), at(0x9000_0804), at(0x1000)]);
    wrap_addends(RISCV, &addresses, &symbols, &mut listed).unwrap();
    assert_eq!(listed, relas(&[(0, 23, 1, -4 - (1 << 32)), (4, 24, 2, 0)]));
    // auipc a0, and addi a0, a0
    let mut section = [0x17, 0x05, 0, 0, 0x13, 0x05, 0x05, 0];
    let mut memory = [0; 2];
    relocate_section(RISCV, &addresses, &listed, &symbols, &mut section, &mut memory).unwrap();
    assert_eq!(section[..4], 0x9000_0517u32.to_le_bytes());
    assert_eq!(section[4..], 0x8005_0513u32.to_le_bytes());
    assert_eq!(read_rela32(X86_64, &entries), Err(Status::UnknownArchitecture));
    let wrapped = wrap_addends(X86_64, &addresses, &symbols, &mut listed);
    assert_eq!(wrapped, Err(Status::UnknownArchitecture));
}

#[test]
fn compact_relocations_are_those_of_llvm() {
    // llvm-mc 19 -crel: `.reloc` in any order; and the numbers of llvm-readobj -r --expand-relocs
    let section = [
        0x27, 0xa7, 0x3f, 0x01, 0x02, 0x7c, 0xf7, 0xe0, 0xff, 0xff, 0xff, 0xff, 0xff, 0xff, 0xff, 0x01,
        0x01, 0x7f, 0x0c, 0x07, 0x7f, 0x7f, 0x78, 0xf6, 0x0f, 0x04, 0x7c,
    ];
    let listed = [(0x1fa0, 2, 1, -4), (0x1010, 1, 2, 8), (0x1010, 0, 1, 0), (0x1800, 4, 1, -4)];
    assert_eq!(read_crel(&section), Ok((relas(&listed), true)));
    let rejected = |bytes: &[u8]| read_crel(bytes).map_err(|error| (error.status, error.number));
    assert_eq!(rejected(&section[..26]), Err((Status::CutOff, 26)));
    assert_eq!(rejected(&section[..8]), Err((Status::CutOff, 7)));
    assert_eq!(rejected(&[]), Err((Status::CutOff, 0)));
    let large = [0x0c, 0xff, 0x80, 0x80, 0x80, 0x80, 0x80, 0x80, 0x80, 0x80, 0x80, 3];
    assert_eq!(rejected(&large), Err((Status::TooLarge, 2)));
    assert_eq!(read_crel(&[0x02, 0xff]), Ok((vec![], false)));
}
