// SPDX-License-Identifier: MIT OR Apache-2.0
//! What a linker adds to an output: numbers of `<elf.h>`, words as "ELF Handling For Thread-Local
//! Storage" has them, and code of stubs as assemblers and ld.lld make it.

use sathunne::*;

const AARCH64: Architecture = Architecture::AArch64;
const RISCV: Architecture = Architecture::RiscV;
const LOONGARCH: Architecture = Architecture::LoongArch64;
const PPC64: Architecture = Architecture::Ppc64;
const X86_64: Architecture = Architecture::X86_64;

#[test]
fn dynamic_relocations_have_their_codes_and_names() {
    let types = dynamic_types(X86_64);
    assert_eq!((types.word, types.relative, types.copy), (1, 8, 5));
    assert_eq!((types.glob_dat, types.jump_slot, types.irelative), (6, 7, 37));
    assert_eq!((types.module_number, types.module_offset, types.thread_offset), (16, 17, 18));
    assert_eq!(types.descriptor, 36);
    assert_eq!(dynamic_types(PPC64).descriptor, 0);
    assert_eq!(dynamic_name(X86_64, 8).as_deref(), Ok("R_X86_64_RELATIVE"));
    assert_eq!(dynamic_name(LOONGARCH, 12).as_deref(), Ok("R_LARCH_IRELATIVE"));
    assert_eq!(dynamic_name(LOONGARCH, 200), Err(Status::UnknownRelocation));
    // a function that is imported, and a thread-local variable of the executable's own
    let words = dynamic_words(AARCH64, EntryClass::Address, false, true);
    assert_eq!(words, [Some(1025), None]);
    assert_eq!(dynamic_words(AARCH64, EntryClass::ThreadOffset, true, true), [None; 2]);
    let both = dynamic_words(AARCH64, EntryClass::ModuleOffset, false, false);
    assert_eq!(both, [Some(1028), Some(1029)]);
}

#[test]
fn entries_lead_to_their_symbols() {
    // the image of 0x14 bytes, aligned to 8, as in variant II and variant I
    let x86 = origins(X86_64, 0x40_1000, 0x14, 8);
    assert_eq!((x86.thread_pointer, x86.module_block), (0x40_1018, 0x40_1000));
    let ppc64 = origins(PPC64, 0x40_1000, 0x14, 8);
    assert_eq!((ppc64.thread_pointer, ppc64.module_block), (0x40_8000, 0x40_9000));
    let words = static_words(EntryClass::ThreadOffset, 0x40_1008, &x86);
    assert_eq!(words, Ok([0_u64.wrapping_sub(16), 0]));
    assert_eq!(static_words(EntryClass::Module, 0, &x86), Ok([1, 0]));
    let none = static_words(EntryClass::Descriptor, 0, &x86);
    assert_eq!(none, Err(Status::UnknownEntryClass));
    assert_eq!(entry_words(EntryClass::Address), 1);
    assert_eq!(entry_words(EntryClass::Descriptor), 2);
    let header = Some(0x41_8000);
    assert_eq!(got(PPC64, 0x41_0000, 0), Got { base: 0x41_8000, header });
    assert_eq!(got(RISCV, 0x41_0000, 0x40_0000).header, Some(0x40_0000));
    let base = 0x41_0000;
    assert_eq!(got(X86_64, base, 0x40_0000), Got { base, header: None });
}

#[test]
fn words_of_packed_relocations_are_those_of_lld() {
    // ld.lld --pack-dyn-relocs=relr, and llvm-readelf -r
    let words = [0x2260, 3, 0x8000_0000_0000_0001, 0x8000_0000_0000_0001, 3];
    let addresses = [0x2260, 0x2268, 0x2650, 0x2848, 0x2850];
    assert_eq!(relr_words(&addresses).as_deref(), Ok(&words[..]));
    assert_eq!(relr_addresses(&words).as_deref(), Ok(&addresses[..]));
    assert_eq!(relr_words(&[]), Ok(vec![]));
    assert_eq!(relr_words(&[8, 12]), Err(Status::UnalignedAddress));
    assert_eq!(relr_words(&[16, 8]), Err(Status::NotAscending));
    assert_eq!(relr_addresses(&[3]), Err(Status::NoAddress));
    assert_eq!(relr_addresses(&[8, 12]), Err(Status::UnalignedAddress));
    assert_eq!(relr_addresses(&[0_u64.wrapping_sub(8), 3]), Err(Status::TooLarge));
}

/// A note of properties of 4 bytes.
fn note(properties: &[(u32, u32)]) -> Vec<u8> {
    let mut words = vec![4, 16 * properties.len() as u32, 5, u32::from_le_bytes(*b"GNU\0")];
    words.extend(properties.iter().flat_map(|(kind, value)| [*kind, 4, *value, 0]));
    words.iter().flat_map(|word| word.to_le_bytes()).collect()
}

/// As GNU ld 2.40 and ld.lld 19 write them, with `-z force-bti`, `-z pac-plt` and all.
#[test]
fn dynamic_sections_have_the_tags_that_linkers_write() {
    let nothing = DynamicFacts::default();
    let plt = DynamicFacts { has_lazy_plt: true, first_entry: 0x10310, ..nothing };
    let bti = DynamicFacts { has_landing_plt: true, ..plt };
    let all = DynamicFacts { has_signed_plt: true, has_variant_calls: true, options: 5, ..bti };
    for (architecture, facts, entries) in [
        (AARCH64, plt, vec![]),
        (AARCH64, bti, vec![(0x7000_0001, 0)]),
        (AARCH64, all, vec![(0x7000_0001, 0), (0x7000_0003, 0), (0x7000_0005, 0)]),
        (RISCV, bti, vec![]),
        (RISCV, all, vec![(0x7000_0001, 0)]),
        (PPC64, nothing, vec![(0x7000_0003, 0)]),
        (PPC64, plt, vec![(0x7000_0000, 0x102f0), (0x7000_0003, 0)]),
        (PPC64, all, vec![(0x7000_0000, 0x102f0), (0x7000_0003, 5)]),
        (LOONGARCH, all, vec![]),
        (X86_64, all, vec![]),
    ] {
        assert_eq!(dynamic_entries(architecture, &facts), entries, "{architecture:?} {facts:?}");
    }
}

#[test]
fn properties_are_merged() {
    // X86_FEATURE_1_AND, X86_ISA_1_NEEDED, X86_ISA_1_USED
    let (feature, needed, used) = (0xc000_0002, 0xc000_8002, 0xc001_0002);
    let first = note(&[(feature, 3), (needed, 1), (used, 1)]);
    let second = note(&[(feature, 1), (needed, 2), (used, 4)]);
    // as GNU ld 2.40 writes it of such inputs
    let merged = note(&[(feature, 1), (needed, 3), (used, 5)]);
    assert_eq!(merge_notes(X86_64, &[&first, &second]), Ok(merged));
    assert_eq!(merge_notes(X86_64, &[&first, &second, &[]]), Ok(note(&[(needed, 3)])));
    assert_eq!(merge_notes(X86_64, &[&[]]), Ok(vec![]));
    assert!(is_property_known(X86_64, feature) && !is_property_known(PPC64, feature));
    let ibt = landing_property(X86_64);
    assert_eq!(ibt, Ok(LandingProperty { bit: 1, kind: feature }));
    assert_eq!(landing_property(PPC64), Err(Status::NotProvided));
    let unknown = note(&[(0xc002_0000, 1)]);
    let read = read_properties(X86_64, &unknown);
    assert_eq!(read, Ok(vec![Property { kind: 0xc002_0000, value: 0, version: 0 }]));
    assert_eq!(merge_notes(X86_64, &[&unknown]), Ok(vec![]));
    let rejected = |status, number| PropertyError { status, number };
    let cut = merge_notes(X86_64, &[&first, &second[..40]]);
    assert_eq!(cut, Err((1, rejected(Status::CutOff, 0))));
    let written = write_properties(X86_64, &[Property { kind: 7, ..Property::default() }]);
    assert_eq!(written, Err(rejected(Status::UnknownProperty, 7)));
    // AARCH64_FEATURE_PAUTH, of a platform and a version
    let pauth = |version| Property { kind: 0xc000_0001, value: 2, version };
    let same = merge_properties(AARCH64, &[pauth(1)], &[pauth(1)]);
    assert_eq!(same, Ok(vec![pauth(1)]));
    let differs = merge_properties(AARCH64, &[pauth(1)], &[pauth(2)]);
    assert_eq!(differs, Err(rejected(Status::DifferentValues, 0xc000_0001)));
}

#[test]
fn flags_are_joined_or_kept_apart() {
    // EF_RISCV_RVC, and EF_RISCV_FLOAT_ABI_DOUBLE beside none
    assert_eq!(join_flags(RISCV, 5, 4), Ok(5));
    assert_eq!(join_flags(RISCV, 5, 1), Err(Status::DifferentFlags));
    assert_eq!(join_flags(PPC64, 0, 2), Ok(2));
    assert_eq!(join_flags(PPC64, 1, 1), Err(Status::DifferentFlags));
    assert_eq!((output_flags(PPC64, 0), output_flags(RISCV, 5)), (2, 5));
}

#[test]
fn code_and_pages_are_the_machines() {
    assert_eq!((page(X86_64), page(AARCH64)), (0x1000, 0x1_0000));
    assert_eq!((code_unit(RISCV, 5), code_unit(RISCV, 4), code_unit(X86_64, 0)), (2, 4, 1));
    // `trap`
    let trap = [4, 5, 6, 7].map(|offset| filler(PPC64, offset));
    assert_eq!(u32::from_le_bytes(trap), 0x7fe0_0008);
    assert_eq!(interpreter(X86_64, 0).as_deref(), Ok("/lib64/ld-linux-x86-64.so.2"));
    assert_eq!(interpreter(RISCV, 5).as_deref(), Ok("/lib/ld-linux-riscv64-lp64d.so.1"));
    assert_eq!(interpreter(RISCV, 6), Err(Status::NotProvided));
}

#[test]
fn compilers_keep_addresses_beside_the_got() {
    assert_eq!(address_section(PPC64).as_deref(), Ok(".toc"));
    assert_eq!(address_section(X86_64), Err(Status::NotProvided));
    // R_PPC64_TOC16_LO_DS and R_PPC64_GOT16_LO_DS
    assert_eq!(entry_relocation(PPC64, 64), Ok(59));
    assert_eq!(entry_relocation(PPC64, 59), Err(Status::NotProvided));
}

#[test]
fn linkers_provide_symbols_and_functions() {
    let symbols = provided_symbols(PPC64);
    let toc = ProvidedSymbol {
        name: ".TOC.".to_string(),
        place: SymbolPlace::Got,
        offset: 0x8000,
    };
    assert_eq!(symbols, [toc]);
    assert_eq!(provided_symbols(X86_64)[0].place, SymbolPlace::ThreadLocal);
    assert_eq!(provided_symbols(RISCV)[0].place, SymbolPlace::SmallData);
    assert_eq!(provided_symbols(AARCH64), []);
    // `_savegpr0_31`: std 31,-8(1); std 0,16(1); blr
    let runs = save_restore_routines(PPC64);
    let save = runs.iter().find(|run| run.prefix == "_savegpr0_").expect("it is there");
    assert_eq!((save.first, save.count, save.words.len()), (14, 18, 20));
    assert_eq!(save.words[17..], [0xfbe1_fff8, 0xf801_0010, 0x4e80_0020]);
    // `_restvr_31`: addi 12,0,-16; lvx 31,12,0; blr
    let restore = runs.iter().find(|run| run.prefix == "_restvr_").expect("it is there");
    assert_eq!((restore.first, restore.count, restore.spacing), (20, 12, 2));
    assert_eq!(restore.words[22..], [0x3980_fff0, 0x7fec_00ce, 0x4e80_0020]);
    assert_eq!(save_restore_routines(X86_64), []);
}

#[test]
fn stubs_go_to_their_targets() {
    // `jmp *word(%rip)`, and two of `int3`; a byte after it is left
    let mut code = [7; 9];
    assert_eq!(write_stub(X86_64, StubKind::Load, 0x40_1000, 0x40_3010, &mut code), Ok(()));
    assert_eq!(code, [0xff, 0x25, 0x0a, 0x20, 0, 0, 0xcc, 0xcc, 7]);
    // pcaddu18i $t3, and jirl $zero, $t3, 0x40 forward
    let mut code = [0; 8];
    assert_eq!(write_stub(LOONGARCH, StubKind::Jump, 0x1000, 0x1040, &mut code), Ok(()));
    assert_eq!(code, [0x0f, 0, 0, 0x1e, 0xe0, 0x41, 0, 0x4c]);
    let (len, entry) = (36, 4);
    assert_eq!(stub(PPC64, StubKind::Load), Ok(Stub { len, entry }));
    // RISC-V's calls reach 2 GiB
    assert_eq!(stub(RISCV, StubKind::Jump), Err(Status::UnknownStub));
    assert_eq!(stub(RISCV, StubKind::Far), Err(Status::UnknownStub));
    // as ld.lld and GNU ld write them
    let (far, mut long) = (0x1234_5678_9abc_def0_u64, [0; 24]);
    assert_eq!(write_stub(AARCH64, StubKind::Far, 0x21_0004, far, &mut long), Ok(()));
    assert_eq!(long[..8], [0x50, 0, 0, 0x58, 0, 2, 0x1f, 0xd6]);
    assert_eq!(long[8..16], far.to_le_bytes());
    assert_eq!(write_stub(AARCH64, StubKind::FarRelative, 0x21_0010, far, &mut long), Ok(()));
    assert_eq!(long[16..], (far - 0x21_0014).to_le_bytes());
    let mut code = [7; 8];
    let far = write_stub(X86_64, StubKind::Load, 0, 1 << 40, &mut code);
    assert_eq!((far, code), (Err(Status::OutOfReach), [7; 8]));
    let short = write_stub(X86_64, StubKind::Load, 0, 8, &mut code[..7]);
    assert_eq!((short, code), (Err(Status::TooShort), [7; 8]));
}

/// The third entry that ld.lld 19.1 makes with `-shared -z lazy`, and the header.
#[test]
fn lazy_entries_are_those_of_linkers() {
    let lens = LazyPlt { header_len: 16, entry_len: 16, alignment: 16, header_words: 3 };
    assert_eq!(lazy_plt(X86_64, LazyForm::Plain), Ok(lens));
    let entry = LazyEntry { address: 0x1360, word: 0x3448, header: 0x1330, index: 2 };
    let mut code = [7; 17];
    assert_eq!(write_lazy_entry(X86_64, LazyForm::Plain, &entry, &mut code), Ok(()));
    assert_eq!(code[..6], [0xff, 0x25, 0xe2, 0x20, 0, 0]);
    assert_eq!(code[6..], [0x68, 2, 0, 0, 0, 0xe9, 0xc0, 0xff, 0xff, 0xff, 7]);
    assert_eq!(write_lazy_header(X86_64, LazyForm::Plain, 0x1330, 0x3420, &mut code), Ok(()));
    assert_eq!(code[..6], [0xff, 0x35, 0xf2, 0x20, 0, 0]);
    assert_eq!(code[6..], [0xff, 0x25, 0xf4, 0x20, 0, 0, 0x0f, 0x1f, 0x40, 0, 7]);
    assert_eq!(lazy_header_word(X86_64, 0, 0x2370, 0x1330), Ok(0x2370));
    assert_eq!(lazy_header_word(X86_64, 3, 0x2370, 0x1330), Err(Status::NotProvided));
    assert_eq!(lazy_entry_word(X86_64, LazyForm::Plain, 0x1360, 0x1330, 0x2370), 0x1366);
    assert_eq!(lazy_entry_word(RISCV, LazyForm::Plain, 0x1360, 0x1330, 0x2370), 0x1330);
    // `b` of PowerPC64 reaches 32 MiB
    let entry = LazyEntry { address: 0x200_0004, word: 0, header: 0, index: 0 };
    let mut code = [7; 4];
    let far = write_lazy_entry(PPC64, LazyForm::Plain, &entry, &mut code);
    assert_eq!((far, code), (Err(Status::OutOfReach), [7; 4]));
    let short = write_lazy_header(PPC64, LazyForm::Plain, 0, 8, &mut code);
    assert_eq!((short, code), (Err(Status::TooShort), [7; 4]));
}

/// The third entries of `.plt` and `.plt.sec` that ld.lld 19.1 makes with `-shared -z force-ibt`.
#[test]
fn landing_entries_are_those_of_linkers() {
    let entry = LazyEntry { address: 0x13f0, word: 0x3508, header: 0x13c0, index: 2 };
    let mut code = [7; 17];
    assert_eq!(write_lazy_entry(X86_64, LazyForm::Landing, &entry, &mut code), Ok(()));
    assert_eq!(code[..9], [0xf3, 0x0f, 0x1e, 0xfa, 0x68, 2, 0, 0, 0]);
    assert_eq!(code[9..], [0xe9, 0xc2, 0xff, 0xff, 0xff, 0x66, 0x90, 7]);
    assert_eq!(lazy_entry_word(X86_64, LazyForm::Landing, 0x13f0, 0x13c0, 0x2430), 0x13f0);
    assert_eq!(write_stub(X86_64, StubKind::LandingLoad, 0x1420, 0x3508, &mut code), Ok(()));
    assert_eq!(code[..10], [0xf3, 0x0f, 0x1e, 0xfa, 0xff, 0x25, 0xde, 0x20, 0, 0]);
    assert_eq!(code[10..], [0x66, 0x0f, 0x1f, 0x44, 0, 0, 7]);
    let lens = LazyPlt { header_len: 32, entry_len: 24, alignment: 16, header_words: 3 };
    assert_eq!(lazy_plt(AARCH64, LazyForm::AuthenticatedLandingEntry), Ok(lens));
    assert_eq!(lazy_plt(RISCV, LazyForm::Landing), Err(Status::UnknownStub));
    assert_eq!(lazy_entry_word(RISCV, LazyForm::Landing, 1, 2, 3), 0);
}

/// The bytes of an `Elf64_Rela`, of symbol 1.
fn rela(offset: u64, r_type: u32, addend: i64) -> Vec<u8> {
    let mut bytes = offset.to_le_bytes().to_vec();
    bytes.extend((1 << 32 | u64::from(r_type)).to_le_bytes());
    bytes.extend(addend.to_le_bytes());
    bytes
}

/// The route of one branch at the address 0x10000000, to a function at an address.
fn route(machine: Architecture, r_type: u32, address: u64, other: u8, words: &[u32]) -> Result<Route, Status> {
    let section: Vec<u8> = words.iter().flat_map(|word| word.to_le_bytes()).collect();
    let addresses = Addresses { section: 0x1000_0000, ..Addresses::default() };
    let symbols = [Symbol::default(), Symbol { address, other, ..Symbol::default() }];
    route_at(machine, &addresses, &rela(0, r_type, 0), &symbols, 0, &section)
}

/// As ld.lld makes them: ELF for the Arm 64-bit Architecture lets CALL26 go by a veneer beyond
/// 128 MiB, and the 64-Bit ELF V2 ABI says what `st_other` means for calls.
#[test]
fn branches_go_directly_or_by_stubs() {
    let jump = |entry, target| Ok(Route::Stub { kind: StubKind::Jump, entry, target });
    let (bl, nop, restore) = (0x4800_0001, 0x6000_0000, 0xe841_0018);
    // `bl` of AArch64 and of LoongArch, within 128 MiB and beyond
    assert_eq!(route(AARCH64, 283, 0x17ff_fffc, 0, &[0x9400_0000]), Ok(Route::Direct));
    assert_eq!(route(AARCH64, 283, 0x1800_0000, 0, &[0x9400_0000]), jump(0, 0x1800_0000));
    assert_eq!(route(LOONGARCH, 66, 0x1800_0000, 0, &[0x5400_0000]), jump(0, 0x1800_0000));
    // a conditional branch, `b.eq`, goes by none
    let far = route(AARCH64, 280, 0x1800_0000, 0, &[0x5400_0000]);
    assert_eq!(far, Err(Status::OutOfReach));
    // `bl` of PowerPC64 to a local entry point 8 bytes after, within 32 MiB and beyond
    assert_eq!(route(PPC64, 10, 0x1100_0000, 0x60, &[bl, nop]), Ok(Route::Direct));
    assert_eq!(route(PPC64, 10, 0x1200_0000, 0x60, &[bl, nop]), jump(4, 0x1200_0008));
    // to a function that may leave another TOC pointer
    for next in [nop, restore] {
        assert_eq!(route(PPC64, 10, 0x1100_0000, 0x20, &[bl, next]), jump(0, 0x1100_0000));
    }
    assert_eq!(route(PPC64, 10, 0x1100_0000, 0x20, &[bl, bl]), Err(Status::NoRoom));
    // of code without a TOC pointer
    assert_eq!(route(PPC64, 116, 0x1100_0000, 0x20, &[bl]), Ok(Route::Direct));
    assert_eq!(route(PPC64, 116, 0x1100_0000, 0x60, &[bl]), jump(4, 0x1100_0000));
    // RISC-V's `auipc` and `jalr` reach 2 GiB, and a word is no branch
    assert_eq!(route(RISCV, 19, 0x1800_0000, 0, &[0x97, 0x8_00e7]), Ok(Route::Direct));
    assert_eq!(route(X86_64, 1, 0, 0, &[0, 0]), Err(Status::NotABranch));
    // a function of another output
    let call = [0x4800_0001u32.to_le_bytes(), nop.to_le_bytes()].concat();
    let stub = Route::Stub { kind: StubKind::Load, entry: 0, target: 0x1002_0000 };
    assert_eq!(route_by_word(PPC64, 0x1002_0000, &rela(0, 10, 0), 0, &call), Ok(stub));
    assert_eq!(route_by_word(PPC64, 0x1002_0000, &rela(0, 10, 0), 1, &call), Err(Status::TooShort));
}

/// A branch that reaches 128 MiB, with a target by its index.
fn branch(offset: u64, target: usize) -> Branch {
    let reach = 128 << 20;
    Branch { offset, target, max_backward: reach, max_forward: reach }
}

/// By hand: a target 200 MiB away, and a boundary in between.
#[test]
fn stubs_stand_where_branches_reach_them() {
    const MIB: u64 = 1 << 20;
    let shape = StubShape { len: 12, unit: 16, max_backward: 1 << 32, max_forward: 1 << 32 };
    let placed = place_stubs(&[branch(4, 0), branch(8, 1)], &[200 * MIB, 12], &[64 * MIB], &shape);
    let stub = PlacedStub { place: 64 * MIB, boundary: 0, target: 0 };
    let (ways, before) = (vec![Some(0), None], vec![0, 16]);
    assert_eq!(placed, Ok(Placement { stubs: vec![stub], ways, before }));
    let error = |status, index| Err(ArrayError { status, index });
    let far = place_stubs(&[branch(4, 0)], &[200 * MIB], &[], &shape);
    assert_eq!(far, error(Status::NoBoundary, Some(0)));
    let fallen = place_stubs(&[], &[], &[8, 4], &shape);
    assert_eq!(fallen, error(Status::NotAscending, Some(0)));
    let missing = place_stubs(&[branch(0, 0), branch(0, 2)], &[0, 0], &[], &shape);
    assert_eq!(missing, error(Status::NoTarget, Some(1)));
    let wide = place_stubs(&[branch(1 << 62, 0)], &[0], &[], &shape);
    assert_eq!(wide, error(Status::CodeTooLong, None));
    let short = StubShape { max_forward: MIB, ..shape };
    let far = place_stubs(&[branch(4, 1)], &[0, 200 * MIB], &[64 * MIB], &short);
    assert_eq!(far, error(Status::StubTooFar, Some(1)));
    let empty = place_stubs(&[branch(4, 0)], &[0], &[], &StubShape { len: 0, ..shape });
    assert_eq!(empty, error(Status::StubWithoutLength, None));
}
