// SPDX-License-Identifier: MIT OR Apache-2.0
//! Sections rewritten in one call: sequences and what becomes of them by "ELF Handling For
//! Thread-Local Storage" and the psABIs.

use sathunne::*;

const AARCH64: Architecture = Architecture::AArch64;
const X86_64: Architecture = Architecture::X86_64;
const EXECUTABLE: OutputFacts = OutputFacts {
    is_executable: true,
    is_fixed: true,
    has_near_symbols: true,
};

/// The bytes of relocations: their offsets, types, symbols and addends.
fn relas(listed: &[(u64, u32, u32, i64)]) -> Vec<u8> {
    let words = |(offset, r_type, symbol, addend): &(u64, u32, u32, i64)| {
        [*offset, u64::from(*symbol) << 32 | u64::from(*r_type), *addend as u64]
    };
    listed.iter().flat_map(words).flat_map(u64::to_le_bytes).collect()
}

/// No symbol, a definition of this output, `__tls_get_addr` and a symbol of another file.
fn symbols() -> [SymbolFacts; 4] {
    let none = SymbolFacts::default();
    let defined = SymbolFacts {
        is_local: true,
        ..none
    };
    let get_addr = SymbolFacts {
        is_tls_get_addr: true,
        ..none
    };
    [none, defined, get_addr, none]
}

/// data16 lea x@tlsgd(%rip), %rdi; data16 data16 rex64 call __tls_get_addr@PLT
const GENERAL_DYNAMIC: [u8; 16] = [
    0x66, 0x48, 0x8d, 0x3d, 0, 0, 0, 0, 0x66, 0x66, 0x48, 0xe8, 0, 0, 0, 0,
];

#[test]
fn a_call_goes_with_its_sequence() {
    // R_X86_64_TLSGD and R_X86_64_PLT32, which become R_X86_64_TPOFF32 and none
    let mut relocations = relas(&[(4, 19, 1, -4), (12, 4, 2, -4)]);
    let (mut section, symbols) = (GENERAL_DYNAMIC, symbols());
    let mut kept = [UnrelaxableGroups::default(); 4];
    survey(X86_64, &EXECUTABLE, &symbols, &relocations, &section, &mut kept);
    assert_eq!(kept, [UnrelaxableGroups::default(); 4]);
    let (given, code) = (&mut relocations, &mut section);
    let made = rewrite_section(X86_64, &EXECUTABLE, &symbols, &kept, given, code).unwrap();
    assert!(matches!(made[0], Decision::Rewritten { relocation: 23, .. }));
    assert_eq!(made[1..], [Decision::Consumed]);
    assert_eq!(relocations, relas(&[(12, 23, 1, 0), (12, 0, 2, -4)]));
    // mov %fs:0, %rax; lea x@tpoff(%rax), %rax
    assert_eq!(section, [0x64, 0x48, 0x8b, 4, 0x25, 0, 0, 0, 0, 0x48, 0x8d, 0x80, 0, 0, 0, 0]);
}

#[test]
fn a_group_is_rewritten_or_stays() {
    // adrp x0, :gottprel:x; ldr x0, [x0, :gottprel_lo12:x]
    let (adrp, ldr, nop) = (0x9000_0000u32, 0xf940_0000u32, 0xd503_201fu32);
    let code = |words: [u32; 2]| words.map(u32::to_le_bytes).concat();
    let listed = relas(&[(0, 541, 1, 0), (4, 542, 1, 0)]);
    let whole = code([adrp, ldr]);
    let survey_both = |other: [u32; 2]| {
        let mut kept = [UnrelaxableGroups::default(); 4];
        survey(AARCH64, &EXECUTABLE, &symbols(), &listed, &whole, &mut kept);
        survey(AARCH64, &EXECUTABLE, &symbols(), &listed, &code(other), &mut kept);
        kept
    };
    let rewritten = |kept: &[UnrelaxableGroups], section: &[u8]| {
        let (mut section, mut relocations) = (section.to_vec(), listed.clone());
        let (given, code) = (&mut relocations, &mut section);
        let made = rewrite_section(AARCH64, &EXECUTABLE, &symbols(), kept, given, code);
        (made, section, relocations)
    };
    // movz x0, #0, lsl #16; movk x0, #0, of R_AARCH64_TLSLE_MOVW_TPREL_G1 and _G0_NC
    let (made, section, relocations) = rewritten(&survey_both([adrp, ldr]), &whole);
    assert!(made.is_ok());
    assert_eq!(section, code([0xd2a0_0000, 0xf280_0000]));
    assert_eq!(relocations, relas(&[(0, 545, 1, 0), (4, 548, 1, 0)]));
    // the low half in the object's other section isn't a load
    let kept = survey_both([adrp, nop]);
    assert!(kept[1].initial_exec);
    let (made, section, relocations) = rewritten(&kept, &whole);
    assert_eq!(made, Ok(vec![Decision::Kept; 2]));
    assert_eq!((section, relocations), (whole.clone(), listed.clone()));
    // that section, by what was noted of the first alone
    let (made, section, relocations) = rewritten(&[UnrelaxableGroups::default(); 4], &code([adrp, nop]));
    let index = Some(1);
    let status = Status::NotSurveyed;
    assert_eq!(made, Err(ArrayError { status, index }));
    assert_eq!((section, relocations), (code([adrp, nop]), listed.clone()));
}

#[test]
fn windows_ascend() {
    // mov x@GOTPCREL(%rip), %rax twice, whose relocations, R_X86_64_REX_GOTPCRELX, descend
    let mut section = [0x48, 0x8b, 0x05, 0, 0, 0, 0, 0x48, 0x8b, 0x05, 0, 0, 0, 0];
    let mut relocations = relas(&[(10, 42, 1, -4), (3, 42, 1, -4)]);
    let before = (section, relocations.clone());
    let (given, code, kept) = (&mut relocations, &mut section, [UnrelaxableGroups::default(); 4]);
    let made = rewrite_section(X86_64, &EXECUTABLE, &symbols(), &kept, given, code);
    let index = Some(1);
    let status = Status::Overlaps;
    assert_eq!(made, Err(ArrayError { status, index }));
    assert_eq!((section, relocations), before);
}

#[test]
fn decisions_are_made_later() {
    // the sequence above, decided by an input that is only read
    let input = relas(&[(4, 19, 1, -4), (12, 4, 2, -4)]);
    let kept = [UnrelaxableGroups::default(); 4];
    let decisions =
        decide_rewrites(X86_64, &EXECUTABLE, &symbols(), &kept, &input, &GENERAL_DYNAMIC).unwrap();
    assert!(matches!(decisions[0].kind(), Decision::Rewritten { relocation: 23, .. }));
    assert_eq!(decisions[1].kind(), Decision::Consumed);
    let (mut relocations, mut section) = (input.clone(), GENERAL_DYNAMIC);
    assert_eq!(make_rewrites(&mut relocations, &mut section, &decisions), Ok(()));
    assert_eq!(relocations, relas(&[(12, 23, 1, 0), (12, 0, 2, -4)]));
    // mov %fs:0, %rax; lea x@tpoff(%rax), %rax
    let made = [0x64, 0x48, 0x8b, 4, 0x25, 0, 0, 0, 0, 0x48, 0x8d, 0x80, 0, 0, 0, 0];
    assert_eq!(section, made);
    // another distance of the lea, which the rewrite overwrites
    let (mut relocations, mut section) = (input.clone(), GENERAL_DYNAMIC);
    section[4] ^= 1;
    let before = section;
    let error = |status, index| Err(ArrayError { status, index });
    let made = make_rewrites(&mut relocations, &mut section, &decisions);
    assert_eq!(made, error(Status::DoesNotMatch, Some(0)));
    let (mut twice, again) = ([&input[..24], &input[..24]].concat(), [decisions[0]; 2]);
    let (given, mut code) = (twice.clone(), GENERAL_DYNAMIC);
    assert_eq!(make_rewrites(&mut twice, &mut code, &again), error(Status::Overlaps, Some(1)));
    let made = make_rewrites(&mut relocations, &mut section, &decisions[..1]);
    assert_eq!(made, error(Status::ShortMemory, None));
    assert_eq!((relocations, section, twice, code), (input, before, given, GENERAL_DYNAMIC));
}

#[test]
fn decisions_are_as_many_as_relocations() {
    // nop, with R_X86_64_TLSDESC_CALL
    let (mut relocations, mut section) = (relas(&[(0, 35, 1, 0)]), [0x90]);
    let kept = [UnrelaxableGroups::default(); 4];
    let mut with = |decisions: &mut [raw::Decision]| {
        let mut faulty = 7;
        // SAFETY: a slice's pointer and length are its own, and a reference is of one value
        let status = unsafe {
            raw::linker_utils_rewrite_section_nonnull(
                X86_64.machine(),
                &EXECUTABLE,
                symbols().as_ptr(),
                4,
                kept.as_ptr(),
                4,
                relocations.as_mut_ptr(),
                relocations.len(),
                section.as_mut_ptr(),
                section.len(),
                decisions.as_mut_ptr(),
                decisions.len(),
                &mut faulty,
            )
        };
        (status, faulty)
    };
    assert_eq!(with(&mut []), (Status::ShortMemory.number(), 7));
    assert_eq!(with(&mut [raw::Decision::default()]), (Status::NotSurveyed.number(), 0));
}

fn words(bytes: &[u8]) -> Vec<u32> {
    bytes.chunks(4).map(|word| u32::from_le_bytes(word.try_into().unwrap())).collect()
}

/// RISC-V ELF psABI, "Thread Pointer Relaxation"
#[test]
fn a_short_offset_from_the_thread_pointer_needs_one_instruction() {
    // lui a0, %tprel_hi(x); add a0, a0, tp, %tprel_add(x); lw a1, %tprel_lo(x)(a0)
    let code = [0x0000_0537u32, 0x0045_0533, 0x0005_2583].map(u32::to_le_bytes).concat();
    let listed = [(0, 29), (0, 51), (4, 32), (4, 51), (8, 30), (8, 51)];
    let listed = listed.map(|(offset, r_type)| (offset, r_type, u32::from(r_type != 51), 0));
    let (riscv, phase) = (Architecture::RiscV, Phase::TlsLocalExec);
    assert!(has_rewrites(riscv, phase) && !has_rewrites(X86_64, phase));
    let symbols = symbols();
    for (address, is_short) in [(0x1008, true), (0x1800, false)] {
        let mut values = [Symbol::default(); 4];
        values[1] = Symbol { address, is_thread_local: true, ..Symbol::default() };
        let addresses = Addresses { thread_origin: 0x1000, has_tls: true, ..Addresses::default() };
        let placed = Placed {
            output: &EXECUTABLE,
            symbols: &symbols,
            addresses: &addresses,
            values: &values,
        };
        let (mut section, mut relocations) = (code.clone(), relas(&listed));
        let mut kept = [UnrelaxableGroups::default(); 4];
        survey_placed_section(riscv, phase, placed, &relocations, &section, &mut kept).unwrap();
        assert_eq!(kept[1].initial_exec, !is_short);
        let (given, bytes) = (&mut relocations, &mut section);
        let made = rewrite_placed_section(riscv, phase, placed, &kept, given, bytes).unwrap();
        if is_short {
            let bytes = 4;
            assert_eq!(made.1, [0, 4].map(|offset| Deletion { offset, bytes }));
            // lw a1, %tprel_lo(x)(tp)
            assert_eq!(words(&section)[2], 0x0002_2583);
        } else {
            assert_eq!((made.0, made.1, section), (vec![Decision::Kept; 6], vec![], code.clone()));
        }
    }
}

/// ELF for the Arm 64-bit Architecture, "Relocation optimization"
#[test]
fn a_near_address_needs_one_instruction() {
    // adrp x0, x; add x0, x0, :lo12:x, with R_AARCH64_ADR_PREL_PG_HI21 and _ADD_ABS_LO12_NC
    let mut section = [0x9000_0000u32, 0x9100_0000].map(u32::to_le_bytes).concat();
    let mut relocations = relas(&[(0, 275, 1, 0), (4, 277, 1, 0)]);
    let (symbols, kept) = (symbols(), [UnrelaxableGroups::default(); 4]);
    let mut values = [Symbol::default(); 4];
    values[1].address = 0x2004;
    let addresses = Addresses { section: 0x1000, ..Addresses::default() };
    let placed = Placed {
        output: &EXECUTABLE,
        symbols: &symbols,
        addresses: &addresses,
        values: &values,
    };
    let (given, code) = (&mut relocations, &mut section);
    let made = rewrite_placed_section(AARCH64, Phase::ShortPcRel, placed, &kept, given, code);
    let (decisions, deleted) = made.unwrap();
    // nop; adr x0, x, with R_AARCH64_ADR_PREL_LO21
    assert_eq!(words(&section), [0xd503_201f, 0x1000_0000]);
    assert_eq!(relocations, relas(&[(0, 0, 1, 0), (4, 274, 1, 0)]));
    assert_eq!((decisions[0], deleted), (Decision::Consumed, vec![]));
    assert!(matches!(decisions[1], Decision::Rewritten { relocation: 274, .. }));
}

#[test]
fn a_rewritten_load_leads_to_its_symbol() {
    // mov x@GOTPCREL(%rip), %rdi became lea x(%rip), %rdi, whose field is at 0x401003
    let (original, linked) = ([0x48, 0x8b, 0x3d, 0, 0, 0, 0], [0x48, 0x8d, 0x3d, 0x10, 0x20, 0, 0]);
    let windows = Windows { original: &original, offset: 3, others: &[], linked: &linked };
    let found = recognise(X86_64, 42, windows).unwrap();
    let operands = Operands { addend: -4, place: 0x401003, ..Operands::default() };
    let led = destination(&found[0], &original, 3, &operands, 0).unwrap();
    // the next instruction is at 0x401007
    assert_eq!((led.reference, led.symbol, led.addend), (Reference::Symbol, Some(0x403017), -4));
    assert_eq!(led.address.number(), Some(0x403013));
    // without a value
    let none = Recognised { value: None, ..found[0].clone() };
    assert_eq!(destination(&none, &original, 3, &operands, 0), Err(Status::NoAddress));
    assert_eq!(destination(&found[0], &[0; 65], 3, &operands, 0), Err(Status::WindowTooLong));
}

#[test]
fn values_are_written_where_facts_are_as_kept() {
    // addr32 call f, R_X86_64_PC32, which was call *f@GOTPCREL(%rip)
    let relocations = relas(&[(2, 2, 1, -4)]);
    let call = [0x67, 0xe8, 0, 0, 0, 0];
    let addresses = Addresses {
        section: 0x401000,
        ..Addresses::default()
    };
    let at = [0, 0x402005, 0, 0].map(|address| Symbol {
        address,
        ..Symbol::default()
    });
    let kept = snapshot_facts(&EXECUTABLE, &symbols()).unwrap();
    assert_eq!(kept.len(), 4);
    assert_eq!((kept[0], kept[1] == kept[0]), (kept[3], false));
    let written = |output: &OutputFacts, symbols: &[SymbolFacts], kept: &[FactsSnapshot]| {
        let facts = Facts {
            output,
            symbols,
            kept,
        };
        let (mut section, mut memory) = (call, [0]);
        let (code, memory) = (&mut section, &mut memory);
        let done = relocate_rewritten_section(
            X86_64, &facts, &addresses, &relocations, &at, code, memory,
        );
        (done, section)
    };
    let changed = |index| {
        let index = Some(index);
        let status = Status::FactsChanged;
        (Err(ArrayError { status, index }), call)
    };
    let done = written(&EXECUTABLE, &symbols(), &kept);
    assert_eq!(done, (Ok(()), [0x67, 0xe8, 0xff, 0x0f, 0, 0]));
    // another definition may replace f, the output is loaded anywhere, nothing is kept of f
    let mut others = symbols();
    others[1].is_local = false;
    assert_eq!(written(&EXECUTABLE, &others, &kept), changed(0));
    let anywhere = OutputFacts {
        is_fixed: false,
        ..EXECUTABLE
    };
    assert_eq!(written(&anywhere, &symbols(), &kept), changed(0));
    let far = OutputFacts {
        has_near_symbols: false,
        ..EXECUTABLE
    };
    assert_eq!(written(&far, &symbols(), &kept), changed(0));
    assert_eq!(written(&EXECUTABLE, &symbols(), &kept[..1]), changed(0));
    assert_eq!(written(&EXECUTABLE, &symbols(), &[FactsSnapshot::default(); 4]), changed(0));
    // of another symbol
    others = symbols();
    others[3].is_local = true;
    assert_eq!(written(&EXECUTABLE, &others, &kept).0, Ok(()));
}

#[test]
fn loads_from_words_compute_the_address() {
    // addis 3,2,.toc@toc@ha; ld 3,.toc@toc@l(3), with R_PPC64_TOC16_HA and R_PPC64_TOC16_LO_DS of `.toc`,
    // whose first word has R_PPC64_ADDR64 of symbol 1
    let words = |listed: [u32; 2]| listed.map(u32::to_le_bytes).concat();
    let (machine, start) = (Architecture::Ppc64, 0x1_0000);
    let table = relas(&[(0, 38, 1, 0)]);
    let addresses = Addresses {
        section: 0x1000,
        got_base: 0x1_8000,
        ..Addresses::default()
    };
    let values = [0, 0x1_2340, 0, start].map(|address| Symbol {
        address,
        ..Symbol::default()
    });
    let symbols = symbols();
    let placed = Placed {
        output: &EXECUTABLE,
        symbols: &symbols,
        addresses: &addresses,
        values: &values,
    };
    let mut relocations = relas(&[(0, 50, 3, 0), (4, 64, 3, 0)]);
    let mut section = words([0x3c62_0000, 0xe863_0000]);
    let mut kept = [false];
    survey_toc_loads(machine, placed, start, &table, &relocations, &section, &mut kept).unwrap();
    assert_eq!(kept, [false]);
    let (given, code) = (&mut relocations, &mut section);
    let made = rewrite_toc_loads(machine, placed, start, &table, &kept, given, code).unwrap();
    assert!(made.iter().all(|it| matches!(it, Decision::RewrittenWithSymbol { symbol: 1, addend: 0, .. })));
    assert_eq!(section, words([0x3c62_0000, 0x3863_0000]));
    // R_PPC64_TOC16_HA and R_PPC64_TOC16_LO of the word's symbol
    assert_eq!(relocations, relas(&[(0, 50, 1, 0), (4, 48, 1, 0)]));
    // lwz 3,.toc@toc@l(3), which loads no address, keeps the word
    let relocations = relas(&[(0, 64, 3, 0)]);
    let section = 0x8063_0000u32.to_le_bytes();
    survey_toc_loads(machine, placed, start, &table, &relocations, &section, &mut kept).unwrap();
    assert_eq!(kept, [true]);
}

#[test]
fn high_parts_near_the_global_pointer_go() {
    // lui a0, %hi(x) and lw a1, %lo(x)(a0), whose words are as GNU as writes them, and the lw as ld.lld
    // --relax-gp writes it where x is 5 above the global pointer: lw a1, 5(gp)
    let words = |listed: [u32; 2]| listed.map(u32::to_le_bytes).concat();
    let (machine, global_pointer) = (Architecture::RiscV, 0x1_2800);
    let values = [0, 0x1_2805].map(|address| Symbol {
        address,
        ..Symbol::default()
    });
    let known = SymbolFacts {
        is_local: true,
        ..SymbolFacts::default()
    };
    let addresses = Addresses {
        section: 0x1_1000,
        ..Addresses::default()
    };
    let placed = Placed {
        output: &EXECUTABLE,
        symbols: &[known; 2],
        addresses: &addresses,
        values: &values,
    };
    let marked = [(0, 26, 1, 0), (0, 51, 0, 0), (4, 27, 1, 0), (4, 51, 0, 0)];
    let mut relocations = relas(&marked);
    let section = words([0x0000_0537, 0x0005_2583]);
    let mut kept = [false; 2];
    survey_global_pointer(machine, placed, global_pointer, &relocations, &section, &mut kept).unwrap();
    assert_eq!(kept, [false; 2]);
    let given = &mut relocations;
    let (_, deleted) =
        rewrite_global_pointer(machine, placed, global_pointer, &kept, given, &section).unwrap();
    assert_eq!(deleted, [Deletion { offset: 0, bytes: 4, ..Deletion::default() }]);
    // what is left once they are deleted
    let mut section = section[4..].to_vec();
    let mut low = relas(&[(0, 47, 1, 0)]);
    assert_eq!(relocations[56..72], low[8..24]);
    finish_gp_relaxation(&addresses, &values, global_pointer, &mut low, &mut section).unwrap();
    assert_eq!(section, 0x0001_a583u32.to_le_bytes());
    // R_RISCV_LO12_I, whose value is x less the global pointer
    assert_eq!(low, relas(&[(0, 27, 1, -0x1_2800)]));
    // 2,048 above the global pointer no base reaches it
    let far = [Symbol::default(), Symbol { address: 0x1_3000, ..Symbol::default() }];
    let mut low = relas(&[(0, 47, 1, 0)]);
    assert!(finish_gp_relaxation(&addresses, &far, global_pointer, &mut low, &mut section).is_err());
}
