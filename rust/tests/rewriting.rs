// SPDX-License-Identifier: MIT OR Apache-2.0
//! The rewrites of sections, whose instructions and relocations are those of the psABIs' examples and
//! of "ELF Handling For Thread-Local Storage".

use linker_utils::elf::Architecture::{self, AArch64, LoongArch64, Ppc64, RiscV, X86_64};
use linker_utils::output::Origins;
use linker_utils::relaxation::AsDeletion;
use linker_utils::rewriting::{
    Decision, DecisionNumbers, Deletion, GPREL_I, GPREL_S, Group, FactsSnapshot, UnrelaxableGroups, Phase,
    RewritingError, Scope, SymbolFacts, Words, WritingError, first_changed, finish_gp_relaxation,
    has_rewrites, snapshot_facts, relocate_rewritten_section, rewrite_toc_loads,
    rewrite_global_pointer, rewrite_placed_section, rewrite_section, scope_in, scope_of, survey,
    survey_toc_loads, survey_global_pointer, survey_placed_section,
};
use linker_utils::section::{
    self, Addresses, Link, Object, Rela, Symbol, relocate_section, relocation_at,
};

const EXECUTABLE: Link = Link {
    is_executable: true,
    is_fixed: true,
    has_near_symbols: true,
    ..Link::new(X86_64)
};

const NOWHERE: Addresses = EXECUTABLE.addresses(0);

/// A link of an architecture, with the facts of an output and with addresses.
fn link(architecture: Architecture, output: &Link, addresses: &Addresses) -> Link {
    let origins = Origins {
        thread_pointer: addresses.thread_origin,
        module_block: addresses.module_origin,
    };
    Link {
        architecture,
        got_base: addresses.got_base,
        origins: addresses.has_tls.then_some(origins),
        module_entry: Some(addresses.module_entry),
        ..*output
    }
}

fn section_at<B, R>(addresses: &Addresses, bytes: B, relocations: R) -> section::Section<B, R> {
    section::Section {
        address: addresses.section,
        ..section::Section::new(bytes, relocations)
    }
}

/// Symbol 1 is a definition of this output, 2 is `__tls_get_addr`, 3 is another definition and 4 is
/// of another file.
fn symbols() -> [SymbolFacts; 5] {
    let defined = SymbolFacts {
        is_local: true,
        ..SymbolFacts::default()
    };
    let get_addr = SymbolFacts {
        is_tls_get_addr: true,
        ..SymbolFacts::default()
    };
    let imported = SymbolFacts::default();
    [imported, defined, get_addr, defined, imported]
}

fn rela(offset: u64, r_type: u32, symbol: u32, addend: i64) -> Rela {
    Rela {
        offset,
        r_type,
        symbol,
        addend,
    }
}

/// The bytes of a section of relocations.
fn bytes_of(relocations: &[Rela]) -> Vec<u8> {
    let mut bytes = Vec::new();
    for it in relocations {
        bytes.extend(it.offset.to_le_bytes());
        bytes.extend((u64::from(it.r_type) | u64::from(it.symbol) << 32).to_le_bytes());
        bytes.extend(it.addend.to_le_bytes());
    }
    bytes
}

fn words(words: &[u32]) -> Vec<u8> {
    words.iter().flat_map(|word| word.to_le_bytes()).collect()
}

/// A section of code with its relocations.
#[derive(Debug, Clone)]
struct Section {
    bytes: Vec<u8>,
    relocations: Vec<Rela>,
}

/// What becomes of an object's sections, of which each is surveyed first.
fn rewritten(
    architecture: Architecture,
    symbols: &[SymbolFacts],
    sections: &[&Section],
) -> Vec<(Section, Vec<DecisionNumbers>)> {
    rewritten_in(&EXECUTABLE, architecture, symbols, sections)
}

fn rewritten_in(
    output: &Link,
    architecture: Architecture,
    symbols: &[SymbolFacts],
    sections: &[&Section],
) -> Vec<(Section, Vec<DecisionNumbers>)> {
    let mut kept = [UnrelaxableGroups::default(); 5];
    for it in sections {
        let entries = bytes_of(&it.relocations);
        survey(
            &link(architecture, output, &NOWHERE),
            &Object {
                facts: symbols,
                ..Object::default()
            },
            &section_at(&NOWHERE, &it.bytes, &entries),
            &mut kept,
        );
    }
    sections
        .iter()
        .map(|it| {
            let mut entries = bytes_of(&it.relocations);
            let mut bytes = it.bytes.clone();
            let mut decisions = vec![DecisionNumbers::default(); it.relocations.len()];
            rewrite_section(
                &link(architecture, output, &NOWHERE),
                &Object {
                    facts: symbols,
                    unrelaxable_groups: &kept,
                    ..Object::default()
                },
                &mut section_at(&NOWHERE, &mut bytes, &mut entries),
                &mut decisions,
            )
            .unwrap();
            let relocations = section::relocations(&entries).collect();
            (Section { bytes, relocations }, decisions)
        })
        .collect()
}

#[track_caller]
fn expect(architecture: Architecture, before: &Section, after: &Section) {
    let made = rewritten(architecture, &symbols(), &[before]);
    assert_eq!(made[0].0.bytes, after.bytes, "{:x?}", made[0]);
    assert_eq!(made[0].0.relocations, after.relocations);
}

#[track_caller]
fn expect_unchanged(architecture: Architecture, section: &Section) {
    expect(architecture, section, section);
}

/// data16 lea x@tlsgd(%rip), %rdi; data16 data16 rex64 call __tls_get_addr@PLT
const GENERAL_DYNAMIC: [u8; 16] = [
    0x66, 0x48, 0x8d, 0x3d, 0, 0, 0, 0, 0x66, 0x66, 0x48, 0xe8, 0, 0, 0, 0,
];

#[test]
fn calls_go_with_their_sequence() {
    let before = Section {
        bytes: GENERAL_DYNAMIC.to_vec(),
        relocations: vec![rela(4, 19, 1, -4), rela(12, 4, 2, -4)],
    };
    // mov %fs:0, %rax; lea x@tpoff(%rax), %rax
    let after = Section {
        bytes: vec![
            0x64, 0x48, 0x8b, 4, 0x25, 0, 0, 0, 0, 0x48, 0x8d, 0x80, 0, 0, 0, 0,
        ],
        relocations: vec![rela(12, 23, 1, 0), rela(12, 0, 2, -4)],
    };
    expect(X86_64, &before, &after);
    // of another file it becomes initial-exec: add x@gottpoff(%rip), %rax
    let imported = Section {
        relocations: vec![rela(4, 19, 4, -4), rela(12, 4, 2, -4)],
        ..before
    };
    let loaded = Section {
        bytes: vec![
            0x64, 0x48, 0x8b, 4, 0x25, 0, 0, 0, 0, 0x48, 0x03, 0x05, 0, 0, 0, 0,
        ],
        relocations: vec![rela(12, 22, 4, -4), rela(12, 0, 2, -4)],
    };
    expect(X86_64, &imported, &loaded);
}

#[test]
fn other_calls_keep_their_relocation() {
    let mut bytes = GENERAL_DYNAMIC.to_vec();
    bytes.extend([0xe8, 0, 0, 0, 0]);
    // the sequence's call has no relocation, and the next relocation is of another call
    expect_unchanged(
        X86_64,
        &Section {
            bytes: bytes.clone(),
            relocations: vec![rela(4, 19, 1, -4), rela(17, 4, 2, -4)],
        },
    );
    // the next one is at the call, but of another function, or isn't of a call
    for other in [rela(12, 4, 3, -4), rela(12, 1, 2, -4)] {
        expect_unchanged(
            X86_64,
            &Section {
                bytes: bytes.clone(),
                relocations: vec![rela(4, 19, 1, -4), other],
            },
        );
    }
    // the last relocation has no next one
    expect_unchanged(
        X86_64,
        &Section {
            bytes,
            relocations: vec![rela(4, 19, 1, -4)],
        },
    );
}

#[test]
fn loads_from_the_got_are_rewritten_alone() {
    // mov x@GOTPCREL(%rip), %rax; call *f@GOTPCREL(%rip), of symbols 1 and 4
    let before = Section {
        bytes: vec![0x48, 0x8b, 0x05, 0, 0, 0, 0, 0xff, 0x15, 0, 0, 0, 0],
        relocations: vec![rela(3, 42, 1, -4), rela(9, 41, 4, -4)],
    };
    let mut after = before.clone();
    after.bytes[1] = 0x8d;
    after.relocations[0].r_type = 2;
    expect(X86_64, &before, &after);
}

#[test]
fn what_has_evex_is_no_mov() {
    // vpcompressd %zmm0, x@GOTPCREL(%rip), which ld.lld 19 leaves, and after it
    // mov x@GOTPCREL(%rip), %rax
    let evex = [0x62, 0xf2, 0x7d, 0x48, 0x8b, 0x05, 0, 0, 0, 0];
    let mov = [0x48, 0x8b, 0x05, 0, 0, 0, 0];
    let before = Section {
        bytes: [&evex[..], &mov].concat(),
        relocations: vec![rela(6, 9, 1, -4), rela(13, 9, 1, -4)],
    };
    let mut after = before.clone();
    after.bytes[11] = 0x8d;
    after.relocations[1].r_type = 2;
    expect(X86_64, &before, &after);
    // with fewer bytes before the field there is no EVEX prefix
    for bytes in [&evex[1..], &evex[3..]] {
        let offset = bytes.len() as u64 - 4;
        let before = Section {
            bytes: bytes.to_vec(),
            relocations: vec![rela(offset, 9, 1, -4)],
        };
        let mut after = before.clone();
        after.bytes[offset as usize - 2] = 0x8d;
        after.relocations[0].r_type = 2;
        expect(X86_64, &before, &after);
    }
}

/// lea x@tlsld(%rip), %rdi; call __tls_get_addr@PLT
fn local_dynamic() -> Section {
    Section {
        bytes: vec![0x48, 0x8d, 0x3d, 0, 0, 0, 0, 0xe8, 0, 0, 0, 0],
        relocations: vec![rela(3, 20, 1, -4), rela(8, 4, 2, -4)],
    }
}

#[test]
fn local_dynamic_of_an_object_is_one_group() {
    // lea x@dtpoff(%rax), %rax, in another section
    let offsets = Section {
        bytes: vec![0x48, 0x8d, 0x80, 0, 0, 0, 0],
        relocations: vec![rela(3, 21, 3, 0)],
    };
    let made = rewritten(X86_64, &symbols(), &[&local_dynamic(), &offsets]);
    // data16 data16 data16 mov %fs:0, %rax
    assert_eq!(
        made[0].0.bytes,
        [0x66, 0x66, 0x66, 0x64, 0x48, 0x8b, 4, 0x25, 0, 0, 0, 0]
    );
    assert_eq!(made[0].0.relocations[0].r_type, 0);
    assert_eq!(made[0].0.relocations[1].r_type, 0);
    assert_eq!(made[1].0.relocations, [rela(3, 23, 3, 0)]);
    // where one call isn't there, or one argument isn't the entry's address, all stay
    let mut damaged = local_dynamic();
    damaged.relocations[1].symbol = 3;
    let mut moved = local_dynamic();
    moved.relocations[0].addend = -12;
    for other in [damaged, moved] {
        let sections = [&offsets, &local_dynamic(), &other];
        for (made, before) in rewritten(X86_64, &symbols(), &sections)
            .iter()
            .zip(sections)
        {
            assert_eq!(made.0.bytes, before.bytes);
            assert_eq!(made.0.relocations, before.relocations);
        }
    }
}

#[test]
fn groups_are_of_one_symbol() {
    // adrp x0, :gottprel:x; ldr x0, [x0, :gottprel_lo12:x]; and the same of symbol 3 with a second low
    // half that isn't a load of 8 bytes
    let (adrp, ldr, ldr_32) = (0x9000_0000, 0xf940_0000, 0xb940_0000);
    let section = |third: u32, symbol| Section {
        bytes: words(&[adrp, ldr, adrp, ldr, third]),
        relocations: vec![
            rela(0, 541, symbol, 0),
            rela(4, 542, symbol, 0),
            rela(8, 541, 3, 0),
            rela(12, 542, 3, 0),
            rela(16, 542, 3, 0),
        ],
    };
    // movz x0, #:tprel_g1:x, lsl #16; movk x0, #:tprel_g0_nc:x
    let (movz, movk) = (0xd2a0_0000, 0xf280_0000);
    let first = [rela(0, 545, 1, 0), rela(4, 548, 1, 0)];
    let before = section(ldr_32, 1);
    let mut after = before.clone();
    after.bytes = words(&[movz, movk, adrp, ldr, ldr_32]);
    after.relocations[..2].copy_from_slice(&first);
    expect(AArch64, &before, &after);
    // all of symbol 3 are rewritten where each can be
    let before = section(ldr, 1);
    let after = Section {
        bytes: words(&[movz, movk, movz, movk, movk]),
        relocations: vec![
            first[0],
            first[1],
            rela(8, 545, 3, 0),
            rela(12, 548, 3, 0),
            rela(16, 548, 3, 0),
        ],
    };
    expect(AArch64, &before, &after);
    // and none where the damaged low half is of their symbol
    expect_unchanged(AArch64, &section(ldr_32, 3));
}

#[test]
fn an_access_without_a_rewrite_keeps_its_load() {
    // addis 9,2,x@got@tprel@ha; ld 9,x@got@tprel@l(9); ldux 3,9,13, which has no rewrite
    let (addis, ld) = (0x3d22_0000, 0xe929_0000);
    let section = |access| Section {
        bytes: words(&[addis, ld, access]),
        relocations: vec![rela(0, 90, 1, 0), rela(4, 88, 1, 0), rela(8, 67, 1, 0)],
    };
    expect_unchanged(Ppc64, &section(0x7c69_686a));
    // ldx 3,9,13 has one: nop; addis 9,13,x@tprel@ha; ld 3,x@tprel@l(9)
    expect(
        Ppc64,
        &section(0x7c69_682a),
        &Section {
            bytes: words(&[0x6000_0000, 0x3d2d_0000, 0xe869_0000]),
            relocations: vec![rela(0, 0, 1, 0), rela(4, 72, 1, 0), rela(8, 96, 1, 0)],
        },
    );
}

/// addis 3,2,x@got@tlsgd@ha; addi 3,3,x@got@tlsgd@l; bl __tls_get_addr(x@tlsgd); nop
fn ppc64_general_dynamic() -> Section {
    Section {
        bytes: words(&[0x3c62_0000, 0x3863_0000, 0x4800_0001, 0x6000_0000]),
        relocations: vec![
            rela(0, 82, 1, 0),
            rela(4, 80, 1, 0),
            rela(8, 107, 1, 0),
            rela(8, 10, 2, 0),
        ],
    }
}

#[test]
fn what_is_taken_along_is_not_rewritten() {
    // nop; addis 3,13,x@tprel@ha; nop; addi 3,3,x@tprel@l
    let before = ppc64_general_dynamic();
    let made = rewritten(Ppc64, &symbols(), &[&before]);
    assert_eq!(
        made[0].0.bytes,
        words(&[0x6000_0000, 0x3c6d_0000, 0x6000_0000, 0x3863_0000])
    );
    assert_eq!(made[0].1[3].as_decision(), Decision::Consumed);
    assert_eq!(made[0].0.relocations[3].r_type, 0);
    // Where the group stays, the call of an imported function is rewritten: its nop restores the TOC
    // pointer, ld 2,24(1).
    let mut other = before.clone();
    other.bytes[4..8].copy_from_slice(&0x6063_0000_u32.to_le_bytes());
    let made = rewritten(Ppc64, &symbols(), &[&other]);
    let mut after = other.clone();
    after.bytes[12..].copy_from_slice(&0xe841_0018_u32.to_le_bytes());
    assert_eq!(made[0].0.bytes, after.bytes);
    assert_eq!(made[0].0.relocations, after.relocations);
}

#[test]
fn calls_without_a_mark_keep_all_thread_local_storage() {
    // bl __tls_get_addr; nop, in another section of the object
    let call = Section {
        bytes: words(&[0x4800_0001, 0x6000_0000]),
        relocations: vec![rela(0, 10, 2, 0)],
    };
    let before = ppc64_general_dynamic();
    let made = rewritten(Ppc64, &symbols(), &[&before, &call]);
    assert_eq!(made[0].0.bytes[..12], before.bytes[..12]);
    assert_eq!(made[0].0.relocations, before.relocations);
}

/// paddi 3,0,x@got@tlsgd@pcrel,1; bl __tls_get_addr@notoc(x@tlsgd); nop, which aligns what is next
fn prefixed_general_dynamic(symbol: u32) -> Section {
    Section {
        bytes: words(&[0x0610_0000, 0x3860_0000, 0x4800_0001, 0x6000_0000]),
        relocations: vec![
            rela(0, 148, symbol, 0),
            rela(8, 107, symbol, 0),
            rela(8, 116, 2, 0),
        ],
    }
}

#[test]
fn prefixed_general_dynamic_needs_no_call() {
    // paddi 3,13,x@tprel; nop; and of a variable elsewhere pld 3,x@got@tprel@pcrel; add 3,3,13
    for (symbol, after, r_type) in [
        (1, [0x0600_0000, 0x386d_0000, 0x6000_0000, 0x6000_0000], 146),
        (4, [0x0410_0000, 0xe460_0000, 0x7c63_6a14, 0x6000_0000], 150),
    ] {
        let made = rewritten(Ppc64, &symbols(), &[&prefixed_general_dynamic(symbol)]);
        assert_eq!(made[0].0.bytes, words(&after));
        assert_eq!(made[0].0.relocations[0], rela(0, r_type, symbol, 0));
        assert_eq!(made[0].0.relocations[1].r_type, 0);
        assert_eq!(made[0].0.relocations[2].r_type, 0);
        assert_eq!(made[0].1[2].as_decision(), Decision::Consumed);
    }
}

#[test]
fn each_call_of_an_object_is_of_its_own_kind_of_code() {
    let (toc, prefixed) = (ppc64_general_dynamic(), prefixed_general_dynamic(1));
    for sections in [[&toc, &prefixed], [&prefixed, &toc]] {
        let made = rewritten(Ppc64, &symbols(), &sections);
        for (made, before) in made.iter().zip(sections) {
            let after = if before.bytes == toc.bytes {
                [0x6000_0000, 0x3c6d_0000, 0x6000_0000, 0x3863_0000]
            } else {
                [0x0600_0000, 0x386d_0000, 0x6000_0000, 0x6000_0000]
            };
            assert_eq!(made.0.bytes, words(&after));
        }
    }
}

#[test]
fn prefixed_sequences_stay_as_a_whole() {
    let whole = prefixed_general_dynamic(1);
    // a call that isn't next to its mark, and one of another function
    let mut apart = whole.clone();
    apart.relocations.insert(2, rela(8, 0, 1, 0));
    expect_unchanged(Ppc64, &apart);
    let mut other = whole.clone();
    other.relocations[2].symbol = 3;
    expect_unchanged(Ppc64, &other);
    // no `bl`; and a call by an address from the PLT: mtctr 12; bctrl
    for word in [0x6042_0000_u32, 0x7d89_03a6] {
        let mut other = whole.clone();
        other.bytes[8..12].copy_from_slice(&word.to_le_bytes());
        expect_unchanged(Ppc64, &other);
    }
    // an argument that isn't relative to the instruction
    let mut other = whole.clone();
    other.bytes[2] = 0;
    expect_unchanged(Ppc64, &other);
}

#[test]
fn prefixed_local_dynamic_has_the_block_from_the_thread_pointer() {
    // paddi 3,0,x@got@tlsld@pcrel,1; bl __tls_get_addr@notoc(x@tlsld); paddi 3,3,x@dtprel
    let before = Section {
        bytes: words(&[
            0x0610_0000,
            0x3860_0000,
            0x4800_0001,
            0x0600_0000,
            0x3863_0000,
        ]),
        relocations: vec![
            rela(0, 149, 1, 0),
            rela(8, 108, 1, 0),
            rela(8, 116, 2, 0),
            rela(12, 147, 1, 0),
        ],
    };
    // paddi 3,13,4096; nop
    let made = rewritten(Ppc64, &symbols(), &[&before]);
    assert_eq!(
        made[0].0.bytes,
        words(&[
            0x0600_0000,
            0x386d_1000,
            0x6000_0000,
            0x0600_0000,
            0x3863_0000
        ])
    );
    let r_types: Vec<u32> = made[0].0.relocations.iter().map(|it| it.r_type).collect();
    assert_eq!(r_types, [0, 0, 0, 147]);
}

#[test]
fn prefixed_initial_exec_has_marks_at_second_bytes() {
    // pld 9,x@got@tprel@pcrel; add 3,9,x@tls@pcrel, or stdx 3,9,x@tls@pcrel, or stdux 3,9,13
    let section = |access| Section {
        bytes: words(&[0x0410_0000, 0xe520_0000, access]),
        relocations: vec![rela(0, 150, 1, 0), rela(9, 67, 1, 0)],
    };
    // paddi 9,13,x@tprel; mr 3,9, or std 3,0(9)
    for (before, after) in [(0x7c69_6a14, 0x7d23_4b78), (0x7c69_692a, 0xf869_0000)] {
        expect(
            Ppc64,
            &section(before),
            &Section {
                bytes: words(&[0x0600_0000, 0x392d_0000, after]),
                relocations: vec![rela(0, 146, 1, 0), rela(9, 0, 1, 0)],
            },
        );
    }
    expect_unchanged(Ppc64, &section(0x7c69_696a));
}

#[test]
fn descriptors_may_be_apart() {
    // pcalau12i a0; addi.d a0, a0; ld.d ra, a0, 0; jirl ra, ra, 0; with a nop between
    let section = |last| Section {
        bytes: words(&[0x1a00_0004, 0x02c0_0084, 0x0340_0000, 0x28c0_0081, last]),
        relocations: vec![
            rela(0, 111, 1, 0),
            rela(4, 112, 1, 0),
            rela(12, 119, 1, 0),
            rela(16, 120, 1, 0),
        ],
    };
    // lu12i.w a0; ori a0, a0; nop; nop; nop
    expect(
        LoongArch64,
        &section(0x4c00_0021),
        &Section {
            bytes: words(&[
                0x1400_0004,
                0x0380_0084,
                0x0340_0000,
                0x0340_0000,
                0x0340_0000,
            ]),
            relocations: vec![
                rela(0, 83, 1, 0),
                rela(4, 84, 1, 0),
                rela(12, 0, 1, 0),
                rela(16, 0, 1, 0),
            ],
        },
    );
    // jirl ra, a0, 0
    expect_unchanged(LoongArch64, &section(0x4c00_0081));
}

/// adrp x0, :tlsdesc:x; ldr x1, [x0, :tlsdesc_lo12:x]; add x0, x0, :tlsdesc_lo12:x; blr x1
fn descriptor(symbol: u32) -> Section {
    Section {
        bytes: words(&[0x9000_0000, 0xf940_0001, 0x9100_0000, 0xd63f_0020]),
        relocations: vec![
            rela(0, 562, symbol, 0),
            rela(4, 563, symbol, 0),
            rela(8, 564, symbol, 0),
            rela(12, 569, symbol, 0),
        ],
    }
}

#[test]
fn descriptors_of_aarch64_are_whole() {
    const NOP: u32 = 0xd503_201f;
    // movz x0, #:tprel_g1:x, lsl #16; movk x0, #:tprel_g0_nc:x
    let local = Section {
        bytes: words(&[0xd2a0_0000, 0xf280_0000, NOP, NOP]),
        relocations: vec![
            rela(0, 545, 1, 0),
            rela(4, 548, 1, 0),
            rela(8, 0, 1, 0),
            rela(12, 0, 1, 0),
        ],
    };
    expect(AArch64, &descriptor(1), &local);
    // adrp x0, :gottprel:x; ldr x0, [x0, :gottprel_lo12:x]
    let imported = Section {
        bytes: words(&[0x9000_0000, 0xf940_0000, NOP, NOP]),
        relocations: vec![
            rela(0, 541, 4, 0),
            rela(4, 542, 4, 0),
            rela(8, 0, 4, 0),
            rela(12, 0, 4, 0),
        ],
    };
    expect(AArch64, &descriptor(4), &imported);
    // one of another symbol, of another addend, at another place, or none at all
    for n in 0..4 {
        let damaged = |change: &dyn Fn(&mut Rela)| {
            let mut section = descriptor(1);
            change(&mut section.relocations[n]);
            section
        };
        expect_unchanged(AArch64, &damaged(&|it| it.symbol = 4));
        expect_unchanged(AArch64, &damaged(&|it| it.addend = 8));
        expect_unchanged(AArch64, &damaged(&|it| it.r_type = 0));
        let mut section = descriptor(1);
        section.relocations.remove(n);
        expect_unchanged(AArch64, &section);
    }
}

#[test]
fn calls_of_undefined_weak_functions_are_erased() {
    let mut symbols = symbols();
    symbols[4].is_undefined_weak = true;
    let before = Section {
        bytes: words(&[0x9400_0000]),
        relocations: vec![rela(0, 283, 4, 0)],
    };
    let made = rewritten(AArch64, &symbols, &[&before]);
    assert_eq!(made[0].0.bytes, words(&[0xd503_201f]));
    assert_eq!(made[0].0.relocations, [rela(0, 0, 4, 0)]);
}

/// ELF for the Arm 64-bit Architecture, "Call and Jump relocations": a branch to an undefined weak
/// symbol goes to the next instruction.
#[test]
fn branches_of_aarch64_stay_unless_nothing_defines_them() {
    let mut symbols = symbols();
    symbols[4].is_undefined_weak = true;
    let before = Section {
        // bl and b
        bytes: words(&[0x9400_0000, 0x1400_0000, 0x9400_0000, 0x1400_0000]),
        relocations: vec![
            rela(0, 283, 1, 0),
            rela(4, 282, 4, 0),
            rela(8, 283, 4, 0),
            rela(12, 282, 0, 0),
        ],
    };
    let made = rewritten(AArch64, &symbols, &[&before]);
    let nop = 0xd503_201f;
    assert_eq!(
        made[0].0.bytes,
        words(&[0x9400_0000, nop, nop, 0x1400_0000])
    );
    let r_types: Vec<_> = made[0].0.relocations.iter().map(|it| it.r_type).collect();
    assert_eq!(r_types, [283, 0, 0, 282]);
}

/// 64-Bit ELF V2 ABI, "Function Call": the `nop` after a call becomes `ld r2,24(r1)` where the callee
/// may have another TOC pointer, through a stub or by `st_other`.
#[test]
fn calls_of_ppc64_restore_the_toc_pointer_where_it_may_change() {
    let mut symbols = symbols();
    symbols[3].other = 1 << 5;
    let (call, nop, restore) = (0x4800_0001, 0x6000_0000, 0xe841_0018);
    let before = Section {
        bytes: words(&[call, nop, call, nop, call, nop]),
        relocations: vec![rela(0, 10, 1, 0), rela(8, 10, 3, 0), rela(16, 10, 4, 0)],
    };
    let made = rewritten(Ppc64, &symbols, &[&before]);
    assert_eq!(
        made[0].0.bytes,
        words(&[call, nop, call, restore, call, restore])
    );
    assert_eq!(made[0].0.relocations, before.relocations);
}

/// Rewrites a section by a table of groups that stay. What comes of an error is as it was.
fn error_of(section: &Section, kept: &[UnrelaxableGroups], room: usize) -> RewritingError {
    let entries = bytes_of(&section.relocations);
    let (mut entries_after, mut bytes_after) = (entries.clone(), section.bytes.clone());
    let error = rewrite_section(
        &link(X86_64, &EXECUTABLE, &NOWHERE),
        &Object {
            facts: &symbols(),
            unrelaxable_groups: kept,
            ..Object::default()
        },
        &mut section_at(&NOWHERE, &mut bytes_after, &mut entries_after),
        &mut vec![DecisionNumbers::default(); room],
    )
    .unwrap_err();
    assert_eq!(bytes_after, section.bytes);
    assert_eq!(entries_after, entries);
    error
}

/// mov x@GOTPCREL(%rip), %rax at each offset, a `nop` before each, and others' relocations after the
/// index `at` of theirs, as many as there are.
fn loads_among(count: u64, at: usize, others: &[Rela]) -> Section {
    let load = [0x90, 0x48, 0x8b, 0x05, 0, 0, 0, 0];
    let mut relocations: Vec<Rela> = (0..count).map(|n| rela(8 * n + 4, 42, 1, -4)).collect();
    relocations.splice(at..at, others.iter().copied());
    Section {
        bytes: load.repeat(count as usize),
        relocations,
    }
}

/// Whether one of `len` bytes from an offset on is the opcode of a load, which becomes that of `lea`.
fn is_opcode(index: u64, offset: u64, len: u64) -> bool {
    offset < 8 * index + 3 && 8 * index + 2 < offset + len
}

fn rewritten_alone(section: &Section) -> (Result<(), RewritingError>, Vec<DecisionNumbers>) {
    let mut entries = bytes_of(&section.relocations);
    let (before, mut bytes) = (entries.clone(), section.bytes.clone());
    let mut decisions = vec![DecisionNumbers::default(); section.relocations.len()];
    let result = rewrite_section(
        &link(X86_64, &EXECUTABLE, &NOWHERE),
        &Object {
            facts: &symbols(),
            unrelaxable_groups: &[UnrelaxableGroups::default(); 5],
            ..Object::default()
        },
        &mut section_at(&NOWHERE, &mut bytes, &mut entries),
        &mut decisions,
    );
    assert!(result.is_ok() || (entries == before && bytes == section.bytes));
    (result, decisions)
}

// GNU as 2.40 makes such an object of `.reloc`, and GNU ld and ld.lld 19 link it without an error:
// of y = 0x90 at the opcode they make 48 90 c0 .. and 48 81 d0 .., whose programs end by a signal
#[test]
fn a_field_in_the_window_of_a_rewrite_is_an_error() {
    // R_X86_64_8, 16, 32 and 64 of symbol 3, whose first byte is at each offset
    for (r_type, len) in [(14, 1), (12, 2), (10, 4), (1, 8)] {
        for offset in 0..24 {
            for at in 0..=3 {
                let section = loads_among(3, at, &[rela(offset, r_type, 3, 0)]);
                let (made, decisions) = rewritten_alone(&section);
                let is_covered = (0..3).any(|n| is_opcode(n, offset, len));
                let expected = if is_covered {
                    Err(RewritingError::Overlaps(at))
                } else {
                    Ok(())
                };
                assert_eq!(made, expected, "{section:x?}");
                assert_eq!(decisions[at].as_decision(), Decision::Kept);
                let made = decisions.iter().filter(|it| it.fate != 0).count();
                assert_eq!(made, 3);
            }
        }
    }
}

/// Which of the relocations of `loads_among` has a field in the bytes of a rewrite, the first.
fn first_covered(section: &Section) -> Option<usize> {
    let len = |code| {
        [(14, 1), (12, 2), (10, 4), (1, 8)]
            .iter()
            .find(|it| it.0 == code)
            .map(|it| it.1)
    };
    section.relocations.iter().position(|it| {
        len(it.r_type).is_some_and(|len| {
            (0..section.bytes.len() as u64 / 8).any(|n| is_opcode(n, it.offset, len))
        })
    })
}

#[test]
fn fields_among_rewrites_are_found_in_any_order() {
    let mut state = 1u64;
    let mut next = |below: u64| {
        state = state
            .wrapping_mul(6_364_136_223_846_793_005)
            .wrapping_add(1);
        (state >> 33) % below
    };
    let mut found = [0; 2];
    for _ in 0..20_000 {
        let count = 1 + next(6);
        let mut section = loads_among(count, 0, &[]);
        for _ in 0..next(8) {
            // R_X86_64_8, 16, 32 and 64, mostly in the nops, and NONE and GNU_VTINHERIT, without a field
            let offset = if next(8) == 0 {
                next(8 * count)
            } else {
                8 * next(count + 1)
            };
            let code = [14, 14, 12, 10, 1, 0][next(6) as usize];
            let at = next(section.relocations.len() as u64 + 1) as usize;
            section.relocations.insert(at, rela(offset, code, 3, 0));
        }
        let (made, decisions) = rewritten_alone(&section);
        let covered = first_covered(&section);
        assert_eq!(
            made.err(),
            covered.map(RewritingError::Overlaps),
            "{section:x?}"
        );
        found[usize::from(covered.is_some())] += 1;
        for (it, decision) in section.relocations.iter().zip(&decisions) {
            let decision = decision.as_decision();
            assert_eq!(matches!(decision, Decision::Rewritten(_)), it.r_type == 42);
            assert_eq!(decision == Decision::Kept, it.r_type != 42);
        }
    }
    assert!(found.iter().all(|it| *it > 1000), "{found:?}");
}

#[test]
fn on_errors_nothing_is_changed() {
    // mov x@GOTPCREL(%rip), %rax, and what follows
    let with = |bytes: &[u8], relocations: &[Rela]| {
        let mut section = Section {
            bytes: vec![0x48, 0x8b, 0x05, 0, 0, 0, 0],
            relocations: vec![rela(3, 42, 1, -4)],
        };
        section.bytes.extend(bytes);
        section.relocations.extend(relocations);
        section
    };
    let kept = [UnrelaxableGroups::default(); 5];
    let one = with(&[], &[]);
    assert_eq!(error_of(&one, &kept, 0), RewritingError::TooShort);
    // a nop isn't a call by a descriptor, and nobody has noted that
    let nop = with(&[0x90, 0x90], &[rela(7, 35, 1, 0)]);
    assert_eq!(error_of(&nop, &kept, 2), RewritingError::NotSurveyed(1));
    // the same instruction twice
    let twice = with(&[], &[rela(3, 42, 1, -4)]);
    assert_eq!(error_of(&twice, &kept, 2), RewritingError::Overlaps(1));
    // one that is above the other
    let mut swapped = with(&[0x48, 0x8b, 0x05, 0, 0, 0, 0], &[rela(10, 42, 1, -4)]);
    swapped.relocations.swap(0, 1);
    assert_eq!(error_of(&swapped, &kept, 2), RewritingError::Overlaps(1));
}

#[test]
fn groups_stay_where_tables_are_too_short() {
    let section = local_dynamic();
    let mut entries = bytes_of(&section.relocations);
    let mut bytes = section.bytes.clone();
    survey(
        &link(X86_64, &EXECUTABLE, &NOWHERE),
        &Object {
            facts: &symbols(),
            ..Object::default()
        },
        &section_at(&NOWHERE, &bytes, &entries),
        &mut [],
    );
    let mut decisions = [DecisionNumbers::from_decision(Decision::Consumed); 2];
    rewrite_section(
        &link(X86_64, &EXECUTABLE, &NOWHERE),
        &Object {
            facts: &symbols(),
            unrelaxable_groups: &[],
            ..Object::default()
        },
        &mut section_at(&NOWHERE, &mut bytes, &mut entries),
        &mut decisions,
    )
    .unwrap();
    assert_eq!(bytes, section.bytes);
    assert_eq!(decisions, [DecisionNumbers::default(); 2]);
    // and so does what is of a symbol that isn't there
    let made = rewritten(X86_64, &symbols()[..1], &[&local_dynamic()]);
    assert_eq!(made[0].0.bytes, section.bytes);
}

#[test]
fn scopes_are_those_of_the_relocation() {
    assert_eq!(scope_of(X86_64, 19), Scope::Independent);
    assert_eq!(scope_of(X86_64, 34), Scope::Grouped(Group::Descriptor));
    assert_eq!(scope_of(Ppc64, 67), Scope::Grouped(Group::InitialExec));
    assert_eq!(scope_of(Ppc64, 11), Scope::NotRelaxable);
    assert_eq!(scope_of(RiscV, 62), Scope::NotRelaxable);
    assert_eq!(scope_of(LoongArch64, u32::MAX), Scope::NotRelaxable);
}

#[test]
fn marked_loads_of_loongarch_are_rewritten() {
    // pcalau12i a0, %got_pc_hi20(x); ld.d a0, a0, %got_pc_lo12(x), each with R_LARCH_RELAX
    let section = |symbol| Section {
        bytes: words(&[0x1a00_0004, 0x28c0_0084]),
        relocations: vec![
            rela(0, 75, symbol, 0),
            rela(0, 100, 0, 0),
            rela(4, 76, symbol, 0),
            rela(4, 100, 0, 0),
        ],
    };
    // pcalau12i a0, %pc_hi20(x); addi.d a0, a0, %pc_lo12(x)
    let mut after = section(1);
    after.bytes = words(&[0x1a00_0004, 0x02c0_0084]);
    (after.relocations[0].r_type, after.relocations[2].r_type) = (71, 72);
    expect(LoongArch64, &section(1), &after);
    // of another file, without a mark, with another addend, of another symbol, and apart
    expect_unchanged(LoongArch64, &section(4));
    for index in [1, 3] {
        let mut unmarked = section(1);
        unmarked.relocations.remove(index);
        expect_unchanged(LoongArch64, &unmarked);
        let mut other = section(1);
        other.relocations[index].offset ^= 4;
        expect_unchanged(LoongArch64, &other);
    }
    let mut other = section(1);
    other.relocations[2].addend = 8;
    expect_unchanged(LoongArch64, &other);
    let mut other = section(1);
    other.relocations[2].symbol = 3;
    expect_unchanged(LoongArch64, &other);
    // one without marks stays, and keeps no other load of its symbol
    let unmarked = [rela(8, 75, 1, 0), rela(12, 76, 1, 0)];
    let (mut two, mut one_after) = (section(1), after);
    for it in [&mut two, &mut one_after] {
        it.bytes.extend(section(1).bytes);
        it.relocations.extend(unmarked);
    }
    expect(LoongArch64, &two, &one_after);
}

/// Loads of symbol 1 from the GOT, and jumps through it, that are rewritten before addresses are known.
fn got_loads() -> Vec<(Architecture, Section)> {
    let load = |bytes: &[u8], relocations: &[Rela]| Section {
        bytes: bytes.to_vec(),
        relocations: relocations.to_vec(),
    };
    // mov x@GOTPCREL(%rip), %eax or %rax; call or jmp *f@GOTPCREL(%rip)
    let moves = [0x48, 0x8b, 0x05, 0, 0, 0, 0];
    let mut loads = vec![
        (X86_64, load(&moves, &[rela(3, 9, 1, -4)])),
        (X86_64, load(&moves[1..], &[rela(2, 41, 1, -4)])),
        (X86_64, load(&moves, &[rela(3, 42, 1, -4)])),
        (
            X86_64,
            load(&[0xff, 0x15, 0, 0, 0, 0], &[rela(2, 41, 1, -4)]),
        ),
        (
            X86_64,
            load(&[0xff, 0x25, 0, 0, 0, 0], &[rela(2, 41, 1, -4)]),
        ),
    ];
    // pcalau12i a0, %got_pc_hi20(x); ld.d a0, a0, %got_pc_lo12(x), each with R_LARCH_RELAX
    let marked = [(0, 75, 1), (0, 100, 0), (4, 76, 1), (4, 100, 0)];
    let marked = marked.map(|(offset, r_type, symbol)| rela(offset, r_type, symbol, 0));
    loads.push((
        LoongArch64,
        load(&words(&[0x1a00_0004, 0x28c0_0084]), &marked),
    ));
    // addis 3,2,x@got@ha; ld 3,x@got@l(3), and pld 3,x@got@pcrel
    let halves = words(&[0x3c62_0000, 0xe863_0000]);
    loads.push((
        Ppc64,
        load(&halves, &[rela(0, 17, 1, 0), rela(4, 59, 1, 0)]),
    ));
    let prefixed = words(&[0x0410_0000, 0xe460_0000]);
    loads.push((Ppc64, load(&prefixed, &[rela(0, 133, 1, 0)])));
    loads
}

#[test]
fn loads_from_the_got_stay_where_symbols_may_be_far() {
    let far = Link {
        has_near_symbols: false,
        ..EXECUTABLE
    };
    let mut absolute = symbols();
    absolute[1].is_absolute = true;
    for (architecture, section) in got_loads() {
        let made = |output: &Link, facts: &[SymbolFacts]| {
            rewritten_in(output, architecture, facts, &[&section])
                .remove(0)
                .0
        };
        let first = |section: &Section| section.relocations[0].r_type;
        assert_ne!(
            first(&made(&EXECUTABLE, &symbols())),
            first(&section),
            "{architecture:?}"
        );
        // as ld.lld 19 leaves LoongArch's pair of an absolute symbol, 0x320000000, of code at
        // 0x120000000
        for (output, facts) in [(far, symbols()), (EXECUTABLE, absolute), (far, absolute)] {
            let after = made(&output, &facts);
            assert_eq!(after.bytes, section.bytes, "{architecture:?}");
            assert_eq!(after.relocations, section.relocations);
        }
    }
}

/// Where symbols 1 and 3 are.
fn values(first: u64, third: u64) -> [Symbol; 5] {
    let mut values = [Symbol::default(); 5];
    (values[1].address, values[3].address) = (first, third);
    values
}

/// What becomes of an object's sections in a phase, of which each is surveyed first, and what is
/// deleted of each.
fn placed(
    architecture: Architecture,
    phase: Phase,
    addresses: &Addresses,
    values: &[Symbol],
    sections: &[&Section],
) -> Vec<(Section, Vec<(u64, u32)>)> {
    let symbols = symbols();
    let mut kept = [UnrelaxableGroups::default(); 5];
    for it in sections {
        survey_placed_section(
            &link(architecture, &EXECUTABLE, addresses),
            &Object {
                facts: &symbols,
                values,
                ..Object::default()
            },
            &section_at(addresses, &it.bytes, &bytes_of(&it.relocations)),
            phase,
            &mut kept,
        )
        .unwrap();
    }
    sections
        .iter()
        .map(|it| {
            let mut entries = bytes_of(&it.relocations);
            let mut bytes = it.bytes.clone();
            let mut deleted = [Deletion::default(); 9];
            let len = rewrite_placed_section(
                &link(architecture, &EXECUTABLE, addresses),
                &Object {
                    facts: &symbols,
                    values,
                    unrelaxable_groups: &kept,
                    ..Object::default()
                },
                &mut section_at(addresses, &mut bytes, &mut entries),
                phase,
                &mut vec![DecisionNumbers::default(); it.relocations.len()],
                &mut deleted,
            )
            .unwrap();
            let relocations = section::relocations(&entries).collect();
            let deleted = deleted[..len].iter().map(|it| it.as_deletion()).collect();
            (Section { bytes, relocations }, deleted)
        })
        .collect()
}

/// The words of a section with all values, without what is deleted of it.
fn linked(
    architecture: Architecture,
    addresses: &Addresses,
    values: &[Symbol],
    section: &Section,
    deleted: &[(u64, u32)],
) -> Vec<u32> {
    let mut bytes = section.bytes.clone();
    let entries = bytes_of(&section.relocations);
    relocate_section(
        &link(architecture, &EXECUTABLE, addresses),
        &Object {
            values,
            ..Object::default()
        },
        &mut section_at(addresses, &mut bytes, &entries),
        &mut [0; 16],
    )
    .unwrap();
    for &(offset, len) in deleted.iter().rev() {
        bytes.drain(offset as usize..(offset + u64::from(len)) as usize);
    }
    bytes
        .chunks(4)
        .map(|word| u32::from_le_bytes(word.try_into().unwrap()))
        .collect()
}

/// adrp x0, :got:x; ldr x0, [x0, :got_lo12:x]; adrp x1, x; add x1, x1, :lo12:x
fn loads_and_pages() -> Section {
    Section {
        bytes: words(&[0x9000_0000, 0xf940_0000, 0x9000_0001, 0x9100_0021]),
        relocations: vec![
            rela(0, 311, 1, 0),
            rela(4, 312, 1, 0),
            rela(8, 275, 1, 0),
            rela(12, 277, 1, 0),
        ],
    }
}

#[test]
fn loads_of_aarch64_become_addresses() {
    let addresses = Addresses {
        section: 0x201c8,
        ..Addresses::default()
    };
    let values = values(0x401e4, 0);
    let loads = placed(
        AArch64,
        Phase::GotToPcRel,
        &addresses,
        &values,
        &[&loads_and_pages()],
    );
    // adrp x0, x; add x0, x0, :lo12:x
    let mut after = loads_and_pages();
    after.bytes[4..8].copy_from_slice(&0x9100_0000_u32.to_le_bytes());
    (after.relocations[0].r_type, after.relocations[1].r_type) = (275, 277);
    assert_eq!(loads[0].0.bytes, after.bytes);
    assert_eq!(loads[0].0.relocations, after.relocations);
    // the words of ld.lld 19 at the same addresses: nop; adr x0, x; nop; adr x1, x
    let near = placed(
        AArch64,
        Phase::ShortPcRel,
        &addresses,
        &values,
        &[&loads[0].0],
    );
    assert_eq!(
        linked(AArch64, &addresses, &values, &near[0].0, &near[0].1),
        [0xd503_201f, 0x1010_00c0, 0xd503_201f, 0x1010_0081]
    );
    assert_eq!(near[0].0.relocations[0].r_type, 0);
    // an adr reaches 1 MiB
    let far = self::values(0x201c8 + 0x10_0004, 0);
    let near = placed(AArch64, Phase::ShortPcRel, &addresses, &far, &[&loads[0].0]);
    let r_types: Vec<_> = near[0].0.relocations.iter().map(|it| it.r_type).collect();
    assert_eq!(r_types, [275, 277, 0, 274]);
}

#[test]
fn pairs_of_aarch64_are_whole() {
    let addresses = Addresses {
        section: 0x201c8,
        ..Addresses::default()
    };
    let values = values(0x401e4, 0x401f0);
    let phases = [(Phase::GotToPcRel, 0), (Phase::ShortPcRel, 2)];
    let unchanged = |phase, section: &Section| {
        let made = placed(AArch64, phase, &addresses, &values, &[section]);
        assert_eq!(made[0].0.bytes, section.bytes);
        assert_eq!(made[0].0.relocations, section.relocations);
    };
    for (phase, first) in phases {
        for index in [first, first + 1] {
            let damaged = |change: &dyn Fn(&mut Rela)| {
                let mut section = loads_and_pages();
                change(&mut section.relocations[index]);
                section
            };
            unchanged(phase, &damaged(&|it| it.symbol = 3));
            unchanged(phase, &damaged(&|it| it.addend = 8));
            unchanged(phase, &damaged(&|it| it.offset += 16));
            unchanged(phase, &damaged(&|it| it.r_type = 0));
        }
    }
    // a lone half of a load keeps all loads of its symbol
    let mut lone = loads_and_pages();
    lone.bytes.extend(0xf940_0000_u32.to_le_bytes());
    lone.relocations.push(rela(16, 312, 1, 0));
    unchanged(Phase::GotToPcRel, &lone);
    // and none of another symbol
    lone.relocations[4].symbol = 3;
    let made = placed(AArch64, Phase::GotToPcRel, &addresses, &values, &[&lone]);
    assert_eq!(made[0].0.relocations[1].r_type, 277);
    assert_eq!(made[0].0.relocations[4].r_type, 312);
}

/// lui a0, %tprel_hi(x); add a0, a0, tp, %tprel_add(x); lw a1, %tprel_lo(x)(a0);
/// sw a1, %tprel_lo(x)(a0), each with R_RISCV_RELAX
fn thread_offset(symbol: u32) -> Section {
    let mut relocations = Vec::new();
    for (index, r_type) in (0..).zip([29, 32, 30, 31]) {
        relocations.push(rela(4 * index, r_type, symbol, 0));
        relocations.push(rela(4 * index, 51, 0, 0));
    }
    Section {
        bytes: words(&[0x0000_0537, 0x0045_0533, 0x0005_2583, 0x00b5_2023]),
        relocations,
    }
}

#[test]
fn a_field_in_what_is_deleted_is_an_error() {
    let addresses = Addresses {
        thread_origin: 0x1000,
        has_tls: true,
        ..Addresses::default()
    };
    let with = |at: usize, offset: u64| {
        let mut section = thread_offset(1);
        section.relocations.insert(at, rela(offset, 1, 3, 0));
        let mut entries = bytes_of(&section.relocations);
        let result = rewrite_placed_section(
            &link(RiscV, &EXECUTABLE, &addresses),
            &Object {
                facts: &symbols(),
                values: &values(0x1008, 0),
                unrelaxable_groups: &[UnrelaxableGroups::default(); 5],
                ..Object::default()
            },
            &mut section_at(&addresses, &mut section.bytes, &mut entries),
            Phase::TlsLocalExec,
            &mut [DecisionNumbers::default(); 9],
            &mut [Deletion::default(); 9],
        );
        assert!(result.is_ok() || entries == bytes_of(&section.relocations));
        result
    };
    // R_RISCV_32, of which a byte is in the lui, the add, the load or the store, and after these
    for at in (0..=8).step_by(2) {
        for offset in 0..16 {
            assert_eq!(with(at, offset), Err(RewritingError::Overlaps(at)));
        }
        assert_eq!(with(at, 16), Ok(2));
    }
}

#[test]
fn short_thread_offsets_of_riscv_lose_their_high_part() {
    let addresses = Addresses {
        thread_origin: 0x1000,
        has_tls: true,
        ..Addresses::default()
    };
    let near = values(0x1008, 0x17ff);
    let phase = Phase::TlsLocalExec;
    let made = placed(RiscV, phase, &addresses, &near, &[&thread_offset(1)]);
    assert_eq!(made[0].1, [(0, 4), (4, 4)]);
    // the words of ld.lld 19: lw a1, 8(tp); sw a1, 8(tp)
    assert_eq!(
        linked(RiscV, &addresses, &near, &made[0].0, &made[0].1),
        [0x0082_2583, 0x00b2_2423]
    );
    let r_types: Vec<_> = made[0].0.relocations.iter().map(|it| it.r_type).collect();
    assert_eq!(r_types, [0, 51, 0, 51, 30, 51, 31, 51]);
    let unchanged = |values: &[Symbol], section: &Section| {
        let made = placed(RiscV, phase, &addresses, values, &[section]);
        assert_eq!(made[0].1, []);
        assert_eq!(made[0].0.bytes, section.bytes);
        assert_eq!(made[0].0.relocations, section.relocations);
    };
    // 12 signed bits have up to 0x7ff
    unchanged(&values(0x1800, 0), &thread_offset(1));
    assert_eq!(
        placed(RiscV, phase, &addresses, &near, &[&thread_offset(3)])[0].1,
        [(0, 4), (4, 4)]
    );
    // a low part with another addend, with which 12 bits don't do, keeps the lui
    let mut edge = thread_offset(3);
    edge.relocations[4].addend = 4;
    unchanged(&near, &edge);
    // so does one without a mark
    for index in [1, 3, 5, 7] {
        let mut unmarked = thread_offset(1);
        unmarked.relocations.remove(index);
        unchanged(&near, &unmarked);
    }
    // and an instruction that no rewrite is meant for, in another section of the object
    let mut other = thread_offset(1);
    other.bytes[..4].copy_from_slice(&0x0000_0517_u32.to_le_bytes());
    let made = placed(
        RiscV,
        phase,
        &addresses,
        &near,
        &[&thread_offset(1), &other],
    );
    assert!(made.iter().all(|it| it.1.is_empty()));
}

#[test]
fn short_thread_offsets_of_loongarch_lose_their_high_part() {
    // lu12i.w a0, %le_hi20_r(x); add.d a0, a0, tp, %le_add_r(x); ld.w a1, a0, %le_lo12_r(x)
    let mut section = Section {
        bytes: words(&[0x1400_0004, 0x0010_8884, 0x2880_0085]),
        relocations: Vec::new(),
    };
    for (index, r_type) in (0..).zip([121, 122, 123]) {
        section.relocations.push(rela(4 * index, r_type, 1, 0));
        section.relocations.push(rela(4 * index, 100, 0, 0));
    }
    let addresses = Addresses {
        thread_origin: 0x1000,
        has_tls: true,
        ..Addresses::default()
    };
    let values = values(0x1008, 0);
    let made = placed(
        LoongArch64,
        Phase::TlsLocalExec,
        &addresses,
        &values,
        &[&section],
    );
    assert_eq!(made[0].1, [(0, 4), (4, 4)]);
    // ld.w a1, tp, 8
    assert_eq!(
        linked(LoongArch64, &addresses, &values, &made[0].0, &made[0].1),
        [0x2880_2045]
    );
}

#[test]
fn stores_of_their_own_base_keep_its_high_part() {
    let addresses = Addresses {
        thread_origin: 0x8000,
        has_tls: true,
        ..Addresses::default()
    };
    let values = values(0x8008, 0);
    let made = |architecture, section: &Section| {
        let phase = Phase::TlsLocalExec;
        let made = placed(architecture, phase, &addresses, &values, &[section]);
        let deletes = !made[0].1.is_empty();
        assert_eq!(deletes, made[0].0.bytes != section.bytes);
        deletes
    };
    let riscv = |store| {
        let mut section = thread_offset(1);
        section.bytes[12..].copy_from_slice(&u32::to_le_bytes(store));
        section
    };
    // sb, sh, sw and sd a0, %tprel_lo(x)(a0) store the address: what GNU ld 2.40 links of sd, and
    // qemu runs, stores another number
    for store in [0x00a5_0023, 0x00a5_1023, 0x00a5_2023, 0x00a5_3023] {
        assert!(!made(RiscV, &riscv(store)), "{store:x}");
    }
    // fsw and fsd fa0, %tprel_lo(x)(a0), and sd a1, %tprel_lo(x)(a0)
    for store in [0x00a5_2027, 0x00a5_3027, 0x00b5_3023] {
        assert!(made(RiscV, &riscv(store)), "{store:x}");
    }
    // lu12i.w a0, %le_hi20_r(x); add.d a0, a0, tp, %le_add_r(x), and a store over a0
    let loongarch = |store| {
        let relocation = |at: u64| {
            let code = [121, 122, 123][at as usize];
            [rela(4 * at, code, 1, 0), rela(4 * at, 100, 0, 0)]
        };
        Section {
            bytes: words(&[0x1400_0004, 0x0010_8884, store]),
            relocations: (0..3).flat_map(relocation).collect(),
        }
    };
    // st.b, st.h, st.w and st.d a0, a0, %le_lo12_r(x)
    for store in [0x2900_0084, 0x2940_0084, 0x2980_0084, 0x29c0_0084] {
        assert!(!made(LoongArch64, &loongarch(store)), "{store:x}");
    }
    // fst.s and fst.d fa4, a0, %le_lo12_r(x); st.d a1, a0, %le_lo12_r(x); ld.d a0, a0, %le_lo12_r(x)
    for access in [0x2b40_0084, 0x2bc0_0084, 0x29c0_0085, 0x28c0_0084] {
        assert!(made(LoongArch64, &loongarch(access)), "{access:x}");
    }
}

#[test]
fn stores_of_their_own_base_keep_the_high_part_of_ppc64() {
    // addis 9,13,x@tprel@ha, and std 9,x@tprel@l(9) or std 3,x@tprel@l(9)
    let section = |store| Section {
        bytes: words(&[0x3d2d_0000, store]),
        relocations: vec![rela(0, 72, 1, 0), rela(4, 96, 1, 0)],
    };
    let addresses = Addresses {
        thread_origin: 0x8000,
        has_tls: true,
        ..Addresses::default()
    };
    let values = values(0x1008, 0);
    for (store, stays) in [(0xf929_0000, true), (0xf869_0000, false)] {
        let phase = Phase::TlsLocalExec;
        let made = placed(Ppc64, phase, &addresses, &values, &[&section(store)]);
        assert_eq!(made[0].0.bytes == section(store).bytes, stays, "{store:x}");
    }
}

#[test]
fn short_thread_offsets_of_ppc64_lose_their_high_part() {
    // addis 9,13,x@tprel@ha; lwz 3,x@tprel@l(9); addi 4,9,x@tprel@l
    let section = |last| Section {
        bytes: words(&[0x3d2d_0000, 0x8069_0000, last]),
        relocations: vec![rela(0, 72, 1, 0), rela(4, 70, 1, 0), rela(8, 70, 1, 0)],
    };
    let addresses = Addresses {
        thread_origin: 0x8000,
        has_tls: true,
        ..Addresses::default()
    };
    let values = values(0x1008, 0);
    let phase = Phase::TlsLocalExec;
    let made = placed(Ppc64, phase, &addresses, &values, &[&section(0x3889_0000)]);
    // the words of GNU ld: nop; lwz 3,-28664(13); addi 4,13,-28664
    assert_eq!(
        linked(Ppc64, &addresses, &values, &made[0].0, &made[0].1),
        [0x6000_0000, 0x806d_9008, 0x388d_9008]
    );
    // an ori isn't over the thread pointer, and keeps all of the symbol
    let made = placed(Ppc64, phase, &addresses, &values, &[&section(0x6124_0000)]);
    assert_eq!(made[0].0.bytes, section(0x6124_0000).bytes);
}

#[test]
fn two_phases_rewrite_what_general_dynamic_of_ppc64_became() {
    // The sequence; ld 9,x@got@tprel(2); add 9,9,x@tls; addi 3,2,x@got@tlsgd, and its call
    let mut section = ppc64_general_dynamic();
    section.bytes.extend(words(&[
        0xe922_0000,
        0x7d29_6a14,
        0x3862_0000,
        0x4800_0001,
        0x6000_0000,
    ]));
    section.relocations.extend([
        rela(16, 87, 1, 0),
        rela(20, 67, 1, 0),
        rela(24, 79, 1, 0),
        rela(28, 107, 1, 0),
        rela(28, 10, 2, 0),
    ]);
    let between = rewritten(Ppc64, &symbols(), &[&section]);
    assert_eq!(
        between[0].0.bytes,
        words(&[
            0x6000_0000,
            0x3c6d_0000,
            0x6000_0000,
            0x3863_0000,
            0x3d2d_0000,
            0x3929_0000,
            0x3c6d_0000,
            0x6000_0000,
            0x3863_0000,
        ])
    );
    let addresses = Addresses {
        thread_origin: 0x8000,
        has_tls: true,
        ..Addresses::default()
    };
    let values = values(0x1008, 0);
    let phase = Phase::TlsLocalExec;
    let made = placed(Ppc64, phase, &addresses, &values, &[&between[0].0]);
    // the words of GNU ld, which has those of a call the other way round
    assert_eq!(
        linked(Ppc64, &addresses, &values, &made[0].0, &made[0].1),
        [
            0x6000_0000,
            0x6000_0000,
            0x6000_0000,
            0x386d_9008,
            0x6000_0000,
            0x392d_9008,
            0x6000_0000,
            0x6000_0000,
            0x386d_9008,
        ]
    );
}

#[test]
fn deletions_need_room() {
    let section = thread_offset(1);
    let addresses = Addresses {
        thread_origin: 0x1000,
        has_tls: true,
        ..Addresses::default()
    };
    for (room, expected) in [(1, Err(RewritingError::TooShort)), (2, Ok(2))] {
        let mut entries = bytes_of(&section.relocations);
        let mut bytes = section.bytes.clone();
        let rewritten = rewrite_placed_section(
            &link(RiscV, &EXECUTABLE, &addresses),
            &Object {
                facts: &symbols(),
                values: &values(0x1008, 0),
                unrelaxable_groups: &[UnrelaxableGroups::default(); 5],
                ..Object::default()
            },
            &mut section_at(&addresses, &mut bytes, &mut entries),
            Phase::TlsLocalExec,
            &mut [DecisionNumbers::default(); 8],
            &mut vec![Deletion::default(); room],
        );
        assert_eq!(rewritten, expected);
        assert_eq!(bytes == section.bytes, expected.is_err());
    }
}

#[test]
fn short_distances_of_ppc64_lose_their_high_part() {
    // addis 3,2,x@toc@ha; addi 3,3,x@toc@l; addis 4,2,x@toc@ha; lwz 5,x@toc@l(4);
    // addis 6,2,x@toc@ha; ld 7,x@toc@l(6)
    let section = |symbol| Section {
        bytes: words(&[
            0x3c62_0000,
            0x3863_0000,
            0x3c82_0000,
            0x80a4_0000,
            0x3cc2_0000,
            0xe8e6_0000,
        ]),
        relocations: (0..)
            .zip([50, 48, 50, 48, 50, 64])
            .map(|(index, r_type)| rela(4 * index, r_type, symbol, 0))
            .collect(),
    };
    let addresses = Addresses {
        got_base: 0x1002_7f00,
        ..Addresses::default()
    };
    let values = values(0x1002_0000, 0x1001_feff);
    let phase = Phase::ShortPcRel;
    let made = placed(Ppc64, phase, &addresses, &values, &[&section(1)]);
    // the words of GNU ld at the same addresses: nop; addi 3,2,-32512; nop; lwz 5,-32512(2); nop;
    // ld 7,-32512(2)
    assert_eq!(
        linked(Ppc64, &addresses, &values, &made[0].0, &made[0].1),
        [
            0x6000_0000,
            0x3862_8100,
            0x6000_0000,
            0x80a2_8100,
            0x6000_0000,
            0xe8e2_8100
        ]
    );
    // a distance of -0x8001 takes two halves
    let made = placed(Ppc64, phase, &addresses, &values, &[&section(3)]);
    assert_eq!(made[0].0.bytes, section(3).bytes);
    // each by its own addend
    let mut far = section(1);
    far.relocations[4].addend = 0x10000;
    far.relocations[5].addend = 0x10000;
    let made = placed(Ppc64, phase, &addresses, &values, &[&far]);
    let r_types: Vec<_> = made[0].0.relocations.iter().map(|it| it.r_type).collect();
    assert_eq!(r_types, [0, 47, 0, 47, 50, 64]);
    // an ori isn't over the TOC pointer, and keeps all of its symbol, wherever it is
    let mut other = section(1);
    other.bytes[4..8].copy_from_slice(&0x6063_0000_u32.to_le_bytes());
    let made = placed(Ppc64, phase, &addresses, &values, &[&section(1), &other]);
    assert_eq!(made[0].0.bytes, section(1).bytes);
    assert_eq!(made[1].0.bytes, other.bytes);
    other.relocations[1].symbol = 3;
    let made = placed(Ppc64, phase, &addresses, &values, &[&section(1), &other]);
    assert_ne!(made[0].0.bytes, section(1).bytes);
}

#[test]
fn phases_without_rewrites_list_no_relocation() {
    let phases = [
        Phase::PreLayout,
        Phase::TlsLocalExec,
        Phase::GotToPcRel,
        Phase::ShortPcRel,
    ];
    for architecture in [AArch64, RiscV, LoongArch64, Ppc64, X86_64] {
        for phase in phases {
            let is_listed = |code| scope_in(architecture, phase, code) != Scope::NotRelaxable;
            assert_eq!(has_rewrites(architecture, phase), (0..2048).any(is_listed));
        }
    }
}

/// auipc a0, %got_pcrel_hi(x); ld a0, %pcrel_lo(label)(a0), with R_RISCV_RELAX after both, of symbol 1 and
/// of the label that is symbol 3.
fn load_by_label() -> Section {
    Section {
        bytes: words(&[0x0000_0517, 0x0005_3503]),
        relocations: vec![
            rela(0, 20, 1, 0),
            rela(0, 51, 0, 0),
            rela(4, 24, 3, 0),
            rela(4, 51, 0, 0),
        ],
    }
}

#[test]
fn loads_of_one_label_become_sums() {
    let addresses = Addresses::default();
    let values = values(0x1008, 0);
    let phase = Phase::GotToPcRel;
    let made = placed(RiscV, phase, &addresses, &values, &[&load_by_label()]);
    assert_eq!(made[0].1, []);
    // auipc a0, 1; addi a0, a0, 8
    assert_eq!(
        linked(RiscV, &addresses, &values, &made[0].0, &[]),
        [0x0000_1517, 0x0085_0513]
    );
    let r_types: Vec<_> = made[0].0.relocations.iter().map(|it| it.r_type).collect();
    assert_eq!(r_types, [23, 51, 24, 51]);
    let unchanged = |values: &[Symbol], section: &Section| {
        let made = placed(RiscV, phase, &addresses, values, &[section]);
        assert_eq!(made[0].0.bytes, section.bytes);
        assert_eq!(made[0].0.relocations, section.relocations);
    };
    // a half without a mark, another instruction, a store, another label, and relocations that descend
    for index in [1, 3] {
        let mut unmarked = load_by_label();
        unmarked.relocations.remove(index);
        unchanged(&values, &unmarked);
    }
    let mut word = load_by_label();
    word.bytes[4..].copy_from_slice(&0x0005_2503_u32.to_le_bytes());
    unchanged(&values, &word);
    let mut store = load_by_label();
    store
        .relocations
        .extend([rela(4, 25, 3, 0), rela(4, 51, 0, 0)]);
    unchanged(&values, &store);
    let mut elsewhere = values;
    elsewhere[3].address = 4;
    let made = placed(RiscV, phase, &addresses, &elsewhere, &[&load_by_label()]);
    assert_eq!(made[0].0.relocations[2].r_type, 24);
    assert_eq!(made[0].0.bytes[4..], load_by_label().bytes[4..]);
    let mut descending = load_by_label();
    descending.relocations.push(rela(0, 51, 0, 0));
    unchanged(&values, &descending);
}

#[test]
fn loads_of_one_label_become_the_address() {
    // that is in reach of `lui`, and the distance to it isn't in reach of `auipc`
    let addresses = Addresses {
        section: 0x2_0000_0000,
        ..Addresses::default()
    };
    let mut values = values(0xbeef, 0);
    values[3].address = addresses.section;
    let phase = Phase::GotToPcRel;
    let made = placed(RiscV, phase, &addresses, &values, &[&load_by_label()]);
    assert_eq!(made[0].1, []);
    // lui a0, 0xc; addi a0, a0, -273
    assert_eq!(
        linked(RiscV, &addresses, &values, &made[0].0, &[]),
        [0x0000_c537, 0xeef5_0513]
    );
    // the low part is of the symbol, and not of the label any more
    let relocations = [
        rela(0, 26, 1, 0),
        rela(0, 51, 0, 0),
        rela(4, 27, 1, 0),
        rela(4, 51, 0, 0),
    ];
    assert_eq!(made[0].0.relocations, relocations);
}

#[test]
fn labels_of_one_symbol_are_apart() {
    // the second load of symbol 1 has no marks, and its label is symbol 4
    let mut two = load_by_label();
    two.bytes.extend(load_by_label().bytes);
    two.relocations
        .extend([rela(8, 20, 1, 0), rela(12, 24, 4, 0)]);
    let mut values = values(0x1008, 0);
    values[4].address = 8;
    let made = placed(
        RiscV,
        Phase::GotToPcRel,
        &Addresses::default(),
        &values,
        &[&two],
    );
    let r_types: Vec<_> = made[0].0.relocations.iter().map(|it| it.r_type).collect();
    assert_eq!(r_types, [23, 51, 24, 51, 20, 24]);
    assert_eq!(made[0].0.bytes[8..], two.bytes[8..]);
}

#[test]
fn at_the_high_part_of_a_descriptor_the_call_says_what_it_becomes() {
    use linker_utils::elf::LinkFacts;
    use linker_utils::riscv64::{RewriteKind, RiscVRelocation as Names, choose};
    let (auipc, jalr) = (words(&[0x0000_0517]), words(&[0x0005_82e7]));
    for (is_executable, is_local, kind, after) in [
        (true, true, RewriteKind::Delete, Names::R_RISCV_TPREL_LO12_I),
        (true, false, RewriteKind::Delete, Names::R_RISCV_PCREL_LO12_I),
        (false, true, RewriteKind::NoOp, Names::R_RISCV_TLSDESC_CALL),
    ] {
        let facts = LinkFacts {
            is_executable,
            is_local,
            is_relaxable: true,
            ..LinkFacts::default()
        };
        assert_eq!(choose(Names::R_RISCV_TLSDESC_HI20, &auipc, 0, &facts).kind, kind);
        assert_eq!(choose(Names::R_RISCV_TLSDESC_CALL, &jalr, 0, &facts).relocation, after);
    }
}

#[test]
fn descriptors_of_riscv_become_offsets() {
    // auipc a0, %tlsdesc_hi(x); ld a1, %tlsdesc_load_lo(label)(a0);
    // addi a0, a0, %tlsdesc_add_lo(label); jalr t0, 0(a1), %tlsdesc_call(label)
    let section = |marks: &[Rela]| {
        let mut relocations = vec![rela(0, 62, 1, 0)];
        relocations.extend(marks);
        relocations.extend([rela(4, 63, 3, 0), rela(8, 64, 3, 0), rela(12, 65, 3, 0)]);
        Section {
            bytes: words(&[0x0000_0517, 0x0005_3583, 0x0005_0513, 0x0005_82e7]),
            relocations,
        }
    };
    let addresses = Addresses {
        thread_origin: 0x1000,
        has_tls: true,
        ..Addresses::default()
    };
    let mark = [rela(0, 51, 0, 0)];
    let phase = Phase::TlsLocalExec;
    // addi a0, zero, 8, and without a mark three nops before it
    let near = values(0x1008, 0);
    let made = placed(RiscV, phase, &addresses, &near, &[&section(&mark)]);
    assert_eq!(made[0].1, [(0, 4), (4, 4), (8, 4)]);
    assert_eq!(
        linked(RiscV, &addresses, &near, &made[0].0, &made[0].1),
        [0x0080_0513]
    );
    assert!(made[0].0.relocations.iter().all(|it| it.symbol != 3));
    let made = placed(RiscV, phase, &addresses, &near, &[&section(&[])]);
    assert_eq!(made[0].1, []);
    assert_eq!(
        linked(RiscV, &addresses, &near, &made[0].0, &[]),
        [0x13, 0x13, 0x13, 0x0080_0513]
    );
    // lui a0, 2; addi a0, a0, 8
    let far = values(0x3008, 0);
    let made = placed(RiscV, phase, &addresses, &far, &[&section(&mark)]);
    assert_eq!(made[0].1, [(0, 4), (4, 4)]);
    assert_eq!(
        linked(RiscV, &addresses, &far, &made[0].0, &made[0].1),
        [0x0000_2537, 0x0085_0513]
    );
    // one of another instruction keeps all
    let mut other = section(&mark);
    other.bytes[12..].copy_from_slice(&0x0005_80e7_u32.to_le_bytes());
    let mut unchanged = vec![other];
    // and so does an addend: initial-exec has its label at another instruction (RISC-V ELF psABI,
    // "TLS Descriptors -> Initial Exec Relaxation"), and x has no entry for it
    for addend in [8, i64::MIN, i64::MIN + 8, i64::MAX, i64::MAX - 3] {
        let mut other = section(&mark);
        other.relocations[0].addend = addend;
        unchanged.push(other);
    }
    for other in unchanged {
        let made = placed(RiscV, phase, &addresses, &near, &[&other]);
        assert_eq!(made[0].0.bytes, other.bytes, "{:?}", other.relocations[0]);
        assert_eq!(made[0].0.relocations, other.relocations);
    }
}

#[test]
fn values_are_written_where_the_facts_snapshot_still_hold() {
    // addr32 call x, which was call *x@GOTPCREL(%rip)
    let call = [0x67, 0xe8, 0, 0, 0, 0];
    let entries = bytes_of(&[rela(2, 2, 1, -4)]);
    let addresses = Addresses {
        section: 0x1000,
        ..Addresses::default()
    };
    let values = values(0x2000, 0);
    let written = |kept: &[FactsSnapshot], output: &Link, facts: &[SymbolFacts]| {
        let mut section = call;
        let mut values = values;
        for (value, known) in values.iter_mut().zip(facts) {
            value.other = known.other;
        }
        let result = relocate_rewritten_section(
            &link(X86_64, output, &addresses),
            &Object {
                facts,
                facts_snapshot: kept,
                values: &values,
                ..Object::default()
            },
            &mut section_at(&addresses, &mut section, &entries),
            &mut [0; 1],
        );
        (result, section)
    };
    let facts = symbols();
    let mut kept = [FactsSnapshot::default(); 5];
    let changed = (Err(WritingError::Changed(0)), call);
    assert_eq!(written(&kept, &EXECUTABLE, &facts), changed);
    snapshot_facts(
        &EXECUTABLE,
        &Object {
            facts: &facts,
            ..Object::default()
        },
        &mut kept,
    );
    // 0x2000 - 0x1006
    let done = (Ok(()), [0x67, 0xe8, 0xfa, 0x0f, 0, 0]);
    assert_eq!(written(&kept, &EXECUTABLE, &facts), done);
    // each fact of the symbol and of the output counts, and those of other symbols don't
    let differ: [fn(&mut SymbolFacts); 7] = [
        |it| it.is_local = false,
        |it| it.is_ifunc = true,
        |it| it.is_absolute = true,
        |it| (it.is_local, it.is_undefined_weak) = (false, true),
        |it| it.is_tls_get_addr = true,
        |it| it.other = 1 << 5,
        |it| it.other = 7 << 5,
    ];
    for change in differ {
        let mut facts = facts;
        change(&mut facts[1]);
        assert_eq!(written(&kept, &EXECUTABLE, &facts), changed);
        facts[1] = symbols()[1];
        change(&mut facts[3]);
        assert_eq!(written(&kept, &EXECUTABLE, &facts), done);
    }
    for output in [
        Link {
            is_executable: false,
            ..EXECUTABLE
        },
        Link {
            is_fixed: false,
            ..EXECUTABLE
        },
        Link {
            has_near_symbols: false,
            ..EXECUTABLE
        },
    ] {
        assert_eq!(written(&kept, &output, &facts), changed);
    }
    // visibility isn't read
    let mut facts = facts;
    facts[1].other = 2;
    assert_eq!(written(&kept, &EXECUTABLE, &facts), done);
    // the first of two, and a symbol that is in no table
    let two = bytes_of(&[rela(2, 2, 3, -4), rela(2, 0, 1, 0)]);
    facts[1].is_local = false;
    assert_eq!(
        first_changed(
            &EXECUTABLE,
            &Object {
                facts: &facts,
                facts_snapshot: &kept,
                ..Object::default()
            },
            &section_at(&NOWHERE, [], &two)
        ),
        Some(1)
    );
    let none = bytes_of(&[rela(2, 2, 9, -4)]);
    assert_eq!(
        first_changed(
            &EXECUTABLE,
            &Object {
                facts: &facts,
                facts_snapshot: &kept,
                ..Object::default()
            },
            &section_at(&NOWHERE, [], &none)
        ),
        None
    );
    assert_eq!(
        first_changed(
            &EXECUTABLE,
            &Object {
                facts: &facts[..1],
                facts_snapshot: &kept,
                ..Object::default()
            },
            &section_at(&NOWHERE, [], &two)
        ),
        Some(0)
    );
}

// ---- addresses in words of `.toc` (64-Bit ELF V2 ABI, "TOC Optimizations" and "Relocation Types")

const TOC16_HA: u32 = 50;
const TOC16_LO: u32 = 48;
const TOC16_LO_DS: u32 = 64;
const ADDR64: u32 = 38;
/// Where `.toc` is.
const TOC: u64 = 0x1_0000;

/// What is known of symbols once addresses are: 1 stands for `.toc`, 3 is a definition near it, and 4
/// is of another file.
fn placed_symbols() -> [Symbol; 5] {
    [0, TOC, 0, 0x1_2340, 0x1_2340].map(|address| Symbol {
        address,
        ..Symbol::default()
    })
}

/// The code section and the TOC pointer, which is 0x8000 above `.toc`.
const CODE: Addresses = Addresses {
    section: 0x1000,
    got_base: 0x1_8000,
    thread_origin: 0,
    module_origin: 0,
    module_entry: 0,
    has_tls: false,
};

/// Two words: of `symbol` with an addend of 8, and of symbol 3.
fn words_of(symbol: u32) -> Vec<u8> {
    bytes_of(&[rela(0, ADDR64, symbol, 8), rela(8, ADDR64, 3, 0)])
}

/// addis 3,2,.toc@toc@ha and ld 4,.toc@toc@l(3) of the first word, the same of registers 5 and 6 and
/// the second one, and `last` of the first word, after the first addis.
fn loads(last: u32, r_type: u32) -> Section {
    Section {
        bytes: words(&[0x3c62_0000, 0xe883_0000, 0x3ca2_0000, 0xe8c5_0000, last]),
        relocations: vec![
            rela(0, TOC16_HA, 1, 0),
            rela(4, TOC16_LO_DS, 1, 0),
            rela(8, TOC16_HA, 1, 8),
            rela(12, TOC16_LO_DS, 1, 8),
            rela(16, r_type, 1, 0),
        ],
    }
}

/// Which words stay by a section, and what it becomes.
fn with_addresses(
    architecture: Architecture,
    addresses: &Addresses,
    table: &[u8],
    section: &Section,
) -> ([bool; 2], Section, Vec<DecisionNumbers>) {
    let mut entries = bytes_of(&section.relocations);
    let mut kept = [false; 2];
    survey_toc_loads(
        &link(architecture, &EXECUTABLE, addresses),
        &Object {
            facts: &symbols(),
            values: &placed_symbols(),
            ..Object::default()
        },
        &section_at(addresses, &section.bytes, &entries),
        &Words {
            address: TOC,
            relocations: table,
            kept: &[],
        },
        &mut kept,
    )
    .unwrap();
    let mut bytes = section.bytes.clone();
    let mut decisions = vec![DecisionNumbers::default(); section.relocations.len()];
    rewrite_toc_loads(
        &link(architecture, &EXECUTABLE, addresses),
        &Object {
            facts: &symbols(),
            values: &placed_symbols(),
            ..Object::default()
        },
        &mut section_at(addresses, &mut bytes, &mut entries),
        &Words {
            address: TOC,
            relocations: table,
            kept: &kept,
        },
        &mut decisions,
    )
    .unwrap();
    let relocations = section::relocations(&entries).collect();
    (kept, Section { bytes, relocations }, decisions)
}

#[test]
fn all_loads_of_a_word_compute_its_address() {
    // ld 7,.toc@toc@l(3)
    let section = loads(0xe8e3_0000, TOC16_LO_DS);
    let (kept, after, decisions) = with_addresses(Ppc64, &CODE, &words_of(3), &section);
    assert_eq!(kept, [false; 2]);
    assert!(
        decisions
            .iter()
            .all(|it| matches!(it.as_decision(), Decision::RewrittenWithSymbol(..)))
    );
    // each `ld` becomes an `addi`, and the relocations are those of the words
    let code = [
        0x3c62_0000,
        0x3883_0000,
        0x3ca2_0000,
        0x38c5_0000,
        0x38e3_0000,
    ];
    assert_eq!(after.bytes, words(&code));
    let relocations = [
        rela(0, TOC16_HA, 3, 8),
        rela(4, TOC16_LO, 3, 8),
        rela(8, TOC16_HA, 3, 0),
        rela(12, TOC16_LO, 3, 0),
        rela(16, TOC16_LO, 3, 8),
    ];
    assert_eq!(after.relocations, relocations);
}

#[test]
fn a_word_with_another_use_stays() {
    // addi 7,3,.toc@toc@l, which is of the word's own address
    let section = loads(0x38e3_0000, TOC16_LO);
    let (kept, after, decisions) = with_addresses(Ppc64, &CODE, &words_of(3), &section);
    assert_eq!(kept, [true, false]);
    let code = [
        0x3c62_0000,
        0xe883_0000,
        0x3ca2_0000,
        0x38c5_0000,
        0x38e3_0000,
    ];
    assert_eq!(after.bytes, words(&code));
    let kept = [0, 1, 4].map(|index| decisions[index].as_decision() == Decision::Kept);
    assert_eq!(kept, [true; 3]);
    assert_eq!(after.relocations[3], rela(12, TOC16_LO, 3, 0));
}

#[test]
fn a_word_of_another_file_or_out_of_reach_stays() {
    let section = loads(0xe8e3_0000, TOC16_LO_DS);
    let (kept, after, _) = with_addresses(Ppc64, &CODE, &words_of(4), &section);
    assert_eq!(kept, [true, false]);
    assert_eq!(after.bytes[..8], section.bytes[..8]);
    // the high part of a distance has 16 bits
    let far = Addresses {
        got_base: TOC + (1 << 32),
        ..CODE
    };
    let (kept, after, _) = with_addresses(Ppc64, &far, &words_of(3), &section);
    assert_eq!(kept, [true; 2]);
    assert_eq!(after.bytes, section.bytes);
}

#[test]
fn a_word_without_the_relocation_of_an_address_is_none() {
    // R_PPC64_DTPMOD64 at the first word: what loads it stays, and keeps nothing
    let table = bytes_of(&[rela(0, 68, 3, 0), rela(8, ADDR64, 3, 0)]);
    let section = loads(0x38e3_0000, TOC16_LO);
    let (kept, after, _) = with_addresses(Ppc64, &CODE, &table, &section);
    assert_eq!(kept, [false; 2]);
    let code = [
        0x3c62_0000,
        0xe883_0000,
        0x3ca2_0000,
        0x38c5_0000,
        0x38e3_0000,
    ];
    assert_eq!(after.bytes, words(&code));
}

#[test]
fn only_powerpc64_has_words_of_addresses() {
    let section = loads(0xe8e3_0000, TOC16_LO_DS);
    for architecture in [AArch64, LoongArch64, RiscV, X86_64] {
        let (kept, after, decisions) = with_addresses(architecture, &CODE, &words_of(3), &section);
        assert_eq!(kept, [false; 2]);
        assert_eq!(after.bytes, section.bytes);
        assert!(decisions.iter().all(|it| it.fate == 0));
    }
}

#[test]
fn loads_that_were_not_surveyed_are_an_error() {
    let section = loads(0x38e3_0000, TOC16_LO);
    let given = bytes_of(&section.relocations);
    let (mut entries, mut bytes) = (given.clone(), section.bytes.clone());
    let mut rewrite = |decisions: &mut [DecisionNumbers]| {
        rewrite_toc_loads(
            &link(Ppc64, &EXECUTABLE, &CODE),
            &Object {
                facts: &symbols(),
                values: &placed_symbols(),
                ..Object::default()
            },
            &mut section_at(&CODE, &mut bytes, &mut entries),
            &Words {
                address: TOC,
                relocations: &words_of(3),
                kept: &[false; 2],
            },
            decisions,
        )
    };
    assert_eq!(
        rewrite(&mut [DecisionNumbers::default(); 5]),
        Err(RewritingError::NotSurveyed(4))
    );
    assert_eq!(
        rewrite(&mut [DecisionNumbers::default(); 4]),
        Err(RewritingError::TooShort)
    );
    assert_eq!(entries, given);
    assert_eq!(bytes, section.bytes);
}

const RELAX: u32 = 51;
const GLOBAL_POINTER: u64 = 0x1_2800;
const LABEL: u32 = 3;

/// No symbol, one near the global pointer, one 2,048 above it, and the label of the section's start.
fn near_symbols() -> [Symbol; 4] {
    [0, GLOBAL_POINTER + 5, GLOBAL_POINTER + 0x800, 0x1_1000].map(|address| Symbol {
        address,
        ..Symbol::default()
    })
}

/// The relocations, each marked where it says so.
fn marked(listed: &[(u64, u32, u32, bool)]) -> Vec<u8> {
    let with_mark = |(offset, r_type, symbol, is_marked): &(u64, u32, u32, bool)| {
        let mark = is_marked.then(|| rela(*offset, RELAX, 0, 0));
        std::iter::once(rela(*offset, *r_type, *symbol, 0)).chain(mark)
    };
    bytes_of(&listed.iter().flat_map(with_mark).collect::<Vec<_>>())
}

/// Which symbols stay by a section, its relocations after it, and what is deleted.
fn near(bytes: &[u8], mut entries: Vec<u8>) -> ([bool; 4], Vec<u8>, Vec<(u64, u32)>) {
    let known = [SymbolFacts {
        is_local: true,
        ..SymbolFacts::default()
    }; 4];
    let addresses = Addresses {
        section: 0x1_1000,
        ..Addresses::default()
    };
    let (values, mut kept) = (near_symbols(), [false; 4]);
    survey_global_pointer(
        &Link {
            global_pointer: GLOBAL_POINTER,
            ..link(RiscV, &EXECUTABLE, &addresses)
        },
        &Object {
            facts: &known,
            values: &values,
            ..Object::default()
        },
        &section_at(&addresses, bytes, &entries),
        &mut kept,
    )
    .unwrap();
    let count = entries.len() / 24;
    let mut deleted = vec![Deletion::default(); count];
    let len = rewrite_global_pointer(
        &Link {
            global_pointer: GLOBAL_POINTER,
            ..link(RiscV, &EXECUTABLE, &addresses)
        },
        &Object {
            facts: &known,
            values: &values,
            kept_high_parts: &kept,
            ..Object::default()
        },
        &mut section_at(&addresses, bytes, &mut entries),
        &mut vec![DecisionNumbers::default(); count],
        &mut deleted,
    )
    .unwrap();
    let deleted = deleted[..len].iter().map(|it| it.as_deletion()).collect();
    (kept, entries, deleted)
}

#[test]
fn high_parts_near_the_global_pointer_go() {
    // lui a0; lw a1, 0(a0); auipc a2; addi a2, a2, 0, whose label is at 8
    let code = words(&[0x0000_0537, 0x0005_2583, 0x0000_0617, 0x0006_0613]);
    let mut values = near_symbols();
    values[LABEL as usize].address += 8;
    let entries = marked(&[(0, 26, 1, true), (4, 27, 1, true)]);
    let (kept, after, deleted) = near(&code, entries);
    assert_eq!((kept, &*deleted), ([false; 4], &[(0, 4)][..]));
    let mut low = bytes_of(&[rela(0, GPREL_I, 1, 0)]);
    assert_eq!(after[56..72], low[8..]);
    // lw a1, 5(gp), with a value of 5, as ld.lld --relax-gp writes it
    let mut bytes = code[4..8].to_vec();
    let none = Addresses::default();
    finish_gp_relaxation(
        &Link {
            global_pointer: GLOBAL_POINTER,
            ..link(RiscV, &EXECUTABLE, &none)
        },
        &Object {
            values: &values,
            ..Object::default()
        },
        &mut section_at(&none, &mut bytes, &mut low),
    )
    .unwrap();
    assert_eq!(bytes, words(&[0x0001_a583]));
    let addend = GLOBAL_POINTER.wrapping_neg() as i64;
    assert_eq!(low, bytes_of(&[rela(0, 27, 1, addend)]));
}

#[test]
fn a_symbol_stays_where_one_of_its_parts_does() {
    let code = words(&[0x0000_0537, 0x0005_2583]);
    let stays = |entries: Vec<u8>, code: &[u8], symbol: usize| {
        let (kept, after, deleted) = near(code, entries.clone());
        assert!(kept[symbol] && deleted.is_empty() && after == entries);
    };
    // no mark of either part; and 2,048 above the global pointer
    stays(marked(&[(0, 26, 1, false), (4, 27, 1, true)]), &code, 1);
    stays(marked(&[(0, 26, 1, true), (4, 27, 1, false)]), &code, 1);
    stays(marked(&[(0, 26, 2, true), (4, 27, 2, true)]), &code, 2);
    // lui gp and addi gp, gp, 0 set the global pointer; lw a1, 0(x0) has no base; sw a0, 0(a0) stores it
    stays(
        marked(&[(0, 26, 1, true), (4, 27, 1, true)]),
        &words(&[0x0000_01b7, 0x0001_8193]),
        1,
    );
    stays(marked(&[(0, 27, 1, true)]), &words(&[0x0000_2583]), 1);
    stays(marked(&[(0, 28, 1, true)]), &words(&[0x00a5_2023]), 1);
    // auipc a0 and lw a1, 0(a2), which has another base
    stays(
        marked(&[(0, 23, 1, true), (4, 24, LABEL, true)]),
        &words(&[0x0000_0517, 0x0006_2583]),
        1,
    );
}

#[test]
fn parts_near_the_global_pointer_are_apart() {
    let known = [SymbolFacts {
        is_local: true,
        ..SymbolFacts::default()
    }; 4];
    let addresses = Addresses {
        section: 0x1_1000,
        ..Addresses::default()
    };
    let rewritten = |code: &[u8], parts: &[(u64, u32, u32, bool)]| {
        let mut entries = marked(parts);
        let before = entries.clone();
        let made = rewrite_global_pointer(
            &Link {
                global_pointer: GLOBAL_POINTER,
                ..link(RiscV, &EXECUTABLE, &addresses)
            },
            &Object {
                facts: &known,
                values: &near_symbols(),
                kept_high_parts: &[false; 4],
                ..Object::default()
            },
            &mut section_at(&addresses, code, &mut entries),
            &mut [DecisionNumbers::default(); 8],
            &mut [Deletion::default(); 4],
        );
        assert!(made.is_ok() || entries == before);
        made
    };
    // lui a0 and lui a1 after it; and lui a0 with two relocations, of which one instruction of four
    // bytes can be deleted once
    let code = words(&[0x0000_0537, 0x0000_05b7]);
    let parts = [(0, 26, 1, true), (4, 26, 1, true)];
    assert_eq!(rewritten(&code, &parts), Ok(2));
    let twice = [(0, 26, 1, true), (0, 26, 1, true)];
    assert_eq!(rewritten(&code, &twice), Err(RewritingError::Overlaps(2)));
    // lui a0, whose last two bytes are the first of lw a1, 0(a1)
    let code = [0x37, 0x05, 0x83, 0xa5, 0x05, 0];
    let parts = [(0, 26, 1, true), (2, 27, 1, true)];
    assert_eq!(rewritten(&code, &parts), Err(RewritingError::Overlaps(2)));
    // nor does the lui go where the lw stays, whose symbol isn't near the global pointer
    let parts = [(0, 26, 1, true), (2, 27, 0, false)];
    let symbols_stay = [true, false, false, false];
    let mut entries = marked(&parts);
    let made = rewrite_global_pointer(
        &Link {
            global_pointer: GLOBAL_POINTER,
            ..link(RiscV, &EXECUTABLE, &addresses)
        },
        &Object {
            facts: &known,
            values: &near_symbols(),
            kept_high_parts: &symbols_stay,
            ..Object::default()
        },
        &mut section_at(&addresses, &code, &mut entries),
        &mut [DecisionNumbers::default(); 8],
        &mut [Deletion::default(); 4],
    );
    assert_eq!(made, Err(RewritingError::Overlaps(2)));
}

#[test]
fn parts_with_a_label_go_with_it() {
    // auipc a0; lw a1, 0(a0); sw a1, 0(a0)
    let code = words(&[0x0000_0517, 0x0005_2583, 0x00b5_2023]);
    let parts = [(0, 23, 1, true), (4, 24, LABEL, true), (8, 25, LABEL, true)];
    let (kept, after, deleted) = near(&code, marked(&parts));
    assert_eq!((kept, &*deleted), ([false; 4], &[(0, 4)][..]));
    let turned = [rela(4, GPREL_I, 1, 0), rela(8, GPREL_S, 1, 0)];
    assert_eq!(relocation_at(&after, 0), Some(rela(0, 0, 1, 0)));
    assert_eq!([2, 4].map(|at| relocation_at(&after, at).unwrap()), turned);
}

/// What each call that takes both tables returns: the surveys, the rewrites, and that which writes
/// values. Nothing is noted, rewritten or written where it is an error.
fn with_both(facts: &[SymbolFacts; 4], values: &[Symbol; 4]) -> [Option<usize>; 7] {
    let addresses = Addresses {
        section: 0x1_1000,
        ..Addresses::default()
    };
    // lui a0, %hi(x) and lw a1, %lo(x)(a0), of symbol 1, with a word of symbol 2
    let code = words(&[0x0000_0537, 0x0005_2583]);
    let entries = marked(&[(0, 26, 1, true), (4, 27, 1, true)]);
    let word = bytes_of(&[rela(0, ADDR64, 2, 0)]);
    let (mut kept, mut symbols_kept, mut words_kept) =
        ([UnrelaxableGroups::default(); 4], [false; 4], [false; 1]);
    let (start, gp, phase) = (0x8000, GLOBAL_POINTER, Phase::GotToPcRel);
    let surveys = [
        survey_placed_section(
            &link(RiscV, &EXECUTABLE, &addresses),
            &Object {
                facts,
                values,
                ..Object::default()
            },
            &section_at(&addresses, &code, &entries),
            phase,
            &mut kept,
        ),
        survey_toc_loads(
            &link(RiscV, &EXECUTABLE, &addresses),
            &Object {
                facts,
                values,
                ..Object::default()
            },
            &section_at(&addresses, &code, &entries),
            &Words {
                address: start,
                relocations: &word,
                kept: &[],
            },
            &mut words_kept,
        ),
        survey_global_pointer(
            &Link {
                global_pointer: gp,
                ..link(RiscV, &EXECUTABLE, &addresses)
            },
            &Object {
                facts,
                values,
                ..Object::default()
            },
            &section_at(&addresses, &code, &entries),
            &mut symbols_kept,
        ),
    ];
    let noted = (kept, symbols_kept, words_kept);
    assert!(surveys[0].is_ok() || noted == ([UnrelaxableGroups::default(); 4], [false; 4], [false]));
    let (mut after, mut bytes) = (entries.clone(), code.clone());
    let (mut decisions, mut deleted) = ([DecisionNumbers::default(); 4], [Deletion::default(); 4]);
    let placed = rewrite_placed_section(
        &link(RiscV, &EXECUTABLE, &addresses),
        &Object {
            facts,
            values,
            unrelaxable_groups: &kept,
            ..Object::default()
        },
        &mut section_at(&addresses, &mut bytes, &mut after),
        phase,
        &mut decisions,
        &mut deleted,
    );
    let loads = rewrite_toc_loads(
        &link(RiscV, &EXECUTABLE, &addresses),
        &Object {
            facts,
            values,
            ..Object::default()
        },
        &mut section_at(&addresses, &mut bytes, &mut after),
        &Words {
            address: start,
            relocations: &word,
            kept: &words_kept,
        },
        &mut decisions,
    );
    let mut turned = entries.clone();
    let near = rewrite_global_pointer(
        &Link {
            global_pointer: gp,
            ..link(RiscV, &EXECUTABLE, &addresses)
        },
        &Object {
            facts,
            values,
            kept_high_parts: &[false; 4],
            ..Object::default()
        },
        &mut section_at(&addresses, &code, &mut turned),
        &mut decisions,
        &mut deleted,
    );
    assert!(near.is_ok() || turned == entries);
    let mut facts_snapshot = [FactsSnapshot::default(); 4];
    snapshot_facts(
        &EXECUTABLE,
        &Object {
            facts,
            ..Object::default()
        },
        &mut facts_snapshot,
    );
    let written = relocate_rewritten_section(
        &link(RiscV, &EXECUTABLE, &addresses),
        &Object {
            facts,
            facts_snapshot: &facts_snapshot,
            values,
            ..Object::default()
        },
        &mut section_at(&addresses, &mut bytes, &entries),
        &mut [0; 4],
    );
    assert!(written.is_ok() || (after == entries && bytes == code));
    let rewrites = [placed.err(), loads.err(), near.err()].map(|error| match error {
        Some(RewritingError::Contradiction(symbol)) => Some(symbol),
        _ => None,
    });
    let of_writing = match written {
        Err(WritingError::Contradiction(symbol)) => Some(symbol),
        _ => None,
    };
    let [first, second, third] = surveys.map(Result::err);
    let [fourth, fifth, sixth] = rewrites;
    [first, second, third, fourth, fifth, sixth, of_writing]
}

#[test]
fn tables_that_contradict_each_other_are_rejected() {
    let local = SymbolFacts {
        is_local: true,
        ..SymbolFacts::default()
    };
    let value = Symbol {
        address: GLOBAL_POINTER + 16,
        ..Symbol::default()
    };
    let weak = Symbol {
        is_undefined_weak: true,
        ..value
    };
    let both = |facts, value| {
        let facts = [SymbolFacts::default(), facts, local, local];
        with_both(
            &facts,
            &[Symbol::default(), value, self::near_symbols()[2], weak],
        )
    };
    let (agree, contradict) = ([None; 7], [Some(1); 7]);
    // symbol 3 is in no relocation
    assert_eq!(both(local, value), agree);
    assert_eq!(both(local, weak), contradict);
    let twice = SymbolFacts {
        is_undefined_weak: true,
        ..local
    };
    assert_eq!(both(twice, value), contradict);
    assert_eq!(both(twice, weak), contradict);
    let other = SymbolFacts { other: 2, ..local };
    assert_eq!(both(other, value), contradict);
    assert_eq!(
        both(
            local,
            Symbol {
                other: 0x20,
                ..value
            }
        ),
        contradict
    );
    assert_eq!(both(other, Symbol { other: 2, ..value }), agree);
    // The dynamic linker may define an undefined weak symbol, or nothing does. A thread-local one is
    // at the thread pointer, so that ld.lld 19 computes its offset as that of a definition.
    let absent = SymbolFacts {
        is_undefined_weak: true,
        ..SymbolFacts::default()
    };
    assert_eq!(both(SymbolFacts::default(), weak), agree);
    assert_eq!(both(absent, weak), agree);
    let thread_local = Symbol {
        is_thread_local: true,
        ..weak
    };
    assert_eq!(both(local, thread_local), agree);
    // the symbol of a word alone is compared by the call that writes the word
    let facts = [SymbolFacts::default(), local, local, local];
    let known = [Symbol::default(), value, weak, value];
    assert_eq!(with_both(&facts, &known), agree);
}

/// `bl f; nop` of a function in a shared library, beside what ld.lld 19 and GNU ld 2.40 made of it:
/// `bl` of a stub with `std 2,24(1)`, and `ld 2,24(1)`.
#[test]
fn calls_of_other_files_on_ppc64_go_by_a_stub() {
    let addresses = Addresses {
        section: 0x1001_0014,
        ..Addresses::default()
    };
    let written = |architecture, r_type, facts: SymbolFacts, value: Symbol| {
        let (facts, mut kept) = ([SymbolFacts::default(), facts], [FactsSnapshot::default(); 2]);
        snapshot_facts(
            &EXECUTABLE,
            &Object {
                facts: &facts,
                ..Object::default()
            },
            &mut kept,
        );
        let mut section = words(&[0x4800_0001, 0xe841_0018]);
        let before = section.clone();
        let result = relocate_rewritten_section(
            &link(architecture, &EXECUTABLE, &addresses),
            &Object {
                facts: &facts,
                facts_snapshot: &kept,
                values: &[Symbol::default(), value],
                ..Object::default()
            },
            &mut section_at(
                &addresses,
                &mut section,
                &bytes_of(&[rela(0, 0, 1, 0), rela(0, r_type, 1, 0)]),
            ),
            &mut [0; 2],
        );
        assert!(result.is_ok() || section == before);
        result.map(|()| u32::from_le_bytes(section[..4].try_into().unwrap()))
    };
    let imported = SymbolFacts::default();
    let function = Symbol {
        address: 0x1001_002c,
        ..Symbol::default()
    };
    let lacks = Err(WritingError::NeedsStub(1));
    assert_eq!(written(Ppc64, 10, imported, function), lacks);
    let by_stub = Symbol {
        stub: 0x1001_0040,
        ..function
    };
    assert_eq!(written(Ppc64, 10, imported, by_stub), Ok(0x4800_002d));
    // R_PPC64_REL24_NOTOC has no TOC pointer to keep
    assert_eq!(written(Ppc64, 116, imported, function), Ok(0x4800_0019));
    // a function of this output, as one with `std 2,24(1); bl f; ld 2,24(1)` that both link
    let local = SymbolFacts {
        is_local: true,
        ..imported
    };
    assert_eq!(written(Ppc64, 10, local, function), Ok(0x4800_0019));
    // nothing defines `__gmon_start__`: the call stays where it is, as both linkers leave it
    let missing = Symbol {
        is_undefined_weak: true,
        ..function
    };
    let absent = SymbolFacts {
        is_undefined_weak: true,
        ..imported
    };
    for facts in [imported, absent] {
        assert!(written(Ppc64, 10, facts, missing).is_ok());
    }
    // no other architecture's of that number
    assert!(written(X86_64, 10, imported, function).is_ok());
}
