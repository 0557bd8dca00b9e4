// SPDX-License-Identifier: MIT OR Apache-2.0
//! Links a section. No line of `link` names an architecture, and the same lines link any of the five.

use linker_utils::aarch64::AArch64Relocation::*;
use linker_utils::elf::Architecture;
use linker_utils::output::{Target, entry_words, static_words};
use linker_utils::rewriting::{DecisionNumbers, Deletion, Phase, SymbolFacts, UnrelaxableGroups};
use linker_utils::rewriting::{rewrite_placed_section, rewrite_section, survey, survey_placed_section};
use linker_utils::section::{EntryClass, Link, Object, Section, Symbol};
use linker_utils::section::{memory_len, needs, relocate_section, relocations};
use linker_utils::x86_64::X86_64Relocation::*;

/// Where the linker puts the code, the GOT and the TLS image.
const PLACES: [u64; 3] = [0x401000, 0x403000, 0x403008];

/// An object has code, its relocations as they stand in the file, and symbols, of which a linker knows
/// facts when names are resolved, and addresses later. Returns the GOT's words.
fn link(
    architecture: Architecture,
    code: &mut [u8],
    rela: &mut [u8],
    facts: &[SymbolFacts],
    symbols: &mut [Symbol],
) -> Vec<u64> {
    let [address, got, image] = PLACES;
    let mut link =
        Link { is_executable: true, is_fixed: true, has_near_symbols: true, ..Link::new(architecture) };
    let object = Object { facts, ..Object::default() };
    let count = rela.len() / 24;
    let mut section = Section { address, ..Section::new(code, rela) };
    let mut decisions = vec![DecisionNumbers::default(); count];
    // 1 and 2: rewrites that need no address
    let mut kept = vec![UnrelaxableGroups::default(); facts.len()];
    survey(&link, &object, &section, &mut kept);
    let surveyed = Object { unrelaxable_groups: &kept, ..object };
    rewrite_section(&link, &surveyed, &mut section, &mut decisions).unwrap();
    // 3 to 6: which entries of the GOT are still needed, and what they hold
    let target = Target::of(architecture);
    let origins = target.origins(image, 8, 1);
    (link.origins, link.got_base) = (Some(origins), target.got_base(got));
    let mut words = Vec::new();
    for relocation in relocations(section.relocations) {
        let symbol = &mut symbols[relocation.symbol as usize];
        let needed = needs(architecture, relocation.r_type, relocation.addend, symbol.is_thread_local);
        let Some(entry) = needed.and_then(|needed| needed.entry) else { continue };
        let address = match entry.class {
            EntryClass::Address => &mut symbol.address_entry,
            EntryClass::ThreadOffset => &mut symbol.thread_entry,
            _ => continue,
        };
        if *address == 0 {
            *address = got + 8 * words.len() as u64;
            let contents = static_words(entry.class, symbol.address, origins).unwrap();
            words.extend(&contents[..entry_words(entry.class) as usize]);
        }
    }
    // 7 and 8: rewrites by addresses
    let object = Object { values: symbols, ..object };
    let mut deleted = vec![Deletion::default(); count];
    for phase in [Phase::TlsLocalExec, Phase::GotToPcRel, Phase::ShortPcRel] {
        let mut kept = vec![UnrelaxableGroups::default(); facts.len()];
        survey_placed_section(&link, &object, &section, phase, &mut kept).unwrap();
        let surveyed = Object { unrelaxable_groups: &kept, ..object };
        rewrite_placed_section(&link, &surveyed, &mut section, phase, &mut decisions, &mut deleted)
            .unwrap();
    }
    // 9 and 10: values
    let mut memory = vec![0; memory_len(section.relocations)];
    relocate_section(&link, &object, &mut section, &mut memory).unwrap();
    words
}

fn main() {
    // the symbols _start, x and t, which is thread-local
    let facts = [SymbolFacts { is_local: true, ..SymbolFacts::default() }; 4];
    let symbols = [(0, false), (0x401000, false), (0x402000, false), (0x403008, true)]
        .map(|(address, is_thread_local)| Symbol { address, is_thread_local, ..Symbol::default() });
    let rela = |rows: &[(u64, u64, u32, i64)]| -> Vec<u8> {
        let words = rows.iter().flat_map(|&(at, symbol, code, addend)| {
            [at, symbol << 32 | u64::from(code), addend as u64]
        });
        words.flat_map(u64::to_le_bytes).collect()
    };
    // mov x@GOTPCREL(%rip), %rax; mov t@gottpoff(%rip), %rcx; cmp %rax, x@GOTPCREL(%rip); call _start
    let mut code = *b"\x48\x8b\x05\0\0\0\0\x48\x8b\x0d\0\0\0\0\x48\x39\x05\0\0\0\0\xe8\0\0\0\0";
    let mut rows = rela(&[
        (3, 2, R_X86_64_REX_GOTPCRELX.r_type(), -4),
        (10, 3, R_X86_64_GOTTPOFF.r_type(), -4),
        (17, 2, R_X86_64_GOTPCREL.r_type(), -4),
        (22, 1, R_X86_64_PLT32.r_type(), -4),
    ]);
    let words = link(Architecture::X86_64, &mut code, &mut rows, &facts, &mut symbols.clone());
    // as ld.lld: lea x(%rip), %rax; mov $-8, %rcx; cmp %rax, 0x403000(%rip); call _start
    assert_eq!(words, [0x402000]);
    assert_eq!(
        code,
        *b"\x48\x8d\x05\xf9\x0f\0\0\x48\xc7\xc1\xf8\xff\xff\xff\x48\x39\x05\xeb\x1f\0\0\xe8\xe6\xff\xff\xff"
    );
    // adrp x0, :got:x; ldr x0, [x0, :got_lo12:x]; adrp x1, :gottprel:t; ldr x1, [x1, :gottprel_lo12:t];
    // bl _start
    let mut code = *b"\0\0\0\x90\0\0\x40\xf9\x01\0\0\x90\x21\0\x40\xf9\0\0\0\x94";
    let mut rows = rela(&[
        (0, 2, R_AARCH64_ADR_GOT_PAGE.r_type(), 0),
        (4, 2, R_AARCH64_LD64_GOT_LO12_NC.r_type(), 0),
        (8, 3, R_AARCH64_TLSIE_ADR_GOTTPREL_PAGE21.r_type(), 0),
        (12, 3, R_AARCH64_TLSIE_LD64_GOTTPREL_LO12_NC.r_type(), 0),
        (16, 1, R_AARCH64_CALL26.r_type(), 0),
    ]);
    link(Architecture::AArch64, &mut code, &mut rows, &facts, &mut symbols.clone());
    // as ld.lld: nop; adr x0, x; movz x1, #0, lsl #16; movk x1, #16; bl _start
    assert_eq!(code, *b"\x1f\x20\x03\xd5\xe0\x7f\0\x10\x01\0\xa0\xd2\x01\x02\x80\xf2\xfc\xff\xff\x97");
    println!("both are as ld.lld links them");
}
