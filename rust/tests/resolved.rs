// SPDX-License-Identifier: MIT OR Apache-2.0
//! Symbols by look-up: the same as by a table where the look-up says what the table does, and what a
//! table can't say.

use linker_utils::elf::Architecture::{self, AArch64, LoongArch64, Ppc64, RiscV, X86_64};
use linker_utils::elf::RelocateError;
use linker_utils::output::Origins;
use linker_utils::section::{
    ByRelocation, EntryClass, Link, Lookup, Object, Rela, RelocationError, Resolved, Section,
    SectionError, Symbol, ValueError, needs, relocate_resolved, relocate_section, relocations,
};

const ARCHITECTURES: [Architecture; 5] = [AArch64, RiscV, LoongArch64, Ppc64, X86_64];

/// The bytes of a relocation in a file.
fn rela(offset: u64, r_type: u32, symbol: u32, addend: i64) -> [u8; 24] {
    let mut bytes = [0; 24];
    bytes[..8].copy_from_slice(&offset.to_le_bytes());
    bytes[8..12].copy_from_slice(&r_type.to_le_bytes());
    bytes[12..16].copy_from_slice(&symbol.to_le_bytes());
    bytes[16..].copy_from_slice(&addend.to_le_bytes());
    bytes
}

fn link(architecture: Architecture) -> Link {
    Link {
        got_base: 0x48_0000,
        origins: Some(Origins {
            thread_pointer: 0x50_0100,
            module_block: 0x50_0000,
        }),
        module_entry: Some(0x48_0100),
        ..Link::new(architecture)
    }
}

/// What a table says of the symbol of one relocation.
fn resolved(link: &Link, symbols: &[Symbol], relocation: &Rela) -> Option<Resolved> {
    let symbol = symbols.get(relocation.symbol as usize)?;
    let (r_type, addend) = (relocation.r_type, relocation.addend);
    let required = needs(link.architecture, r_type, addend, symbol.is_thread_local);
    let entry = required.and_then(|required| required.entry);
    let entry = entry.map_or(0, |entry| match entry.class {
        EntryClass::Module => link.module_entry.unwrap(),
        _ if entry.addend != symbol.entry_addend => 0,
        EntryClass::Address => symbol.address_entry,
        EntryClass::ThreadOffset => symbol.thread_entry,
        EntryClass::ModuleOffset => symbol.module_entry,
        EntryClass::Descriptor => symbol.descriptor,
    });
    let is_size = matches!((link.architecture, r_type), (X86_64, 32 | 33));
    Some(Resolved {
        address: if is_size { symbol.size } else { symbol.address },
        entry,
        stub: symbol.stub,
        other: symbol.other,
        is_undefined_weak: symbol.is_undefined_weak,
        is_left_out: false,
    })
}

/// A table as a look-up.
#[derive(Clone, Copy)]
struct Table<'a> {
    link: &'a Link,
    symbols: &'a [Symbol],
}

impl Lookup for Table<'_> {
    fn resolved(self, _: usize, relocation: &Rela) -> Option<Resolved> {
        resolved(self.link, self.symbols, relocation)
    }
}

struct Random(u64);

impl Random {
    fn below(&mut self, limit: u64) -> u64 {
        self.0 ^= self.0 << 13;
        self.0 ^= self.0 >> 7;
        self.0 ^= self.0 << 17;
        self.0 % limit
    }
}

/// A symbol, mostly near and with all entries.
fn symbol(random: &mut Random) -> Symbol {
    let far = if random.below(16) == 0 { 1 << 40 } else { 0 };
    let mut entry = |address| if random.below(8) == 0 { 0 } else { address };
    let (address_entry, thread_entry) = (entry(0x48_0010), entry(0x48_0020));
    let (module_entry, descriptor) = (entry(0x48_0030), entry(0x48_0040));
    Symbol {
        address: 0x40_1000 + far + random.below(0x400) * 2,
        size: random.below(64),
        stub: [0, 0, 0x40_2000][random.below(3) as usize],
        address_entry,
        thread_entry,
        module_entry,
        descriptor,
        entry_addend: 0,
        other: [0, 0, 0x20, 0x60][random.below(4) as usize],
        is_thread_local: random.below(4) == 0,
        is_undefined_weak: random.below(8) == 0,
    }
}

fn at<'a>(bytes: &'a mut [u8], file: &'a [u8]) -> Section<&'a mut [u8], &'a [u8]> {
    Section {
        address: 0x40_1000,
        ..Section::new(bytes, file)
    }
}

#[test]
fn a_look_up_that_is_a_table_is_the_table() {
    let mut random = Random(0x1234_5678_9abc_def1);
    let (mut written, mut refused) = (0, 0);
    for round in 0..20_000 {
        let architecture = ARCHITECTURES[round % 5];
        let link = link(architecture);
        let symbols: Vec<_> = (0..4).map(|_| symbol(&mut random)).collect();
        let mut bytes: Vec<_> = (0..64).map(|_| random.below(256) as u8).collect();
        let mut file = Vec::new();
        let mut offset = 0;
        for _ in 0..=random.below(6) {
            let r_type = loop {
                let r_type = random.below(300) as u32;
                if architecture.row(r_type).is_some() || random.below(64) == 0 {
                    break r_type;
                }
            };
            offset = if random.below(8) == 0 { random.below(68) } else { offset };
            let symbol = if random.below(64) == 0 { 9 } else { random.below(4) as u32 };
            file.extend(rela(offset, r_type, symbol, [0, -4, 8][random.below(3) as usize]));
            offset += [0, 2, 4, 8, 8, 8][random.below(6) as usize];
        }
        let mut copy = bytes.clone();
        let each: Vec<_> = relocations(&file)
            .map(|it| resolved(&link, &symbols, &it).unwrap_or_default())
            .collect();
        let has_symbols = relocations(&file).all(|it| it.symbol < 4);
        let object = Object {
            values: &symbols,
            ..Object::default()
        };
        let before = bytes.clone();
        let mut memory = vec![0; file.len() / 24];
        let mut section = at(&mut bytes, &file);
        let known = relocate_section(&link, &object, &mut section, &mut memory);
        let table = Table {
            link: &link,
            symbols: &symbols,
        };
        let mut section = at(&mut copy, &file);
        let found = relocate_resolved(&link, table, &mut section, &mut memory);
        assert_eq!((found, &copy), (known, &bytes), "{architecture:?} {file:?}");
        if has_symbols {
            let mut copy = before.clone();
            let array = ByRelocation { resolved: &each };
            let mut section = at(&mut copy, &file);
            let found = relocate_resolved(&link, array, &mut section, &mut memory);
            assert_eq!((found, &copy), (known, &bytes), "{architecture:?} {file:?}");
        }
        written += usize::from(known.is_ok());
        refused += usize::from(known.is_err());
        assert!(known.is_ok() || bytes == before);
    }
    assert!(written > 1000 && refused > 1000, "{written} {refused}");
}

fn array(
    architecture: Architecture,
    file: &[[u8; 24]],
    resolved: &[Resolved],
    bytes: &mut [u8],
) -> Result<(), SectionError> {
    let (file, mut memory) = (file.concat(), vec![0; file.len()]);
    let array = ByRelocation { resolved };
    relocate_resolved(&link(architecture), array, &mut Section::new(bytes, file), &mut memory)
}

fn error(index: usize, error: RelocationError) -> Result<(), SectionError> {
    Err(SectionError {
        index,
        error,
        rejected: None,
    })
}

const WORD: Resolved = Resolved {
    address: 0x40_2000,
    entry: 0,
    stub: 0,
    other: 0,
    is_undefined_weak: false,
    is_left_out: false,
};

const LEFT: Resolved = Resolved {
    is_left_out: true,
    ..WORD
};

#[test]
fn what_is_left_out_stays() {
    // two R_X86_64_64
    let file = [rela(0, 1, 1, 0), rela(8, 1, 1, 0)];
    let mut bytes = [0x55; 16];
    assert_eq!(array(X86_64, &file, &[LEFT, WORD], &mut bytes), Ok(()));
    assert_eq!(bytes[..8], [0x55; 8]);
    assert_eq!(bytes[8..], [0, 0x20, 0x40, 0, 0, 0, 0, 0]);
}

#[test]
fn what_is_left_out_needs_no_symbol_or_entry() {
    // R_X86_64_GOTPCREL without an entry
    let file = [rela(0, 9, 1, 0)];
    let mut bytes = [0x55; 4];
    assert_eq!(array(X86_64, &file, &[LEFT], &mut bytes), Ok(()));
    assert_eq!(bytes, [0x55; 4]);
    let no_entry = RelocationError::Value(ValueError::NoEntry);
    assert_eq!(array(X86_64, &file, &[WORD], &mut bytes), error(0, no_entry));
}

#[test]
fn the_field_of_what_is_left_out_is_its_own() {
    let file = [rela(0, 1, 1, 0), rela(4, 1, 1, 0)];
    let mut bytes = [0x55; 16];
    for known in [[LEFT, WORD], [WORD, LEFT], [LEFT, LEFT]] {
        let found = array(X86_64, &file, &known, &mut bytes);
        assert_eq!(found, error(1, RelocationError::Overlaps));
        assert_eq!(bytes, [0x55; 16]);
    }
    // in the other order too
    let file = [rela(8, 1, 1, 0), rela(4, 1, 1, 0)];
    let found = array(X86_64, &file, &[LEFT, WORD], &mut bytes);
    assert_eq!(found, error(1, RelocationError::Overlaps));
    // and it is in the section
    for offset in [9, 16, u64::MAX] {
        let found = array(X86_64, &[rela(offset, 1, 1, 0)], &[LEFT], &mut bytes);
        let short = RelocationError::Write(RelocateError::TooShort);
        assert_eq!(found, error(0, short), "{offset}");
    }
}

#[test]
fn pairs_are_not_left_out() {
    // R_RISCV_SET_ULEB128, R_RISCV_SUB_ULEB128
    let file = [rela(0, 60, 1, 5), rela(0, 61, 1, 0)];
    let mut bytes = [0x80, 0];
    assert_eq!(array(RiscV, &file, &[LEFT, LEFT], &mut bytes), Ok(()));
    assert_eq!(bytes, [0x85, 0]);
}

#[test]
fn an_alignment_that_is_left_out_is_not_tested() {
    // R_RISCV_ALIGN of 2 bytes of nops at 0x1000
    let file = [rela(0, 43, 0, 2)];
    let mut bytes = [0x01, 0x00, 0x13, 0, 0, 0];
    let not_aligned = RelocationError::Value(ValueError::NotAligned);
    assert_eq!(array(RiscV, &file, &[WORD], &mut bytes), error(0, not_aligned));
    assert_eq!(array(RiscV, &file, &[LEFT], &mut bytes), Ok(()));
}

#[test]
fn a_symbol_may_have_several_stubs_and_values() {
    // two R_AARCH64_CALL26 of one function, and two R_AARCH64_ABS64 of one section's strings
    let file = [rela(0, 283, 1, 0), rela(4, 283, 1, 0), rela(8, 257, 2, 1), rela(16, 257, 2, 9)];
    let known = [
        Resolved { stub: 0x100, ..WORD },
        Resolved { stub: 0x204, ..WORD },
        Resolved { address: 0x7000 - 1, ..WORD },
        Resolved { address: 0x6000 - 9, ..WORD },
    ];
    let mut bytes = [0; 24];
    bytes[3] = 0x94;
    bytes[7] = 0x94;
    assert_eq!(array(AArch64, &file, &known, &mut bytes), Ok(()));
    assert_eq!(bytes[..8], [0x40, 0, 0, 0x94, 0x80, 0, 0, 0x94]);
    assert_eq!(bytes[8..16], 0x7000_u64.to_le_bytes());
    assert_eq!(bytes[16..], 0x6000_u64.to_le_bytes());
}

#[test]
fn a_low_part_takes_what_is_known_of_its_high_part() {
    // auipc a0, 0; addi a0, a0, 0: R_RISCV_PCREL_HI20 at 0, and R_RISCV_PCREL_LO12_I of its label
    let file = [rela(0, 23, 2, 0), rela(4, 24, 1, 0)];
    let (label, target) = (Resolved { address: 0, ..WORD }, Resolved { address: 0x1804, ..WORD });
    let mut bytes = [0x17, 0x05, 0, 0, 0x13, 0x05, 0x05, 0];
    assert_eq!(array(RiscV, &file, &[target, label], &mut bytes), Ok(()));
    assert_eq!(bytes, [0x17, 0x25, 0, 0, 0x13, 0x05, 0x45, 0x80]);
    // in the other order
    let mut bytes = [0x17, 0x05, 0, 0, 0x13, 0x05, 0x05, 0];
    let file = [file[1], file[0]];
    assert_eq!(array(RiscV, &file, &[label, target], &mut bytes), Ok(()));
    assert_eq!(bytes, [0x17, 0x25, 0, 0, 0x13, 0x05, 0x45, 0x80]);
}

#[test]
fn an_array_that_is_too_short_has_no_symbol() {
    let file = [rela(0, 1, 1, 0), rela(8, 1, 1, 0)];
    let no_symbol = RelocationError::Value(ValueError::NoSymbol);
    let mut bytes = [0x55; 16];
    assert_eq!(array(X86_64, &file, &[WORD], &mut bytes), error(1, no_symbol));
    assert_eq!(bytes, [0x55; 16]);
}
