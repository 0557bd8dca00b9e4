// SPDX-License-Identifier: MIT OR Apache-2.0
//! Values of relocations by what a linker knows of symbols, worked out by hand from the psABIs'
//! formulas.

use linker_utils::elf::Architecture::{self, AArch64, LoongArch64, Ppc64, RiscV, X86_64};
use linker_utils::elf::RelocateError;
use linker_utils::output::Origins;
use linker_utils::section::{
    Addresses, Entry, EntryClass, Link, Object, Rela, RelocationError, Section, Symbol, ValueError,
    memory_len, needs, relocation_at, relocations_len, value,
};
use linker_utils::utils::Uleb128Error;

const SECTION: u64 = 0x40_1000;

const ADDRESSES: Addresses = Addresses {
    section: SECTION,
    got_base: 0x48_0000,
    thread_origin: 0x50_0100,
    module_origin: 0x50_0000,
    module_entry: 0x48_0100,
    has_tls: true,
};

const SYMBOL: Symbol = Symbol {
    address: 0x40_5678,
    size: 0x24,
    stub: 0,
    address_entry: 0x48_0010,
    thread_entry: 0x48_0020,
    module_entry: 0x48_0030,
    descriptor: 0x48_0040,
    entry_addend: 0,
    other: 0,
    is_thread_local: false,
    is_undefined_weak: false,
};

/// The value of a relocation at offset 0x10 of a symbol.
fn of(
    architecture: Architecture,
    r_type: u32,
    addend: i64,
    symbol: Symbol,
) -> Result<Option<i64>, ValueError> {
    let relocation = Rela {
        offset: 0x10,
        r_type,
        symbol: 1,
        addend,
    };
    value(
        architecture,
        &ADDRESSES,
        &[],
        &[Symbol::default(), symbol],
        &relocation,
    )
}

/// An error without the value, which `relocate_section` compares with the cause.
#[derive(Debug, PartialEq)]
struct SectionError {
    index: usize,
    error: RelocationError,
}

/// `relocate_section` with memory of its own; with an error the section is as before, and a value
/// that is rejected isn't one that can be written.
fn relocate_section(
    architecture: Architecture,
    addresses: &Addresses,
    relocations: &[u8],
    values: &[Symbol],
    bytes: &mut [u8],
) -> Result<(), SectionError> {
    let before = bytes.to_vec();
    let mut memory = vec![0x5555; memory_len(relocations)];
    let link = Link {
        got_base: addresses.got_base,
        origins: addresses.has_tls.then_some(Origins {
            thread_pointer: addresses.thread_origin,
            module_block: addresses.module_origin,
        }),
        module_entry: Some(addresses.module_entry),
        ..Link::new(architecture)
    };
    assert_eq!(link.addresses(addresses.section).has_tls, addresses.has_tls);
    let object = Object { values, ..Object::default() };
    let mut section = Section { address: addresses.section, ..Section::new(bytes, relocations) };
    let result =
        linker_utils::section::relocate_section(&link, &object, &mut section, &mut memory);
    assert!(result.is_ok() || section.bytes == before);
    result.map_err(|it| {
        if let Some(rejected) = it.rejected {
            assert_eq!(it.error, RelocationError::Write(rejected.error));
            let is_far = !(rejected.least..=rejected.greatest).contains(&rejected.value);
            let is_uneven = rejected.value.rem_euclid(rejected.alignment as i64) != 0;
            assert!(is_far || is_uneven, "{rejected}");
        }
        SectionError { index: it.index, error: it.error }
    })
}

/// The 24 bytes of a relocation.
fn bytes_of(relocations: &[Rela]) -> Vec<u8> {
    let mut bytes = Vec::new();
    for it in relocations {
        bytes.extend(it.offset.to_le_bytes());
        bytes.extend((u64::from(it.r_type) | u64::from(it.symbol) << 32).to_le_bytes());
        bytes.extend(it.addend.to_le_bytes());
    }
    bytes
}

#[test]
fn relocations_are_read_at_any_alignment() {
    let relocations = [
        Rela {
            offset: 0x1122_3344_5566_7788,
            r_type: 0x99aa_bbcc,
            symbol: 0xddee_ff01,
            addend: -2,
        },
        Rela {
            offset: 1,
            r_type: 2,
            symbol: 3,
            addend: i64::MIN,
        },
    ];
    let mut bytes = vec![0];
    bytes.extend(bytes_of(&relocations));
    bytes.extend([0; 23]);
    let read = &bytes[1..];
    assert_eq!(relocations_len(read), 2);
    assert_eq!(relocation_at(read, 0), Some(relocations[0]));
    assert_eq!(relocation_at(read, 1), Some(relocations[1]));
    assert_eq!(relocation_at(read, 2), None);
    assert_eq!(relocation_at(read, usize::MAX), None);
    assert_eq!(relocation_at(&[], 0), None);
}

#[test]
fn values_are_those_of_the_formulas() {
    let thread_local = Symbol {
        address: 0x50_0040,
        is_thread_local: true,
        ..SYMBOL
    };
    let called = Symbol {
        stub: 0x40_2000,
        ..SYMBOL
    };
    let local_entry = Symbol {
        other: 3 << 5,
        ..SYMBOL
    };
    let place = SECTION as i64 + 0x10;
    for (architecture, name, r_type, addend, symbol, expected) in [
        (X86_64, "R_X86_64_64: S + A", 1, 8, SYMBOL, 0x40_5680),
        (
            X86_64,
            "R_X86_64_PC32: S + A - P",
            2,
            -4,
            SYMBOL,
            0x40_5674 - place,
        ),
        (
            X86_64,
            "R_X86_64_PC32 of data with a stub",
            2,
            -4,
            called,
            0x40_5674 - place,
        ),
        (
            X86_64,
            "R_X86_64_PLT32: L + A - P",
            4,
            -4,
            called,
            0x40_1ffc - place,
        ),
        (
            X86_64,
            "R_X86_64_PLT32 without L",
            4,
            -4,
            SYMBOL,
            0x40_5674 - place,
        ),
        (
            X86_64,
            "R_X86_64_GOTPCREL: G + GOT + A - P",
            9,
            -4,
            SYMBOL,
            0x48_000c - place,
        ),
        (X86_64, "R_X86_64_GOT64: G + A", 27, 0, SYMBOL, 0x10),
        (
            X86_64,
            "R_X86_64_GOTPC32: GOT + A - P",
            26,
            2,
            SYMBOL,
            0x48_0002 - place,
        ),
        (
            X86_64,
            "R_X86_64_GOTPC64: GOT + A - P",
            29,
            2,
            SYMBOL,
            0x48_0002 - place,
        ),
        (
            X86_64,
            "R_X86_64_GOTOFF64: S + A - GOT",
            25,
            0,
            SYMBOL,
            0x40_5678 - 0x48_0000,
        ),
        (X86_64, "R_X86_64_SIZE64: Z + A", 33, 1, SYMBOL, 0x25),
        (X86_64, "R_X86_64_TPOFF32", 23, 0, thread_local, -0xc0),
        (X86_64, "R_X86_64_DTPOFF32", 21, 0, thread_local, 0x40),
        (
            X86_64,
            "R_X86_64_GOTTPOFF",
            22,
            -4,
            thread_local,
            0x48_001c - place,
        ),
        (
            X86_64,
            "R_X86_64_TLSGD",
            19,
            -4,
            thread_local,
            0x48_002c - place,
        ),
        (
            X86_64,
            "R_X86_64_TLSLD",
            20,
            -4,
            thread_local,
            0x48_00fc - place,
        ),
        (
            X86_64,
            "R_X86_64_GOTPC32_TLSDESC",
            34,
            -4,
            thread_local,
            0x48_003c - place,
        ),
        (
            AArch64,
            "R_AARCH64_CALL26: S + A - P",
            283,
            0,
            called,
            0x40_2000 - place,
        ),
        (
            AArch64,
            "R_AARCH64_ADR_PREL_PG_HI21: Page(S+A)-Page(P)",
            275,
            0,
            SYMBOL,
            0x4000,
        ),
        (
            AArch64,
            "R_AARCH64_ADR_GOT_PAGE: Page(G(GDAT(S+A)))-Page(P)",
            311,
            0,
            SYMBOL,
            0x7_f000,
        ),
        (
            AArch64,
            "R_AARCH64_GOTPCREL32: G(GDAT(S)) + A - P",
            315,
            4,
            SYMBOL,
            0x48_0014 - place,
        ),
        (
            AArch64,
            "R_AARCH64_TLSLD_ADR_PAGE21",
            518,
            0,
            thread_local,
            0x7_f000,
        ),
        (
            RiscV,
            "R_RISCV_CALL_PLT: S + A - P",
            19,
            0,
            called,
            0x40_2000 - place,
        ),
        (
            RiscV,
            "R_RISCV_GOT_HI20: G + GOT + A - P",
            20,
            0,
            SYMBOL,
            0x48_0010 - place,
        ),
        (
            RiscV,
            "R_RISCV_SET_ULEB128: S + A",
            60,
            2,
            SYMBOL,
            0x40_567a,
        ),
        (
            RiscV,
            "R_RISCV_SUB_ULEB128: what is subtracted",
            61,
            2,
            SYMBOL,
            0x40_567a,
        ),
        (
            LoongArch64,
            "R_LARCH_B26: S + A - PC",
            66,
            0,
            called,
            0x40_2000 - place,
        ),
        (
            LoongArch64,
            "R_LARCH_GOT_PC_LO12: the entry",
            76,
            0,
            SYMBOL,
            0x48_0010,
        ),
        (
            LoongArch64,
            "the same of general-dynamic TLS",
            76,
            0,
            thread_local,
            0x48_0030,
        ),
        (
            Ppc64,
            "R_PPC64_REL24: S - P, to the local entry",
            10,
            0,
            local_entry,
            0x40_5680 - place,
        ),
        (
            Ppc64,
            "R_PPC64_REL24 by a stub",
            10,
            0,
            Symbol {
                stub: 0x40_2000,
                ..local_entry
            },
            0x40_2000 - place,
        ),
        (
            Ppc64,
            "R_PPC64_REL64: S + A - P",
            44,
            0,
            local_entry,
            0x40_5678 - place,
        ),
        (
            Ppc64,
            "R_PPC64_PLT_PCREL34: the word of the PLT",
            134,
            0,
            called,
            0x48_0010 - place,
        ),
    ] {
        assert_eq!(
            of(architecture, r_type, addend, symbol),
            Ok(Some(expected)),
            "{name}"
        );
    }
}

#[test]
fn entries_that_there_are_not_are_errors() {
    let without = Symbol {
        address_entry: 0,
        thread_entry: 0,
        module_entry: 0,
        descriptor: 0,
        ..SYMBOL
    };
    for (architecture, r_type) in [
        (X86_64, 9),
        (X86_64, 22),
        (X86_64, 19),
        (AArch64, 312),
        (LoongArch64, 87),
    ] {
        assert_eq!(
            of(architecture, r_type, 0, without),
            Err(ValueError::NoEntry),
            "{r_type}"
        );
    }
    // R_AARCH64_LD64_GOT_LO12_NC of S + 8, whose entry is another than that of S
    assert_eq!(of(AArch64, 312, 8, SYMBOL), Err(ValueError::NoEntry));
    let of_sum = Symbol {
        entry_addend: 8,
        ..SYMBOL
    };
    assert_eq!(of(AArch64, 312, 8, of_sum), Ok(Some(0x48_0010)));
    assert_eq!(of(AArch64, 312, 0, of_sum), Err(ValueError::NoEntry));
    let no_symbol = Rela {
        offset: 0,
        r_type: 2,
        symbol: 1,
        addend: 0,
    };
    assert_eq!(
        value(X86_64, &ADDRESSES, &[], &[SYMBOL], &no_symbol),
        Err(ValueError::NoSymbol)
    );
    // R_X86_64_NONE has no value, whatever its symbol is, and 200 no row
    let none = Rela {
        r_type: 0,
        ..no_symbol
    };
    assert_eq!(value(X86_64, &ADDRESSES, &[], &[SYMBOL], &none), Ok(None));
    assert_eq!(of(X86_64, 200, 0, SYMBOL), Err(ValueError::UnknownType));
}

#[test]
fn undefined_weak_symbols_are_where_linkers_put_them() {
    let weak = Symbol {
        address: 0x1234,
        is_undefined_weak: true,
        ..SYMBOL
    };
    let place = SECTION as i64 + 0x10;
    for (architecture, name, r_type, expected) in [
        (AArch64, "R_AARCH64_CALL26: the next instruction", 283, 4),
        (AArch64, "R_AARCH64_CONDBR19: the next instruction", 280, 4),
        (AArch64, "R_AARCH64_PREL32: the place", 261, 0),
        (AArch64, "R_AARCH64_PLT32: the place", 314, 0),
        (AArch64, "R_AARCH64_ABS64: 0", 257, 0),
        (RiscV, "R_RISCV_CALL_PLT: itself", 19, 0),
        (RiscV, "R_RISCV_JAL: itself", 17, 0),
        (RiscV, "R_RISCV_PCREL_HI20: address 0", 23, -place),
        (Ppc64, "R_PPC64_REL24: itself", 10, 0),
        (X86_64, "R_X86_64_PC32: address 0", 2, -place),
        (LoongArch64, "R_LARCH_B26: address 0", 66, -place),
        (X86_64, "R_X86_64_TPOFF32: 0", 23, 0),
    ] {
        assert_eq!(
            of(architecture, r_type, 0, weak),
            Ok(Some(expected)),
            "{name}"
        );
    }
}

/// `x` in an output without a TLS segment, at offset 4 from it. Where `x` is in `.data` and `STT_TLS`,
/// ld.lld 19 says that there is no `SHF_TLS` section. Where it is weak and nothing defines it, ld.lld
/// and GNU ld 2.40 write 4 for `R_X86_64_TPOFF32`.
#[test]
fn offsets_without_a_tls_segment_are_errors() {
    let without = Addresses {
        has_tls: false,
        ..ADDRESSES
    };
    let of = |architecture, r_type, addresses, symbols: &[Symbol]| {
        value(architecture, addresses, &[], symbols, &rela(0, r_type, 1, 4))
    };
    let variable = Symbol {
        address: 0x50_0140,
        is_thread_local: true,
        ..SYMBOL
    };
    let weak = Symbol {
        is_undefined_weak: true,
        ..variable
    };
    for (architecture, name, r_type, offset) in [
        (X86_64, "R_X86_64_TPOFF32", 23, 0x44),
        (X86_64, "R_X86_64_TPOFF64", 18, 0x44),
        (X86_64, "R_X86_64_DTPOFF32", 21, 0x144),
        (X86_64, "R_X86_64_DTPOFF64", 17, 0x144),
        (AArch64, "R_AARCH64_TLSLE_ADD_TPREL_LO12", 550, 0x44),
        (AArch64, "R_AARCH64_TLSLD_ADD_DTPREL_LO12", 529, 0x144),
        (RiscV, "R_RISCV_TPREL_LO12_I", 30, 0x44),
        (LoongArch64, "R_LARCH_TLS_LE_LO12", 84, 0x44),
        (LoongArch64, "R_LARCH_TLS_DTPREL64", 9, 0x144),
        (Ppc64, "R_PPC64_TPREL16", 69, 0x44),
        (Ppc64, "R_PPC64_DTPREL16", 74, 0x144),
    ] {
        let of = |addresses, symbols: &[Symbol]| of(architecture, r_type, addresses, symbols);
        let symbols = [SYMBOL, variable];
        assert_eq!(of(&ADDRESSES, &symbols), Ok(Some(offset)), "{name}");
        assert_eq!(of(&without, &symbols), Err(ValueError::NoTlsBase), "{name}");
        assert_eq!(of(&without, &symbols[..1]), Err(ValueError::NoSymbol), "{name}");
        assert_eq!(of(&without, &[SYMBOL, weak]), Ok(Some(4)), "{name}");
    }
    // R_X86_64_GOTTPOFF takes the entry, and origins of 0 are there
    assert_eq!(of(X86_64, 22, &without, &[SYMBOL, variable]), Ok(Some(0x7_f024)));
    let at_0 = Addresses {
        thread_origin: 0,
        ..ADDRESSES
    };
    assert_eq!(of(X86_64, 23, &at_0, &[SYMBOL, variable]), Ok(Some(0x50_0144)));
    // R_X86_64_PC32, which is written, and R_X86_64_DTPOFF32
    let relocations = bytes_of(&[rela(0, 2, 1, 0), rela(4, 21, 1, 0)]);
    let error = RelocationError::Value(ValueError::NoTlsBase);
    assert_eq!(
        relocate_section(X86_64, &without, &relocations, &[SYMBOL, variable], &mut [0; 8]),
        Err(SectionError { index: 1, error })
    );
}

#[test]
fn low_parts_take_their_high_parts() {
    // auipc at 0x20 with R_RISCV_GOT_HI20, at 0x30 with R_RISCV_PCREL_HI20 and R_RISCV_RELAX, at
    // 0x40 with R_RISCV_TLSDESC_HI20; symbols 2, 3 and 4 are the labels there, 5 one at 0x24
    let relocations = [
        Rela {
            offset: 0x20,
            r_type: 20,
            symbol: 1,
            addend: 0,
        },
        Rela {
            offset: 0x30,
            r_type: 51,
            symbol: 0,
            addend: 0,
        },
        Rela {
            offset: 0x30,
            r_type: 23,
            symbol: 1,
            addend: 0x10,
        },
        Rela {
            offset: 0x40,
            r_type: 62,
            symbol: 1,
            addend: 0,
        },
        Rela {
            offset: 0x50,
            r_type: 24,
            symbol: 2,
            addend: 0,
        },
    ];
    let label = |offset| Symbol {
        address: SECTION + offset,
        ..Symbol::default()
    };
    let symbols = [
        Symbol::default(),
        SYMBOL,
        label(0x20),
        label(0x30),
        label(0x40),
        label(0x24),
    ];
    let bytes = bytes_of(&relocations);
    let low = |r_type, symbol| {
        let relocation = Rela {
            offset: 0x50,
            r_type,
            symbol,
            addend: 0,
        };
        value(RiscV, &ADDRESSES, &bytes, &symbols, &relocation)
    };
    let section = SECTION as i64;
    // R_RISCV_PCREL_LO12_I and _S: the value of the high part
    assert_eq!(low(24, 2), Ok(Some(0x48_0010 - section - 0x20)));
    assert_eq!(low(25, 2), Ok(Some(0x48_0010 - section - 0x20)));
    assert_eq!(low(24, 3), Ok(Some(0x40_5688 - section - 0x30)));
    // R_RISCV_TLSDESC_LOAD_LO12 and _ADD_LO12
    assert_eq!(low(63, 4), Ok(Some(0x48_0040 - section - 0x40)));
    assert_eq!(low(64, 4), Ok(Some(0x48_0040 - section - 0x40)));
    // R_RISCV_TLSDESC_CALL has no value
    assert_eq!(low(65, 4), Ok(None));
    for (r_type, symbol) in [(24, 5), (24, 4), (63, 2), (24, 1)] {
        assert_eq!(
            low(r_type, symbol),
            Err(ValueError::NoHighPart),
            "{r_type} {symbol}"
        );
    }
    assert_eq!(low(24, 6), Err(ValueError::NoSymbol));
}

#[test]
fn sections_are_relocated_in_order() {
    // R_RISCV_ADD32 of symbol 1 and R_RISCV_SUB32 of symbol 2 at offset 4, over 5; R_RISCV_64 of
    // symbol 1 at offset 8; R_RISCV_RELAX, which has no value
    let relocations = [
        Rela {
            offset: 4,
            r_type: 35,
            symbol: 1,
            addend: 0,
        },
        Rela {
            offset: 4,
            r_type: 39,
            symbol: 2,
            addend: 0,
        },
        Rela {
            offset: 8,
            r_type: 2,
            symbol: 1,
            addend: 1,
        },
        Rela {
            offset: 8,
            r_type: 51,
            symbol: 0,
            addend: 0,
        },
    ];
    let first = Symbol {
        address: 0x40_5678,
        ..Symbol::default()
    };
    let second = Symbol {
        address: 0x40_5070,
        ..Symbol::default()
    };
    let symbols = [Symbol::default(), first, second];
    let mut section = [
        0xee, 0xee, 0xee, 0xee, 5, 0, 0, 0, 0, 0, 0, 0, 0, 0, 0, 0, 0xee,
    ];
    let bytes = bytes_of(&relocations);
    assert_eq!(
        relocate_section(RiscV, &ADDRESSES, &bytes, &symbols, &mut section),
        Ok(())
    );
    let expected = [
        0xee, 0xee, 0xee, 0xee, 0x0d, 0x06, 0, 0, 0x79, 0x56, 0x40, 0, 0, 0, 0, 0, 0xee,
    ];
    assert_eq!(section, expected);
    // the error is that of the first relocation that isn't written
    let too_short = RelocationError::Write(RelocateError::TooShort);
    let no_symbol = RelocationError::Value(ValueError::NoSymbol);
    let unsupported = RelocationError::Write(RelocateError::Unsupported);
    for (index, wrong, error) in [
        (
            2,
            Rela {
                offset: 10,
                ..relocations[2]
            },
            too_short,
        ),
        (
            2,
            Rela {
                offset: 7,
                ..relocations[2]
            },
            RelocationError::Overlaps,
        ),
        (
            2,
            Rela {
                offset: u64::MAX,
                ..relocations[2]
            },
            too_short,
        ),
        (
            1,
            Rela {
                symbol: 3,
                ..relocations[1]
            },
            no_symbol,
        ),
        (
            3,
            Rela {
                offset: 16,
                r_type: 60,
                symbol: 1,
                addend: 0,
            },
            unsupported,
        ),
    ] {
        let mut relocations = relocations;
        relocations[index] = wrong;
        let bytes = bytes_of(&relocations);
        let result = relocate_section(RiscV, &ADDRESSES, &bytes, &symbols, &mut [0; 17]);
        assert_eq!(result, Err(SectionError { index, error }));
    }
}

#[test]
fn pairs_write_uleb128_numbers() {
    let first = Symbol {
        address: 0x40_5678,
        ..Symbol::default()
    };
    let second = Symbol {
        address: 0x40_5070,
        ..Symbol::default()
    };
    let symbols = [Symbol::default(), first, second];
    let pair = |r_types: [u32; 2], addend| {
        bytes_of(&[
            Rela {
                offset: 1,
                r_type: r_types[0],
                symbol: 1,
                addend,
            },
            Rela {
                offset: 1,
                r_type: r_types[1],
                symbol: 2,
                addend: 0,
            },
        ])
    };
    // 0x608 is 1100 0001000 by groups of seven bits; R_RISCV_SET_ULEB128 and R_RISCV_SUB_ULEB128 set
    // it, and R_LARCH_ADD_ULEB128 and R_LARCH_SUB_ULEB128 add it to 2
    for (architecture, r_types, addend, before, after) in [
        (
            RiscV,
            [60, 61],
            0,
            [0xee, 0x82, 0x00, 0xee],
            [0xee, 0x88, 0x0c, 0xee],
        ),
        (
            RiscV,
            [60, 61],
            -0x608,
            [0xee, 0x82, 0x01, 0xee],
            [0xee, 0x80, 0x00, 0xee],
        ),
        (
            LoongArch64,
            [107, 108],
            0,
            [0xee, 0x82, 0x00, 0xee],
            [0xee, 0x8a, 0x0c, 0xee],
        ),
    ] {
        let mut section = before;
        let relocations = pair(r_types, addend);
        let result = relocate_section(
            architecture,
            &ADDRESSES,
            &relocations,
            &symbols,
            &mut section,
        );
        assert_eq!((result, section), (Ok(()), after));
    }
    // a number of one byte has no room; one that goes on past the end isn't there; one alone is no pair
    let does_not_fit = RelocationError::Uleb128(Uleb128Error::DoesNotFit);
    let ended = RelocationError::Uleb128(Uleb128Error::Ended);
    let unsupported = RelocationError::Write(RelocateError::Unsupported);
    let relocations = pair([60, 61], 0);
    let swapped = pair([61, 60], 0);
    for (relocations, before, error) in [
        (&relocations[..], [0xee, 0x02, 0x00, 0xee], does_not_fit),
        (&relocations[..], [0xee, 0x82, 0x80, 0x80], ended),
        (&relocations[..24], [0xee, 0x82, 0x00, 0xee], unsupported),
        (&swapped[..], [0xee, 0x82, 0x00, 0xee], unsupported),
    ] {
        let mut section = before;
        let result = relocate_section(RiscV, &ADDRESSES, relocations, &symbols, &mut section);
        assert_eq!(result, Err(SectionError { index: 0, error }));
        assert_eq!(section, before);
    }
}

/// The relocations' r_types and offsets, of symbol 1 with the addend 0.
fn at(relocations: &[(u32, u64)]) -> Vec<u8> {
    let relas: Vec<Rela> = relocations
        .iter()
        .map(|&(r_type, offset)| Rela {
            offset,
            r_type,
            symbol: 1,
            addend: 0,
        })
        .collect();
    bytes_of(&relas)
}

#[test]
fn fields_that_overlap_have_to_compose() {
    let symbols = [Symbol::default(), SYMBOL];
    let overlaps = |index| {
        Err(SectionError {
            index,
            error: RelocationError::Overlaps,
        })
    };
    for (name, architecture, relocations, expected) in [
        // R_X86_64_64 is 1, R_X86_64_32 is 10, R_X86_64_NONE 0
        ("apart", X86_64, vec![(1, 0), (1, 8), (10, 16)], Ok(())),
        (
            "apart, in another order",
            X86_64,
            vec![(1, 8), (10, 16), (1, 0)],
            Ok(()),
        ),
        ("by one byte", X86_64, vec![(1, 0), (1, 7)], overlaps(1)),
        (
            "by one byte, after",
            X86_64,
            vec![(1, 7), (1, 0)],
            overlaps(1),
        ),
        ("written twice", X86_64, vec![(1, 4), (1, 4)], overlaps(1)),
        ("inside", X86_64, vec![(1, 4), (10, 6)], overlaps(1)),
        (
            "with the one before the last",
            X86_64,
            vec![(1, 0), (0, 4), (10, 4)],
            overlaps(2),
        ),
        (
            "a mark has no field",
            X86_64,
            vec![(1, 0), (0, 4), (0, 4), (1, 8)],
            Ok(()),
        ),
        (
            "the least of three",
            X86_64,
            vec![(1, 20), (1, 0), (10, 4), (1, 16)],
            overlaps(2),
        ),
        // R_RISCV_ADD32 35, SUB32 39, SET32 56, ADD8 33, SUB8 37, SET6 53, SUB6 52, 32 1, RELAX 51
        ("ADD and SUB", RiscV, vec![(35, 4), (39, 4)], Ok(())),
        ("SET and SUB", RiscV, vec![(56, 4), (39, 4)], Ok(())),
        (
            "SET, a mark and SUB",
            RiscV,
            vec![(56, 4), (51, 4), (39, 4)],
            Ok(()),
        ),
        ("6 bits", RiscV, vec![(53, 4), (52, 4)], Ok(())),
        ("SUB and SET", RiscV, vec![(39, 4), (56, 4)], overlaps(1)),
        ("SET twice", RiscV, vec![(56, 4), (56, 4)], overlaps(1)),
        ("a word and SUB", RiscV, vec![(1, 4), (39, 4)], overlaps(1)),
        (
            "of 4 and of 1 byte",
            RiscV,
            vec![(35, 4), (37, 4)],
            overlaps(1),
        ),
        (
            "6 bits and a byte",
            RiscV,
            vec![(53, 4), (37, 4)],
            overlaps(1),
        ),
        ("a byte further", RiscV, vec![(35, 4), (39, 5)], overlaps(1)),
        (
            "apart from each other",
            RiscV,
            vec![(35, 4), (33, 8), (39, 4), (37, 8)],
            Ok(()),
        ),
        // R_RISCV_SET_ULEB128 60, SUB_ULEB128 61; numbers of one byte, at 1 of two
        ("a pair", RiscV, vec![(60, 0), (61, 0)], Ok(())),
        (
            "a pair after",
            RiscV,
            vec![(35, 4), (39, 4), (60, 0), (61, 0)],
            Ok(()),
        ),
        (
            "a byte in a number",
            RiscV,
            vec![(60, 1), (61, 1), (33, 2)],
            overlaps(2),
        ),
        (
            "a byte after a number",
            RiscV,
            vec![(60, 1), (61, 1), (33, 3)],
            Ok(()),
        ),
        (
            "a pair twice",
            RiscV,
            vec![(60, 1), (61, 1), (60, 1), (61, 1)],
            overlaps(2),
        ),
        (
            "a pair over a byte",
            RiscV,
            vec![(33, 2), (60, 1), (61, 1)],
            overlaps(1),
        ),
    ] {
        let mut section = [0u8; 28];
        section[1] = 0x80;
        let relocations = at(&relocations);
        let result = relocate_section(
            architecture,
            &ADDRESSES,
            &relocations,
            &symbols,
            &mut section,
        );
        assert_eq!(result, expected, "{name}");
    }
}

#[test]
fn the_second_of_a_pair_without_a_value_is_the_error() {
    let relocation = |r_type, symbol| Rela {
        offset: 0,
        r_type,
        symbol,
        addend: 0,
    };
    let relocations = bytes_of(&[relocation(60, 1), relocation(61, 2)]);
    let symbols = [Symbol::default(), SYMBOL];
    let result = relocate_section(RiscV, &ADDRESSES, &relocations, &symbols, &mut [0; 4]);
    let error = RelocationError::Value(ValueError::NoSymbol);
    assert_eq!(result, Err(SectionError { index: 1, error }));
}

fn rela(offset: u64, r_type: u32, symbol: u32, addend: i64) -> Rela {
    Rela {
        offset,
        r_type,
        symbol,
        addend,
    }
}

/// What `.p2align` leaves of a section that isn't packed. The offsets and addends are those that
/// GNU as and llvm-mc wrote, and where what is after an alignment goes is what ld.lld 19 left.
#[test]
fn alignments_that_were_not_packed_hold_or_are_errors() {
    let of = |architecture, at, listed: &[Rela]| {
        let addresses = Addresses {
            section: at,
            ..ADDRESSES
        };
        let symbols = [Symbol::default(), SYMBOL];
        relocate_section(architecture, &addresses, &bytes_of(listed), &symbols, &mut [])
    };
    let unaligned = |index| {
        let error = RelocationError::Value(ValueError::NotAligned);
        Err(SectionError { index, error })
    };
    // c.nop, `.p2align 3` and c.addi: ld.lld puts it at 8, as it stands; `.p2align 4` and c.addi:
    // ld.lld puts it at 0x10, and here it is at 0x18
    let listed = [rela(2, 43, 0, 6), rela(0xa, 43, 0, 14)];
    assert_eq!(of(RiscV, 0x10000, &listed[..1]), Ok(()));
    assert_eq!(of(RiscV, 0x10000, &listed), unaligned(1));
    assert_eq!(of(RiscV, 0x10004, &listed), unaligned(0));
    assert_eq!(of(RiscV, 0x10008, &listed[1..]), Ok(()));
    // code without compressed instructions has 12 bytes of nops for 16
    assert_eq!(of(RiscV, 0x10000, &[rela(4, 43, 0, 12)]), Ok(()));
    assert_eq!(of(RiscV, 0x10000, &[rela(8, 43, 0, 12)]), unaligned(0));
    // nothing is aligned by 0 bytes, and no psABI has a negative count
    assert_eq!(of(RiscV, 0x10002, &[rela(0, 43, 0, 0)]), Ok(()));
    assert_eq!(of(RiscV, 0x10000, &[rela(0, 43, 0, -4)]), unaligned(0));

    // nop, `.p2align 4` and addi.d: ld.lld puts it at 0x10, as it stands
    assert_eq!(of(LoongArch64, 0x10000, &[rela(4, 102, 0, 12)]), Ok(()));
    assert_eq!(of(LoongArch64, 0x10004, &[rela(4, 102, 0, 12)]), unaligned(0));
    // `.p2align 5, , 8` at 0x14: 12 bytes would be needed, and ld.lld aligns nothing
    assert_eq!(of(LoongArch64, 0x10000, &[rela(0x14, 102, 1, 0x805)]), Ok(()));
    // 8 bytes from 0x18 are needed, which it allows; without a limit 12 are too
    assert_eq!(of(LoongArch64, 0x10000, &[rela(0x18, 102, 1, 0x805)]), unaligned(0));
    assert_eq!(of(LoongArch64, 0x10000, &[rela(0x14, 102, 1, 5)]), unaligned(0));
    assert_eq!(of(LoongArch64, 0x10000, &[rela(4, 102, 1, 5)]), Ok(()));
    assert_eq!(of(LoongArch64, 0x10000, &[rela(0, 102, 1, 63)]), unaligned(0));
}

/// `bl f` of a function with `.localentry f,1`, beside what ld.lld 19 and GNU ld 2.40 made of it:
/// both go by a stub with `std 2,24(1)`.
#[test]
fn calls_that_may_change_the_toc_pointer_go_by_a_stub() {
    // bl f; ld 2,24(1), at 0x10010014; f is at 0x1001002c, and __toc_save_f at 0x10010040
    let addresses = Addresses {
        section: 0x1001_0014,
        ..ADDRESSES
    };
    let call = |r_type, symbol| {
        let mut section = [1, 0, 0, 0x48, 0x18, 0, 0x41, 0xe8];
        let relocations = bytes_of(&[rela(0, r_type, 1, 0)]);
        let symbols = [Symbol::default(), symbol];
        relocate_section(Ppc64, &addresses, &relocations, &symbols, &mut section)?;
        Ok(u32::from_le_bytes(section[..4].try_into().unwrap()))
    };
    let function = Symbol {
        address: 0x1001_002c,
        other: 0x20,
        ..Symbol::default()
    };
    let error = RelocationError::Value(ValueError::NeedsStub);
    assert_eq!(call(10, function), Err(SectionError { index: 0, error }));
    let by_stub = Symbol {
        stub: 0x1001_0040,
        ..function
    };
    assert_eq!(call(10, by_stub), Ok(0x4800_002d));
    // R_PPC64_REL24_NOTOC has no TOC pointer to keep
    assert_eq!(call(116, function), Ok(0x4800_0019));
    // a function with the same TOC pointer, entered at its local entry point or at its only one
    let local = |other| Symbol { other, ..function };
    assert_eq!(call(10, local(0)), Ok(0x4800_0019));
    assert_eq!(call(10, local(0x60)), Ok(0x4800_0021));
    // nothing defines `__gmon_start__`: the call stays where it is, as both linkers leave it
    let missing = Symbol {
        is_undefined_weak: true,
        ..function
    };
    assert_eq!(call(10, missing), Ok(0x4800_0001));
}

/// The low two bits of an instruction of RISC-V say its length (The RISC-V Instruction Set Manual,
/// volume I, "Expanded Instruction-Length Encoding"), and primary opcode 1 is that of a prefix
/// (Power ISA, "Prefixed Instructions"). The words are those of assemblers.
#[test]
fn instructions_are_as_long_as_their_forms() {
    let relocate = |architecture, r_type, section: &[u8]| {
        let mut section = section.to_vec();
        let relocations = bytes_of(&[rela(0, r_type, 1, 0)]);
        let symbol = Symbol {
            address: SECTION + 0x10,
            ..SYMBOL
        };
        let symbols = [Symbol::default(), symbol];
        relocate_section(architecture, &ADDRESSES, &relocations, &symbols, &mut section)?;
        Ok(section)
    };
    let other = Err(SectionError {
        index: 0,
        error: RelocationError::OtherLength,
    });
    // R_RISCV_JAL at jal ra, and at c.nop with one after it
    assert_eq!(relocate(RiscV, 17, &[0xef, 0, 0, 0]), Ok(vec![0xef, 0, 0, 1]));
    assert_eq!(relocate(RiscV, 17, &[1, 0, 1, 0]), other);
    // R_RISCV_RVC_JUMP at c.j, and at jal ra
    assert_eq!(relocate(RiscV, 45, &[1, 0xa0]), Ok(vec![1, 0xa8]));
    assert_eq!(relocate(RiscV, 45, &[0xef, 0, 0, 0]), other);
    // R_RISCV_RVC_BRANCH at beq, R_RISCV_CALL_PLT, R_RISCV_BRANCH, R_RISCV_HI20, R_RISCV_LO12_S and
    // R_RISCV_TPREL_LO12_I at compressed instructions
    assert_eq!(relocate(RiscV, 44, &[0x63, 0, 0xb5, 0]), other);
    for r_type in [19, 16, 26, 28, 30] {
        assert_eq!(relocate(RiscV, r_type, &[1, 0, 1, 0, 0xe7, 0x80, 0, 0]), other);
    }
    // the section ends before the field does
    let short = RelocationError::Write(RelocateError::TooShort);
    let short = Err(SectionError { index: 0, error: short });
    assert_eq!(relocate(RiscV, 17, &[1, 0]), short);
    assert_eq!(relocate(RiscV, 17, &[]), short);
    // a number of RISC-V, R_RISCV_32, is no instruction
    assert_eq!(relocate(RiscV, 1, &[0; 4]), Ok(vec![0x10, 0x10, 0x40, 0]));
    // R_PPC64_PCREL34 at pld 3,0(0),1, and at addi 3,3,0 and ld 3,0(3)
    let pld = [0, 0, 0x10, 4, 0, 0, 0x60, 0xe4];
    assert_eq!(relocate(Ppc64, 132, &pld), Ok(vec![0, 0, 0x10, 4, 0x10, 0, 0x60, 0xe4]));
    assert_eq!(relocate(Ppc64, 132, &[0, 0, 0x63, 0x38, 0, 0, 0x63, 0xe8]), other);
    // any word of another architecture's form, as R_AARCH64_CALL26's
    assert_eq!(relocate(AArch64, 283, &[0, 0, 0, 0x94]), Ok(vec![4, 0, 0, 0x94]));
}

/// Offsets from the thread pointer with it as the base. The words that are written are those that
/// ld.lld 19 and GNU ld 2.40 (RISC-V) wrote of the same instructions. Both write the low 12 bits
/// of a larger offset, which is then another.
#[test]
fn the_thread_pointer_takes_a_whole_offset() {
    let relocate = |architecture, r_type, word: u32, offset: u64| {
        let mut section = word.to_le_bytes();
        let symbol = Symbol {
            address: ADDRESSES.thread_origin.wrapping_add(offset),
            ..SYMBOL
        };
        let (relocations, symbols) = (bytes_of(&[rela(0, r_type, 1, 0)]), [SYMBOL, symbol]);
        relocate_section(architecture, &ADDRESSES, &relocations, &symbols, &mut section)?;
        Ok(u32::from_le_bytes(section))
    };
    let error = RelocationError::Write(RelocateError::OutOfReach);
    let beyond = Err(SectionError { index: 0, error });
    // R_RISCV_TPREL_LO12_I and _S: lw a0,(tp), sw a0,(tp)
    assert_eq!(relocate(RiscV, 30, 0x0002_2503, 0x7f8), Ok(0x7f82_2503));
    assert_eq!(relocate(RiscV, 31, 0x00a2_2023, 0x7f8), Ok(0x7ea2_2c23));
    for offset in [0x800, 0x1010, -0x801i64 as u64] {
        assert_eq!(relocate(RiscV, 30, 0x0002_2503, offset), beyond);
        assert_eq!(relocate(RiscV, 31, 0x00a2_2023, offset), beyond);
        assert_eq!(relocate(LoongArch64, 123, 0x29c0_004e, offset), beyond);
        assert_eq!(relocate(LoongArch64, 84, 0x29c0_004e, offset), beyond);
    }
    // the least: lw a0,-0x800(tp)
    assert_eq!(relocate(RiscV, 30, 0x0002_2503, -0x800i64 as u64), Ok(0x8002_2503));
    // lw a0,(a1) after lui and add
    assert_eq!(relocate(RiscV, 30, 0x0005_a503, 0x800), Ok(0x8005_a503));
    // R_LARCH_TLS_LE_LO12_R: st.d $t2,$tp,0 and ld.d $t2,$t2,0
    assert_eq!(relocate(LoongArch64, 123, 0x29c0_004e, 0x7f8), Ok(0x29df_e04e));
    assert_eq!(relocate(LoongArch64, 123, 0x28c0_01ce, 0x800), Ok(0x28e0_01ce));
}

/// LoongArch's sequences for 64 bits. The words are those that ld.lld 19 wrote of the same
/// instructions, with f at 0x123456789abcd and g at 0xfedcba9876543210. ld.lld writes 20 bits of
/// any value, also where the instructions of the upper ones aren't there.
#[test]
fn values_of_more_than_32_bits_need_a_sequence_for_them() {
    let addresses = Addresses {
        section: 0x201c8,
        ..ADDRESSES
    };
    let [f, g] = [0x1_2345_6789_abcd, 0xfedc_ba98_7654_3210].map(|address| Symbol {
        address,
        ..SYMBOL
    });
    let relocate = |relocations: &[Rela], words: &[u32]| {
        let mut section: Vec<u8> = words.iter().flat_map(|word| word.to_le_bytes()).collect();
        let symbols = [SYMBOL, f, g];
        relocate_section(LoongArch64, &addresses, &bytes_of(relocations), &symbols, &mut section)?;
        let words = section.chunks(4).map(|word| u32::from_le_bytes(word.try_into().unwrap()));
        Ok(words.collect::<Vec<_>>())
    };
    let beyond = |index| {
        let error = RelocationError::Value(ValueError::OutOfReach);
        SectionError { index, error }
    };
    // pcalau12i $a0; addi.d $t0,$zero; lu32i.d $t0; lu52i.d $t0,$t0
    let words = [0x1a00_0004, 0x02c0_000c, 0x1600_000c, 0x0300_018c];
    let all = [rela(0, 71, 1, 0), rela(4, 72, 1, 0), rela(8, 73, 1, 0), rela(12, 74, 1, 0)];
    let linked = vec![0x1acf_0f64, 0x02ef_340c, 0x1624_688c, 0x0300_018c];
    assert_eq!(relocate(&all, &words), Ok(linked.clone()));
    // in any order
    let [a, b, c, d] = all;
    assert_eq!(relocate(&[d, c, b, a], &words), Ok(linked));
    // without the upper bits, of another symbol or addend, or not 8 bytes after it
    assert_eq!(relocate(&[a, b], &words), Err(beyond(0)));
    assert_eq!(relocate(&[a, b, rela(8, 73, 2, 0), d], &words), Err(beyond(0)));
    assert_eq!(relocate(&[a, b, rela(8, 73, 1, 8), d], &words), Err(beyond(0)));
    assert_eq!(relocate(&[b, a, rela(12, 73, 1, 0)], &words), Err(beyond(1)));
    // lu12i.w $a0; ori $a0,$a0; lu32i.d $a0; lu52i.d $a0,$a0: anywhere
    let words = [0x1400_0004, 0x0380_0084, 0x1600_0004, 0x0300_0084];
    let all = [rela(0, 67, 2, 0), rela(4, 68, 2, 0), rela(8, 69, 2, 0), rela(12, 70, 2, 0)];
    let linked = vec![0x14ec_a864, 0x0388_4084, 0x1797_5304, 0x033f_b484];
    assert_eq!(relocate(&all, &words), Ok(linked.clone()));
    assert_eq!(relocate(&all[..2], &words), Err(beyond(0)));
    let moved = [words[2], words[1], words[0], words[3]];
    let upper_first = [rela(0, 69, 2, 0), all[1], rela(8, 67, 2, 0), all[3]];
    let [high, low, upper, last] = linked[..] else { unreachable!() };
    assert_eq!(relocate(&upper_first, &moved), Ok(vec![upper, low, high, last]));
    // each `*_HI20`, and that its upper bits suffice
    for (r_type, upper) in [
        (67, 69), (71, 73), (75, 77), (83, 85), (87, 89), (91, 93), (95, 77), (97, 77), (111, 113),
    ] {
        let entry = 0x1_2345_6789_a000;
        let far = Symbol {
            address: entry,
            address_entry: entry,
            thread_entry: entry,
            module_entry: entry,
            descriptor: entry,
            ..SYMBOL
        };
        let addresses = Addresses { module_entry: entry, ..addresses };
        let relocate = |relocations: &[Rela]| {
            let mut section = [0x1400_0004u32, 0, 0x1600_0004].map(u32::to_le_bytes).concat();
            let symbols = [SYMBOL, far];
            let of = bytes_of(relocations);
            relocate_section(LoongArch64, &addresses, &of, &symbols, &mut section)
        };
        assert_eq!(relocate(&[rela(0, r_type, 1, 0)]), Err(beyond(0)), "{r_type}");
        assert_eq!(relocate(&[rela(0, r_type, 1, 0), rela(8, upper, 1, 0)]), Ok(()), "{r_type}");
    }
    // R_LARCH_TLS_LE_HI20_R has no sequence for 64 bits, and 2^31 - 0x801 is the last of its offsets
    let at_offset = |offset| {
        let address = ADDRESSES.thread_origin + offset;
        let (relocations, mut section) = (bytes_of(&[rela(0, 121, 1, 0)]), [0x0e, 0, 0, 0x14]);
        let symbols = [SYMBOL, Symbol { address, ..SYMBOL }];
        relocate_section(LoongArch64, &addresses, &relocations, &symbols, &mut section)
    };
    assert_eq!(at_offset(0x7fff_f7ff), Ok(()));
    assert_eq!(at_offset(0x7fff_f800), Err(beyond(0)));
}

/// Pairs of RISC-V whose relocations are in another order, at 8, 12, 0 and 4, beside what ld.lld 19
/// and GNU ld 2.40 made of them.
#[test]
fn high_parts_are_found_in_any_order() {
    // auipc a0; addi a0,a0; auipc a1; addi a1,a1: f is at 0x405678, and g at 0x403abc
    let words: [u32; 4] = [0x517, 0x0005_0513, 0x597, 0x0005_8593];
    let symbols = [0, 0x40_5678, 0x40_3abc, SECTION, SECTION + 8].map(|address| Symbol {
        address,
        ..SYMBOL
    });
    // R_RISCV_PCREL_HI20 and R_RISCV_PCREL_LO12_I, whose symbols are labels of the first
    let [a, b, c, d] = [rela(0, 23, 1, 0), rela(4, 24, 3, 0), rela(8, 23, 2, 0), rela(12, 24, 4, 0)];
    let linked = [0x4517, 0x6785_0513, 0x3597, 0xab45_8593u32].map(u32::to_le_bytes).concat();
    for relocations in [[a, b, c, d], [c, d, a, b], [d, c, b, a], [b, d, a, c]] {
        let mut section = words.map(u32::to_le_bytes).concat();
        let bytes = bytes_of(&relocations);
        assert_eq!(relocate_section(RiscV, &ADDRESSES, &bytes, &symbols, &mut section), Ok(()));
        assert_eq!(section, linked);
    }
    // no high part is at the label
    let mut section = words.map(u32::to_le_bytes).concat();
    let error = RelocationError::Value(ValueError::NoHighPart);
    let bytes = bytes_of(&[d, a, b]);
    assert_eq!(
        relocate_section(RiscV, &ADDRESSES, &bytes, &symbols, &mut section),
        Err(SectionError { index: 0, error })
    );
}

/// Numbers by a seed.
struct Random(u64);

impl Random {
    fn below(&mut self, end: u64) -> u64 {
        self.0 ^= self.0 << 13;
        self.0 ^= self.0 >> 7;
        self.0 ^= self.0 << 17;
        self.0 % end
    }
}

/// The section with each value written by `row`, `value` and `write`, and the number of a pair by
/// `write_uleb128`.
fn one_by_one(
    architecture: Architecture,
    relocations: &[u8],
    symbols: &[Symbol],
    section: &mut [u8],
) {
    let mut index = 0;
    while let Some(it) = relocation_at(relocations, index) {
        index += 1;
        let Some(v) = value(architecture, &ADDRESSES, relocations, symbols, &it).unwrap() else {
            continue;
        };
        let there = &mut section[it.offset as usize..];
        if architecture.uleb128_role(it.r_type).is_some() {
            let second = relocation_at(relocations, index).unwrap();
            index += 1;
            let w = value(architecture, &ADDRESSES, relocations, symbols, &second).unwrap();
            let difference = (v as u64).wrapping_sub(w.unwrap() as u64);
            let number = match architecture {
                LoongArch64 => linker_utils::utils::read_uleb128(&mut &there[..])
                    .unwrap()
                    .wrapping_add(difference),
                _ => difference,
            };
            linker_utils::utils::write_uleb128(there, number).unwrap();
        } else {
            architecture.row(it.r_type).unwrap().write(v, there).unwrap();
        }
    }
}

#[test]
fn damaged_sections_change_nothing_or_are_written_as_one_by_one() {
    for (architecture, r_types) in [
        (AArch64, 256..600),
        (RiscV, 0..70),
        (LoongArch64, 0..130),
        (Ppc64, 0..256),
        (X86_64, 0..50),
    ] {
        let r_types: Vec<u32> = r_types.collect();
        let has_row = |&code: &u32| architecture.row(code).is_some();
        let rows: Vec<u32> = r_types.iter().copied().filter(has_row).collect();
        let mut random = Random(0x1234_5678_9abc_def1);
        let (mut written, mut rejected) = (0, 0);
        for _ in 0..10_000 {
            let len = random.below(65);
            let mut section: Vec<u8> = (0..len).map(|_| random.below(256) as u8).collect();
            let before = section.clone();
            let symbols: Vec<Symbol> = (0..1 + random.below(3))
                .map(|_| Symbol {
                    address: SECTION + 8 * random.below(8),
                    is_undefined_weak: random.below(8) == 0,
                    ..SYMBOL
                })
                .collect();
            let mut offset = 0;
            let relas: Vec<Rela> = (0..1 + random.below(3))
                .map(|_| {
                    offset = match random.below(16) {
                        0 => random.below(80),
                        1 => random.0,
                        2..6 => offset,
                        _ => offset.wrapping_add(8),
                    };
                    // mostly an `r_type` with a row
                    let known = if random.below(16) == 0 { &r_types } else { &rows };
                    let code = known[random.below(known.len() as u64) as usize];
                    let damage = u32::from(random.below(64) == 0) << random.below(32);
                    let out_of_table = u64::from(random.below(16) == 0);
                    Rela {
                        offset,
                        r_type: code ^ damage,
                        symbol: random.below(symbols.len() as u64 + out_of_table) as u32,
                        addend: 8 * random.below(8) as i64 - 32,
                    }
                })
                .collect();
            let bytes = bytes_of(&relas);
            // an error changes nothing, as `relocate_section` tests
            match relocate_section(architecture, &ADDRESSES, &bytes, &symbols, &mut section) {
                Ok(()) => {
                    written += 1;
                    let mut expected = before;
                    one_by_one(architecture, &bytes, &symbols, &mut expected);
                    assert_eq!(section, expected, "{relas:?}");
                }
                Err(error) => {
                    rejected += 1;
                    assert!(error.index < relas.len());
                }
            }
        }
        assert!(
            500 < written && 500 < rejected,
            "{architecture:?} {written} {rejected}"
        );
    }
}

/// How a relocation of RISC-V composes (RISC-V ELF psABI, "Relocation Types").
#[derive(Clone, Copy, PartialEq)]
enum Composing {
    Sets,
    Changes,
    Alone,
}

/// Types of RISC-V with the bytes that they write: `R_RISCV_32` and `64`, and those that change or
/// set the number that is there.
const NUMBERS: [(u32, u64, Composing); 13] = [
    (1, 4, Composing::Alone),
    (2, 8, Composing::Alone),
    (33, 1, Composing::Changes),
    (34, 2, Composing::Changes),
    (35, 4, Composing::Changes),
    (36, 8, Composing::Changes),
    (37, 1, Composing::Changes),
    (38, 2, Composing::Changes),
    (39, 4, Composing::Changes),
    (40, 8, Composing::Changes),
    (54, 1, Composing::Sets),
    (55, 2, Composing::Sets),
    (56, 4, Composing::Sets),
];

#[test]
fn the_first_overlap_is_found_in_any_order() {
    let mut random = Random(0x2545_f491_4f6c_dd1d);
    let symbols = [Symbol::default(), SYMBOL];
    let (mut written, mut rejected) = (0, 0);
    for _ in 0..20_000 {
        let count = 1 + random.below(24);
        // from close together to far apart
        let places = 8 << random.below(10);
        let fields: Vec<_> = (0..count)
            .map(|_| (random.below(places), NUMBERS[random.below(13) as usize]))
            .collect();
        let relocations: Vec<Rela> = fields
            .iter()
            .map(|&(offset, (r_type, ..))| Rela {
                offset,
                r_type,
                symbol: 1,
                addend: 0,
            })
            .collect();
        let overlaps = |&index: &usize| {
            let (offset, (_, len, how)) = fields[index];
            fields[..index].iter().any(|&(other, (_, its_len, its))| {
                let composes = other == offset
                    && its_len == len
                    && how == Composing::Changes
                    && its != Composing::Alone;
                other < offset + len && offset < other + its_len && !composes
            })
        };
        let expected = match (0..fields.len()).find(overlaps) {
            None => Ok(()),
            Some(index) => Err(SectionError {
                index,
                error: RelocationError::Overlaps,
            }),
        };
        let mut section = vec![0; places as usize + 8];
        let bytes = bytes_of(&relocations);
        let result = relocate_section(RiscV, &ADDRESSES, &bytes, &symbols, &mut section);
        assert_eq!(result, expected, "{relocations:?}");
        match result {
            Ok(()) => written += 1,
            Err(_) => rejected += 1,
        }
    }
    assert!(2_000 < written && 2_000 < rejected, "{written} {rejected}");
}

/// As GNU as writes them for x86-64: what may be a short jump after all others. The value of each is
/// its number, so that a field that another wrote would differ.
#[test]
fn two_ascending_runs_are_written_unless_fields_overlap() {
    let mut random = Random(0x9e37_79b9_7f4a_7c15);
    let symbols = [Symbol::default(), Symbol::default()];
    let (mut written, mut rejected) = (0, 0);
    for _ in 0..20_000 {
        let count = 2 + random.below(30);
        let mut end = 0;
        let all: Vec<Rela> = (0..count)
            .map(|number| {
                // R_X86_64_64, R_X86_64_32; few begin before the field before them ends
                let (r_type, len) = [(1, 8), (10, 4)][random.below(2) as usize];
                let offset = end - if random.below(15) == 0 { end.min(4) } else { 0 };
                end = offset + len + random.below(9);
                rela(offset, r_type, 1, number as i64)
            })
            .collect();
        let (second, first): (Vec<Rela>, Vec<Rela>) =
            all.iter().partition(|_| random.below(3) == 0);
        let runs = [first, second].concat();
        let [ascending, in_runs] = [all, runs].map(|relas| {
            let mut section = vec![0; end as usize + 8];
            let bytes = bytes_of(&relas);
            relocate_section(X86_64, &ADDRESSES, &bytes, &symbols, &mut section).map(|()| section)
        });
        match (ascending, in_runs) {
            (Ok(section), Ok(other)) => {
                assert_eq!(section, other);
                written += 1;
            }
            (Err(_), Err(error)) => {
                assert_eq!(error.error, RelocationError::Overlaps);
                rejected += 1;
            }
            (ascending, in_runs) => panic!("{ascending:?} {in_runs:?}"),
        }
    }
    assert!(2_000 < written && 2_000 < rejected, "{written} {rejected}");
}

#[test]
fn a_hundred_thousand_descending_relocations_are_written() {
    let symbols = [Symbol::default(), SYMBOL];
    let all: Vec<Rela> = (0..100_000)
        .map(|index| Rela {
            offset: 8 * index,
            r_type: 1,
            symbol: 1,
            addend: -8 * index as i64,
        })
        .collect();
    let [ascending, descending] = [all.clone(), all.into_iter().rev().collect()].map(|relas| {
        let mut section = vec![0; 800_000];
        let bytes = bytes_of(&relas);
        let result = relocate_section(X86_64, &ADDRESSES, &bytes, &symbols, &mut section);
        assert_eq!(result, Ok(()));
        section
    });
    assert_eq!(ascending, descending);
    assert_eq!(ascending[8..16], (0x40_5678_u64 - 8).to_le_bytes());
}

#[test]
fn needs_are_those_of_the_formulas() {
    let entry = |class| Some(Entry { class, addend: 0 });
    let of = |architecture, r_type, addend, is_thread_local| {
        needs(architecture, r_type, addend, is_thread_local).unwrap()
    };
    for (architecture, r_type, is_thread_local, expected) in [
        (X86_64, 42, false, entry(EntryClass::Address)),
        (X86_64, 22, true, entry(EntryClass::ThreadOffset)),
        (X86_64, 19, true, entry(EntryClass::ModuleOffset)),
        (X86_64, 20, true, entry(EntryClass::Module)),
        (X86_64, 34, true, entry(EntryClass::Descriptor)),
        (X86_64, 25, false, None),
        (RiscV, 62, true, entry(EntryClass::Descriptor)),
        (RiscV, 63, true, None),
        (RiscV, 24, false, None),
        (LoongArch64, 76, false, entry(EntryClass::Address)),
        (LoongArch64, 76, true, entry(EntryClass::ModuleOffset)),
        (LoongArch64, 95, true, entry(EntryClass::ModuleOffset)),
        (Ppc64, 60, false, entry(EntryClass::Address)),
        (Ppc64, 10, false, None),
    ] {
        assert_eq!(
            of(architecture, r_type, 0, is_thread_local).entry,
            expected,
            "{r_type}"
        );
    }
    // the entry is of S + A in the instructions of AArch64 and PowerPC64
    assert_eq!(of(AArch64, 312, 8, false).entry.unwrap().addend, 8);
    assert_eq!(of(AArch64, 315, 8, false).entry.unwrap().addend, 0);
    assert_eq!(of(Ppc64, 15, 8, false).entry.unwrap().addend, 8);
    assert_eq!(of(X86_64, 9, -4, false).entry.unwrap().addend, 0);
    // branches; R_PPC64_PLT16_LO_DS loads the address itself
    assert!(of(RiscV, 19, 0, false).is_branch && of(RiscV, 19, 0, false).may_use_stub);
    assert!(!of(X86_64, 4, 0, false).is_branch && of(X86_64, 4, 0, false).may_use_stub);
    assert!(!of(X86_64, 2, 0, false).may_use_stub && !of(Ppc64, 60, 0, false).may_use_stub);
    // in a shared library that defines the symbol GNU ld 2.40 and mold 2.37 make no entry of the PLT
    // for R_RISCV_BRANCH, JAL, RVC_BRANCH, RVC_JUMP and R_AARCH64_TSTBR14, CONDBR19 (where they link
    // it); ld.lld 19 and GNU ld 2.44 make one for R_LARCH_B16, B21 and R_PPC64_REL14, and all of them
    // for calls
    let bound = [
        (RiscV, 16),
        (RiscV, 17),
        (RiscV, 44),
        (RiscV, 45),
        (AArch64, 279),
        (AArch64, 280),
    ];
    for architecture in [AArch64, RiscV, LoongArch64, Ppc64, X86_64] {
        for r_type in 0..1200 {
            let is = needs(architecture, r_type, 0, false).is_some_and(|n| n.stub_only_if_undefined);
            assert_eq!(is, bound.contains(&(architecture, r_type)), "{r_type}");
        }
    }
    // words: R_X86_64_64, R_AARCH64_ABS64, R_RISCV_64, R_LARCH_64, R_PPC64_ADDR64
    for (architecture, r_type) in [
        (X86_64, 1),
        (AArch64, 257),
        (RiscV, 2),
        (LoongArch64, 2),
        (Ppc64, 38),
    ] {
        let word = of(architecture, r_type, 0, false);
        assert!(word.is_word && word.depends_on_load, "{r_type}");
    }
    // R_X86_64_32, R_AARCH64_MOVW_UABS_G0, R_RISCV_HI20 depend on the load address;
    // R_AARCH64_ADD_ABS_LO12_NC, R_RISCV_LO12_I, R_RISCV_ADD32, R_LARCH_PCALA_LO12 don't
    for (architecture, r_type, expected) in [
        (X86_64, 10, true),
        (AArch64, 263, true),
        (RiscV, 26, true),
        (AArch64, 277, false),
        (RiscV, 27, false),
        (RiscV, 35, false),
        (LoongArch64, 72, false),
        (X86_64, 2, false),
    ] {
        assert_eq!(
            of(architecture, r_type, 0, false).depends_on_load,
            expected,
            "{r_type}"
        );
    }
    assert_eq!(needs(X86_64, 200, 0, false), None);
}
