// SPDX-License-Identifier: MIT OR Apache-2.0
//! Relocations as ld.lld writes them, and where it stops to accept them: the words of
//! `data/linked.txt` and `data/bounds.txt`, which LLVM made. Those of `data/gnu.txt` are GNU ld's
//! (`tools/oracle relocations`).

use sathunne::*;

/// What both differ in: a type, and why. docs/DIFFERENCES.md says more of each.
const DIFFERENT: [(&str, usize, &str); 12] = [
    ("R_AARCH64_MOVW_PREL_G3", 1, "lld leaves MOVZ where it is"),
    ("R_AARCH64_TSTBR14", 2, "lld drops the two lowest bits"),
    ("R_RISCV_32", 2, "lld has no check"),
    ("R_RISCV_LO12_I", 2, "lld checks only the high half"),
    ("R_RISCV_LO12_S", 2, "lld checks only the high half"),
    ("R_RISCV_TPREL_LO12_I", 2, "lld checks only the high half"),
    ("R_RISCV_TPREL_LO12_S", 2, "lld checks only the high half"),
    ("R_RISCV_SET32", 1, "lld asks for 32 signed bits"),
    ("R_RISCV_32_PCREL", 1, "lld asks for 32 signed bits"),
    ("R_LARCH_32", 2, "lld has no check"),
    ("R_PPC64_GOT16", 1, "lld accepts 16 unsigned bits"),
    ("R_PPC64_TOC16", 1, "lld accepts 16 unsigned bits"),
];

fn bytes_of(text: &str) -> Vec<u8> {
    let digits = |at| u8::from_str_radix(&text[at..at + 2], 16).expect("hexadecimal");
    (0..text.len()).step_by(2).map(digits).collect()
}

fn architecture_of(name: &str) -> Architecture {
    match name {
        "aarch64" => Architecture::AArch64,
        "riscv64" => Architecture::RiscV,
        "loongarch64" => Architecture::LoongArch64,
        "ppc64" => Architecture::Ppc64,
        "x86_64" => Architecture::X86_64,
        other => panic!("{other} is not a machine"),
    }
}

fn address(text: &str) -> u64 {
    u64::from_str_radix(text, 16).expect("an address")
}

/// The fields of each line that is no comment.
fn rows<const N: usize>(data: &str) -> Vec<[&str; N]> {
    let lines = data.lines().filter(|line| !line.starts_with('#'));
    lines
        .map(|line| {
            let fields: Vec<_> = line.split(' ').collect();
            fields.try_into().expect("as many fields")
        })
        .collect()
}

/// The offset and the type of a relocation of `data/linked.txt`, and what its value is computed from.
fn linked(architecture: Architecture, text: &str, pc: &str, target: &str) -> (u64, u32, Operands) {
    let (offset, r_type) = text.split_once(':').expect("an offset and a type");
    let offset: u64 = offset.parse().expect("an offset");
    let r_type = r_type.parse().expect("a type");
    // a RISC-V low part has the place of its high part
    let from_pc = if architecture == Architecture::RiscV {
        0
    } else {
        offset
    };
    let operands = Operands {
        symbol: address(target),
        plt_entry: address(target),
        place: address(pc) + from_pc,
        has_plt_entry: true,
        ..Operands::default()
    };
    (offset, r_type, operands)
}

#[test]
fn relocated_words_are_those_of_lld() {
    let rows = rows(include_str!("data/linked.txt"));
    assert_eq!(rows.len(), 631);
    for [machine, relocations, pc, target, before, after] in rows {
        let architecture = architecture_of(machine);
        let mut section = bytes_of(before);
        let relocation = |text: &str| {
            let (offset, r_type, operands) = linked(architecture, text, pc, target);
            let value = value(architecture, r_type, &operands).expect("it has a value");
            Relocation {
                offset,
                value,
                r_type,
            }
        };
        let relocations: Vec<_> = relocations.split(',').map(relocation).collect();
        let done = relocate_all(architecture, &mut section, &relocations);
        assert_eq!(done, Ok(()), "{machine} {pc} {target} {before}");
        assert_eq!(section, bytes_of(after), "{machine} {pc} {target} {before}");
    }
}

/// From each word that lld wrote the symbol's address is read back, as far as it is there.
#[test]
fn words_of_lld_lead_to_their_targets() {
    let (mut whole, mut without) = (0, Vec::new());
    for [machine, relocations, pc, target, _, after] in rows(include_str!("data/linked.txt")) {
        let architecture = architecture_of(machine);
        let section = bytes_of(after);
        let target_address = address(target);
        let mut joined: Option<FieldValue> = None;
        for text in relocations.split(',') {
            let (offset, r_type, operands) = linked(architecture, text, pc, target);
            let known = read_value(architecture, r_type, &section[offset as usize..])
                .and_then(|value| solve(architecture, r_type, &value, &operands));
            let found = match known {
                Ok((Reference::Symbol | Reference::PltEntry, found)) => found,
                Err(Status::NoAddress) => {
                    without.push(relocation_name(architecture, r_type).expect("a name"));
                    continue;
                }
                other => panic!("{machine} {text}: {other:?}"),
            };
            assert!(
                found.is_of(target_address),
                "{machine} {text} {after} {found:?}"
            );
            let other = target_address.wrapping_add(1 << found.first_bit);
            assert!(!found.is_of(other), "{machine} {text} {after} {found:?}");
            joined = Some(match joined {
                Some(high) => join(&high, &found).unwrap_or(found),
                None => found,
            });
        }
        if let Some(number) = joined.and_then(|known| known.number()) {
            assert_eq!(number, target_address, "{machine} {relocations} {after}");
            whole += 1;
        }
    }
    assert!(whole > 0, "some words have their target whole");
    // of LoongArch's upper halves of 64-bit addresses there is no inverse
    without.sort();
    without.dedup();
    assert_eq!(without, ["R_LARCH_PCALA64_HI12", "R_LARCH_PCALA64_LO20"]);
}

/// What lld wrote is the relocation's field: all other bits are those of the object.
#[test]
fn words_of_lld_differ_in_their_fields_only() {
    for [machine, relocations, pc, target, before, after] in rows(include_str!("data/linked.txt")) {
        let architecture = architecture_of(machine);
        let (object, section) = (bytes_of(before), bytes_of(after));
        let mut others = vec![0xff_u8; section.len()];
        for text in relocations.split(',') {
            let (offset, r_type, _) = linked(architecture, text, pc, target);
            let field = object[offset as usize..]
                .iter()
                .zip(&section[offset as usize..]);
            let (a, b): (Vec<u8>, Vec<u8>) = field.take(8).unzip();
            let bits = field_bits(architecture, r_type, &a).expect("the field is there");
            let changed = |bytes: &[u8]| {
                let shifts = (0..64).step_by(8);
                let words = bytes.iter().zip(shifts);
                words.fold(0, |sum, (byte, shift)| sum | u64::from(*byte) << shift)
            };
            for (at, byte) in bits.to_le_bytes().iter().enumerate().take(a.len()) {
                others[offset as usize + at] &= !byte;
            }
            let is_alone = (changed(&a) ^ changed(&b)) & !bits == 0;
            assert_eq!(
                same_but_for(architecture, r_type, &a, &b),
                is_alone,
                "{machine} {after}"
            );
        }
        for (at, mask) in others.iter().enumerate() {
            assert_eq!(
                object[at] & mask,
                section[at] & mask,
                "{machine} {relocations} {after}"
            );
        }
    }
}

#[test]
fn bounds_are_those_of_lld() {
    let rows = rows(include_str!("data/bounds.txt"));
    let mut different: Vec<&str> = Vec::new();
    for [machine, r_type, name, place, target, before, after] in rows {
        let architecture = architecture_of(machine);
        let r_type = r_type.parse().expect("a type");
        assert_eq!(relocation_name(architecture, r_type).as_deref(), Ok(name));
        let operands = Operands {
            symbol: address(target),
            plt_entry: address(target),
            got_entry: address(target),
            place: address(place),
            got_base: 0x34_0000_8000,
            has_plt_entry: true,
            has_got_entry: true,
            has_tls_base: true,
            ..Operands::default()
        };
        let value = value(architecture, r_type, &operands).expect("it has a value");
        let mut section = bytes_of(before);
        let is_accepted = relocate(architecture, r_type, value, &mut section).is_ok();
        if !is_accepted {
            assert_eq!(section, bytes_of(before), "{name} {value}");
        }
        let is_same = match after {
            "rejected" => !is_accepted,
            _ => is_accepted && section == bytes_of(after),
        };
        if !is_same {
            different.push(name);
        }
    }
    for (name, times, why) in DIFFERENT {
        let found = different.iter().filter(|&&it| it == name).count();
        assert_eq!(found, times, "{name}: {why}");
    }
    let unlisted = different
        .iter()
        .find(|&&name| DIFFERENT.iter().all(|listed| listed.0 != name));
    assert_eq!(unlisted, None);
}

/// GOT entries of relocations that the original library has no rows of, by ld.lld: the TLS
/// descriptors of RISC-V, and the entry of a symbol of PowerPC64.
#[test]
fn words_of_got_entries_are_those_of_lld() {
    // R_RISCV_TLSDESC_HI20, R_RISCV_TLSDESC_LOAD_LO12, R_RISCV_TLSDESC_ADD_LO12
    let descriptor: &[(usize, u32)] = &[(0, 62), (4, 63), (8, 64)];
    // R_PPC64_GOT_PCREL34
    let entry: &[(usize, u32)] = &[(0, 133)];
    let (auipc, pld) = ("170500008335050013050500", "00001004000060e4");
    #[rustfmt::skip]
    let rows = [
        (Architecture::RiscV, descriptor, 0x100b0, 0x20008, auipc, "17050100833585f5130585f5"),
        (Architecture::RiscV, descriptor, 0x100b0, 0x12808, auipc, "172500008335857513058575"),
        (Architecture::RiscV, descriptor, 0x100b0, 0x7fff8008, auipc, "1785fe7f833585f5130585f5"),
        (Architecture::Ppc64, entry, 0x100101c8, 0x100201d8, pld, "01001004100060e4"),
    ];
    for (architecture, relocations, place, got_entry, before, after) in rows {
        let operands = Operands {
            place,
            got_entry,
            has_got_entry: true,
            ..Operands::default()
        };
        let mut section = bytes_of(before);
        for &(offset, r_type) in relocations {
            let value = value(architecture, r_type, &operands).expect("it has a value");
            let done = relocate(architecture, r_type, value, &mut section[offset..]);
            assert_eq!(done, Ok(()), "{r_type} at {place:#x}");
        }
        assert_eq!(section, bytes_of(after), "{place:#x}");
    }
    // R_RISCV_TLSDESC_CALL
    let none = value(Architecture::RiscV, 65, &Operands::default());
    assert_eq!(none, Err(Status::NoValue));
}

/// Relocations that ld.lld 19 doesn't know, by GNU ld: PowerPC64's of what the PLT has, and of
/// prefixed instructions with a part of an address or with TLS; LoongArch's entries for TLS by
/// `pcaddi`.
#[test]
fn words_are_those_of_gnu_ld() {
    let rows = rows::<11>(include_str!("data/gnu.txt"));
    assert_eq!(rows.len(), 37);
    for [machine, r_type, name, addresses @ .., before, after] in rows {
        let [place, symbol, got_entry, plt_entry, got_base, tls_base] = addresses.map(address);
        let architecture = architecture_of(machine);
        let r_type = r_type.parse().expect("a type");
        assert_eq!(relocation_name(architecture, r_type).as_deref(), Ok(name));
        let operands = Operands {
            symbol,
            place,
            got_entry,
            plt_entry,
            got_base,
            tls_base,
            has_got_entry: true,
            has_plt_entry: true,
            has_tls_base: true,
            ..Operands::default()
        };
        let value = value(architecture, r_type, &operands).expect("it has a value");
        let mut section = bytes_of(before);
        let done = relocate(architecture, r_type, value, &mut section);
        assert_eq!(
            (done, section),
            (Ok(()), bytes_of(after)),
            "{name} at {place:#x}"
        );
    }
}

/// PowerPC64's relocations that only mark an instruction (64-bit ELF V2 ABI for Power, "Relocation
/// Types").
#[test]
fn marks_have_no_value() {
    let marks = [
        (118, "R_PPC64_ENTRY"),
        (119, "R_PPC64_PLTSEQ"),
        (120, "R_PPC64_PLTCALL"),
        (121, "R_PPC64_PLTSEQ_NOTOC"),
        (122, "R_PPC64_PLTCALL_NOTOC"),
        (123, "R_PPC64_PCREL_OPT"),
    ];
    for (r_type, name) in marks {
        let named = relocation_name(Architecture::Ppc64, r_type);
        assert_eq!(named.as_deref(), Ok(name));
        let none = value(Architecture::Ppc64, r_type, &Operands::default());
        assert_eq!(none, Err(Status::NoValue), "{name}");
        let mut section = [0xff; 4];
        let done = relocate(Architecture::Ppc64, r_type, -1, &mut section);
        assert_eq!((done, section), (Ok(()), [0xff; 4]), "{name}");
    }
}

/// `paddi 3, 4, VALUE, 0` and `pld 3, VALUE(4), 0` by llvm-mc 19.
#[test]
fn prefixed_words_are_those_of_llvm() {
    let rows: [(i64, &str, &str); 8] = [
        (1, "0000000601006438", "00000004010064e4"),
        (-1, "ffff0306ffff6438", "ffff0304ffff64e4"),
        (8589934591, "ffff0106ffff6438", "ffff0104ffff64e4"),
        (-8589934592, "0000020600006438", "00000204000064e4"),
        (305419896, "3412000678566438", "34120004785664e4"),
        (-65536, "ffff030600006438", "ffff0304000064e4"),
        (32768, "0000000600806438", "00000004008064e4"),
        (-32769, "ffff0306ff7f6438", "ffff0304ff7f64e4"),
    ];
    for (number, paddi, pld) in rows {
        for (before, after) in [("0000000600006438", paddi), ("00000004000064e4", pld)] {
            let mut pair = bytes_of(before);
            let value = number as u64 & 0x3_ffff_ffff;
            assert_eq!(write(Ppc64Form::Prefixed, value, false, &mut pair), Ok(()));
            assert_eq!(pair, bytes_of(after), "{number}");
            assert_eq!(read(Ppc64Form::Prefixed, &pair), Ok((value, false)));
        }
    }
}

/// A general-dynamic TLS sequence of GNU as's, and what GNU ld linked of it into a program.
#[test]
fn a_sequence_that_gnu_ld_rewrote_is_recognised() {
    let original = bytes_of("66488d3d00000000666648e800000000c3");
    let linked = bytes_of("64488b042500000000488d8048f3ffffc3");
    let windows = Windows {
        original: &original,
        offset: 4,
        others: &[],
        linked: &linked,
    };
    // R_X86_64_TLSGD, and R_X86_64_TPOFF32
    let found = recognise(Architecture::X86_64, 19, windows).expect("it is no long window");
    assert_eq!(found.len(), 1);
    let choice = &found[0].choice;
    assert_eq!(choice.rewrite, X86_64Rewrite::TlsGdToLocalExec.into());
    assert_eq!(choice.relocation, 23);
    assert_eq!(choice.modifier, Modifier::SkipNextRelocation);
    assert_eq!(choice.skipped_offset, Some(8));
    assert_eq!(found[0].offset, 12);
    let value = found[0]
        .value
        .expect("the field has the offset from the thread pointer");
    assert_eq!(value.number(), Some(-3256i64 as u64));

    let mut facts = LinkFacts {
        is_local: true,
        is_executable: true,
        group_fits: true,
        ..LinkFacts::default()
    };
    facts.operands.addend = -4;
    let chosen = recognise_chosen(Architecture::X86_64, 19, windows, &facts);
    assert_eq!(chosen.as_ref(), Ok(&found[0]));
    facts.is_executable = false;
    let other = recognise_chosen(Architecture::X86_64, 19, windows, &facts);
    assert_eq!(other, Err(Status::LeavesOtherBytes));

    // with another operation on `%rax`
    let mut altered = linked.clone();
    altered[10] ^= 8;
    let windows = Windows {
        linked: &altered,
        ..windows
    };
    assert_eq!(recognise(Architecture::X86_64, 19, windows), Ok(Vec::new()));
    let long = [0; 65];
    let windows = Windows {
        original: &long,
        ..windows
    };
    let error = recognise(Architecture::X86_64, 19, windows);
    assert_eq!(error, Err(Status::WindowTooLong));
}
