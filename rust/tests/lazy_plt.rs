// SPDX-License-Identifier: MIT OR Apache-2.0
//! Lazy PLTs against those of ld.lld 19.1 and GNU ld 2.40, of a shared library that calls three functions
//! of others (`-shared -z lazy`), or an executable that also takes the second one's address.

use linker_utils::elf::{Architecture, RelocateError};
use linker_utils::output::{LazyEntry, LazyForm, LazyPlt, StubError, StubKind, Target};

/// What a linker made: `.plt`, or PowerPC64's `.glink`, and `.got.plt`, or PowerPC64's `.plt`. Each
/// entry has its form.
struct Linked {
    linker: &'static str,
    architecture: Architecture,
    forms: [LazyForm; 3],
    plt: u64,
    code: &'static str,
    got_plt: u64,
    words: &'static str,
    dynamic: u64,
}

const LINKED: [Linked; 16] = [
    Linked {
        linker: "ld.lld",
        architecture: Architecture::X86_64,
        forms: [LazyForm::Plain; 3],
        plt: 0x1330,
        code: "ff35f2200000ff25f42000000f1f4000ff25f22000006800000000e9e0ffffff\
            ff25ea2000006801000000e9d0ffffffff25e22000006802000000e9c0ffffff",
        got_plt: 0x3420,
        words: "702300000000000000000000000000000000000000000000\
            461300000000000056130000000000006613000000000000",
        dynamic: 0x2370,
    },
    Linked {
        linker: "GNU ld",
        architecture: Architecture::X86_64,
        forms: [LazyForm::Plain; 3],
        plt: 0x1000,
        code: "ff35ea1f0000ff25ec1f00000f1f4000ff25ea1f00006800000000e9e0ffffff\
            ff25e21f00006801000000e9d0ffffffff25da1f00006802000000e9c0ffffff",
        got_plt: 0x2fe8,
        words: "e82e00000000000000000000000000000000000000000000\
            161000000000000026100000000000003610000000000000",
        dynamic: 0x2ee8,
    },
    Linked {
        linker: "ld.lld",
        architecture: Architecture::AArch64,
        forms: [LazyForm::Plain; 3],
        plt: 0x10330,
        code: "f07bbfa910010090112242f91002119120021fd61f2003d51f2003d51f2003d5\
            10010090112642f91022119120021fd610010090112a42f91042119120021fd6\
            10010090112e42f91062119120021fd6",
        got_plt: 0x30430,
        words: "000000000000000000000000000000000000000000000000\
            300301000000000030030100000000003003010000000000",
        dynamic: 0x20380,
    },
    Linked {
        linker: "GNU ld",
        architecture: Architecture::AArch64,
        forms: [LazyForm::Plain; 3],
        plt: 0x240,
        code: "f07bbfa9f00000f011fe47f910e23f9120021fd61f2003d51f2003d51f2003d5\
            10010090110240f91002009120021fd610010090110640f91022009120021fd6\
            10010090110a40f91042009120021fd6",
        got_plt: 0x1ffe8,
        words: "000000000000000000000000000000000000000000000000\
            400200000000000040020000000000004002000000000000",
        dynamic: 0x1fee0,
    },
    Linked {
        linker: "ld.lld",
        architecture: Architecture::RiscV,
        forms: [LazyForm::Plain; 3],
        plt: 0x1340,
        code: "972300003303c34103be0310130343fd938203101353130083b2820067000e00\
            172e0000033e0e0f67030e0013000000172e0000033e8e0e67030e0013000000\
            172e0000033e0e0e67030e0013000000",
        got_plt: 0x3440,
        words: "00000000000000000000000000000000\
            401300000000000040130000000000004013000000000000",
        dynamic: 0x2390,
    },
    Linked {
        linker: "GNU ld", // whose first word is -1
        architecture: Architecture::RiscV,
        forms: [LazyForm::Plain; 3],
        plt: 0x260,
        code: "972300003303c34103be03da130343fd938203da1353130083b2820067000e00\
            172e0000033e0ed967030e0013000000172e0000033e8ed867030e0013000000\
            172e0000033e0ed867030e0013000000",
        got_plt: 0x2000,
        words: "00000000000000000000000000000000\
            600200000000000060020000000000006002000000000000",
        dynamic: 0x1ed0,
    },
    Linked {
        linker: "ld.lld",
        architecture: Architecture::LoongArch64,
        forms: [LazyForm::Plain; 3],
        plt: 0x10330,
        code: "0e04001cadbd1100cf01c428ad51ff02cc01c402ad0545008c21c028e001004c\
            0f04001cefc1c328ed01004c000040030f04001cefa1c328ed01004c00004003\
            0f04001cef81c328ed01004c00004003",
        got_plt: 0x30430,
        words: "00000000000000000000000000000000\
            300301000000000030030100000000003003010000000000",
        dynamic: 0x20380,
    },
    Linked {
        linker: "ld.lld", // whose `.plt` has no contents: these are what glibc makes of DT_PPC64_GLINK
        architecture: Architecture::Ppc64,
        forms: [LazyForm::Plain; 3],
        plt: 0x1038c,
        code: "a602087c05009f42a602687da603087c50608b7dccff0c3882f000782c008be9\
            145a6c7d00008be908006be9a603897d2004804e1c01020000000000c4ffff4b\
            c0ffff4bbcffff4b",
        got_plt: 0x304b0,
        words: "00000000000000000000000000000000\
            c803010000000000cc03010000000000d003010000000000",
        dynamic: 0x203d8,
    },
    Linked {
        linker: "ld.lld -z force-ibt",
        architecture: Architecture::X86_64,
        forms: [LazyForm::Landing; 3],
        plt: 0x13c0,
        code: "ff3522210000ff25242100000f1f4000f30f1efa6800000000e9e2ffffff6690\
            f30f1efa6801000000e9d2ffffff6690f30f1efa6802000000e9c2ffffff6690",
        got_plt: 0x34e0,
        words: "302400000000000000000000000000000000000000000000\
            d013000000000000e013000000000000f013000000000000",
        dynamic: 0x2430,
    },
    Linked {
        linker: "GNU ld, of objects with the property",
        architecture: Architecture::X86_64,
        forms: [LazyForm::Landing; 3],
        plt: 0x1000,
        code: "ff35ea2f0000ff25ec2f00000f1f4000f30f1efa6800000000e9e2ffffff6690\
            f30f1efa6801000000e9d2ffffff6690f30f1efa6802000000e9c2ffffff6690",
        got_plt: 0x3fe8,
        words: "e83e00000000000000000000000000000000000000000000\
            101000000000000020100000000000003010000000000000",
        dynamic: 0x3ee8,
    },
    Linked {
        linker: "ld.lld -z force-bti, an executable",
        architecture: Architecture::AArch64,
        forms: [LazyForm::Landing, LazyForm::LandingEntry, LazyForm::Landing],
        plt: 0x2103b0,
        code: "5f2403d5f07bbfa910010090118642f91022149120021fd61f2003d51f2003d5\
            10010090118a42f91042149120021fd61f2003d51f2003d55f2403d510010090\
            118e42f91062149120021fd61f2003d510010090119242f91082149120021fd6\
            1f2003d51f2003d5",
        got_plt: 0x2304f8,
        words: "000000000000000000000000000000000000000000000000\
            b003210000000000b003210000000000b003210000000000",
        dynamic: 0x220418,
    },
    Linked {
        linker: "GNU ld -z force-bti, an executable",
        architecture: Architecture::AArch64,
        forms: [LazyForm::LandingEntry; 3],
        plt: 0x400350,
        code: "5f2403d5f07bbfa9f00000f011fe47f910e23f9120021fd61f2003d51f2003d5\
            5f2403d510010090110240f91002009120021fd61f2003d55f2403d510010090\
            110640f91022009120021fd61f2003d55f2403d510010090110a40f910420091\
            20021fd61f2003d5",
        got_plt: 0x41ffe8,
        words: "000000000000000000000000000000000000000000000000\
            500340000000000050034000000000005003400000000000",
        dynamic: 0x41feb0,
    },
    Linked {
        linker: "ld.lld -z pac-plt",
        architecture: Architecture::AArch64,
        forms: [LazyForm::Authenticated; 3],
        plt: 0x103c0,
        code: "f07bbfa910010090117e42f910e2139120021fd61f2003d51f2003d51f2003d5\
            10010090118242f9100214919f2103d520021fd61f2003d510010090118642f9\
            102214919f2103d520021fd61f2003d510010090118a42f9104214919f2103d5\
            20021fd61f2003d5",
        got_plt: 0x304e8,
        words: "000000000000000000000000000000000000000000000000\
            c003010000000000c003010000000000c003010000000000",
        dynamic: 0x20428,
    },
    Linked {
        linker: "GNU ld -z pac-plt",
        architecture: Architecture::AArch64,
        forms: [LazyForm::Authenticated; 3],
        plt: 0x240,
        code: "f07bbfa9f00000f011fe47f910e23f9120021fd61f2003d51f2003d51f2003d5\
            10010090110240f9100200919f2103d520021fd61f2003d510010090110640f9\
            102200919f2103d520021fd61f2003d510010090110a40f9104200919f2103d5\
            20021fd61f2003d5",
        got_plt: 0x1ffe8,
        words: "000000000000000000000000000000000000000000000000\
            400200000000000040020000000000004002000000000000",
        dynamic: 0x1fed0,
    },
    Linked {
        linker: "ld.lld -z force-bti -z pac-plt, an executable",
        architecture: Architecture::AArch64,
        forms: [
            LazyForm::AuthenticatedLanding,
            LazyForm::AuthenticatedLandingEntry,
            LazyForm::AuthenticatedLanding,
        ],
        plt: 0x2103b0,
        code: "5f2403d5f07bbfa910010090118e42f91062149120021fd61f2003d51f2003d5\
            10010090119242f9108214919f2103d520021fd61f2003d55f2403d510010090\
            119642f910a214919f2103d520021fd610010090119a42f910c214919f2103d5\
            20021fd61f2003d5",
        got_plt: 0x230508,
        words: "000000000000000000000000000000000000000000000000\
            b003210000000000b003210000000000b003210000000000",
        dynamic: 0x220418,
    },
    Linked {
        linker: "GNU ld -z force-bti -z pac-plt, an executable",
        architecture: Architecture::AArch64,
        forms: [LazyForm::AuthenticatedLandingEntry; 3],
        plt: 0x400350,
        code: "5f2403d5f07bbfa9f00000f011fe47f910e23f9120021fd61f2003d51f2003d5\
            5f2403d510010090110240f9100200919f2103d520021fd65f2403d510010090\
            110640f9102200919f2103d520021fd65f2403d510010090110a40f910420091\
            9f2103d520021fd6",
        got_plt: 0x41ffe8,
        words: "000000000000000000000000000000000000000000000000\
            500340000000000050034000000000005003400000000000",
        dynamic: 0x41fea0,
    },
];

fn bytes(hex: &str) -> Vec<u8> {
    let digits = |at: usize| u8::from_str_radix(&hex[at..at + 2], 16).unwrap();
    (0..hex.len()).step_by(2).map(digits).collect()
}

#[test]
fn lazy_plts_are_those_of_linkers() {
    for linked in &LINKED {
        let form = |index: usize| {
            LazyPlt::of_form(linked.architecture, linked.forms[index]).unwrap()
        };
        let plt = form(0);
        let (header_len, entry_len) = (plt.header_len() as usize, plt.entry_len() as usize);
        let expected = bytes(linked.code);
        assert_eq!(expected.len(), header_len + 3 * entry_len);
        assert_eq!(linked.plt % plt.alignment, 0);
        let mut code = vec![0x55; expected.len() + 1];
        let mut words = Vec::new();
        plt.write_header(linked.plt, linked.got_plt, &mut code)
            .unwrap();
        assert_eq!(code[header_len..], vec![0x55; 3 * entry_len + 1]);
        for index in 0.. {
            let Some(word) = plt.header_word(index, linked.dynamic, linked.plt) else {
                break;
            };
            words.push(word);
        }
        assert_eq!(words.len(), plt.header_words.len());
        for index in 0..3 {
            let at = header_len + index * entry_len;
            let entry = LazyEntry {
                address: linked.plt + at as u64,
                word: linked.got_plt + 8 * words.len() as u64,
                header: linked.plt,
                index: index as u64,
            };
            let plt = form(index);
            plt.write_entry(&entry, &mut code[at..]).unwrap();
            words.push(plt.entry_word(entry.address, entry.header, linked.dynamic));
        }
        let name = (linked.linker, linked.architecture);
        assert_eq!(code[..expected.len()], expected, "{name:?}");
        assert_eq!(code[expected.len()..], [0x55]);
        let words: Vec<u8> = words.iter().flat_map(|word| word.to_le_bytes()).collect();
        assert_eq!(words, bytes(linked.words), "{name:?}");
    }
}

/// x86-64's `.plt.sec` beside the first two of the lazy PLTs with `endbr64`.
#[test]
fn landing_stubs_are_those_of_linkers() {
    let target = Target::of(Architecture::X86_64);
    for (place, word, hex) in [
        (
            0x1400,
            0x34f8,
            "f30f1efaff25ee200000660f1f440000f30f1efaff25e6200000660f1f440000\
            f30f1efaff25de200000660f1f440000",
        ),
        (
            0x1040,
            0x4000,
            "f30f1efaff25b62f0000660f1f440000f30f1efaff25ae2f0000660f1f440000\
            f30f1efaff25a62f0000660f1f440000",
        ),
    ] {
        let mut code = [0; 48];
        for (index, stub) in (0..).zip(code.chunks_mut(16)) {
            let (place, word) = (place + 16 * index, word + 8 * index);
            target.write_stub(StubKind::LandingLoad, place, word, stub).unwrap();
        }
        assert_eq!(code[..], bytes(hex));
    }
}

/// Which architectures have which forms, and slots that are too short.
#[test]
fn forms_are_of_protected_architectures() {
    use LazyForm::*;
    let others = [LandingEntry, Authenticated, AuthenticatedLanding, AuthenticatedLandingEntry];
    for (architecture, forms) in [
        (Architecture::X86_64, &[Landing][..]),
        (Architecture::AArch64, &[Landing, others[0], others[1], others[2], others[3]]),
        (Architecture::RiscV, &[]),
        (Architecture::LoongArch64, &[]),
        (Architecture::Ppc64, &[]),
    ] {
        let plain = LazyPlt::of(architecture);
        assert_eq!(LazyPlt::of_form(architecture, Plain), Some(plain));
        for form in [Landing].into_iter().chain(others) {
            let Some(plt) = LazyPlt::of_form(architecture, form) else {
                assert!(!forms.contains(&form));
                continue;
            };
            assert!(forms.contains(&form), "{architecture:?} {form:?}");
            assert_eq!(plt.header_words, plain.header_words);
            assert_eq!(plt.header_len(), plain.header_len());
            let mut code = vec![0x55; plt.entry_len() as usize - 1];
            let entry = LazyEntry { address: 0, word: 8, header: 0, index: 0 };
            assert_eq!(plt.write_entry(&entry, &mut code), Err(StubError::TooShort));
            assert!(code.iter().all(|byte| *byte == 0x55));
        }
    }
}

/// A room that is too short, and the last word that fields reach above an entry, and the first beyond.
#[test]
fn entries_reach_as_far_as_their_fields() {
    let field = |error| Err(StubError::Field(error));
    for (architecture, last, beyond, error) in [
        (
            Architecture::X86_64,
            0x8000_0005,
            0x8000_0006,
            RelocateError::OutOfReach,
        ),
        (
            Architecture::AArch64,
            0xffff_fff8,
            0x1_0000_0000,
            RelocateError::OutOfReach,
        ),
        (Architecture::AArch64, 0, 4, RelocateError::Misaligned),
        (
            Architecture::RiscV,
            0x7fff_f7ff,
            0x7fff_f800,
            RelocateError::OutOfReach,
        ),
        (
            Architecture::LoongArch64,
            0x7fff_f7ff,
            0x7fff_f800,
            RelocateError::OutOfReach,
        ),
    ] {
        let plt = LazyPlt::of(architecture);
        let place = 0x10_0000;
        let entry = |distance| LazyEntry {
            address: place,
            word: place + distance,
            header: place,
            index: 0,
        };
        let len = plt.entry_len() as usize;
        let mut code = vec![0x55; len];
        assert_eq!(
            plt.write_entry(&entry(beyond), &mut code),
            field(error),
            "{architecture:?}"
        );
        assert_eq!(
            plt.write_entry(&entry(last), &mut code[1..]),
            Err(StubError::TooShort)
        );
        assert_eq!(code, vec![0x55; len]);
        assert_eq!(
            plt.write_entry(&entry(last), &mut code),
            Ok(()),
            "{architecture:?}"
        );
    }
    // `b` reaches 32 MiB backward
    let plt = LazyPlt::of(Architecture::Ppc64);
    let at = |address| LazyEntry {
        address,
        word: 0,
        header: 0,
        index: 0,
    };
    assert_eq!(plt.write_entry(&at(0x200_0000), &mut [0; 4]), Ok(()));
    assert_eq!(
        plt.write_entry(&at(0x200_0004), &mut [0; 4]),
        field(RelocateError::OutOfReach)
    );
    // `push` has 31 bits of an index
    let plt = LazyPlt::of(Architecture::X86_64);
    let at = |index| LazyEntry {
        address: 0,
        word: 0,
        header: 0,
        index,
    };
    assert_eq!(plt.write_entry(&at(0x7fff_ffff), &mut [0; 16]), Ok(()));
    assert_eq!(
        plt.write_entry(&at(0x8000_0000), &mut [0; 16]),
        field(RelocateError::OutOfReach)
    );
}
