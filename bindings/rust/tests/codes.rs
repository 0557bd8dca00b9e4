// SPDX-License-Identifier: MIT OR Apache-2.0
//! Each relocation of the list of names and ELF types in the library's specifications is looked up by
//! machine and type, and so is each type below 2^16 that has no name.

use sathunne::*;
use std::collections::BTreeMap;
use std::fs;
use std::path::Path;

/// The names by types: `r.R_.. = with_row 283 (codes "R_..") ..` of a list of specifications, perhaps
/// broken after the equals sign.
fn listed(file: &str) -> BTreeMap<u32, String> {
    let folder = Path::new(env!("CARGO_MANIFEST_DIR")).join("../../crates/linker_elf/specs");
    let specs = fs::read_to_string(folder.join(file)).expect("the list is there");
    let (_, list) = specs.split_once("_relocation r.").expect("the list");
    let list = list.replace(" =\n   ", " =");
    let names: BTreeMap<u32, String> = list
        .split("_relocation r.")
        .map(|line| {
            let (name, row) = line.split_once(" = ").expect("a name");
            let (_, named) = row.split_once("_row ").expect("a row");
            let (r_type, text) = named.split_once(" (codes \"").expect("a type and a text");
            let (text, _) = text.split_once("\")").expect("a text");
            assert_eq!(name, text);
            (r_type.parse().expect("a number"), name.to_string())
        })
        .collect();
    assert_eq!(
        names.len(),
        specs.matches("_relocation r.").count(),
        "{file}"
    );
    names
}

#[test]
fn each_listed_relocation_is_found() {
    let lists = [
        (Architecture::AArch64, "AArch64Relocations.antt"),
        (Architecture::RiscV, "RiscVRelocations.antt"),
        (Architecture::LoongArch64, "LoongArchRelocations.antt"),
        (Architecture::Ppc64, "Ppc64Relocations.antt"),
        (Architecture::X86_64, "X86Relocations.antt"),
    ];
    for (architecture, file) in lists {
        let list = listed(file);
        for r_type in 0..1 << 16 {
            let (meaning, name) = (
                relocation(architecture, r_type),
                relocation_name(architecture, r_type),
            );
            let Some(listed) = list.get(&r_type) else {
                assert_eq!(
                    meaning,
                    Err(Status::UnknownRelocation),
                    "{architecture:?} {r_type}"
                );
                assert_eq!(
                    name,
                    Err(Status::UnknownRelocation),
                    "{architecture:?} {r_type}"
                );
                continue;
            };
            assert_eq!(name.as_ref(), Ok(listed), "{architecture:?} {r_type}");
            assert!(meaning.is_ok(), "{listed}");
        }
    }
}

#[test]
fn tls_descriptors_have_a_meaning() {
    for r_type in 62..=65 {
        let info = relocation(Architecture::RiscV, r_type).expect("its meaning");
        let is_call = r_type == 65;
        let kind = if is_call {
            RelocationKind::TlsDescCall
        } else {
            RelocationKind::TlsDesc
        };
        assert_eq!(info.kind, kind, "{r_type}");
    }
}
