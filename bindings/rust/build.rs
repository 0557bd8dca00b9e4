// SPDX-License-Identifier: MIT OR Apache-2.0
//! Links the static library: `liblinker_utils.a` in the folder that `LINKER_UTILS_FOLDER` names, as
//! `../archive` prints that of the proved one, or else in the one that `../library` prints, which
//! makes it where it is stale. Writes the header's constants for `src/names.rs`: those of the first
//! `include/linker_utils.h` in the folders above that one, or else of the repository's.

use std::path::Path;
use std::process::Command;
use std::{env, fs};

fn main() {
    println!("cargo:rerun-if-env-changed=LINKER_UTILS_FOLDER");
    let folder = env::var("LINKER_UTILS_FOLDER").unwrap_or_else(|_| {
        for source in ["../library", "../version.c", "../../rust/src", "../../rust/exports/src"] {
            println!("cargo:rerun-if-changed={source}");
        }
        let target = env::var("TARGET").expect("cargo names it");
        let output = Command::new("../library").arg(target).output();
        let output = output.expect("`../library` runs");
        let said = String::from_utf8_lossy(&output.stderr);
        assert!(output.status.success(), "`../library` makes the library: {said}");
        String::from_utf8(output.stdout).expect("the folder's name is UTF-8")
    });
    let folder = folder.trim_end();
    println!("cargo:rerun-if-changed={folder}/liblinker_utils.a");
    println!("cargo:rustc-env=LINKER_UTILS_FOLDER={folder}");
    println!("cargo:rustc-link-search=native={folder}");
    println!("cargo:rustc-link-lib=static=linker_utils");

    let mut above = Path::new(folder).ancestors().map(|it| it.join("include"));
    let include = above.find(|it| it.join("linker_utils.h").exists());
    let include = include.unwrap_or_else(|| "../../include".into());
    let headers = ["_lists", "_relocations", "_reading"].map(|name| {
        let header = include.join(format!("linker_utils{name}.h"));
        println!("cargo:rerun-if-changed={}", header.display());
        fs::read_to_string(header).expect("the header is there")
    });
    let header = headers.concat();
    let room = env::var("OUT_DIR").expect("cargo names a folder");
    fs::write(format!("{room}/constants.rs"), constants(&header)).expect("the folder is there");
}

/// Names by the rule of `variant`, and the library's where those are others.
const SPELLED: [(&str, &str); 10] = [
    ("Aarch64", "AArch64"),
    ("Riscv", "RiscV"),
    ("Loongarch64", "LoongArch64"),
    ("PairSubtractionUleb128RiscV", "PairSubtractionULEB128RiscV"),
    (
        "PairSubtractionUleb128LoongArch",
        "PairSubtractionULEB128LoongArch",
    ),
    ("RiscvCall", "RiscVCall"),
    ("RiscvTailC", "RiscVTailC"),
    ("RiscvCallWithoutC", "RiscVCallWithoutC"),
    ("LoongarchCall36", "LoongArchCall36"),
    ("LoongarchPcala", "LoongArchPcala"),
];

/// How many bytes hold any name, how many rewrites a relocation may have, and for each of the header's enums a macro of its name:
/// `ENUM! { MACRO START }` is `MACRO! { START { CONSTANTS } }`. A constant is
/// `#[doc = "COMMENT"] NAME = NUMBER,` or, where its comment begins with `opcode_len: `, the same with `NAME(n)`,
/// and a status `NAME = NUMBER "TEXT",`.
fn constants(header: &str) -> String {
    let mut code = String::new();
    for name in ["NAME_SIZE", "CANDIDATES"] {
        let (_, size) = header
            .split_once(&format!("#define LINKER_UTILS_{name} "))
            .expect("the size");
        let size = size.lines().next().expect("a number");
        code += &format!("pub(crate) const {name}: usize = {size};\n");
    }
    for part in header.split("\nenum ").skip(1) {
        let (name, rest) = part.split_once(' ').expect("a name");
        let Some(rest) = rest.strip_prefix("{\n") else {
            continue; // a function returns it
        };
        let (body, _) = rest.split_once("\n};").expect("the enum's end");
        let entries = match name {
            "linker_utils_status" => statuses(header),
            _ => entries(name, body),
        };
        code += &format!("macro_rules! {name} {{ ($make:ident $($start:tt)*) => {{\n");
        code += &format!("$make! {{ $($start)* {{\n{entries}}} }} }} }}\n");
    }
    code
}

/// An enum's constants, one in a line, with the comment there or in lines of its own before that.
fn entries(of_enum: &str, body: &str) -> String {
    let (mut code, mut comment) = (String::new(), String::new());
    for line in body.lines().map(str::trim) {
        let Some(constant) = line.strip_prefix("LINKER_UTILS_") else {
            let words = line.trim_start_matches("/*").trim_end_matches("*/");
            comment += &format!("{} ", words.trim_start_matches('*').trim());
            continue;
        };
        let (constant, after) = constant.split_once(" /* ").unwrap_or((constant, "*/"));
        comment += after.strip_suffix("*/").expect("the line ends the comment");
        let (name, number) = constant.split_once(" = ").expect("a number");
        let (name, number) = (variant(of_enum, name), number.trim_end_matches(','));
        let text = comment.trim();
        let (text, n) = match text.strip_prefix("opcode_len: ") {
            Some(text) => (text, "(n)"),
            None => (text, ""),
        };
        if !text.is_empty() {
            let text = text.replace('[', "\\[").replace("linker_utils_", "");
            code += &format!("#[doc = {text:?}] ");
        }
        code += &format!("{name}{n} = {number},\n");
        comment.clear();
    }
    code
}

/// The list of statuses, whose entries are `STATUS(NAME, NUMBER, "A TEXT " "IN PARTS")`.
fn statuses(header: &str) -> String {
    let (_, list) = header
        .split_once("#define LINKER_UTILS_STATUSES(STATUS)")
        .expect("the list");
    let (list, _) = list.split_once("\n\n").expect("the list's end");
    let entries = list.split(" STATUS(").skip(1).map(|entry| {
        let mut parts = entry.splitn(3, ", ").map(str::trim);
        let mut part = || parts.next().expect("a name, a number and a text");
        let (constant, number, text) = (part(), part(), part());
        let text: String = text.split('"').skip(1).step_by(2).collect();
        format!("{} = {number} {text:?},\n", variant("", constant))
    });
    entries.collect()
}

/// A constant's name as a variant: in camel case, without the words of its enum at the beginning.
fn variant(of_enum: &str, constant: &str) -> String {
    let constant = constant.to_lowercase();
    let is_of_enum = |word: &&str| of_enum.split('_').any(|of_enum| of_enum == *word);
    let mut name = String::new();
    for word in constant.split('_').skip_while(is_of_enum) {
        let (first, rest) = word.split_at(1);
        if first.as_bytes()[0].is_ascii_digit() {
            name.push('_');
        }
        name += &first.to_uppercase();
        name += rest;
    }
    let spelled = SPELLED.iter().find(|(by_rule, _)| *by_rule == name);
    spelled.map_or(name, |(_, spelled)| spelled.to_string())
}
