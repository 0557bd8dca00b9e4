// SPDX-License-Identifier: MIT OR Apache-2.0
//! Writes a test of each export, and a call of it for `rust/fuzz`, from the heads of the functions that `tools/generate` put in
//! `../exports/src`.

use std::fmt::Write;
use std::path::PathBuf;
use std::{env, fs};

const EXPORTS: &str = "../exports/src";

fn main() {
    println!("cargo:rerun-if-changed={EXPORTS}");
    // the tests count what both sides take
    if env::var("CARGO_PKG_NAME").as_deref() == Ok("sathunne-compare") {
        println!("cargo:rustc-link-arg=-Wl,--wrap=malloc,--wrap=realloc");
    }
    let mut files: Vec<PathBuf> = fs::read_dir(EXPORTS)
        .expect("the exports are there")
        .map(|entry| entry.expect("an entry of it").path())
        .filter(|path| path.is_file())
        .collect();
    files.sort();
    let (mut tests, mut names) = (String::new(), String::new());
    for file in files {
        let module = file.file_stem().expect("a name").to_string_lossy();
        let text = fs::read_to_string(&file).expect("a file of exports");
        for head in text.split("\npub fn linker_utils_").skip(1) {
            tests += &test_of(&module, &head[..head.find(" {\n").expect("a body")]);
            names += &format!("linker_utils_{} ", &head[..head.find('(').expect("parameters")]);
        }
        for head in text.split("\npub struct ").skip(1) {
            tests += &fields(&module, &head[..head.find("\n}").expect("an end")]);
        }
    }
    tests += &format!("all! {{ {names} }}\n");
    let out = PathBuf::from(env::var("OUT_DIR").expect("cargo sets it"));
    fs::write(out.join("exports.rs"), tests).expect("the tests are written");
}

/// How a struct is made and printed, field by field.
fn fields(module: &str, head: &str) -> String {
    let name = head.split([' ', '<']).next().expect("a name");
    let mut body = String::new();
    for line in head.lines().filter_map(|line| line.trim().strip_prefix("pub ")) {
        let field = line.split(':').next().expect("a field");
        write!(body, "{field}, ").expect("a string grows");
    }
    format!("use {module}::{name};\nfields! {{ {name}: {body} }}\n")
}

/// The test of an export, of its name and all that comes before its body.
fn test_of(module: &str, head: &str) -> String {
    let (name, rest) = head.split_once('(').expect("parameters");
    let (parameters, result) = rest.rsplit_once(')').expect("an end of the parameters");
    let result = result.strip_prefix(" -> ").unwrap_or("()");
    let (mut c, mut made, mut ours, mut theirs, mut after) =
        (String::new(), String::new(), String::new(), String::new(), String::new());
    for parameter in parameters.split(',').map(str::trim).filter(|text| !text.is_empty()) {
        let (name, kind) = parameter.split_once(": ").expect("a type");
        let bare = kind.trim_start_matches('&').trim_start_matches("mut ");
        let is_mutable = kind.starts_with("&mut ");
        let (pointer, borrow) = if is_mutable { ("*mut", "&mut ") } else { ("*const", "&") };
        if let Some(item) = bare.strip_prefix('[').and_then(|text| text.strip_suffix(']')) {
            let at = if is_mutable { "as_mut_ptr" } else { "as_ptr" };
            c += &format!("{name}: {pointer} {item}, {name}_len: usize, ");
            made += &format!("let mut {name}: Pair<Vec<{item}>> = random.slice(\"{name}\"); ");
            ours += &format!("{borrow}{name}.ours, ");
            theirs += &format!("{name}.theirs.{at}(), {name}.theirs.len(), ");
        } else if kind.starts_with('&') {
            c += &format!("{name}: {pointer} {bare}, ");
            made += &format!("let mut {name}: Pair<{bare}> = random.value(\"{name}\"); ");
            ours += &format!("{borrow}{name}.ours, ");
            theirs += &format!("{borrow}{name}.theirs, ");
        } else {
            c += &format!("{name}: {kind}, ");
            made += &format!("let {name}: Pair<{kind}> = random.value(\"{name}\"); ");
            ours += &format!("{name}.ours, ");
            theirs += &format!("{name}.theirs, ");
        }
        after += &format!("{name}.seen(), ");
    }
    format!(
        "compare! {{ {module}, linker_utils_{name}, [{c}] -> {result}, |random| {{ {made} }}, \
         [{ours}], [{theirs}], [{after}] }}\n"
    )
}
