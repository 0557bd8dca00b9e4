// SPDX-License-Identifier: MIT OR Apache-2.0
//! The headers, this crate's declarations and the archive have the same functions, as the archive of
//! ordinary Rust is compiled of them, and the same sizes and offsets of structs, sentences of
//! statuses and version. The enums, which `build.rs` makes from the header, have the library's names
//! and numbers.

use sathunne::*;
use std::collections::{BTreeMap, BTreeSet};
use std::fmt::Debug;
use std::mem::{offset_of, size_of};
use std::path::Path;
use std::process::Command;
use std::sync::OnceLock;
use std::{env, fs};

fn repository(file: &str) -> String {
    let path = Path::new(env!("CARGO_MANIFEST_DIR"))
        .join("../..")
        .join(file);
    fs::read_to_string(&path).unwrap_or_else(|error| panic!("{}: {error}", path.display()))
}

// ---- what the texts declare

/// Functions by name, each with its parameters and its result, as `bytes: *const u8 -> u32`.
type Functions = BTreeMap<String, String>;

/// The text between an opening bracket, at the beginning, and the one that closes it, and the rest.
fn bracketed(text: &str) -> (&str, &str) {
    let mut depth = 0;
    for (at, letter) in text.char_indices() {
        match letter {
            '(' | '{' => depth += 1,
            ')' | '}' => depth -= 1,
            _ => {}
        }
        if depth == 0 {
            return (&text[1..at], &text[at + 1..]);
        }
    }
    panic!("no bracket closes {text:.40}");
}

fn list(text: &str) -> impl Iterator<Item = String> + '_ {
    let words = |part: &str| part.split_whitespace().collect::<Vec<_>>().join(" ");
    text.split(',').map(words).filter(|part| !part.is_empty())
}

/// The headers, each directive in one line: what users read, and then its inline functions.
fn headers() -> String {
    let main = repository("include/linker_utils.h");
    let included = main.lines().filter_map(|line| line.strip_prefix("#include \"")?.strip_suffix('"'));
    let texts = included.map(|name| repository(&format!("include/{name}")));
    let texts = texts.chain([main.clone()]).collect::<Vec<_>>();
    texts.join("\n").replace("\\\n", " ")
}

/// The headers without comments and directives.
fn header() -> String {
    let whole = headers();
    let mut code = String::new();
    let mut rest = whole.as_str();
    while let Some((before, comment)) = rest.split_once("/*") {
        code += before;
        rest = comment.split_once("*/").expect("a comment ends").1;
    }
    code += rest;
    let code = code.replace("LINKER_UTILS_MUST_USE ", "");
    let lines = code.lines().filter(|line| !line.starts_with('#'));
    lines.collect::<Vec<_>>().join("\n")
}

/// A type of C as Rust has it, but for the name of a struct.
fn type_of_c(text: &str) -> String {
    let (name, pointer) = match text.trim().strip_suffix('*') {
        None => (text.trim(), ""),
        Some(text) => match text.trim().strip_prefix("const ") {
            Some(name) => (name, "*const "),
            None => (text.trim(), "*mut "),
        },
    };
    let name = match name {
        "size_t" => "usize".to_string(),
        "char" => "c_char".to_string(),
        "void" => "()".to_string(),
        _ => match name.strip_suffix("_t") {
            Some(number) => number.replace("uint", "u").replace("int", "i"),
            None => name.trim_start_matches("struct ").to_string(),
        },
    };
    format!("{pointer}{name}")
}

/// What is declared, and its name.
fn declared_in_c(text: &str) -> (&str, &str) {
    text.split_at(text.rfind([' ', '*']).map_or(0, |at| at + 1))
}

/// The functions that the headers declare and don't define.
fn functions_of_c() -> Functions {
    let mut found = Functions::new();
    for statement in header().split_inclusive(['{', '}', ';']) {
        let declared = statement.trim_start_matches('\n').strip_suffix(");");
        let Some((head, parameters)) = declared.and_then(|it| it.split_once('(')) else {
            continue;
        };
        let (result, name) = declared_in_c(head);
        if result.is_empty() || result.starts_with(' ') || result.starts_with("static inline ") {
            continue;
        }
        let parameters = list(parameters).filter(|it| it != "void").map(|text| {
            let (kind, name) = declared_in_c(&text);
            format!("{name}: {}", type_of_c(kind))
        });
        let parameters = parameters.collect::<Vec<_>>().join(" , ");
        let function = format!("{parameters} -> {}", type_of_c(result));
        assert_eq!(found.insert(name.to_string(), function), None, "{name}");
    }
    found
}

/// The functions of a text of Rust that begin by these words.
fn functions_of_rust(file: &str, begin: &str) -> Functions {
    let source = repository(file);
    let functions = source.split(begin).skip(1).map(|text| {
        let (name, rest) = text.split_at(text.find('(').expect("parameters"));
        let (parameters, rest) = bracketed(rest);
        let result = rest.trim_start().strip_prefix("-> ");
        let result = result.map_or("()", |rest| rest.split([';', '{']).next().expect("a type").trim());
        let parameters = list(parameters).collect::<Vec<_>>().join(" , ");
        (name.to_string(), format!("{parameters} -> {result}"))
    });
    functions.collect()
}

/// Two texts declare the same functions. Since each has names of its own for structs, a struct has in
/// place of its name its place among those that the text names.
fn assert_same(declared: &Functions, others: &Functions, by: &str) {
    let numbered = [declared, others].map(|functions| {
        let mut structs = Vec::new();
        let mut line = |(name, function): (&String, &String)| {
            let words = function.split(' ').map(|word| {
                if !word.starts_with(char::is_uppercase) && !word.starts_with("linker_utils_") {
                    return word.to_string();
                }
                if !structs.iter().any(|named| named == word) {
                    structs.push(word.to_string());
                }
                format!("{:?}", structs.iter().position(|named| named == word))
            });
            format!("{name}: {}", words.collect::<Vec<_>>().join(" "))
        };
        functions.iter().map(&mut line).collect::<Vec<_>>()
    });
    let [declared, others] = numbered;
    for (line, other) in declared.iter().zip(&others) {
        assert_eq!(line, other, "declared by this crate and by {by}");
    }
    assert_eq!(declared.len(), others.len(), "declared by this crate and by {by}");
}

#[test]
fn the_functions_are_those_of_the_library() {
    let mut of_crate = functions_of_rust("bindings/rust/src/raw.rs", "pub fn ");
    assert!(of_crate.len() > 30, "the declarations are read");
    assert_same(&of_crate, &functions_of_c(), "the headers");

    let archive = format!("{}/liblinker_utils.a", env!("LINKER_UTILS_FOLDER"));
    let listed = Command::new("nm")
        .args([
            "--defined-only",
            "--extern-only",
            "--format=posix",
            &archive,
        ])
        .output()
        .expect("`nm` runs");
    let listed = String::from_utf8(listed.stdout).expect("names");
    let symbols: BTreeSet<&str> = listed
        .lines()
        .filter_map(|line| line.split_whitespace().next())
        .filter(|name| !name.ends_with(".o]:"))
        .collect();
    assert_eq!(symbols, of_crate.keys().map(String::as_str).collect());

    // each archive gets these of `bindings/version.c`, and that of ordinary Rust is compiled of the others
    for name in ["linker_utils_is_proved", "linker_utils_version"] {
        of_crate.remove(name).expect("it is declared");
    }
    let compiled = functions_of_rust("rust/exports/src/exported.rs", "extern \"C\" fn ");
    assert_same(&of_crate, &compiled, "tools/generate");
}

// ---- what a C compiler makes of the header

/// The fields of the header's structs that the archive's functions take, or that others of these have.
/// The crate hasn't those that only inline functions take.
fn structs_of_c() -> BTreeMap<String, Vec<String>> {
    let header = header();
    let bodies = header.split("\nstruct ").skip(1).filter_map(|part| {
        let (name, rest) = part.split_at(part.find(' ')?);
        // a name without a body ends by a semicolon
        (!name.contains(';')).then(|| (name, bracketed(rest.trim_start()).0))
    });
    let bodies = bodies.collect::<BTreeMap<_, _>>();
    let functions = functions_of_c().into_values().collect::<String>();
    let mut structs = BTreeMap::new();
    let mut taken = functions.split([' ', '*']).collect::<Vec<_>>();
    while let Some(name) = taken.pop() {
        let Some(body) = bodies.get(name).filter(|_| !structs.contains_key(name)) else {
            continue;
        };
        taken.extend(body.split_whitespace());
        let fields = body.split(';').map(str::trim).filter(|it| !it.is_empty());
        let name_of = |field: &str| declared_in_c(field.split('[').next().expect("a field")).1.to_string();
        structs.insert(name.to_string(), fields.map(name_of).collect());
    }
    structs
}

/// What a C program prints of the header: the sizes of its structs and their fields' offsets, and the
/// sentences of its statuses.
fn printed_by_c() -> &'static BTreeMap<String, String> {
    static PRINTED: OnceLock<BTreeMap<String, String>> = OnceLock::new();
    PRINTED.get_or_init(print_by_c)
}

fn print_by_c() -> BTreeMap<String, String> {
    let mut program =
        String::from("#include <stdio.h>\n#include \"linker_utils.h\"\nint main(void) {\n");
    for (name, fields) in structs_of_c() {
        program += &format!("printf(\"{name}=%zu\\n\", sizeof(struct {name}));\n");
        for field in fields {
            program += &format!(
                "printf(\"{name}.{field}=%zu+%zu\\n\", offsetof(struct {name}, {field}), \
                 sizeof ((struct {name} *)0)->{field});\n"
            );
        }
    }
    program += "for (unsigned i = 0; i < 80; i++) ";
    program += "printf(\"%u=%s\\n\", i, linker_utils_status_text(i));\nreturn 0;\n}\n";

    let folder = Path::new(env!("CARGO_TARGET_TMPDIR"));
    let (source, binary) = (folder.join("header.c"), folder.join("header"));
    fs::write(&source, program).expect("a folder for it");
    let include = Path::new(env!("CARGO_MANIFEST_DIR")).join("../../include");
    let compiled = Command::new("cc")
        .args(["-std=c11", "-Wall", "-Wextra", "-Werror", "-I"])
        .arg(include)
        .arg(&source)
        .arg("-o")
        .arg(&binary)
        .status();
    assert!(compiled.expect("`cc` runs").success());
    let printed = Command::new(&binary).output().expect("it runs").stdout;
    let printed = String::from_utf8(printed).expect("text");
    let pair = |line: &str| {
        let (name, number) = line.split_once('=').expect("an equation");
        (name.to_string(), number.to_string())
    };
    printed.lines().map(pair).collect()
}

type Numbers = BTreeMap<String, u64>;

fn numbers<T: Debug + Copy, N: Into<u64>>(all: &[T], number: impl Fn(T) -> N) -> Numbers {
    let numbered = all.iter().map(|&it| (format!("{it:?}"), number(it).into()));
    numbered.collect()
}

/// The names in a text.
fn names_in(text: &str) -> impl Iterator<Item = &str> {
    text.split(|letter: char| !letter.is_alphanumeric() && letter != '_')
}

fn name_at(text: &str) -> String {
    names_in(text).next().expect("a name").to_string()
}

/// The arms `NUMBER => ENUM::NAME`, or `Some(ENUM::NAME)`, of a source of the proved library's.
fn arms(source: &str, of_enum: &str) -> Numbers {
    let mut found = Numbers::new();
    for line in repository(&format!("crates/{source}.rt")).lines() {
        let Some((number, named)) = line.trim().split_once(" => ") else {
            continue;
        };
        let named = named.trim_end_matches(',');
        let some = named.strip_prefix("Some(");
        let named = some.map_or(named, |named| named.trim_end_matches(')'));
        let name = named.strip_prefix(of_enum);
        let (Ok(number), Some(name)) = (number.parse(), name) else {
            continue;
        };
        let name = name.trim_start_matches("::").to_string();
        assert_eq!(found.insert(name, number), None, "{line}");
    }
    found
}

/// The forms of an architecture in the proved library's list, by their places.
fn forms_of(architecture: &str) -> Numbers {
    let source = repository(&format!("crates/linker_elf/src/{architecture}/forms.rt"));
    let (_, list) = source.split_once("@ [$($part)+]").expect("the list");
    let (list, _) = list.split_once(')').expect("its end");
    let numbered = list.split_whitespace().zip(0..).map(|(name, at)| (name.to_string(), at));
    numbered.collect()
}

/// The rewrites of an architecture of the proved library's, by their numbers: the arms of a match,
/// or the rows of a table by their places.
fn rewrites_of(architecture: &str) -> Numbers {
    let source = format!("linker_utils/src/{architecture}/rewrites");
    let found = arms(&source, "RewriteKind");
    if !found.is_empty() {
        return found;
    }
    let source = repository(&format!("crates/{source}.rt"));
    let (_, list) = source.split_once("        by_row! {").expect("the list");
    let (list, _) = list.split_once("        }").expect("its end");
    let names = list.lines().filter_map(|line| line.strip_prefix("            ")?.split_once(" { "));
    let numbered = names.zip(0..).map(|((name, _), at)| (name.to_string(), at));
    numbered.collect()
}

/// The lines `NAME = NUMBER` of a definition in the proved library's specifications. A name is the
/// first with a capital, as in `(Some enums.NAME)`.
fn equations(specs: &str, defined: &str) -> Numbers {
    let specs = repository(&format!("crates/{specs}.antt"));
    let mut found = Numbers::new();
    for line in specs.lines() {
        let Some(equation) = line.strip_prefix(&format!("{defined} ")) else {
            continue;
        };
        let Some((pattern, number)) = equation.split_once(" = ") else {
            continue;
        };
        let mut names = names_in(pattern).filter(|&word| word != "Some");
        let name = names.find(|word| word.starts_with(char::is_uppercase));
        let name = name.expect("a name").to_string();
        found.insert(name, number.parse().unwrap_or_else(|_| constant(number)));
    }
    found
}

/// The number that a definition of `linker_elf`'s `specs/Elf` names.
fn constant(name: &str) -> u64 {
    let specs = repository("crates/linker_elf/specs/Elf.antt");
    let (_, number) = specs
        .split_once(&format!("\n{name} = "))
        .expect("it is there");
    number
        .lines()
        .next()
        .expect("a line")
        .parse()
        .expect("a number")
}

/// The variants of an enum of the proved library's, by their order.
fn variants(source: &str, name: &str) -> Numbers {
    let source = repository(&format!("crates/{source}.rt"));
    let (_, body) = source
        .split_once(&format!("pub enum {name} {{"))
        .expect("the enum");
    let (body, _) = body.split_once("\n}").expect("its end");
    let lines = body
        .lines()
        .map(str::trim)
        .filter(|line| !line.is_empty() && !line.starts_with("//"));
    lines.map(name_at).zip(0..).collect()
}

/// The number of each fate: what `IsWrittenAs` says of a decision.
fn fates() -> Numbers {
    let specs = repository("crates/linker_rewriting/specs/Numbers.antt");
    let (_, equations) = specs
        .split_once("abbrev pub IsWrittenAs ")
        .expect("its declaration");
    let (equations, _) = equations.split_once("\n\n").expect("its end");
    let of_decision = |equation: &str| {
        let (pattern, says) = equation.split_once('=').expect("an equation");
        let mut names = names_in(pattern);
        let name = names.find(|word| word.starts_with(char::is_uppercase));
        let (_, fate) = ["numbers.fate ≡ ", "of_fate "]
            .iter()
            .find_map(|word| says.split_once(word))
            .expect("a fate");
        let fate: String = fate.chars().take_while(char::is_ascii_digit).collect();
        let name = name.expect("a name").to_string();
        (name, fate.parse().expect("a number"))
    };
    let each = equations.split("\nIsWrittenAs ").skip(1);
    each.map(of_decision).collect()
}

#[test]
fn the_numbers_are_those_of_the_library() {
    let mut statuses = equations("linker_utils_c/specs/Status", "code");
    assert_eq!(statuses.remove("Success"), Some(0));
    assert_eq!(numbers(Status::ALL, Status::number), statuses);
    assert_eq!(
        numbers(Architecture::ALL, Architecture::number),
        equations("linker_elf/specs/Machines", "machine_of")
    );

    assert_eq!(
        numbers(AArch64Form::ALL, AArch64Form::number),
        forms_of("aarch64")
    );
    assert_eq!(
        numbers(RiscVForm::ALL, RiscVForm::number),
        forms_of("riscv64")
    );
    assert_eq!(
        numbers(LoongArch64Form::ALL, LoongArch64Form::number),
        forms_of("loongarch64")
    );
    assert_eq!(
        numbers(Ppc64Form::ALL, Ppc64Form::number),
        forms_of("ppc64")
    );

    assert_eq!(
        numbers(AArch64Rewrite::ALL, AArch64Rewrite::number),
        rewrites_of("aarch64")
    );
    assert_eq!(
        numbers(RiscVRewrite::ALL, RiscVRewrite::number),
        rewrites_of("riscv64")
    );
    assert_eq!(
        numbers(LoongArch64Rewrite::ALL, LoongArch64Rewrite::number),
        rewrites_of("loongarch64")
    );
    assert_eq!(
        numbers(Ppc64Rewrite::ALL, Ppc64Rewrite::number),
        rewrites_of("ppc64")
    );
    let of_x86_64 = (0..100).filter_map(|number| {
        let rewrite = X86_64Rewrite::from_numbers(number, 3)?;
        assert_eq!(rewrite.numbers().0, number);
        let name = format!("{rewrite:?}").replace("(3)", "(n)");
        Some((name, number.into()))
    });
    assert_eq!(of_x86_64.collect::<Numbers>(), rewrites_of("x86_64"));

    assert_eq!(
        numbers(Modifier::ALL, Modifier::number),
        variants("linker_base/src/relaxation", "RelocationModifier")
    );
    assert_eq!(
        numbers(LinkRegister::ALL, LinkRegister::number),
        arms("linker_utils_c/src/calls", "LinkRegister")
    );
    let mut roles = equations("linker_utils_c/specs/Relocate", "role_number");
    assert_eq!(roles.remove("None"), Some(0));
    assert_eq!(numbers(Uleb128Role::ALL, Uleb128Role::number), roles);
    assert_eq!(
        numbers(EntryClass::ALL, EntryClass::number),
        equations("linker_utils_c/specs/Sections", "class_number")
    );
    assert_eq!(numbers(Fate::ALL, Fate::number), fates());
    assert_eq!(
        numbers(Phase::ALL, Phase::number),
        equations("linker_utils_c/specs/Rewriting", "phase_number")
    );
    assert_eq!(
        numbers(SymbolPlace::ALL, SymbolPlace::number),
        equations("linker_utils_c/specs/Output", "place_number")
    );
    assert_eq!(
        numbers(StubKind::ALL, StubKind::number),
        variants("linker_output/src/stubs", "StubKind")
    );
    assert_eq!(
        numbers(LazyForm::ALL, LazyForm::number),
        variants("linker_output/src/lazy_plt", "LazyForm")
    );
    assert_eq!(
        numbers(RelocationKind::ALL, RelocationKind::number),
        variants("linker_elf/src/elf", "RelocationKind")
    );
    let mut masks = equations("linker_elf/specs/Numbers", "mask_number");
    assert_eq!(masks.remove("None"), Some(0));
    assert_eq!(numbers(PageMask::ALL, PageMask::number), masks);
    assert_eq!(
        numbers(Reference::ALL, Reference::number),
        equations("linker_utils_c/specs/Reading", "reference_number")
    );
}

#[test]
fn the_version_is_the_same() {
    assert_eq!(version(), env!("CARGO_PKG_VERSION"));
    let version = format!("\"{}\"", env!("CARGO_PKG_VERSION"));
    assert!(repository("rust/Cargo.toml").contains(&format!("\nversion = {version}\n")));
    assert!(headers().contains(&format!("\n#define LINKER_UTILS_VERSION {version}\n")));
    let parts = env!("CARGO_PKG_VERSION").split('.').map(|part| part.parse::<u32>());
    let number = parts.fold(0, |number, part| 100 * number + part.expect("a number"));
    assert!(headers().contains(&format!("\n#define LINKER_UTILS_VERSION_NUMBER {number} ")));
}

#[test]
fn the_statuses_say_the_same() {
    let printed = printed_by_c();
    for number in 1..80 {
        let text = match Status::from_number(number) {
            Some(status) => status.to_string(),
            None => "No status has this number.".to_string(),
        };
        assert_eq!(printed[&number.to_string()], text);
    }
    let of_library = documented(&repository("crates/linker_utils_c/src/status.rt"), "Status");
    assert_eq!(of_library["Success"], printed["0"]);
    for status in Status::ALL {
        assert_eq!(of_library[&format!("{status:?}")], status.to_string());
    }
}

/// The documentation of each variant of an enum of the proved library's.
fn documented(source: &str, name: &str) -> BTreeMap<String, String> {
    let body = source.split(&format!("pub enum {name} {{")).nth(1);
    let body = body
        .expect("the enum")
        .split("\n}")
        .next()
        .expect("its end");
    let (mut found, mut sentence) = (BTreeMap::new(), Vec::new());
    for line in body.lines().map(str::trim).filter(|line| !line.is_empty()) {
        match line.strip_prefix("/// ") {
            Some(words) => sentence.push(words),
            None => {
                found.insert(name_at(line), sentence.join(" "));
                sentence.clear();
            }
        }
    }
    found
}

/// Each struct's name, its size, and its fields with their offsets and sizes.
type Layout = BTreeMap<String, (usize, Vec<(String, usize, usize)>)>;

macro_rules! layout {
    ($($name:literal: $of:ty { $($field:ident,)* })*) => {
        Layout::from([$(($name.to_string(), (size_of::<$of>(), vec![$((
            stringify!($field).to_string(),
            offset_of!($of, $field),
            field_size(|it: &$of| size_of_val(&it.$field)),
        ),)*])),)*])
    };
}

/// A field's name in Rust. `short` is a word of C.
fn name_in_rust(field: &str) -> String {
    match field {
        "shorter" => "short",
        other => other,
    }
    .to_string()
}

fn field_size<T: Default>(size: impl Fn(&T) -> usize) -> usize {
    size(&T::default())
}

#[test]
fn the_structs_are_those_of_the_library() {
    let printed = printed_by_c();
    let structs = structs_of_c();
    let of_header = structs.iter().map(|(name, fields)| {
        let placed = fields.iter().map(|field| {
            let (offset, size) = printed[&format!("{name}.{field}")]
                .split_once('+')
                .expect("both");
            (
                name_in_rust(field),
                offset.parse().expect("a number"),
                size.parse().expect("a number"),
            )
        });
        (
            name.clone(),
            (printed[name].parse().expect("a number"), placed.collect()),
        )
    });
    let of_crate = include!("data/structs.rs");
    assert_eq!(of_header.collect::<Layout>(), of_crate);
}
