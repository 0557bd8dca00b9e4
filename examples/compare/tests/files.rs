// SPDX-License-Identifier: MIT OR Apache-2.0
//! The objects of `examples/objects`, as ld.lld 19 linked them (`tests/make`).

mod random;

use compare::{Counts, Line, compare, elf, report};
use linker_utils::elf::Operands;
use linker_utils::section::relocations;
use object::{Object, ObjectSection, ObjectSymbol};
use random::Random;
use std::collections::HashMap;
use std::fs;
use std::path::{Path, PathBuf};

const FILES: [&str; 5] = ["start", "main", "shapes", "sort", "text"];

fn ways() -> Vec<String> {
    let root = Path::new(env!("CARGO_MANIFEST_DIR")).join("tests/linked");
    let list = |path: &Path| -> Vec<PathBuf> {
        fs::read_dir(path).unwrap().map(|entry| entry.unwrap().path()).collect()
    };
    let mut ways: Vec<String> = list(&root)
        .iter()
        .flat_map(|architecture| list(architecture))
        .map(|way| way.strip_prefix(&root).unwrap().to_str().unwrap().to_string())
        .collect();
    ways.sort();
    assert_eq!(ways.len(), 20);
    ways
}

fn objects_of(way: &str) -> Vec<(String, Vec<u8>)> {
    let root = Path::new(env!("CARGO_MANIFEST_DIR"));
    let own = root.join("tests/objects").join(way);
    let folder = if own.exists() { own } else { root.join("../objects").join(way) };
    let read = |name: &&str| {
        let path = folder.join(format!("{name}.o"));
        (format!("{name}.o"), fs::read(path).unwrap())
    };
    FILES.iter().map(read).collect()
}

fn linked(way: &str, name: &str) -> Vec<u8> {
    let root = Path::new(env!("CARGO_MANIFEST_DIR")).join("tests/linked");
    fs::read(root.join(way).join(name)).unwrap()
}

/// The relocations that differ, and the counts.
fn differences(inputs: &[(String, Vec<u8>)], a: &[u8], b: &[u8]) -> (Vec<Line>, Counts) {
    let objects: Vec<_> =
        inputs.iter().flat_map(|(name, bytes)| elf::read_objects(name, bytes).unwrap()).collect();
    let (a, b) = (elf::read_linked(a).unwrap(), elf::read_linked(b).unwrap());
    let mut lines = Vec::new();
    let counts = compare(&objects, [&a, &b], &|_, _| (), |one| {
        if !one.is_same() {
            lines.push(one.line());
        }
    });
    let counts = counts.unwrap();
    assert_eq!(lines.len(), counts.different);
    (lines, counts)
}

fn text(line: &Line) -> String {
    let [a, b] = &line.made;
    format!("{}\n    A: {}\n    B: {}\n", report::head(line), report::words(line, a), report::words(line, b))
}

/// The types of all relocations, by the section tables alone.
fn r_types(inputs: &[(String, Vec<u8>)]) -> Vec<u32> {
    let mut all = Vec::new();
    for (_, bytes) in inputs {
        let file = object::read::elf::ElfFile64::<object::LittleEndian>::parse(&bytes[..]).unwrap();
        for section in file.sections() {
            let object::SectionFlags::Elf { sh_flags } = section.flags() else { panic!() };
            if section.name().unwrap().starts_with(".rela") || sh_flags & 2 == 0 {
                continue;
            }
            let name = format!(".rela{}", section.name().unwrap());
            let Some(table) = file.section_by_name(&name) else { continue };
            all.extend(relocations(table.data().unwrap()).map(|it| it.r_type));
        }
    }
    all
}

#[test]
fn another_layout_is_the_same() {
    for way in ways() {
        let inputs = objects_of(&way);
        let (lines, counts) = differences(&inputs, &linked(&way, "plain"), &linked(&way, "moved"));
        let said: String = lines.iter().map(text).collect();
        assert_eq!(said, "", "{way}");
        assert_eq!(counts.nowhere, 0, "{way}");
        // the marks have no value
        let marks = ["R_RISCV_RELAX", "R_RISCV_ALIGN", "R_LARCH_RELAX", "R_LARCH_ALIGN"];
        let architecture = elf::read_linked(&linked(&way, "plain")).unwrap().architecture;
        let is_mark = |r_type: u32| marks.contains(&architecture.name(r_type).unwrap());
        let all = r_types(&inputs).into_iter().filter(|r_type| !is_mark(*r_type)).count();
        assert_eq!(counts.relocations, all, "{way}");
    }
}

/// What a rewrite is called, by the mnemonics of both instructions.
const REWRITES: [(&str, &str, &str); 12] = [
    // x86-64
    ("movq", "leaq", "MovIndirectToLea (direct)"),
    // AArch64: the low half of an address, and the high one
    ("add", "adr", "AdrpAddToNopAdr (direct)"),
    ("ldr", "adr", "LdrToAdd, AdrpAddToNopAdr (direct)"),
    ("adrp", "nop", "part of another's rewrite"),
    // RISC-V
    ("auipc", "jal", "CallToJal (direct)"),
    // PowerPC64: near the TOC, or another symbol's high part
    ("addis", "nop", "AddisToNop"),
    ("addis", "addis", "as it was (direct)"),
    ("ld", "addi", "LdToAddi (direct)"),
    ("ld", "addi of r2", "LdToAddi, BaseToToc (direct)"),
    ("ld", "ld of r2", "BaseToToc (direct)"),
    ("addi", "addi of r2", "BaseToToc (direct)"),
    ("std", "std of r2", "BaseToToc (direct)"),
];

/// `tests/changed.py` counted the places from the instructions.
#[test]
fn relaxed_code_differs_at_the_counted_places() {
    let path = Path::new(env!("CARGO_MANIFEST_DIR")).join("tests/relaxed.txt");
    let counted = fs::read_to_string(path).unwrap();
    let counted: Vec<(&str, [&str; 2])> = counted
        .lines()
        .map(|line| {
            let (head, both) = line.rsplit_once(": ").unwrap();
            let (before, after) = both.split_once(" -> ").unwrap();
            (head, [before, after])
        })
        .collect();
    let mut named = Vec::new();
    for way in ways() {
        let inputs = objects_of(&way);
        let (lines, _) = differences(&inputs, &linked(&way, "plain"), &linked(&way, "relaxed"));
        // the words of PowerPC64's `.toc` can't be found any more where nothing leads to them
        let lines = lines.into_iter().filter(|line| !line.place.starts_with(".toc+"));
        named.extend(lines.map(|line| (format!("{way}/{}", report::head(&line)), line)));
    }
    let heads = |all: &mut dyn Iterator<Item = String>| all.collect::<Vec<_>>().join("\n");
    assert_eq!(
        heads(&mut named.iter().map(|(head, _)| head.clone())),
        heads(&mut counted.iter().map(|(head, _)| head.to_string())),
    );
    for ((head, line), (_, [before, after])) in named.iter().zip(counted) {
        let [a, b] = &line.made;
        let said = report::words(line, b);
        let known = REWRITES.iter().any(|rewrite| *rewrite == (before, after, &said[..]));
        assert!(known, "{head}: {before} is {after}, and {said}");
        let wanted = if head.contains("GOT") || head.contains(" .toc") { "as it was (through the GOT)" } else { "as it was (direct)" };
        assert_eq!(report::words(line, a), wanted, "{head}");
    }
}

type Parsed<'a> = object::read::elf::ElfFile64<'a, object::LittleEndian>;

fn addresses(bytes: &[u8]) -> HashMap<String, u64> {
    let file = Parsed::parse(bytes).unwrap();
    file.symbols().map(|one| (one.name().unwrap().to_string(), one.address())).collect()
}

/// Where the file has the byte at an address.
fn file_offset(bytes: &[u8], address: u64) -> usize {
    let file = Parsed::parse(bytes).unwrap();
    for section in file.sections() {
        let (start, Some((offset, len))) = (section.address(), section.file_range()) else { continue };
        if start != 0 && start <= address && address < start + len {
            return (offset + address - start) as usize;
        }
    }
    panic!("{address:#x} isn't in the file")
}

#[test]
fn a_wrong_target_is_found() {
    for way in ways() {
        let inputs = objects_of(&way);
        let plain = linked(&way, "plain");
        let at = addresses(&plain);
        let all = elf::read_objects("main.o", &inputs[1].1).unwrap();
        let text = all[0].sections.iter().position(|one| one.name.starts_with(".text") && !one.bytes.is_empty());
        let (section, main) = all[0]
            .symbols
            .iter()
            .find(|one| one.name == "main")
            .map(|one| match one.home {
                elf::Home::Section(section) => (section, one.value),
                _ => panic!("{way} {text:?}"),
            })
            .unwrap();
        // the first call of `say` in `main`
        let architecture = all[0].architecture;
        let call = all[0].sections[section]
            .relocations
            .iter()
            .find(|one| all[0].symbols[one.symbol].name == "say" && one.offset >= main)
            .unwrap();
        let row = architecture.row(call.r_type).unwrap();
        let place = at["main"] + call.offset - main;
        let operands = Operands {
            symbol: at["begin"],
            plt_entry: at["begin"],
            addend: call.addend,
            place,
            ..Operands::default()
        };
        let mut planted = plain.clone();
        let field = file_offset(&plain, place);
        row.write(row.value(&operands).unwrap(), &mut planted[field..]).unwrap();
        assert_ne!(planted, plain, "{way}");
        let (lines, _) = differences(&inputs, &plain, &planted);
        assert_eq!(lines.len(), 1, "{way}");
        assert_eq!((lines[0].relocation, &lines[0].symbol[..3]), (call.r_type, "say"), "{way}");
        let distance = call.offset - main;
        assert_eq!(lines[0].place, format!("main+{distance:#x}"), "{way}");
        let said = report::words(&lines[0], &lines[0].made[1]);
        assert!(said.ends_with("to begin"), "{way}: {said}");
    }
}

#[test]
fn another_symbols_got_entry_is_found() {
    let mut named = 0;
    for way in ways().iter().filter(|way| way.ends_with("PIC")) {
        let inputs = objects_of(way);
        let plain = linked(way, "plain");
        let at = addresses(&plain);
        let mut planted = plain.clone();
        let file = Parsed::parse(&plain[..]).unwrap();
        for name in [".got", ".toc"] {
            let Some(section) = file.section_by_name(name) else { continue };
            let (offset, len) = section.file_range().unwrap();
            for word in planted[offset as usize..][..len as usize].chunks_exact_mut(8) {
                if word == at["swaps"].to_le_bytes() {
                    word.copy_from_slice(&at["said"].to_le_bytes());
                }
            }
        }
        assert_ne!(planted, plain, "{way}");
        let (lines, _) = differences(&inputs, &plain, &planted);
        assert!(!lines.is_empty(), "{way}");
        for line in &lines {
            let is_low = line.symbol.contains("pcrel_hi") || line.symbol.starts_with(".L");
            assert!(line.symbol.starts_with("swaps") || is_low, "{way}: {}", text(line));
            let said = report::words(line, &line.made[1]);
            named += usize::from(said.ends_with("said"));
        }
        assert!(lines.iter().any(|line| report::words(line, &line.made[1]).ends_with("said")), "{way}");
    }
    assert!(named > 0);
}

/// `adrp` and `ldr` of a GOT entry become `adrp` and `add`, where the entry is in the symbol's page.
#[test]
fn a_high_part_is_told_by_its_low_half() {
    let way = "aarch64/gcc-O2-PIC";
    let inputs = objects_of(way);
    let plain = linked(way, "moved");
    let at = addresses(&plain);
    let file = Parsed::parse(&plain[..]).unwrap();
    let got = file.section_by_name(".got").unwrap();
    assert_eq!(got.address() >> 12, (got.address() + got.size() - 1) >> 12);
    assert_eq!(got.address() >> 12, at["swaps"] >> 12);
    let all = elf::read_objects("main.o", &inputs[1].1).unwrap();
    let main = all[0].symbols.iter().find(|one| one.name == "main").unwrap();
    let elf::Home::Section(section) = main.home else { panic!() };
    let of_swaps = |r_type: u32| {
        let mut found = all[0].sections[section].relocations.iter();
        found.find(|one| one.r_type == r_type && all[0].symbols[one.symbol].name == "swaps").unwrap()
    };
    // R_AARCH64_ADR_GOT_PAGE, and R_AARCH64_LD64_GOT_LO12_NC
    let (high, low) = (of_swaps(311), of_swaps(312));
    let mut planted = plain.clone();
    let field = file_offset(&plain, at["main"] + low.offset - main.value);
    let load = u32::from_le_bytes(plain[field..field + 4].try_into().unwrap());
    assert_eq!(load >> 22, 0xf9400000 >> 22);
    let add = 0x91000000 | ((at["swaps"] & 0xfff) as u32) << 10 | (load & 0x3ff);
    planted[field..field + 4].copy_from_slice(&add.to_le_bytes());
    let (lines, _) = differences(&inputs, &plain, &planted);
    let said: String = lines.iter().map(text).collect();
    let (high, low) = (high.offset - main.value, low.offset - main.value);
    let wanted = format!(
        "\
main.o: main+{high:#x}  R_AARCH64_ADR_GOT_PAGE swaps
    A: as it was (through the GOT)
    B: as R_AARCH64_ADR_PREL_PG_HI21 (direct)
main.o: main+{low:#x}  R_AARCH64_LD64_GOT_LO12_NC swaps
    A: as it was (through the GOT)
    B: LdrToAdd (direct)
"
    );
    assert_eq!(said, wanted);
}

#[test]
fn mutated_files_are_read_without_a_panic() {
    let mut random = Random(0x5eed_1e55_c0ff_ee11);
    let ways = ways();
    let (mut rejected, mut read, mut contradictory) = (0, 0, 0);
    for round in 0..10_000 {
        let way = &ways[round % ways.len()];
        let mut files = objects_of(way);
        files.push(("A".into(), linked(way, "plain")));
        files.push(("B".into(), linked(way, "relaxed")));
        let which = random.below(files.len());
        let bytes = &mut files[which].1;
        let tables = u64::from_le_bytes(bytes[40..48].try_into().unwrap()) as usize;
        for _ in 0..1 + random.below(4) {
            let len = bytes.len();
            match random.below(6) {
                0 => bytes.truncate(1 + random.below(len)),
                1 => bytes[random.below(len.min(64))] = random.below(256) as u8,
                2 if tables < len => bytes[tables + random.below(len - tables)] ^= 1 << random.below(8),
                3 if len > 16 => {
                    let at = random.below(len - 8);
                    bytes[at..at + 8].fill([0, 0xff, 0x7f][random.below(3)]);
                }
                _ => bytes[random.below(len)] = random.below(256) as u8,
            }
        }
        let linked = files.split_off(files.len() - 2);
        let objects: Result<Vec<_>, _> =
            files.iter().map(|(name, bytes)| elf::read_objects(name, bytes)).collect();
        let both = (elf::read_linked(&linked[0].1), elf::read_linked(&linked[1].1));
        let (Ok(objects), (Ok(a), Ok(b))) = (objects, both) else {
            rejected += 1;
            continue;
        };
        let objects: Vec<_> = objects.into_iter().flatten().collect();
        read += 1;
        let counts = compare(&objects, [&a, &b], &|_, _| (), |one| {
            let line = one.line();
            text(&line);
            report::line_as_json(&line).to_string();
        });
        contradictory += usize::from(counts.is_err());
    }
    assert!(rejected > 1000 && read > 1000, "{rejected} rejected, {read} read");
    assert!(contradictory > 10, "{contradictory}");
}

/// An x86-64 program of 100,000 relocations, as the system's assembler and linker make it.
#[test]
#[cfg(target_arch = "x86_64")]
fn a_hundred_thousand_relocations_take_less_than_three_seconds() {
    use std::process::Command;
    use std::time::Duration;
    let room = std::env::temp_dir().join(format!("compare-{}", std::process::id()));
    fs::create_dir_all(&room).unwrap();
    let mut source = String::from(".globl _start\n_start:\n");
    for index in 0..50_000_u64 {
        source += &format!(".globl f{index}\nf{index}: call f{}\n", (index * 7919) % 50_000);
        source += &format!("mov f{}@GOTPCREL(%rip), %rax\n", (index * 104_729) % 50_000);
    }
    fs::write(room.join("a.s"), source).unwrap();
    let run = |program: &str, arguments: &[&str]| {
        let status = Command::new(program).args(arguments).current_dir(&room).status().unwrap();
        assert!(status.success(), "{program}");
    };
    run("as", &["--64", "a.s", "-o", "a.o"]);
    run("ld", &["--no-relax", "a.o", "-o", "plain"]);
    run("ld", &["a.o", "-o", "relaxed"]);
    let read = |name: &str| fs::read(room.join(name)).unwrap();
    let (object, plain, relaxed) = (read("a.o"), read("plain"), read("relaxed"));
    fs::remove_dir_all(&room).unwrap();
    let inputs = [("a.o".to_string(), object)];
    // the processor's time for this thread, in nanoseconds: others may use the machine too
    let spent = || -> u64 {
        let said = fs::read_to_string("/proc/thread-self/schedstat").unwrap();
        said.split(' ').next().unwrap().parse().unwrap()
    };
    // the least of three runs: the same work took from 1.9 to 2.5 seconds on one machine
    let mut least = Duration::MAX;
    for _ in 0..3 {
        let start = spent();
        let (lines, counts) = differences(&inputs, &plain, &relaxed);
        least = least.min(Duration::from_nanos(spent() - start));
        assert_eq!((lines.len(), counts.relocations), (50_000, 100_000));
    }
    assert!(least < Duration::from_secs(3), "{least:?}");
    eprintln!("100,000 relocations: {least:?}");
}

fn program(arguments: &[&Path]) -> (Option<i32>, String, String) {
    let out = std::process::Command::new(env!("CARGO_BIN_EXE_compare-links")).args(arguments).output();
    let out = out.unwrap();
    let text = |bytes| String::from_utf8(bytes).unwrap();
    (out.status.code(), text(out.stdout), text(out.stderr))
}

#[test]
fn the_program_returns_its_status() {
    let root = Path::new(env!("CARGO_MANIFEST_DIR"));
    let objects = root.join("../objects/x86_64/clang-Os-PIC");
    let linked = root.join("tests/linked/x86_64/clang-Os-PIC");
    let mut files: Vec<PathBuf> = FILES.iter().map(|name| objects.join(format!("{name}.o"))).collect();
    files.extend([linked.join("plain"), linked.join("moved")]);
    let run = |files: &[PathBuf], option: Option<&str>| {
        let option = option.map(PathBuf::from);
        let all: Vec<&Path> = option.iter().chain(files).map(PathBuf::as_path).collect();
        program(&all)
    };
    assert_eq!(run(&files, None), (Some(0), "81 relocations, 0 differ\n".into(), String::new()));
    files[6] = linked.join("relaxed");
    let (status, said, errors) = run(&files, Some("--json"));
    assert_eq!((status, &errors[..]), (Some(1), ""));
    let lines: Vec<serde_json::Value> =
        said.lines().map(|line| serde_json::from_str(line).unwrap()).collect();
    let (last, lines) = lines.split_last().unwrap();
    assert_eq!(last["different"], 12);
    assert_eq!(lines.len(), 12);
    assert_eq!(lines[0]["b"]["rewrite"], "MovIndirectToLea");
    assert_eq!(run(&files, Some("--all")).1.lines().filter(|line| line.contains("both: ")).count(), 69);

    // by function, the worst first, and a summary that fits a screen
    let (status, said, _) = run(&files, None);
    let heads = said.lines().filter_map(|line| line.split_once(" of ")?.1.split_once(" of ")).map(|it| it.0);
    let heads: Vec<&str> = heads.take(2).collect();
    assert_eq!((status, &heads[..]), (Some(1), &["47 differ in main", "4 differ in say"][..]));
    let (status, summary, _) = run(&files, Some("--summary"));
    assert_eq!(status, Some(1));
    assert!(said.ends_with(&summary) && summary.starts_with("81 relocations, 12 differ\n"));
    assert!(summary.lines().count() <= 24 && summary.lines().all(|line| line.chars().count() <= 80));
    let way = "12: as it was (through the GOT) | MovIndirectToLea (direct)";
    assert!(summary.trim_end().ends_with(way), "{summary}");

    let fails = |file: PathBuf, wanted: &str| {
        let mut files = files.clone();
        files[6] = file.clone();
        let (status, said, errors) = run(&files, None);
        assert_eq!((status, &said[..]), (Some(2), ""));
        assert_eq!(errors, format!("compare-links: {}: {wanted}\n", file.display()));
    };
    fails(root.join("tests/none"), "No such file or directory (os error 2)");
    fails(objects.join("main.o"), "this isn't a linked file");
    let other = root.join("tests/linked/aarch64/gcc-Os/plain");
    fails(other, &format!("of another machine than {}", files[5].display()));
    files[0] = linked.join("plain");
    let wanted = format!("compare-links: {}: this isn't a relocatable object\n", files[0].display());
    assert_eq!(run(&files, None), (Some(2), String::new(), wanted));
    assert_eq!(program(&[Path::new("--help")]).0, Some(0));
    let (status, said, errors) = program(&[]);
    assert_eq!((status, &said[..]), (Some(2), ""));
    let wanted = "at least one object and two linked files are needed; see compare-links --help";
    assert_eq!(errors, format!("compare-links: {wanted}\n"));
}

fn number(bytes: &[u8], at: usize) -> usize {
    u64::from_le_bytes(bytes[at..at + 8].try_into().unwrap()) as usize
}

/// Where the first section header of a type is.
fn head_of(bytes: &[u8], kind: u32) -> usize {
    let count = usize::from(u16::from_le_bytes(bytes[60..62].try_into().unwrap()));
    let mut heads = (0..count).map(|index| number(bytes, 40) + 64 * index);
    heads.find(|at| bytes[at + 4..at + 8] == kind.to_le_bytes()).unwrap()
}

/// Where the value of a symbol is.
fn value_of(bytes: &[u8], name: &str) -> usize {
    let file = Parsed::parse(bytes).unwrap();
    let symbol = file.symbols().find(|one| one.name() == Ok(name)).unwrap();
    number(bytes, head_of(bytes, 2) + 24) + 24 * symbol.index().0 + 8
}

#[test]
fn bad_files_are_rejected_with_a_sentence() {
    let room = std::env::temp_dir().join(format!("compare-bad-{}", std::process::id()));
    fs::create_dir_all(&room).unwrap();
    for way in ["aarch64/gcc-Os", "loongarch64/clang-O2", "powerpc64le/gcc-O1", "riscv64/gcc-Os", "x86_64/gcc-Os"] {
        let inputs = objects_of(way);
        let plain = linked(way, "plain");
        for (name, bytes) in &inputs {
            fs::write(room.join(name), bytes).unwrap();
        }
        fs::write(room.join("plain"), &plain).unwrap();
        // the whole of a line for one of the files that is bad
        let says = |bad: &str, bytes: &[u8], wanted: &str| {
            let is_object = bad.ends_with(".o");
            fs::write(room.join("bad"), bytes).unwrap();
            let place = |name: &str| room.join(if name == bad { "bad" } else { name });
            let mut files: Vec<_> = FILES.iter().map(|name| place(&format!("{name}.o"))).collect();
            files.push(room.join("plain"));
            files.push(room.join(if is_object { "plain" } else { "bad" }));
            let files: Vec<&Path> = files.iter().map(PathBuf::as_path).collect();
            let wanted = format!("compare-links: {}: {wanted}\n", room.join("bad").display());
            assert_eq!(program(&files), (Some(2), String::new(), wanted), "{way}");
        };
        for (name, bytes) in [("text.o", &inputs[4].1), ("plain", &plain)] {
            let changed = |at: usize, new: &[u8]| {
                let mut bytes = bytes.clone();
                bytes[at..at + new.len()].copy_from_slice(new);
                bytes
            };
            says(name, &[], "this isn't an ELF file");
            says(name, &bytes[..40], "Invalid ELF header size or alignment");
            says(name, &bytes[..bytes.len() - 1], "Invalid ELF section header offset/size/alignment");
            let only = "only 64-bit files with little-endian data are read";
            says(name, &changed(4, &[1]), only);
            says(name, &changed(5, &[2]), only);
            says(name, &changed(18, &[40, 0]), "the machine 40 isn't one that is known");
            let code = head_of(bytes, 1);
            let file = Parsed::parse(&bytes[..]).unwrap();
            let index = object::SectionIndex((code - number(bytes, 40)) / 64);
            let section = file.section_by_index(index).unwrap();
            let wanted = format!("section {} ends past the file's end", section.name().unwrap());
            says(name, &changed(code + 32, &u64::to_le_bytes(1 << 40)), &wanted);
            says(name, &changed(head_of(bytes, 2) + 4, &[1]), "it has no symbol table");
        }
        // two functions of a section that have changed places
        let objects = elf::read_objects("text.o", &inputs[4].1).unwrap();
        let offset = |name: &&str| objects[0].symbols.iter().find(|one| one.name == *name).unwrap().value;
        let mut names = ["length", "say", "say_number"];
        names.sort_by_key(offset);
        let names = [names[0], names[1]];
        let [first, second] = names.map(|name| value_of(&plain, name));
        let mut bad = plain.clone();
        bad[first..first + 8].copy_from_slice(&plain[second..second + 8]);
        bad[second..second + 8].copy_from_slice(&plain[first..first + 8]);
        let (path, [first, second]) = (room.join("text.o"), names);
        says("plain", &bad, &format!("{first} and {second} overlap, or aren't those of {}", path.display()));
    }
    fs::remove_dir_all(room).unwrap();
}

/// The section headers are the last of each file.
#[test]
fn files_that_are_cut_short_are_rejected() {
    for way in ways() {
        let plain = linked(&way, "plain");
        let (name, object) = &objects_of(&way)[1];
        for len in 0..plain.len() {
            assert!(elf::read_linked(&plain[..len]).is_err(), "{way} {len}");
        }
        for len in 0..object.len() {
            assert!(elf::read_objects(name, &object[..len]).is_err(), "{way} {len}");
        }
    }
}

#[test]
fn archives_are_read() {
    for architecture in ["aarch64", "loongarch64", "powerpc64le", "riscv64", "x86_64"] {
        let root = Path::new(env!("CARGO_MANIFEST_DIR")).join("../objects").join(architecture).join("tls");
        let bytes = fs::read(root.join("first.a")).unwrap();
        let objects = elf::read_objects("first.a", &bytes).unwrap();
        let paths: Vec<&str> = objects.iter().map(|one| one.path.as_str()).collect();
        assert_eq!(paths, ["first.a(first_part.o)", "first.a(third_part.o)", "first.a(unneeded_part.o)"]);
    }
}
