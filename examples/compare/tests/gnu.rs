// SPDX-License-Identifier: MIT OR Apache-2.0
//! The programs of `tests/gnu`, as GNU ld and ld.lld 19 linked them (`tests/gnu/make`).

mod random;

use compare::{Counts, Line, compare, elf, report};
use linker_utils::section::relocations;
use object::read::elf::ElfFile64;
use object::{LittleEndian, Object, ObjectSection, ObjectSymbol};
use random::Random;
use std::fs;
use std::path::{Path, PathBuf};

/// Folders, the names of both linked files, and how many relocations aren't in the files: those of
/// the member of the archive that isn't linked, and of `.toc` where nothing leads to it any more.
const PROGRAMS: [(&str, [&str; 2], usize); 8] = [
    ("aarch64", ["lld", "gnu"], 2),
    ("loongarch64", ["lld", "gnu"], 2),
    ("powerpc64le", ["lld", "gnu"], 2),
    ("riscv64", ["lld", "gnu"], 2),
    ("x86_64", ["lld", "gnu"], 2),
    ("descriptors", ["no-relax", "relax"], 0),
    ("prefixed", ["lld", "gnu"], 0),
    ("toc", ["lld", "without_got"], 2),
];

fn path(folder: &str, name: &str) -> PathBuf {
    Path::new(env!("CARGO_MANIFEST_DIR")).join("tests/gnu").join(folder).join(name)
}

fn file(folder: &str, name: &str) -> Vec<u8> {
    fs::read(path(folder, name)).unwrap()
}

/// The objects, by name and with their bytes.
fn inputs(folder: &str) -> Vec<(&'static str, Vec<u8>)> {
    let names = ["program.o", "library.a"].into_iter().filter(|name| path(folder, name).exists());
    names.map(|name| (name, file(folder, name))).collect()
}

/// All relocations, in two linked files.
fn rows(inputs: &[(&str, Vec<u8>)], a: &[u8], b: &[u8]) -> (Vec<Line>, Counts) {
    let objects: Vec<_> =
        inputs.iter().flat_map(|(name, bytes)| elf::read_objects(name, bytes).unwrap()).collect();
    let (a, b) = (elf::read_linked(a).unwrap(), elf::read_linked(b).unwrap());
    let mut lines = Vec::new();
    let counts = compare(&objects, [&a, &b], &|_, _| (), |one| lines.push(one.line())).unwrap();
    (lines, counts)
}

fn rows_of(folder: &str, names: [&str; 2]) -> (Vec<Line>, Counts) {
    let [a, b] = names.map(|name| file(folder, name));
    rows(&inputs(folder), &a, &b)
}

/// The offsets and types of a section's relocations in a file, by the section tables alone.
fn table(bytes: &[u8], section: &str) -> Vec<(u64, u32)> {
    let it = ElfFile64::<LittleEndian>::parse(bytes).unwrap();
    let Some(table) = it.section_by_name(&format!(".rela{section}")) else { return Vec::new() };
    relocations(table.data().unwrap()).map(|it| (it.offset, it.r_type)).collect()
}

/// GNU ld, and ld.lld for RISC-V, wrote into the files where they have each relocation.
#[test]
fn places_are_those_that_the_linkers_wrote() {
    let marks = [("riscv64", [43, 51]), ("descriptors", [43, 51]), ("loongarch64", [100, 102])];
    for (folder, names, which) in [
        ("riscv64", ["lld", "gnu"], &[0, 1][..]),
        ("descriptors", ["no-relax", "relax"], &[0, 1]),
        ("loongarch64", ["lld", "gnu"], &[1]),
        ("x86_64", ["lld", "gnu"], &[1]),
        ("aarch64", ["lld", "gnu"], &[1]),
    ] {
        let (rows, _) = rows_of(folder, names);
        let object = file(folder, "program.o");
        let parsed = elf::read_objects("program.o", &object).unwrap();
        let marks = marks.iter().find(|(name, _)| *name == folder).map_or([0; 2], |one| one.1);
        for which in which {
            let linked = file(folder, names[*which]);
            let mut rows = rows.iter();
            let mut count = 0;
            for section in parsed[0].sections.iter().filter(|one| one.is_allocated) {
                let there = table(&linked, &section.name);
                let here = table(&object, &section.name);
                // the linkers sort arrays, and put all into one section
                let is_array = section.name.starts_with(".init_array");
                let array = table(&linked, ".init_array");
                for (at, (_, r_type)) in here.into_iter().enumerate() {
                    if marks.contains(&r_type) || r_type == 0 {
                        continue;
                    }
                    let row = rows.next().unwrap();
                    let address = row.addresses[*which].unwrap_or(0);
                    let said = report::head(row);
                    if is_array {
                        assert!(array.iter().any(|one| one.0 == address), "{folder} {said}");
                    } else {
                        assert_eq!(there[at].0, address, "{folder} {} {said}", names[*which]);
                    }
                    count += 1;
                }
            }
            assert!(count > 10, "{folder}");
            assert!(rows.next().is_none(), "{folder}");
        }
    }
}

/// A constructor of priority 101 comes before one without.
#[test]
fn arrays_are_found_in_their_order() {
    for (folder, names, _) in &PROGRAMS[..5] {
        let (rows, _) = rows_of(folder, *names);
        let place = |start: &str| {
            let row = rows.iter().find(|row| row.place.starts_with(start)).unwrap();
            assert!(row.is_same(), "{folder} {start}");
            row.addresses
        };
        let (plain, first) = (place(".init_array+"), place(".init_array.101+"));
        assert_eq!(first.map(|at| at.unwrap() + 8), plain.map(Option::unwrap), "{folder}");
        let frames = rows.iter().filter(|row| row.place.starts_with(".eh_frame+")).count();
        assert!(frames >= 3, "{folder}");
    }
}

/// `library.a(member.o)` has the global symbol `error`, and `program.o` a local one.
#[test]
fn a_member_that_isnt_linked_isnt_another_objects_local_symbol() {
    for (folder, names, nowhere) in PROGRAMS {
        let (rows, counts) = rows_of(folder, names);
        assert_eq!(counts.nowhere, nowhere, "{folder}");
        for row in &rows {
            assert_eq!(row.object, "program.o", "{folder}");
            for made in &row.made {
                let said = report::words(row, made);
                let is_unknown = said.contains("not in the file") || said.contains("not recog");
                assert!(!is_unknown, "{folder}: {} {said}", report::head(row));
            }
        }
    }
}

/// The first word of the pair in the GOT is the module's number.
const MODULE: &str = "PcalaToPcaddi (through the GOT) to the GOT entry of 0x1";

/// What is said of a relocation, by its name and the instruction that `tests/gnu/instructions.py`
/// found at its place. `deleted` is none.
const SAID: [(&str, &str, &str); 133] = [
    ("R_AARCH64_ADR_GOT_PAGE", "adrp x0, N", "as it was (through the GOT)"),
    ("R_AARCH64_ADR_GOT_PAGE", "nop", "part of another's rewrite"),
    ("R_AARCH64_CALL26", "bl N", "as it was (direct)"),
    ("R_AARCH64_JUMP26", "b N", "as it was (direct)"),
    ("R_AARCH64_LD64_GOT_LO12_NC", "adr x0, N", "LdrToAdd, AdrpAddToNopAdr (direct)"),
    ("R_AARCH64_LD64_GOT_LO12_NC", "ldr x0, [x0, #N]", "as it was (through the GOT)"),
    ("R_LARCH_B21", "beqz $a0, N", "as it was (direct)"),
    ("R_LARCH_B21", "bnez $a1, N", "as it was (direct)"),
    ("R_LARCH_B26", "b N", "as it was (direct)"),
    ("R_LARCH_B26", "bl N", "as it was (direct)"),
    ("R_LARCH_B26", "jirl $ra, $zero, N", "CallToJirl"),
    ("R_LARCH_CALL36", "bl N", "CallToBl (direct)"),
    ("R_LARCH_GOT_PC_HI20", "pcaddi $a1, N", "PcalaToPcaddi (direct)"),
    ("R_LARCH_GOT_PC_LO12", "deleted", "Delete"),
    ("R_LARCH_PCALA_HI20", "pcaddi $a0, N", "PcalaToPcaddi (direct)"),
    ("R_LARCH_PCALA_LO12", "deleted", "Delete"),
    ("R_LARCH_TLS_DESC_CALL", "deleted", "Delete"),
    ("R_LARCH_TLS_DESC_LD", "deleted", "Delete"),
    ("R_LARCH_TLS_DESC_PC_HI20", "deleted", "Delete"),
    ("R_LARCH_TLS_DESC_PC_LO12", "ori $a0, $zero, N", "LowToOriZero (direct)"),
    ("R_LARCH_TLS_GD_PC_HI20", "pcaddi $a0, N", MODULE),
    ("R_LARCH_TLS_IE_PC_HI20", "deleted", "Delete"),
    ("R_LARCH_TLS_IE_PC_HI20", "lu12i.w $t0, N", "PcalaToLu12i (direct)"),
    ("R_LARCH_TLS_IE_PC_LO12", "ori $a2, $zero, N", "LowToOriZero (direct)"),
    ("R_LARCH_TLS_IE_PC_LO12", "ori $a4, $zero, N", "LowToOriZero (direct)"),
    ("R_LARCH_TLS_IE_PC_LO12", "ori $t1, $t0, N", "LowToOri (direct)"),
    ("R_LARCH_TLS_LD_PC_HI20", "pcaddi $a0, N", MODULE),
    ("R_LARCH_TLS_LE_HI20", "deleted", "Delete"),
    ("R_LARCH_TLS_LE_LO12", "ori $a5, $zero, N", "BaseToZero (direct)"),
    ("R_PPC64_GOT_TLSGD16_HA", "nop", "AddisToNop"),
    ("R_PPC64_GOT_TLSGD16_LO", "addis 3, 13, 0", "AddiToAddisThread (direct)"),
    ("R_PPC64_GOT_TLSGD16_LO", "nop", "AddiToNop"),
    ("R_PPC64_GOT_TLSLD16_HA", "nop", "AddisToNop"),
    ("R_PPC64_GOT_TLSLD16_LO", "addis 3, 13, 0", "AddiToAddisThread"),
    ("R_PPC64_GOT_TLSLD16_LO", "nop", "AddiToNop"),
    ("R_PPC64_GOT_TPREL16_HA", "nop", "AddisToNop"),
    ("R_PPC64_GOT_TPREL16_LO_DS", "addis 10, 13, 0", "LdToAddisThread (direct)"),
    ("R_PPC64_GOT_TPREL16_LO_DS", "addis 3, 13, 0", "LdToAddisThread (direct)"),
    ("R_PPC64_GOT_TPREL16_LO_DS", "addis 9, 13, 0", "LdToAddisThread (direct)"),
    ("R_PPC64_GOT_TPREL16_LO_DS", "nop", "LdToNop"),
    ("R_PPC64_GOT_TPREL_PCREL34", "paddi 3, 13, N, 0", "PldToPaddiThread (direct)"),
    ("R_PPC64_GOT_TPREL_PCREL34", "paddi 4, 13, N, 0", "PldToPaddiThread (direct)"),
    ("R_PPC64_GOT_TPREL_PCREL34", "paddi 6, 13, N, 0", "PldToPaddiThread (direct)"),
    ("R_PPC64_REL16_HA", "addis 2, 12, 1", "as it was (direct)"),
    ("R_PPC64_REL16_HA", "lis 2, N", "AddisToLis (direct)"),
    ("R_PPC64_REL16_LO", "addi 2, 2, N", "AddiAfterLis (direct)"),
    ("R_PPC64_REL16_LO", "addi 2, 2, N", "as it was (direct)"),
    ("R_PPC64_REL24", "addi 3, 13, N", "part of another's rewrite"),
    ("R_PPC64_REL24", "bl N", "NopToRestoreToc (direct)"),
    ("R_PPC64_REL24", "bl N", "as it was (direct) to 0 bytes from its place"),
    ("R_PPC64_REL24", "bl N", "as it was (direct)"),
    ("R_PPC64_REL24", "nop", "CallToNop"),
    ("R_PPC64_REL24", "nop", "part of another's rewrite"),
    ("R_PPC64_TLS", "addi 3, 13, N", "AddToAddi, BaseToThread (direct)"),
    ("R_PPC64_TLS", "addi 3, 3, N", "AddToAddi (direct)"),
    ("R_PPC64_TLS", "lwz 4, N(13)", "IndexedToD, BaseToThread (direct)"),
    ("R_PPC64_TLS", "lwz 4, N(9)", "IndexedToD (direct)"),
    ("R_PPC64_TLS", "lwz 5, 0(4)", "IndexedToDirect"),
    ("R_PPC64_TLS", "nop", "AddToMove"),
    ("R_PPC64_TLS", "std 4, N(10)", "IndexedToDs (direct)"),
    ("R_PPC64_TLS", "std 4, N(13)", "IndexedToDs, BaseToThread (direct)"),
    ("R_PPC64_TLS", "std 5, 0(6)", "IndexedToDirect"),
    ("R_PPC64_TLSGD", "addi 3, 13, N", "CallToAddi, BaseToThread (direct)"),
    ("R_PPC64_TLSGD", "nop", "CallToAddi (direct)"),
    ("R_PPC64_TLSLD", "addi 3, 13, N", "CallToAddi4096, BaseToThread"),
    ("R_PPC64_TLSLD", "nop", "CallToAddi4096"),
    ("R_PPC64_TOC16_HA", "addis 3, 2, N", "as it was (direct)"),
    ("R_PPC64_TOC16_HA", "addis 4, 2, N", "as it was (direct)"),
    ("R_PPC64_TOC16_LO_DS", "addi 3, 3, N", "LdToAddi (direct)"),
    ("R_PPC64_TOC16_LO_DS", "addi 4, 4, N", "LdToAddi (direct)"),
    ("R_PPC64_TPREL16_HA", "addis 5, 13, 0", "as it was (direct)"),
    ("R_PPC64_TPREL16_HA", "addis 6, 13, 0", "as it was (direct)"),
    ("R_PPC64_TPREL16_HA", "nop", "AddisThreadToNop"),
    ("R_PPC64_TPREL16_LO", "addi 5, 13, N", "BaseToThread (direct)"),
    ("R_PPC64_TPREL16_LO", "addi 5, 5, N", "as it was (direct)"),
    ("R_PPC64_TPREL16_LO_DS", "ld 6, N(13)", "BaseToThread (direct)"),
    ("R_PPC64_TPREL16_LO_DS", "ld 6, N(6)", "as it was (direct)"),
    ("R_RISCV_BRANCH", "beqz a0, N", "as it was (direct)"),
    ("R_RISCV_BRANCH", "bnez a1, N", "as it was (direct)"),
    ("R_RISCV_CALL_PLT", "auipc ra, N", "BaseToZero"),
    ("R_RISCV_CALL_PLT", "auipc ra, N", "as it was (direct) to 0 bytes from its place"),
    ("R_RISCV_CALL_PLT", "auipc ra, N", "as it was (direct)"),
    ("R_RISCV_CALL_PLT", "j N", "TailToJal (direct)"),
    ("R_RISCV_CALL_PLT", "jal N", "CallToJal (direct)"),
    ("R_RISCV_CALL_PLT", "jalr N(zero)", "CallToJalr (direct)"),
    ("R_RISCV_HI20", "deleted", "Hi20Delete"),
    ("R_RISCV_HI20", "lui a3, N", "as it was (direct)"),
    ("R_RISCV_HI20", "lui a4, N", "as it was (direct)"),
    ("R_RISCV_JAL", "j N", "as it was (direct)"),
    ("R_RISCV_LO12_I", "addi a3, a3, N", "as it was (direct)"),
    ("R_RISCV_LO12_I", "ld a4, N(a4)", "as it was (direct)"),
    ("R_RISCV_LO12_I", "ld a4, N(gp)", "BaseToGp (direct)"),
    ("R_RISCV_LO12_I", "li a3, N", "Lo12Rs1ToZero (direct)"),
    ("R_RISCV_PCREL_HI20", "auipc a0, N", "as it was (direct)"),
    ("R_RISCV_PCREL_HI20", "auipc a1, N", "as it was (direct)"),
    ("R_RISCV_PCREL_HI20", "auipc a2, N", "as it was (direct)"),
    ("R_RISCV_PCREL_HI20", "auipc gp, N", "as it was (direct)"),
    ("R_RISCV_PCREL_HI20", "auipc t0, N", "as it was (direct)"),
    ("R_RISCV_PCREL_HI20", "auipc t1, N", "as it was (direct)"),
    ("R_RISCV_PCREL_HI20", "deleted", "Delete"),
    ("R_RISCV_PCREL_LO12_I", "addi a0, a0, N", "as it was (direct)"),
    ("R_RISCV_PCREL_LO12_I", "addi a0, gp, N", "BaseToGp (direct)"),
    ("R_RISCV_PCREL_LO12_I", "addi gp, gp, N", "as it was (direct)"),
    ("R_RISCV_PCREL_LO12_I", "addi t0, t0, N", "as it was (direct)"),
    ("R_RISCV_PCREL_LO12_I", "ld a6, N(a6)", "as it was (direct)"),
    ("R_RISCV_PCREL_LO12_I", "ld t1, N(t1)", "as it was (direct)"),
    ("R_RISCV_PCREL_LO12_I", "ld t1, N(zero)", "BaseToZero (direct)"),
    ("R_RISCV_PCREL_LO12_I", "li t0, N", "BaseToZero (direct)"),
    ("R_RISCV_PCREL_LO12_I", "lw a1, N(a1)", "as it was (direct)"),
    ("R_RISCV_PCREL_LO12_I", "lw a1, N(gp)", "BaseToGp (direct)"),
    ("R_RISCV_PCREL_LO12_S", "sd a1, N(a2)", "as it was (direct)"),
    ("R_RISCV_PCREL_LO12_S", "sd a1, N(gp)", "BaseToGp (direct)"),
    ("R_RISCV_TLSDESC_ADD_LO12", "deleted", "Delete"),
    ("R_RISCV_TLSDESC_ADD_LO12", "lui a0, N", "AddiToLui (direct)"),
    ("R_RISCV_TLSDESC_ADD_LO12", "nop", "ReplaceWithLongNop"),
    ("R_RISCV_TLSDESC_CALL", "li a0, N", "CallToAddiZero (direct)"),
    ("R_RISCV_TLSDESC_CALL", "mv a0, a0", "CallToAddi (direct)"),
    ("R_RISCV_TLSDESC_HI20", "deleted", "Delete"),
    ("R_RISCV_TLSDESC_HI20", "nop", "ReplaceWithLongNop"),
    ("R_RISCV_TLSDESC_LOAD_LO12", "deleted", "Delete"),
    ("R_RISCV_TLSDESC_LOAD_LO12", "nop", "ReplaceWithLongNop"),
    ("R_RISCV_TLS_GOT_HI20", "auipc a6, N", "as it was (through the GOT)"),
    ("R_RISCV_TPREL_ADD", "deleted", "Delete"),
    ("R_RISCV_TPREL_HI20", "deleted", "Delete"),
    ("R_RISCV_TPREL_LO12_I", "mv a5, tp", "BaseToTp (direct)"),
    ("R_X86_64_GOTTPOFF", "addq $N, %rsp", "RexAddIndirectToAbsolute(3) (direct)"),
    ("R_X86_64_GOTTPOFF", "leaq N(%r13), %r13", "AddIndirectToLea (direct)"),
    ("R_X86_64_GOTTPOFF", "leaq N(%rax), %rax", "AddIndirectToLea (direct)"),
    ("R_X86_64_GOTTPOFF", "movq $N, %rcx", "RexMovIndirectToAbsolute(3) (direct)"),
    ("R_X86_64_PLT32", "callq N", "as it was (direct)"),
    ("R_X86_64_PLT32", "jmp N", "as it was (direct)"),
    ("R_X86_64_REX_GOTPCRELX", "leaq N(%rip), %rdx", "MovIndirectToLea (direct)"),
    ("R_X86_64_REX_GOTPCRELX", "movq $N, %rdx", "RexMovIndirectToAbsolute(3) (direct)"),
];

#[test]
fn instructions_are_named() {
    let mut missing = String::new();
    let mut unused = SAID.to_vec();
    for (folder, names, _) in PROGRAMS {
        let (rows, _) = rows_of(folder, names);
        let counted = fs::read_to_string(path(folder, "instructions")).unwrap();
        let is_code = |row: &&Line| !row.place.starts_with(['.', 'd']); // not `datum`
        let code: Vec<&Line> = rows.iter().filter(is_code).collect();
        assert_eq!(code.len(), counted.lines().count(), "{folder}");
        for (row, line) in code.iter().zip(counted.lines()) {
            let (head, instructions) = line.split_at(report::head(row).len());
            assert_eq!(report::head(row), head, "{folder}");
            let instructions = instructions.strip_prefix(": ").unwrap().split(" | ");
            let name = head.split(' ').nth(3).unwrap();
            for (made, instruction) in row.made.iter().zip(instructions) {
                let said = report::words(row, made);
                let said = said.split(": bits").next().unwrap();
                let is_listed = SAID.contains(&(name, instruction, said));
                unused.retain(|one| *one != (name, instruction, said));
                if instruction != "-" && !is_listed {
                    missing += &format!("    (\"{name}\", \"{instruction}\", \"{said}\"),\n");
                }
            }
        }
    }
    assert_eq!((missing, unused), (String::new(), Vec::new()));
}

fn address(bytes: &[u8], name: &str) -> u64 {
    let it = ElfFile64::<LittleEndian>::parse(bytes).unwrap();
    it.symbols().find(|symbol| symbol.name() == Ok(name)).unwrap().address()
}

/// A call of an indirect function goes to a stub, whose word is another function's now.
#[test]
fn a_stub_of_another_function_is_reported() {
    for (folder, _, _) in &PROGRAMS[..5] {
        let gnu = file(folder, "gnu");
        let (from, to) = (address(&gnu, "indirect"), address(&gnu, "constructor"));
        let mut planted = gnu.clone();
        let it = ElfFile64::<LittleEndian>::parse(&gnu[..]).unwrap();
        // the addends of the relocations that say so
        let mut count = 0;
        for section in it.sections().filter(|one| one.name().unwrap().starts_with(".rela.")) {
            let object::SectionFlags::Elf { sh_flags } = section.flags() else { panic!() };
            let (start, len) = section.file_range().unwrap();
            for at in (start..start + len).step_by(24).map(|at| at as usize + 16) {
                if sh_flags & 2 != 0 && gnu[at..at + 8] == from.to_le_bytes() {
                    planted[at..at + 8].copy_from_slice(&to.to_le_bytes());
                    count += 1;
                }
            }
        }
        assert_eq!(count, 1, "{folder}");
        let (rows, _) = rows(&inputs(folder), &gnu, &planted);
        let of_stub = |row: &&Line| row.symbol.starts_with("indirect");
        assert!(rows.iter().any(|row| of_stub(&row)), "{folder}");
        for row in &rows {
            assert_eq!(row.is_same(), !of_stub(&row), "{folder}: {}", report::head(row));
            let said = report::words(row, &row.made[1]);
            assert_eq!(said.ends_with(" to constructor"), of_stub(&row), "{folder}: {said}");
        }
    }
}

/// GNU as gives LoongArch's local labels names with them.
#[test]
fn control_characters_are_written_as_escapes() {
    let files = ["program.o", "lld", "gnu"].map(|name| path("loongarch64", name));
    let mut program = std::process::Command::new(env!("CARGO_BIN_EXE_compare-links"));
    let out = program.arg("--all").args(files).output().unwrap();
    assert_eq!(out.status.code(), Some(1));
    let said = String::from_utf8(out.stdout).unwrap();
    assert!(!said.replace('\n', "").contains(char::is_control));
    // `b 1b` and `beqz $a0, 2f`, whose labels as calls .L1^B1 and .L2^B1
    assert!(said.contains("R_LARCH_B26 .L1\\u{2}1\n"));
    assert!(said.contains("R_LARCH_B21 .L2\\u{2}1\n"));
}

#[test]
fn mutated_files_are_read_without_a_panic() {
    let mut random = Random(0x5eed_0f0f_0bad_cafe);
    let mut read = 0;
    for round in 0..2_000 {
        let (folder, names, _) = PROGRAMS[round % PROGRAMS.len()];
        let mut object = file(folder, "program.o");
        let mut linked = names.map(|name| file(folder, name));
        for _ in 0..1 + random.below(3) {
            let bytes = [&mut object].into_iter().chain(&mut linked).nth(random.below(3)).unwrap();
            let tables = u64::from_le_bytes(bytes[40..48].try_into().unwrap()) as usize;
            let len = bytes.len();
            match random.below(4) {
                0 if tables < len => {
                    bytes[tables + random.below(len - tables)] ^= 1 << random.below(8);
                }
                1 => {
                    let at = random.below(len - 8);
                    bytes[at..at + 8].fill([0, 0xff, 0x7f][random.below(3)]);
                }
                _ => bytes[random.below(len)] = random.below(256) as u8,
            }
        }
        let objects = elf::read_objects("program.o", &object);
        let both = (elf::read_linked(&linked[0]), elf::read_linked(&linked[1]));
        let (Ok(objects), (Ok(a), Ok(b))) = (objects, both) else { continue };
        read += 1;
        let _ = compare(&objects, [&a, &b], &|_, _| (), |one| {
            report::line_as_json(&one.line()).to_string();
        });
    }
    assert!(read > 500, "{read}");
}
