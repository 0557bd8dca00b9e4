// SPDX-License-Identifier: MIT OR Apache-2.0
//! Prints the immediates of the instructions in ELF files and in archives of them, with the symbols of
//! relocations: of AArch64, RISC-V, LoongArch and PowerPC64 each instruction that has an immediate in
//! one of the library's forms, of x86-64 each field of a relocation.
//!
//! usage: disassemble FILE..
//! Its status is 0, or 1 after an error; it ends with the first.
//!
//! A line is the address and, of an instruction, its form and the number in its immediate; where two
//! instructions make one address, a line more has the number of both. Of a relocation it is the name,
//! the symbol and the addend, and of x86-64 the number in the field before these.

use linker_utils::elf::{AnyForm, Architecture, InstructionForm};
use linker_utils::reading::{forms_of, operand, read};
use object::LittleEndian;
use object::elf::{FileHeader64, SHF_EXECINSTR, SHN_UNDEF, SHT_NOBITS, SHT_RELA, STT_SECTION};
use object::read::archive::ArchiveFile;
use object::read::elf::{FileHeader, Rela, SectionHeader, SectionTable, Sym, SymbolTable};
use std::error::Error;
use std::io::{self, BufWriter, Write};
use std::process::ExitCode;

const LE: LittleEndian = LittleEndian;
type Head = FileHeader64<LittleEndian>;
type Failure = Box<dyn Error>;

/// Where the instructions of a section are, by the mapping symbols of the psABIs: `$x` begins code and
/// `$d` data.
struct Code {
    /// Addresses and whether code begins there, by address.
    marks: Vec<(u64, bool)>,
}

impl Code {
    fn has(&self, address: u64) -> bool {
        let next = self.marks.partition_point(|(mark, _)| *mark <= address);
        next == 0 || self.marks[next - 1].1
    }
}

/// The section with an index: of a linked file its address, of an object 0, its code and its bytes.
struct Section<'a> {
    name: &'a str,
    address: u64,
    bytes: &'a [u8],
    code: Code,
}

/// How many bytes the instruction at the front has.
fn length(architecture: Architecture, bytes: &[u8]) -> usize {
    match architecture {
        Architecture::RiscV if bytes[0] & 3 != 3 => 2,
        // a prefix (Power ISA, "Prefixed Instructions")
        Architecture::Ppc64 if bytes.get(3).is_some_and(|byte| byte >> 2 == 1) => 8,
        _ => 4,
    }
}

/// A form's name.
fn name(form: AnyForm) -> String {
    match form {
        AnyForm::AArch64(form) => format!("{form:?}"),
        AnyForm::RiscV(form) => format!("{form:?}"),
        AnyForm::Ppc64(form) => format!("{form:?}"),
        AnyForm::LoongArch64(form) => format!("{form:?}"),
    }
}

/// Prints the immediates of a section's instructions. Where an instruction has more than one form of
/// its length, the number is the same, and the first is named.
fn print_immediates(
    architecture: Architecture,
    section: &Section,
    out: &mut impl Write,
) -> Result<(), Failure> {
    let mut at = 0;
    while at + 2 <= section.bytes.len() {
        let rest = &section.bytes[at..];
        let address = section.address + at as u64;
        let len = length(architecture, rest);
        if section.code.has(address) {
            let mut last = 0;
            for form in forms_of(architecture, rest) {
                if form.window() != last {
                    let number = operand(*form, rest).ok_or("the form isn't there")?;
                    writeln!(out, "{address:x} {} {number}", name(*form))?;
                }
                last = form.window();
            }
        }
        at += len;
    }
    Ok(())
}

/// A symbol's name, or its section's.
fn symbol_name<'a>(
    sections: &SectionTable<'a, Head>,
    symbols: &SymbolTable<'a, Head>,
    index: usize,
) -> Result<String, Failure> {
    if index == 0 {
        return Ok("*ABS*".into());
    }
    let symbol = symbols.symbol(index)?;
    let name = if symbol.st_type() == STT_SECTION && symbol.st_name(LE) == 0 {
        let home = symbols
            .symbol_section(LE, symbol, index)?
            .ok_or("a section has no index")?;
        sections.section_name(LE, sections.section(home)?)?
    } else {
        symbol.name(LE, symbols.strings())?
    };
    Ok(String::from_utf8_lossy(name).into_owned())
}

/// The number in a field of whole bytes, or a `-`.
fn field(architecture: Architecture, code: u32, bytes: &[u8]) -> String {
    let value = architecture.row(code).and_then(|row| read(&row, bytes));
    value
        .and_then(|value| value.number())
        .map_or("-".into(), |n| (n as i64).to_string())
}

fn print_relocation(
    architecture: Architecture,
    section: &Section,
    (offset, code, addend): (u64, u32, i64),
    symbol: &str,
    out: &mut impl Write,
) -> Result<(), Failure> {
    let name = architecture
        .name(code)
        .map_or(format!("{code}"), str::to_string);
    write!(out, "{offset:x} {name}")?;
    if architecture == Architecture::X86_64 {
        let bytes = section
            .bytes
            .get(offset as usize..)
            .ok_or("a relocation is out of its section")?;
        write!(out, " {}", field(architecture, code, bytes))?;
    }
    writeln!(out, " {symbol} {addend}")?;
    Ok(())
}

fn sections_of<'a>(
    bytes: &'a [u8],
    sections: &SectionTable<'a, Head>,
    symbols: &SymbolTable<'a, Head>,
    is_linked: bool,
) -> Result<Vec<(usize, Section<'a>)>, Failure> {
    let mut found = Vec::new();
    for (index, section) in sections.iter().enumerate() {
        let is_code = section.sh_flags(LE) & u64::from(SHF_EXECINSTR) != 0;
        if !is_code || section.sh_type(LE) == SHT_NOBITS {
            continue;
        }
        let mut marks: Vec<_> = symbols
            .iter()
            .filter(|symbol| usize::from(symbol.st_shndx(LE)) == index)
            .filter_map(|symbol| match symbol.name(LE, symbols.strings()).ok()? {
                name if name.starts_with(b"$d") => Some((symbol.st_value(LE), false)),
                name if name.starts_with(b"$x") => Some((symbol.st_value(LE), true)),
                _ => None,
            })
            .collect();
        marks.sort_by_key(|mark| mark.0);
        found.push((
            index,
            Section {
                name: std::str::from_utf8(sections.section_name(LE, section)?)?,
                address: if is_linked { section.sh_addr(LE) } else { 0 },
                bytes: section.data(LE, bytes)?,
                code: Code { marks },
            },
        ));
    }
    Ok(found)
}

fn print_file(name: &str, bytes: &[u8], out: &mut impl Write) -> Result<(), Failure> {
    let head = Head::parse(bytes)?;
    let machine = head.e_machine.get(LE);
    let architecture = Architecture::from_machine(machine)
        .ok_or_else(|| format!("the machine {machine} isn't one that is known"))?;
    let sections = head.sections(LE, bytes)?;
    let is_linked = head.e_type.get(LE) != object::elf::ET_REL;
    let mut symbols = sections.symbols(LE, bytes, object::elf::SHT_SYMTAB)?;
    if symbols.is_empty() {
        symbols = sections.symbols(LE, bytes, object::elf::SHT_DYNSYM)?;
    }
    for (index, section) in sections_of(bytes, &sections, &symbols, is_linked)? {
        writeln!(out, "{name} {}", section.name)?;
        print_immediates(architecture, &section, out)?;
        for list in sections.iter().filter(|list| list.sh_type(LE) == SHT_RELA) {
            if is_linked || list.sh_info(LE) as usize != index || index == usize::from(SHN_UNDEF) {
                continue;
            }
            let (relocations, _) = list.rela(LE, bytes)?.ok_or("there are no relocations")?;
            for one in relocations {
                let symbol = symbol_name(&sections, &symbols, one.r_sym(LE, false) as usize)?;
                let of = (one.r_offset(LE), one.r_type(LE, false), one.r_addend(LE));
                print_relocation(architecture, &section, of, &symbol, out)?;
            }
        }
    }
    Ok(())
}

fn print(path: &str, out: &mut impl Write) -> Result<(), Failure> {
    let bytes = std::fs::read(path)?;
    if !bytes.starts_with(&object::archive::MAGIC) {
        return print_file(path, &bytes, out);
    }
    for member in ArchiveFile::parse(&*bytes)?.members() {
        let member = member?;
        let name = format!("{path}({})", String::from_utf8_lossy(member.name()));
        let data = member.data(&*bytes)?;
        if data.starts_with(&object::elf::ELFMAG) {
            print_file(&name, data, out).map_err(|error| format!("{name}: {error}"))?;
        }
    }
    Ok(())
}

const HELP: &str = "\
usage: disassemble FILE..
       disassemble --help | --version
status: 0, 1 after an error, or 2 after wrong arguments";

fn main() -> ExitCode {
    match std::env::args().nth(1).as_deref() {
        Some("--help") => {
            println!("{HELP}");
            return ExitCode::SUCCESS;
        }
        Some("--version") => {
            println!(concat!("disassemble ", env!("CARGO_PKG_VERSION")));
            return ExitCode::SUCCESS;
        }
        Some(file) if !file.starts_with("--") => {}
        _ => {
            eprintln!("{HELP}");
            return ExitCode::from(2);
        }
    }
    let mut out = BufWriter::new(io::stdout().lock());
    for path in std::env::args().skip(1) {
        if let Err(error) = print(&path, &mut out) {
            eprintln!("disassemble: {path}: {error}");
            return ExitCode::FAILURE;
        }
    }
    if out.flush().is_err() {
        ExitCode::FAILURE
    } else {
        ExitCode::SUCCESS
    }
}
