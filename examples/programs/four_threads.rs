// SPDX-License-Identifier: MIT OR Apache-2.0
//! Relocates all members of an archive by four threads over one description of the output, and then by
//! one. Both have to leave the same bytes.    usage: four_threads ARCHIVE
use linker_utils::section::{Link, Object, Section, Symbol, memory_len, relocate_section};
use linker_utils::{elf::Architecture, output::Target};
use object::{LittleEndian as LE, SectionIndex, elf::*, read::archive::ArchiveFile, read::elf::*};
use std::{collections::HashMap, thread};

const START: u64 = 0x40_0000; // of the members, which stand for the TLS image too
const GOT: u64 = 0x2000_0000; // the entries of a symbol are so far above it

type Error = Box<dyn std::error::Error + Send + Sync>;

struct Member<'a> {
    name: &'a [u8],
    file: &'a [u8],
    sections: SectionTable<'a, FileHeader64<LE>>,
    symbols: SymbolTable<'a, FileHeader64<LE>>,
    start: u64, // its address; sections are as far above it as in the file
}

/// A symbol by what a member says of it; one that it doesn't define is at address 0.
fn describe(member: &Member, it: &Sym64<LE>) -> Symbol {
    let home = member.sections.section(SectionIndex(it.st_shndx(LE).into()));
    let home = home.map_or(0, |home| member.start.wrapping_add(home.sh_offset(LE)));
    let address = if it.is_undefined(LE) { 0 } else { home.wrapping_add(it.st_value(LE)) };
    let entry = GOT.wrapping_add(address) & !31;
    let says = Symbol::from_elf(it.st_info(), it.st_other(), it.st_shndx(LE), address, it.st_size(LE));
    Symbol { address_entry: entry, thread_entry: entry + 8, ..says }
}

/// What the relocations of a member's sections leave of them.
fn relocate(link: &Link, globals: &HashMap<&[u8], Symbol>, member: &Member) -> Result<Vec<Vec<u8>>, Error> {
    let (Member { file, sections, symbols, start, .. }, mut values, mut left) = (member, vec![], vec![]);
    for it in symbols.iter() {
        let global = globals.get(it.name(LE, symbols.strings())?);
        let global = global.filter(|_| it.st_bind() != STB_LOCAL);
        values.push(global.copied().unwrap_or_else(|| describe(member, it)));
    }
    let object = Object { values: &values, ..Object::default() };
    for it in sections.iter().filter(|it| it.sh_type(LE) == SHT_RELA) {
        let section = sections.section(SectionIndex(it.sh_info(LE) as usize))?;
        if it.sh_link(LE) as usize != symbols.section().0 {
            return Err("it has relocations of other symbols".into());
        }
        let (bytes, relas) = (section.data(LE, *file)?.to_vec(), it.data(LE, *file)?);
        let address = start.wrapping_add(section.sh_offset(LE));
        let mut section = Section { address, ..Section::new(bytes, relas) };
        relocate_section(link, &object, &mut section, &mut vec![0; memory_len(relas)])?;
        left.push(section.bytes);
    }
    Ok(left)
}

fn main() -> Result<(), Error> {
    let archive = &std::fs::read(std::env::args().nth(1).ok_or("usage: four_threads ARCHIVE")?)?[..];
    let (mut members, mut globals, mut start, mut machines) = (vec![], HashMap::new(), START, vec![]);
    for member in ArchiveFile::parse(archive)?.members() {
        let member = member?;
        let (name, file) = (member.name(), member.data(archive)?);
        let header = FileHeader64::<LE>::parse(file)?;
        let sections = header.sections(header.endian()?, file)?;
        let symbols = sections.symbols(LE, file, SHT_SYMTAB)?;
        let member = Member { name, file, sections, symbols, start };
        for it in symbols.iter().filter(|it| it.st_bind() != STB_LOCAL && !it.is_undefined(LE)) {
            globals.insert(it.name(LE, symbols.strings())?, describe(&member, it));
        }
        start += (file.len() as u64).next_multiple_of(0x1000);
        machines.push(Architecture::from_machine(header.e_machine(LE)).ok_or("a machine is unknown")?);
        members.push(member);
    }
    machines.dedup();
    let [machine] = machines[..] else { return Err("the members are of no machine, or of several".into()) };
    let (target, link) = (Target::of(machine), Link::new(machine));
    let origins = Some(target.origins(START, 0x100_0000, 64));
    let link = Link { got_base: target.got_base(GOT), origins, module_entry: Some(GOT), ..link };
    let left = |it: &Member| {
        relocate(&link, &globals, it).map_err(|error| format!("{}: {error}", it.name.escape_ascii()))
    };
    let run = |threads| thread::scope(|scope| {
        let parts = members.chunks(members.len().div_ceil(threads));
        let work = parts.map(|part| scope.spawn(|| part.iter().map(left).collect::<Result<Vec<_>, _>>()));
        let work = work.collect::<Vec<_>>().into_iter();
        work.map(|it| it.join().expect("no thread panics")).collect::<Result<Vec<_>, _>>()
    });
    let (four, one) = (run(4)?.concat(), run(1)?.concat());
    if four != one { return Err("four threads leave other bytes than one".into()) }
    println!("{} members, {} sections: the same", one.len(), one.iter().flatten().count());
    Ok(())
}
