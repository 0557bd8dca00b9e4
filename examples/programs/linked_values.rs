// SPDX-License-Identifier: MIT OR Apache-2.0
//! Reads values of relocations back from a file linked with `--emit-relocs`, and compares them with symbols.
use linker_utils::{elf::Architecture, output::Target, reading::read, section::*};
use object::{LittleEndian as LE, SectionIndex, elf::*, read::elf::*};

fn main() -> Result<(), Box<dyn std::error::Error>> {
    let file = &std::fs::read(std::env::args().nth(1).ok_or("usage: linked_values FILE")?)?[..];
    let header = FileHeader64::<LE>::parse(file)?;
    let sections = header.sections(header.endian()?, file)?;
    let machine = Architecture::from_machine(header.e_machine(LE)).ok_or("its machine is unknown")?;
    let symbols: Vec<_> = sections.symbols(LE, file, SHT_SYMTAB)?.iter().map(|it| {
        Symbol::from_elf(it.st_info(), it.st_other(), it.st_shndx(LE), it.st_value(LE), it.st_size(LE))
    }).collect();
    let got = sections.section_by_name(LE, b".got").map_or(0, |(_, got)| got.sh_addr(LE));
    let link = Link { got_base: Target::of(machine).got_base(got), ..Link::new(machine) };
    let here = link.addresses(0);
    let [mut same, mut different, mut others] = [0; 3];
    for it in sections.iter().filter(|it| it.sh_type(LE) == SHT_RELA && it.sh_info(LE) != 0) {
        let section = sections.section(SectionIndex(it.sh_info(LE) as usize))?;
        let relas = it.data(LE, file)?;
        for rela in relocations(relas) {
            let row = machine.row(rela.r_type).ok_or("a relocation's type is unknown")?;
            let start = rela.offset.wrapping_sub(section.sh_addr(LE)) as usize;
            let bytes = section.data(LE, file)?.get(start..).and_then(|it| it.get(..row.window()));
            let known = read(&row, bytes.ok_or("a relocation isn't in its section")?);
            match (value(machine, &here, relas, &symbols, &rela), known) {
                (Ok(None), _) => {} // it has no value
                (Ok(Some(value)), Some(known)) if known.is_of(value as u64) => same += 1,
                (Ok(Some(value)), Some(known)) => {
                    println!("{:#x} {:?}: {value:#x}, not {known:x?}", rela.offset, machine.name(rela.r_type));
                    different += 1;
                }
                (Ok(_) | Err(ValueError::NoEntry | ValueError::NoTlsBase), _) => others += 1,
                (Err(error), _) => return Err(error.into()),
            }
        }
    }
    println!("{same} are the same, {different} differ, {others} need the GOT or TLS, or add");
    if different > 0 { Err("a value differs".into()) } else { Ok(()) }
}
