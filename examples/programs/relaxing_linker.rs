// SPDX-License-Identifier: MIT OR Apache-2.0
//! Links RISC-V objects into a static executable that begins at `_start`: lays out and relaxes all
//! sections, and then packs and relocates one after another. A GOT, thread-local storage, groups, and
//! common and absolute symbols are errors.    usage: relaxing_linker OUTPUT OBJECT..
use linker_utils::runs::*;
use linker_utils::{elf::Architecture::RiscV, output::Target, section::*};
use object::{LittleEndian as LE, SectionIndex, elf::*, read::elf::*};
use std::{collections::HashMap, error::Error, fs, iter, os::unix::fs::PermissionsExt};

const START: u64 = 0x11000; // of the code; the page below has the headers
const PAGE: u64 = 0x1000;

struct Placed {
    of: (usize, usize), // its object, and its index there
    is_data: bool,
    section: Section<Vec<u8>, Vec<u8>>, // its base is that before anything gets shorter
    alignment: u64,
    items: Vec<ItemNumbers>, // the first is before it, so that it may be aligned
}

fn main() -> Result<(), Box<dyn Error>> {
    let mut paths = std::env::args().skip(1);
    let output = paths.next().ok_or("usage: relaxing_linker OUTPUT OBJECT..")?;
    let files = paths.map(fs::read).collect::<Result<Vec<_>, _>>()?;
    let (target, mut objects, mut list, mut flags) = (Target::of(RiscV), vec![], vec![], None);
    for (object, file) in files.iter().enumerate() {
        let (file, header) = (&file[..], FileHeader64::<LE>::parse(&file[..])?);
        let sections = header.sections(header.endian()?, file)?;
        let symbols = sections.symbols(LE, file, SHT_SYMTAB)?;
        let tables = sections.relocation_sections(LE, symbols.section())?;
        let is_riscv = header.e_type(LE) == ET_REL && header.e_machine(LE) == EM_RISCV;
        let own = header.e_flags(LE);
        flags = Some(target.join_flags(flags.unwrap_or(own), own).ok_or("the objects' ABIs differ")?);
        for (index, it) in sections.iter().enumerate() {
            let has = |flag: u32| it.sh_flags(LE) & u64::from(flag) != 0;
            let (alignment, size) = (it.sh_addralign(LE).max(2), it.sh_size(LE));
            let is_damaged = !alignment.is_power_of_two() || alignment > PAGE || size > 1 << 28;
            let is_of_others = it.sh_type(LE) == SHT_RELA && it.sh_link(LE) as usize != symbols.section().0;
            if !is_riscv || is_damaged || is_of_others || matches!(it.sh_type(LE), SHT_REL | SHT_GROUP) {
                return Err("an object isn't of RISC-V, or has sections that can't be linked".into());
            }
            if has(SHF_ALLOC) {
                let mut section = Section::new(it.data(LE, file)?.to_vec(), vec![]);
                section.bytes.resize(size as usize, 0);
                for table in iter::successors(tables.get(index), |&at| tables.get(at)) {
                    section.relocations.extend(sections.section(SectionIndex(table))?.data(LE, file)?);
                }
                let (of, is_data) = ((object, index), !has(SHF_EXECINSTR));
                list.push(Placed { of, is_data, section, alignment, items: vec![] });
            }
        }
        objects.push((symbols, vec![], target.unit(own) == 2));
    }

    // the run before anything gets shorter: code first, and a page for data
    list.sort_by_key(|it| it.is_data);
    let (mut end, mut code_end) = (0u64, None);
    for it in &mut list {
        if it.is_data && code_end.is_none() {
            (code_end, it.alignment) = (Some(end), PAGE);
        }
        let nops = Alignment::before(end, it.alignment);
        it.section.base = end + u64::from(nops.nops);
        it.items.push(ItemNumbers::from_item(Item::Aligned(nops)));
        end = it.section.base + it.section.bytes.len() as u64;
    }

    // symbols at their offsets in the run, and at 0 where nothing defines them
    let mut globals = HashMap::new();
    for (object, (symbols, values, _)) in objects.iter_mut().enumerate() {
        for it in symbols.iter() {
            let (home, value, size) = (it.st_shndx(LE), it.st_value(LE), it.st_size(LE));
            let placed = list.iter().find(|it| it.of == (object, home.into()));
            let placed = placed.filter(|it| value <= it.section.bytes.len() as u64);
            let offset = placed.map_or(0, |it| it.section.base + value);
            let symbol = Symbol::from_elf(it.st_info(), it.st_other(), home, offset, size);
            values.push(symbol);
            if it.st_bind() != STB_LOCAL && offset > 0
                && globals.insert(it.name(LE, symbols.strings())?, symbol).is_some() {
                return Err("a symbol is defined twice".into());
            }
        }
    }
    for (symbols, values, _) in &mut objects {
        for (it, value) in symbols.iter().zip(values).filter(|(it, _)| it.st_bind() != STB_LOCAL) {
            *value = *globals.get(it.name(LE, symbols.strings())?).unwrap_or(value);
        }
    }

    // what gets shorter
    for Placed { of, section, items, .. } in &mut list {
        let (symbols, values, may_compress) = &objects[of.0];
        let mut refers = vec![];
        for it in relocations(&section.relocations) {
            let symbol = values.get(it.symbol as usize).ok_or("a relocation's symbol isn't there")?;
            if it.symbol != 0 && symbol.address == 0 && !symbol.is_undefined_weak {
                let name = symbols.symbol(it.symbol as usize)?.name(LE, symbols.strings())?;
                return Err(format!("{} isn't defined", name.escape_ascii()).into());
            }
            // a call of a weak function that nothing defines goes to itself
            let own = section.base.wrapping_add(it.offset);
            let target = if symbol.is_undefined_weak { own } else { symbol.address };
            let is_known = it.symbol != 0 && it.addend == 0;
            refers.push(Relocation::new(it, is_known.then_some(target), *may_compress));
        }
        items.extend(section_items(Machine::RiscV(Isa::Rv64), section, &refers)?.items);
    }
    let items: Vec<_> = list.iter().flat_map(|it| &it.items).copied().collect();
    first_faulty(&items, START).map_or(Ok(()), Err)?;
    let deletions = relax(&items, START)?.deletions;
    let address = |offset| START + deletions.input_to_output_offset(offset);

    // the file: its header and those of two segments, and then each section
    let entry = address(globals.get(&b"_start"[..]).ok_or("_start isn't defined")?.address);
    let code_end = address(code_end.unwrap_or(end));
    let data = code_end.next_multiple_of(PAGE);
    let end = address(end).max(data);
    let load = |flags: u64, at, end| [1 | flags << 32, at - START + PAGE, at, at, end - at, end - at, PAGE];
    let flags = u64::from(flags.unwrap_or(0));
    let head = [u64::from_le_bytes(*b"\x7fELF\x02\x01\x01\0"), 0, 2 | 243 << 16 | 1 << 32, entry, 64, 0];
    let head = [&head[..], &[flags | 64 << 32 | 56 << 48, 2], &load(5, START, code_end), &load(6, data, end)];
    let mut image = head.concat().into_iter().flat_map(u64::to_le_bytes).collect::<Vec<_>>();
    image.resize((end - START + PAGE) as usize, 0);
    for Placed { of, section, items, .. } in list {
        let values = objects[of.0].1.iter().map(|it| Symbol { address: address(it.address), ..*it });
        let object = Object { values: &values.collect::<Vec<_>>(), ..Object::default() };
        let run = Run { start: START, items: &items[1..], deltas: deletions.deltas() };
        let len = packed_run_len(section.base, section.bytes.len(), run.deltas);
        let bytes = &mut image[(address(section.base) - START + PAGE) as usize..][..len];
        let mut packed = run.pack(Machine::RiscV(Isa::Rv64), section, bytes)?;
        let mut memory = vec![0; memory_len(&packed.relocations)];
        relocate_section(&Link::new(RiscV), &object, &mut packed, &mut memory)?;
    }
    fs::write(&output, image)?;
    Ok(fs::set_permissions(output, fs::Permissions::from_mode(0o755))?)
}
