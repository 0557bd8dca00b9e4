// SPDX-License-Identifier: MIT OR Apache-2.0
//! Relocatable objects, archives of them, and linked files.

use crate::hash::HashMap;
use crate::stubs::{self, Stubs};
use linker_utils::elf::Architecture;
use object::LittleEndian;
use object::elf::{self, FileHeader64, SectionHeader64};
use object::read::archive::ArchiveFile;
use object::read::elf::{FileHeader, ProgramHeader, Rela, SectionHeader, SectionTable, Sym};
use std::borrow::Cow;

/// Whether a name is that of a compiler's or an assembler's label.
pub fn is_label(name: &str) -> bool {
    let has_control = || match name.is_ascii() {
        true => name.bytes().any(|byte| byte.is_ascii_control()),
        false => name.contains(char::is_control),
    };
    name.starts_with(['.', '$']) || has_control()
}

/// Why a file can't be read, in a sentence without its name.
pub type Reason = String;

const LE: LittleEndian = LittleEndian;
type Head = FileHeader64<LittleEndian>;

pub struct Relocation {
    /// An offset in its section.
    pub offset: u64,
    /// `r_type`.
    pub r_type: u32,
    /// An index of the object's symbols.
    pub symbol: usize,
    pub addend: i64,
}

pub struct Section<'a> {
    pub name: Cow<'a, str>,
    /// Empty where the file has no bytes for it.
    pub bytes: &'a [u8],
    pub size: u64,
    pub is_allocated: bool,
    pub is_code: bool,
    /// Whether linkers keep its symbols as far apart as they are.
    pub is_whole: bool,
    /// In the order of their offsets.
    pub relocations: Vec<Relocation>,
}

#[derive(Clone, Copy, PartialEq, Eq)]
pub enum Home {
    Undefined,
    Absolute,
    Common,
    Section(usize),
}

pub struct Symbol<'a> {
    pub name: Cow<'a, str>,
    pub home: Home,
    /// Of a symbol in a section its offset there.
    pub value: u64,
    pub size: u64,
    pub kind: u8,
    pub is_local: bool,
    pub is_weak: bool,
    /// `st_other`.
    pub other: u8,
}

pub struct Object<'a> {
    pub path: String,
    /// Whether it is a member of an archive, which may not be linked.
    pub is_member: bool,
    pub architecture: Architecture,
    pub sections: Vec<Section<'a>>,
    pub symbols: Vec<Symbol<'a>>,
}

pub struct Linked<'a> {
    pub architecture: Architecture,
    /// Address and bytes, by address.
    segments: Vec<(u64, &'a [u8])>,
    /// The addresses of each name of global symbols, and of local ones in the table's order.
    pub globals: HashMap<Cow<'a, str>, Definition>,
    pub locals: HashMap<Cow<'a, str>, Definitions>,
    /// The symbols that have a place, and their indices by address.
    symbols: Vec<Symbol<'a>>,
    by_address: Vec<(u64, u32)>,
    /// The words of the GOT: what each leads to, and its address.
    pub got: Vec<(u64, Entry)>,
    /// The entries of each content.
    pub got_of: HashMap<u64, Vec<u64>>,
    /// What addresses of the GOT count from: on PowerPC64 the TOC pointer. `None` where nothing says
    /// where the TOC is.
    pub got_base: Option<u64>,
    pub stubs: Stubs,
    /// Names, addresses and bytes of the sections.
    sections: Vec<(Cow<'a, str>, u64, &'a [u8])>,
    /// What dynamic relocations put at addresses.
    moved: HashMap<u64, Entry>,
}

#[derive(Clone, Copy)]
pub struct Definition {
    pub address: u64,
    pub other: u8,
}

/// Those of one name, of which most have one.
pub enum Definitions {
    One(Definition),
    Several(Vec<Definition>),
}

impl Definitions {
    pub fn all(&self) -> &[Definition] {
        match self {
            Definitions::One(one) => std::slice::from_ref(one),
            Definitions::Several(all) => all,
        }
    }

    /// The one, if there aren't others.
    pub fn only(&self) -> Option<Definition> {
        match self.all() {
            [one] => Some(*one),
            _ => None,
        }
    }

    fn push(&mut self, next: Definition) {
        match self {
            Definitions::One(one) => *self = Definitions::Several(vec![*one, next]),
            Definitions::Several(all) => all.push(next),
        }
    }
}

/// What a GOT entry leads to.
#[derive(Clone, PartialEq)]
pub enum Entry {
    Address(u64),
    /// By the name of a dynamic relocation's symbol.
    Symbol(String),
}

fn text(bytes: &[u8]) -> Cow<'_, str> {
    // quicker than the other where it is UTF-8
    std::str::from_utf8(bytes).map_or_else(|_| String::from_utf8_lossy(bytes), Cow::Borrowed)
}

fn because(error: object::read::Error) -> Reason {
    format!("{error}")
}

fn head(bytes: &[u8]) -> Result<(&Head, Architecture), Reason> {
    if bytes.len() < 20 || !bytes.starts_with(&elf::ELFMAG) {
        return Err("this isn't an ELF file".into());
    }
    if bytes[4] != elf::ELFCLASS64 || bytes[5] != elf::ELFDATA2LSB {
        return Err("only 64-bit files with little-endian data are read".into());
    }
    let head = Head::parse(bytes).map_err(because)?;
    let machine = head.e_machine.get(LE);
    let architecture = Architecture::from_machine(machine)
        .ok_or_else(|| format!("the machine {machine} isn't one that is known"))?;
    Ok((head, architecture))
}

/// A section's name and bytes.
fn name_and_bytes<'a>(
    table: &SectionTable<'a, Head>,
    section: &'a SectionHeader64<LittleEndian>,
    bytes: &'a [u8],
) -> Result<(Cow<'a, str>, &'a [u8]), Reason> {
    let name = text(table.section_name(LE, section).map_err(because)?);
    match section.data(LE, bytes) {
        _ if section.sh_type(LE) == elf::SHT_NULL => Ok((name, &[])),
        Ok(data) => Ok((name, data)),
        Err(_) => Err(format!("section {name} ends past the file's end")),
    }
}

fn symbols_of<'a>(
    head: &Head,
    bytes: &'a [u8],
    table: u32,
) -> Result<Vec<Symbol<'a>>, Reason> {
    let sections = head.sections(LE, bytes).map_err(because)?;
    let symbols = sections.symbols(LE, bytes, table).map_err(because)?;
    let mut all = Vec::with_capacity(symbols.len());
    for (index, symbol) in symbols.iter().enumerate() {
        let home = match symbol.st_shndx(LE) {
            elf::SHN_UNDEF => Home::Undefined,
            elf::SHN_ABS => Home::Absolute,
            elf::SHN_COMMON => Home::Common,
            _ => match symbols.symbol_section(LE, symbol, index).map_err(because)? {
                Some(at) if at.0 < sections.len() => Home::Section(at.0),
                Some(_) => return Err("a symbol is in a section that isn't there".into()),
                None => Home::Absolute,
            },
        };
        all.push(Symbol {
            name: text(symbol.name(LE, symbols.strings()).map_err(because)?),
            home,
            value: symbol.st_value(LE),
            size: symbol.st_size(LE),
            kind: symbol.st_type(),
            is_local: symbol.st_bind() == elf::STB_LOCAL,
            is_weak: symbol.st_bind() == elf::STB_WEAK,
            other: symbol.st_other(),
        });
    }
    Ok(all)
}

fn read_object<'a>(
    path: String,
    is_member: bool,
    bytes: &'a [u8],
) -> Result<Object<'a>, Reason> {
    let (head, architecture) = head(bytes)?;
    if head.e_type.get(LE) != elf::ET_REL {
        return Err("this isn't a relocatable object".into());
    }
    let table = head.sections(LE, bytes).map_err(because)?;
    let symbols = symbols_of(head, bytes, elf::SHT_SYMTAB)?;
    // some members of archives have neither
    if symbols.is_empty() && table.iter().any(|section| section.sh_type(LE) == elf::SHT_RELA) {
        return Err("it has no symbol table".into());
    }
    let mut sections = Vec::with_capacity(table.len());
    for section in table.iter() {
        let (name, bytes) = name_and_bytes(&table, section, bytes)?;
        let flags = section.sh_flags(LE);
        sections.push(Section {
            name,
            bytes,
            size: section.sh_size(LE),
            is_allocated: flags & u64::from(elf::SHF_ALLOC) != 0,
            is_code: flags & u64::from(elf::SHF_EXECINSTR) != 0,
            is_whole: flags & u64::from(elf::SHF_MERGE) == 0,
            relocations: Vec::new(),
        });
    }
    for section in table.iter() {
        if section.sh_type(LE) == elf::SHT_REL {
            return Err("relocations without addends aren't read".into());
        }
        let Some((all, _)) = section.rela(LE, bytes).map_err(because)? else {
            continue;
        };
        let target = section.sh_info(LE) as usize;
        let Some(target) = sections.get_mut(target) else {
            return Err("relocations are of a section that isn't there".into());
        };
        for one in all {
            let symbol = one.r_sym(LE, false) as usize;
            if symbol >= symbols.len() {
                return Err("a relocation's symbol isn't there".into());
            }
            let offset = one.r_offset(LE);
            if offset > target.size {
                return Err("a relocation is past the end of its section".into());
            }
            target.relocations.push(Relocation {
                offset,
                r_type: one.r_type(LE, false),
                symbol,
                addend: one.r_addend(LE),
            });
        }
        target.relocations.sort_by_key(|one| one.offset);
    }
    Ok(Object { path, is_member, architecture, sections, symbols })
}

/// The object of a file, or those of an archive.
pub fn read_objects<'a>(path: &str, bytes: &'a [u8]) -> Result<Vec<Object<'a>>, Reason> {
    if !bytes.starts_with(b"!<arch>\n") {
        return Ok(vec![read_object(path.into(), false, bytes)?]);
    }
    let archive = ArchiveFile::parse(bytes).map_err(because)?;
    let mut objects = Vec::new();
    for member in archive.members() {
        let member = member.map_err(because)?;
        let name = text(member.name());
        let data = member.data(bytes).map_err(because)?;
        let object = read_object(format!("{path}({name})"), true, data);
        objects.push(object.map_err(|reason| format!("{name}: {reason}"))?);
    }
    Ok(objects)
}

fn words(address: u64, bytes: &[u8]) -> impl Iterator<Item = (u64, u64)> + '_ {
    bytes.as_chunks::<8>().0.iter().enumerate().map(move |(index, word)| {
        (address.wrapping_add(8 * index as u64), u64::from_le_bytes(*word))
    })
}

/// A global symbol, or the first local one of a name.
fn first_of(
    globals: &HashMap<Cow<str>, Definition>,
    locals: &HashMap<Cow<str>, Definitions>,
    name: &str,
) -> Option<Definition> {
    globals.get(name).or_else(|| locals.get(name)?.all().first()).copied()
}

pub fn read_linked<'a>(bytes: &'a [u8]) -> Result<Linked<'a>, Reason> {
    let (head, architecture) = head(bytes)?;
    if !matches!(head.e_type.get(LE), elf::ET_EXEC | elf::ET_DYN) {
        return Err("this isn't a linked file".into());
    }
    let (mut segments, mut code) = (Vec::new(), Vec::new());
    for segment in head.program_headers(LE, bytes).map_err(because)? {
        if segment.p_type(LE) == elf::PT_LOAD && segment.p_filesz(LE) != 0 {
            let data = segment.data(LE, bytes);
            let data = data.map_err(|()| "a segment ends past the file's end".to_string())?;
            segments.push((segment.p_vaddr(LE), data));
            if segment.p_flags(LE) & elf::PF_X != 0 {
                code.push((segment.p_vaddr(LE), data));
            }
        }
    }
    segments.sort_by_key(|(address, _)| *address);
    let table = head.sections(LE, bytes).map_err(because)?;
    let symbols = symbols_of(head, bytes, elf::SHT_SYMTAB)?;
    if symbols.is_empty() {
        return Err("it has no symbol table".into());
    }
    let (mut globals, mut locals) = (HashMap::default(), HashMap::default());
    let mut by_address = Vec::with_capacity(symbols.len());
    for (index, symbol) in (0..).zip(&symbols) {
        let is_other = matches!(symbol.kind, elf::STT_SECTION | elf::STT_FILE);
        if symbol.home == Home::Undefined || symbol.name.is_empty() || is_other {
            continue;
        }
        let definition = Definition { address: symbol.value, other: symbol.other };
        let name = symbol.name.clone();
        match symbol.is_local {
            false => _ = globals.entry(name).or_insert(definition),
            true => _ = (locals.entry(name).and_modify(|all: &mut Definitions| all.push(definition)))
                .or_insert(Definitions::One(definition)),
        }
        if symbol.kind != elf::STT_TLS {
            by_address.push((symbol.value, index));
        }
    }
    by_address.sort_unstable();
    let (mut moved, mut resolvers) = (HashMap::default(), HashMap::default());
    for section in table.iter().filter(|section| section.sh_flags(LE) & 2 != 0) {
        let Some((all, link)) = section.rela(LE, bytes).map_err(because)? else {
            continue;
        };
        let names = table.symbol_table_by_index(LE, bytes, link).ok();
        for one in all {
            let entry = match (one.r_sym(LE, false) as usize, &names) {
                (0, _) => Entry::Address(one.r_addend(LE) as u64),
                (index, Some(names)) => {
                    let symbol = names.symbol(index).map_err(because)?;
                    let name = symbol.name(LE, names.strings()).map_err(because)?;
                    Entry::Symbol(text(name).into_owned())
                }
                _ => continue,
            };
            if stubs::is_indirect(architecture, one.r_type(LE, false)) {
                resolvers.insert(one.r_offset(LE), one.r_addend(LE) as u64);
            }
            moved.insert(one.r_offset(LE), entry);
        }
    }
    let mut got = Vec::new();
    let (mut got_start, mut toc_start) = (None, None);
    let mut sections = Vec::new();
    for section in table.iter() {
        let (name, bytes) = name_and_bytes(&table, section, bytes)?;
        if section.sh_flags(LE) & u64::from(elf::SHF_ALLOC) != 0 {
            sections.push((name.clone(), section.sh_addr(LE), bytes));
        }
        if name == ".toc" {
            toc_start.get_or_insert(section.sh_addr(LE));
        }
        if !name.starts_with(".got") || section.sh_type(LE) != elf::SHT_PROGBITS {
            continue;
        }
        let address = section.sh_addr(LE);
        got_start.get_or_insert(address);
        for (at, word) in words(address, bytes) {
            got.push((at, moved.get(&at).cloned().unwrap_or(Entry::Address(word))));
        }
    }
    got.sort_by_key(|(at, _)| *at);
    let mut got_of = HashMap::<u64, Vec<u64>>::default();
    for (at, entry) in &got {
        let content = match entry {
            Entry::Address(address) => Some(*address),
            Entry::Symbol(name) => globals.get(name.as_str()).map(|one: &Definition| one.address),
        };
        if let Some(content) = content {
            got_of.entry(content).or_default().push(*at);
        }
    }
    let address = |name: &str| first_of(&globals, &locals, name).map(|one| one.address);
    let got_base = match architecture {
        // the psABI: the TOC base is 0x8000 bytes behind the GOT's start. Where that is empty `.toc` is
        // the first section of the TOC
        Architecture::Ppc64 => {
            let behind_start = |start: u64| start.wrapping_add(0x8000);
            address(".TOC.").or_else(|| got_start.or(toc_start).map(behind_start))
        }
        _ => Some(address("_GLOBAL_OFFSET_TABLE_").or(got_start).unwrap_or(0)),
    };
    let stubs = Stubs::new(architecture, &code, &resolvers, got_base.unwrap_or(0));
    Ok(Linked {
        architecture,
        segments,
        globals,
        locals,
        symbols,
        by_address,
        got,
        got_of,
        got_base,
        stubs,
        sections,
        moved,
    })
}

impl<'a> Linked<'a> {
    /// The symbol of a name that linkers define.
    pub fn address_of(&self, name: &str) -> Option<u64> {
        first_of(&self.globals, &self.locals, name).map(|one| one.address)
    }

    /// The addresses and bytes of the sections of a name.
    pub fn tables(&self, name: &str) -> impl Iterator<Item = (u64, &'a [u8])> {
        let all = self.sections.iter().filter(move |(section, _, _)| section == name);
        all.map(|(_, address, bytes)| (*address, *bytes))
    }

    /// What a word of 8 bytes leads to.
    pub fn word_at(&self, address: u64) -> Option<Entry> {
        let word = || Some(u64::from_le_bytes(*self.bytes_at(address)?.first_chunk()?));
        self.moved.get(&address).cloned().or_else(|| word().map(Entry::Address))
    }

    /// The bytes from an address on, to the end of what the file has there.
    pub fn bytes_at(&self, address: u64) -> Option<&[u8]> {
        let after = self.segments.partition_point(|(start, _)| *start <= address);
        let (start, bytes) = self.segments[..after].last()?;
        bytes.get(usize::try_from(address - start).ok()?..).filter(|rest| !rest.is_empty())
    }

    /// The symbol at or before an address, and how far it is behind it.
    pub fn name_at(&self, address: u64) -> Option<(&str, u64)> {
        let after = self.by_address.partition_point(|(start, _)| *start <= address);
        let at = self.by_address[..after].last()?.0;
        let same = self.by_address[..after].iter().rev().take_while(|(start, _)| *start == at);
        // of symbols at one address rather one whose name is no compiler's label
        let names = same.map(|(_, index)| &*self.symbols[*index as usize].name);
        let name = names.min_by_key(|name| (is_label(name), *name))?;
        Some((name, address - at))
    }
}
