// SPDX-License-Identifier: MIT OR Apache-2.0
//! Relocatable objects, and those in archives.

use linker_utils::elf::Architecture;
use object::LittleEndian;
use object::elf::{self, FileHeader64};
use object::read::archive::ArchiveFile;
use object::read::elf::{FileHeader, SectionHeader, Sym};
use std::error::Error;

pub const LE: LittleEndian = LittleEndian;
pub type Head = FileHeader64<LittleEndian>;

/// Where an object's symbol is.
#[derive(Clone, Copy, PartialEq, Eq)]
pub enum Home {
    Undefined,
    Absolute,
    Common,
    Section(usize),
}

pub struct Symbol {
    pub name: String,
    pub home: Home,
    pub value: u64,
    pub size: u64,
    /// `st_other`
    pub other: u8,
    pub is_weak: bool,
    pub is_ifunc: bool,
    pub is_function: bool,
    pub is_thread_local: bool,
}

/// A section that is loaded; others have neither bytes nor relocations here.
pub struct Section {
    pub name: String,
    pub size: u64,
    pub alignment: u64,
    pub is_code: bool,
    pub is_thread_local: bool,
    /// Empty where the file has no bytes for it.
    pub bytes: Vec<u8>,
    /// 24 bytes each, as in the file.
    pub relocations: Vec<u8>,
}

pub struct Object {
    pub architecture: Architecture,
    /// RISC-V's C extension is used.
    pub may_compress: bool,
    pub sections: Vec<Section>,
    pub symbols: Vec<Symbol>,
}

/// Calls a function with each ELF file of an archive, and its member's name, or with the file itself.
pub fn each_member<'a>(
    data: &'a [u8],
    mut with: impl FnMut(&str, &'a [u8]) -> Result<(), Box<dyn Error>>,
) -> Result<(), Box<dyn Error>> {
    if !data.starts_with(b"!<arch>\n") {
        return with("", data);
    }
    for member in ArchiveFile::parse(data)?.members() {
        let member = member?;
        let name = String::from_utf8_lossy(member.name()).into_owned();
        let bytes = member.data(data)?;
        if bytes.starts_with(b"\x7fELF") {
            with(&name, bytes)?;
        }
    }
    Ok(())
}

/// Calls a function with each object of a file, and its member's name in an archive.
pub fn each_object(
    data: &[u8],
    mut with: impl FnMut(&str, Object) -> Result<(), Box<dyn Error>>,
) -> Result<(), Box<dyn Error>> {
    each_member(data, |name, bytes| match read(bytes)? {
        Some(object) => with(name, object),
        None => Ok(()),
    })
}

/// An object of an architecture that the library has; none of another file.
fn read(data: &[u8]) -> Result<Option<Object>, Box<dyn Error>> {
    if data.get(4..6) != Some(&[elf::ELFCLASS64, elf::ELFDATA2LSB]) {
        return Ok(None);
    }
    let head = Head::parse(data)?;
    let Some(architecture) = Architecture::from_machine(head.e_machine(LE)) else {
        return Ok(None);
    };
    if head.e_type(LE) != elf::ET_REL {
        return Ok(None);
    }
    let table = head.sections(LE, data)?;
    let mut sections: Vec<Section> = Vec::new();
    for section in table.iter() {
        let flags = section.sh_flags(LE);
        let is_loaded = flags & u64::from(elf::SHF_ALLOC) != 0;
        sections.push(Section {
            name: String::from_utf8_lossy(table.section_name(LE, section)?).into_owned(),
            size: if is_loaded { section.sh_size(LE) } else { 0 },
            alignment: section.sh_addralign(LE).max(1),
            is_code: is_loaded && flags & u64::from(elf::SHF_EXECINSTR) != 0,
            is_thread_local: is_loaded && flags & u64::from(elf::SHF_TLS) != 0,
            bytes: if is_loaded { section.data(LE, data)?.to_vec() } else { Vec::new() },
            relocations: Vec::new(),
        });
    }
    for section in table.iter().filter(|section| section.sh_type(LE) == elf::SHT_RELA) {
        let of = section.sh_info(LE) as usize;
        if let Some(target) = sections.get_mut(of)
            && target.size > 0
        {
            target.relocations = section.data(LE, data)?.to_vec();
        }
    }
    let symbols = table.symbols(LE, data, elf::SHT_SYMTAB)?;
    let symbols = symbols
        .iter()
        .map(|symbol| {
            Ok(Symbol {
                name: String::from_utf8_lossy(symbol.name(LE, symbols.strings())?).into_owned(),
                home: match symbol.st_shndx(LE) {
                    elf::SHN_UNDEF => Home::Undefined,
                    elf::SHN_ABS => Home::Absolute,
                    elf::SHN_COMMON => Home::Common,
                    elf::SHN_XINDEX => return Err("more than 65,279 sections".into()),
                    index => Home::Section(index.into()),
                },
                value: symbol.st_value(LE),
                size: symbol.st_size(LE),
                other: symbol.st_other(),
                is_weak: symbol.st_bind() == elf::STB_WEAK,
                is_ifunc: symbol.st_type() == elf::STT_GNU_IFUNC,
                is_function: symbol.st_type() == elf::STT_FUNC,
                is_thread_local: symbol.st_type() == elf::STT_TLS,
            })
        })
        .collect::<Result<_, Box<dyn Error>>>()?;
    let may_compress = head.e_flags(LE) & elf::EF_RISCV_RVC != 0;
    Ok(Some(Object { architecture, may_compress, sections, symbols }))
}
