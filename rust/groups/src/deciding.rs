// SPDX-License-Identifier: MIT OR Apache-2.0
//! Rewrites that four threads decide over files that are mapped read-only, and that are made later in
//! copies, beside `rewrite_section`. Then each byte that one rewrites is changed, and it isn't made.

use crate::objects::{Head, LE, each_member};
use linker_utils::architecture::Relaxation;
use linker_utils::elf::Architecture;
use linker_utils::rewriting::{
    Decision, DecisionError, DecisionNumbers, Phase, RewritingError, SymbolFacts,
    UnrelaxableGroups, decide_rewrites, has_rewrites, make_rewrites, rewrite_section, survey,
};
use linker_utils::section::{Link, Object, Section, relocation_at, relocations_len};
use object::elf;
use object::read::elf::{FileHeader, SectionHeader, Sym};
use std::collections::BTreeMap;
use std::error::Error;
use std::fs::File;
use std::os::fd::AsRawFd;
use std::sync::atomic::{AtomicUsize, Ordering};

const THREADS: usize = 4;

unsafe extern "C" {
    fn mmap(at: *mut u8, len: usize, protection: i32, flags: i32, file: i32, offset: i64) -> *mut u8;
}

/// A file's bytes; a write to them ends the program.
fn map(name: &str) -> Result<&'static [u8], Box<dyn Error>> {
    const PROT_READ: i32 = 1;
    const MAP_PRIVATE: i32 = 2;
    let file = File::open(name)?;
    let len = file.metadata()?.len() as usize;
    // SAFETY: a new mapping, which is never unmapped, and nothing writes to the file
    unsafe {
        let at = mmap(std::ptr::null_mut(), len, PROT_READ, MAP_PRIVATE, file.as_raw_fd(), 0);
        match at as isize {
            -1 => Err(std::io::Error::last_os_error().into()),
            _ => Ok(std::slice::from_raw_parts(at, len)),
        }
    }
}

type Code = Section<&'static [u8], &'static [u8]>;

struct Input {
    link: Link,
    facts: Vec<SymbolFacts>,
    kept: Vec<UnrelaxableGroups>,
    code: Vec<Code>,
}

impl Input {
    fn object(&self) -> Object<'_> {
        Object { facts: &self.facts, unrelaxable_groups: &self.kept, ..Object::default() }
    }
}

/// An object's sections of code, surveyed with facts as of an output in which others define what it
/// doesn't, or shared libraries do.
fn read(data: &'static [u8], is_static: bool) -> Result<Option<Input>, Box<dyn Error>> {
    let head = Head::parse(data)?;
    let Some(architecture) = Architecture::from_machine(head.e_machine(LE)) else {
        return Ok(None);
    };
    let table = head.sections(LE, data)?;
    let mut code = Vec::new();
    for section in table.iter().filter(|section| section.sh_type(LE) == elf::SHT_RELA) {
        let target = table.section(object::SectionIndex(section.sh_info(LE) as usize))?;
        if target.sh_flags(LE) & u64::from(elf::SHF_EXECINSTR) != 0 {
            code.push(Section::new(target.data(LE, data)?, section.data(LE, data)?));
        }
    }
    let symbols = table.symbols(LE, data, elf::SHT_SYMTAB)?;
    let facts: Vec<_> = symbols
        .iter()
        .map(|symbol| {
            let is_undefined = symbol.st_shndx(LE) == elf::SHN_UNDEF;
            let is_undefined_weak = is_undefined && symbol.st_bind() == elf::STB_WEAK;
            Ok(SymbolFacts {
                is_local: !is_undefined || (is_static && !is_undefined_weak),
                is_ifunc: symbol.st_type() == elf::STT_GNU_IFUNC,
                is_absolute: symbol.st_shndx(LE) == elf::SHN_ABS,
                is_undefined_weak,
                is_tls_get_addr: symbol.name(LE, symbols.strings())? == b"__tls_get_addr",
                other: symbol.st_other(),
            })
        })
        .collect::<Result<_, Box<dyn Error>>>()?;
    let link = Link {
        is_executable: true,
        is_fixed: is_static,
        has_near_symbols: true,
        ..Link::new(architecture)
    };
    let mut kept = vec![UnrelaxableGroups::default(); facts.len()];
    let known = Object { facts: &facts, ..Object::default() };
    code.iter().for_each(|section: &Code| survey(&link, &known, section, &mut kept));
    Ok(Some(Input { link, facts, kept, code }))
}

struct Decided {
    input: usize,
    section: usize,
    decisions: Vec<DecisionNumbers>,
    result: Result<(), RewritingError>,
}

/// The decisions of all sections, of which each thread takes the next.
fn decide(inputs: &[Input]) -> Vec<Decided> {
    let all: Vec<(usize, usize)> = (0..inputs.len())
        .flat_map(|input| (0..inputs[input].code.len()).map(move |section| (input, section)))
        .collect();
    let next = AtomicUsize::new(0);
    let decide_next = || {
        let &(input, section) = all.get(next.fetch_add(1, Ordering::Relaxed))?;
        let of = &inputs[input];
        let code = &of.code[section];
        let mut decisions = vec![DecisionNumbers::default(); relocations_len(code.relocations)];
        let result = decide_rewrites(&of.link, &of.object(), code, &mut decisions);
        Some(Decided { input, section, decisions, result })
    };
    std::thread::scope(|scope| {
        let run = || scope.spawn(|| std::iter::from_fn(decide_next).collect::<Vec<_>>());
        let threads: [_; THREADS] = std::array::from_fn(|_| run());
        threads.into_iter().flat_map(|thread| thread.join().expect("no panic")).collect()
    })
}

/// What a decision rewrites, if anything.
fn rewrite(decision: &DecisionNumbers) -> Option<Relaxation> {
    match decision.as_decision() {
        Decision::Rewritten(choice) | Decision::RewrittenWithSymbol(choice, _) => Some(choice.kind),
        Decision::Kept | Decision::Consumed => None,
    }
}

#[derive(Default)]
struct Count {
    sections: u64,
    rewritten: u64,
    /// Changed bytes with which the section is no longer rewritten: all.
    rejected: u64,
}

/// Makes what was decided in a copy, and in copies of which one byte is changed.
fn make(input: &Input, decided: &Decided, count: &mut Count) -> Result<(), String> {
    let code = &input.code[decided.section];
    let decisions = &decided.decisions;
    let copy = || Section::new(code.bytes.to_vec(), code.relocations.to_vec());
    let mut expected = copy();
    let mut others = vec![DecisionNumbers::default(); decisions.len()];
    let result = rewrite_section(&input.link, &input.object(), &mut expected, &mut others);
    if result != decided.result {
        return Err(format!("{:?} in place of {result:?}", decided.result));
    }
    count.sections += 1;
    if result.is_err() {
        return Ok(());
    }
    if !others.iter().map(|it| it.as_decision()).eq(decisions.iter().map(|it| it.as_decision())) {
        return Err("other decisions".into());
    }
    let mut made = copy();
    make_rewrites(&mut made, decisions).map_err(|error| error.to_string())?;
    if made.bytes != expected.bytes || made.relocations != expected.relocations {
        return Err("another section".into());
    }
    let offset = |index| relocation_at(code.relocations, index).map_or(0, |it| it.offset);
    let all: Vec<(usize, Relaxation)> = (0..decisions.len())
        .filter_map(|index| Some((index, rewrite(&decisions[index])?)))
        .collect();
    let mut changed = copy();
    for &(index, _) in &all {
        count.rewritten += 1;
        let window = decisions[index].as_decision().window();
        let start = (offset(index) - window.back) as usize;
        for at in start..start + window.len as usize {
            changed.bytes[at] ^= 0xff;
            // or one before it whose instructions are also tested there
            let (first, _) = all
                .iter()
                .find(|&&(at, kind)| at == index || !kind.matches(&changed.bytes, offset(at)))
                .expect("at least this one");
            let before = changed.bytes.clone();
            let error = make_rewrites(&mut changed, decisions);
            if error != Err(DecisionError::Changed(*first)) {
                return Err(format!("{error:?} where {first} is changed at {at:#x}"));
            }
            if changed.bytes != before || changed.relocations != code.relocations {
                return Err(format!("written in spite of {error:?}"));
            }
            count.rejected += 1;
            changed.bytes[at] ^= 0xff;
        }
    }
    Ok(())
}

/// Whether all is the same of the objects in files, and something is rewritten of each architecture
/// that has rewrites then.
pub fn run(files: &[String]) -> Result<bool, Box<dyn Error>> {
    let mut counts: BTreeMap<String, (Architecture, Count)> = BTreeMap::new();
    for file in files {
        let data = map(file)?;
        for is_static in [false, true] {
            let mut inputs = Vec::new();
            each_member(data, |_, member| {
                inputs.extend(read(member, is_static)?);
                Ok(())
            })?;
            for decided in decide(&inputs) {
                let input = &inputs[decided.input];
                let architecture = input.link.architecture;
                let (_, count) = counts
                    .entry(format!("{architecture:?}"))
                    .or_insert_with(|| (architecture, Count::default()));
                make(input, &decided, count).map_err(|error| {
                    format!("{file}: section {} of object {}: {error}", decided.section, decided.input)
                })?;
            }
        }
    }
    let mut is_whole = !counts.is_empty();
    for (name, (architecture, count)) in &counts {
        println!(
            "{name}: {} sections decided, {} rewrites, {} changed bytes rejected",
            count.sections, count.rewritten, count.rejected
        );
        is_whole &= !has_rewrites(*architecture, Phase::PreLayout) || count.rejected > 0;
    }
    Ok(is_whole)
}
