// SPDX-License-Identifier: MIT OR Apache-2.0
//! An object's sections as they are linked without rewrites, and with all that the library chooses.

use crate::layout::{CODE, Layout, MEMORY};
use crate::objects::Object;
use linker_utils::elf::{Architecture, RewriteWindow};
use linker_utils::relaxation::{AsDeletion, DeltaSlice, SectionRelaxDeltas};
use linker_utils::rewriting::{
    Decision, DecisionNumbers, Deletion, Phase, UnrelaxableGroups, rewrite_placed_section, rewrite_section, survey,
    survey_placed_section,
};
use linker_utils::runs::{
    Alignment, Item, ItemNumbers, Machine, Relocation, Run, first_faulty, pack_run, packed_run_len, relax,
    rewritten_items_into,
};
use linker_utils::section::{
    self, Section, Symbol, memory_len, relocate_section, relocation_at, relocations_len,
};
use std::error::Error;

/// A relocation whose instruction is rewritten, or which goes with another one.
pub struct Member {
    /// As the object has it.
    pub offset: u64,
    pub r_type: u32,
    pub symbol: u32,
    pub addend: i64,
    /// The bytes that are rewritten or deleted.
    pub start: u64,
    pub end: u64,
}

pub struct Linked {
    pub before: Vec<u8>,
    pub after: Vec<u8>,
    /// In the order of their offsets.
    pub members: Vec<Member>,
}

/// Where code is after packing: of each section its first address, the one behind it and what it lost,
/// by distances from `MEMORY`.
#[derive(Default)]
pub struct Moves(Vec<(u64, u64, SectionRelaxDeltas)>);

impl Moves {
    pub fn at(&self, address: u64) -> u64 {
        let below = self.0.partition_point(|(first, ..)| *first <= address);
        match self.0[..below].last().filter(|(_, end, _)| address <= *end) {
            Some((_, _, lost)) => {
                MEMORY + DeltaSlice::new(lost.deltas()).input_to_output_offset(address - MEMORY)
            }
            None => address,
        }
    }
}

/// An object's sections, or why one isn't linked. Those without bytes or code have no members.
pub struct Program {
    pub sections: Vec<Result<Linked, Box<dyn Error>>>,
    pub moves: Moves,
    /// What lost bytes of each section, or could have.
    pub items: Vec<Vec<ItemNumbers>>,
}

const LATER: [Phase; 3] = [Phase::TlsLocalExec, Phase::GotToPcRel, Phase::ShortPcRel];

/// What stands for deleted bytes, which are still there.
fn no_operation(architecture: Architecture) -> &'static [u8] {
    match architecture {
        Architecture::RiscV => &[0x13, 0, 0, 0],
        Architecture::LoongArch64 => &[0, 0, 0x40, 3],
        _ => &[],
    }
}

/// The relocations with type 0 for alignments, since nothing here removes their nops.
fn without_alignments(architecture: Architecture, relocations: &[u8]) -> Vec<u8> {
    let alignment = match architecture {
        Architecture::RiscV => 43,
        Architecture::LoongArch64 => 102,
        _ => return relocations.to_vec(),
    };
    let mut relocations = relocations.to_vec();
    for index in 0..relocations_len(&relocations) {
        if relocation_at(&relocations, index).is_some_and(|one| one.r_type == alignment) {
            relocations[24 * index + 8..][..4].fill(0);
        }
    }
    relocations
}

fn relocated(
    layout: &Layout,
    values: &[Symbol],
    address: u64,
    relocations: &[u8],
    bytes: Vec<u8>,
) -> Result<Vec<u8>, Box<dyn Error>> {
    let relocations = without_alignments(layout.link.architecture, relocations);
    let mut memory = vec![0; memory_len(&relocations)];
    let known = section::Object { values, ..section::Object::default() };
    let mut section = Section { address, ..Section::new(bytes, relocations) };
    relocate_section(&layout.link, &known, &mut section, &mut memory).map_err(|error| {
        let code =
            relocation_at(&section.relocations, error.index).map(|relocation| relocation.r_type);
        format!("relocation {} of type {code:?}: {:?}", error.index, error.error)
    })?;
    Ok(section.bytes)
}

/// Notes what a phase made of relocations.
fn note(decisions: &[DecisionNumbers], relocations: &[u8], windows: &mut [Option<(u64, u64)>]) {
    for (index, window) in windows.iter_mut().enumerate() {
        let Some(relocation) = relocation_at(relocations, index) else { continue };
        let decision = decisions[index].as_decision();
        if decision == Decision::Kept {
            continue;
        }
        let RewriteWindow { back, len } = decision.window();
        let mut start = relocation.offset - back;
        let mut end = start + len;
        if let Some(deleted) = decision.deleted() {
            let from = relocation.offset + deleted.start;
            start = if len == 0 { from } else { start.min(from) };
            end = end.max(from + u64::from(deleted.count));
        }
        let (first, last) = window.unwrap_or((start, end));
        *window = Some((first.min(start), last.max(end)));
    }
}

/// Packs a section, of which calls may reach functions of other objects.
fn pack(
    machine: Machine,
    layout: &Layout,
    may_compress: bool,
    section: &mut Section<&mut Vec<u8>, &mut Vec<u8>>,
    deleted: &[(u64, u32)],
) -> Result<(SectionRelaxDeltas, Vec<ItemNumbers>), String> {
    let (base, len) = (section.base, section.bytes.len());
    let relocations: Vec<Relocation> = section::relocations(section.relocations)
        .map(|it| {
            let symbol = &layout.symbols[it.symbol as usize];
            // what else than calls has a stub stays as it is
            let is_call = matches!(it.r_type, 18 | 19 | 110);
            let address = match symbol.stub {
                0 => symbol.address.wrapping_add(it.addend as u64),
                stub => stub,
            };
            let is_own = (base..=base + len as u64).contains(&address.wrapping_sub(MEMORY));
            let may_reach = ((MEMORY..CODE).contains(&address) || (is_own && it.addend == 0))
                && (is_call || symbol.stub == 0);
            Relocation {
                offset: it.offset,
                r_type: it.r_type,
                has_symbol: it.symbol > 0,
                addend: it.addend,
                target: may_reach.then(|| address - MEMORY),
                may_compress,
            }
        })
        .collect();
    let none = Alignment { offset: 0, nops: 0, alignment: 1, max_skip: None };
    let none = ItemNumbers::from_item(Item::Aligned(none));
    let mut items = vec![none; relocations.len() + deleted.len()];
    let mut makers = vec![0; items.len()];
    let made =
        rewritten_items_into(machine, section, &relocations, deleted, &mut items, &mut makers);
    items.truncate(made.map_err(|error| format!("{error:?}"))?);
    if let Some(fault) = first_faulty(&items, MEMORY) {
        return Err(format!("{fault:?}"));
    }
    let lost = relax(&items, MEMORY).expect("memory").deletions;
    let run = Run { start: MEMORY, items: &items, deltas: lost.deltas() };
    let mut packed = vec![0; packed_run_len(base, len, run.deltas)];
    pack_run(machine, section, &run, &mut packed).map_err(|error| format!("{error:?}"))?;
    *section.bytes = packed;
    Ok((lost, items))
}

/// Links an object, whose code is packed or has nops in place of what is deleted.
pub fn link(object: &Object, layout: &Layout, packs: bool) -> Program {
    let architecture = object.architecture;
    let count = object.sections.len();
    let code: Vec<usize> = (0..count).filter(|&index| object.sections[index].is_code).collect();
    let mut bytes: Vec<Vec<u8>> = object.sections.iter().map(|s| s.bytes.clone()).collect();
    let mut tables = layout.relocations.clone();
    let mut windows: Vec<Vec<Option<(u64, u64)>>> =
        tables.iter().map(|table| vec![None; relocations_len(table)]).collect();
    let mut errors: Vec<Option<String>> = vec![None; count];
    let mut gone: Vec<Vec<(u64, u32)>> = vec![Vec::new(); count];

    let known = section::Object {
        facts: &layout.facts,
        values: &layout.symbols,
        ..section::Object::default()
    };
    let mut kept = vec![UnrelaxableGroups::default(); layout.symbols.len()];
    for &index in &code {
        survey(&layout.link, &known, &Section::new(&bytes[index], &tables[index]), &mut kept);
    }
    for &index in &code {
        let mut decisions = vec![DecisionNumbers::default(); relocations_len(&tables[index])];
        let before = tables[index].clone();
        let known = section::Object { unrelaxable_groups: &kept, ..known };
        let mut section = Section::new(&mut bytes[index], &mut tables[index]);
        match rewrite_section(&layout.link, &known, &mut section, &mut decisions) {
            Ok(()) => note(&decisions, &before, &mut windows[index]),
            Err(error) => errors[index] = Some(format!("{error:?}")),
        }
    }
    for phase in LATER {
        let mut kept = vec![UnrelaxableGroups::default(); layout.symbols.len()];
        for &index in &code {
            let section = Section::new(&bytes[index], &tables[index]);
            let section = Section { address: layout.sections[index], ..section };
            survey_placed_section(&layout.link, &known, &section, phase, &mut kept)
                .expect("tables that agree");
        }
        for &index in &code {
            let mut decisions = vec![DecisionNumbers::default(); relocations_len(&tables[index])];
            let mut deleted = vec![Deletion::default(); decisions.len()];
            let before = tables[index].clone();
            let known = section::Object { unrelaxable_groups: &kept, ..known };
            let section = Section::new(&mut bytes[index], &mut tables[index]);
            let mut section = Section { address: layout.sections[index], ..section };
            let (made, listed) = (&mut decisions, &mut deleted);
            match rewrite_placed_section(&layout.link, &known, &mut section, phase, made, listed) {
                Ok(len) => {
                    note(&decisions, &before, &mut windows[index]);
                    gone[index].extend(deleted[..len].iter().map(|it| it.as_deletion()));
                    for it in &deleted[..len] {
                        let gap = &mut bytes[index][it.offset as usize..][..it.bytes as usize];
                        let filler = no_operation(architecture).iter().cycle();
                        gap.iter_mut().zip(filler).for_each(|(byte, &with)| *byte = with);
                    }
                }
                Err(error) => errors[index] = Some(format!("{phase:?}: {error:?}")),
            }
        }
    }

    let (mut moves, mut values) = (Moves::default(), layout.symbols.clone());
    let mut items = vec![Vec::new(); count];
    if let (true, Some(machine)) = (packs, Machine::of(architecture)) {
        for &index in &code {
            let (start, len) = (layout.sections[index], bytes[index].len() as u64);
            if len == 0 || errors[index].is_some() {
                continue;
            }
            gone[index].sort_unstable();
            let section = Section::new(&mut bytes[index], &mut tables[index]);
            let mut section = Section { base: start - MEMORY, ..section };
            match pack(machine, layout, object.may_compress, &mut section, &gone[index]) {
                Ok((lost, of)) => {
                    moves.0.push((start, start + len, lost));
                    items[index] = of;
                }
                Err(error) => errors[index] = Some(format!("packed: {error}")),
            }
        }
        values.iter_mut().for_each(|value| value.address = moves.at(value.address));
    }
    let sections = (0..count)
        .map(|index| {
            if let Some(error) = errors[index].take() {
                return Err(error.into());
            }
            let original = &layout.relocations[index];
            let section = object.sections[index].bytes.clone();
            let address = layout.sections[index];
            let before = relocated(layout, &layout.symbols, address, original, section)
                .map_err(|error| format!("as it is: {error}"))?;
            let after = std::mem::take(&mut bytes[index]);
            let after = relocated(layout, &values, address, &tables[index], after)
                .map_err(|error| format!("rewritten: {error}"))?;
            let mut members: Vec<Member> = windows[index]
                .iter()
                .enumerate()
                .filter_map(|(n, window)| {
                    let (start, end) = (*window)?;
                    let relocation = relocation_at(original, n)?;
                    Some(Member {
                        offset: relocation.offset,
                        r_type: relocation.r_type,
                        symbol: relocation.symbol,
                        addend: relocation.addend,
                        start,
                        end,
                    })
                })
                .collect();
            members.sort_by_key(|member| member.offset);
            Ok(Linked { before, after, members })
        })
        .collect();
    Program { sections, moves, items }
}
