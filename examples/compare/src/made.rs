// SPDX-License-Identifier: MIT OR Apache-2.0
//! What stands at a relocation: the library's choices and this program's own, the field, and what
//! that leads to.

use crate::elf::{Relocation, Section};
use crate::forms::{self, Base, Form};
use crate::map::Bytes;
use linker_utils::aarch64::AArch64Relocation;
use linker_utils::architecture::Relaxation;
use linker_utils::elf::{Architecture, InstructionRewrite, Operands, Row};
use linker_utils::loongarch64::LoongArch64Relocation;
use linker_utils::ppc64::{self, Ppc64Relocation};
use linker_utils::reading::{FieldValue, read, solve};
use linker_utils::recognise::{self, FieldBits, RecognisedName, Windows};
use linker_utils::relaxation::RelocationModifier;
use linker_utils::riscv64::RiscVRelocation;
use linker_utils::x86_64::X86_64Relocation;
use std::ops::RangeInclusive;
use std::sync::OnceLock;

/// A rewrite.
#[derive(Clone, Copy)]
pub enum Kind {
    Library(Relaxation),
    /// One that the library doesn't list.
    Own(Form),
}

/// A rewrite, and the relocation after it, `r_type`.
#[derive(Clone, Copy)]
pub struct Chosen {
    pub kind: Kind,
    pub relocation: u32,
}

impl Chosen {
    /// What leaves a relocation and its instruction as they are.
    pub fn nothing(architecture: Architecture, relocation: u32) -> Option<Chosen> {
        let kind = match architecture {
            Architecture::AArch64 => Relaxation::AArch64(Default::default()),
            Architecture::LoongArch64 => Relaxation::LoongArch64(Default::default()),
            Architecture::Ppc64 => Relaxation::Ppc64(Default::default()),
            Architecture::RiscV => Relaxation::RiscV(Default::default()),
            Architecture::X86_64 => Relaxation::X86_64(Default::default()),
            _ => return None,
        };
        Some(Chosen { kind: Kind::Library(kind), relocation })
    }

    /// Whether it changes instructions.
    pub fn is_rewrite(&self) -> bool {
        match self.kind {
            // of these only the relocation changes
            Kind::Library(Relaxation::Ppc64(ppc64::RewriteKind::KeepAddis)) => false,
            Kind::Library(kind) => !kind.is_no_op(),
            Kind::Own(form) => !form.name.is_empty(),
        }
    }

    /// The rewrite's name, and nothing where only the relocation changes.
    pub fn name(&self) -> Option<String> {
        self.is_rewrite().then(|| match self.kind {
            Kind::Own(form) => form.name.to_string(),
            Kind::Library(Relaxation::AArch64(kind)) => format!("{kind:?}"),
            Kind::Library(Relaxation::RiscV(kind)) => format!("{kind:?}"),
            Kind::Library(Relaxation::LoongArch64(kind)) => format!("{kind:?}"),
            Kind::Library(Relaxation::Ppc64(kind)) => format!("{kind:?}"),
            Kind::Library(Relaxation::X86_64(kind)) => format!("{kind:?}"),
            Kind::Library(kind) => format!("{kind:?}"),
        })
    }

    pub fn skips_next(&self) -> bool {
        match self.kind {
            Kind::Library(kind) => {
                matches!(kind.next_modifier(), RelocationModifier::SkipNextRelocation)
            }
            Kind::Own(form) => form.skips_next,
        }
    }

    /// Where the deleted bytes begin, behind the relocation's offset, and how many they are.
    pub fn deleted(&self) -> Option<(u64, u64)> {
        match self.kind {
            Kind::Library(kind) => kind.deleted().map(|one| (one.start, u64::from(one.count))),
            Kind::Own(form) => form.deleted,
        }
    }

    pub fn deleted_count(&self) -> u64 {
        self.deleted().map_or(0, |(_, count)| count)
    }
}

/// What a relocation's name and row say, which is needed often.
struct Properties {
    row: Option<Row>,
    /// Of how many bytes it is.
    len: u64,
    /// Whether the library lists a rewrite of it.
    is_rewritten: bool,
    is_mark: bool,
    is_uleb128: bool,
    may_delete: bool,
    is_alignment: bool,
}

impl Properties {
    fn new(architecture: Architecture, r_type: u32) -> Properties {
        let name = architecture.name(r_type).unwrap_or("");
        let row = architecture.row(r_type);
        let is_mark = ["_NONE", "_RELAX", "_ALIGN"].iter().any(|end| name.ends_with(end));
        let window = row.map_or(0, |row| row.window() as u64);
        Properties {
            row,
            len: match architecture {
                Architecture::X86_64 => window,
                _ if window > 0 || is_mark => window,
                // some only say what an instruction is for
                _ => 4,
            },
            is_rewritten: !name.is_empty() && has_rewrites(architecture, r_type),
            is_mark,
            is_uleb128: name.ends_with("_ULEB128"),
            may_delete: name.ends_with("_RELAX") || name.starts_with("R_RISCV_TLSDESC_"),
            is_alignment: matches!(name, "R_LARCH_ALIGN" | "R_RISCV_ALIGN"),
        }
    }
}

/// Whether the library lists a rewrite of a relocation.
fn has_rewrites(architecture: Architecture, r_type: u32) -> bool {
    // on x86-64 the byte of the opcode shows which
    fn lists<N: RecognisedName>(name: N, mut opcodes: RangeInclusive<u8>) -> bool {
        opcodes.any(|opcode| name.listed(&[opcode, 0], 2).1 > 1)
    }
    match architecture {
        Architecture::AArch64 => lists(AArch64Relocation::from_elf(r_type), 0..=0),
        Architecture::LoongArch64 => lists(LoongArch64Relocation::from_elf(r_type), 0..=0),
        Architecture::Ppc64 => lists(Ppc64Relocation::from_elf(r_type), 0..=0),
        Architecture::RiscV => lists(RiscVRelocation::from_elf(r_type), 0..=0),
        Architecture::X86_64 => lists(X86_64Relocation::from_elf(r_type), 0..=u8::MAX),
        _ => true,
    }
}

/// The numbers that have properties of their own; the psABIs' are below.
const R_TYPES: u32 = 2048;

fn properties(architecture: Architecture, r_type: u32) -> &'static Properties {
    static TABLES: [OnceLock<Vec<Properties>>; 5] = [const { OnceLock::new() }; 5];
    const NOTHING: Properties = Properties {
        row: None,
        len: 4,
        is_rewritten: true,
        is_mark: false,
        is_uleb128: false,
        may_delete: false,
        is_alignment: false,
    };
    static OTHERS: [Properties; 2] = [NOTHING, Properties { len: 0, ..NOTHING }];
    let table = match architecture {
        Architecture::AArch64 => &TABLES[0],
        Architecture::LoongArch64 => &TABLES[1],
        Architecture::Ppc64 => &TABLES[2],
        Architecture::RiscV => &TABLES[3],
        Architecture::X86_64 => &TABLES[4],
        _ => return &OTHERS[0],
    };
    let all = || (0..R_TYPES).map(|r_type| Properties::new(architecture, r_type)).collect();
    let is_x86_64 = architecture == Architecture::X86_64;
    table.get_or_init(all).get(r_type as usize).unwrap_or(&OTHERS[usize::from(is_x86_64)])
}

/// The row of a relocation, as `Architecture::row`.
pub fn row(architecture: Architecture, r_type: u32) -> Option<&'static Row> {
    properties(architecture, r_type).row.as_ref()
}

/// Whether a relocation only marks or pads.
pub fn is_mark(architecture: Architecture, r_type: u32) -> bool {
    properties(architecture, r_type).is_mark
}

pub fn is_uleb128(architecture: Architecture, r_type: u32) -> bool {
    properties(architecture, r_type).is_uleb128
}

/// Whether a relocation says that bytes of those at its offset may be deleted. A mark of the first
/// instruction of RISC-V's TLS descriptors counts for all four.
pub fn may_delete(architecture: Architecture, r_type: u32) -> bool {
    properties(architecture, r_type).may_delete
}

/// How many bytes of instructions or data a relocation is of.
pub fn len(architecture: Architecture, r_type: u32) -> u64 {
    properties(architecture, r_type).len
}

/// Whether the library lists a rewrite of a relocation, whatever its instruction is.
pub fn is_rewritten(architecture: Architecture, r_type: u32) -> bool {
    properties(architecture, r_type).is_rewritten
}

/// Whether no choice of the library for a relocation has bytes outside of the relocation's.
pub fn is_narrow(architecture: Architecture, one: &Relocation, it: &Section) -> bool {
    let (before, past) = (one.offset.min(16), one.offset.saturating_add(48));
    let window = (one.offset - before) as usize..past.min(it.bytes.len() as u64) as usize;
    let Some(bytes) = it.bytes.get(window) else { return false };
    let window = recognise::architecture::window_of(architecture, one.r_type, bytes, before);
    window.back == 0 && window.len <= len(architecture, one.r_type)
}

/// Of an alignment how many bytes of nops the object has, and how many stay at a place.
#[inline]
pub fn alignment(architecture: Architecture, one: &Relocation, place: u64) -> Option<(u64, u64)> {
    match properties(architecture, one.r_type).is_alignment {
        true => nops(architecture, one, place),
        false => None,
    }
}

fn nops(architecture: Architecture, one: &Relocation, place: u64) -> Option<(u64, u64)> {
    let (nops, to, most) = match architecture.name(one.r_type)? {
        "R_LARCH_ALIGN" if one.symbol != 0 => {
            // the psABI: the power of two, and from bit 8 on how many bytes of nops may stay
            let to = 1 << (one.addend as u64 & 0xff).min(16);
            (u64::saturating_sub(to, 4), to, one.addend as u64 >> 8)
        }
        "R_LARCH_ALIGN" | "R_RISCV_ALIGN" => {
            let nops = u64::try_from(one.addend).ok().filter(|nops| *nops < 1 << 16)?;
            (nops, (nops + 1).next_power_of_two(), 0)
        }
        _ => return None,
    };
    let kept = place.wrapping_neg() % to;
    Some((nops, if most != 0 && kept > most { 0 } else { kept }))
}

/// What stands in the field of a choice's relocation.
#[derive(Clone, Copy)]
pub struct Field {
    pub row: &'static Row,
    pub value: FieldValue,
    /// Where it is, in the linked file.
    pub place: u64,
    /// The addend after the rewrite.
    pub addend: i64,
    /// What it counts from.
    pub base: Base,
}

/// A relocation and the bytes around it, before a rewrite.
#[derive(Clone)]
pub struct Before {
    architecture: Architecture,
    r_type: u32,
    bytes: Bytes,
    /// Where the relocation is in the bytes.
    offset: u64,
    addend: i64,
}

impl Before {
    /// A relocation of a section, with a window of its bytes: `None` where it has more than 64.
    pub fn new(
        architecture: Architecture,
        one: &Relocation,
        it: &Section,
        (start, end): (u64, u64),
    ) -> Option<Before> {
        let bytes = Bytes::of(&it.bytes[start as usize..end as usize])?;
        let (r_type, offset, addend) = (one.r_type, one.offset - start, one.addend);
        Some(Before { architecture, r_type, bytes, offset, addend })
    }

    /// The library's choices after which the linked bytes are as they are.
    pub fn choices(
        &self,
        others: &[FieldBits],
        linked: &[u8],
    ) -> impl Iterator<Item = Chosen> + Clone + use<> {
        let windows = Windows { original: &self.bytes, offset: self.offset, others, linked };
        recognise::architecture::recognise(self.architecture, self.r_type, &windows)
        // without the values, which are large
        .map(|made| made.map(|made| made.choice))
        .into_iter()
        .flatten()
        .map(|choice| Chosen { kind: Kind::Library(choice.kind), relocation: choice.relocation })
    }

    /// A rewrite that the library doesn't list.
    pub fn own_choice(&self, linked: &[u8]) -> Option<Chosen> {
        let (bytes, offset) = (&self.bytes, self.offset as usize);
        let (form, relocation) =
            forms::form(self.architecture, self.r_type, bytes, offset, linked)?;
        Some(Chosen { kind: Kind::Own(form), relocation })
    }

    /// The same of a second rewrite, after one that deletes nothing: what is before the second one,
    /// the second, and the first.
    pub fn choices_after(
        &self,
        others: &[FieldBits],
        linked: &[u8],
    ) -> Vec<(Before, Chosen, Option<Chosen>)> {
        let all = (0..self.bytes.len() as u64).step_by(8);
        let all: Vec<_> = all.map(|offset| FieldBits { offset, bits: u64::MAX }).collect();
        let mut found = Vec::new();
        for first in self.choices(&all, &self.bytes) {
            let Kind::Library(kind) = first.kind else { continue };
            if !first.is_rewrite() {
                continue;
            }
            let mut after = self.clone();
            kind.apply(&mut after.bytes, &mut after.offset, &mut after.addend);
            after.r_type = first.relocation;
            for chosen in after.choices(others, linked) {
                if chosen.is_rewrite() {
                    found.push((after.clone(), chosen, Some(first)));
                }
            }
        }
        found
    }

    /// The field of a choice's relocation, in linked bytes that are at an address.
    pub fn field(&self, chosen: &Chosen, linked: &[u8], address: u64) -> Option<Field> {
        let (mut at, mut addend, mut base) = (self.offset, self.addend, Base::Nothing);
        match chosen.kind {
            Kind::Library(kind) => {
                kind.apply(&mut self.bytes.clone(), &mut at, &mut addend);
            }
            Kind::Own(form) => {
                base = form.base;
                addend = addend.wrapping_add(form.more);
            }
        }
        if let Some((start, count)) = chosen.deleted() {
            let start = self.offset + start;
            if at >= start {
                at = at.saturating_sub(count).max(start);
            }
        }
        let row = row(self.architecture, chosen.relocation)?;
        let bytes = linked.get(usize::try_from(at).ok()?..)?;
        let value = read(row, bytes)?;
        Some(Field { row, value, place: address.wrapping_add(at), addend, base })
    }
}

impl Field {
    /// What stands in the bytes of a relocation that is as it was.
    pub fn of(row: &'static Row, bytes: &[u8], place: u64, addend: i64) -> Option<Field> {
        Some(Field { row, value: read(row, bytes)?, place, addend, base: Base::Nothing })
    }

    pub fn is_through_got(&self) -> bool {
        self.row.asks_for_got()
    }

    pub fn leads(&self, operands: &Operands) -> bool {
        self.row.value(operands).is_ok_and(|value| self.value.is_of(value as u64))
    }

    /// The symbol's address, and from which bit on and up to which its bits are known.
    pub fn number(&self, operands: &Operands) -> Option<(u64, u8, u8)> {
        let sum = solve(&self.row.info(), &self.value, operands)?;
        let known = sum.known;
        let mut bits = sum.bits.checked_shl(known.start.into())?;
        if known.start > 0 && known.end < 64 {
            // in two's complement
            let above = 64 - u32::from(known.end);
            bits = ((bits << above) as i64 >> above) as u64;
        }
        let number = bits.wrapping_sub(sum.rounding).wrapping_sub(operands.addend as u64);
        Some((number, known.start, known.end))
    }
}
