// SPDX-License-Identifier: MIT OR Apache-2.0
//! Which instructions run together, and which registers they may leave otherwise.

use crate::layout::Layout;
use crate::linking::{Linked, Member};
use crate::processor::Piece;
use linker_utils::aarch64::AArch64Relocation as A;
use linker_utils::elf::Architecture;
use linker_utils::loongarch64::LoongArch64Relocation as L;
use linker_utils::ppc64::Ppc64Relocation as P;
use linker_utils::riscv64::RiscVRelocation as R;
use linker_utils::x86_64::X86_64Relocation as X;

/// Instructions that run together.
pub struct Sequence {
    /// The member that it is reported by.
    pub member: usize,
    pub pieces: Vec<Piece>,
    /// The registers that may be otherwise, by bits.
    pub may_differ: u64,
    pub compares_flags: bool,
    /// A register that is greater by a number after the rewrite.
    pub shifted: Option<(usize, u64)>,
}

pub struct Sequences {
    pub all: Vec<Sequence>,
    /// Members of which none is made.
    pub without: Vec<usize>,
    /// Fields of 4 bytes that are greater by a number after the rewrite.
    pub offsets: Vec<(usize, u64)>,
}

struct Section<'a> {
    address: u64,
    linked: &'a Linked,
    layout: &'a Layout,
}

impl Section<'_> {
    fn word(&self, member: &Member) -> u32 {
        self.bytes_at(member.offset)
    }

    /// Four bytes of the section as it is without rewrites; 0 where there are fewer.
    fn bytes_at(&self, at: u64) -> u32 {
        let at = at as usize;
        match self.linked.before.get(at..at + 4) {
            Some(bytes) => u32::from_le_bytes(bytes.try_into().expect("four bytes")),
            None => 0,
        }
    }

    /// An instruction of 4 bytes.
    fn single(&self, member: &Member) -> Piece {
        let start = self.address + member.offset;
        Piece { start, end: start + 4, is_single: true }
    }

    /// One that calls a function, which returns.
    fn call(&self, member: &Member) -> Piece {
        Piece { is_single: false, ..self.single(member) }
    }

    fn bytes(&self, start: u64, end: u64, is_single: bool) -> Piece {
        Piece { start: self.address + start, end: self.address + end, is_single }
    }

    /// The last member before one, of its symbol, that a test accepts.
    fn last(&self, of: usize, test: impl Fn(&Member) -> bool) -> Option<&Member> {
        let member = &self.linked.members[of];
        self.linked.members[..of]
            .iter()
            .rev()
            .find(|other| other.symbol == member.symbol && test(other))
    }

    /// The member with an offset and a type.
    fn at(&self, offset: u64, test: impl Fn(&Member) -> bool) -> Option<&Member> {
        let first = self.linked.members.partition_point(|member| member.offset < offset);
        self.linked.members[first..]
            .iter()
            .take_while(|member| member.offset == offset)
            .find(|member| test(member))
    }
}

enum Made {
    Sequence(Sequence),
    /// It is a part of another one's.
    Part,
    Offset(u64),
    Without,
}

/// A bit for a register, but for the one that has the result.
fn but(register: u32, result: u32) -> u64 {
    if register == result { 0 } else { 1 << register }
}

fn strict(member: usize, pieces: Vec<Piece>) -> Sequence {
    Sequence { member, pieces, may_differ: 0, compares_flags: true, shifted: None }
}

fn x86_64(section: &Section, index: usize) -> Made {
    // rcx, rdx, rsi, rdi, r8 to r11
    const CALLEE_MAY_CHANGE: u64 = 0x0fc6;
    let member = &section.linked.members[index];
    let at = member.offset;
    // up to the end of the call's field
    let window = section.bytes(member.start, member.end.max(at + 12), false);
    let origins = &section.layout.origins;
    let shift = origins.thread_pointer.wrapping_sub(origins.module_block);
    let called = |shifted| {
        Made::Sequence(Sequence {
            may_differ: CALLEE_MAY_CHANGE,
            compares_flags: false,
            shifted,
            ..strict(index, vec![window])
        })
    };
    let name = X::from_elf(member.r_type);
    match name {
        X::R_X86_64_GOTPCREL | X::R_X86_64_GOTPCRELX | X::R_X86_64_REX_GOTPCRELX => {
            let start = if name == X::R_X86_64_REX_GOTPCRELX { at - 3 } else { member.start };
            Made::Sequence(strict(index, vec![section.bytes(start, at + 4, true)]))
        }
        X::R_X86_64_GOTTPOFF => Made::Sequence(Sequence {
            compares_flags: false,
            ..strict(index, vec![section.bytes(at - 3, at + 4, true)])
        }),
        X::R_X86_64_TLSGD => called(None),
        X::R_X86_64_TLSLD => match called(Some((0, shift))) {
            Made::Sequence(sequence) => Made::Sequence(Sequence {
                pieces: vec![section.bytes(member.start, member.end, false)],
                ..sequence
            }),
            other => other,
        },
        X::R_X86_64_DTPOFF32 => Made::Offset(shift.wrapping_neg()),
        X::R_X86_64_TLSDESC_CALL => {
            let lea = section.last(index, |m| X::from_elf(m.r_type) == X::R_X86_64_GOTPC32_TLSDESC);
            let Some(lea) = lea else { return Made::Without };
            let pieces = vec![
                section.bytes(lea.offset - 3, lea.offset + 4, true),
                section.bytes(at, at + 2, false),
            ];
            Made::Sequence(Sequence { compares_flags: false, ..strict(index, pieces) })
        }
        X::R_X86_64_GOTPC32_TLSDESC | X::R_X86_64_PLT32 | X::R_X86_64_PC32 => Made::Part,
        _ => Made::Without,
    }
}

fn aarch64(section: &Section, index: usize) -> Made {
    let member = &section.linked.members[index];
    let word = section.word(member);
    let (destination, base) = (word % 32, word / 32 % 32);
    let is = |name: A| move |m: &Member| A::from_elf(m.r_type) == name;
    let makes = |m: &Member| section.word(m) % 32 == base;
    let own = section.single(member);
    let name = A::from_elf(member.r_type);
    match name {
        A::R_AARCH64_CALL26 | A::R_AARCH64_JUMP26 => {
            Made::Sequence(Sequence { may_differ: 1 << 30, ..strict(index, vec![own]) })
        }
        A::R_AARCH64_TLSIE_LD64_GOTTPREL_LO12_NC => {
            let page = is(A::R_AARCH64_TLSIE_ADR_GOTTPREL_PAGE21);
            let Some(high) =
                section.last(index, |m| page(m) && makes(m) && m.addend == member.addend)
            else {
                return Made::Without;
            };
            let pieces = vec![section.single(high), own];
            Made::Sequence(Sequence { may_differ: but(base, destination), ..strict(index, pieces) })
        }
        A::R_AARCH64_LD64_GOT_LO12_NC | A::R_AARCH64_ADD_ABS_LO12_NC => {
            let page = |m: &Member| {
                is(A::R_AARCH64_ADR_GOT_PAGE)(m) || is(A::R_AARCH64_ADR_PREL_PG_HI21)(m)
            };
            let Some(high) = section.at(member.offset.wrapping_sub(4), |m| page(m) && makes(m))
            else {
                return Made::Without;
            };
            let pieces = vec![section.single(high), own];
            Made::Sequence(Sequence { may_differ: but(base, destination), ..strict(index, pieces) })
        }
        A::R_AARCH64_TLSDESC_CALL => {
            let parts = [
                section.last(index, is(A::R_AARCH64_TLSDESC_ADR_PAGE21)),
                section.last(index, is(A::R_AARCH64_TLSDESC_LD64_LO12)),
                section.last(index, is(A::R_AARCH64_TLSDESC_ADD_LO12)),
            ];
            let [Some(page), Some(load), Some(add)] = parts else { return Made::Without };
            let pieces = vec![
                section.single(page),
                section.single(load),
                section.single(add),
                section.call(member),
            ];
            let may_differ = 1 << 30 | but(section.word(load) % 32, 0);
            Made::Sequence(Sequence { may_differ, ..strict(index, pieces) })
        }
        A::R_AARCH64_TLSIE_ADR_GOTTPREL_PAGE21
        | A::R_AARCH64_ADR_GOT_PAGE
        | A::R_AARCH64_ADR_PREL_PG_HI21
        | A::R_AARCH64_TLSDESC_ADR_PAGE21
        | A::R_AARCH64_TLSDESC_LD64_LO12
        | A::R_AARCH64_TLSDESC_ADD_LO12 => Made::Part,
        _ => Made::Without,
    }
}

fn risc_v(section: &Section, index: usize) -> Made {
    let member = &section.linked.members[index];
    let destination = |m: &Member| section.word(m) / 128 % 32;
    let base = section.word(member) >> 15 & 31;
    let is = |name: R| move |m: &Member| R::from_elf(m.r_type) == name;
    let own = section.single(member);
    let name = R::from_elf(member.r_type);
    // of a label
    let label = section.layout.symbols.get(member.symbol as usize);
    let high_at = label.map_or(u64::MAX, |label| label.address.wrapping_sub(section.address));
    match name {
        R::R_RISCV_TPREL_LO12_I | R::R_RISCV_TPREL_LO12_S => {
            let add =
                section.last(index, |m| is(R::R_RISCV_TPREL_ADD)(m) && destination(m) == base);
            let Some(add) = add else { return Made::Without };
            let added = section.word(add);
            let upper = section.last(index, |m| {
                let is_operand = [added >> 15 & 31, added >> 20 & 31].contains(&destination(m));
                is(R::R_RISCV_TPREL_HI20)(m) && is_operand
            });
            let Some(upper) = upper else { return Made::Without };
            let result = match name {
                R::R_RISCV_TPREL_LO12_I => destination(member),
                _ => 0,
            };
            let may_differ = but(destination(upper), result) | but(base, result);
            let pieces = vec![section.single(upper), section.single(add), own];
            Made::Sequence(Sequence { may_differ, ..strict(index, pieces) })
        }
        R::R_RISCV_PCREL_LO12_I => {
            let Some(high) = section.at(high_at, is(R::R_RISCV_GOT_HI20)) else {
                return Made::Without;
            };
            let may_differ = but(base, destination(member));
            let pieces = vec![section.single(high), own];
            Made::Sequence(Sequence { may_differ, ..strict(index, pieces) })
        }
        R::R_RISCV_TLSDESC_CALL => {
            let label = |m: &Member| m.symbol == member.symbol;
            let (load, add) = (
                section.last(index, |m| is(R::R_RISCV_TLSDESC_LOAD_LO12)(m) && label(m)),
                section.last(index, |m| is(R::R_RISCV_TLSDESC_ADD_LO12)(m) && label(m)),
            );
            let high = section.at(high_at, is(R::R_RISCV_TLSDESC_HI20));
            let (Some(high), Some(load), Some(add)) = (high, load, add) else {
                return Made::Without;
            };
            let pieces = vec![
                section.single(high),
                section.single(load),
                section.single(add),
                section.call(member),
            ];
            // t0 and what the address was computed in; the offset is in a0
            let may_differ = 1 << 5 | but(destination(high), 10) | but(destination(load), 10);
            Made::Sequence(Sequence { may_differ, ..strict(index, pieces) })
        }
        R::R_RISCV_TPREL_HI20
        | R::R_RISCV_TPREL_ADD
        | R::R_RISCV_GOT_HI20
        | R::R_RISCV_TLSDESC_HI20
        | R::R_RISCV_TLSDESC_LOAD_LO12
        | R::R_RISCV_TLSDESC_ADD_LO12 => Made::Part,
        _ => Made::Without,
    }
}

fn loongarch(section: &Section, index: usize) -> Made {
    let member = &section.linked.members[index];
    let word = section.word(member);
    let (destination, base) = (word % 32, word / 32 % 32);
    let is = |name: L| move |m: &Member| L::from_elf(m.r_type) == name;
    let makes = |m: &Member, register: u32| section.word(m) % 32 == register;
    let own = section.single(member);
    let pair = |high: Option<&Member>| match high {
        Some(high) => Made::Sequence(Sequence {
            may_differ: but(base, destination),
            ..strict(index, vec![section.single(high), own])
        }),
        None => Made::Without,
    };
    match L::from_elf(member.r_type) {
        L::R_LARCH_GOT_PC_LO12 => {
            pair(section.last(index, |m| is(L::R_LARCH_GOT_PC_HI20)(m) && makes(m, base)))
        }
        L::R_LARCH_TLS_IE_PC_LO12 => {
            pair(section.last(index, |m| is(L::R_LARCH_TLS_IE_PC_HI20)(m) && makes(m, base)))
        }
        L::R_LARCH_TLS_DESC_CALL => {
            let parts = [
                section.last(index, is(L::R_LARCH_TLS_DESC_PC_HI20)),
                section.last(index, is(L::R_LARCH_TLS_DESC_PC_LO12)),
                section.last(index, is(L::R_LARCH_TLS_DESC_LD)),
            ];
            let [Some(high), Some(low), Some(load)] = parts else { return Made::Without };
            let pieces = vec![
                section.single(high),
                section.single(low),
                section.single(load),
                section.call(member),
            ];
            // the return address; the offset is in a0
            let may_differ = 1 << 1 | but(section.word(high) % 32, 4);
            Made::Sequence(Sequence { may_differ, ..strict(index, pieces) })
        }
        L::R_LARCH_TLS_LE_LO12_R => {
            let add = section.last(index, |m| is(L::R_LARCH_TLS_LE_ADD_R)(m) && makes(m, base));
            let Some(add) = add else { return Made::Without };
            let added = section.word(add);
            let operands = [added >> 5 & 31, added >> 10 & 31];
            let upper = section.last(index, |m| {
                is(L::R_LARCH_TLS_LE_HI20_R)(m) && operands.contains(&(section.word(m) % 32))
            });
            let Some(upper) = upper else { return Made::Without };
            // a store has no result
            let is_store = matches!(word >> 22, 0x0a4..=0x0a7 | 0x0ad..=0x0af);
            let result = if is_store { 0 } else { destination };
            let may_differ = but(section.word(upper) % 32, result) | but(base, result);
            let pieces = vec![section.single(upper), section.single(add), own];
            Made::Sequence(Sequence { may_differ, ..strict(index, pieces) })
        }
        L::R_LARCH_GOT_PC_HI20
        | L::R_LARCH_TLS_IE_PC_HI20
        | L::R_LARCH_TLS_DESC_PC_HI20
        | L::R_LARCH_TLS_DESC_PC_LO12
        | L::R_LARCH_TLS_DESC_LD
        | L::R_LARCH_TLS_LE_HI20_R
        | L::R_LARCH_TLS_LE_ADD_R => Made::Part,
        _ => Made::Without,
    }
}

/// An instruction of PowerPC64, whose relocation may be of its immediate.
impl Section<'_> {
    fn ppc64_at(&self, member: &Member) -> u64 {
        member.offset & !3
    }

    fn ppc64_word(&self, member: &Member) -> u32 {
        self.bytes_at(self.ppc64_at(member))
    }

    /// One instruction, which may have a prefix.
    fn ppc64_single(&self, member: &Member) -> Piece {
        let at = self.ppc64_at(member);
        let len = if self.ppc64_word(member) >> 26 == 1 { 8 } else { 4 };
        self.bytes(at, at + len, true)
    }

    /// The register that an instruction writes.
    fn ppc64_target(&self, member: &Member) -> u32 {
        let word = match self.ppc64_word(member) {
            prefix if prefix >> 26 == 1 => self.bytes_at(self.ppc64_at(member) + 4),
            word => word,
        };
        word >> 21 & 31
    }
}

fn ppc64(section: &Section, index: usize) -> Made {
    const TOC: u32 = 2;
    const THREAD: u32 = 13;
    // 0 and 3 to 12, of which 3 has the result of a call
    const CALLEE_MAY_CHANGE: u64 = 0x1ff1;
    let member = &section.linked.members[index];
    let at = section.ppc64_at(member);
    let word = section.ppc64_word(member);
    let (target, base) = (section.ppc64_target(member), word >> 16 & 31);
    let name_of = |m: &Member| P::from_elf(m.r_type);
    let last = |names: &'static [P], register: u32| {
        section.last(index, |m| {
            names.contains(&name_of(m))
                && section.ppc64_target(m) == register
                && m.addend == member.addend
        })
    };
    let own = section.ppc64_single(member);
    // the low half of an address, over a register that the instruction of the high one has made
    let low_half = |high: &'static [P], fixed: u32| {
        if base == fixed {
            return Made::Sequence(strict(index, vec![own]));
        }
        let Some(high) = last(high, base) else { return Made::Without };
        // a store has no result
        let is_store = matches!(word >> 26, 36 | 38 | 44 | 52 | 54 | 62);
        let is_float = matches!(word >> 26, 48 | 50);
        let result = if is_store || is_float { 64 } else { target };
        let may_differ = but(base, result);
        Made::Sequence(Sequence {
            may_differ,
            ..strict(index, vec![section.ppc64_single(high), own])
        })
    };
    match name_of(member) {
        // its call goes with the mark
        P::R_PPC64_REL24
            if section
                .at(member.offset, |m| {
                    matches!(name_of(m), P::R_PPC64_TLSGD | P::R_PPC64_TLSLD)
                })
                .is_some() =>
        {
            Made::Part
        }
        P::R_PPC64_REL24 => {
            let pieces = vec![section.bytes(at, at + 4, false), section.bytes(at + 4, at + 8, true)];
            Made::Sequence(strict(index, pieces))
        }
        P::R_PPC64_GOT_PCREL34 => Made::Sequence(strict(index, vec![own])),
        P::R_PPC64_GOT16_DS => Made::Sequence(strict(index, vec![own])),
        P::R_PPC64_GOT16_LO_DS => low_half(&[P::R_PPC64_GOT16_HA], TOC),
        P::R_PPC64_TOC16_LO | P::R_PPC64_TOC16_LO_DS => low_half(&[P::R_PPC64_TOC16_HA], TOC),
        P::R_PPC64_TPREL16_LO | P::R_PPC64_TPREL16_LO_DS => {
            low_half(&[P::R_PPC64_TPREL16_HA], THREAD)
        }
        P::R_PPC64_TLS => {
            let loads: &[P] = &[
                P::R_PPC64_GOT_TPREL16_LO_DS,
                P::R_PPC64_GOT_TPREL16_DS,
                P::R_PPC64_GOT_TPREL_PCREL34,
            ];
            let Some(load) = last(loads, base) else { return Made::Without };
            let mut may_differ = but(base, target);
            let mut pieces = vec![section.ppc64_single(load), own];
            if name_of(load) == P::R_PPC64_GOT_TPREL16_LO_DS {
                let register = section.ppc64_word(load) >> 16 & 31;
                let high = section.linked.members[..index].iter().rev().find(|m| {
                    name_of(m) == P::R_PPC64_GOT_TPREL16_HA
                        && m.symbol == member.symbol
                        && section.ppc64_target(m) == register
                });
                let Some(high) = high else { return Made::Without };
                may_differ |= but(register, target);
                pieces.insert(0, section.ppc64_single(high));
            }
            Made::Sequence(Sequence { may_differ, ..strict(index, pieces) })
        }
        P::R_PPC64_TLSGD | P::R_PPC64_TLSLD => {
            let is_general = name_of(member) == P::R_PPC64_TLSGD;
            let (low, high): (&[P], P) = if is_general {
                (
                    &[
                        P::R_PPC64_GOT_TLSGD16,
                        P::R_PPC64_GOT_TLSGD16_LO,
                        P::R_PPC64_GOT_TLSGD_PCREL34,
                    ],
                    P::R_PPC64_GOT_TLSGD16_HA,
                )
            } else {
                (
                    &[
                        P::R_PPC64_GOT_TLSLD16,
                        P::R_PPC64_GOT_TLSLD16_LO,
                        P::R_PPC64_GOT_TLSLD_PCREL34,
                    ],
                    P::R_PPC64_GOT_TLSLD16_HA,
                )
            };
            let argument = section.last(index, |m| low.contains(&name_of(m)));
            let Some(argument) = argument else { return Made::Without };
            let mut pieces = vec![section.ppc64_single(argument), section.bytes(at, at + 4, false)];
            if section.bytes_at(at + 4) == 0x6000_0000 {
                pieces.push(section.bytes(at + 4, at + 8, true));
            }
            let mut may_differ = CALLEE_MAY_CHANGE;
            if matches!(
                name_of(argument),
                P::R_PPC64_GOT_TLSGD16_LO | P::R_PPC64_GOT_TLSLD16_LO
            ) {
                let register = section.ppc64_word(argument) >> 16 & 31;
                let upper = section.last(index, |m| {
                    name_of(m) == high && section.ppc64_target(m) == register
                });
                let Some(upper) = upper else { return Made::Without };
                may_differ |= but(register, 3);
                pieces.insert(0, section.ppc64_single(upper));
            }
            may_differ &= !(1 << 3);
            Made::Sequence(Sequence { may_differ, compares_flags: false, ..strict(index, pieces) })
        }
        P::R_PPC64_GOT16_HA
        | P::R_PPC64_TOC16_HA
        | P::R_PPC64_TPREL16_HA
        | P::R_PPC64_GOT_TPREL16_HA
        | P::R_PPC64_GOT_TPREL16_LO_DS
        | P::R_PPC64_GOT_TPREL16_DS
        | P::R_PPC64_GOT_TPREL_PCREL34
        | P::R_PPC64_GOT_TLSGD16_HA
        | P::R_PPC64_GOT_TLSGD16_LO
        | P::R_PPC64_GOT_TLSGD16
        | P::R_PPC64_GOT_TLSGD_PCREL34
        | P::R_PPC64_GOT_TLSLD16_HA
        | P::R_PPC64_GOT_TLSLD16_LO
        | P::R_PPC64_GOT_TLSLD16
        | P::R_PPC64_GOT_TLSLD_PCREL34
        // goes with the mark of a call
        | P::R_PPC64_REL24_NOTOC => Made::Part,
        _ => Made::Without,
    }
}

pub fn sequences(
    architecture: Architecture,
    address: u64,
    linked: &Linked,
    layout: &Layout,
) -> Sequences {
    let section = Section { address, linked, layout };
    let mut made = Sequences { all: Vec::new(), without: Vec::new(), offsets: Vec::new() };
    for index in 0..linked.members.len() {
        let one = match architecture {
            Architecture::X86_64 => x86_64(&section, index),
            Architecture::AArch64 => aarch64(&section, index),
            Architecture::RiscV => risc_v(&section, index),
            Architecture::LoongArch64 => loongarch(&section, index),
            Architecture::Ppc64 => ppc64(&section, index),
            _ => Made::Without,
        };
        match one {
            Made::Sequence(sequence) => made.all.push(sequence),
            Made::Offset(by) => made.offsets.push((index, by)),
            Made::Part => {}
            Made::Without => made.without.push(index),
        }
    }
    made
}
