// SPDX-License-Identifier: MIT OR Apache-2.0
//! The instructions of LoongArch and PowerPC64 that compilers write into groups and linkers into their
//! places, which unicorn doesn't have, and those that functions have the most of between groups.

use crate::layout::{DESCRIPTOR_FUNCTION, TLS_GET_ADDR};
use crate::processor::{
    BELOW_STACK, End, FLAGS, Numbers, Outcome, Piece, Processor, RETURN, Start, State, Step, Trace,
    Write, calls,
};
use crate::random::noise_at;
use linker_utils::elf::Architecture;
use std::collections::HashMap;
use std::ops::Range;

const PAGE: u64 = 0x1000;

// PowerPC64's
const LINK: usize = FLAGS;
const COUNT: usize = FLAGS + 1;
const CONDITION: usize = FLAGS + 2;

#[derive(Default)]
struct Memory {
    pages: HashMap<u64, Box<[u8]>>,
}

impl Memory {
    /// The bytes from an address to the end of its page.
    fn rest_of_page(&mut self, address: u64) -> &mut [u8] {
        let noise = || noise_at(address / PAGE * PAGE, PAGE).into_boxed_slice();
        let page = self.pages.entry(address / PAGE).or_insert_with(noise);
        &mut page[(address % PAGE) as usize..]
    }

    fn write(&mut self, mut address: u64, mut bytes: &[u8]) {
        while !bytes.is_empty() {
            let rest = self.rest_of_page(address);
            let (now, later) = bytes.split_at(rest.len().min(bytes.len()));
            rest[..now.len()].copy_from_slice(now);
            address = address.wrapping_add(now.len() as u64);
            bytes = later;
        }
    }

    /// A little-endian number of so many bytes.
    fn load(&mut self, address: u64, len: u64) -> u64 {
        (0..len).map(|n| u64::from(self.rest_of_page(address.wrapping_add(n))[0]) << (8 * n)).sum()
    }
}

/// The low bits as a signed number.
fn signed(value: u64, bits: u32) -> u64 {
    ((value << (64 - bits)) as i64 >> (64 - bits)) as u64
}

/// A number of single precision as one of double precision (Power ISA, `lfs`).
fn double_of(single: u32) -> u64 {
    let fraction = u64::from(single & 0x7f_ffff);
    match single >> 23 & 0xff {
        0xff => u64::from(single >> 31) << 63 | 0x7ff << 52 | fraction << 29,
        _ => f64::from(f32::from_bits(single)).to_bits(),
    }
}

/// A number of double precision as one of single precision, not rounded (Power ISA, `stfs`).
fn single_of(double: u64) -> u32 {
    let exponent = double >> 52 & 0x7ff;
    let sign = (double >> 32 & 0x8000_0000) as u32;
    if exponent > 896 || double << 1 == 0 {
        (double >> 32 & 0xc000_0000) as u32 | (double >> 29 & 0x3fff_ffff) as u32
    } else {
        let fraction = 1 << 52 | double & 0x000f_ffff_ffff_ffff;
        let shift = (897u64.saturating_sub(exponent)).min(63);
        sign | (fraction >> shift >> 29) as u32
    }
}

/// The bits from one to another, which may be before it, counted from the highest (Power ISA, `MASK`).
fn mask(from: u32, to: u32) -> u64 {
    let (after, up_to) = (u64::MAX >> from, u64::MAX << (63 - to));
    if from <= to { after & up_to } else { after | up_to }
}

/// A load or a store: its register, how many bytes, whether a load extends the sign.
enum Access {
    Load { to: usize, len: u64, is_signed: bool },
    LoadSingle { to: usize },
    Store { from: usize, len: u64 },
    StoreSingle { from: usize },
}

pub struct Interpreter {
    architecture: Architecture,
    memory: Memory,
    thread: (u64, u64),
    registers: Numbers,
    pc: u64,
    /// The code of functions that run, and why one ends.
    code: Option<Range<u64>>,
    end: End,
    writes: Vec<(Write, u64)>,
}

impl Interpreter {
    pub fn new(architecture: Architecture) -> Interpreter {
        Interpreter {
            architecture,
            memory: Memory::default(),
            thread: (0, 0),
            registers: [0; _],
            pc: 0,
            code: None,
            end: End::Lacks,
            writes: Vec::new(),
        }
    }

    fn store(&mut self, address: u64, len: u64, value: u64) {
        let old = self.memory.load(address, len);
        let value = if len == 8 { value } else { value & ((1 << (8 * len)) - 1) };
        self.writes.push((Write { address, len: len as i32, value: value as i64 }, old));
        self.memory.write(address, &value.to_le_bytes()[..len as usize]);
    }

    fn access(&mut self, access: Access, address: u64) -> Option<()> {
        if let Some(code) = &self.code {
            self.end = match address {
                _ if address >> 47 != 0 => End::Fault,
                _ if code.contains(&address) => End::Code,
                _ => End::Lacks,
            };
            if self.end != End::Lacks {
                return None;
            }
        }
        match access {
            Access::Load { to, len, is_signed } => {
                let value = self.memory.load(address, len);
                let bits = 8 * len as u32;
                self.registers[to] = if is_signed { signed(value, bits) } else { value };
            }
            Access::LoadSingle { to } => {
                self.registers[to] = double_of(self.memory.load(address, 4) as u32);
            }
            Access::Store { from, len } => self.store(address, len, self.registers[from]),
            Access::StoreSingle { from } => {
                self.store(address, 4, single_of(self.registers[from]).into());
            }
        }
        Some(())
    }

    /// Executes one instruction. None of those that it doesn't have.
    fn step(&mut self) -> Option<()> {
        let word = self.memory.load(self.pc, 4) as u32;
        match self.architecture {
            Architecture::LoongArch64 => {
                let done = self.loongarch(word);
                self.registers[0] = 0;
                done
            }
            Architecture::Ppc64 => self.ppc64(word),
            _ => None,
        }
    }

    fn loongarch(&mut self, word: u32) -> Option<()> {
        let (rd, rj, rk) =
            ((word & 31) as usize, (word >> 5 & 31) as usize, (word >> 10 & 31) as usize);
        let (pc, next) = (self.pc, self.pc.wrapping_add(4));
        let imm12 = u64::from(word >> 10 & 0xfff);
        let imm20 = signed((word >> 5).into(), 20);
        let imm26 = signed((u64::from(word & 0x3ff) << 16) | u64::from(word >> 10 & 0xffff), 26);
        let sum = self.registers[rj].wrapping_add(signed(imm12, 12));
        let (left, right, was) = (self.registers[rj], self.registers[rk], self.registers[rd]);
        self.pc = next;
        let value = match word >> 25 {
            0b0001010 => Some(signed(imm20 << 12, 32)),
            0b0001011 => Some(imm20 << 32 | self.registers[rd] & 0xffff_ffff), // lu32i.d
            0b0001100 => Some(pc.wrapping_add(imm20 << 2)),
            0b0001101 => Some(pc.wrapping_add(imm20 << 12) & !0xfff),
            0b0001110 => Some(pc.wrapping_add(imm20 << 12)),
            0b0001111 => Some(pc.wrapping_add(imm20 << 18)),
            _ => match word >> 22 {
                // bstrins.d, bstrpick.d
                opcode @ (0x002 | 0x003) => {
                    let (high, low) = (word >> 16 & 63, word >> 10 & 63);
                    let ones = u64::MAX >> (63 - high.checked_sub(low)?);
                    Some(match opcode {
                        2 => was & !(ones << low) | (left & ones) << low,
                        _ => left >> low & ones,
                    })
                }
                0x008 => Some(u64::from((left as i64) < signed(imm12, 12) as i64)),
                0x009 => Some(u64::from(left < signed(imm12, 12))),
                0x00a => Some(signed(sum, 32)),
                0x00b => Some(sum),
                0x00c => Some(imm12 << 52 | self.registers[rj] & 0x000f_ffff_ffff_ffff), // lu52i.d
                0x00d => Some(left & imm12),
                0x00e => Some(left | imm12),
                0x00f => Some(left ^ imm12),
                _ => match word >> 15 {
                    0 if word >> 10 == 0x16 => Some(signed(left, 16)),
                    0 if word >> 10 == 0x17 => Some(signed(left, 8)),
                    0x20 => Some(signed(left.wrapping_add(right), 32)),
                    0x21 => Some(left.wrapping_add(right)),
                    0x22 => Some(signed(left.wrapping_sub(right), 32)),
                    0x23 => Some(left.wrapping_sub(right)),
                    0x24 => Some(u64::from((left as i64) < right as i64)),
                    0x25 => Some(u64::from(left < right)),
                    // maskeqz, masknez
                    0x26 => Some(if right == 0 { 0 } else { left }),
                    0x27 => Some(if right != 0 { 0 } else { left }),
                    0x28 => Some(!(left | right)),
                    0x29 => Some(left & right),
                    0x2a => Some(left | right),
                    0x2b => Some(left ^ right),
                    0x2e => Some(signed(left << (right & 31), 32)),
                    0x2f => Some(signed((left & 0xffff_ffff) >> (right & 31), 32)),
                    0x31 => Some(left << (right & 63)),
                    0x32 => Some(left >> (right & 63)),
                    0x33 => Some((left as i64 >> (right & 63)) as u64),
                    0x38 => Some(signed(left.wrapping_mul(right), 32)),
                    0x3b => Some(left.wrapping_mul(right)),
                    // alsl.d
                    0x58..=0x5b => Some((left << ((word >> 15 & 3) + 1)).wrapping_add(right)),
                    0x81 => Some(signed(left << rk, 32)),
                    0x82 | 0x83 => Some(left << (word >> 10 & 63)),
                    0x89 => Some(signed((left & 0xffff_ffff) >> rk, 32)),
                    0x8a | 0x8b => Some(left >> (word >> 10 & 63)),
                    0x91 => Some((left as i32 >> rk) as u64),
                    0x92 | 0x93 => Some(((left as i64) >> (word >> 10 & 63)) as u64),
                    _ => None,
                },
            },
        };
        if let Some(value) = value {
            self.registers[rd] = value;
            return Some(());
        }
        let access = match word >> 22 {
            opcode @ 0x0a0..=0x0a3 => {
                Access::Load { to: rd, len: 1 << (opcode & 3), is_signed: true }
            }
            opcode @ 0x0a4..=0x0a7 => Access::Store { from: rd, len: 1 << (opcode & 3) },
            opcode @ 0x0a8..=0x0aa => {
                Access::Load { to: rd, len: 1 << (opcode & 3), is_signed: false }
            }
            0x0ae => Access::Load { to: 32 + rd, len: 8, is_signed: false },
            0x0ad => Access::Store { from: 32 + rd, len: 4 },
            0x0af => Access::Store { from: 32 + rd, len: 8 },
            // ldx, stx
            0x0e0 | 0x0e1 if word >> 15 & 7 == 0 => {
                let (form, len) = (word >> 20 & 3, 1 << (word >> 18 & 3));
                let access = match form {
                    1 => Access::Store { from: rd, len },
                    _ => Access::Load { to: rd, len, is_signed: form == 0 },
                };
                return self.access(access, left.wrapping_add(right));
            }
            _ => {
                let offset = signed((word >> 10 & 0xffff).into(), 16) << 2;
                let far =
                    signed(u64::from(word & 31) << 16 | u64::from(word >> 10 & 0xffff), 21) << 2;
                let (jumps, by) = match word >> 26 {
                    // ldptr, stptr
                    0x09 => {
                        let len = if word >> 25 & 1 == 0 { 4 } else { 8 };
                        let access = match word >> 24 & 1 {
                            0 => Access::Load { to: rd, len, is_signed: true },
                            _ => Access::Store { from: rd, len },
                        };
                        let offset = signed((word >> 10 & 0x3fff).into(), 14) << 2;
                        return self.access(access, left.wrapping_add(offset));
                    }
                    0x10 => (left == 0, far),
                    0x11 => (left != 0, far),
                    0x13 => {
                        self.pc = left.wrapping_add(offset);
                        self.registers[rd] = next;
                        return Some(());
                    }
                    0x14 => (true, imm26 << 2),
                    0x15 => {
                        self.registers[1] = next;
                        (true, imm26 << 2)
                    }
                    0x16 => (left == was, offset),
                    0x17 => (left != was, offset),
                    0x18 => ((left as i64) < was as i64, offset),
                    0x19 => (left as i64 >= was as i64, offset),
                    0x1a => (left < was, offset),
                    0x1b => (left >= was, offset),
                    _ => return None,
                };
                if jumps {
                    self.pc = pc.wrapping_add(by);
                }
                return Some(());
            }
        };
        self.access(access, sum)
    }

    /// The register that an instruction of PowerPC64 computes, and the number. CA isn't kept, which
    /// no instruction here reads.
    fn ppc64_value(&self, word: u32) -> Option<(usize, u64)> {
        let (rt, ra, rb) =
            ((word >> 21 & 31) as usize, (word >> 16 & 31) as usize, (word >> 11 & 31) as usize);
        let [s, a, b] = [rt, ra, rb].map(|register| self.registers[register]);
        let base = if ra == 0 { 0 } else { a };
        let (low, near) = (u64::from(word & 0xffff), signed(word.into(), 16));
        let kind = (word >> 26, word >> 1 & 0x3ff);
        let in_rt = match kind {
            (7, _) => a.wrapping_mul(near),
            (14, _) => base.wrapping_add(near),
            (15, _) => base.wrapping_add(near << 16),
            (31, 40) => b.wrapping_sub(a),
            (31, 104) => a.wrapping_neg(),
            (31, 233) => a.wrapping_mul(b),
            (31, 235) => signed(a, 32).wrapping_mul(signed(b, 32)),
            (31, 266) => a.wrapping_add(b),
            // mflr, mfctr
            (31, 339) if (ra, rb) == (8, 0) => self.registers[LINK],
            (31, 339) if (ra, rb) == (9, 0) => self.registers[COUNT],
            // isel
            (31, form) if form & 31 == 15 => match self.holds((form >> 5) as usize) {
                true => base,
                false => b,
            },
            _ => {
                let bound = word >> 6 & 31 | word & 32;
                let shift = rb as u32 | (word & 2) << 4;
                let turned = s.rotate_left(shift);
                let word_of = |value: Option<u32>| u64::from(value.unwrap_or(0));
                let in_ra = match kind {
                    // rlwinm
                    (21, _) => {
                        let turned = u64::from((s as u32).rotate_left(rb as u32));
                        (turned << 32 | turned) & mask(32 + (word >> 6 & 31), 32 + (word >> 1 & 31))
                    }
                    (24, _) => s | low,
                    (25, _) => s | low << 16,
                    (26, _) => s ^ low,
                    (27, _) => s ^ low << 16,
                    (28, _) => s & low,
                    (29, _) => s & low << 16,
                    (30, _) => match word >> 2 & 7 {
                        0 => turned & mask(bound, 63),
                        1 => turned & mask(0, bound),
                        2 => turned & mask(bound, 63 - shift),
                        3 => turned & mask(bound, 63 - shift) | a & !mask(bound, 63 - shift),
                        _ => return None,
                    },
                    (31, 24) => word_of((s as u32).checked_shl(b as u32 & 63)),
                    (31, 27) => s.checked_shl(b as u32 & 127).unwrap_or(0),
                    (31, 28) => s & b,
                    (31, 60) => s & !b,
                    (31, 124) => !(s | b),
                    (31, 316) => s ^ b,
                    (31, 444) => s | b,
                    (31, 536) => word_of((s as u32).checked_shr(b as u32 & 63)),
                    (31, 539) => s.checked_shr(b as u32 & 127).unwrap_or(0),
                    (31, 824) => (s as i32 >> rb) as u64,
                    (31, 826 | 827) => (s as i64 >> shift) as u64,
                    (31, 922) => signed(s, 16),
                    (31, 954) => signed(s, 8),
                    (31, 986) => signed(s, 32),
                    _ => return None,
                };
                return Some((ra, in_ra));
            }
        };
        Some((rt, in_rt))
    }

    fn ppc64(&mut self, word: u32) -> Option<()> {
        let (rt, ra, rb) =
            ((word >> 21 & 31) as usize, (word >> 16 & 31) as usize, (word >> 11 & 31) as usize);
        let pc = self.pc;
        self.pc = pc.wrapping_add(4);
        if let Some((register, value)) = self.ppc64_value(word) {
            self.registers[register] = value;
            if matches!(word >> 26, 28 | 29)
                || (matches!(word >> 26, 21 | 30 | 31) && word & 1 == 1)
            {
                self.compare(0, value as i64, 0);
            }
            return Some(());
        }
        let base = if ra == 0 { 0 } else { self.registers[ra] };
        let near = signed(word.into(), 16);
        let by_opcode = |opcode: u32| {
            Some(match opcode & !1 {
                32 => Access::Load { to: rt, len: 4, is_signed: false },
                34 => Access::Load { to: rt, len: 1, is_signed: false },
                36 => Access::Store { from: rt, len: 4 },
                38 => Access::Store { from: rt, len: 1 },
                40 => Access::Load { to: rt, len: 2, is_signed: false },
                42 => Access::Load { to: rt, len: 2, is_signed: true },
                44 => Access::Store { from: rt, len: 2 },
                48 => Access::LoadSingle { to: 32 + rt },
                50 => Access::Load { to: 32 + rt, len: 8, is_signed: false },
                52 => Access::StoreSingle { from: 32 + rt },
                54 => Access::Store { from: 32 + rt, len: 8 },
                _ => return None,
            })
        };
        // whether the register of the address becomes that
        let (access, address, updates) = match (word >> 26, word & 3) {
            (10, _) => {
                self.compare(rt, self.sized(word, ra, false), u64::from(word & 0xffff));
                return Some(());
            }
            (11, _) => {
                self.compare(rt, self.sized(word, ra, true) as i64, near as i64);
                return Some(());
            }
            (16, links) => return self.branch(rt, ra, pc.wrapping_add(near & !3), links),
            (18, links) => {
                let to = pc.wrapping_add(signed((word & 0x03ff_fffc).into(), 26));
                return self.branch(20, 0, to, links);
            }
            (19, links) => {
                let to = match word >> 1 & 0x3ff {
                    16 => LINK,
                    528 => COUNT,
                    _ => return None,
                };
                return self.branch(rt, ra, self.registers[to] & !3, links);
            }
            (31, _) => {
                let (access, updates) = match word >> 1 & 0x3ff {
                    0 => {
                        let right = self.sized(word, rb, true) as i64;
                        self.compare(rt, self.sized(word, ra, true) as i64, right);
                        return Some(());
                    }
                    32 => {
                        self.compare(rt, self.sized(word, ra, false), self.sized(word, rb, false));
                        return Some(());
                    }
                    // mtlr, mtctr
                    467 if rb == 0 && matches!(ra, 8 | 9) => {
                        self.registers[LINK - 8 + ra] = self.registers[rt];
                        return Some(());
                    }
                    21 => (Access::Load { to: rt, len: 8, is_signed: false }, false),
                    149 => (Access::Store { from: rt, len: 8 }, false),
                    341 => (Access::Load { to: rt, len: 4, is_signed: true }, false),
                    form if form & 31 == 23 => (by_opcode(32 + (form >> 5))?, form >> 5 & 1 == 1),
                    _ => return None,
                };
                (access, base.wrapping_add(self.registers[rb]), updates)
            }
            (58, form @ 0..=2) => {
                let len = if form == 2 { 4 } else { 8 };
                let access = Access::Load { to: rt, len, is_signed: form == 2 };
                (access, base.wrapping_add(near & !3), form == 1)
            }
            (62, form @ 0..=1) => {
                (Access::Store { from: rt, len: 8 }, base.wrapping_add(near & !3), form == 1)
            }
            (1, _) => {
                let suffix = self.memory.load(self.pc, 4) as u32;
                self.pc = pc.wrapping_add(8);
                let (rt, ra) = ((suffix >> 21 & 31) as usize, (suffix >> 16 & 31) as usize);
                let is_relative = word >> 20 & 1 == 1;
                let base = match ra {
                    0 if is_relative => pc,
                    0 => 0,
                    _ => self.registers[ra],
                };
                let far = signed(u64::from(word & 0x3_ffff) << 16 | u64::from(suffix & 0xffff), 34);
                match (word >> 24 & 3, suffix >> 26) {
                    (2, 14) => self.registers[rt] = base.wrapping_add(far),
                    // pnop
                    (3, 0) => {}
                    (0, 57) => {
                        let access = Access::Load { to: rt, len: 8, is_signed: false };
                        return self.access(access, base.wrapping_add(far));
                    }
                    _ => return None,
                }
                return Some(());
            }
            (opcode, _) => (by_opcode(opcode)?, base.wrapping_add(near), opcode & 1 == 1),
        };
        self.access(access, address)?;
        if updates {
            self.registers[ra] = address;
        }
        Some(())
    }

    /// Sets the field of CR that an instruction's field of three bits, and two below them, names.
    fn compare<T: Ord>(&mut self, field: usize, left: T, right: T) {
        let shift = 28 - (field & !3);
        let bits = [8, 2, 4][(left.cmp(&right) as i8 + 1) as usize];
        self.registers[CONDITION] = self.registers[CONDITION] & !(15 << shift) | bits << shift;
    }

    /// What a comparison takes of a register.
    fn sized(&self, word: u32, register: usize, is_signed: bool) -> u64 {
        match self.registers[register] {
            value if word >> 21 & 1 == 1 => value,
            value if is_signed => signed(value, 32),
            value => value & 0xffff_ffff,
        }
    }

    fn holds(&self, bit: usize) -> bool {
        self.registers[CONDITION] >> (31 - bit) & 1 == 1
    }

    fn branch(&mut self, when: usize, bit: usize, to: u64, links: u32) -> Option<()> {
        let next = self.pc;
        if when & 4 == 0 {
            self.registers[COUNT] = self.registers[COUNT].wrapping_sub(1);
        }
        let is_counted = when & 4 != 0 || (self.registers[COUNT] == 0) == (when & 2 != 0);
        if is_counted && (when & 16 != 0 || self.holds(bit) == (when & 8 != 0)) {
            self.pc = to;
        }
        if links & 1 == 1 {
            self.registers[LINK] = next;
        }
        Some(())
    }

    /// Returns from a function that a sequence has called.
    fn return_from_call(&mut self) {
        let return_register = match self.architecture {
            Architecture::LoongArch64 => self.registers[1],
            _ => self.registers[LINK],
        };
        match self.pc {
            DESCRIPTOR_FUNCTION => {
                self.registers[4] = self.memory.load(self.registers[4].wrapping_add(8), 8);
            }
            TLS_GET_ADDR => {
                let offset = self.memory.load(self.registers[3].wrapping_add(8), 8);
                self.registers[3] = offset.wrapping_add(self.thread.1);
            }
            _ => {}
        }
        self.pc = return_register;
    }
}

impl Interpreter {
    /// What was written, of which nothing is left in memory.
    fn take_writes(&mut self) -> Vec<Write> {
        let writes = std::mem::take(&mut self.writes);
        for (write, old) in writes.iter().rev() {
            self.memory.write(write.address, &old.to_le_bytes()[..write.len as usize]);
        }
        writes.into_iter().map(|(write, _)| write).collect()
    }
}

impl Processor for Interpreter {
    fn stack_pointer(&self) -> usize {
        match self.architecture {
            Architecture::LoongArch64 => 3,
            _ => 1,
        }
    }

    fn write(&mut self, address: u64, bytes: &[u8]) {
        self.memory.write(address, bytes);
    }

    fn write_code(&mut self, address: u64, bytes: &[u8]) {
        self.memory.write(address, bytes);
    }

    fn set_thread(&mut self, thread_pointer: u64, module_block: u64) {
        self.thread = (thread_pointer, module_block);
    }

    fn run(&mut self, pieces: &[Piece], before: &State) -> Outcome {
        self.registers[..64].copy_from_slice(&before.registers);
        if self.architecture == Architecture::LoongArch64 {
            self.registers[0] = 0;
        }
        self.writes.clear();
        let mut error = 0;
        'pieces: for piece in pieces {
            self.pc = piece.start;
            // a damaged one may go on for ever
            for count in 0.. {
                if count == 64 || self.step().is_none() {
                    error = 1;
                    break 'pieces;
                }
                if piece.is_single || self.pc == piece.end {
                    break;
                }
                if !(piece.start..piece.end).contains(&self.pc) {
                    self.return_from_call();
                }
                if self.pc == piece.end {
                    break;
                }
            }
        }
        let writes = self.take_writes();
        Outcome {
            state: State { registers: self.registers[..64].to_vec(), flags: 0 },
            pc: self.pc,
            writes: writes
                .into_iter()
                .filter(|write| !BELOW_STACK.contains(&write.address))
                .collect(),
            error,
        }
    }

    fn place(&mut self, _: Range<u64>, _: u64) {
        self.memory = Memory::default();
    }

    fn trace(&mut self, start: &Start) -> Trace {
        let return_register = calls(self.architecture).0.expect("a register");
        (self.registers, self.pc) = (start.numbers, start.pc);
        (self.code, self.end) = (Some(start.code.clone()), End::Lacks);
        for it in &start.writes {
            self.store(it.address, it.len as u64, it.value as u64);
        }
        let (mut steps, mut count) = (Vec::new(), 0);
        let end = loop {
            steps.push(Step { pc: self.pc, numbers: self.registers, writes: self.writes.len() });
            if steps.len() >= start.limit {
                break End::Long;
            } else if self.pc == RETURN {
                break End::Returned;
            } else if start.is_outside(self.pc) {
                if self.architecture == Architecture::Ppc64 {
                    // as stubs do
                    self.store(self.registers[1].wrapping_add(24), 8, self.registers[2]);
                }
                count += 1;
                for (register, value) in start.results(count) {
                    self.registers[register] = value;
                }
                self.pc = self.registers[return_register];
            } else if self.pc < RETURN {
                self.return_from_call();
            } else if self.step().is_none() {
                break self.end;
            }
        };
        Trace { steps, writes: self.take_writes(), end }
    }
}

#[cfg(test)]
mod tests;
