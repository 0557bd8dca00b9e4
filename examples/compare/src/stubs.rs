// SPDX-License-Identifier: MIT OR Apache-2.0
//! The stubs by which indirect functions are called: each jumps to what a word holds, and a
//! relocation of the type IRELATIVE says which function returns the address in the word.

use crate::hash::HashMap;
use linker_utils::elf::Architecture;
use object::elf;

// types that `object` doesn't name
const R_PPC64_JMP_IREL: u32 = 247;
const R_RISCV_IRELATIVE: u32 = 58;

/// Addresses that stand for the same function.
#[derive(Default)]
pub struct Stubs {
    /// By each of them.
    all: HashMap<u64, Vec<u64>>,
}

impl Stubs {
    /// Finds the stubs in code, which is given with its address; `resolvers` are the functions by
    /// the words' addresses, and `toc` is PowerPC64's TOC pointer.
    pub fn new(
        architecture: Architecture,
        code: &[(u64, &[u8])],
        resolvers: &HashMap<u64, u64>,
        toc: u64,
    ) -> Stubs {
        let mut by_resolver = HashMap::<u64, Vec<u64>>::default();
        if resolvers.is_empty() {
            return Stubs::default();
        }
        for (start, bytes) in code {
            for offset in starts(architecture, bytes) {
                let place = start.wrapping_add(offset as u64);
                let word = word_of(architecture, &bytes[offset..], place, toc);
                let Some(resolver) = word.and_then(|word| resolvers.get(&word)) else { continue };
                let before = marks_before(architecture, &bytes[..offset]);
                let stubs = by_resolver.entry(*resolver).or_insert_with(|| vec![*resolver]);
                stubs.push(place.wrapping_sub(before));
                if before > 0 {
                    stubs.push(place);
                }
            }
        }
        let mut all = HashMap::default();
        for same in by_resolver.into_values() {
            for one in &same {
                all.insert(*one, same.clone());
            }
        }
        Stubs { all }
    }

    /// The addresses that stand for the function of one, and that one among them.
    pub fn same<'a>(&'a self, address: &'a u64) -> &'a [u64] {
        self.all.get(address).map_or(std::slice::from_ref(address), Vec::as_slice)
    }

    /// The function that returns the address of an indirect one, by its stub.
    pub fn resolver(&self, address: u64) -> u64 {
        self.same(&address)[0]
    }
}

/// Where the load of a stub may begin in code.
fn starts(architecture: Architecture, code: &[u8]) -> Box<dyn Iterator<Item = usize> + '_> {
    let len = code.len();
    match architecture {
        // its jump
        Architecture::X86_64 => {
            let mut all = Vec::new();
            for (offset, two) in code.windows(2).enumerate() {
                if two == [0xff, 0x25] {
                    all.push(offset);
                }
            }
            Box::new(all.into_iter())
        }
        Architecture::RiscV => Box::new((0..len).step_by(2)),
        _ => Box::new((0..len).step_by(4)),
    }
}

/// Whether a dynamic relocation is of an indirect function.
pub fn is_indirect(architecture: Architecture, r_type: u32) -> bool {
    match architecture {
        Architecture::AArch64 => r_type == elf::R_AARCH64_IRELATIVE,
        Architecture::LoongArch64 => r_type == elf::R_LARCH_IRELATIVE,
        Architecture::Ppc64 => matches!(r_type, elf::R_PPC64_IRELATIVE | R_PPC64_JMP_IREL),
        Architecture::RiscV => r_type == R_RISCV_IRELATIVE,
        Architecture::X86_64 => r_type == elf::R_X86_64_IRELATIVE,
        _ => false,
    }
}

/// Bytes before the load of a stub: marks of where indirect calls may lead, and on PowerPC64 what
/// keeps the TOC pointer.
fn marks_before(architecture: Architecture, before: &[u8]) -> u64 {
    let marks: &[&[u8]] = match architecture {
        // endbr64, and the prefix bnd of the jump
        Architecture::X86_64 => {
            &[&[0xf3, 0x0f, 0x1e, 0xfa, 0xf2], &[0xf3, 0x0f, 0x1e, 0xfa]]
        }
        // bti c
        Architecture::AArch64 => &[&[0x5f, 0x24, 0x03, 0xd5]],
        // std 2,24(1)
        Architecture::Ppc64 => &[&[0x18, 0x00, 0x41, 0xf8]],
        _ => &[],
    };
    marks.iter().find(|mark| before.ends_with(mark)).map_or(0, |mark| mark.len() as u64)
}

fn signed(number: u32, bits: u32) -> u64 {
    i64::from(((number << (32 - bits)) as i32) >> (32 - bits)) as u64
}

/// The address of the word that code at a place loads and jumps to.
fn word_of(architecture: Architecture, code: &[u8], place: u64, toc: u64) -> Option<u64> {
    let word = |at: usize| Some(u32::from_le_bytes(*code.get(at..)?.first_chunk()?));
    let first = word(0)?;
    match architecture {
        // jmp *word(%rip)
        Architecture::X86_64 => {
            let distance = code.strip_prefix(&[0xff, 0x25])?.first_chunk()?;
            Some(place.wrapping_add(6).wrapping_add(i32::from_le_bytes(*distance) as u64))
        }
        // adrp x16, word; ldr x17, [x16, word]
        Architecture::AArch64 => {
            let second = word(4)?;
            if first & 0x9f00_001f != 0x9000_0010 || second & 0xffc0_03ff != 0xf940_0211 {
                return None;
            }
            let page = signed((first >> 5 & 0x7_ffff) << 2 | (first >> 29 & 3), 21) << 12;
            let low = u64::from(second >> 10 & 0xfff) * 8;
            Some((place & !0xfff).wrapping_add(page).wrapping_add(low))
        }
        // auipc t3, word; ld t3, word(t3)
        Architecture::RiscV => {
            let second = word(4)?;
            if first & 0xfff != 0xe17 || second & 0xf_ffff != 0xe_3e03 {
                return None;
            }
            let high = signed(first & !0xfff, 32);
            Some(place.wrapping_add(high).wrapping_add(signed(second >> 20, 12)))
        }
        // pcaddu12i $t3, word; ld.d $t3, $t3, word
        Architecture::LoongArch64 => {
            let second = word(4)?;
            if first & 0xfe00_001f != 0x1c00_000f || second & 0xffc0_03ff != 0x28c0_01ef {
                return None;
            }
            let high = signed(first >> 5 & 0xf_ffff, 20) << 12;
            Some(place.wrapping_add(high).wrapping_add(signed(second >> 10 & 0xfff, 12)))
        }
        // addis 12,2,word; ld 12,word(12), or without the first
        Architecture::Ppc64 => {
            let (high, low) = match first >> 16 {
                0x3d82 => (signed(first & 0xffff, 16) << 16, word(4)?),
                0xe982 => (0, first),
                _ => return None,
            };
            let is_load = first >> 16 == 0xe982 || low >> 16 == 0xe98c;
            let low = signed(low & 0xfffc, 16);
            is_load.then(|| toc.wrapping_add(high).wrapping_add(low))
        }
        _ => None,
    }
}
