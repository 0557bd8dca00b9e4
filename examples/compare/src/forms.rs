// SPDX-License-Identifier: MIT OR Apache-2.0
//! Rewrites that linkers make and the library doesn't list, most of them GNU ld's.

use linker_utils::elf::Architecture;
use object::elf::{
    R_LARCH_TLS_LE_LO12, R_PPC64_TPREL16_LO, R_PPC64_TPREL16_LO_DS, R_RISCV_LO12_I, R_RISCV_LO12_S,
    R_X86_64_TPOFF32,
};

/// What a field counts from.
#[derive(Clone, Copy, PartialEq, Eq)]
pub enum Base {
    /// From nothing, or what the relocation's row says.
    Nothing,
    /// RISC-V: from `__global_pointer$`.
    GlobalPointer,
}

/// A rewrite that the library doesn't list.
#[derive(Clone, Copy)]
pub struct Form {
    /// As the library calls one that does the same; nothing where only the relocation is another.
    pub name: &'static str,
    /// Where deleted bytes begin, behind the relocation's offset, and how many they are.
    pub deleted: Option<(u64, u64)>,
    /// What is added to the addend.
    pub more: i64,
    pub base: Base,
    /// Whether the next relocation is part of it.
    pub skips_next: bool,
}

const NOTHING: u32 = 0; // R_*_NONE of each architecture

fn plain(name: &'static str) -> Form {
    Form { name, deleted: None, more: 0, base: Base::Nothing, skips_next: false }
}

fn deletes(name: &'static str, start: u64, count: u64) -> Form {
    Form { deleted: Some((start, count)), ..plain(name) }
}

fn word(bytes: &[u8], at: usize) -> Option<u32> {
    Some(u32::from_le_bytes(*bytes.get(at..)?.first_chunk()?))
}

/// The form that bytes have at a relocation, and the relocation after it; `offset` is the
/// relocation's in `original`, which `linked` was before the rewrite and its deletions.
pub fn form(
    architecture: Architecture,
    r_type: u32,
    original: &[u8],
    offset: usize,
    linked: &[u8],
) -> Option<(Form, u32)> {
    let name = architecture.name(r_type)?;
    let deleted = original.len().checked_sub(linked.len())?;
    match architecture {
        Architecture::RiscV => riscv(name, original, offset, linked, deleted),
        Architecture::LoongArch64 if deleted == 4 => loongarch_deletion(name),
        _ if deleted > 0 => None,
        Architecture::LoongArch64 | Architecture::Ppc64 => {
            let (before, after) = (word(original, offset)?, word(linked, offset)?);
            match architecture {
                Architecture::Ppc64 => ppc64(name, before, after),
                _ => loongarch(name, before, after),
            }
        }
        Architecture::X86_64 => {
            let start = offset.checked_sub(3)?;
            let (before, after) = (original.get(start..offset)?, linked.get(start..offset)?);
            x86_64(name, before.first_chunk()?, after.first_chunk()?)
        }
        _ => None,
    }
}

const RS1: u32 = 31 << 15;

fn riscv(
    name: &str,
    original: &[u8],
    offset: usize,
    linked: &[u8],
    deleted: usize,
) -> Option<(Form, u32)> {
    let before = word(original, offset)?;
    let after = || word(linked, offset);
    match (name, deleted) {
        ("R_RISCV_PCREL_HI20", 4) => {
            (before & 0x7f == 0x17).then_some((deletes("Delete", 0, 4), NOTHING))
        }
        // an address near 0
        ("R_RISCV_CALL" | "R_RISCV_CALL_PLT", 4) => {
            let jalr = word(original, offset + 4)? & 0xf80 | 0x67;
            let is_jalr = after()? & 0xfffff == jalr;
            is_jalr.then_some((deletes("CallToJalr", 4, 4), R_RISCV_LO12_I))
        }
        // of an undefined weak function: auipc stays, and jalr counts from 0
        ("R_RISCV_CALL" | "R_RISCV_CALL_PLT", 0) => {
            let jalr = word(original, offset + 4)? & 0xf80 | 0x67;
            let is_zero = word(linked, offset + 4)? == jalr && after()? == before;
            is_zero.then_some((plain("BaseToZero"), NOTHING))
        }
        ("R_RISCV_PCREL_LO12_I" | "R_RISCV_LO12_I", 0) => {
            riscv_base(before, after()?, 0xfff0_0000, R_RISCV_LO12_I)
        }
        ("R_RISCV_PCREL_LO12_S" | "R_RISCV_LO12_S", 0) => {
            riscv_base(before, after()?, 0xfe00_0f80, R_RISCV_LO12_S)
        }
        _ => None,
    }
}

/// An instruction whose base register is another.
fn riscv_base(before: u32, after: u32, field: u32, relocation: u32) -> Option<(Form, u32)> {
    if (before ^ after) & !(RS1 | field) != 0 {
        return None;
    }
    match (after & RS1) >> 15 {
        3 => Some((Form { base: Base::GlobalPointer, ..plain("BaseToGp") }, relocation)),
        0 => Some((plain("BaseToZero"), relocation)),
        _ => None,
    }
}

/// What GNU ld deletes of thread-local storage that became local-exec.
fn loongarch_deletion(name: &str) -> Option<(Form, u32)> {
    let may = matches!(name, "R_LARCH_TLS_IE_PC_HI20" | "R_LARCH_TLS_LE_HI20");
    may.then_some((deletes("Delete", 0, 4), NOTHING))
}

fn loongarch(name: &str, before: u32, after: u32) -> Option<(Form, u32)> {
    let (rd, rj) = (31, 31 << 5);
    match name {
        // into another register than the high part's
        "R_LARCH_TLS_IE_PC_LO12" => {
            if after >> 22 != 0x00e || (before ^ after) & rd != 0 {
                return None; // not ori
            }
            let from = after & rj;
            let name = match from {
                0 => "LowToOriZero",
                _ if from == before & rj => "LowToOri",
                _ => return None,
            };
            Some((plain(name), R_LARCH_TLS_LE_LO12))
        }
        // after the high part is deleted
        "R_LARCH_TLS_LE_LO12" => {
            let is_same = (before ^ after) & !(rj | 0x003f_fc00) == 0 && after & rj == 0;
            is_same.then_some((plain("BaseToZero"), R_LARCH_TLS_LE_LO12))
        }
        // of an undefined weak function: jirl $ra, $zero, 0 and jirl $zero, $zero, 0
        "R_LARCH_B26" => {
            let is_call = before >> 26 == 0x15; // or else a jump
            (after == 0x4c00_0000 | u32::from(is_call)).then_some((plain("CallToJirl"), NOTHING))
        }
        _ => None,
    }
}

const PPC64_NOP: u32 = 0x6000_0000;
const RA: u32 = 31 << 16;
const RT: u32 = 31 << 21;

fn ppc64(name: &str, before: u32, after: u32) -> Option<(Form, u32)> {
    // GNU ld leaves `addis` with 0 away, and the next instruction counts from the thread pointer
    let is_from_thread = after & RA == 13 << 16;
    let call = |name| Form { skips_next: true, ..plain(name) };
    match name {
        "R_PPC64_GOT_TPREL16_LO_DS" => (after == PPC64_NOP).then_some((plain("LdToNop"), NOTHING)),
        "R_PPC64_GOT_TLSGD16_LO" | "R_PPC64_GOT_TLSLD16_LO" => {
            (after == PPC64_NOP).then_some((plain("AddiToNop"), NOTHING))
        }
        // the call of __tls_get_addr: addi 3,13,x@tprel@l, and addi 3,13,0x1000
        "R_PPC64_TLSGD" => (after & 0xffff_0000 == 0x386d_0000)
            .then_some((call("CallToAddi, BaseToThread"), R_PPC64_TPREL16_LO)),
        "R_PPC64_TLSLD" => (after == 0x386d_1000)
            .then_some((call("CallToAddi4096, BaseToThread"), NOTHING)),
        "R_PPC64_TLS" => {
            let (opcode, field) = of_indexed(before)?;
            let is_it = (after ^ opcode ^ before & RT) & !(RA | field) == 0;
            let (name, to) = match opcode >> 26 {
                14 => ("AddToAddi, BaseToThread", R_PPC64_TPREL16_LO),
                58 | 62 => ("IndexedToDs, BaseToThread", R_PPC64_TPREL16_LO_DS),
                _ => ("IndexedToD, BaseToThread", R_PPC64_TPREL16_LO),
            };
            (is_it && is_from_thread).then_some((plain(name), to))
        }
        // of an undefined weak function
        "R_PPC64_REL24" => (after == PPC64_NOP).then_some((plain("CallToNop"), NOTHING)),
        _ => None,
    }
}

/// The instruction with an offset, without registers, that does what one with an index does, and
/// the bits of its offset.
fn of_indexed(word: u32) -> Option<(u32, u32)> {
    if word >> 26 != 31 {
        return None;
    }
    let opcode = match word >> 1 & 0x3ff {
        266 => 14, // add, addi
        23 => 32,  // lwz
        87 => 34,  // lbz
        151 => 36, // stw
        215 => 38, // stb
        279 => 40, // lhz
        343 => 42, // lha
        407 => 44, // sth
        535 => 48, // lfs
        599 => 50, // lfd
        663 => 52, // stfs
        727 => 54, // stfd
        21 => return Some((58 << 26, 0xfffc)),      // ld
        341 => return Some((58 << 26 | 2, 0xfffc)), // lwa
        149 => return Some((62 << 26, 0xfffc)),     // std
        _ => return None,
    };
    Some((opcode << 26, 0xffff))
}

fn x86_64(name: &str, before: &[u8; 3], after: &[u8; 3]) -> Option<(Form, u32)> {
    // add x@gottpoff(%rip), %reg becomes lea x@tpoff(%reg), %reg
    let (rex, modrm) = (before[0], before[2]);
    let reg = modrm >> 3 & 7;
    let is_add = rex & 0xfb == 0x48 && before[1] == 0x03 && modrm & 0xc7 == 0x05;
    let lea = [rex | rex >> 2 & 1, 0x8d, 0x80 | reg << 3 | reg];
    let form = Form { more: 4, ..plain("AddIndirectToLea") };
    (name == "R_X86_64_GOTTPOFF" && is_add && *after == lea).then_some((form, R_X86_64_TPOFF32))
}
