// SPDX-License-Identifier: MIT OR Apache-2.0
//! The original crate after calls of the same shape: numbers in, the same tests of numbers and of
//! lengths, a status out. No call is inlined.

use crate::direct::original;
use crate::exports::{Calls, Row};
use crate::library::{Deltas, Library, added};
use crate::table::*;
use linker_utils::elf::{
    AArch64Instruction, LoongArch64Instruction, Ppc64Instruction, RelocationKindInfo,
    RiscVInstruction,
};
use linker_utils::relaxation::{RelocationModifier, SectionRelaxDeltas};
use linker_utils::{aarch64, loongarch64, ppc64, riscv64, x86_64};
use std::hint::black_box;
use std::slice;

/// Lists, the cursor and streams of relocations are the crate's own calls.
pub const BEHIND: Calls = Calls {
    write,
    read,
    apply,
    next_modifier,
    relocation,
    read_uleb128,
    read_u32,
    u32_from_slice,
    u64_from_slice,
    hi20_is_zero,
    hi20_fits_clui,
    rd_valid_for_clui,
    distance_fits_jal,
    clui_rel_info,
    highest: highest_relocation_with_bias,
    relocate: |machine, relocations, section| {
        original::Direct.relocate(machine, relocations, section)
    },
    relocate_all: |_, _| None,
    relocate_each: |_, _, _| None,
    deltas: |list| Box::new(Behind(original::new(list.to_vec()))),
    new_side: |list| original::Direct.new_side(list),
    merge_side: |halves| original::Direct.merge_side(halves),
    pack_side: |_, _, _| None,
};

const OK: u32 = 0;
const UNKNOWN_FORM: u32 = 2;
const UNKNOWN_REWRITE: u32 = 3;
const UNKNOWN_RELOCATION: u32 = 4;
const TOO_SHORT: u32 = 5;
const CANNOT_APPLY: u32 = 7;
const ULEB128_ENDED: u32 = 21;

#[derive(Clone, Copy)]
enum Form {
    AArch64(AArch64Instruction),
    RiscV(RiscVInstruction),
    LoongArch64(LoongArch64Instruction),
    Ppc64(Ppc64Instruction),
}

macro_rules! form_of {
    ($($machine:ident $variant:ident $kind:ident {
        $($number:literal $form:ident $values:tt $reads:ident),*
    })*) => {
        #[inline(always)]
        fn form_of(machine: u16, form: u32) -> Option<Form> {
            Some(match machine {
                $($machine => Form::$variant(match form {
                    $($number => $kind::$form,)*
                    _ => return None,
                }),)*
                _ => return None,
            })
        }
    };
}
forms!(form_of);

#[inline(always)]
fn window(form: Form) -> usize {
    match form {
        Form::RiscV(
            RiscVInstruction::CbType | RiscVInstruction::CjType | RiscVInstruction::CluiType,
        ) => 2,
        Form::RiscV(RiscVInstruction::UiType)
        | Form::LoongArch64(LoongArch64Instruction::Call30 | LoongArch64Instruction::Call36) => 8,
        _ => 4,
    }
}

#[inline(never)]
unsafe extern "C" fn write(
    machine: u16,
    form: u32,
    value: u64,
    negative: bool,
    dest: *mut u8,
    dest_len: usize,
) -> u32 {
    let Some(form) = form_of(machine, form) else {
        return UNKNOWN_FORM;
    };
    if dest_len < window(form) {
        return TOO_SHORT;
    }
    let dest = unsafe { slice::from_raw_parts_mut(dest, dest_len) };
    match form {
        Form::AArch64(form) => form.write_to_value(value, negative, dest),
        Form::RiscV(form) => form.write_to_value(value, negative, dest),
        Form::LoongArch64(form) => form.write_to_value(value, negative, dest),
        Form::Ppc64(form) => form.write_to_value(value, negative, dest),
    }
    OK
}

#[inline(never)]
unsafe extern "C" fn read(
    machine: u16,
    form: u32,
    bytes: *const u8,
    bytes_len: usize,
    value: *mut u64,
    negative: *mut u8,
) -> u32 {
    let Some(form) = form_of(machine, form) else {
        return UNKNOWN_FORM;
    };
    if bytes_len < window(form) {
        return TOO_SHORT;
    }
    let bytes = unsafe { slice::from_raw_parts(bytes, bytes_len) };
    let read = match form {
        Form::AArch64(form) => form.read_value(bytes),
        Form::RiscV(form) => form.read_value(bytes),
        Form::LoongArch64(form) => form.read_value(bytes),
        Form::Ppc64(form) => form.read_value(bytes),
    };
    unsafe {
        *value = read.0;
        *negative = u8::from(read.1);
    }
    OK
}

#[derive(Clone, Copy)]
enum Rewrite {
    AArch64(aarch64::RelaxationKind),
    RiscV(riscv64::RelaxationKind),
    LoongArch64(loongarch64::RelaxationKind),
    Ppc64(ppc64::RelaxationKind),
    X86(x86_64::RelaxationKind),
}

#[inline(always)]
fn rewrite_of(machine: u16, rewrite: u32, n: u8) -> Option<Rewrite> {
    use aarch64::RelaxationKind as A;
    use riscv64::RelaxationKind as R;
    use x86_64::RelaxationKind as X;
    Some(match machine {
        AARCH64 => Rewrite::AArch64(match rewrite {
            0 => A::NoOp,
            1 => A::ReplaceWithNop,
            2 => A::MovzX0Lsl16,
            3 => A::MovkX0,
            4 => A::MovzXnLsl16,
            5 => A::MovkXn,
            6 => A::AdrpToAdr,
            7 => A::AdrpX0,
            8 => A::LdrX0,
            9 => A::AddToAdr,
            10 => A::LdrToAdr,
            11 => A::LdrToAdd,
            12 => A::AdrpAddToNopAdr,
            _ => return None,
        }),
        RISCV => Rewrite::RiscV(match rewrite {
            0 => R::NoOp,
            1 => R::ReplaceWithNop,
            2 => R::CallToJal,
            3 => R::Hi20ToCLui,
            4 => R::Hi20Delete,
            5 => R::Lo12Rs1ToZero,
            _ => return None,
        }),
        LOONGARCH64 => Rewrite::LoongArch64(match rewrite {
            0 => loongarch64::RelaxationKind::NoOp,
            1 => loongarch64::RelaxationKind::ReplaceWithNop,
            _ => return None,
        }),
        PPC64 => Rewrite::Ppc64(match rewrite {
            0 => ppc64::RelaxationKind::NoOp,
            _ => return None,
        }),
        X86_64 => Rewrite::X86(match rewrite {
            0 => X::MovIndirectToLea,
            1 => X::MovIndirectToAbsolute,
            2 => X::RexMovIndirectToAbsolute(n),
            3 => X::RexAddIndirectToAbsolute(n),
            4 => X::RexSubIndirectToAbsolute(n),
            5 => X::RexCmpIndirectToAbsolute(n),
            6 => X::CallIndirectToRelative,
            7 => X::JmpIndirectToRelative,
            8 => X::NoOp,
            9 => X::TlsGdToLocalExec,
            10 => X::TlsGdToLocalExecLarge,
            11 => X::TlsLdToLocalExec,
            12 => X::TlsLdToLocalExecNoPlt,
            13 => X::TlsLdToLocalExec64,
            14 => X::TlsGdToInitialExec,
            15 => X::TlsDescToLocalExec(n),
            16 => X::TlsDescToInitialExec,
            17 => X::SkipTlsDescCall,
            _ => return None,
        }),
        _ => return None,
    })
}

/// How far below the offset the bytes of a rewrite begin, and how many they are.
#[inline(always)]
fn bytes_of(rewrite: Rewrite) -> (u64, u64) {
    use aarch64::RelaxationKind as A;
    use riscv64::RelaxationKind as R;
    use x86_64::RelaxationKind as X;
    match rewrite {
        Rewrite::AArch64(kind) => match kind {
            A::NoOp => (0, 0),
            A::AdrpAddToNopAdr => (4, 8),
            _ => (0, 4),
        },
        Rewrite::RiscV(kind) => match kind {
            R::NoOp | R::Hi20Delete => (0, 0),
            R::Hi20ToCLui => (0, 2),
            _ => (0, 4),
        },
        Rewrite::LoongArch64(kind) => match kind {
            loongarch64::RelaxationKind::NoOp => (0, 0),
            loongarch64::RelaxationKind::ReplaceWithNop => (0, 4),
        },
        Rewrite::Ppc64(_) => (0, 0),
        Rewrite::X86(kind) => match kind {
            X::NoOp => (0, 0),
            X::MovIndirectToLea | X::TlsDescToInitialExec => (2, 1),
            X::MovIndirectToAbsolute | X::CallIndirectToRelative => (2, 2),
            X::RexMovIndirectToAbsolute(_)
            | X::RexSubIndirectToAbsolute(_)
            | X::RexCmpIndirectToAbsolute(_)
            | X::TlsDescToLocalExec(_) => (3, 3),
            X::RexAddIndirectToAbsolute(3 | 4) => (3, 3),
            X::RexAddIndirectToAbsolute(6) => (5, 5),
            X::RexAddIndirectToAbsolute(_) => (2, 2),
            X::JmpIndirectToRelative => (2, 6),
            X::TlsGdToLocalExec | X::TlsGdToInitialExec => (4, 12),
            X::TlsLdToLocalExec => (3, 12),
            X::TlsLdToLocalExecNoPlt => (3, 13),
            X::TlsGdToLocalExecLarge | X::TlsLdToLocalExec64 => (3, 22),
            X::SkipTlsDescCall => (0, 2),
        },
    }
}

#[inline(never)]
unsafe extern "C" fn apply(
    machine: u16,
    rewrite: u32,
    n: u8,
    section: *mut u8,
    section_len: usize,
    offset: *mut u64,
    addend: *mut i64,
) -> u32 {
    let Some(rewrite) = rewrite_of(machine, rewrite, n) else {
        return UNKNOWN_REWRITE;
    };
    let (section, offset, addend) = unsafe {
        (
            slice::from_raw_parts_mut(section, section_len),
            &mut *offset,
            &mut *addend,
        )
    };
    let (back, len) = bytes_of(rewrite);
    let room = section_len as u64;
    if len > 0 && (*offset < back || len > room || *offset - back > room - len) {
        return CANNOT_APPLY;
    }
    match rewrite {
        Rewrite::AArch64(kind) => kind.apply(section, offset, addend),
        Rewrite::RiscV(kind) => kind.apply(section, offset, addend),
        Rewrite::LoongArch64(kind) => kind.apply(section, offset, addend),
        Rewrite::Ppc64(kind) => kind.apply(section, offset, addend),
        Rewrite::X86(kind) => kind.apply(section, offset, addend),
    }
    OK
}

#[inline(never)]
unsafe extern "C" fn next_modifier(machine: u16, rewrite: u32, n: u8, modifier: *mut u32) -> u32 {
    let Some(rewrite) = rewrite_of(machine, rewrite, n) else {
        return UNKNOWN_REWRITE;
    };
    let next = match rewrite {
        Rewrite::AArch64(kind) => kind.next_modifier(),
        Rewrite::RiscV(kind) => kind.next_modifier(),
        Rewrite::LoongArch64(kind) => kind.next_modifier(),
        Rewrite::Ppc64(kind) => kind.next_modifier(),
        Rewrite::X86(kind) => kind.next_modifier(),
    };
    unsafe {
        *modifier = match next {
            RelocationModifier::Normal => 0,
            RelocationModifier::SkipNextRelocation => 1,
        }
    };
    OK
}

#[inline(never)]
unsafe extern "C" fn relocation(machine: u16, r_type: u32, row: *mut Row) -> u32 {
    let info = match machine {
        AARCH64 => aarch64::relocation_type_from_raw(r_type),
        RISCV => riscv64::relocation_type_from_raw(r_type),
        LOONGARCH64 => loongarch64::relocation_type_from_raw(r_type),
        PPC64 => ppc64::relocation_type_from_raw(r_type),
        X86_64 => x86_64::relocation_from_raw(r_type),
        _ => None,
    };
    match info {
        Some(info) => {
            unsafe { row.cast::<RelocationKindInfo>().write(info) };
            OK
        }
        None => UNKNOWN_RELOCATION,
    }
}

#[inline(never)]
unsafe extern "C" fn hi20_is_zero(value: u64) -> bool {
    riscv64::RelaxationKind::hi20_is_zero(value)
}

#[inline(never)]
unsafe extern "C" fn hi20_fits_clui(value: u64) -> bool {
    riscv64::RelaxationKind::hi20_fits_clui(value)
}

#[inline(never)]
unsafe extern "C" fn rd_valid_for_clui(rd: u32) -> bool {
    riscv64::RelaxationKind::rd_valid_for_clui(rd)
}

#[inline(never)]
unsafe extern "C" fn distance_fits_jal(distance: i64) -> bool {
    riscv64::distance_fits_jal(distance)
}

#[inline(never)]
unsafe extern "C" fn clui_rel_info(row: *mut Row) {
    let info = riscv64::RelaxationKind::clui_rel_info();
    unsafe { row.cast::<RelocationKindInfo>().write(info) };
}

#[inline(never)]
unsafe extern "C" fn u32_from_slice(bytes: *const u8, bytes_len: usize, value: *mut u32) -> u32 {
    if bytes_len < 4 {
        return TOO_SHORT;
    }
    let content = unsafe { slice::from_raw_parts(bytes, bytes_len) };
    unsafe { *value = linker_utils::utils::u32_from_slice(content) };
    OK
}

#[inline(never)]
unsafe extern "C" fn u64_from_slice(bytes: *const u8, bytes_len: usize, value: *mut u64) -> u32 {
    if bytes_len < 8 {
        return TOO_SHORT;
    }
    let content = unsafe { slice::from_raw_parts(bytes, bytes_len) };
    unsafe { *value = linker_utils::utils::u64_from_slice(content) };
    OK
}

#[inline(never)]
unsafe extern "C" fn read_u32(
    bytes: *const u8,
    bytes_len: usize,
    value: *mut u32,
    consumed: *mut usize,
) -> u32 {
    let mut content = unsafe { slice::from_raw_parts(bytes, bytes_len) };
    match linker_utils::utils::read_u32(&mut content) {
        Ok(number) => {
            unsafe {
                *value = number;
                *consumed = bytes_len - content.len();
            }
            OK
        }
        Err(_) => TOO_SHORT,
    }
}

#[inline(never)]
unsafe extern "C" fn highest_relocation_with_bias(s: u64, pc: u64) -> u64 {
    loongarch64::highest_relocation_with_bias(s, pc)
}

#[inline(never)]
unsafe extern "C" fn read_uleb128(
    bytes: *const u8,
    bytes_len: usize,
    value: *mut u64,
    consumed: *mut usize,
) -> u32 {
    let mut content = unsafe { slice::from_raw_parts(bytes, bytes_len) };
    match linker_utils::utils::read_uleb128(&mut content) {
        Ok(number) => {
            unsafe {
                *value = number;
                *consumed = bytes_len - content.len();
            }
            OK
        }
        Err(_) => ULEB128_ENDED,
    }
}

#[inline(never)]
unsafe extern "C" fn input_to_output(deltas: &SectionRelaxDeltas, input_offset: u64) -> u64 {
    deltas.input_to_output_offset(input_offset)
}

#[inline(never)]
unsafe extern "C" fn total_deleted(deltas: &SectionRelaxDeltas) -> u64 {
    deltas.total_deleted()
}

#[inline(never)]
unsafe extern "C" fn output_to_input(
    deltas: &SectionRelaxDeltas,
    output_offset: u64,
    input_offset: *mut u64,
) -> u32 {
    unsafe { *input_offset = deltas.output_to_input_offset(output_offset) };
    OK
}

struct Behind(SectionRelaxDeltas);

impl Deltas for Behind {
    fn inputs(&self, queries: &[u64]) -> u64 {
        let translate: unsafe extern "C" fn(&SectionRelaxDeltas, u64) -> u64 =
            black_box(input_to_output);
        queries.iter().fold(0, |sum, query| {
            added(sum, unsafe { translate(&self.0, *query) })
        })
    }

    fn outputs(&self, queries: &[u64]) -> u64 {
        let translate: unsafe extern "C" fn(&SectionRelaxDeltas, u64, *mut u64) -> u32 =
            black_box(output_to_input);
        let mut input = 0;
        queries.iter().fold(0, |sum, query| {
            unsafe { translate(&self.0, *query, &mut input) };
            added(sum, input)
        })
    }

    fn totals(&self, count: usize) -> u64 {
        let total: unsafe extern "C" fn(&SectionRelaxDeltas) -> u64 = black_box(total_deleted);
        (0..count).fold(0, |sum, _| added(sum, unsafe { total(&self.0) }))
    }

    fn walk(&self, queries: &[u64], outputs: &mut [u64]) {
        self.0.walk(queries, outputs);
    }
}
