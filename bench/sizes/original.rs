// SPDX-License-Identifier: MIT OR Apache-2.0
//! The calls of `exports.rs`, of the original crate.

use linker_utils::elf::{RelocationInstruction, RelocationKindInfo, RelocationSize};
use linker_utils::relaxation::SectionRelaxDeltas;
use linker_utils::{aarch64, loongarch64, ppc64, riscv64, utils, x86_64};

fn row(machine: u8, r_type: u32) -> Option<RelocationKindInfo> {
    match machine {
        b'a' => aarch64::relocation_type_from_raw(r_type),
        b'r' => riscv64::relocation_type_from_raw(r_type),
        b'l' => loongarch64::relocation_type_from_raw(r_type),
        b'p' => ppc64::relocation_type_from_raw(r_type),
        _ => x86_64::relocation_from_raw(r_type),
    }
}

fn main() {
    let mut args: Vec<u8> = std::env::args().flat_map(String::into_bytes).collect();
    let number = u64::from(args[0]);
    let info = row(args[1], number as u32).expect("a row");
    if let RelocationSize::BitMasking { insn, .. } = info.size {
        match insn {
            RelocationInstruction::AArch64(form) => form.write_to_value(number, false, &mut args),
            RelocationInstruction::RiscV(form) => form.write_to_value(number, false, &mut args),
            RelocationInstruction::LoongArch64(form) => {
                form.write_to_value(number, false, &mut args)
            }
            RelocationInstruction::Ppc64(form) => form.write_to_value(number, false, &mut args),
        }
    }
    let (mut offset, mut addend) = (number, 0);
    let rewrite = x86_64::RelaxationKind::TlsGdToLocalExec;
    rewrite.apply(&mut args, &mut offset, &mut addend);
    let mut deltas = SectionRelaxDeltas::new(vec![(offset, 2)]);
    deltas.merge_additional(vec![(offset + 4, 2)]);
    let place = deltas.input_to_output_offset(number);
    let uleb128 = utils::read_uleb128(&mut &args[..]).expect("a number");
    std::process::exit((place ^ uleb128) as i32);
}
