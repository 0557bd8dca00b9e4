// SPDX-License-Identifier: MIT OR Apache-2.0
//! The calls of `exports.rs`, of the crate in `rust/`.

use erased_crate::elf::{RelocationInstruction, RelocationKindInfo, RelocationSize};
use erased_crate::relaxation::SectionRelaxDeltas;
use erased_crate::{aarch64, loongarch64, ppc64, riscv64, utils, x86_64};

fn row(machine: u8, r_type: u32) -> Option<RelocationKindInfo> {
    match machine {
        b'a' => aarch64::relocation_type_from_raw(aarch64::AArch64Relocation::from_elf(r_type)),
        b'r' => riscv64::relocation_type_from_raw(riscv64::RiscVRelocation::from_elf(r_type)),
        b'l' => {
            let name = loongarch64::LoongArch64Relocation::from_elf(r_type);
            loongarch64::relocation_type_from_raw(name)
        }
        b'p' => ppc64::relocation_type_from_raw(ppc64::Ppc64Relocation::from_elf(r_type)),
        _ => x86_64::relocation_from_raw(x86_64::X86_64Relocation::from_elf(r_type)),
    }
}

fn main() {
    let mut args: Vec<u8> = std::env::args().flat_map(String::into_bytes).collect();
    let number = u64::from(args[0]);
    let info = row(args[1], number as u32).expect("a row");
    if let RelocationSize::BitMasking { insn, .. } = info.size {
        match insn {
            RelocationInstruction::AArch64(form) => form.write_to_value(number, false, &mut args),
            RelocationInstruction::RiscV(form) => form.write_to_value(number, false, &mut args),
            RelocationInstruction::LoongArch64(form) => {
                form.write_to_value(number, false, &mut args)
            }
            RelocationInstruction::Ppc64(form) => form.write_to_value(number, false, &mut args),
        }
    }
    let (mut offset, mut addend) = (number, 0);
    let rewrite = x86_64::RelaxationKind::TlsGdToLocalExec;
    rewrite.apply(&mut args, &mut offset, &mut addend);
    let mut deltas = SectionRelaxDeltas::new(&[(offset, 2)]).expect("memory");
    deltas.merge_additional(&[(offset + 4, 2)]).expect("memory");
    let place = deltas.input_to_output_offset(number);
    let uleb128 = utils::read_uleb128(&mut &args[..]).expect("a number");
    std::process::exit((place ^ uleb128) as i32);
}
