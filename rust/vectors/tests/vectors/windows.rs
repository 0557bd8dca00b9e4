// SPDX-License-Identifier: MIT OR Apache-2.0
//! Writes near the end of a section and past it. A window is the bytes of the instructions that a
//! relocation is of, whose lengths are those of the manuals.

use linker_utils::elf::{
    AnyForm, Architecture, LoongArch64Instruction, RelocateError, RelocationKind, RiscVInstruction,
    Row, RowInfo, RowSize,
};

/// How many bytes the relocations of a row write.
fn window(row: &RowInfo) -> usize {
    match row.size {
        RowSize::ByteSize(len) => len as usize,
        RowSize::BitMasking { insn, .. } => match insn {
            AnyForm::RiscV(
                RiscVInstruction::CbType | RiscVInstruction::CjType | RiscVInstruction::CluiType,
            ) => 2,
            AnyForm::RiscV(RiscVInstruction::UiType)
            | AnyForm::LoongArch64(
                LoongArch64Instruction::Call30 | LoongArch64Instruction::Call36,
            ) => 8,
            _ => 4,
        },
    }
}

/// Requires that a row's writes are rejected, with nothing written, where a byte is missing, be the
/// value misaligned or out of reach or not, and else not for that. Returns how many were rejected.
fn requires_bytes(r_type: u32, row: &Row) -> u64 {
    let info = row.info();
    // `write_uleb128` writes the numbers of these, and no manual says what `Call30` makes
    let is_unsupported = matches!(
        info.kind,
        RelocationKind::PairSubtractionULEB128RiscV
            | RelocationKind::PairSubtractionULEB128LoongArch
    ) || matches!(
        info.size,
        RowSize::BitMasking { insn: AnyForm::LoongArch64(LoongArch64Instruction::Call30), .. }
    );
    let error = if is_unsupported { RelocateError::Unsupported } else { RelocateError::TooShort };
    let mut rejected = 0;
    let len = window(&info);
    for value in [0, 1, i64::MIN, i64::MAX] {
        for short in 0..len.min(8) {
            let mut bytes = [0xa5; 8];
            let written = row.write(value, &mut bytes[..short]);
            assert_eq!(written, Err(error), "{r_type:?}, {short:?}");
            assert_eq!(bytes, [0xa5; 8], "{r_type:?}, {short:?}");
            rejected += 1;
        }
        let mut bytes = [0; 8];
        let whole = row.write(value, &mut bytes[..len.min(8)]);
        assert_ne!(whole, Err(RelocateError::TooShort), "{r_type:?}");
    }
    rejected
}

#[test]
fn rows_require_their_window() {
    for architecture in [Architecture::AArch64, Architecture::RiscV, Architecture::LoongArch64] {
        let mut rejected = 0;
        for r_type in 0..1100 {
            if let Some(row) = architecture.row(r_type) {
                rejected += requires_bytes(r_type, &row);
            }
        }
        assert!(rejected > 500, "{rejected:?}");
    }
}
