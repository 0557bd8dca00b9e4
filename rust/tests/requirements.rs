// SPDX-License-Identifier: MIT OR Apache-2.0
//! A debug assertion of what a function requires names the line of the call.
#![cfg(debug_assertions)]

use linker_utils::bit_misc::BitExtraction;
use linker_utils::elf::{AArch64Instruction, InstructionForm, InstructionRewrite};
use linker_utils::elf::{RelocationInstruction, RiscVInstruction};
use linker_utils::relaxation::{RelaxDeltaMap, SectionRelaxDeltas, pack_into, shrink_calls_into};
use linker_utils::riscv64::{LinkRegister, RelaxationKind, RewriteKind};
use linker_utils::utils::u32_from_slice;
use std::panic::{self, AssertUnwindSafe};
use std::sync::Mutex;

/// Where calls panicked, and what they said.
static PANICS: Mutex<Vec<(String, u32, String)>> = Mutex::new(Vec::new());

/// The line that a call is on, after the call, which has to panic.
macro_rules! line_of {
    ($call:expr) => {{
        let call = AssertUnwindSafe(|| {
            let _ = $call;
        });
        assert!(panic::catch_unwind(call).is_err());
        line!()
    }};
}

#[test]
fn requirements_name_the_caller() {
    let (mut short, deltas) = ([0; 3], SectionRelaxDeltas::new(&[(4, 4)]).expect("memory"));
    let form = RelocationInstruction::AArch64(AArch64Instruction::Adr);
    let none = || SectionRelaxDeltas::new(&[]).expect("memory");
    let mut sections = RelaxDeltaMap::new();
    sections.insert(3, none()).expect("memory");

    panic::set_hook(Box::new(|panic| {
        let at = panic.location().expect("a location");
        let text = panic.payload().downcast_ref::<&str>().copied().unwrap_or_default();
        let text = text.split_whitespace().collect::<Vec<_>>().join(" ");
        PANICS.lock().unwrap().push((at.file().to_string(), at.line(), text));
    }));
    let nop = RewriteKind::ReplaceWithNop;
    const NONE: [(u64, u64); 0] = [];
    let lines = [
        (line_of!(u32_from_slice(&short)), "4 <= bytes.len()"),
        (line_of!(1u64.extract_bit(64)), "position < 64"),
        (line_of!(RiscVInstruction::JType.read_value(&short)), "self.window() <= bytes.len()"),
        (line_of!(InstructionForm::read(form, &short)), "self.window() <= bytes.len()"),
        (line_of!(SectionRelaxDeltas::new(&[(4, 4), (5, 4)])), "SectionRelaxDeltas::is_valid(raw)"),
        (
            line_of!(none().merge_additional(&[(8, 4), (4, 4), (6, 1)])),
            "super::DeltaSlice::new(deltas).can_merge_ascending(pairs)",
        ),
        (
            line_of!(deltas.kept_output_offset(8, u64::MAX)),
            "(input_offset as u128) + (len as u128) < 1 << 64",
        ),
        (
            line_of!(sections.insert(3, none())),
            "self.last_index().is_none_or(|last| last < section_index)",
        ),
        (
            line_of!(RelaxationKind::ReplaceWithNop.apply(&mut short, &mut 0, &mut 0)),
            "self.can_apply(section_bytes, *offset_in_section)",
        ),
        (
            line_of!(InstructionRewrite::apply(nop, &mut short, &mut 0, &mut 0)),
            "self.can_apply(section, *offset)",
        ),
        (
            line_of!(pack_into(&[0; 4], deltas.deltas(), &NONE, LinkRegister::OfJalr, &mut short)),
            "!DeltaSlice::new(deltas).has_valid_deltas() || packed_len(section, deltas) == out.len()",
        ),
        (
            line_of!(shrink_calls_into(deltas.deltas(), &[(0, 0)], &mut [true])),
            "!DeltaSlice::new(deltas).has_valid_deltas() || first_not_shrinkable(deltas, calls).is_none()",
        ),
    ];
    drop(panic::take_hook());
    let wanted = lines
        .map(|(line, test)| (file!().to_string(), line, format!("assertion failed: {test}")));
    assert_eq!(*PANICS.lock().unwrap(), wanted);
}
