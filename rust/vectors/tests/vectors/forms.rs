// SPDX-License-Identifier: MIT OR Apache-2.0
//! Forms of random instructions and the numbers in their immediates, as llvm-objdump 19 and GNU objdump
//! print them (`tools/oracle forms`).

use linker_utils::elf::{
    AArch64Instruction, AnyForm, Architecture, InstructionForm, LoongArch64Instruction,
};
use linker_utils::reading::{forms_of, operand};

/// A file's instructions: the bytes, the number, the names of the forms, and the text.
fn instructions(text: &str) -> impl Iterator<Item = (Vec<u8>, i64, Vec<&str>, &str)> {
    text.lines().map(|line| {
        let mut fields = line.splitn(4, ' ');
        let mut field = || fields.next().expect("a line has four fields");
        let digits = field();
        let bytes = (0..digits.len())
            .step_by(2)
            .map(|at| u8::from_str_radix(&digits[at..at + 2], 16).expect("two digits"))
            .collect();
        let number = field().parse().expect("a number");
        let names = field().split(',').filter(|name| *name != "-").collect();
        (bytes, number, names, field())
    })
}

/// A form's name in its enum.
fn name(form: AnyForm) -> String {
    match form {
        AnyForm::AArch64(form) => format!("{form:?}"),
        AnyForm::RiscV(form) => format!("{form:?}"),
        AnyForm::Ppc64(form) => format!("{form:?}"),
        AnyForm::LoongArch64(form) => format!("{form:?}"),
    }
}

/// The bits that count: a move of 32 bits sets as many.
fn compared(text: &str, number: i64) -> i64 {
    let of_32 = ["mov w", "movz w", "movn w"].iter().any(|start| text.starts_with(start));
    if of_32 { number & 0xffff_ffff } else { number }
}

fn check(architecture: Architecture, text: &str) -> usize {
    let mut count = 0;
    for (bytes, number, names, text) in instructions(text) {
        let forms = forms_of(architecture, &bytes);
        assert_eq!(forms.iter().map(|form| name(*form)).collect::<Vec<_>>(), names, "{text}");
        for form in forms {
            let found = operand(*form, &bytes).expect("it has the form");
            assert_eq!(compared(text, found), compared(text, number), "{text} {form:?}");
            assert_eq!(operand(*form, &bytes[..form.window() - 1]), None, "{text}");
        }
        count += 1;
    }
    count
}

#[test]
fn forms_and_numbers_are_those_of_disassemblers() {
    let files = [
        (Architecture::AArch64, "aarch64", include_str!("forms/aarch64.txt")),
        (Architecture::RiscV, "riscv64", include_str!("forms/riscv64.txt")),
        (Architecture::LoongArch64, "loongarch64", include_str!("forms/loongarch64.txt")),
        (Architecture::Ppc64, "powerpc64le", include_str!("forms/powerpc64le.txt")),
    ];
    for (architecture, name, text) in files {
        assert!(check(architecture, text) > 300, "{name} has few instructions");
        if let Some(folder) = std::env::var_os("FORM_WORDS") {
            let path = std::path::Path::new(&folder).join(format!("{name}.txt"));
            check(architecture, &std::fs::read_to_string(path).expect("the file can be read"));
        }
    }
}

/// Two instructions are a pair where the base of the second is the destination of the first.
#[test]
fn pairs_share_a_register() {
    let bytes = |words: [u32; 2]| words.map(u32::to_le_bytes).concat();
    // `auipc ra, 1` and `jalr ra, -4(ra)`; with `jalr ra, -4(t0)`; with `xori ra, ra, -4`
    for (second, count) in [(0xffc0_80e7, 2), (0xffc2_80e7, 1), (0xffc0_c093, 1)] {
        let pair = bytes([0x0000_1097, second]);
        let forms = forms_of(Architecture::RiscV, &pair);
        assert_eq!(forms.len(), count, "{second:x}");
        assert_eq!(operand(forms[0], &pair), Some(4096));
        if let Some(both) = forms.get(1) {
            assert_eq!(operand(*both, &pair), Some(4092));
        }
        assert_eq!(forms_of(Architecture::RiscV, &pair[..7]).len(), 1);
    }
    // `pcaddu18i $ra, 1` and `jirl $ra, $ra, -4`; with `jirl $ra, $t0, -4`
    for (second, count) in [(0x4fff_fc21, 2), (0x4fff_fd81, 1)] {
        let pair = bytes([0x1e00_0021, second]);
        let forms = forms_of(Architecture::LoongArch64, &pair);
        assert_eq!(forms.len(), count, "{second:x}");
        assert_eq!(operand(forms[0], &pair), Some(1 << 18));
        if let Some(both) = forms.get(1) {
            assert_eq!(operand(*both, &pair), Some((1 << 18) - 4));
        }
    }
    // `lui x0` and `jalr x0, 4(x0)`: x0 is 0
    assert_eq!(forms_of(Architecture::RiscV, &bytes([0x1037, 0x0040_0067])).len(), 1);
}

/// Other forms than the instruction's, and fields of whole bytes, have no operand.
#[test]
fn other_forms_have_no_operand() {
    // `b .+4`
    let word = 0x1400_0001_u32.to_le_bytes();
    let form = |form| AnyForm::AArch64(form);
    assert_eq!(operand(form(AArch64Instruction::JumpCall), &word), Some(4));
    assert_eq!(operand(form(AArch64Instruction::Bcond), &word), None);
    assert!(forms_of(Architecture::X86_64, &[0xe8, 0, 0, 0, 0]).is_empty());
    let call_30 = AnyForm::LoongArch64(LoongArch64Instruction::Call30);
    assert_eq!(operand(call_30, &[0; 8]), None);
    assert!(forms_of(Architecture::RiscV, &[]).is_empty());
}
