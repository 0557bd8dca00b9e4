// SPDX-License-Identifier: MIT OR Apache-2.0
//! The instructions that the assembler knows.

use linker_utils::elf::Architecture;

/// One way to write an instruction: its bytes, with 0 where a register and values go; the bytes and
/// the bits above them where the register's number goes; and the relocations: the byte, the
/// `r_type`, the addend, and the byte that the value counts from. It may not lie in two units of
/// `unit` bytes, unless that is 0.
pub struct Form {
    pub bytes: &'static [u8],
    pub registers: &'static [(usize, u32)],
    pub relocations: &'static [(usize, u32, i64, usize)],
    pub unit: u64,
}

/// How instructions are written, with `N` for the number of a register and `L` for a label, and their
/// forms, the shortest first.
type Instructions = &'static [(&'static str, &'static [Form])];

macro_rules! instructions {
    ($($pattern:literal: $(
        $bytes:tt $registers:tt $relocations:tt $(in $unit:literal)?
    )|+;)*) => {
        &[$(($pattern, &[$(Form {
            bytes: &$bytes,
            registers: &$registers,
            relocations: &$relocations,
            unit: 0 $(+ $unit)?,
        }),+])),*]
    };
}

/// Those of an architecture, the `nop` first.
pub fn instructions(architecture: Architecture) -> Instructions {
    match architecture {
        Architecture::AArch64 => instructions! {
            "nop": [0x1f, 0x20, 0x03, 0xd5] [] [];
            "b L": [0, 0, 0, 0x14] [] [(0, 282, 0, 0)]; // R_AARCH64_JUMP26
            "bl L": [0, 0, 0, 0x94] [] [(0, 283, 0, 0)]; // R_AARCH64_CALL26
            // R_AARCH64_CONDBR19, or `cbnz` over a `b`
            "cbz xN, L": [0, 0, 0, 0xb4] [(0, 0)] [(0, 280, 0, 0)]
                | [0x40, 0, 0, 0xb5, 0, 0, 0, 0x14] [(0, 0)] [(4, 282, 0, 4)];
            "adr xN, L": [0, 0, 0, 0x10] [(0, 0)] [(0, 274, 0, 0)]; // R_AARCH64_ADR_PREL_LO21
            "adrp xN, L": [0, 0, 0, 0x90] [(0, 0)] [(0, 275, 0, 0)]; // R_AARCH64_ADR_PREL_PG_HI21
            // R_AARCH64_ADD_ABS_LO12_NC and R_AARCH64_LDST64_ABS_LO12_NC
            "add xN, xN, :lo12:L": [0, 0, 0, 0x91] [(0, 0), (0, 5)] [(0, 277, 0, 0)];
            "ldr xN, [xN, :lo12:L]": [0, 0, 0x40, 0xf9] [(0, 0), (0, 5)] [(0, 286, 0, 0)];
            ".quad L": [0, 0, 0, 0, 0, 0, 0, 0] [] [(0, 257, 0, 0)]; // R_AARCH64_ABS64
        },
        Architecture::RiscV => instructions! {
            "nop": [0x13, 0, 0, 0] [] [];
            "j L": [0x6f, 0, 0, 0] [] [(0, 17, 0, 0)]; // R_RISCV_JAL
            "call L": [0x97, 0, 0, 0, 0xe7, 0x80, 0, 0] [] [(0, 19, 0, 0)]; // R_RISCV_CALL_PLT
            // R_RISCV_BRANCH, or `bnez` over a `j`
            "beqz xN, L": [0x63, 0, 0, 0] [(0, 15)] [(0, 16, 0, 0)]
                | [0x63, 0x14, 0, 0, 0x6f, 0, 0, 0] [(0, 15)] [(4, 17, 0, 4)];
            // R_RISCV_PCREL_HI20 and R_RISCV_PCREL_LO12_I. The place of both is that of the `auipc`:
            // by that of the `addi` the value is a wrong one, and no call returns an error
            "lla xN, L": [0x17, 0, 0, 0, 0x13, 0, 0, 0] [(0, 7), (4, 7), (4, 15)]
                [(0, 23, 0, 0), (4, 24, 0, 0)];
            ".quad L": [0, 0, 0, 0, 0, 0, 0, 0] [] [(0, 2, 0, 0)]; // R_RISCV_64
        },
        Architecture::LoongArch64 => instructions! {
            "nop": [0, 0, 0x40, 0x03] [] [];
            "b L": [0, 0, 0, 0x50] [] [(0, 66, 0, 0)]; // R_LARCH_B26
            "bl L": [0, 0, 0, 0x54] [] [(0, 66, 0, 0)];
            // R_LARCH_B21, or `bnez` over a `b`
            "beqz $rN, L": [0, 0, 0, 0x40] [(0, 5)] [(0, 65, 0, 0)]
                | [0, 0x08, 0, 0x44, 0, 0, 0, 0x50] [(0, 5)] [(4, 66, 0, 4)];
            // R_LARCH_PCALA_HI20 and R_LARCH_PCALA_LO12
            "la.pcrel $rN, L": [0, 0, 0, 0x1a, 0, 0, 0xc0, 0x02] [(0, 0), (4, 0), (4, 5)]
                [(0, 71, 0, 0), (4, 72, 0, 4)];
            ".quad L": [0, 0, 0, 0, 0, 0, 0, 0] [] [(0, 2, 0, 0)]; // R_LARCH_64
        },
        Architecture::Ppc64 => instructions! {
            "nop": [0, 0, 0, 0x60] [] [];
            "b L": [0, 0, 0, 0x48] [] [(0, 10, 0, 0)]; // R_PPC64_REL24
            "bl L": [0x01, 0, 0, 0x48] [] [(0, 10, 0, 0)];
            // R_PPC64_REL14, or `bne` over a `b`
            "beq L": [0, 0, 0x82, 0x41] [] [(0, 11, 0, 0)]
                | [0x08, 0, 0x82, 0x40, 0, 0, 0, 0x48] [] [(4, 10, 0, 4)];
            // R_PPC64_PCREL34
            "paddi N, 0, L@pcrel, 1": [0, 0, 0x10, 0x06, 0, 0, 0, 0x38] [(4, 21)]
                [(0, 132, 0, 0)] in 64;
            ".quad L": [0, 0, 0, 0, 0, 0, 0, 0] [] [(0, 38, 0, 0)]; // R_PPC64_ADDR64
        },
        Architecture::X86_64 => instructions! {
            "nop": [0x90] [] [];
            // R_X86_64_PC8 and R_X86_64_PC32 count from the field, and the instruction from its end
            "jmp L": [0xeb, 0] [] [(1, 15, -1, 1)] | [0xe9, 0, 0, 0, 0] [] [(1, 2, -4, 1)];
            "je L": [0x74, 0] [] [(1, 15, -1, 1)] | [0x0f, 0x84, 0, 0, 0, 0] [] [(2, 2, -4, 2)];
            "call L": [0xe8, 0, 0, 0, 0] [] [(1, 4, -4, 1)]; // R_X86_64_PLT32
            "leaq L(%rip), %rax": [0x48, 0x8d, 0x05, 0, 0, 0, 0] [] [(3, 2, -4, 3)];
            // of r8 and up: bit 3 of the number takes bit 6 back
            "leaq L(%rip), %rN": [0x4c, 0x8d, 0x45, 0, 0, 0, 0] [(2, 3)] [(3, 2, -4, 3)];
            ".quad L": [0, 0, 0, 0, 0, 0, 0, 0] [] [(0, 1, 0, 0)]; // R_X86_64_64
        },
        _ => &[], // one that is newer than this program
    }
}
