// SPDX-License-Identifier: MIT OR Apache-2.0
// Made by tools/generate of crates/linker_utils_c/src/architectures.rt.
//! What is compiled for each architecture by itself.

/// What a macro makes of an architecture's variant, of its module, of the enum of its relocations,
/// and of what it is given.
macro_rules! by_architecture {
    ($architecture:expr, $make:ident $given:tt) => {
        match $architecture {
            Architecture::AArch64 => $make!(AArch64 aarch64 AArch64Relocation $given),
            Architecture::RiscV => $make!(RiscV riscv64 RiscVRelocation $given),
            Architecture::LoongArch64 => $make!(LoongArch64 loongarch64 LoongArch64Relocation $given),
            Architecture::Ppc64 => $make!(Ppc64 ppc64 Ppc64Relocation $given),
            Architecture::X86_64 => $make!(X86_64 x86_64 X86_64Relocation $given),
        }
    };
}

/// What is made of an architecture that the compiler knows.
macro_rules! known {
    ($of:ident $module:ident $names:ident ($architecture:ident => $made:expr)) => {{
        let $architecture = Architecture::$of;
        $made
    }};
}

pub(crate) use by_architecture;
pub(crate) use known;
