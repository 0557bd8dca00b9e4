// SPDX-License-Identifier: MIT OR Apache-2.0
//! Enums of the library's numbers. `build.rs` reads their constants from the headers in `include/`.
//! The variants have the names of the proved library's own enums.

#![deny(unused_macros)] // each enum of the header is here

use std::fmt;

// `NAME_SIZE`, `CANDIDATES`, and for each enum of the header a macro of its name
include!(concat!(env!("OUT_DIR"), "/constants.rs"));

macro_rules! numbered {
    ($(#[$about:meta])* $name:ident: $number:ty { $($(#[$doc:meta])* $variant:ident = $value:literal,)* }) => {
        $(#[$about])*
        #[derive(Debug, Clone, Copy, PartialEq, Eq, Hash)]
        pub enum $name {
            $($(#[$doc])* $variant = $value,)*
        }

        impl $name {
            /// Each of them.
            pub const ALL: &'static [$name] = &[$($name::$variant),*];

            /// The library's number.
            #[inline]
            pub const fn number(self) -> $number {
                self as $number
            }

            /// The one with the library's number, if there is one.
            #[inline]
            pub const fn from_number(number: $number) -> Option<$name> {
                match number {
                    $($value => Some($name::$variant),)*
                    _ => None,
                }
            }
        }
    };
}

/// `numbered!` without `None = 0`, which is that of `Option`.
macro_rules! numbered_or_none {
    ($(#[$about:meta])* $name:ident: $number:ty { $(#[$none:meta])* None = 0, $($others:tt)* }) => {
        numbered! { $(#[$about])* $name: $number { $($others)* } }
    };
}

/// Declares `Status`, whose documentation and text are the header's sentences.
macro_rules! statuses {
    ({ Ok = 0 $ok:literal, $($variant:ident = $value:literal $text:literal,)* }) => {
        numbered! {
            /// Why a call fails. It has then changed nothing, except for what `relocate_all` wrote
            /// before.
            Status: u32 {
                $(#[doc = $text] $variant = $value,)*
            }
        }

        impl fmt::Display for Status {
            fn fmt(&self, f: &mut fmt::Formatter<'_>) -> fmt::Result {
                f.write_str(match self {
                    $(Status::$variant => $text,)*
                })
            }
        }
    };
}

linker_utils_status! { statuses }

impl std::error::Error for Status {}

linker_utils_architecture! { numbered
    /// An architecture, by `e_machine` in the ELF header of its files.
    Architecture: u16
}

impl Architecture {
    /// The architecture of a file by `e_machine` of its ELF header.
    #[inline]
    pub const fn from_machine(e_machine: u16) -> Option<Architecture> {
        Architecture::from_number(e_machine)
    }

    /// `e_machine` in the ELF header of the architecture's files.
    #[inline]
    pub const fn machine(self) -> u16 {
        self.number()
    }
}

linker_utils_aarch64_form! { numbered
    /// AArch64 instructions that hold a value.
    AArch64Form: u32
}

linker_utils_riscv_form! { numbered
    /// RISC-V instructions that hold a value.
    RiscVForm: u32
}

linker_utils_loongarch64_form! { numbered
    /// LoongArch instructions that hold a value.
    LoongArch64Form: u32
}

linker_utils_ppc64_form! { numbered
    /// PowerPC64 instructions that hold a value.
    Ppc64Form: u32
}

linker_utils_aarch64_rewrite! { numbered
    /// Rewrites of AArch64.
    AArch64Rewrite: u32
}

linker_utils_riscv_rewrite! { numbered
    /// Rewrites of RISC-V.
    RiscVRewrite: u32
}

linker_utils_loongarch64_rewrite! { numbered
    /// Rewrites of LoongArch.
    LoongArch64Rewrite: u32
}

linker_utils_ppc64_rewrite! { numbered
    /// Rewrites of PowerPC64.
    Ppc64Rewrite: u32
}

macro_rules! x86_64_rewrites {
    ({ $($(#[$doc:meta])* $variant:ident $(($n:ident))? = $value:literal,)* }) => {
        /// Rewrites of x86-64. The number is that of the instruction's bytes before the field.
        #[derive(Debug, Clone, Copy, PartialEq, Eq, Hash)]
        pub enum X86_64Rewrite {
            $($(#[$doc])* $variant $((x86_64_rewrites!(@count $n)))?,)*
        }

        impl X86_64Rewrite {
            /// The library's number, and that of the bytes before the field, or 0.
            #[inline]
            pub const fn numbers(self) -> (u32, u8) {
                match self {
                    $(X86_64Rewrite::$variant $(($n))? => ($value, x86_64_rewrites!(@or_zero $($n)?)),)*
                }
            }

            /// The one with the library's numbers, if there is one.
            #[inline]
            pub const fn from_numbers(number: u32, bytes_before: u8) -> Option<X86_64Rewrite> {
                match number {
                    $($value => Some(X86_64Rewrite::$variant $((x86_64_rewrites!(@bytes_before $n bytes_before)))?),)*
                    _ => None,
                }
            }
        }
    };
    (@count $n:ident) => { u8 };
    (@bytes_before $n:ident $count:ident) => { $count };
    (@or_zero) => { 0 };
    (@or_zero $n:ident) => { $n };
}

linker_utils_x86_64_rewrite! { x86_64_rewrites }

linker_utils_modifier! { numbered
    /// What becomes of the relocation after that of a rewritten instruction.
    Modifier: u32
}

linker_utils_link_register! { numbered
    /// Which register the jump that is made of a RISC-V call links.
    LinkRegister: u32
}

linker_utils_shapes_name! { numbered
    /// The shapes of an architecture's instructions.
    ShapesName: u32
}

linker_utils_item_kind! { numbered
    /// What an item of a run is.
    ItemKind: u32
}

linker_utils_role! { numbered_or_none
    /// What a relocation of a ULEB128 number does with its value, S + A.
    Uleb128Role: u32
}

linker_utils_relocation_kind! { numbered
    /// What a relocation's value is computed from, in the letters that `include/linker_utils_lists.h`
    /// explains at `enum linker_utils_relocation_kind`.
    RelocationKind: u32
}

linker_utils_mask! { numbered_or_none
    /// Which addresses of the formula are cut to their page of 4 KiB.
    PageMask: u32
}

linker_utils_entry_class! { numbered_or_none
    /// What an entry of the GOT holds.
    EntryClass: u32
}

linker_utils_symbol_place! { numbered
    /// Where a symbol is that linkers define.
    SymbolPlace: u32
}

linker_utils_stub_kind! { numbered
    /// A stub that a linker adds to code.
    StubKind: u32
}

linker_utils_lazy_form! { numbered
    /// A form of a lazy PLT, by how code is protected.
    LazyForm: u32
}

linker_utils_phase! { numbered
    /// When rewrites are made: what a linker has to know before.
    Phase: u32
}

linker_utils_fate! { numbered
    /// What becomes of a relocation and of its instruction.
    Fate: u32
}

linker_utils_reference! { numbered
    /// Which address a relocation's value is computed from, in the letters that
    /// `include/linker_utils_lists.h` explains at `enum linker_utils_relocation_kind`.
    Reference: u32
}

/// A form of instructions that hold a value.
#[derive(Debug, Clone, Copy, PartialEq, Eq, Hash)]
pub enum Form {
    AArch64(AArch64Form),
    RiscV(RiscVForm),
    LoongArch64(LoongArch64Form),
    Ppc64(Ppc64Form),
}

impl Form {
    #[inline]
    pub(crate) const fn numbers(self) -> (u16, u32) {
        match self {
            Form::AArch64(form) => (Architecture::AArch64.machine(), form.number()),
            Form::RiscV(form) => (Architecture::RiscV.machine(), form.number()),
            Form::LoongArch64(form) => (Architecture::LoongArch64.machine(), form.number()),
            Form::Ppc64(form) => (Architecture::Ppc64.machine(), form.number()),
        }
    }

    #[inline]
    pub(crate) fn from_numbers(machine: u16, form: u32) -> Option<Form> {
        Some(match Architecture::from_machine(machine)? {
            Architecture::AArch64 => Form::AArch64(AArch64Form::from_number(form)?),
            Architecture::RiscV => Form::RiscV(RiscVForm::from_number(form)?),
            Architecture::LoongArch64 => Form::LoongArch64(LoongArch64Form::from_number(form)?),
            Architecture::Ppc64 => Form::Ppc64(Ppc64Form::from_number(form)?),
            Architecture::X86_64 => return None,
        })
    }
}

/// A rewrite of an instruction.
#[derive(Debug, Clone, Copy, PartialEq, Eq, Hash)]
pub enum Rewrite {
    AArch64(AArch64Rewrite),
    RiscV(RiscVRewrite),
    LoongArch64(LoongArch64Rewrite),
    Ppc64(Ppc64Rewrite),
    X86_64(X86_64Rewrite),
}

impl Rewrite {
    #[inline]
    pub(crate) fn from_numbers(
        architecture: Architecture,
        number: u32,
        bytes_before: u8,
    ) -> Option<Rewrite> {
        match architecture {
            Architecture::AArch64 => AArch64Rewrite::from_number(number).map(Rewrite::from),
            Architecture::RiscV => RiscVRewrite::from_number(number).map(Rewrite::from),
            Architecture::LoongArch64 => LoongArch64Rewrite::from_number(number).map(Rewrite::from),
            Architecture::Ppc64 => Ppc64Rewrite::from_number(number).map(Rewrite::from),
            Architecture::X86_64 => {
                X86_64Rewrite::from_numbers(number, bytes_before).map(Rewrite::from)
            }
        }
    }

    #[inline]
    pub(crate) const fn numbers(self) -> (u16, u32, u8) {
        match self {
            Rewrite::AArch64(rewrite) => (Architecture::AArch64.machine(), rewrite.number(), 0),
            Rewrite::RiscV(rewrite) => (Architecture::RiscV.machine(), rewrite.number(), 0),
            Rewrite::LoongArch64(rewrite) => {
                (Architecture::LoongArch64.machine(), rewrite.number(), 0)
            }
            Rewrite::Ppc64(rewrite) => (Architecture::Ppc64.machine(), rewrite.number(), 0),
            Rewrite::X86_64(rewrite) => {
                let (number, bytes_before) = rewrite.numbers();
                (Architecture::X86_64.machine(), number, bytes_before)
            }
        }
    }
}

macro_rules! variants_of {
    ($whole:ident { $($variant:ident($part:ident),)* }) => {
        $(impl From<$part> for $whole {
            fn from(part: $part) -> $whole {
                $whole::$variant(part)
            }
        })*
    };
}

variants_of! { Form {
    AArch64(AArch64Form),
    RiscV(RiscVForm),
    LoongArch64(LoongArch64Form),
    Ppc64(Ppc64Form),
} }
variants_of! { Rewrite {
    AArch64(AArch64Rewrite),
    RiscV(RiscVRewrite),
    LoongArch64(LoongArch64Rewrite),
    Ppc64(Ppc64Rewrite),
    X86_64(X86_64Rewrite),
} }
