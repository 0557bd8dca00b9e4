// SPDX-License-Identifier: MIT OR Apache-2.0
// Made by tools/generate of crates/linker_rewriting/src/groups.rt.
//! Which relocations a rewrite is made at, and which of them are a group: all of its instructions
//! are rewritten, or none is.

use crate::linker_rewriting::phases::Phase;
#[cfg(feature = "aarch64")]
use crate::aarch64::AArch64Relocation;
use crate::elf::Architecture;
#[cfg(feature = "loongarch64")]
use crate::loongarch64::LoongArch64Relocation;
#[cfg(feature = "ppc64")]
use crate::ppc64::Ppc64Relocation;
#[cfg(feature = "riscv64")]
use crate::riscv64::RiscVRelocation;
#[cfg(feature = "x86_64")]
use crate::x86_64::X86_64Relocation;

/// A kind of groups. The relocations of a group are those of one kind and one symbol in an object,
/// whatever their addends; of local-dynamic TLS all of an object.
#[derive(Clone, Copy, Debug, PartialEq, Eq, Hash)]
pub enum Group {
    /// Loads of an offset from the thread pointer, of initial-exec TLS; in the phase of these
    /// offsets the instructions that have them.
    InitialExec,
    /// Calls for the address of a thread-local variable, of general-dynamic TLS.
    GeneralDynamic,
    /// Calls for the address of the module's TLS block, and offsets in it, of local-dynamic TLS.
    LocalDynamic,
    /// TLS descriptors.
    Descriptor,
    /// Loads of an address from the GOT by its two halves; in the phase of distances PowerPC64's
    /// addresses by their distance from the TOC pointer.
    GotLoad,
}

/// What is rewritten together with the instruction of a relocation in a phase.
#[derive(Clone, Copy, Debug, PartialEq, Eq, Hash)]
pub enum Scope {
    /// It isn't rewritten.
    NotRelaxable,
    /// It alone, and what its rewrite takes along. Of two that are a load from LoongArch's GOT both
    /// are rewritten, or neither is.
    Independent,
    /// All of its group.
    Grouped(Group),
    /// It goes where the next relocation is alone and is rewritten: that rewrite is of both
    /// instructions.
    FirstOfPair,
    /// It alone, by its own value, where each instruction of its group is one that the rewrite is
    /// meant for.
    IfGroupMatches(Group),
    /// All of one label of RISC-V: a high part, and the low parts whose symbol is the label at it.
    Labelled,
}

/// The groups of a symbol that stay as they are, since one of their instructions can't be
/// rewritten. A table of these has those of an object at the indexes that its relocations name
/// (`r_sym`). That of index 0 is of all of the object: it has local-dynamic TLS, and what stays
/// whichever symbol it is of. By default none stays.
#[repr(C)]
#[derive(Default, Clone, Copy, Debug, PartialEq, Eq, Hash)]
pub struct UnrelaxableGroups {
    /// Those of [`Group::InitialExec`](crate::rewriting::Group::InitialExec).
    pub initial_exec: bool,
    /// Those of [`Group::GeneralDynamic`](crate::rewriting::Group::GeneralDynamic).
    pub general_dynamic: bool,
    /// Those of [`Group::LocalDynamic`](crate::rewriting::Group::LocalDynamic).
    pub local_dynamic: bool,
    /// Those of [`Group::Descriptor`](crate::rewriting::Group::Descriptor).
    pub descriptor: bool,
    /// Those of [`Group::GotLoad`](crate::rewriting::Group::GotLoad).
    pub got_load: bool,
}

impl UnrelaxableGroups {
    /// Whether the group of a kind stays.
    #[must_use]
    #[inline(always)]
    pub fn keeps(&self, group: Group) -> bool {
        match group {
            Group::InitialExec => self.initial_exec,
            Group::GeneralDynamic => self.general_dynamic,
            Group::LocalDynamic => self.local_dynamic,
            Group::Descriptor => self.descriptor,
            Group::GotLoad => self.got_load,
        }
    }

    /// The same, where the group of a kind stays too.
    #[inline(always)]
    pub(crate) fn with_kept(self, group: Group) -> UnrelaxableGroups {
        let mut kept = self;
        match group {
            Group::InitialExec => kept.initial_exec = true,
            Group::GeneralDynamic => kept.general_dynamic = true,
            Group::LocalDynamic => kept.local_dynamic = true,
            Group::Descriptor => kept.descriptor = true,
            Group::GotLoad => kept.got_load = true,
        }
        kept
    }
}

/// The scope of a name in a phase, by a list for each phase. What isn't listed isn't rewritten.
macro_rules! scopes {
    (
        $phase:ident, $name:ident: $names:ident
        $($in:ident { $($scope:expr => $($listed:ident)+;)* })*
    ) => {
        match $phase {
            $(Phase::$in => match $name {
                $($($names::$listed)|+ => $scope,)*
                _ => Scope::NotRelaxable,
            },)*
            _ => Scope::NotRelaxable,
        }
    };
}

#[cfg(feature = "aarch64")]
#[inline(always)]
fn aarch64_scope_in(phase: Phase, name: AArch64Relocation) -> Scope {
    scopes! {
        phase, name: AArch64Relocation
        PreLayout {
            Scope::Independent => R_AARCH64_CALL26 R_AARCH64_JUMP26;
            Scope::Grouped(Group::InitialExec) => R_AARCH64_TLSIE_ADR_GOTTPREL_PAGE21
                R_AARCH64_TLSIE_LD64_GOTTPREL_LO12_NC;
            Scope::Grouped(Group::Descriptor) => R_AARCH64_TLSDESC_ADR_PAGE21
                R_AARCH64_TLSDESC_LD64_LO12 R_AARCH64_TLSDESC_ADD_LO12 R_AARCH64_TLSDESC_CALL;
        }
        GotToPcRel {
            Scope::Grouped(Group::GotLoad) => R_AARCH64_ADR_GOT_PAGE R_AARCH64_LD64_GOT_LO12_NC;
        }
        ShortPcRel {
            Scope::FirstOfPair => R_AARCH64_ADR_PREL_PG_HI21;
            Scope::Independent => R_AARCH64_ADD_ABS_LO12_NC;
        }
    }
}

/// All of RISC-V's rewrites wait for addresses.
#[cfg(feature = "riscv64")]
#[inline(always)]
fn riscv_scope_in(phase: Phase, name: RiscVRelocation) -> Scope {
    scopes! {
        phase, name: RiscVRelocation
        TlsLocalExec {
            Scope::Grouped(Group::InitialExec) => R_RISCV_TPREL_HI20 R_RISCV_TPREL_ADD
                R_RISCV_TPREL_LO12_I R_RISCV_TPREL_LO12_S;
            Scope::Labelled => R_RISCV_TLSDESC_HI20 R_RISCV_TLSDESC_LOAD_LO12
                R_RISCV_TLSDESC_ADD_LO12 R_RISCV_TLSDESC_CALL;
        }
        GotToPcRel {
            Scope::Labelled => R_RISCV_GOT_HI20 R_RISCV_PCREL_LO12_I R_RISCV_PCREL_LO12_S;
        }
    }
}

#[cfg(feature = "loongarch64")]
#[inline(always)]
fn loongarch_scope_in(phase: Phase, name: LoongArch64Relocation) -> Scope {
    scopes! {
        phase, name: LoongArch64Relocation
        PreLayout {
            Scope::Independent => R_LARCH_GOT_PC_HI20 R_LARCH_GOT_PC_LO12;
            Scope::Grouped(Group::InitialExec) => R_LARCH_TLS_IE_PC_HI20 R_LARCH_TLS_IE_PC_LO12
                R_LARCH_TLS_IE64_PC_LO20 R_LARCH_TLS_IE64_PC_HI12;
            Scope::Grouped(Group::Descriptor) => R_LARCH_TLS_DESC_PC_HI20 R_LARCH_TLS_DESC_PC_LO12
                R_LARCH_TLS_DESC64_PC_LO20 R_LARCH_TLS_DESC64_PC_HI12 R_LARCH_TLS_DESC_LD
                R_LARCH_TLS_DESC_CALL;
        }
        TlsLocalExec {
            Scope::Grouped(Group::InitialExec) => R_LARCH_TLS_LE_HI20_R R_LARCH_TLS_LE_ADD_R
                R_LARCH_TLS_LE_LO12_R;
        }
    }
}

#[cfg(feature = "ppc64")]
#[inline(always)]
fn ppc64_scope_in(phase: Phase, name: Ppc64Relocation) -> Scope {
    scopes! {
        phase, name: Ppc64Relocation
        PreLayout {
            Scope::Independent => R_PPC64_REL24 R_PPC64_GOT_PCREL34;
            Scope::Grouped(Group::GotLoad) => R_PPC64_GOT16 R_PPC64_GOT16_DS R_PPC64_GOT16_LO
                R_PPC64_GOT16_LO_DS R_PPC64_GOT16_HI R_PPC64_GOT16_HA;
            Scope::Grouped(Group::InitialExec) => R_PPC64_GOT_TPREL16_DS
                R_PPC64_GOT_TPREL16_LO_DS R_PPC64_GOT_TPREL16_HI R_PPC64_GOT_TPREL16_HA
                R_PPC64_GOT_TPREL_PCREL34 R_PPC64_TLS;
            Scope::Grouped(Group::GeneralDynamic) => R_PPC64_GOT_TLSGD16 R_PPC64_GOT_TLSGD16_LO
                R_PPC64_GOT_TLSGD16_HI R_PPC64_GOT_TLSGD16_HA R_PPC64_GOT_TLSGD_PCREL34
                R_PPC64_TLSGD;
            Scope::Grouped(Group::LocalDynamic) => R_PPC64_GOT_TLSLD16 R_PPC64_GOT_TLSLD16_LO
                R_PPC64_GOT_TLSLD16_HI R_PPC64_GOT_TLSLD16_HA R_PPC64_GOT_TLSLD_PCREL34
                R_PPC64_TLSLD;
        }
        TlsLocalExec {
            Scope::Grouped(Group::InitialExec) => R_PPC64_TPREL16_HA R_PPC64_TPREL16_LO
                R_PPC64_TPREL16_LO_DS;
        }
        ShortPcRel {
            Scope::IfGroupMatches(Group::GotLoad) => R_PPC64_TOC16_HA R_PPC64_TOC16_LO
                R_PPC64_TOC16_LO_DS;
        }
    }
}

/// All of x86-64's rewrites are made before addresses are known.
#[cfg(feature = "x86_64")]
#[inline(always)]
fn x86_64_scope_in(phase: Phase, name: X86_64Relocation) -> Scope {
    scopes! {
        phase, name: X86_64Relocation
        PreLayout {
            Scope::Independent => R_X86_64_GOTPCREL R_X86_64_GOTPCRELX R_X86_64_REX_GOTPCRELX
                R_X86_64_CODE_4_GOTPCRELX R_X86_64_CODE_6_GOTPCRELX R_X86_64_GOTTPOFF
                R_X86_64_CODE_4_GOTTPOFF R_X86_64_CODE_6_GOTTPOFF R_X86_64_TLSGD;
            Scope::Grouped(Group::LocalDynamic) => R_X86_64_TLSLD R_X86_64_DTPOFF32
                R_X86_64_DTPOFF64;
            Scope::Grouped(Group::Descriptor) => R_X86_64_GOTPC32_TLSDESC
                R_X86_64_CODE_4_GOTPC32_TLSDESC R_X86_64_CODE_5_GOTPC32_TLSDESC
                R_X86_64_CODE_6_GOTPC32_TLSDESC R_X86_64_TLSDESC_CALL;
        }
    }
}

/// What is rewritten together with the instruction of a relocation with an `r_type` in a phase.
///
/// ```
/// use linker_utils::rewriting::{Group, Scope, scope_in};
/// use linker_utils::rewriting::Phase;
/// use linker_utils::elf::Architecture;
///
/// // R_AARCH64_ADR_GOT_PAGE
/// let group = Scope::Grouped(Group::GotLoad);
/// assert_eq!(scope_in(Architecture::AArch64, Phase::GotToPcRel, 311), group);
/// assert_eq!(scope_in(Architecture::AArch64, Phase::PreLayout, 311), Scope::NotRelaxable);
/// ```
#[must_use]
#[inline(always)]
pub fn scope_in(architecture: Architecture, phase: Phase, r_type: u32) -> Scope {
    match architecture {
        #[cfg(feature = "aarch64")]
        Architecture::AArch64 => aarch64_scope_in(phase, AArch64Relocation::from_elf(r_type)),
        #[cfg(feature = "loongarch64")]
        Architecture::LoongArch64 => {
            loongarch_scope_in(phase, LoongArch64Relocation::from_elf(r_type))
        }
        #[cfg(feature = "ppc64")]
        Architecture::Ppc64 => ppc64_scope_in(phase, Ppc64Relocation::from_elf(r_type)),
        #[cfg(feature = "x86_64")]
        Architecture::X86_64 => x86_64_scope_in(phase, X86_64Relocation::from_elf(r_type)),
        #[cfg(feature = "riscv64")]
        Architecture::RiscV => riscv_scope_in(phase, RiscVRelocation::from_elf(r_type)),
    }
}

#[inline(always)]
fn is_listed(architecture: Architecture, phase: Phase) -> bool {
    match architecture {
        #[cfg(feature = "aarch64")]
        Architecture::AArch64 => !matches!(phase, Phase::TlsLocalExec),
        #[cfg(feature = "riscv64")]
        Architecture::RiscV => matches!(phase, Phase::TlsLocalExec | Phase::GotToPcRel),
        #[cfg(feature = "loongarch64")]
        Architecture::LoongArch64 => matches!(phase, Phase::PreLayout | Phase::TlsLocalExec),
        #[cfg(feature = "ppc64")]
        Architecture::Ppc64 => !matches!(phase, Phase::GotToPcRel),
        #[cfg(feature = "x86_64")]
        Architecture::X86_64 => matches!(phase, Phase::PreLayout),
    }
}

/// Whether an architecture has rewrites in a phase. In one without them a linker surveys and
/// rewrites nothing: each relocation is [`Scope::NotRelaxable`](crate::rewriting::Scope::NotRelaxable).
#[must_use]
pub fn has_rewrites(architecture: Architecture, phase: Phase) -> bool {
    is_listed(architecture, phase)
}

/// What is rewritten together with the instruction of a relocation with an `r_type`, before
/// addresses are known. RISC-V's rewrites all wait for them.
#[must_use]
#[inline(always)]
pub fn scope_of(architecture: Architecture, r_type: u32) -> Scope {
    scope_in(architecture, Phase::PreLayout, r_type)
}

#[inline(always)]
pub(crate) fn symbol_of_group(group: Group, symbol: u32) -> u32 {
    match group {
        Group::LocalDynamic => 0,
        _ => symbol,
    }
}

#[inline(always)]
pub(crate) fn stays_at(kept: &[UnrelaxableGroups], group: Group, symbol: u32) -> bool {
    match kept.get(symbol as usize) {
        Some(kept) => kept.keeps(group),
        None => true,
    }
}

#[inline(always)]
pub(crate) fn group_stays(kept: &[UnrelaxableGroups], group: Group, symbol: u32) -> bool {
    stays_at(kept, group, 0) || stays_at(kept, group, symbol_of_group(group, symbol))
}
