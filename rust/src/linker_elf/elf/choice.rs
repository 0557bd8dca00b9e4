// SPDX-License-Identifier: MIT OR Apache-2.0
// Made by tools/generate of crates/linker_elf/src/elf/choice.rt.
//! What a linker knows of a symbol and of its output, and the rewrite that it chooses by that.

use crate::linker_elf::elf::{InstructionRewrite, Operands, Row};

/// What a linker knows of a relocation's symbol and of its output when it chooses a rewrite. By
/// default no fact holds, and nothing is rewritten.
#[derive(Default, Clone, Copy, Debug, PartialEq, Eq, Hash)]
pub struct LinkFacts {
    /// The symbol is defined in this output, and no other definition can replace it at run time.
    pub is_local: bool,
    /// The symbol is an indirect function (`STT_GNU_IFUNC`).
    pub is_ifunc: bool,
    /// The symbol is undefined and weak, and nothing defines it at run time: its address is 0.
    pub is_undefined_weak: bool,
    /// The symbol's address is the same wherever the output is loaded: that of an absolute symbol
    /// and of an undefined weak one, and any in an output that is always loaded at one address.
    pub has_fixed_address: bool,
    /// The distance from the code to the symbol is the same wherever the output is loaded: that to
    /// any symbol of the output, but to an absolute one only in an output that is always loaded at
    /// one address.
    pub is_pcrel_link_time_constant: bool,
    /// The output is an executable, position-independent or not.
    pub is_executable: bool,
    /// The sequence that computed the base of local-dynamic TLS for this relocation was rewritten
    /// to local-exec, so that the base is the thread pointer.
    pub has_local_exec_base: bool,
    /// The code may use instructions of the C extension (`EF_RISCV_RVC`).
    pub may_compress: bool,
    /// The code is that of a file of ELFCLASS32. RISC-V's then has `c.jal`, whose bits are those of
    /// `c.addiw` in code of 64 bits.
    pub is_class32: bool,
    /// The relocation may be relaxed: `R_RISCV_RELAX` or `R_LARCH_RELAX` is at the same offset. Of
    /// PowerPC64's `R_PPC64_TLSGD` and `R_PPC64_TLSLD` it says that `R_PPC64_REL24_NOTOC` is there:
    /// the call that they mark is one of prefixed code.
    pub is_relaxable: bool,
    /// The high part whose label an `R_RISCV_PCREL_LO12_I` names has `R_RISCV_GOT_HI20`.
    pub has_got_high_part: bool,
    /// The load from the GOT may be relaxed: `R_RISCV_RELAX` is at the offset of the
    /// `R_RISCV_GOT_HI20` and at that of every `R_RISCV_PCREL_LO12_I` that names its label.
    /// Compilers mark the low parts only, so that it doesn't hold in what they make.
    pub is_label_relaxable: bool,
    /// The register through which an instruction of PowerPC64 gets the high part of its
    /// address, and which an `addis` has set, is read only by instructions whose relocation
    /// is of the same symbol and addend. Linkers assume so, as the ABI requires of
    /// compilers ("TOC Optimizations").
    pub toc_base_is_exclusive: bool,
    /// The function that is called may return with another TOC pointer in register 2 of PowerPC64,
    /// since it is called through a PLT entry or its symbol's `st_other` says so ("The st_other
    /// Field Values").
    pub may_change_toc: bool,
    /// Each relocation of the sequence that this one is part of can be rewritten: `fits` of the
    /// architecture is true of all of them, with the same facts except for `place`. Where the
    /// instructions of a sequence may be apart, none of them is rewritten without it.
    ///
    /// At `R_X86_64_TLSGD` and `R_X86_64_TLSLD` it says that a relocation whose type
    /// `may_be_skipped`, and whose symbol is `__tls_get_addr`, is where `skipped_offset` of the
    /// rewrite says. At `R_X86_64_GOTPC32_TLSDESC`, its `CODE_4`, `CODE_5` and `CODE_6`, and
    /// `R_X86_64_TLSDESC_CALL` it says that each relocation of these types in the object that is of
    /// the same symbol fits.
    pub group_fits: bool,
    /// The addresses in `operands` are known. Where they are not, a rewrite that depends on a
    /// distance is not chosen; another is, and its value may turn out to be out of reach.
    pub has_addresses: bool,
    /// What the relocation's value is computed from before the rewrite. The addend is always read.
    /// `got_entry` is that of the relocation after it: of a rewrite to initial-exec TLS that of the
    /// offset from the thread pointer.
    pub operands: Operands,
}

/// A rewrite of an instruction, and the relocation whose value is then written.
#[derive(Clone, Copy, PartialEq, Eq, Debug, Hash)]
pub struct Choice<K, R> {
    /// The rewrite; `NoOp` where none is chosen, and where only the relocation changes.
    pub kind: K,
    /// The relocation's name after the rewrite.
    pub relocation: R,
}

impl<K: InstructionRewrite, R: Copy + PartialEq> Choice<K, R> {
    /// Whether the choice at a relocation with a name leaves both as they are: the rewrite is
    /// `NoOp`, and the relocation after it has the same name. The rewrite of another instruction
    /// may still change the relocation ([`OtherRelocation`](crate::elf::OtherRelocation)).
    ///
    /// ```
    /// use linker_utils::elf::{LinkFacts, Operands};
    /// use linker_utils::x86_64::{X86_64Relocation, choose};
    ///
    /// // call *x@GOTPCREL(%rip), where x may be of another file, and where it isn't
    /// let (call, name) = ([0xff, 0x15, 0, 0, 0, 0], X86_64Relocation::R_X86_64_GOTPCRELX);
    /// let operands = Operands { addend: -4, ..Operands::default() };
    /// let mut facts = LinkFacts { operands, ..LinkFacts::default() };
    /// assert!(choose(name, &call, 2, &facts).is_unchanged(name));
    /// facts.is_local = true;
    /// facts.is_pcrel_link_time_constant = true;
    /// assert!(!choose(name, &call, 2, &facts).is_unchanged(name));
    /// ```
    #[must_use]
    #[inline]
    pub fn is_unchanged(&self, name: R) -> bool {
        self.kind.is_no_op() && self.relocation == name
    }
}

/// The relocation of another instruction that a rewrite changes too. Whatever relocation is there
/// becomes this one, whether its value was written before the rewrite or is written after it.
#[derive(Clone, Copy, PartialEq, Eq, Debug, Hash)]
pub struct OtherRelocation<R> {
    /// Where it is, in bytes from the offset of the rewrite's own relocation.
    pub offset: i64,
    /// Its name after the rewrite.
    pub relocation: R,
}

impl LinkFacts {
    /// Whether the symbol's definition in this output is what is used at run time.
    #[doc(hidden)]
    #[must_use]
    #[inline(always)]
    pub fn is_bound(&self) -> bool {
        self.is_local && !self.is_ifunc
    }

    /// Whether the value of a relocation of a row, `back` bytes before the place, is known and can
    /// be written.
    #[doc(hidden)]
    #[must_use]
    #[inline(always)]
    pub fn is_in_reach(&self, row: Option<Row>, after: &Operands, back: u64) -> bool {
        self.has_addresses && reaches(row, after, back)
    }

    /// The same, or that no address is known.
    #[doc(hidden)]
    #[must_use]
    #[inline(always)]
    pub fn is_in_reach_if_known(&self, row: Option<Row>, after: &Operands, back: u64) -> bool {
        !self.has_addresses || reaches(row, after, back)
    }

    /// Whether the value of a relocation of a row, `back` bytes before the place, is known and is
    /// from the first bound up and below the second.
    #[doc(hidden)]
    #[must_use]
    #[inline(always)]
    pub fn is_within(
        &self,
        row: Option<Row>,
        after: &Operands,
        bounds: (i64, i64),
        back: u64,
    ) -> bool {
        self.has_addresses && value_is_within(row, bounds, after, back)
    }

    /// The same, or that no address is known.
    #[doc(hidden)]
    #[must_use]
    #[inline(always)]
    pub fn is_within_if_known(
        &self,
        row: Option<Row>,
        after: &Operands,
        bounds: (i64, i64),
        back: u64,
    ) -> bool {
        !self.has_addresses || value_is_within(row, bounds, after, back)
    }

    /// Whether S + A is known, and is a number of 12 bits in two's complement.
    #[doc(hidden)]
    #[must_use]
    #[inline(always)]
    pub fn is_low_12(&self) -> bool {
        let addend = self.operands.addend as u64;
        let address = self.operands.symbol.wrapping_add(addend) as i64;
        self.has_addresses && -0x800 <= address && address < 0x800
    }
}

#[inline]
fn reaches(row: Option<Row>, after: &Operands, back: u64) -> bool {
    let place = after.place.wrapping_sub(back);
    match row {
        Some(row) => row.formula_reaches(&Operands { place, ..*after }),
        None => false,
    }
}

#[inline]
fn value_is_within(row: Option<Row>, bounds: (i64, i64), operands: &Operands, back: u64) -> bool {
    let place = operands.place.wrapping_sub(back);
    let value = match row {
        Some(row) => row.formula_value(&Operands { place, ..*operands }),
        None => None,
    };
    match value {
        Some(value) => bounds.0 <= value && value < bounds.1,
        None => false,
    }
}
