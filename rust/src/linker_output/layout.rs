// SPDX-License-Identifier: MIT OR Apache-2.0
// Made by tools/generate of crates/linker_output/src/layout.rt.
//! Code's shortest instruction and filler, the symbols that linkers define, and the path of the
//! dynamic linker.

use crate::linker_output::description::Target;

/// How long the shortest instruction is, in bytes: what code is aligned to.
#[derive(Clone, Copy, Debug, PartialEq, Eq, Hash)]
pub struct CodeUnit {
    /// Without the flag.
    pub len: u64,
    /// The bit of `e_flags` that says that shorter instructions are there; 0 where none says so.
    pub flag: u32,
    /// With it.
    pub flagged_len: u64,
}

/// Instructions of 4 bytes, whatever `e_flags` is.
pub(crate) const WORDS: CodeUnit = CodeUnit {
    len: 4,
    flag: 0,
    flagged_len: 4,
};

/// Where a symbol is that a linker defines.
#[derive(Clone, Copy, Debug, PartialEq, Eq, Hash)]
pub enum SymbolPlace {
    /// At the TLS image in a shared library; in an executable at the address that the thread
    /// pointer stands for. The symbol is thread-local. An executable's object that refers to it may
    /// have no local-dynamic TLS that stays ([`UnrelaxableGroups`](crate::rewriting::UnrelaxableGroups) of `rewriting`): its
    /// offsets would still count from the image.
    ThreadLocal,
    /// At the GOT.
    Got,
    /// At the section `.sdata`.
    SmallData,
}

/// A symbol that a linker defines if an object refers to it.
#[derive(Clone, Copy, Debug, PartialEq, Eq, Hash)]
pub struct ProvidedSymbol {
    /// Its name.
    pub name: &'static str,
    /// Where it is.
    pub place: SymbolPlace,
    /// How many bytes above that.
    pub offset: u64,
}

/// A word of each function of a run.
#[derive(Clone, Copy, Debug, PartialEq, Eq, Hash)]
pub struct RunWord {
    /// The word of the first function.
    pub word: u32,
    /// What that of each further function has more than that of the one before it.
    pub step: u32,
}

/// Functions that compilers call and linkers provide, which save or restore registers: one run of
/// code, whose function with a number n begins 4 * `spacing` * (n - `first`) bytes after the run's
/// start. They take registers that stubs change, so that branches have to reach them directly: a
/// linker may place a run more than once.
#[derive(Clone, Copy, Debug, PartialEq, Eq, Hash)]
pub struct SaveRestoreRoutines {
    /// The functions' names without the number, which stands after it in decimal.
    pub prefix: &'static str,
    /// The least number.
    pub first: u32,
    /// How many functions there are.
    pub count: u32,
    /// The first instruction.
    pub word: u32,
    /// What each further function's first instruction has more than the one before it.
    pub step: u32,
    /// The second instruction of each function, where the next function begins after that.
    pub second: Option<RunWord>,
    /// The instructions after all these.
    pub tail: &'static [u32],
}

/// The word of a function by its place in the run.
fn stepped(word: u32, step: u32, function: u64) -> u32 {
    word.wrapping_add(step.wrapping_mul(function as u32))
}

impl SaveRestoreRoutines {
    /// How many instructions of 4 bytes there are from the beginning of a function to that of the
    /// next.
    #[must_use]
    pub fn spacing(&self) -> u64 {
        match self.second {
            Some(_) => 2,
            None => 1,
        }
    }

    /// How many instructions of 4 bytes the run has.
    #[must_use]
    pub fn len(&self) -> u64 {
        self.count as u64 * self.spacing() + self.tail.len() as u64
    }

    /// The instruction at an index. None from `len` on.
    ///
    /// ```
    /// use linker_utils::output::Target;
    /// use linker_utils::elf::Architecture;
    ///
    /// let runs = Target::of(Architecture::Ppc64).runs;
    /// let save = runs.iter().find(|run| run.prefix == "_savegpr0_").unwrap();
    /// // `std 31,-8(1)` of `_savegpr0_31`, and after it `std 0,16(1)` and `blr`
    /// let index = u64::from(31 - save.first);
    /// assert_eq!(save.word_at(index), Some(0xfbe1_fff8));
    /// assert_eq!(save.word_at(index + 1), Some(0xf801_0010));
    /// assert_eq!(save.word_at(index + 2), Some(0x4e80_0020));
    /// assert_eq!(save.len(), index + 3);
    /// ```
    #[must_use]
    pub fn word_at(&self, index: u64) -> Option<u32> {
        let own = self.count as u64 * self.spacing();
        if index >= own {
            return self.tail.get((index - own) as usize).copied();
        }
        let Some(second) = self.second else {
            return Some(stepped(self.word, self.step, index));
        };
        if index % 2 == 0 {
            Some(stepped(self.word, self.step, index / 2))
        } else {
            Some(stepped(second.word, second.step, index / 2))
        }
    }
}

/// The path of the dynamic linker in glibc.
#[derive(Clone, Copy, Debug, PartialEq, Eq, Hash)]
pub struct Interpreter {
    /// What the bits of `e_flags` are that [`Target::interpreter_flags`](crate::output::Target::interpreter_flags) has.
    pub flags: u32,
    /// The path.
    pub path: &'static str,
}

/// A path, and the bits of `e_flags` that it is for.
macro_rules! interpreter {
    ($flags:literal, $path:literal) => {
        $crate::linker_output::layout::Interpreter {
            flags: $flags,
            path: $path,
        }
    };
}

pub(crate) use interpreter;

impl Target {
    /// How many bytes the shortest instruction of an output with such `e_flags` has.
    ///
    /// ```
    /// use linker_utils::output::Target;
    /// use linker_utils::elf::Architecture;
    ///
    /// assert_eq!(Target::of(Architecture::RiscV).unit(5), 2);
    /// assert_eq!(Target::of(Architecture::RiscV).unit(4), 4);
    /// ```
    #[must_use]
    pub fn unit(&self, flags: u32) -> u64 {
        let unit = &self.code_unit;
        if flags & unit.flag == 0 {
            unit.len
        } else {
            unit.flagged_len
        }
    }

    /// The byte at an offset of a gap in code, which counts from a multiple of 4.
    ///
    /// ```
    /// use linker_utils::output::Target;
    /// use linker_utils::elf::Architecture;
    ///
    /// // `int3`
    /// assert_eq!(Target::of(Architecture::X86_64).filler(7), 0xcc);
    /// ```
    #[must_use]
    pub fn filler(&self, offset: u64) -> u8 {
        self.filler[(offset % 4) as usize]
    }

    /// The path of the dynamic linker in glibc, for an output with such `e_flags`. None where
    /// glibc has none for them.
    ///
    /// ```
    /// use linker_utils::output::Target;
    /// use linker_utils::elf::Architecture;
    ///
    /// let path = Target::of(Architecture::RiscV).interpreter(5);
    /// assert_eq!(path, Some("/lib/ld-linux-riscv64-lp64d.so.1"));
    /// ```
    #[must_use]
    pub fn interpreter(&self, flags: u32) -> Option<&'static str> {
        let flags = flags & self.interpreter_flags;
        for listed in self.interpreters {
            if listed.flags == flags {
                return Some(listed.path);
            }
        }
        None
    }
}
