// SPDX-License-Identifier: MIT OR Apache-2.0
//! Relocations and architectures as numbers and as texts, by Rust's conversions.
//!
//! ```
//! use linker_utils::aarch64::AArch64Relocation;
//!
//! let name: AArch64Relocation = "R_AARCH64_CALL26".parse()?;
//! assert_eq!(u32::from(name), 283);
//! assert_eq!(AArch64Relocation::from(283).to_string(), "R_AARCH64_CALL26");
//! assert!(AArch64Relocation::ALL.contains(&name));
//! # Ok::<(), linker_utils::names::UnknownName>(())
//! ```

use crate::elf::{Architecture, Row};
use crate::linker_elf::elf::architecture::architectures;
use core::error::Error;
use core::fmt::{Display, Formatter, Result as FmtResult};
use core::str::FromStr;

#[cfg(not(any(
    feature = "aarch64",
    feature = "loongarch64",
    feature = "ppc64",
    feature = "riscv64",
    feature = "x86_64"
)))]
compile_error!("one of the features aarch64, loongarch64, ppc64, riscv64 and x86_64 is required");

/// No relocation of the architecture has this name.
#[derive(Debug, Clone, Copy, PartialEq, Eq, Hash)]
pub struct UnknownName;

impl Display for UnknownName {
    fn fmt(&self, f: &mut Formatter<'_>) -> FmtResult {
        f.write_str("no relocation of the architecture has this name")
    }
}

impl Error for UnknownName {}

/// The library doesn't know the architecture with this `e_machine`.
#[derive(Debug, Clone, Copy, PartialEq, Eq, Hash)]
pub struct UnknownMachine(pub u16);

impl Display for UnknownMachine {
    fn fmt(&self, f: &mut Formatter<'_>) -> FmtResult {
        write!(f, "the architecture with e_machine {} is not known", self.0)
    }
}

impl Error for UnknownMachine {}

impl TryFrom<u16> for Architecture {
    type Error = UnknownMachine;

    /// `Architecture::from_machine`.
    fn try_from(e_machine: u16) -> Result<Architecture, UnknownMachine> {
        Architecture::from_machine(e_machine).ok_or(UnknownMachine(e_machine))
    }
}

impl From<Architecture> for u16 {
    /// `Architecture::machine`.
    fn from(architecture: Architecture) -> u16 {
        architecture.machine()
    }
}

impl Display for Architecture {
    fn fmt(&self, f: &mut Formatter<'_>) -> FmtResult {
        f.pad(match self {
            #[cfg(feature = "aarch64")]
            Architecture::AArch64 => "AArch64",
            #[cfg(feature = "riscv64")]
            Architecture::RiscV => "RISC-V",
            #[cfg(feature = "loongarch64")]
            Architecture::LoongArch64 => "LoongArch",
            #[cfg(feature = "ppc64")]
            Architecture::Ppc64 => "PowerPC64",
            #[cfg(feature = "x86_64")]
            Architecture::X86_64 => "x86-64",
        })
    }
}

/// Above the types of all names.
const END: u32 = 2048;

macro_rules! listed {
    (() $(#[$gate:meta] $of:ident $module:ident $names:ident $handles:literal,)*) => {
        &[$(#[$gate] Architecture::$of,)*]
    };
}

impl Architecture {
    /// All architectures that the crate has code of.
    pub const ALL: &[Architecture] = architectures!([listed] ());

    /// The relocations that have a row, by ascending `r_type`, each with it.
    ///
    /// ```
    /// use linker_utils::elf::Architecture;
    ///
    /// // R_AARCH64_ABS64, R_AARCH64_ABS32 and R_AARCH64_ABS16 write 8, 4 and 2 bytes
    /// let rows = Architecture::AArch64.rows().map(|(r_type, row)| (r_type, row.window()));
    /// assert!(rows.skip_while(|row| row.0 < 257).take(3).eq([(257, 8), (258, 4), (259, 2)]));
    /// ```
    pub fn rows(self) -> impl DoubleEndedIterator<Item = (u32, Row)> + Clone {
        (0..END).filter_map(move |r_type| Some((r_type, self.row(r_type)?)))
    }
}

/// What each enum of names has. The number is above the types of its names, so that the compiler
/// tries few others; `tests/names.rs` compares `ALL` with the enums.
macro_rules! names {
    ($module:ident $names:ident $end:literal) => {
        use crate::$module::$names;

        impl $names {
            /// All relocations that have a name, by ascending `r_type`.
            pub const ALL: &[$names] = {
                const COUNT: usize = named(&mut []);
                const NAMES: [$names; COUNT] = {
                    let mut names = [$names::Other(0); COUNT];
                    named(&mut names);
                    names
                };
                /// Writes the names as far as there is room, and counts them.
                const fn named(names: &mut [$names]) -> usize {
                    let (mut count, mut r_type) = (0, 0);
                    while r_type < $end {
                        let name = $names::from_elf(r_type);
                        if !matches!(name, $names::Other(_)) {
                            if count < names.len() {
                                names[count] = name;
                            }
                            count += 1;
                        }
                        r_type += 1;
                    }
                    count
                }
                &NAMES
            };
        }

        impl From<u32> for $names {
            /// `from_elf`.
            fn from(r_type: u32) -> $names {
                $names::from_elf(r_type)
            }
        }

        impl From<$names> for u32 {
            /// `r_type`.
            fn from(name: $names) -> u32 {
                name.r_type()
            }
        }

        impl Display for $names {
            /// The name, or "unknown relocation" and the `r_type`.
            fn fmt(&self, f: &mut Formatter<'_>) -> FmtResult {
                match self {
                    $names::Other(r_type) => write!(f, "{} {r_type}", self.name()),
                    _ => f.pad(self.name()),
                }
            }
        }

        impl FromStr for $names {
            type Err = UnknownName;

            /// The relocation with a name, as "R_AARCH64_CALL26".
            fn from_str(text: &str) -> Result<$names, UnknownName> {
                $names::ALL.iter().find(|name| name.name() == text).copied().ok_or(UnknownName)
            }
        }
    };
}

#[cfg(feature = "aarch64")]
names!(aarch64 AArch64Relocation 574);
#[cfg(feature = "loongarch64")]
names!(loongarch64 LoongArch64Relocation 129);
#[cfg(feature = "ppc64")]
names!(ppc64 Ppc64Relocation 253);
#[cfg(feature = "riscv64")]
names!(riscv64 RiscVRelocation 66);
#[cfg(feature = "x86_64")]
names!(x86_64 X86_64Relocation 52);
