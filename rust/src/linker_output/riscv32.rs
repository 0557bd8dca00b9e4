// SPDX-License-Identifier: MIT OR Apache-2.0
// Made by tools/generate of crates/linker_output/src/riscv32.rt.
//! What a linker adds to an output of RV32.

use crate::linker_output::description::Target;
use crate::linker_output::dynamic::{DynamicTypes, named};
use crate::linker_output::layout::interpreter;
#[cfg(feature = "riscv64")]
use crate::linker_output::riscv64::TARGET;
use crate::linker_output::stubs::{Stub, words};

impl Target {
    /// The description of RV32: that of RV64 with types of words of 4 bytes, other paths, and a
    /// stub that loads such a word. It reaches words within 2 GiB, as RV64's.
    ///
    /// ```
    /// use linker_utils::output::Target;
    ///
    /// let types = Target::riscv32().dynamic;
    /// assert_eq!((types.word.r_type, types.word.name), (1, "R_RISCV_32"));
    /// ```
    #[cfg(feature = "riscv64")]
    #[must_use]
    pub fn riscv32() -> Target {
        Target {
            dynamic: DynamicTypes {
                word: named!(1, "R_RISCV_32"),
                glob_dat: named!(1, "R_RISCV_32"),
                module_number: named!(6, "R_RISCV_TLS_DTPMOD32"),
                module_offset: named!(8, "R_RISCV_TLS_DTPREL32"),
                thread_offset: named!(10, "R_RISCV_TLS_TPREL32"),
                ..TARGET.dynamic
            },
            interpreters: &[
                interpreter!(0, "/lib/ld-linux-riscv32-ilp32.so.1"),
                interpreter!(2, "/lib/ld-linux-riscv32-ilp32f.so.1"),
                interpreter!(4, "/lib/ld-linux-riscv32-ilp32d.so.1"),
            ],
            load_stub: Stub {
                pair: words!(0x0000_0e17, 0x000e_2e03), // auipc t3, 0; lw t3, 0(t3)
                ..TARGET.load_stub
            },
            ..TARGET
        }
    }
}
