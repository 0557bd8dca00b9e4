// SPDX-License-Identifier: MIT OR Apache-2.0
//! The signatures of the crate `linker-utils` 0.11.0, over this crate's calls.
//!
//! With `use linker_utils::compat as linker_utils;` the paths of a linker that used that crate are
//! these. Relocations are numbers, deletions are taken as vectors, and where there is no memory a
//! call aborts like those of `Vec`. Each module also has what the crate's own module has.
//!
//! ```
//! use linker_utils::compat as linker_utils;
//! use linker_utils::relaxation::{RelaxDeltaMap, SectionRelaxDeltas};
//!
//! let call26 = linker_utils::aarch64::relocation_type_from_raw(283).unwrap();
//! assert_eq!(call26.alignment, 4);
//!
//! let mut map = RelaxDeltaMap::default();
//! map.insert(3, SectionRelaxDeltas::new(vec![(4, 4)]));
//! map.get_mut(3).unwrap().merge_additional(vec![(16, 2)]);
//! assert_eq!(map.get(3).unwrap().input_to_output_offset(20), 14);
//! ```

pub use crate::{architecture, bit_misc, elf};

/// An architecture's module, with a row by its `r_type`.
macro_rules! by_type {
    ($module:ident, $row:ident, $names:ident $(, $more:item)*) => {
        #[doc = concat!("`", stringify!($module), "`, where relocations are numbers.")]
        pub mod $module {
            use crate::elf::RelocationKindInfo;
            pub use crate::$module::*;

            /// Above the types of all names, which ascend.
            const END: usize = $names::ALL[$names::ALL.len() - 1].r_type() as usize + 1;

            /// The rows by `r_type`.
            static ROWS: [Option<RelocationKindInfo>; END] = {
                let mut rows = [None; END];
                let mut at = 0;
                while at < $names::ALL.len() {
                    let name = $names::ALL[at];
                    rows[name.r_type() as usize] = crate::$module::$row(name);
                    at += 1;
                }
                rows
            };

            /// What the relocation with an `r_type` means.
            #[must_use]
            #[inline]
            pub const fn $row(r_type: u32) -> Option<RelocationKindInfo> {
                let r_type = r_type as usize;
                if r_type < END {
                    // by reference, so that no bytes of a missing row are copied
                    if let Some(row) = &ROWS[r_type] {
                        return Some(*row);
                    }
                }
                None
            }

            $($more)*
        }
    };
}

#[cfg(feature = "aarch64")]
by_type!(aarch64, relocation_type_from_raw, AArch64Relocation);
#[cfg(feature = "loongarch64")]
by_type!(loongarch64, relocation_type_from_raw, LoongArch64Relocation);
#[cfg(feature = "ppc64")]
by_type!(ppc64, relocation_type_from_raw, Ppc64Relocation);
#[cfg(feature = "riscv64")]
by_type! {
    riscv64, relocation_type_from_raw, RiscVRelocation,
    /// The distances that `distance_fits_jal` accepts.
    pub const JAL_RANGE: core::ops::RangeInclusive<i64> = JAL_MIN..=JAL_MAX;
}
#[cfg(feature = "x86_64")]
by_type!(x86_64, relocation_from_raw, X86_64Relocation);

/// `relaxation`, where deletions are taken as vectors and calls that allocate return no `Result`.
pub mod relaxation {
    use crate::relaxation as own;
    pub use crate::relaxation::*;
    use alloc::alloc::{Layout, handle_alloc_error};
    use alloc::vec::Vec;
    use core::ops::Deref;

    fn or_abort<T>(result: Result<T, OutOfMemory>) -> T {
        result.unwrap_or_else(|_| handle_alloc_error(Layout::new::<RelaxDelta>()))
    }

    /// The deletions in one input section. It dereferences to the crate's own type, for all calls
    /// but these.
    #[derive(Debug, Clone, Default, PartialEq, Eq)]
    pub struct SectionRelaxDeltas(own::SectionRelaxDeltas);

    impl SectionRelaxDeltas {
        /// The deletions that `raw` lists, each as an offset and a count of bytes.
        ///
        /// # Requires
        ///
        /// - `is_valid(&raw)` of the crate's own type
        #[must_use]
        #[cfg_attr(debug_assertions, track_caller)]
        pub fn new(raw: Vec<(u64, u32)>) -> SectionRelaxDeltas {
            SectionRelaxDeltas(or_abort(own::SectionRelaxDeltas::new(&raw)))
        }

        /// Adds deletions, each an offset and a count of bytes, in any order.
        ///
        /// # Requires
        ///
        /// - `self.is_mergeable(&additional)`
        #[cfg_attr(debug_assertions, track_caller)]
        pub fn merge_additional(&mut self, mut additional: Vec<(u64, u32)>) {
            // in place: the crate's own call sorts a copy
            if !additional.is_sorted_by_key(|pair| pair.0) {
                additional.sort_unstable_by_key(|pair| pair.0);
            }
            if self.is_empty() {
                *self = SectionRelaxDeltas::new(additional);
            } else {
                or_abort(self.0.merge_additional(&additional));
            }
        }
    }

    impl Deref for SectionRelaxDeltas {
        type Target = own::SectionRelaxDeltas;

        fn deref(&self) -> &own::SectionRelaxDeltas {
            &self.0
        }
    }

    impl From<own::SectionRelaxDeltas> for SectionRelaxDeltas {
        fn from(deltas: own::SectionRelaxDeltas) -> SectionRelaxDeltas {
            SectionRelaxDeltas(deltas)
        }
    }

    /// `input_to_output_offset` of the deltas, or `input_offset` itself where there are none.
    #[inline]
    #[must_use]
    pub fn opt_input_to_output(deltas: Option<&SectionRelaxDeltas>, input_offset: u64) -> u64 {
        own::opt_input_to_output(deltas.map(Deref::deref), input_offset)
    }

    /// The deltas of the sections of a file that have any, by section index. The crate's own map
    /// holds the crate's own deltas.
    #[derive(Debug, Clone, Default, PartialEq, Eq)]
    pub struct RelaxDeltaMap(Vec<(usize, SectionRelaxDeltas)>);

    impl RelaxDeltaMap {
        /// An empty map.
        #[must_use]
        pub fn new() -> RelaxDeltaMap {
            RelaxDeltaMap::default()
        }

        /// Adds a section. Requires an index above all that are there.
        #[cfg_attr(debug_assertions, track_caller)]
        pub fn insert(&mut self, section_index: usize, deltas: SectionRelaxDeltas) {
            debug_assert!(self.0.last().is_none_or(|(last, _)| *last < section_index));
            self.0.push((section_index, deltas));
        }

        /// Adds a section. Requires an index that isn't there.
        #[cfg_attr(debug_assertions, track_caller)]
        pub fn insert_sorted(&mut self, section_index: usize, deltas: SectionRelaxDeltas) {
            let found = self.find(section_index);
            debug_assert!(found.is_err());
            self.0.insert(found.unwrap_or_else(|at| at), (section_index, deltas));
        }

        /// The deltas of the section, if it is there.
        #[must_use]
        pub fn get(&self, section_index: usize) -> Option<&SectionRelaxDeltas> {
            self.find(section_index).ok().map(|at| &self.0[at].1)
        }

        /// The deltas of the section to change, if it is there.
        #[must_use]
        pub fn get_mut(&mut self, section_index: usize) -> Option<&mut SectionRelaxDeltas> {
            self.find(section_index).ok().map(|at| &mut self.0[at].1)
        }

        /// Whether no section is there.
        #[must_use]
        pub fn is_empty(&self) -> bool {
            self.0.is_empty()
        }

        /// The place of the section, or the one that it would have.
        fn find(&self, section_index: usize) -> Result<usize, usize> {
            self.0.binary_search_by_key(&section_index, |(index, _)| *index)
        }
    }
}

/// `utils`, and bytes as slices of other types.
pub mod utils {
    pub use crate::utils::*;
    use object::Pod;

    /// All bytes as a slice of `T`, without those after the last whole one. It panics where the
    /// bytes aren't aligned for `T`.
    #[must_use]
    #[track_caller]
    pub fn slice_from_all_bytes<T: Pod>(data: &[u8]) -> &[T] {
        let items = object::slice_from_bytes(data, data.len() / size_of::<T>());
        items.expect("bytes that are aligned").0
    }

    /// The same, to change.
    #[must_use]
    #[track_caller]
    pub fn slice_from_all_bytes_mut<T: Pod>(data: &mut [u8]) -> &mut [T] {
        let items = object::slice_from_bytes_mut(data, data.len() / size_of::<T>());
        items.expect("bytes that are aligned").0
    }
}

#[cfg(test)]
mod tests {
    #[test]
    fn rows_are_those_of_names() {
        macro_rules! compare {
            ($module:ident, $row:ident, $names:ident) => {
                for r_type in (0..1 << 16).chain([u32::MAX]) {
                    let named = crate::$module::$row(crate::$module::$names::from_elf(r_type));
                    assert_eq!(super::$module::$row(r_type), named, "{} {r_type}", stringify!($module));
                }
            };
        }
        compare!(aarch64, relocation_type_from_raw, AArch64Relocation);
        compare!(loongarch64, relocation_type_from_raw, LoongArch64Relocation);
        compare!(ppc64, relocation_type_from_raw, Ppc64Relocation);
        compare!(riscv64, relocation_type_from_raw, RiscVRelocation);
        compare!(x86_64, relocation_from_raw, X86_64Relocation);
    }
}
