// SPDX-License-Identifier: MIT OR Apache-2.0
//! The crate in `rust/` and the original one, called directly, so that the compiler may inline
//! both.

use crate::library::*;
use crate::measure::Side;
use crate::table::*;
use erased_crate::compat as compat_crate;
use std::hint::black_box;

macro_rules! form_loops {
    ($($machine:ident $variant:ident $kind:ident {
        $($number:literal $form:ident $values:tt $reads:ident),*
    })*) => {
        const WRITES: &[fn(&[Value], &mut [u8])] = &[$($(|values, words| {
            for (value, word) in values.iter().zip(words.chunks_exact_mut(WINDOW)) {
                library::elf::$kind::$form.write_to_value(value.value, value.negative, word);
            }
        }),*),*];
        const READS: &[fn(&[u8]) -> u64] = &[$($(|words| {
            words.chunks_exact(WINDOW).fold(0, |sum, word| {
                let (value, flag) = library::elf::$kind::$form.read_value(word);
                added(sum, value ^ u64::from(flag))
            })
        }),*),*];

        fn write_all(machine: u16, values: &[Value], words: &mut [u8]) {
            match machine {
                $($machine => {
                    const ALL: &[library::elf::$kind] = &[$(library::elf::$kind::$form),*];
                    for (value, word) in values.iter().zip(words.chunks_exact_mut(WINDOW)) {
                        ALL[value.form as usize].write_to_value(value.value, value.negative, word);
                    }
                })*
                _ => {}
            }
        }

        fn read_all(machine: u16, values: &[Value], words: &[u8]) -> u64 {
            match machine {
                $($machine => {
                    const ALL: &[library::elf::$kind] = &[$(library::elf::$kind::$form),*];
                    values.iter().zip(words.chunks_exact(WINDOW)).fold(0, |sum, (value, word)| {
                        let (value, flag) = ALL[value.form as usize].read_value(word);
                        added(sum, value ^ u64::from(flag))
                    })
                })*
                _ => 0,
            }
        }
    };
}

macro_rules! rewrite_loops {
    ($($machine:ident $variant:ident $module:ident {
        $($number:literal $rewrite:ident $(($n:literal))?),*
    })*) => {
        const APPLIES: &[fn(&mut [u8]) -> u64] = &[$($(|sections| {
            sections.chunks_exact_mut(SECTION).fold(0, |sum, section| {
                use library::$module::RelaxationKind as Kind;
                let (mut offset, mut addend) = (SITE, -4);
                Kind::$rewrite$(($n))?.apply(section, &mut offset, &mut addend);
                added(sum, offset ^ addend as u64)
            })
        }),*),*];

        fn apply_all(machine: u16, rewrites: &[Rewrite], sections: &mut [u8]) -> u64 {
            match machine {
                $($machine => {
                    use library::$module::RelaxationKind as Kind;
                    let known = |rewrite: &Rewrite| match (rewrite.number, rewrite.n) {
                        $(($number, n) if n == 0 $(+ $n)? => Kind::$rewrite$(($n))?,)*
                        _ => Kind::NoOp,
                    };
                    let pairs = rewrites.iter().zip(sections.chunks_exact_mut(SECTION));
                    pairs.fold(0, |sum, (rewrite, section)| {
                        let (mut offset, mut addend) = (SITE, -4);
                        known(rewrite).apply(section, &mut offset, &mut addend);
                        added(sum, offset ^ addend as u64)
                    })
                })*
                _ => 0,
            }
        }
    };
}

/// A crate with the original's interface, where it has one: `row_of` and the calls that allocate
/// are not the same.
macro_rules! library {
    (
        $module:ident, $crate_name:ident, $row_of:expr, $new_each:expr, $merge:expr, $walk:expr,
        { $($more:item)* }
    ) => {
        pub mod $module {
            use super::*;
            use $crate_name as library;
            use library::bit_misc::BitExtraction;
            use library::elf::{RelocationInstruction, RelocationKindInfo, RelocationSize};
            use library::relaxation::SectionRelaxDeltas;

            pub struct Direct;

            forms!(form_loops);
            rewrites!(rewrite_loops);

            /// A match of the machine and of the type, as a linker for several machines has it.
            #[inline(always)]
            fn row_of(machine: u16, r_type: u32) -> Option<RelocationKindInfo> {
                $row_of(machine, r_type)
            }

            #[inline(always)]
            fn relocated(row: &RelocationKindInfo, value: i64, place: &mut [u8]) -> bool {
                let bounds = row.range.bounds;
                let is_allowed = bounds.is_none_or(|(min, max)| min <= value && value < max);
                if !is_allowed || value as u64 & (row.alignment - 1) != 0 {
                    return false;
                }
                let number = value as u64;
                match row.size {
                    RelocationSize::ByteSize(bytes) => {
                        let bytes = usize::from(bytes);
                        place[..bytes].copy_from_slice(&number.to_le_bytes()[..bytes]);
                    }
                    RelocationSize::BitMasking { range, insn } => {
                        let (start, end) = (u32::from(range.start), u32::from(range.end));
                        let (bits, negative) = (number.extract_bit_range(start..end), value < 0);
                        match insn {
                            RelocationInstruction::AArch64(form) => {
                                form.write_to_value(bits, negative, place)
                            }
                            RelocationInstruction::RiscV(form) => {
                                form.write_to_value(bits, negative, place)
                            }
                            RelocationInstruction::LoongArch64(form) => {
                                form.write_to_value(bits, negative, place)
                            }
                            RelocationInstruction::Ppc64(form) => {
                                form.write_to_value(bits, negative, place)
                            }
                        }
                    }
                }
                true
            }

            impl Library for Direct {
                fn write(&self, mix: Mix, values: &[Value], words: &mut [u8]) {
                    match mix {
                        Mix::One(form) => WRITES[form](values, words),
                        Mix::All(machine) => write_all(machine, values, words),
                    }
                }

                fn read(&self, mix: Mix, values: &[Value], words: &[u8]) -> u64 {
                    match mix {
                        Mix::One(form) => READS[form](words),
                        Mix::All(machine) => read_all(machine, values, words),
                    }
                }

                fn apply(&self, mix: Mix, rewrites: &[Rewrite], sections: &mut [u8]) -> u64 {
                    match mix {
                        Mix::One(rewrite) => APPLIES[rewrite](sections),
                        Mix::All(machine) => apply_all(machine, rewrites, sections),
                    }
                }

                fn rows(&self, machine: u16, r_types: &[u32]) -> u64 {
                    for r_type in r_types {
                        black_box(row_of(machine, *r_type));
                    }
                    0
                }

                fn row(&self, machine: u16, r_type: u32) -> Option<String> {
                    let row = row_of(machine, r_type)?;
                    let numbers = (row.alignment, row.bias.map(|bias| bias.value()));
                    let flags = (row.thunkable, row.implicit_addend);
                    Some(format!("{:?}", (row.kind, row.size, row.mask, row.range, numbers, flags)))
                }

                fn relocate(
                    &self,
                    machine: u16,
                    relocations: &[Fixup],
                    section: &mut [u8],
                ) -> bool {
                    relocations.iter().all(|relocation| {
                        row_of(machine, relocation.r_type).is_some_and(|row| {
                            relocated(&row, relocation.value, &mut section[relocation.offset..])
                        })
                    })
                }

                fn uleb128(&self, mut content: &[u8], count: usize) -> u64 {
                    (0..count).fold(0, |sum, _| {
                        added(sum, library::utils::read_uleb128(&mut content).unwrap_or(0))
                    })
                }

                fn words(&self, mut content: &[u8]) -> u64 {
                    let mut sum = 0;
                    while let Ok(word) = library::utils::read_u32(&mut content) {
                        sum = added(sum, u64::from(word));
                    }
                    sum
                }

                fn words_of_slices(&self, content: &[u8]) -> u64 {
                    content.chunks_exact(4).fold(0, |sum, word| {
                        added(sum, u64::from(library::utils::u32_from_slice(word)))
                    })
                }

                fn longs_of_slices(&self, content: &[u8]) -> u64 {
                    content.chunks_exact(8).fold(0, |sum, long| {
                        added(sum, library::utils::u64_from_slice(long))
                    })
                }

                fn strings(&self, mut content: &[u8]) -> Option<u64> {
                    let mut sum = 0;
                    while let Ok(text) = library::utils::read_string(&mut content) {
                        sum = added(sum, black_box(text).len() as u64);
                    }
                    Some(sum)
                }

                fn passing(&self, test: Test, values: &[u64]) -> u64 {
                    use library::riscv64::RelaxationKind as Kind;
                    let values = values.iter();
                    let passing = match test {
                        Test::HighIsZero => values.filter(|it| Kind::hi20_is_zero(**it)).count(),
                        Test::HighFitsClui => {
                            values.filter(|it| Kind::hi20_fits_clui(**it)).count()
                        }
                        Test::RegisterFitsClui => {
                            values.filter(|it| Kind::rd_valid_for_clui(**it as u32)).count()
                        }
                        Test::DistanceFitsJal => {
                            let fits = library::riscv64::distance_fits_jal;
                            values.filter(|it| fits(**it as i64)).count()
                        }
                    };
                    passing as u64
                }

                fn clui_rows(&self, count: usize) -> u64 {
                    for _ in 0..count {
                        black_box(library::riscv64::RelaxationKind::clui_rel_info());
                    }
                    0
                }

                fn highest_relocation_with_bias(&self, values: &[u64]) -> u64 {
                    let biased = library::loongarch64::highest_relocation_with_bias;
                    values.iter().fold(0, |sum, value| biased(*value, sum))
                }

                fn deltas(&self, list: &[(u64, u32)]) -> Box<dyn Deltas> {
                    Box::new(new(list.to_vec()))
                }

                fn new_side<'a>(&self, list: &'a [(u64, u32)]) -> Side<'a> {
                    let count = lists_a_round(list.len());
                    Side::over(
                        (Vec::new(), Vec::new()),
                        move |state| {
                            *state = (vec![list.to_vec(); count], Vec::with_capacity(count))
                        },
                        |state| $new_each(&mut state.0, &mut state.1),
                        |state| state.1.iter().map(listed).collect::<Vec<_>>(),
                    )
                }

                fn merge_side<'a>(&self, halves: &'a [Halves]) -> Side<'a> {
                    Side::over(
                        Vec::new(),
                        move |state| {
                            let both = halves.iter();
                            *state = both.map(|[old, more]| (new(old.clone()), more.clone())).collect();
                        },
                        |state| {
                            for (deltas, more) in state {
                                $merge(deltas, more);
                            }
                        },
                        |state| state.iter().map(|(deltas, _)| listed(deltas)).collect::<Vec<_>>(),
                    )
                }

                $($more)*
            }

            pub fn new(list: Vec<(u64, u32)>) -> SectionRelaxDeltas {
                let mut made = Vec::with_capacity(1);
                $new_each(&mut vec![list], &mut made);
                made.pop().expect("one")
            }

            pub fn listed(deltas: &SectionRelaxDeltas) -> Vec<(u64, u64, u32)> {
                let deltas = deltas.deltas().iter();
                deltas.map(|d| (d.input_offset, d.cumulative_deleted, d.bytes_deleted)).collect()
            }

            impl Deltas for SectionRelaxDeltas {
                fn inputs(&self, queries: &[u64]) -> u64 {
                    queries.iter().fold(0, |sum, query| {
                        added(sum, self.input_to_output_offset(*query))
                    })
                }

                fn outputs(&self, queries: &[u64]) -> u64 {
                    queries.iter().fold(0, |sum, query| {
                        added(sum, self.output_to_input_offset(*query))
                    })
                }

                fn totals(&self, count: usize) -> u64 {
                    (0..count).fold(0, |sum, _| added(sum, black_box(self).total_deleted()))
                }

                fn walk(&self, queries: &[u64], outputs: &mut [u64]) {
                    $walk(self, queries, outputs)
                }

                fn walk_each(&self, queries: &[u64], outputs: &mut [u64]) -> bool {
                    let mut cursor = self.cursor();
                    for (query, output) in queries.iter().zip(outputs) {
                        *output = cursor.translate(*query);
                    }
                    true
                }

                fn walk_sum(&self, queries: &[u64]) -> Option<u64> {
                    let mut cursor = self.cursor();
                    let outputs = queries.iter().map(|query| cursor.translate(*query));
                    Some(outputs.fold(0, u64::wrapping_add))
                }
            }
        }
    };
}

library!(
    erased,
    erased_crate,
    |machine, r_type| match machine {
        AARCH64 => {
            let name = library::aarch64::AArch64Relocation::from_elf(r_type);
            library::aarch64::relocation_type_from_raw(name)
        }
        RISCV => {
            let name = library::riscv64::RiscVRelocation::from_elf(r_type);
            library::riscv64::relocation_type_from_raw(name)
        }
        LOONGARCH64 => {
            let name = library::loongarch64::LoongArch64Relocation::from_elf(r_type);
            library::loongarch64::relocation_type_from_raw(name)
        }
        PPC64 => {
            let name = library::ppc64::Ppc64Relocation::from_elf(r_type);
            library::ppc64::relocation_type_from_raw(name)
        }
        _ => {
            let name = library::x86_64::X86_64Relocation::from_elf(r_type);
            library::x86_64::relocation_from_raw(name)
        }
    },
    |lists: &mut Vec<Vec<(u64, u32)>>, made: &mut Vec<SectionRelaxDeltas>| {
        made.extend(
            lists
                .iter()
                .map(|list| SectionRelaxDeltas::new(list).expect("memory")),
        )
    },
    |deltas: &mut SectionRelaxDeltas, more: &mut Vec<(u64, u32)>| {
        deltas.merge_additional(more).expect("memory")
    },
    |deltas: &SectionRelaxDeltas, queries, outputs| {
        deltas.cursor().translate_all(queries, outputs)
    },
    {
        fn relocate_each(
            &self,
            machine: u16,
            relocations: &[Fixup],
            section: &mut [u8],
        ) -> Option<bool> {
            let written = |fixup: &Fixup| {
                let place = &mut section[fixup.offset..];
                let row = listed_row(machine, fixup.r_type);
                row.is_some_and(|row| row.write(fixup.value, place).is_ok())
            };
            Some(relocations.iter().all(written))
        }

        fn pack_side<'a>(
            &self,
            section: &'a [u8],
            list: &[(u64, u32)],
            calls: &'a [(u64, u64)],
        ) -> Option<Side<'a>> {
            use library::relaxation::{pack_into, packed_len};
            let deltas = new(list.to_vec());
            let packed = vec![0; packed_len(section, deltas.deltas())];
            Some(Side::writes(packed, move |packed| {
                let link = library::riscv64::LinkRegister::OfJalr;
                assert!(pack_into(section, deltas.deltas(), calls, link, packed).is_ok());
            }))
        }
    }
);

/// As `row_of`, as a `Row`.
#[inline(always)]
fn listed_row(machine: u16, r_type: u32) -> Option<erased_crate::elf::Row> {
    use erased_crate::elf::Architecture;
    Architecture::from_machine(machine)?.row(r_type)
}

/// A crate with all of the original's interface.
macro_rules! original_library {
    ($module:ident, $crate_name:ident) => {
        library!(
            $module,
            $crate_name,
            |machine, r_type| match machine {
                AARCH64 => library::aarch64::relocation_type_from_raw(r_type),
                RISCV => library::riscv64::relocation_type_from_raw(r_type),
                LOONGARCH64 => library::loongarch64::relocation_type_from_raw(r_type),
                PPC64 => library::ppc64::relocation_type_from_raw(r_type),
                _ => library::x86_64::relocation_from_raw(r_type),
            },
            |lists: &mut Vec<Vec<(u64, u32)>>, made: &mut Vec<SectionRelaxDeltas>| {
                made.extend(lists.drain(..).map(SectionRelaxDeltas::new))
            },
            |deltas: &mut SectionRelaxDeltas, more: &mut Vec<(u64, u32)>| {
                deltas.merge_additional(std::mem::take(more))
            },
            |deltas: &SectionRelaxDeltas, queries, outputs| {
                deltas.walk_each(queries, outputs);
            },
            {}
        );
    };
}

original_library!(compat, compat_crate);
#[cfg(feature = "upstream")]
original_library!(original, linker_utils);
