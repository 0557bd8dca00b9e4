// SPDX-License-Identifier: MIT OR Apache-2.0
//! The static library's exports, and calls of the same arguments, through pointers that the compiler
//! can't see through.

use crate::library::*;
use crate::measure::Side;
use crate::table::Rewrite;
use sathunne::raw::*;
use std::hint::black_box;

/// Room for a row, of any of the crates.
#[repr(C, align(16))]
pub struct Row(pub [u8; 128]);

/// Functions of C's calling convention, and what isn't called through pointers.
pub struct Calls {
    pub write: unsafe extern "C" fn(u16, u32, u64, bool, *mut u8, usize) -> u32,
    pub read: unsafe extern "C" fn(u16, u32, *const u8, usize, *mut u64, *mut u8) -> u32,
    pub apply: unsafe extern "C" fn(u16, u32, u8, *mut u8, usize, *mut u64, *mut i64) -> u32,
    pub next_modifier: unsafe extern "C" fn(u16, u32, u8, *mut u32) -> u32,
    pub relocation: unsafe extern "C" fn(u16, u32, *mut Row) -> u32,
    pub read_uleb128: unsafe extern "C" fn(*const u8, usize, *mut u64, *mut usize) -> u32,
    pub read_u32: unsafe extern "C" fn(*const u8, usize, *mut u32, *mut usize) -> u32,
    pub u32_from_slice: unsafe extern "C" fn(*const u8, usize, *mut u32) -> u32,
    pub u64_from_slice: unsafe extern "C" fn(*const u8, usize, *mut u64) -> u32,
    pub hi20_is_zero: unsafe extern "C" fn(u64) -> bool,
    pub hi20_fits_clui: unsafe extern "C" fn(u64) -> bool,
    pub rd_valid_for_clui: unsafe extern "C" fn(u32) -> bool,
    pub distance_fits_jal: unsafe extern "C" fn(i64) -> bool,
    pub clui_rel_info: unsafe extern "C" fn(*mut Row),
    pub highest: unsafe extern "C" fn(u64, u64) -> u64,
    pub relocate: fn(u16, &[Fixup], &mut [u8]) -> bool,
    pub relocate_all: for<'a> fn(u16, &'a [Fixup]) -> Option<RelocateAll<'a>>,
    pub relocate_each: fn(u16, &[Fixup], &mut [u8]) -> Option<bool>,
    pub deltas: fn(&[(u64, u32)]) -> Box<dyn Deltas>,
    pub new_side: for<'a> fn(&'a [(u64, u32)]) -> Side<'a>,
    pub merge_side: for<'a> fn(&'a [Halves]) -> Side<'a>,
    pub pack_side: for<'a> fn(&'a [u8], &[(u64, u32)], &'a [(u64, u64)]) -> Option<Side<'a>>,
}

type Relocate = unsafe extern "C" fn(u16, u32, *mut RelocationInfo) -> u32;

pub const EXPORTS: Calls = Calls {
    write: linker_utils_write_nonnull,
    read: linker_utils_read_nonnull,
    apply: linker_utils_apply_nonnull,
    next_modifier: linker_utils_next_modifier,
    // SAFETY: the room is as large and as aligned as a row's
    relocation: unsafe {
        std::mem::transmute::<Relocate, unsafe extern "C" fn(u16, u32, *mut Row) -> u32>(
            linker_utils_relocation,
        )
    },
    read_uleb128: linker_utils_read_uleb128_nonnull,
    read_u32: linker_utils_read_u32_nonnull,
    u32_from_slice: linker_utils_u32_from_slice_nonnull,
    u64_from_slice: linker_utils_u64_from_slice_nonnull,
    hi20_is_zero: linker_utils_hi20_is_zero,
    hi20_fits_clui: linker_utils_hi20_fits_clui,
    rd_valid_for_clui: linker_utils_rd_valid_for_clui,
    distance_fits_jal: linker_utils_distance_fits_jal,
    // SAFETY: as of `relocation`
    clui_rel_info: unsafe {
        std::mem::transmute::<
            unsafe extern "C" fn(*mut RelocationInfo),
            unsafe extern "C" fn(*mut Row),
        >(linker_utils_clui_rel_info)
    },
    highest: linker_utils_highest_relocation_with_bias,
    relocate,
    relocate_all: |machine, list| {
        let entry = |fixup: &Fixup| sathunne::Relocation {
            offset: fixup.offset as u64,
            value: fixup.value,
            r_type: fixup.r_type,
        };
        let entries: Vec<sathunne::Relocation> = list.iter().map(entry).collect();
        Some(Box::new(move |section| {
            let (at, len) = (section.as_mut_ptr(), section.len());
            let (entries, count) = (entries.as_ptr(), entries.len());
            let faulty = &mut 0;
            unsafe {
                linker_utils_relocate_all_nonnull(machine, at, len, entries, count, faulty) == 0
            }
        }))
    },
    relocate_each: |machine, relocations, section| {
        let relocate: unsafe extern "C" fn(u16, u32, i64, *mut u8, usize) -> u32 =
            black_box(linker_utils_relocate_nonnull);
        Some(relocations.iter().all(|fixup| {
            let place = &mut section[fixup.offset..];
            let (place, len) = (place.as_mut_ptr(), place.len());
            unsafe { relocate(machine, fixup.r_type, fixup.value, place, len) == 0 }
        }))
    },
    deltas: |list| Box::new(created(&deletions_of(list))),
    new_side: |list| new_side_by(create, list),
    merge_side: |halves| {
        let room = |[old, more]: &Halves| vec![Delta::default(); old.len() + more.len()];
        let given = |[old, more]: &Halves| (created(&deletions_of(old)), deletions_of(more));
        Side::over(
            (Vec::new(), halves.iter().map(room).collect::<Vec<_>>()),
            move |state| state.0 = halves.iter().map(given).collect(),
            |state| {
                for ((old, more), merged) in state.0.iter().zip(&mut state.1) {
                    merge(old, more, merged);
                }
            },
            |state| {
                state
                    .1
                    .iter()
                    .map(|merged| listed(merged))
                    .collect::<Vec<_>>()
            },
        )
    },
    pack_side: |section, list, calls| {
        let deltas = created(&deletions_of(list));
        let calls: Vec<Call> = calls
            .iter()
            .map(|&(site, target)| Call { site, target })
            .collect();
        let packed = vec![0; sathunne::packed_len(section, &deltas)];
        Some(Side::writes(packed, move |packed| {
            let status = unsafe {
                linker_utils_pack_nonnull(
                    section.as_ptr(),
                    section.len(),
                    deltas.as_ptr(),
                    deltas.len(),
                    calls.as_ptr(),
                    calls.len(),
                    sathunne::LinkRegister::OfJalr.number(),
                    packed.as_mut_ptr(),
                    packed.len(),
                    &mut 0,
                )
            };
            assert_eq!(status, 0);
        }))
    },
};

impl Library for Calls {
    fn relocate_all<'a>(&self, machine: u16, list: &'a [Fixup]) -> Option<RelocateAll<'a>> {
        (self.relocate_all)(machine, list)
    }

    fn relocate_each(
        &self,
        machine: u16,
        relocations: &[Fixup],
        section: &mut [u8],
    ) -> Option<bool> {
        (self.relocate_each)(machine, relocations, section)
    }

    fn write(&self, _mix: Mix, values: &[Value], words: &mut [u8]) {
        let write = black_box(self.write);
        for (value, word) in values.iter().zip(words.chunks_exact_mut(WINDOW)) {
            let (word, form) = (word.as_mut_ptr(), value.form);
            unsafe {
                write(
                    value.machine,
                    form,
                    value.value,
                    value.negative,
                    word,
                    WINDOW,
                )
            };
        }
    }

    fn read(&self, _mix: Mix, values: &[Value], words: &[u8]) -> u64 {
        let read = black_box(self.read);
        let (mut value, mut flag, mut sum) = (0, 0, 0);
        for (form, word) in values.iter().zip(words.chunks_exact(WINDOW)) {
            let (machine, word) = (form.machine, word.as_ptr());
            unsafe { read(machine, form.form, word, WINDOW, &mut value, &mut flag) };
            sum = added(sum, value ^ u64::from(flag));
        }
        sum
    }

    fn apply(&self, _mix: Mix, rewrites: &[Rewrite], sections: &mut [u8]) -> u64 {
        let apply = black_box(self.apply);
        let mut sum = 0;
        for (rewrite, section) in rewrites.iter().zip(sections.chunks_exact_mut(SECTION)) {
            let (machine, number, n) = (rewrite.machine, rewrite.number, rewrite.n);
            let (section, mut offset, mut addend) = (section.as_mut_ptr(), SITE, -4);
            let status = unsafe {
                apply(
                    machine,
                    number,
                    n,
                    section,
                    SECTION,
                    &mut offset,
                    &mut addend,
                )
            };
            sum = added(sum, offset ^ addend as u64 ^ u64::from(status) << 32);
        }
        sum
    }

    fn modifiers(&self, rewrites: &[Rewrite]) -> Option<u64> {
        let modifier = black_box(self.next_modifier);
        let mut next = 0;
        Some(rewrites.iter().fold(0, |sum, rewrite| {
            unsafe { modifier(rewrite.machine, rewrite.number, rewrite.n, &mut next) };
            added(sum, u64::from(next))
        }))
    }

    fn rows(&self, machine: u16, r_types: &[u32]) -> u64 {
        let relocation = black_box(self.relocation);
        let mut row = Row([0; 128]);
        r_types.iter().fold(0, |sum, r_type| {
            sum + u64::from(unsafe { relocation(machine, *r_type, black_box(&mut row)) })
        })
    }

    fn relocate(&self, machine: u16, relocations: &[Fixup], section: &mut [u8]) -> bool {
        (self.relocate)(machine, relocations, section)
    }

    fn uleb128(&self, mut content: &[u8], count: usize) -> u64 {
        let read = black_box(self.read_uleb128);
        let (mut value, mut consumed) = (0, 0);
        (0..count).fold(0, |sum, _| {
            unsafe { read(content.as_ptr(), content.len(), &mut value, &mut consumed) };
            content = &content[consumed..];
            added(sum, value)
        })
    }

    fn passing(&self, test: Test, values: &[u64]) -> u64 {
        fn count<T>(
            passes: unsafe extern "C" fn(T) -> bool,
            values: &[u64],
            of: fn(u64) -> T,
        ) -> u64 {
            let passes = black_box(passes);
            let values = values.iter();
            values.filter(|it| unsafe { passes(of(**it)) }).count() as u64
        }
        match test {
            Test::HighIsZero => count(self.hi20_is_zero, values, |it| it),
            Test::HighFitsClui => count(self.hi20_fits_clui, values, |it| it),
            Test::RegisterFitsClui => count(self.rd_valid_for_clui, values, |it| it as u32),
            Test::DistanceFitsJal => count(self.distance_fits_jal, values, |it| it as i64),
        }
    }

    fn clui_rows(&self, count: usize) -> u64 {
        let clui_rel_info = black_box(self.clui_rel_info);
        let mut row = Row([0; 128]);
        for _ in 0..count {
            unsafe { clui_rel_info(black_box(&mut row)) };
        }
        0
    }

    fn words_of_slices(&self, content: &[u8]) -> u64 {
        let read = black_box(self.u32_from_slice);
        let mut value = 0;
        content.chunks_exact(4).fold(0, |sum, word| {
            unsafe { read(word.as_ptr(), word.len(), &mut value) };
            added(sum, u64::from(value))
        })
    }

    fn longs_of_slices(&self, content: &[u8]) -> u64 {
        let read = black_box(self.u64_from_slice);
        let mut value = 0;
        content.chunks_exact(8).fold(0, |sum, long| {
            unsafe { read(long.as_ptr(), long.len(), &mut value) };
            added(sum, value)
        })
    }

    fn words(&self, mut content: &[u8]) -> u64 {
        let read = black_box(self.read_u32);
        let (mut value, mut consumed, mut sum) = (0, 0, 0);
        while unsafe { read(content.as_ptr(), content.len(), &mut value, &mut consumed) } == 0 {
            content = &content[consumed..];
            sum = added(sum, u64::from(value));
        }
        sum
    }

    fn highest_relocation_with_bias(&self, values: &[u64]) -> u64 {
        let biased = black_box(self.highest);
        values
            .iter()
            .fold(0, |sum, value| unsafe { biased(*value, sum) })
    }

    fn deltas(&self, list: &[(u64, u32)]) -> Box<dyn Deltas> {
        (self.deltas)(list)
    }

    fn new_side<'a>(&self, list: &'a [(u64, u32)]) -> Side<'a> {
        (self.new_side)(list)
    }

    fn merge_side<'a>(&self, halves: &'a [Halves]) -> Side<'a> {
        (self.merge_side)(halves)
    }

    fn pack_side<'a>(
        &self,
        section: &'a [u8],
        list: &[(u64, u32)],
        calls: &'a [(u64, u64)],
    ) -> Option<Side<'a>> {
        (self.pack_side)(section, list, calls)
    }
}

/// One by one, as `struct linker_utils_relocation_info` says.
fn relocate(machine: u16, relocations: &[Fixup], section: &mut [u8]) -> bool {
    let (relocation, write): (Relocate, _) = black_box((linker_utils_relocation, EXPORTS.write));
    let mut row = RelocationInfo::default();
    relocations.iter().all(
        |&Fixup {
             offset,
             r_type,
             value,
         }| {
            if unsafe { relocation(machine, r_type, &mut row) } != 0 {
                return false;
            }
            let is_allowed = row.has_range == 0 || row.min <= value && value < row.max;
            if !is_allowed || value as u64 & (row.alignment - 1) != 0 {
                return false;
            }
            let (number, place) = (value as u64, &mut section[offset..]);
            if row.is_bits == 0 {
                let bytes = usize::from(row.byte_size);
                place[..bytes].copy_from_slice(&number.to_le_bytes()[..bytes]);
                return true;
            }
            let bits = number >> row.first_bit & (u64::MAX >> (64 - (row.end_bit - row.first_bit)));
            let (place, len) = (place.as_mut_ptr(), place.len());
            unsafe { write(row.machine, row.form, bits, value < 0, place, len) == 0 }
        },
    )
}

fn deletions_of(list: &[(u64, u32)]) -> Vec<Deletion> {
    list.iter()
        .map(|&(offset, bytes)| Deletion { offset, bytes })
        .collect()
}

fn create(list: &[Deletion], deltas: &mut [Delta]) {
    let (given, count) = (list.as_ptr(), list.len());
    let (at, len) = (deltas.as_mut_ptr(), deltas.len());
    let status = unsafe { linker_utils_deltas_create_nonnull(given, count, at, len, &mut 0) };
    assert_eq!(status, 0);
}

/// `new_side` of `EXPORTS`, by the export that reads the deletions once.
pub fn new_side_in_one_pass(list: &[(u64, u32)]) -> Side<'_> {
    new_side_by(create_in_one_pass, list)
}

fn new_side_by<'a>(create: fn(&[Deletion], &mut [Delta]), list: &'a [(u64, u32)]) -> Side<'a> {
    let count = lists_a_round(list.len());
    // the others' lists are made right before each round too, so that they are in the cache
    Side::over(
        (Vec::new(), vec![vec![Delta::default(); list.len()]; count]),
        move |state| state.0 = vec![deletions_of(list); count],
        move |state| {
            for (given, deltas) in state.0.iter().zip(&mut state.1) {
                create(given, deltas);
            }
        },
        |state| {
            state
                .1
                .iter()
                .map(|deltas| listed(deltas))
                .collect::<Vec<_>>()
        },
    )
}

fn create_in_one_pass(list: &[Deletion], deltas: &mut [Delta]) {
    let (given, count) = (list.as_ptr(), list.len());
    let (at, len) = (deltas.as_mut_ptr(), deltas.len());
    let status =
        unsafe { linker_utils_deltas_create_in_one_pass_nonnull(given, count, at, len, &mut 0) };
    assert_eq!(status, 0);
}

fn created(list: &[Deletion]) -> Vec<Delta> {
    let mut deltas = vec![Delta::default(); list.len()];
    create(list, &mut deltas);
    deltas
}

fn merge(old: &[Delta], more: &[Deletion], merged: &mut [Delta]) {
    let (given, count) = (more.as_ptr(), more.len());
    let (at, len) = (merged.as_mut_ptr(), merged.len());
    let (old, of_old) = (old.as_ptr(), old.len());
    let status =
        unsafe { linker_utils_deltas_merge_nonnull(old, of_old, given, count, at, len, &mut 0) };
    assert_eq!(status, 0);
}

fn listed(deltas: &[Delta]) -> Vec<(u64, u64, u32)> {
    deltas
        .iter()
        .map(|d| (d.input_offset, d.cumulative_deleted, d.bytes_deleted))
        .collect()
}

impl Deltas for Vec<Delta> {
    fn totals(&self, count: usize) -> u64 {
        let total: unsafe extern "C" fn(*const Delta, usize) -> u64 =
            black_box(linker_utils_deltas_total_deleted_nonnull);
        let (deltas, len) = (self.as_ptr(), self.len());
        (0..count).fold(0, |sum, _| added(sum, unsafe { total(deltas, len) }))
    }

    fn inputs(&self, queries: &[u64]) -> u64 {
        let translate: unsafe extern "C" fn(*const Delta, usize, u64) -> u64 =
            black_box(linker_utils_deltas_input_to_output_nonnull);
        let (deltas, len) = (self.as_ptr(), self.len());
        queries.iter().fold(0, |sum, query| {
            added(sum, unsafe { translate(deltas, len, *query) })
        })
    }

    fn outputs(&self, queries: &[u64]) -> u64 {
        let translate: unsafe extern "C" fn(*const Delta, usize, u64, *mut u64) -> u32 =
            black_box(linker_utils_deltas_output_to_input_nonnull);
        let (deltas, len, mut input) = (self.as_ptr(), self.len(), 0);
        queries.iter().fold(0, |sum, query| {
            unsafe { translate(deltas, len, *query, &mut input) };
            added(sum, input)
        })
    }

    fn walk(&self, queries: &[u64], outputs: &mut [u64]) {
        let status = unsafe {
            linker_utils_deltas_translate_all_nonnull(
                self.as_ptr(),
                self.len(),
                queries.as_ptr(),
                queries.len(),
                outputs.as_mut_ptr(),
                outputs.len(),
                &mut 0,
            )
        };
        assert_eq!(status, 0);
    }

    fn by_heads(&self) -> Option<Box<dyn Deltas>> {
        let mut heads = vec![BlockHead::default(); sathunne::deltas_block_count(self)];
        assert_eq!(sathunne::deltas_heads(self, &mut heads), Ok(()));
        Some(Box::new(ByHeads {
            deltas: self.clone(),
            heads,
        }))
    }
}

struct ByHeads {
    deltas: Vec<Delta>,
    heads: Vec<BlockHead>,
}

impl Deltas for ByHeads {
    fn inputs(&self, queries: &[u64]) -> u64 {
        let translate: unsafe extern "C" fn(
            *const Delta,
            usize,
            *const BlockHead,
            usize,
            u64,
        ) -> u64 = black_box(linker_utils_deltas_input_to_output_by_heads_nonnull);
        let (deltas, len) = (self.deltas.as_ptr(), self.deltas.len());
        let (heads, blocks) = (self.heads.as_ptr(), self.heads.len());
        queries.iter().fold(0, |sum, query| {
            added(sum, unsafe {
                translate(deltas, len, heads, blocks, *query)
            })
        })
    }

    fn outputs(&self, queries: &[u64]) -> u64 {
        type Translate = unsafe extern "C" fn(
            *const Delta,
            usize,
            *const BlockHead,
            usize,
            u64,
            *mut u64,
        ) -> u32;
        let translate: Translate = black_box(linker_utils_deltas_output_to_input_by_heads_nonnull);
        let (deltas, len, mut input) = (self.deltas.as_ptr(), self.deltas.len(), 0);
        let (heads, blocks) = (self.heads.as_ptr(), self.heads.len());
        queries.iter().fold(0, |sum, query| {
            unsafe { translate(deltas, len, heads, blocks, *query, &mut input) };
            added(sum, input)
        })
    }

    fn totals(&self, count: usize) -> u64 {
        self.deltas.totals(count)
    }

    fn walk(&self, queries: &[u64], outputs: &mut [u64]) {
        self.deltas.walk(queries, outputs);
    }
}
