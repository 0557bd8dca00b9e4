// SPDX-License-Identifier: MIT OR Apache-2.0
//! The exports without a counterpart in the original crate that no other part measures.

use crate::choices::{STRIDE, Stream};
use crate::inputs::{Random, deletions};
use crate::library::{SITE, WINDOW, added};
use crate::measure::{Beside, Report, Side};
use crate::table::{FORMS, LOONGARCH64, MACHINES, REWRITES, RISCV, X86_64, name_of};
use crate::{CALLS, architecture, calls_apart, section_of};
use erased_crate::runs;
use erased_crate::runs::{Isa, Machine, Run, has_its_instructions, pack_run};
use erased_crate::section::Section;
use erased_crate::runs::first_faulty;
use sathunne::raw::*;

// SAFETY of each call of an export below: a slice's pointer and length are its own, and a reference
// is of one value.

/// A line of an export's calls, one for each input, which give numbers.
fn numbers<T>(report: &mut Report, name: &str, inputs: &[T], mut call: impl FnMut(&T) -> u64) {
    let round = || inputs.iter().fold(0, |sum, input| added(sum, call(input)));
    let sides = [Some(Side::number(round)), None, None, None];
    report.line(name, inputs.len(), true, sides);
}

/// The same of calls that have to return 0.
fn line<T>(report: &mut Report, name: &str, inputs: &[T], mut call: impl FnMut(&T) -> u32) {
    numbers(report, name, inputs, |input| {
        assert_eq!(call(input), 0, "{name}");
        0
    });
}

/// A line of one call over so many entries, which has to return 0.
fn whole(report: &mut Report, name: &str, entries: usize, call: impl FnMut() -> u32) {
    let sides = [Some(returns_0(name, call)), None, None, None];
    report.line(name, entries, true, sides);
}

/// The same beside the call of the crate that does as much, which tells whether it did.
fn whole_beside(
    report: &mut Report,
    name: &str,
    entries: usize,
    call: impl FnMut() -> u32,
    mut of_crate: impl FnMut() -> bool,
) {
    let erased = Side::number(|| {
        assert!(of_crate(), "{name}");
        0
    });
    let sides = [Some(returns_0(name, call)), None, Some(erased), None];
    report.line(name, entries, true, sides);
}

fn returns_0<'a>(name: &'a str, mut call: impl FnMut() -> u32 + 'a) -> Side<'a> {
    Side::number(move || {
        assert_eq!(call(), 0, "{name}");
        0
    })
}

pub fn further(report: &mut Report) {
    let random = &mut Random::new(16);
    report.heading("Other calls of the exports, a call", Beside::Nothing);
    words(report, random);
    relocations(report, random);
    instructions(report, random);
    reading(report);
    report.heading("Other calls of the exports, an entry", Beside::Nothing);
    lists(report, random);
    runs(report, random);
}

fn words(report: &mut Report, random: &mut Random) {
    let inputs: Vec<_> = (0..CALLS)
        .map(|_| {
            let form = random.one_of(FORMS);
            (form, random.below(form.values), random.bytes(WINDOW))
        })
        .collect();
    let mut window = 0;
    line(
        report,
        "`linker_utils_window`, forms at random",
        &inputs,
        |(form, ..)| unsafe { linker_utils_window(form.machine, form.number, &mut window) },
    );
    numbers(
        report,
        "`linker_utils_fits`, forms at random",
        &inputs,
        |(form, value, bytes)| {
            let (bytes, len) = (bytes.as_ptr(), bytes.len());
            u64::from(unsafe {
                linker_utils_fits_nonnull(form.machine, form.number, *value, bytes, len)
            })
        },
    );

    let inputs: Vec<_> = (0..CALLS)
        .map(|_| {
            let rewrite = *random.one_of(REWRITES);
            (rewrite, section_of(random, &rewrite))
        })
        .collect();
    line(
        report,
        "`linker_utils_can_apply`, rewrites at random",
        &inputs,
        |(rewrite, bytes)| {
            let (bytes, len) = (bytes.as_ptr(), bytes.len());
            let (machine, number, n) = (rewrite.machine, rewrite.number, rewrite.n);
            unsafe { linker_utils_can_apply_nonnull(machine, number, n, bytes, len, SITE) }
        },
    );
    let choices: Vec<_> = inputs
        .iter()
        .map(|(rewrite, _)| Choice {
            rewrite: rewrite.number,
            opcode_len: rewrite.n,
            ..Choice::default()
        })
        .collect();
    let unchanged: Vec<_> = inputs.iter().zip(&choices).collect();
    numbers(
        report,
        "`linker_utils_is_unchanged`, rewrites at random",
        &unchanged,
        |((rewrite, _), choice)| unsafe {
            linker_utils_is_unchanged(rewrite.machine, 0, *choice).into()
        },
    );
    let mut bounds = RewriteWindow::default();
    line(
        report,
        "`linker_utils_rewrite_window`, rewrites at random",
        &inputs,
        |(rewrite, _)| {
            let (machine, number, n) = (rewrite.machine, rewrite.number, rewrite.n);
            unsafe { linker_utils_rewrite_window(machine, number, n, &mut bounds) }
        },
    );
    numbers(
        report,
        "`linker_utils_matches`, rewrites at random",
        &inputs,
        |(rewrite, bytes)| {
            let (bytes, len) = (bytes.as_ptr(), bytes.len());
            let (machine, number, n) = (rewrite.machine, rewrite.number, rewrite.n);
            u64::from(unsafe { linker_utils_matches_nonnull(machine, number, n, bytes, len, SITE) })
        },
    );
}

fn relocations(report: &mut Report, random: &mut Random) {
    let all: Vec<(u16, u32)> = MACHINES
        .iter()
        .flat_map(|&machine| (0..1 << 11).map(move |r_type| (machine, r_type)))
        .filter(|&(machine, r_type)| sathunne::relocation(architecture(machine), r_type).is_ok())
        .collect();
    let types: Vec<(u16, u32)> = (0..CALLS).map(|_| *random.one_of(&all)).collect();
    let mut name = [0; 64];
    let mut used = 0;
    line(
        report,
        "`linker_utils_relocation_name`, at random",
        &types,
        |&(machine, r_type)| unsafe {
            let (name, len) = (name.as_mut_ptr(), name.len());
            linker_utils_relocation_name_nonnull(machine, r_type, name, len, &mut used)
        },
    );
    numbers(
        report,
        "`linker_utils_asks_for_got`, at random",
        &types,
        |&(machine, r_type)| unsafe { linker_utils_asks_for_got(machine, r_type).into() },
    );
    numbers(
        report,
        "`linker_utils_may_use_plt`, at random",
        &types,
        |&(machine, r_type)| unsafe { linker_utils_may_use_plt(machine, r_type).into() },
    );
    numbers(
        report,
        "`linker_utils_may_be_skipped`, at random",
        &types,
        |&(machine, r_type)| unsafe { linker_utils_may_be_skipped(machine, r_type).into() },
    );
    numbers(
        report,
        "`linker_utils_uleb128_role`, at random",
        &types,
        |&(machine, r_type)| unsafe { linker_utils_uleb128_role(machine, r_type).into() },
    );
    let numbers_of_pairs: Vec<u64> = (0..CALLS as u64).collect();
    let mut dest = [0x80, 0x80, 0];
    line(
        report,
        "`linker_utils_write_uleb128_pair`",
        &numbers_of_pairs,
        |&number| unsafe {
            let (at, len) = (dest.as_mut_ptr(), dest.len());
            linker_utils_write_uleb128_pair_nonnull(243, 60, at, len, number + 7, 7)
        },
    );
    let mut reach = Reach::default();
    line(
        report,
        "`linker_utils_reach`, at random",
        &types,
        |&(machine, r_type)| unsafe { linker_utils_reach(machine, r_type, &mut reach) },
    );
    let operands = Operands {
        symbol: 0x8_0000,
        place: 0x4_0000,
        has_got_entry: true,
        has_plt_entry: true,
        has_tls_base: true,
        ..Operands::default()
    };
    let mut value = 0;
    numbers(
        report,
        "`linker_utils_value`, at random",
        &types,
        |&(machine, r_type)| unsafe {
            linker_utils_value(machine, r_type, &operands, &mut value).into()
        },
    );
    numbers(
        report,
        "`linker_utils_find`, at random",
        &types,
        |&(machine, r_type)| unsafe { linker_utils_find(machine, r_type).into() },
    );
    let handles: Vec<u32> = types
        .iter()
        .map(|&(machine, r_type)| unsafe { linker_utils_find(machine, r_type) })
        .collect();
    numbers(
        report,
        "`linker_utils_row_value`, at random",
        &handles,
        |&handle| unsafe { linker_utils_row_value(handle, &operands, &mut value).into() },
    );
    let mut dest = [0; 8];
    numbers(
        report,
        "`linker_utils_row_write`, at random",
        &handles,
        |&handle| unsafe {
            let (at, len) = (dest.as_mut_ptr(), dest.len());
            linker_utils_row_write_nonnull(handle, 0x40, at, len).into()
        },
    );
    numbers(
        report,
        "`linker_utils_row_apply`, at random",
        &handles,
        |&handle| unsafe {
            let (at, len) = (dest.as_mut_ptr(), dest.len());
            linker_utils_row_apply_nonnull(handle, &operands, at, len).into()
        },
    );
}

fn instructions(report: &mut Report, random: &mut Random) {
    // `auipc` and `jalr`, and each 64 bytes a deletion after them
    let call = 0x000080e7_00000097_u64.to_le_bytes();
    let fresh: Vec<u8> = (0..CALLS)
        .flat_map(|_| [&call[..], &[0; 56]].concat())
        .collect();
    let sites: Vec<u64> = (0..CALLS as u64).map(|k| 64 * k).collect();
    let list: Vec<sathunne::Deletion> = sites
        .iter()
        .map(|site| sathunne::Deletion {
            offset: site + 32,
            bytes: 4,
        })
        .collect();
    let mut deltas = vec![sathunne::Delta::default(); list.len()];
    assert_eq!(sathunne::deltas_create(&list, &mut deltas), Ok(()));
    let targets: Vec<(u64, u64)> = sites
        .iter()
        .map(|site| (*site, *random.one_of(&sites)))
        .collect();

    let (bytes, len) = (fresh.as_ptr(), fresh.len());
    numbers(
        report,
        "`linker_utils_is_plain_call`",
        &sites,
        |&site| unsafe { linker_utils_is_plain_call_nonnull(bytes, len, site).into() },
    );
    let mut section = fresh.clone();
    line(report, "`linker_utils_jal_site`", &sites, |&site| {
        let (bytes, len) = (section.as_mut_ptr(), section.len());
        unsafe { linker_utils_jal_site_nonnull(bytes, len, site, 16) }
    });
    let name = "`linker_utils_relax_call`, 2048 deletions";
    line(report, name, &targets, |&(site, target)| {
        let (bytes, len) = (section.as_mut_ptr(), section.len());
        let (deltas, count) = (deltas.as_ptr(), deltas.len());
        unsafe { linker_utils_relax_call_nonnull(bytes, len, deltas, count, site, target) }
    });
    // the call has to be there, so that each round has a section of its own
    let jumps = Side::over(
        fresh.clone(),
        |section| section.copy_from_slice(&fresh),
        |section| {
            let (bytes, len) = (section.as_mut_ptr(), section.len());
            for site in &sites {
                let link = sathunne::LinkRegister::OfJalr.number();
                let status =
                    unsafe { linker_utils_jal_site_with_nonnull(bytes, len, *site, 16, link) };
                assert_eq!(status, 0);
            }
        },
        |_| 0,
    );
    let sides = [Some(jumps), None, None, None];
    report.line(
        "`linker_utils_jal_site_with` the link of the jalr",
        CALLS,
        true,
        sides,
    );

    let numbers_of_all: Vec<u64> = (0..CALLS).map(|_| random.word()).collect();
    let values = &numbers_of_all;
    let mut bytes = [0; 20];
    line(
        report,
        "`linker_utils_write_mov_sequence`",
        values,
        |&value| unsafe {
            linker_utils_write_mov_sequence_nonnull(bytes.as_mut_ptr(), 16, 3, value)
        },
    );
    line(
        report,
        "`linker_utils_write_address_sequence`",
        values,
        |&value| unsafe {
            linker_utils_write_address_sequence_nonnull(bytes.as_mut_ptr(), 20, 0x4_0000, value)
        },
    );
    let (mut high, mut low) = ([0; 4], [0; 4]);
    line(
        report,
        "`linker_utils_write_ha_lo`",
        values,
        |&value| unsafe {
            linker_utils_write_ha_lo_nonnull(high.as_mut_ptr(), 4, low.as_mut_ptr(), 4, value)
        },
    );
    let mut padded = [0x80; 10];
    padded[9] = 0;
    line(
        report,
        "`linker_utils_write_uleb128` over ten bytes",
        values,
        |&value| unsafe {
            linker_utils_write_uleb128_nonnull(padded.as_mut_ptr(), padded.len(), value)
        },
    );
    let mut shapes = sathunne::Shapes::default();
    line(
        report,
        "`linker_utils_standard_shapes`",
        values,
        |&value| unsafe { linker_utils_standard_shapes((value % 5) as u32, &mut shapes) },
    );
}

/// What linked bytes say, where the original ones are those of the choices.
fn reading(report: &mut Report) {
    for stream in Stream::all() {
        let (machine, name, original) = (stream.machine, stream.name, &stream.section);
        let of_machine = architecture(machine);
        let windows = stream.linked();
        let sites = &stream.sites[..CALLS];
        let facts: Vec<LinkFacts> = sites.iter().map(|site| (&site.facts()).into()).collect();
        let chosen: Vec<_> = sites.iter().zip(&facts).collect();
        let mut choice = Choice::default();
        line(
            report,
            &format!("`linker_utils_choose`, {name}"),
            &chosen,
            |(site, facts)| {
                let (at, len, r_type) = (original.as_ptr(), original.len(), site.r_type);
                let choice = &mut choice;
                unsafe {
                    linker_utils_choose_nonnull(
                        machine,
                        r_type,
                        at,
                        len,
                        site.offset,
                        *facts,
                        choice,
                    )
                }
            },
        );

        numbers(
            report,
            &format!("`linker_utils_relocation_fits`, {name}"),
            &chosen,
            |(site, facts)| {
                let (at, len, r_type) = (original.as_ptr(), original.len(), site.r_type);
                unsafe {
                    linker_utils_relocation_fits_nonnull(
                        machine,
                        r_type,
                        at,
                        len,
                        site.offset,
                        *facts,
                    )
                    .into()
                }
            },
        );

        // the other instruction of the window is another relocation's
        let others: Vec<Vec<FieldBits>> = sites
            .iter()
            .map(|site| {
                let window = site.offset / STRIDE as u64;
                let offsets = stream
                    .sites
                    .iter()
                    .take(2 * CALLS)
                    .map(|other| other.offset);
                let beside = offsets
                    .filter(|other| other / STRIDE as u64 == window && *other != site.offset);
                beside
                    .map(|other| FieldBits {
                        offset: other % STRIDE as u64,
                        bits: u64::from(u32::MAX),
                    })
                    .collect()
            })
            .collect();
        let compared: Vec<_> = chosen
            .iter()
            .zip(&others)
            .map(|(&(site, facts), others)| {
                let at = site.offset as usize / STRIDE;
                let original = &original[at * STRIDE..(at + 1) * STRIDE];
                (site, facts, original, others, &windows[at])
            })
            .collect();
        let mut found = [Recognised::default(); 6];
        let mut count = 0;
        let what = format!("`linker_utils_recognise`, {name}");
        line(
            report,
            &what,
            &compared,
            |(site, _, original, others, linked)| unsafe {
                linker_utils_recognise_nonnull(
                    machine,
                    site.r_type,
                    original.as_ptr(),
                    original.len(),
                    site.offset % STRIDE as u64,
                    others.as_ptr(),
                    others.len(),
                    linked.as_ptr(),
                    linked.len(),
                    found.as_mut_ptr(),
                    found.len(),
                    &mut count,
                )
            },
        );
        assert!(count > 0, "{what}");
        let mut window = RewriteWindow::default();
        let what = format!("`linker_utils_recognise_window`, {name}");
        line(report, &what, &compared, |(site, _, original, _, _)| unsafe {
            linker_utils_recognise_window_nonnull(
                machine,
                site.r_type,
                original.as_ptr(),
                original.len(),
                site.offset % STRIDE as u64,
                &mut window,
            )
        });
        let what = format!("`linker_utils_recognise_chosen`, {name}");
        line(
            report,
            &what,
            &compared,
            |(site, facts, original, others, linked)| unsafe {
                linker_utils_recognise_chosen_nonnull(
                    machine,
                    site.r_type,
                    original.as_ptr(),
                    original.len(),
                    site.offset % STRIDE as u64,
                    others.as_ptr(),
                    others.len(),
                    linked.as_ptr(),
                    linked.len(),
                    *facts,
                    &mut found[0],
                )
            },
        );

        let led: Vec<_> = compared
            .iter()
            .filter_map(|(site, facts, original, others, linked)| {
                let (at, mut made) = (site.offset % STRIDE as u64, Recognised::default());
                let mut destination = Destination::default();
                // SAFETY: a slice's pointer and length are its own, and a reference is of one value.
                let statuses = unsafe {
                    [
                        linker_utils_recognise_chosen_nonnull(
                            machine,
                            site.r_type,
                            original.as_ptr(),
                            original.len(),
                            at,
                            others.as_ptr(),
                            others.len(),
                            linked.as_ptr(),
                            linked.len(),
                            *facts,
                            &mut made,
                        ),
                        linker_utils_get_destination_nonnull(
                            machine,
                            &made,
                            original.as_ptr(),
                            original.len(),
                            at,
                            &site.operands(),
                            0,
                            &mut destination,
                        ),
                    ]
                };
                (statuses == [0, 0]).then_some((made, *original, at, site.operands()))
            })
            .collect();
        let mut destination = Destination::default();
        let what = format!("`linker_utils_get_destination`, {name}");
        line(report, &what, &led, |(made, original, at, operands)| unsafe {
            linker_utils_get_destination_nonnull(
                machine,
                made,
                original.as_ptr(),
                original.len(),
                *at,
                operands,
                0,
                &mut destination,
            )
        });

        let fields: Vec<_> = sites
            .iter()
            .map(|site| {
                let bytes = &original[site.offset as usize..];
                let value = sathunne::read_value(of_machine, site.r_type, bytes).expect("a value");
                (site.r_type, bytes, value, site.operands())
            })
            .collect();
        let mut number = 0;
        let what = format!("`linker_utils_operand`, {name}");
        numbers(report, &what, &fields, |(_, bytes, ..)| {
            let (at, len) = (bytes.as_ptr(), bytes.len());
            unsafe { linker_utils_operand_nonnull(machine, 0, at, len, &mut number).into() }
        });
        let mut value = FieldValue::default();
        let what = format!("`linker_utils_read_value`, {name}");
        line(report, &what, &fields, |(r_type, bytes, ..)| {
            let (at, len) = (bytes.as_ptr(), bytes.len());
            unsafe { linker_utils_read_value_nonnull(machine, *r_type, at, len, &mut value) }
        });
        let (mut reference, mut address) = (0, FieldValue::default());
        let what = format!("`linker_utils_solve`, {name}");
        line(report, &what, &fields, |(r_type, _, value, operands)| {
            let (reference, address) = (&mut reference, &mut address);
            unsafe { linker_utils_solve(machine, *r_type, value, operands, reference, address) }
        });
        let mut bits = 0;
        let what = format!("`linker_utils_field_bits`, {name}");
        line(report, &what, &fields, |(r_type, bytes, ..)| {
            let (at, len) = (bytes.as_ptr(), bytes.len());
            unsafe { linker_utils_field_bits_nonnull(machine, *r_type, at, len, &mut bits) }
        });
        let what = format!("`linker_utils_same_but_for`, {name}");
        numbers(report, &what, &fields, |(r_type, bytes, ..)| {
            let at = bytes.as_ptr();
            unsafe { linker_utils_same_but_for_nonnull(machine, *r_type, at, 8, at, 8).into() }
        });
    }
    let high = FieldValue {
        bits: 0x401,
        first_bit: 12,
        end_bit: 64,
        ..FieldValue::default()
    };
    let low = |bits| FieldValue {
        bits,
        end_bit: 12,
        ..FieldValue::default()
    };
    let lows: Vec<FieldValue> = (0..CALLS as u64).map(low).collect();
    let mut whole = FieldValue::default();
    line(report, "`linker_utils_join`", &lows, |low| unsafe {
        linker_utils_join(&high, low, &mut whole)
    });
}

fn lists(report: &mut Report, random: &mut Random) {
    const COUNT: usize = 100_000;
    let (list, _) = deletions(random, COUNT);
    let list: Vec<sathunne::Deletion> = list
        .into_iter()
        .map(|(offset, bytes)| sathunne::Deletion { offset, bytes })
        .collect();
    let mut deltas = vec![sathunne::Delta::default(); COUNT];
    assert_eq!(sathunne::deltas_create(&list, &mut deltas), Ok(()));
    whole(
        report,
        "`linker_utils_deletions_valid`, 100000 deletions",
        COUNT,
        || unsafe { linker_utils_deletions_valid_nonnull(list.as_ptr(), list.len(), &mut 0) },
    );
    let (at, len) = (deltas.as_ptr(), deltas.len());
    whole(
        report,
        "`linker_utils_has_valid_deltas`, 100000 deltas",
        COUNT,
        || unsafe { u32::from(!linker_utils_has_valid_deltas_nonnull(at, len)) },
    );
    let mut heads = vec![sathunne::BlockHead::default(); sathunne::deltas_block_count(&deltas)];
    whole(
        report,
        "`linker_utils_deltas_heads`, 100000 deltas",
        COUNT,
        || unsafe { linker_utils_deltas_heads_nonnull(at, len, heads.as_mut_ptr(), heads.len()) },
    );
    // two of three words of 8 bytes are relocated
    let addresses: Vec<u64> = (0..COUNT as u64).map(|k| 8 * (k + k / 2)).collect();
    let (mut words, mut read, mut needed) = (vec![0; COUNT], vec![0; COUNT], 0);
    let (from, to) = (addresses.as_ptr(), words.as_mut_ptr());
    whole(
        report,
        "`linker_utils_write_relr`, 100000 addresses",
        COUNT,
        || unsafe { linker_utils_write_relr_nonnull(from, COUNT, to, COUNT, &mut needed) },
    );
    let (from, used, to) = (words.as_ptr(), needed, read.as_mut_ptr());
    whole(
        report,
        "`linker_utils_read_relr`, 100000 addresses",
        COUNT,
        || unsafe { linker_utils_read_relr_nonnull(from, used, to, COUNT, &mut needed) },
    );
    // the count with addends, then offsets and symbols that ascend, of the first one's type
    let (mut crel, mut header, mut has_addends) = (Vec::new(), 8 * COUNT as u64 + 4, 0);
    while header >= 0x80 {
        crel.push(header as u8 | 0x80);
        header >>= 7;
    }
    crel.extend([header as u8, 0x47, 1, 2, 0]);
    crel.extend([0x41, 1].repeat(COUNT - 1));
    let mut relas = vec![0u8; 24 * COUNT];
    let (from, len, to) = (crel.as_ptr(), crel.len(), relas.as_mut_ptr());
    whole(
        report,
        "`linker_utils_read_crel`, 100000 relocations",
        COUNT,
        || unsafe {
            linker_utils_read_crel_nonnull(from, len, to, 24 * COUNT, &mut needed, &mut has_addends)
        },
    );
    let (machine, kind) = (X86_64, 0xc000_0002);
    let list: Vec<_> = (0..100)
        .map(|at| sathunne::Property {
            kind: kind + at,
            value: 3,
            version: 0,
        })
        .collect();
    let (mut note, mut properties) = (vec![0; 4096], list.clone());
    let (from, to, bytes) = (list.as_ptr(), properties.as_mut_ptr(), note.as_mut_ptr());
    whole(
        report,
        "`linker_utils_write_properties`, 100 properties",
        100,
        || unsafe {
            linker_utils_write_properties_nonnull(machine, from, 100, bytes, 4096, &mut needed)
        },
    );
    let len = needed;
    whole(
        report,
        "`linker_utils_read_properties`, 100 properties",
        100,
        || unsafe {
            linker_utils_read_properties_nonnull(machine, bytes, len, to, 100, &mut needed)
        },
    );
    whole(
        report,
        "`linker_utils_merge_properties`, 100 properties",
        100,
        || unsafe {
            let at = &mut needed;
            linker_utils_merge_properties_nonnull(machine, from, 100, from, 100, to, 100, at)
        },
    );
    let lens: Vec<usize> = (0..CALLS).map(|k| COUNT - k).collect();
    numbers(
        report,
        "`linker_utils_deltas_block_count`, a call",
        &lens,
        |&len| unsafe { linker_utils_deltas_block_count_nonnull(at, len) as u64 },
    );
    let section = vec![0; 1 << 20];
    numbers(
        report,
        "`linker_utils_packed_len`, 100000 deltas, a call",
        &lens,
        |&k| unsafe {
            linker_utils_packed_len_nonnull(section.as_ptr(), section.len() - k, at, len) as u64
        },
    );
    numbers(
        report,
        "`linker_utils_packed_run_len`, 100000 deltas, a call",
        &lens,
        |&k| unsafe { linker_utils_packed_run_len_nonnull(64, section.len() - k, at, len) as u64 },
    );
    let calls = calls_apart(random, COUNT, 64);
    whole(
        report,
        "`linker_utils_calls_shrinkable`, 100000 calls",
        COUNT,
        || unsafe {
            linker_utils_calls_shrinkable_nonnull(at, 0, calls.as_ptr(), calls.len(), &mut 0)
        },
    );
}

/// The items of such a section of which four bytes after each call are deleted.
fn rewritten_beside(
    report: &mut Report,
    machine: u16,
    of_crate: Machine,
    section: &[u8],
    relocations: &[sathunne::Rela],
    listed: &[runs::Relocation],
) {
    let calls = relocations.iter().filter(|it| it.has_target != 0);
    let deleted: Vec<_> = calls.map(|it| (it.offset + 40, 4)).collect();
    let given: Vec<_> = deleted
        .iter()
        .map(|&(offset, bytes)| sathunne::Deletion { offset, bytes })
        .collect();
    let room = relocations.len() + deleted.len();
    let mut items = vec![sathunne::Item::default(); room];
    let (mut makers, mut used) = (vec![0; room], 0);
    let call = || unsafe {
        linker_utils_rewritten_items_nonnull(
            machine,
            section.as_ptr(),
            section.len(),
            0,
            relocations.as_ptr(),
            relocations.len(),
            given.as_ptr(),
            given.len(),
            items.as_mut_ptr(),
            room,
            makers.as_mut_ptr(),
            room,
            &mut used,
            &mut 0,
        )
    };
    let section = Section::new(section, []);
    let made = runs::section_items(of_crate, &section, listed).expect("items");
    let mut out = vec![made.items[0]; room];
    let mut out_makers = vec![0; room];
    let of_crate = || {
        let out = &mut out[..];
        let makers = &mut out_makers[..];
        runs::rewritten_items_into(of_crate, &section, listed, &deleted, out, makers).is_ok()
    };
    let name = format!("`linker_utils_rewritten_items`, {}, a relocation", name_of(machine));
    whole_beside(report, &name, relocations.len(), call, of_crate);
}

/// Sections whose relocations make items, relaxed and packed: calls with an alignment after each
/// eighth.
fn runs(report: &mut Report, random: &mut Random) {
    const COUNT: usize = 100_000;
    // a call, the mark of relaxation, an alignment and its addend, and the instructions' bytes
    let machines = [
        (RISCV, [19, 51, 43], 14, 0x000080e7_00000097_u64, 0x0001),
        (
            LOONGARCH64,
            [110, 100, 102],
            12,
            0x4c000021_1e000001,
            0x03400000,
        ),
    ];
    for (machine, [of_call, of_mark, of_alignment], nops, call, nop) in machines {
        let name = name_of(machine);
        let of_crate = match machine {
            RISCV => Machine::RiscV(Isa::Rv64),
            _ => Machine::LoongArch64,
        };
        let mut section = vec![0; COUNT * 64];
        let mut relocations = Vec::new();
        for call_of in calls_apart(random, COUNT, 64) {
            let (site, at) = (call_of.site, call_of.site as usize);
            let relocation = |offset, target, addend, r_type| sathunne::Rela {
                offset,
                target,
                addend,
                r_type,
                has_symbol: u8::from(r_type == of_call),
                has_target: u8::from(r_type == of_call),
                may_compress: 1,
            };
            section[at..at + 8].copy_from_slice(&u64::to_le_bytes(call));
            relocations.push(relocation(site, call_of.target, 0, of_call));
            relocations.push(relocation(site, 0, 0, of_mark));
            if site / 64 % 8 == 7 {
                let (nop, len) = (u32::to_le_bytes(nop), if nops == 14 { 2 } else { 4 });
                for part in section[at + 8..at + 8 + nops].chunks_exact_mut(len) {
                    part.copy_from_slice(&nop[..len]);
                }
                relocations.push(relocation(site + 8, 0, nops as i64, of_alignment));
            }
        }
        let mut items = vec![sathunne::Item::default(); relocations.len()];
        let (bytes, len) = (section.as_ptr(), section.len());
        let (given, count) = (relocations.as_ptr(), relocations.len());
        let mut used = 0;
        let mut makers = vec![0; relocations.len()];
        let export = format!("`linker_utils_section_items`, {name}, a relocation");
        let listed: Vec<_> = relocations
            .iter()
            .map(|it| runs::Relocation {
                offset: it.offset,
                r_type: it.r_type,
                has_symbol: it.has_symbol != 0,
                addend: it.addend,
                target: (it.has_target != 0).then_some(it.target),
                may_compress: it.may_compress != 0,
            })
            .collect();
        let made = || runs::section_items(of_crate, &Section::new(&section, []), &listed);
        let call = || {
            let (items, used, faulty) = (items.as_mut_ptr(), &mut used, &mut 0);
            let makers = makers.as_mut_ptr();
            unsafe {
                linker_utils_section_items_nonnull(
                    machine, bytes, len, 0, given, count, items, count, makers, count, used, faulty,
                )
            }
        };
        whole_beside(report, &export, count, call, || made().is_ok());
        items.truncate(used);
        rewritten_beside(report, machine, of_crate, &section, &relocations, &listed);
        assert_eq!(items.len(), COUNT + COUNT / 8);
        let run = made().expect("items").items;

        let (item, count) = (items.as_ptr(), items.len());
        whole_beside(
            report,
            &format!("`linker_utils_items_relaxable`, {name}"),
            count,
            || unsafe { linker_utils_items_relaxable_nonnull(item, count, 0, &mut 0) },
            || first_faulty(&run, 0).is_none(),
        );
        whole_beside(
            report,
            &format!("`linker_utils_has_its_instructions`, {name}, an item"),
            count,
            || {
                let test = |item| unsafe {
                    linker_utils_has_its_instructions_nonnull(machine, bytes, len, 0, item)
                };
                items.iter().fold(0, |failed, item| failed | test(item))
            },
            || {
                run.iter()
                    .all(|item| has_its_instructions(of_crate, &section, 0, &item.as_item()))
            },
        );
        let (mut shapes, mut kept) = (vec![0; count], vec![0; count]);
        let (mut places, mut freed) = (vec![0; count], vec![0; count + 1]);
        let relaxed = sathunne::Relaxed {
            shapes: &mut shapes,
            kept: &mut kept,
            places: &mut places,
            freed: &mut freed,
        };
        assert_eq!(sathunne::relax(&items, 0, relaxed), Ok(()));
        let mut deltas = vec![sathunne::Delta::default(); count];
        let mut used = 0;
        whole(
            report,
            &format!("`linker_utils_run_deltas`, {name}"),
            count,
            || {
                let (kept, deltas, used) = (kept.as_ptr(), deltas.as_mut_ptr(), &mut used);
                unsafe {
                    linker_utils_run_deltas_nonnull(item, count, kept, count, deltas, count, used)
                }
            },
        );
        deltas.truncate(used);
        let mut packed = vec![0; sathunne::packed_run_len(0, len, &deltas)];
        let mut of_erased = packed.clone();
        let lost: Vec<_> = deltas
            .iter()
            .map(|delta| erased_crate::relaxation::RelaxDelta {
                input_offset: delta.input_offset,
                cumulative_deleted: delta.cumulative_deleted,
                bytes_deleted: delta.bytes_deleted,
            })
            .collect();
        whole_beside(
            report,
            &format!("`linker_utils_pack_run`, {name}"),
            count,
            || unsafe {
                linker_utils_pack_run_nonnull(
                    machine,
                    bytes,
                    len,
                    0,
                    item,
                    count,
                    deltas.as_ptr(),
                    deltas.len(),
                    0,
                    std::ptr::NonNull::dangling().as_ptr(),
                    0,
                    packed.as_mut_ptr(),
                    packed.len(),
                    &mut 0,
                )
            },
            || {
                let run = Run { start: 0, items: &run, deltas: &lost };
                pack_run(of_crate, &mut Section::new(&section, []), &run, &mut of_erased).is_ok()
            },
        );
    }
}
