// SPDX-License-Identifier: MIT OR Apache-2.0
//! How the work of calls over lists grows. Each call is made on a list and on one 16 times as long. What
//! is O(n log n) takes about 22 times as long then, what is quadratic 256 times, and more than 64 times
//! fails. Debug builds test what calls require, which takes longer. `.ci/nightly` makes the calls on lists
//! of up to a million, which no cache holds: there up to 160 times pass, and memory that was freed has to
//! stay in the process, as the variables say that it sets.

use super::ratio::{LONG, Named, ORDERS, SHORT, expect_growth, mixed, pair};
use super::runs::{aligned, cascade, site};
use linker_utils::elf::Architecture;
use linker_utils::placement::{Branch, Code, StubShape, place_stubs};
use linker_utils::recognise::{self, FieldBits, Windows};
use linker_utils::relaxation::{
    AsDeletion, BlockHead, Call, DeltaSlice, RelaxDelta, RelaxDeltaMap, SectionRelaxDeltas,
    calls_apart, calls_shrinkable, first_invalid, first_not_apart, first_not_shrinkable,
    pack_section, shrink_calls,
};
use linker_utils::rewriting::{
    DecisionNumbers, Deletion, Phase, SymbolFacts, UnrelaxableGroups, rewrite_global_pointer,
    rewrite_placed_section, rewrite_section, survey, survey_global_pointer,
};
use linker_utils::runs::shapes::riscv64::CALL;
use linker_utils::runs::{
    Isa, ItemNumbers, Machine, Relocation, Run, are_items, deletions, first_faulty,
};
use linker_utils::runs::{first_malformed, pack_run, packed_run_len, relax, section_items};
use linker_utils::section::{
    Link, Object, Rela, RelocationError, Section, SectionError, Symbol, memory_len,
    relocate_section,
};
use std::cell::Cell;
use std::hint::black_box;

/// How many numbers from each one on aren't below it: the numbers below a count, each once.
fn not_below(numbers: &[usize]) -> Vec<u64> {
    // a Fenwick tree of those that were passed, from the last to the first
    let count = numbers.len();
    let mut tree = vec![0; count + 1];
    let mut found = vec![0; count];
    for (place, number) in numbers.iter().enumerate().rev() {
        let mut at = count - number;
        while at <= count {
            tree[at] += 1;
            at += at & at.wrapping_neg();
        }
        at = count - number;
        while at > 0 {
            found[place] += tree[at];
            at &= at - 1;
        }
    }
    found
}

fn deltas(count: usize) -> SectionRelaxDeltas {
    let pairs: Vec<_> = (0..count).map(pair).collect();
    SectionRelaxDeltas::new(&pairs).expect("memory")
}

fn none() -> SectionRelaxDeltas {
    SectionRelaxDeltas::new(&[]).expect("memory")
}

fn expect_merges(count: usize) {
    for (order, pairs) in ORDERS {
        let batches = |count: usize| -> Vec<Vec<(u64, u32)>> {
            pairs(count).chunks(count.div_ceil(100)).map(<[_]>::to_vec).collect()
        };
        // the last overlaps the one before it
        let overlapping = |count| {
            let mut pairs = pairs(count);
            let before = pairs[count - 2].0;
            pairs[count - 1] = (before + 2, 4);
            pairs
        };
        let name = |call: &str| format!("{call}, {order}");
        expect_growth(&name("merge"), count, pairs, |pairs| {
            none().merge_additional(&pairs).expect("memory");
        });
        expect_growth(
            &name("merge into as many"),
            count,
            |count| (deltas(count), pairs(count)),
            |it| {
                let (mut listed, pairs) = it;
                let between: Vec<_> = pairs.iter().map(|(offset, _)| (offset + 4, 4)).collect();
                listed.merge_additional(&between).expect("memory");
            },
        );
        expect_growth(&name("test"), count, pairs, |pairs| {
            assert!(DeltaSlice::new(&[]).can_merge_sorted(&pairs));
        });
        expect_growth(&name("rejected test"), count, overlapping, |pairs| {
            assert!(!DeltaSlice::new(&[]).can_merge_sorted(&pairs));
        });
        expect_growth(&name("first that overlaps"), count, overlapping, |pairs| {
            let found = DeltaSlice::new(&[]).first_overlapping_sorted(&pairs);
            assert_eq!(found, Some(pairs.len() - 1));
        });
        expect_growth(&name("merge of batches"), count, batches, |batches| {
            none().merge_all(&batches).expect("memory");
        });
        let of_one =
            |count| -> Vec<_> { pairs(count).into_iter().map(|pair| vec![pair]).collect() };
        expect_growth(&name("merge of batches of one"), count, of_one, |batches| {
            none().merge_all(&batches).expect("memory");
        });
    }
}

/// Merges of one deletion each, as a pass over a section makes them.
fn expect_merges_of_one(count: usize) {
    expect_growth(
        "merges of one",
        count,
        |count| count,
        |count| {
            let mut listed = none();
            for index in 0..count {
                assert!(listed.is_mergeable(&[pair(index)]));
                listed.merge_additional(&[pair(index)]).expect("memory");
            }
        },
    );
}

fn expect_deltas(count: usize) {
    let ascending = ORDERS[0].1;
    expect_growth("new", count, ascending, |pairs| {
        assert!(SectionRelaxDeltas::is_valid(&pairs));
        SectionRelaxDeltas::new(&pairs).expect("memory");
    });
    expect_growth("a copy", count, deltas, |listed| {
        listed.try_clone().expect("memory");
    });
    expect_growth("valid deltas, heads", count, deltas, |listed| {
        let slice = DeltaSlice::new(listed.deltas());
        assert!(slice.has_valid_deltas());
        let mut heads = vec![BlockHead { input_offset: 0, output_offset: 0 }; slice.block_count()];
        slice.write_heads(&mut heads);
        assert!(slice.with_heads(&heads).is_some());
    });
    let queries = |count| (deltas(count), (0..8 * count as u64).step_by(4).collect::<Vec<_>>());
    expect_growth("translations", count, queries, |(listed, queries)| {
        let mut sum = 0u64;
        for &query in &queries {
            sum ^= listed.input_to_output_offset(query) ^ listed.output_to_input_offset(query);
            sum ^= u64::from(listed.is_inside(query));
        }
        black_box(sum);
    });
    expect_growth("translations without heads", count, queries, |(listed, queries)| {
        let slice = DeltaSlice::new(listed.deltas());
        let mut sum = 0u64;
        for &query in &queries {
            sum ^= slice.input_to_output_offset(query);
            sum ^= slice.output_to_input_offset(query).unwrap_or(0);
            sum ^= slice.kept_output_offset(query, 4).unwrap_or(0);
        }
        black_box(sum);
    });
    expect_growth("a cursor", count, queries, |(listed, queries)| {
        let mut cursor = listed.cursor();
        black_box(queries.iter().fold(0, |sum, &query| sum ^ cursor.translate(query)));
    });
    expect_growth("translations in one walk", count, queries, |(listed, queries)| {
        let mut out = vec![0; queries.len()];
        assert!(DeltaSlice::can_translate_all(&queries));
        listed.as_delta_slice().translate_all(&queries, &mut out);
        let mut cursor = listed.cursor();
        assert!(cursor.can_translate_all(&queries));
        cursor.translate_all(&queries, &mut out);
    });
    expect_growth(
        "a map",
        count,
        |count| count,
        |count| {
            let mut map = RelaxDeltaMap::new();
            for index in 0..count {
                map.insert(index, none()).expect("memory");
            }
            assert!((0..count).all(|index| map.get(index).is_some()));
        },
    );
}

thread_local! {
    static READS: Cell<usize> = const { Cell::new(0) };
}

/// A deletion. It counts how often it is read.
#[derive(Clone, Copy)]
struct Counted(u64, u32);

impl AsDeletion for Counted {
    fn as_deletion(self) -> (u64, u32) {
        READS.set(READS.get() + 1);
        (self.0, self.1)
    }
}

/// How often deletions are read in a call.
fn reads(call: impl FnOnce()) -> usize {
    READS.set(0);
    call();
    READS.get()
}

/// Tests read each deletion a few times, whatever their order; so it is of `can_merge`, which doesn't
/// allocate, where they ascend or descend.
#[test]
#[cfg_attr(debug_assertions, ignore = "of release builds")]
fn each_deletion_is_read_a_few_times() {
    for count in [1_000, 10_000] {
        for (order, pairs) in ORDERS {
            let counted: Vec<_> = pairs(count).into_iter().map(|it| Counted(it.0, it.1)).collect();
            let slice = DeltaSlice::new(&[]);
            let read = reads(|| assert!(slice.can_merge_sorted(&counted)));
            assert!(read <= 6 * count, "{order}: {read}");
            if ["ascending", "descending"].contains(&order) {
                let read = reads(|| assert!(slice.can_merge(&counted)));
                assert!(read <= 6 * count, "{order}: {read}");
            }
        }
        let ascending: Vec<_> = (0..count).map(pair).map(|it| Counted(it.0, it.1)).collect();
        assert!(reads(|| assert_eq!(first_invalid(&ascending), None)) <= 2 * count);
        let listed: Vec<_> = (0..count).map(|index| (pair(index).0 + 4, 4)).collect();
        let listed = SectionRelaxDeltas::new(&listed).expect("memory");
        let slice = DeltaSlice::new(listed.deltas());
        assert!(reads(|| assert!(slice.can_merge_ascending(&ascending))) <= 5 * count);
        let zero = RelaxDelta { input_offset: 0, cumulative_deleted: 0, bytes_deleted: 0 };
        let mut merged = vec![zero; 2 * count];
        assert!(reads(|| slice.merge_ascending(&ascending, &mut merged)) <= 2 * count);
    }
}

/// Calls that reach their targets only where others are shortened, from the first to the last, from the
/// last to the first, and in no order; and all to one target.
fn chains() -> [Named<Call>; 4] {
    const REACH: u64 = 1 << 20;
    fn site_of(index: usize) -> u64 {
        2 * REACH + 8 * index as u64
    }
    /// In reach once so many calls from this one on have given up their bytes.
    fn ahead(index: usize, needed: u64) -> Call {
        Call { site: site_of(index), target: site_of(index) + REACH - 2 + 4 * needed }
    }
    [
        ("each without the next", |count| (0..count).map(|index| ahead(index, 2)).collect()),
        ("each without the one before", |count| {
            let behind = |index| Call { site: site_of(index), target: site_of(index) - REACH - 4 };
            (0..count).map(behind).collect()
        }),
        // out of reach once those behind it are of which the turn comes first
        ("in no order", |count| {
            let turns = mixed(count);
            let left = not_below(&turns);
            (0..count).map(|index| ahead(index, left[index] + 1)).collect()
        }),
        ("all to one target", |count| {
            (0..count).map(|index| Call { site: site_of(index), target: 2 * REACH }).collect()
        }),
    ]
}

fn expect_shrinking(count: usize) {
    for (name, calls) in chains() {
        let as_pairs = |count| -> Vec<_> {
            calls(count).into_iter().map(|call| (call.site, call.target)).collect()
        };
        expect_growth(&format!("calls, {name}"), count, as_pairs, |calls| {
            assert!(calls_apart(&calls));
            assert_eq!(first_not_apart(&calls), None);
            assert!(calls_shrinkable(&none(), &calls));
            assert_eq!(first_not_shrinkable(&[], &calls), None);
            let chosen = shrink_calls(&none(), &calls).expect("memory");
            // of the chains each call is dropped because another is
            assert!(name == "all to one target" || !chosen.contains(&true), "{name}");
        });
    }
}

/// Runs of calls that reach their targets only where others are shortened, in both directions, also
/// with alignments between them; of calls to one target; and of alignments inside of one another's nops.
fn runs() -> [Named<ItemNumbers>; 6] {
    fn nested(count: usize, powers: u32) -> Vec<ItemNumbers> {
        let mut items = Vec::new();
        let mut offset = 0;
        for index in 0..count / 2 {
            items.push(site(offset, 0, CALL));
            let alignment = 4 << (index as u32).trailing_zeros().min(powers);
            let nops = alignment as u32 - 2;
            items.push(aligned(offset + 8, nops, alignment, None));
            offset += 8 + u64::from(nops);
        }
        items
    }
    [
        ("each long because of the next", |count| cascade(count as u64, true, |_| None)),
        ("each long because of the one before", |count| cascade(count as u64, false, |_| None)),
        ("ahead between alignments", |count| {
            cascade(count as u64 / 2, true, |offset| Some(aligned(offset + 6, 3, 4, None)))
        }),
        ("back between alignments", |count| {
            cascade(count as u64 / 2, false, |offset| Some(aligned(offset + 6, 3, 4, None)))
        }),
        ("all to one target", |count| {
            (0..count as u64).map(|index| site(8 * index, 0, CALL)).collect()
        }),
        ("nested alignments", |count| nested(count, 10)),
    ]
}

fn expect_runs(count: usize) {
    for (name, items) in runs() {
        expect_growth(&format!("relax, {name}"), count, items, |items| {
            assert_eq!(first_faulty(&items, 0), None, "{name}");
            assert!(are_items(&items, 0));
            let plan = relax(&items, 0).expect("memory");
            deletions(&items, 0, &plan.kept).expect("memory");
        });
    }
}

/// `call f`, with its relocations, one after the other.
const RISCV_CALL: [u8; 8] = [0x97, 0, 0, 0, 0xe7, 0x80, 0, 0];
/// `pcaddu18i $ra, 0` and `jirl $ra, $ra, 0`.
const LOONGARCH_CALL: [u8; 8] = [0x01, 0, 0, 0x1e, 0x21, 0, 0, 0x4c];

fn expect_sections(count: usize) {
    let call = |r_type, mark| {
        move |index: usize| {
            let (offset, target) = (8 * index as u64, Some(0));
            let one = Relocation {
                offset,
                r_type,
                has_symbol: true,
                addend: 0,
                target,
                may_compress: true,
            };
            [one, Relocation { r_type: mark, target: None, ..one }]
        }
    };
    // R_RISCV_CALL_PLT and R_RISCV_RELAX, R_LARCH_CALL36 and R_LARCH_RELAX
    let of_riscv = |count: usize| {
        let all: Vec<_> = (0..count).flat_map(call(19, 51)).collect();
        (RISCV_CALL.repeat(count), all)
    };
    let of_loongarch = |count: usize| {
        let all: Vec<_> = (0..count).flat_map(call(110, 100)).collect();
        (LOONGARCH_CALL.repeat(count), all)
    };
    expect_growth("items of RISC-V", count, of_riscv, |(section, relocations)| {
        assert_eq!(first_malformed(Machine::RiscV(Isa::Rv64), &section, &relocations), None);
        let made =
            section_items(Machine::RiscV(Isa::Rv64), &Section::new(&section, []), &relocations);
        assert_eq!(made.expect("memory").items.len(), section.len() / 8);
    });
    expect_growth("items of LoongArch", count, of_loongarch, |(section, relocations)| {
        assert_eq!(first_malformed(Machine::LoongArch64, &section, &relocations), None);
        let made = section_items(Machine::LoongArch64, &Section::new(&section, []), &relocations);
        assert_eq!(made.expect("memory").items.len(), section.len() / 8);
    });
    let to_pack = |count: usize| {
        let (section, relocations) = of_riscv(count);
        let made =
            section_items(Machine::RiscV(Isa::Rv64), &Section::new(&section, []), &relocations);
        let items = made.expect("memory").items;
        let plan = relax(&items, 0).expect("memory");
        let deltas = deletions(&items, 0, &plan.kept).expect("memory");
        (section, items, deltas)
    };
    expect_growth("packing of a run", count, to_pack, |(section, items, deltas)| {
        let mut packed = vec![0; packed_run_len(0, section.len(), deltas.deltas())];
        let run = Run { start: 0, items: &items, deltas: deltas.deltas() };
        pack_run(Machine::RiscV(Isa::Rv64), &mut Section::new(section, []), &run, &mut packed)
            .expect("items");
    });
    let shrunk = |count: usize| {
        let calls: Vec<_> = (0..count as u64).map(|index| (8 * index, 8 * (index / 2))).collect();
        (RISCV_CALL.repeat(count), deltas(count), calls)
    };
    expect_growth("packing of a section", count, shrunk, |(section, deltas, calls)| {
        // a call of a far one fails at the first that is too far
        let near = &calls[..calls.len().min(100_000)];
        pack_section(&section, &deltas, near).expect("calls");
    });
}

/// The bytes of a section of relocations.
fn entries(relocations: impl Iterator<Item = Rela>) -> Vec<u8> {
    let entry = |it: Rela| {
        let info = u64::from(it.r_type) | u64::from(it.symbol) << 32;
        [it.offset.to_le_bytes(), info.to_le_bytes(), it.addend.to_le_bytes()].concat()
    };
    relocations.flat_map(entry).collect()
}

/// A section's relocations of symbols, and its bytes.
struct Relocated {
    relocations: Vec<u8>,
    symbols: Vec<Symbol>,
    section: Vec<u8>,
}

/// Makes so many relocations.
type MakeRelocated = fn(usize) -> Relocated;

/// RISC-V's low parts, each of a high part of its own, and all of one.
fn relocated() -> [(&'static str, MakeRelocated); 2] {
    const AT: u64 = 0x10_0000;
    fn symbol(address: u64) -> Symbol {
        Symbol { address, ..Symbol::default() }
    }
    /// R_RISCV_PCREL_HI20 of symbol 1, and R_RISCV_PCREL_LO12_I of the label of the one at an offset.
    fn high(offset: u64) -> Rela {
        Rela { offset, r_type: 23, symbol: 1, addend: 0 }
    }
    fn low(offset: u64, label: u32) -> Rela {
        Rela { offset, r_type: 24, symbol: label, addend: 0 }
    }
    /// auipc a0, 0; addi a0, a0, 0
    const AUIPC: [u8; 4] = [0x17, 0x05, 0, 0];
    const ADDI: [u8; 4] = [0x13, 0x05, 0x05, 0];
    [
        ("of pairs", |count| {
            let pairs = (0..count as u64 / 2).map(|index| 8 * index);
            let labels = pairs.clone().map(|offset| symbol(AT + offset));
            let both = |offset| [high(offset), low(offset + 4, 2 + offset as u32 / 8)];
            Relocated {
                relocations: entries(pairs.flat_map(both)),
                symbols: [symbol(0), symbol(AT)].into_iter().chain(labels).collect(),
                section: [AUIPC, ADDI].concat().repeat(count / 2),
            }
        }),
        ("of one high part", |count| {
            let lows = (1..count as u64).map(|index| low(4 * index, 2));
            Relocated {
                relocations: entries([high(0)].into_iter().chain(lows)),
                symbols: vec![symbol(0), symbol(AT), symbol(AT)],
                section: [AUIPC].into_iter().chain(vec![ADDI; count - 1]).flatten().collect(),
            }
        }),
    ]
}

fn expect_relocated(count: usize) {
    for (name, made) in relocated() {
        let name = format!("a section relocated, {name}");
        expect_growth(&name, count, made, |mut it| {
            let object = Object { values: &it.symbols, ..Object::default() };
            let section = Section::new(&mut it.section, &it.relocations);
            let mut section = Section { address: 0x10_0000, ..section };
            let mut memory = vec![0; memory_len(&it.relocations)];
            relocate_section(&Link::new(Architecture::RiscV), &object, &mut section, &mut memory)
                .expect("values");
        });
    }
}

fn executable(architecture: Architecture) -> Link {
    Link { is_executable: true, is_fixed: true, has_near_symbols: true, ..Link::new(architecture) }
}

/// Rewrites before addresses are known: all of one symbol, and each of its own.
fn expect_rewritten(count: usize) {
    // `call *f@GOTPCREL(%rip)`, with R_X86_64_GOTPCRELX
    let call = |index: usize, symbol: u32| Rela {
        offset: 6 * index as u64 + 2,
        r_type: 41,
        symbol,
        addend: -4,
    };
    // `adrp` and `ldr`, with R_AARCH64_TLSIE_ADR_GOTTPREL_PAGE21 and
    // R_AARCH64_TLSIE_LD64_GOTTPREL_LO12_NC
    let page = |index: usize, symbol: u32| {
        let (offset, r_type) = (4 * index as u64, 541 + index as u32 % 2);
        Rela { offset, r_type, symbol: symbol / 2 * 2, addend: 0 }
    };
    let pair = [0x03, 0, 0, 0x90, 0x63, 0, 0x40, 0xf9];
    type Made<'a> = (&'a str, Architecture, &'a dyn Fn(usize, u32) -> Rela, Vec<u8>);
    let all: [Made; 2] = [
        ("calls", Architecture::X86_64, &call, [0xff, 0x15, 0, 0, 0, 0].repeat(count)),
        ("loads", Architecture::AArch64, &page, pair.repeat(count / 2)),
    ];
    for (name, architecture, relocation, section) in all {
        for is_one in [true, false] {
            let made = |count: usize| {
                let symbol = |index: usize| if is_one { 0 } else { index as u32 };
                entries((0..count).map(|index| relocation(index, symbol(index))))
            };
            let name = format!("rewrites of {name}, one symbol: {is_one}");
            expect_growth(&name, count, made, |mut relocations| {
                let count = relocations.len() / 24;
                let link = executable(architecture);
                let facts = SymbolFacts { is_local: true, ..SymbolFacts::default() };
                let (facts, mut kept) =
                    (vec![facts; count], vec![UnrelaxableGroups::default(); count]);
                let object = Object { facts: &facts, ..Object::default() };
                let bytes = section[..relocation(count, 0).offset as usize & !3].to_vec();
                let mut section = Section::new(bytes, &mut relocations);
                survey(&link, &object, &section, &mut kept);
                let object = Object { unrelaxable_groups: &kept, ..object };
                let mut decisions = vec![DecisionNumbers::default(); count];
                rewrite_section(&link, &object, &mut section, &mut decisions).expect("rewrites");
                assert!(decisions.iter().all(|it| it.fate != 0), "{name}");
            });
        }
    }
}

/// RISC-V's low parts of a label, at which half of the relocations are marks before the high part, and
/// of two such labels by turns.
fn expect_labels(count: usize) {
    const AT: u64 = 0x1_0000;
    // R_RISCV_TLSDESC_HI20 and R_RISCV_TLSDESC_LOAD_LO12; R_RISCV_GOT_HI20 and
    // R_RISCV_PCREL_HI20, with R_RISCV_PCREL_LO12_I
    let parts =
        [(62, 63, Phase::TlsLocalExec), (20, 24, Phase::GotToPcRel), (23, 24, Phase::ShortPcRel)];
    for ((high, low, phase), labels) in parts.into_iter().flat_map(|it| [(it, 1), (it, 2)]) {
        let made = |count: usize| {
            let at = |offset, r_type, symbol| Rela { offset, r_type, symbol, addend: 0 };
            let label = |label: u64| {
                let marks = (0..count / 2 / labels).map(move |_| at(4 * label, 51, 0));
                marks.chain([at(4 * label, high, 3)])
            };
            let lows = (labels as u64..count as u64 / 2)
                .map(|index| at(4 * index, low, 1 + index as u32 % labels as u32));
            entries((0..labels as u64).flat_map(label).chain(lows))
        };
        let name = format!("a section with {labels} labels, in phase {phase:?}");
        expect_growth(&name, count, made, |mut relocations| {
            let len = relocations.len() / 24;
            let facts = [SymbolFacts { is_local: true, ..SymbolFacts::default() }; 4];
            let values = [0, AT, AT + 4, 16].map(|address| Symbol { address, ..Symbol::default() });
            // auipc a0, 0 and addi a0, a0, 0
            let bytes = [[0x17, 0x05, 0, 0].repeat(labels), [0x13, 5, 5, 0].repeat(len)].concat();
            let link = executable(Architecture::RiscV);
            let object = Object { facts: &facts, values: &values, ..Object::default() };
            let mut section = Section { address: AT, ..Section::new(bytes, &mut relocations) };
            let mut kept = [false; 4];
            let mut decisions = vec![DecisionNumbers::default(); len];
            let mut deleted = vec![Deletion::default(); len];
            if phase == Phase::ShortPcRel {
                survey_global_pointer(&link, &object, &section, &mut kept)
                    .expect("tables that agree");
                let object = Object { kept_high_parts: &kept, ..object };
                let (made, listed) = (&mut decisions, &mut deleted);
                let made = rewrite_global_pointer(&link, &object, &mut section, made, listed);
                assert!(made.is_ok(), "{name}: {made:?}");
            } else {
                let object =
                    Object { unrelaxable_groups: &[UnrelaxableGroups::default(); 4], ..object };
                let (made, listed) = (&mut decisions, &mut deleted);
                let made =
                    rewrite_placed_section(&link, &object, &mut section, phase, made, listed);
                assert!(made.is_ok(), "{name}: {made:?}");
            }
        });
    }
}

/// The fields of other relocations may be many.
fn expect_recognising(count: usize) {
    let others = |count: usize| -> Vec<FieldBits> {
        (0..count as u64).map(|index| FieldBits { offset: 16 + 8 * index, bits: 0xff }).collect()
    };
    // call *f@GOTPCREL(%rip), which became addr32 call f
    let (was, is) = ([0xff, 0x15, 0, 0, 0, 0], [0x67, 0xe8, 0, 0, 0, 0]);
    expect_growth("recognising", count, others, |others| {
        for _ in 0..4 {
            let windows = Windows { original: &was, offset: 2, others: &others, linked: &is };
            let found = recognise::architecture::recognise(Architecture::X86_64, 41, &windows);
            assert!(found.iter().flatten().count() > 0);
        }
    });
}

/// The bytes of relocations of x86-64, `R_X86_64_PC32` of symbol 1, at offsets.
fn relocations(offsets: &[(u64, u32)]) -> Vec<u8> {
    let words = |offset: u64| [offset, 2 | 1 << 32, 0];
    offsets.iter().flat_map(|(offset, _)| words(*offset)).flat_map(u64::to_le_bytes).collect()
}

fn expect_relocating(count: usize) {
    for (order, pairs) in ORDERS {
        let given = |relocations: Vec<u8>, count: usize| {
            let memory = vec![0; memory_len(&relocations)];
            (relocations, vec![0; 8 * count + 8], memory)
        };
        let relocate = |relocations: &[u8], bytes: &mut [u8], memory: &mut [u64]| {
            let object = Object { values: &[Symbol::default(); 2], ..Object::default() };
            let mut section = Section::new(bytes, relocations);
            relocate_section(&Link::new(Architecture::X86_64), &object, &mut section, memory)
        };
        let apart = |count| given(relocations(&pairs(count)), count);
        expect_growth(&format!("relocating, {order}"), count, apart, |it| {
            let (relocations, mut section, mut memory) = it;
            assert_eq!(relocate(&relocations, &mut section, &mut memory), Ok(()));
        });
        // the last overlaps the one before it
        let overlapping = |count| {
            let mut pairs = pairs(count);
            pairs[count - 1].0 = pairs[count - 2].0 + 2;
            given(relocations(&pairs), count)
        };
        expect_growth(&format!("rejected relocating, {order}"), count, overlapping, |it| {
            let (relocations, mut section, mut memory) = it;
            let (index, error) = (memory.len() - 1, RelocationError::Overlaps);
            let rejected = relocate(&relocations, &mut section, &mut memory);
            assert_eq!(rejected, Err(SectionError { index, error, rejected: None }));
        });
    }
}

/// Calls to a few functions from code that is 1,000 times as long as they reach: a boundary every 16 KiB
/// and a call every KiB, of which one in 100 reaches the next boundary alone; and calls that reach their
/// targets only until a stub stands between.
fn expect_placements(count: usize) {
    const REACH: u64 = 1 << 20;
    let shape = StubShape { len: 12, unit: 16, max_backward: 1 << 40, max_forward: 1 << 40 };
    let place = |(branches, targets, boundaries): (Vec<Branch>, Vec<u64>, Vec<u64>)| {
        let code = Code { branches: &branches, targets: &targets, boundaries: &boundaries, shape };
        black_box(place_stubs(&code).expect("each is placed"));
    };
    let long = |count: usize| {
        let branches = (0..count).map(|index| {
            let reach = if index % 100 == 0 { 1 << 15 } else { REACH };
            let offset = index as u64 * 1024;
            Branch { offset, target: index % 10, max_backward: reach, max_forward: reach }
        });
        let targets = (0..10).map(|index| count as u64 * 102 * index).collect();
        (branches.collect(), targets, (1..=count as u64 / 16 + 1).map(|at| at << 14).collect())
    };
    expect_growth("place_stubs over long code", count, long, place);
    // each reaches its target until the branch behind it has a stub
    let chain = |count: usize| {
        let branch = |index: usize| {
            let offset = (index as u64 + 1) << 10;
            let is_last = index == count - 1;
            let max_forward = 2049 - u64::from(is_last);
            Branch { offset, target: index, max_backward: 0, max_forward }
        };
        let branches: Vec<_> = (0..count).map(branch).collect();
        let targets = branches.iter().map(|branch| branch.offset + 2048).collect();
        (branches, targets, (1..=count as u64 + 2).map(|at| (at << 10) + 512).collect())
    };
    expect_growth("place_stubs of a chain", count, chain, place);
}

fn expect_all(count: usize) {
    expect_placements(count);
    expect_relocating(count);
    expect_merges(count);
    expect_merges_of_one(count);
    expect_deltas(count);
    // more reach into one another's bytes
    expect_shrinking(count.min(100_000));
    expect_runs(count);
    expect_sections(count);
    expect_relocated(count);
    expect_rewritten(count);
    expect_labels(count);
    expect_recognising(count);
}

#[test]
#[cfg_attr(debug_assertions, ignore = "of release builds")]
fn short_lists_take_n_log_n() {
    expect_all(SHORT);
}

#[test]
#[ignore = "it takes minutes: .ci/nightly"]
fn long_lists_take_n_log_n() {
    expect_all(LONG);
}
