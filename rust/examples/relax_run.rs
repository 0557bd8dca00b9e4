// SPDX-License-Identifier: MIT OR Apache-2.0
//! Relaxes a run of sections as a linker does, and packs them: reads lines, prints lines.
//!
//! ```text
//! machine riscv64 c                      or riscv64, loongarch64
//! start ADDRESS                          the address of input offset 0
//! section OFFSET HEXADECIMAL             a section at its input offset
//! relocation OFFSET CODE SYMBOL ADDEND TARGET    of the section before; SYMBOL is 0 or 1,
//!                                        TARGET an input offset, or `-` where it stays as it is
//! alignment OFFSET NOPS POWER            one that no section has
//! ```
//!
//! It prints a line `site OFFSET TARGET KEPT` or `nops OFFSET KEPT` for each item, and for each
//! section `packed HEXADECIMAL`; or one line that says why not.

use std::error::Error;
use std::io::{self, BufRead};

use linker_utils::runs::{Alignment, Isa, Item, ItemNumbers, Machine, Relocation, Run};
use linker_utils::runs::{first_faulty, pack_run, packed_run_len, relax, section_items};
use linker_utils::section::Section;

#[derive(Default)]
struct Input {
    section: Section<Vec<u8>, [u8; 0]>,
    relocations: Vec<Relocation>,
    items: Vec<ItemNumbers>,
}

fn bytes_of(text: &str) -> Result<Vec<u8>, Box<dyn Error>> {
    let pairs = text.as_bytes().chunks(2);
    pairs.map(|pair| Ok(u8::from_str_radix(std::str::from_utf8(pair)?, 16)?)).collect()
}

fn main() -> Result<(), Box<dyn Error>> {
    let (mut machine, mut may_compress, mut start) = (Machine::RiscV(Isa::Rv64), false, 0);
    let (mut sections, mut others) = (Vec::<Input>::new(), Vec::new());
    for line in io::stdin().lock().lines() {
        let line = line?;
        let words: Vec<&str> = line.split(' ').collect();
        match words[..] {
            ["machine", "riscv64"] => {}
            ["machine", "riscv64", "c"] => may_compress = true,
            ["machine", "loongarch64"] => machine = Machine::LoongArch64,
            ["start", address] => start = address.parse()?,
            ["section", base, bytes] => sections.push(Input {
                section: Section { base: base.parse()?, ..Section::new(bytes_of(bytes)?, []) },
                ..Input::default()
            }),
            ["relocation", offset, r_type, symbol, addend, target] => {
                sections.last_mut().ok_or("no section")?.relocations.push(Relocation {
                    offset: offset.parse()?,
                    r_type: r_type.parse()?,
                    has_symbol: symbol == "1",
                    addend: addend.parse()?,
                    target: if target == "-" { None } else { Some(target.parse()?) },
                    may_compress,
                })
            }
            ["alignment", offset, nops, power] => others.push(Alignment {
                offset: offset.parse()?,
                nops: nops.parse()?,
                alignment: power.parse()?,
                max_skip: None,
            }),
            _ => return Err(format!("not a line: {line}").into()),
        }
    }
    for input in &mut sections {
        input.items = section_items(machine, &input.section, &input.relocations)?.items;
    }
    let mut items: Vec<_> = sections.iter().flat_map(|input| &input.items).copied().collect();
    items.extend(others.into_iter().map(|it| ItemNumbers::from_item(Item::Aligned(it))));
    items.sort_by_key(|it| it.offset);
    if let Some(faulty) = first_faulty(&items, start) {
        println!("faulty {} {:?}", items[faulty.index].offset, faulty.fault);
        return Ok(());
    }
    let plan = relax(&items, start)?;
    for (item, kept) in items.iter().zip(&plan.kept) {
        match item.as_item() {
            Item::Site(site) => println!("site {} {} {kept}", site.offset, site.target),
            Item::Aligned(alignment) => println!("nops {} {kept}", alignment.offset),
        }
    }
    let deltas = plan.deletions.deltas();
    for Input { section, items, .. } in &mut sections {
        let mut packed = vec![0; packed_run_len(section.base, section.bytes.len(), deltas)];
        let run = Run { start, items, deltas };
        if let Err(rejected) = pack_run(machine, section, &run, &mut packed) {
            let offset = items.get(rejected.index).map(|it| it.offset);
            println!("rejected {offset:?} {:?}", rejected.error);
            return Ok(());
        }
        let text: String = packed.iter().map(|byte| format!("{byte:02x}")).collect();
        println!("packed {text}");
    }
    Ok(())
}
