// SPDX-License-Identifier: MIT OR Apache-2.0
//! Says where in sections instructions stand that a rewrite is chosen for, whatever a linker knows
//! of the symbol and of its output. `tools/statistics/places.py` runs it.
//!
//! Without an argument it lists the relocations that any choice is made for, by `e_machine` and
//! code. With the argument `-` it reads requests and writes a response to each. A request is three
//! numbers of 64 bits (`e_machine`, the length of a section and that of its relocations), the
//! section, and the relocations as `Elf64_Rela`. A response has one byte for each relocation: `-`
//! where no choice is made for its type, `y` where a rewrite is chosen for what stands there, and `n`
//! where it isn't.

use linker_utils::aarch64::{self, AArch64Relocation};
use linker_utils::architecture::choose;
use linker_utils::choice_table::ChoiceTable;
use linker_utils::elf::{Architecture, LinkFacts, Operands};
use linker_utils::loongarch64::{self, LoongArch64Relocation};
use linker_utils::ppc64::{self, Ppc64Relocation};
use linker_utils::riscv64::{self, RiscVRelocation};
use linker_utils::section::{Rela, relocations};
use linker_utils::x86_64::{self, X86_64Relocation};
use std::collections::BTreeSet;
use std::io::{self, BufReader, BufWriter, ErrorKind, Read, Write};

/// Whether the table of choices has entries for a relocation.
fn has_choices(architecture: Architecture, r_type: u32) -> bool {
    match architecture {
        Architecture::AArch64 => {
            aarch64::RewriteKind::may_be_listed(AArch64Relocation::from_elf(r_type))
        }
        Architecture::RiscV => riscv64::RewriteKind::may_be_listed(RiscVRelocation::from_elf(r_type)),
        Architecture::LoongArch64 => {
            loongarch64::RewriteKind::may_be_listed(LoongArch64Relocation::from_elf(r_type))
        }
        Architecture::Ppc64 => ppc64::RewriteKind::may_be_listed(Ppc64Relocation::from_elf(r_type)),
        Architecture::X86_64 => x86_64::RewriteKind::may_be_listed(X86_64Relocation::from_elf(r_type)),
        _ => false,
    }
}

/// The r_types of an architecture's relocations that any choice is made for.
fn types_with_choices(architecture: Architecture) -> BTreeSet<u32> {
    // no psABI has a type above
    (0..0x1_0000)
        .filter(|r_type| architecture.name(*r_type).is_some() && has_choices(architecture, *r_type))
        .collect()
}

/// What a linker knows where every condition of a choice holds. Each distance is 0, or the few bytes
/// between two instructions, and so in reach.
fn facts(addend: i64) -> LinkFacts {
    LinkFacts {
        is_local: true,
        is_undefined_weak: true,
        has_fixed_address: true,
        is_pcrel_link_time_constant: true,
        is_executable: true,
        has_local_exec_base: true,
        may_compress: true,
        is_class32: true,
        is_relaxable: true,
        has_got_high_part: true,
        is_label_relaxable: true,
        toc_base_is_exclusive: true,
        may_change_toc: true,
        group_fits: true,
        has_addresses: true,
        operands: Operands { addend, ..Operands::default() },
        ..LinkFacts::default()
    }
}

/// Whether a rewrite is chosen for the bytes at an offset, with an addend that is asked for.
fn is_chosen(architecture: Architecture, r_type: u32, section: &[u8], offset: u64) -> bool {
    [0, -4, 4].into_iter().any(|addend| {
        let choice = choose(architecture, r_type, section, offset, &facts(addend));
        !choice.is_unchanged(r_type)
    })
}

/// The response to a request.
fn response(
    architecture: Architecture,
    r_types: &BTreeSet<u32>,
    section: &[u8],
    rela: &[u8],
) -> Vec<u8> {
    let of = |it: Rela| match r_types.contains(&it.r_type) {
        false => b'-',
        true if is_chosen(architecture, it.r_type, section, it.offset) => b'y',
        true => b'n',
    };
    relocations(rela).map(of).collect()
}

fn bytes(input: &mut impl Read, len: u64) -> io::Result<Vec<u8>> {
    let mut bytes = vec![];
    input.take(len).read_to_end(&mut bytes)?;
    if bytes.len() as u64 == len { Ok(bytes) } else { Err(ErrorKind::UnexpectedEof.into()) }
}

fn architectures() -> impl Iterator<Item = Architecture> {
    (0..=u16::MAX).filter_map(Architecture::from_machine)
}

fn serve(input: &mut impl Read, out: &mut impl Write) -> io::Result<()> {
    let tables: Vec<_> = architectures().map(|one| (one, types_with_choices(one))).collect();
    loop {
        let mut numbers = [0; 24];
        match input.read_exact(&mut numbers) {
            Err(error) if error.kind() == ErrorKind::UnexpectedEof => return Ok(()),
            read => read?,
        }
        let [machine, section, rela] =
            [0, 8, 16].map(|at| u64::from_le_bytes(numbers[at..at + 8].try_into().expect("8")));
        let table = tables.iter().find(|(one, _)| u64::from(one.machine()) == machine);
        let (architecture, r_types) = table.ok_or(ErrorKind::InvalidInput)?;
        let (section, rela) = (bytes(input, section)?, bytes(input, rela)?);
        out.write_all(&response(*architecture, r_types, &section, &rela))?;
        out.flush()?;
    }
}

fn main() -> io::Result<()> {
    let (mut input, mut out) = (BufReader::new(io::stdin()), BufWriter::new(io::stdout()));
    if std::env::args().nth(1).as_deref() == Some("-") {
        return serve(&mut input, &mut out);
    }
    for architecture in architectures() {
        for r_type in types_with_choices(architecture) {
            writeln!(out, "{} {r_type}", architecture.machine())?;
        }
    }
    out.flush()
}
