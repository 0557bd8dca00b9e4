// SPDX-License-Identifier: MIT OR Apache-2.0
//! Assembles a few instructions of five architectures: labels, branches, addresses and data. The
//! library does what follows from relocations: `Architecture::row` has what one means, `value` computes
//! its value, `reaches` says whether that can be written, and `write` puts it into the instruction.
//!
//! usage: assemble MACHINE ADDRESS < SOURCE    MACHINE: `e_machine`, as 183 for AArch64; the bytes are
//! printed in hexadecimal, each instruction in a line of its own. Its status is 0, or 1 after an error.

mod instructions;

use std::collections::HashMap;
use std::io::Read;

use instructions::{Form, instructions};
use linker_utils::elf::{Architecture, Operands, Row, WriteError};

/// An instruction, data, or so many bytes of 0.
struct Statement<'a> {
    line: usize,
    /// How it can be written, the shortest form first, and which of them it has.
    forms: &'static [Form],
    form: usize,
    register: u32,
    /// Its label, and the index of the statement behind that.
    label: &'a str,
    target: usize,
    space: u64,
    address: u64,
}

impl Statement<'_> {
    fn form(&self) -> Option<&'static Form> {
        self.forms.get(self.form)
    }

    fn len(&self) -> u64 {
        self.space + self.form().map_or(0, |form| form.bytes.len() as u64)
    }
}

/// The register and the label of a line that is written as a pattern.
fn matched<'a>(line: &'a str, pattern: &str) -> Option<(u32, &'a str)> {
    let (mut rest, mut register, mut label) = (line, None, "");
    for part in pattern.split_inclusive(['N', 'L']) {
        let fixed = part.trim_end_matches(['N', 'L']);
        rest = rest.strip_prefix(fixed)?;
        let is_of_word = |letter: char| letter.is_ascii_alphanumeric() || letter == '_';
        let is_digit = |letter: char| letter.is_ascii_digit();
        let end = match &part[fixed.len()..] {
            "N" => rest.find(|letter| !is_digit(letter)),
            "L" => rest.find(|letter| !is_of_word(letter)),
            _ => continue,
        };
        let (word, behind) = rest.split_at(end.unwrap_or(rest.len()));
        rest = behind;
        if part.ends_with('L') {
            label = (!word.is_empty()).then_some(word)?;
        } else if *register.get_or_insert(word.parse().ok()?) != word.parse().ok()? {
            return None;
        }
    }
    rest.is_empty().then_some((register.unwrap_or(0), label))
}

/// The statements of a source.
fn parse(architecture: Architecture, source: &str) -> Result<Vec<Statement<'_>>, String> {
    let (mut statements, mut labels) = (Vec::new(), HashMap::new());
    for (line, text) in (1..).zip(source.lines().map(str::trim)) {
        let mut statement = Statement {
            line, forms: &[], form: 0, register: 0, label: "", target: 0, space: 0, address: 0,
        };
        if let Some(label) = text.strip_suffix(':') {
            if labels.insert(label, statements.len()).is_some() {
                return Err(format!("line {line}: {label} is there twice"));
            }
            continue;
        } else if text.is_empty() {
            continue;
        } else if let Some(len) = text.strip_prefix(".space ") {
            statement.space = len.parse().map_err(|_| format!("line {line}: no number: {len}"))?;
        } else {
            (statement.forms, (statement.register, statement.label)) = instructions(architecture)
                .iter()
                .find_map(|&(pattern, forms)| Some((forms, matched(text, pattern)?)))
                .ok_or_else(|| format!("line {line}: no instruction: {text}"))?;
        }
        statements.push(statement);
    }
    for statement in statements.iter_mut().filter(|statement| !statement.label.is_empty()) {
        let Some(&target) = labels.get(statement.label) else {
            return Err(format!("line {}: no label {}", statement.line, statement.label));
        };
        statement.target = target;
    }
    Ok(statements)
}

/// Gives each statement its address, and returns the one behind the last. A `nop` comes before an
/// instruction that would lie in two units.
fn lay_out(statements: &mut [Statement], address: u64) -> u64 {
    let mut next = address;
    for statement in statements {
        let unit = statement.form().map_or(0, |form| form.unit);
        if unit != 0 && next / unit != (next + statement.len() - 1) / unit {
            next += 4;
        }
        statement.address = next;
        next += statement.len();
    }
    next
}

/// The relocations of a statement: the byte, what it means, and the operands of its value.
fn relocations<'a>(
    architecture: Architecture,
    statements: &'a [Statement],
    end: u64,
    statement: &'a Statement,
) -> impl Iterator<Item = (usize, Row, Operands)> + 'a {
    let symbol = statements.get(statement.target).map_or(end, |target| target.address);
    let relocations = statement.form().map_or(&[][..], |form| form.relocations);
    relocations.iter().map(move |&(at, r_type, addend, from)| {
        let row = architecture.row(r_type).expect("a r_type of the tables");
        (at, row, Operands::new(symbol, addend, statement.address + from as u64))
    })
}

/// The bytes of each statement.
fn assemble(machine: Architecture, source: &str, address: u64) -> Result<Vec<Vec<u8>>, String> {
    let mut statements = parse(machine, source)?;
    // a branch that becomes long can put others out of reach, and none back in reach
    let end = loop {
        let end = lay_out(&mut statements, address);
        let is_short = |statement: &Statement| {
            statement.form + 1 < statement.forms.len()
                && !relocations(machine, &statements, end, statement)
                    .all(|(_, row, operands)| row.reaches(&operands))
        };
        let grown: Vec<bool> = statements.iter().map(is_short).collect();
        if !grown.contains(&true) {
            break end;
        }
        for (statement, has_grown) in statements.iter_mut().zip(grown) {
            statement.form += usize::from(has_grown);
        }
    };

    let mut code = Vec::new();
    let mut next = address;
    for statement in &statements {
        if next < statement.address {
            code.push(instructions(machine)[0].1[0].bytes.to_vec()); // the `nop`
        }
        next = statement.address + statement.len();
        let mut bytes = vec![0; statement.space as usize];
        if let Some(form) = statement.form() {
            bytes.extend_from_slice(form.bytes);
            for &(at, shift) in form.registers {
                let number = (u64::from(statement.register) << shift).to_le_bytes();
                bytes[at..].iter_mut().zip(number).for_each(|(byte, of)| *byte ^= of);
            }
        }
        for (at, row, operands) in relocations(machine, &statements, end, statement) {
            let value = row.value(&operands).expect("a relocation with a value");
            row.write(value, &mut bytes[at..]).map_err(|error| {
                let error = WriteError::new(&row, value, error);
                format!("line {}: {}: {error}", statement.line, statement.label)
            })?;
        }
        code.push(bytes);
    }
    Ok(code)
}

const HELP: &str = "\
usage: assemble MACHINE ADDRESS < SOURCE
       assemble --help | --version
status: 0, 1 after an error, or 2 after wrong arguments";

/// A status, and what is printed on standard error with it.
type Failure = (u8, String);

fn run() -> Result<(), Failure> {
    let usage = || (2, HELP.to_string());
    let arguments: Vec<String> = std::env::args().skip(1).collect();
    let said = match arguments.first().map(|first| &first[..]) {
        Some("--help") => Some(HELP),
        Some("--version") => Some(concat!("assemble ", env!("CARGO_PKG_VERSION"))),
        _ => None,
    };
    if let Some(said) = said {
        println!("{said}");
        return Ok(());
    }
    let [machine, address] = &arguments[..] else { return Err(usage()) };
    let machine = machine.parse().ok().and_then(Architecture::from_machine).ok_or_else(usage)?;
    let address = address.trim_start_matches("0x");
    let address = u64::from_str_radix(address, 16).map_err(|_| usage())?;
    let mut source = String::new();
    std::io::stdin().read_to_string(&mut source).map_err(|error| (1, error.to_string()))?;
    for bytes in assemble(machine, &source, address).map_err(|error| (1, error))? {
        println!("{}", bytes.iter().map(|byte| format!("{byte:02x}")).collect::<String>());
    }
    Ok(())
}

fn main() -> std::process::ExitCode {
    match run() {
        Ok(()) => 0.into(),
        Err((status, error)) => {
            eprintln!("{error}");
            status.into()
        }
    }
}
