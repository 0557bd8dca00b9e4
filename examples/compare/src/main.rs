// SPDX-License-Identifier: MIT OR Apache-2.0
//! `compare-links OBJECT.. A B`: see `HELP`.

mod summary;

use compare::{Line, compare, elf, report};
use console::{Style, Term};
use indicatif::{ProgressBar, ProgressDrawTarget, ProgressStyle};
use std::cell::{Cell, OnceCell};
use std::ffi::OsString;
use std::io::{self, BufWriter, Write};
use std::mem::ManuallyDrop;
use std::panic::resume_unwind;
use std::process::ExitCode;
use std::thread::ScopedJoinHandle;
use std::time::{Duration, Instant};
use summary::Functions;

const HELP: &str = "\
compare-links [--all | --summary] [--json] OBJECT.. A B

Says of each relocation of the objects what two linkers made of it. A and B are linked files, with
symbol tables, made of the same objects; an OBJECT is a relocatable object or an archive of them.
ELF files of 64 bits of AArch64, LoongArch, PowerPC64, RISC-V and x86-64, little-endian, are read.

A line has the relocation's place, by the symbol before it in the object; its name; the symbol and
addend; and what A and B have there:

  main.o: main+0x14  R_X86_64_REX_GOTPCRELX puts-0x4
      A: MovIndirectToLea (direct)
      B: as it was (through the GOT)

A choice is the name of a rewrite, or `as RELOCATION` where only the relocation is another, or `as it
was`. `(through the GOT)` says that the field has the address of a GOT entry. `to SYMBOL` follows where
the field doesn't lead to the relocation's symbol and addend. Symbols are compared by their names, so
that files with different layouts can be the same. Sums of relocations (ADD, SUB, ULEB128) are not
read, nor what relocations that only mark or pad stand for. Control characters in names are written
as escapes. Those that differ are listed by function, the one with the most first, and then a summary
that fits a screen: which functions differ most, and what A and B have there.

  --all       all relocations in the objects' order, also those that are the same
  --summary   the summary alone
  --json      an object a line for each, with its addresses in A and B, and a last one with the counts
  -h, --help  this text
  --version   the version

It shows its progress on a terminal where it takes more than a second.

Exit status: 0 the files are the same, 1 they differ, 2 an error.
";

const VERSION: &str = concat!("compare-links ", env!("CARGO_PKG_VERSION"), "\n");

enum Failure {
    Said(String),
    Write(io::Error),
}

impl From<io::Error> for Failure {
    fn from(error: io::Error) -> Failure {
        Failure::Write(error)
    }
}

impl From<lexopt::Error> for Failure {
    fn from(error: lexopt::Error) -> Failure {
        Failure::Said(format!("{error}; see compare-links --help"))
    }
}

struct Arguments {
    is_all: bool,
    is_summary: bool,
    is_json: bool,
    files: Vec<OsString>,
}

/// The arguments, or the text that they ask for.
fn arguments() -> Result<Result<Arguments, &'static str>, lexopt::Error> {
    use lexopt::Arg::{Long, Short, Value};
    let mut parser = lexopt::Parser::from_env();
    let mut it = Arguments { is_all: false, is_summary: false, is_json: false, files: Vec::new() };
    while let Some(argument) = parser.next()? {
        match argument {
            Long("all") => it.is_all = true,
            Long("summary") => it.is_summary = true,
            Long("json") => it.is_json = true,
            Short('h') | Long("help") => return Ok(Err(HELP)),
            Long("version") => return Ok(Err(VERSION)),
            Value(file) => it.files.push(file),
            other => return Err(other.unexpected()),
        }
    }
    if it.is_summary && (it.is_all || it.is_json) {
        return Err("--summary is given alone".into());
    }
    if it.files.len() < 3 {
        return Err("at least one object and two linked files are needed".into());
    }
    Ok(Ok(it))
}

/// A progress bar on a terminal, from a second on.
struct Progress {
    since: Instant,
    shown: Cell<u64>,
    bar: OnceCell<ProgressBar>,
}

impl Progress {
    fn step(&self, done: u64, total: u64) {
        if self.since.elapsed() < Duration::from_secs(1) || !Term::stderr().is_term() {
            return;
        }
        let bar = self.bar.get_or_init(|| {
            let bar = ProgressBar::with_draw_target(Some(total), ProgressDrawTarget::stderr());
            let style = ProgressStyle::with_template("{wide_bar} {percent}%");
            bar.with_style(style.unwrap_or_else(|_| ProgressStyle::default_bar()))
        });
        self.shown.set(done);
        bar.set_position(done);
    }
}

fn run() -> Result<ExitCode, Failure> {
    let mut out = BufWriter::new(io::stdout().lock());
    let arguments = match arguments()? {
        Ok(arguments) => arguments,
        Err(text) => {
            out.write_all(text.as_bytes())?;
            out.flush()?;
            return Ok(ExitCode::SUCCESS);
        }
    };
    let mut files = Vec::new();
    for path in &arguments.files {
        let name = path.to_string_lossy().into_owned();
        let bytes = std::fs::read(path).map_err(|error| Failure::Said(format!("{name}: {error}")))?;
        files.push((name, bytes));
    }
    let (inputs, linked) = files.split_at(files.len() - 2);
    let because = |name: &str, reason| Failure::Said(format!("{name}: {reason}"));
    let (objects, both) = std::thread::scope(|scope| {
        let both: Vec<_> =
            linked.iter().map(|(_, bytes)| scope.spawn(|| elf::read_linked(bytes))).collect();
        let objects: Vec<_> =
            inputs.iter().map(|(name, bytes)| elf::read_objects(name, bytes)).collect();
        let join = |one: ScopedJoinHandle<'_, _>| one.join().unwrap_or_else(|it| resume_unwind(it));
        (objects, both.into_iter().map(join).collect::<Vec<_>>())
    });
    let objects = inputs.iter().zip(objects);
    let objects = objects.map(|((name, _), all)| all.map_err(|reason| because(name, reason)));
    let objects: Vec<_> = objects.collect::<Result<Vec<_>, _>>()?.into_iter().flatten().collect();
    // what is known of the files is large, and stays until the program ends
    let objects = ManuallyDrop::new(objects);
    let both = linked.iter().zip(both);
    let both = both.map(|((name, _), file)| file.map_err(|reason| because(name, reason)));
    let both = ManuallyDrop::new(both.collect::<Result<Vec<_>, _>>()?);
    for (name, architecture) in (objects.iter().map(|one| (&one.path, one.architecture)))
        .chain(linked.iter().map(|(name, _)| name).zip(both.iter().map(|one| one.architecture)))
    {
        if architecture != both[0].architecture {
            let first = &linked[0].0;
            return Err(Failure::Said(format!("{name}: of another machine than {first}")));
        }
    }
    // `console` says no colours where the output is no terminal, or NO_COLOR is set
    let (place, choice) = (Style::new().bold(), Style::new().cyan());
    let progress =
        Progress { since: Instant::now(), shown: Cell::new(0), bar: OnceCell::new() };
    let (mut written, mut functions) = (Ok(()), ManuallyDrop::new(Functions::default()));
    let write = |line: &Line, out: &mut BufWriter<_>| -> io::Result<()> {
        if arguments.is_json {
            return writeln!(out, "{}", report::line_as_json(line));
        }
        writeln!(out, "{}", place.apply_to(report::head(line)))?;
        let [a, b] = &line.made;
        if line.is_same() {
            return writeln!(out, "    both: {}", report::words(line, a));
        }
        writeln!(out, "    A: {}", choice.apply_to(report::words(line, a)))?;
        writeln!(out, "    B: {}", choice.apply_to(report::words(line, b)))
    };
    let step = |done, total| progress.step(done, total);
    let counts = compare(&objects, [&both[0], &both[1]], &step, |one| {
        let is_written = arguments.is_all || arguments.is_json && !one.is_same();
        if !arguments.is_json {
            functions.add(&one);
        }
        // JSON and all relocations are written as they come
        if is_written && written.is_ok() {
            written = write(&one.line(), &mut out);
        }
    });
    if let Some(bar) = progress.bar.get() {
        bar.finish_and_clear();
    }
    let counts = counts.map_err(|(which, reason)| {
        Failure::Said(format!("{}: {reason}", linked[which].0))
    })?;
    written?;
    if arguments.is_json {
        writeln!(out, "{}", report::counts_as_json(&counts))?;
    } else {
        functions.worst_first();
        if !arguments.is_all && !arguments.is_summary {
            for (head, lines) in functions.differences() {
                writeln!(out, "{}", place.apply_to(head))?;
                lines.iter().try_for_each(|line| write(line, &mut out))?;
            }
        }
        for line in summary::counts(&counts).iter().chain(&functions.summary()) {
            writeln!(out, "{line}")?;
        }
    }
    out.flush()?;
    Ok(if counts.different > 0 { ExitCode::from(1) } else { ExitCode::SUCCESS })
}

fn main() -> ExitCode {
    match run() {
        Ok(code) => code,
        Err(Failure::Said(reason)) => {
            eprintln!("compare-links: {reason}");
            ExitCode::from(2)
        }
        Err(Failure::Write(error)) => {
            eprintln!("compare-links: can't write: {error}");
            ExitCode::from(2)
        }
    }
}
