# SPDX-License-Identifier: MIT OR Apache-2.0
"""The tables of the rewrites that a linker chooses, of the data in the code.

rust/examples/list_choices.rs lists the entries. The tables are docs/CHOICES.md, with copies of
rust/doc/ARCH/choose.linker.md, the end of the docs of each `choose` in the Rust crate
(rust/doc/ARCH/choose.md) and, shorter, a comment of
include/linker_utils_lists.h, between the lines MARKS. There the enums of rewrites are of the source too, with
its docs.
"""
import re
import subprocess
import sys
import textwrap
from dataclasses import dataclass, replace
from itertools import groupby
from os.path import commonprefix
from pathlib import Path

ROOT = Path(__file__).resolve().parents[2]
COMMAND = "cargo run --offline --quiet --example list_choices"
HEADER = "include/linker_utils_lists.h"
MARKS = "/* ---- The tables of choices, made by tools/generate.", " * End of the tables of choices. */"
# The module of an architecture, and its name in texts.
NAMES = {"AArch64": ("aarch64", "AArch64"), "RiscV": ("riscv64", "RISC-V"),
         "LoongArch64": ("loongarch64", "LoongArch"), "Ppc64": ("ppc64", "PowerPC64"),
         "X86_64": ("x86_64", "x86-64")}
COLUMNS = {"Relocation": "relocation", "Opcode": "opcodes", "Instructions": "instructions", "Rewrite": "rewrite",
           "Relocation after it": "after", "Conditions": "conditions", "Written": "written",
           "Deleted": "deleted", "Other relocations": "others"}
ORDER = """\
The first entry of a relocation is chosen whose instructions are at its offset and whose conditions
hold, and else `NoOp` and the same relocation, as for any relocation that isn't listed."""
WORDS = """\
Conditions are on `LinkFacts`, and on values by these words:

- *R in reach*: the value of the relocation R, after the rewrite, is known and can be written.
- *R in a..b*: that value is known, and is from a up, below b.
- *R at -4*: that value of a place 4 bytes before.
- *if known*: it holds too where no address is known (`has_addresses`). In calls
  for sections a distance is then fixed only by `has_near_symbols` of the output.
- *S + A in 12 bits*: the sum is known, and is a number of 12 bits in two's complement."""
CELLS = """\
Where no instructions are named, they are those that the rewrite is meant for
(`RewriteKind::matches`). Bytes are counted from the relocation's offset: those that the rewrite
writes, and those that are deleted after it."""
OPCODES = """ The opcode is the byte two before the offset, and
n the count of the instruction's bytes before the field. `GOTPCREL` has no opcode where the byte
six before is 0x62: an EVEX prefix may begin there."""


@dataclass(frozen=True)
class Row:
    """Cells of a row; `conditions` has several ones, or alternatives of them."""
    relocation: str
    opcodes: str
    instructions: str
    rewrite: str
    number: str
    n: int
    after: str
    written: str
    deleted: str
    others: str
    conditions: tuple


def said_of(alternatives):
    """What has to hold in one of several alternatives."""
    common = [it for it in alternatives[0] if all(it in other for other in alternatives)]
    further = [" and ".join(it for it in one if it not in common) for one in alternatives]
    if not all(further):
        return ", ".join(common)
    return ", ".join([*common, "and either " + ", or ".join(further)])


def merged(rows):
    """Rows that follow each other and differ in the conditions alone become one."""
    for _, same in groupby(rows, lambda row: replace(row, conditions=())):
        same = list(same)
        yield replace(same[0], conditions=said_of([row.conditions for row in same]))


def general(row, n):
    """A row without what may differ between relocations with the same entries: the relocation, the
    bytes that are written, and the count n of the bytes before the field, which the relocation has."""
    row = replace(row, relocation="", written="", after="the same" if row.after == row.relocation else row.after)
    if not n:
        return row
    return replace(row, n="n" if row.n == n else row.n, rewrite=row.rewrite.replace(f"({n})", "(n)"),
                   instructions=re.sub(rf"\b{n} bytes", "n bytes", row.instructions))


def by_n(tables, at):
    """The bytes that the rewrite in a row of several tables writes."""
    found = {}
    for _, n, rows in tables:
        found.setdefault(rows[at].written, []).append(str(n))
    if len(found) == 1:
        return tables[0][2][at].written
    return ", ".join(f"{written} (n = {', '.join(of)})" for written, of in found.items())


class Architecture:
    """Its rows, and the relocations that their conditions name. `tables` has, of the entries of each
    relocation, the relocations with these, each with its count n and its own rows."""

    def __init__(self, name):
        self.module, self.name = NAMES[name]
        self.header = name.lower()
        self.entries, self.values = [], []

    def end(self):
        """Once all entries are read."""
        self.prefix = commonprefix([row.relocation for row in self.entries])
        self.prefix = self.prefix[:self.prefix.rindex("_") + 1]
        self.tables = {}
        for name, rows in groupby(self.entries, lambda row: row.relocation):
            rows = list(rows)
            n = max(row.n for row in rows)
            self.tables.setdefault(tuple(general(row, n) for row in rows), []).append((name, n, rows))

    def short(self, text):
        return text.replace(self.prefix, "")

    def groups(self):
        """Relocations with the same entries, and these."""
        for of_all, tables in self.tables.items():
            (_, _, rows), *more = tables
            if more:
                rows = [replace(row, written=by_n(tables, at)) for at, row in enumerate(of_all)]
            names = [f"`{name}`" + f" (n = {n})" * bool(more and n) for name, n, _ in tables]
            yield self.short(", ".join(names)), list(merged(replace(row, relocation="") for row in rows))


def read():
    """What is known of each architecture."""
    listed = []
    lines = subprocess.run(COMMAND.split(), cwd=ROOT / "rust", check=True, stdout=subprocess.PIPE, text=True).stdout
    for word, *words in (line.split("\t") for line in lines.splitlines()):
        match word:
            case "architecture":
                listed.append(Architecture(*words))
            case "entry":
                row = Row(*words[:10], tuple(words[10:]))
                listed[-1].entries.append(replace(row, n=int(row.n)))
            case "value":
                listed[-1].values.append(words)
            case _:
                sys.exit(f"{COMMAND} printed a line that is not known here: {word}")
    for it in listed:
        it.end()
    return listed


# ---- Markdown


def table(heads, rows):
    """Columns that are empty throughout are left out."""
    kept = [at for at, _ in enumerate(heads) if any(row[at] for row in rows)]
    for row in [heads, ["---"] * len(heads), *rows]:
        yield "| " + " | ".join(row[at] for at in kept) + " |"


def quoted(word):
    return f"`{word}`" if word and word != "the same" else word


def cells(architecture, relocation, row, link):
    made = {name: getattr(row, field) for name, field in COLUMNS.items() if field != "conditions"}
    made |= {"Relocation": relocation, "Opcode": row.opcodes, "Conditions": architecture.short(row.conditions),
             "Rewrite": link.format(row.rewrite, row.rewrite.partition("(")[0]),
             "Relocation after it": quoted(architecture.short(row.after)),
             "Other relocations": architecture.short(row.others)}
    made |= {name: quoted(made[name]) for name in ("Opcode", "Deleted")}
    made["Written"] = re.sub(r"-?\d+\.\.-?\d+", r"`\g<0>`", row.written)
    return [made[name] for name in COLUMNS]


def markdown(architecture, link):
    """The tables of an architecture."""
    rows = [cells(architecture, relocation if not at else "", row, link)
            for relocation, rows in architecture.groups() for at, row in enumerate(rows)]
    has_opcodes = any(row.opcodes for row in architecture.entries)
    yield f"Names have the prefix `{architecture.prefix}`." + OPCODES * has_opcodes
    yield ""
    yield from table(list(COLUMNS), rows)
    if architecture.values:
        yield ""
        yield "Of the values in conditions the formula (`RelocationKind`), the numbers that can be written, and"
        yield "what these are multiples of:"
        yield ""
        yield from table(["Relocation", "Formula", "In reach", "Multiple of"], [
            [quoted(architecture.short(name)), formula, quoted(reach) or "any", "" if multiple == "1" else multiple]
            for name, formula, reach, multiple in architecture.values])


def page(listed):
    """docs/CHOICES.md."""
    yield "# Which rewrite a linker chooses"
    yield ""
    yield "Made by `tools/generate` of the tables in `choices` of each architecture's crate, by which"
    yield "`choose` chooses, and of what is written by hand in `rust/doc`: what a linker ensures where it takes"
    yield "an entry. In C `NoOp` is `NO_OP`, `fits` is `linker_utils_relocation_fits`, and so on."
    for text in (ORDER, CELLS, WORDS):
        yield from ("", text)
    for architecture in listed:
        yield from ("", f"## {architecture.name}", "")
        yield from markdown(architecture, "`{}`")
        ensured = (ROOT / f"rust/doc/{architecture.module}/choose.linker.md").read_text()
        yield ensured.rstrip("\n").replace("\n# ", "\n### ")


def end_of_docs(architecture):
    """The end of the docs of `choose`."""
    yield ""
    yield "# Table of choices"
    for text in (ORDER, CELLS, WORDS):
        yield from ("", text)
    yield ""
    yield from markdown(architecture, "[`{}`](RewriteKind::{})")


# ---- The header


def lines(text, first, then):
    """A comment's lines within 100 columns."""
    wrapped = textwrap.wrap(text.replace("`", "").replace(" = ", "\0=\0"), 100, initial_indent=first,
                            subsequent_indent=then, break_long_words=False, break_on_hyphens=False)
    return [line.replace("\0", " ") for line in wrapped]


def comment(listed, header):
    """The comment between the lines MARKS, and these."""
    yield MARKS[0]
    words = f"{ORDER}\n{WORDS}".replace("NoOp", "NO_OP").replace("LinkFacts", "struct linker_utils_link_facts")
    for text in re.sub(r"(?<!\n)\n *(?![\n -])", " ", words.replace("*", "").replace("\n\n", "\n")).split("\n"):
        yield from lines(text, " * ", " *   " if text[0] == "-" else " * ")
    yield " * docs/CHOICES.md also names the instructions."
    yield " *"
    for architecture in listed:
        enum = re.search(rf"(?s)\nenum linker_utils_{architecture.header}_rewrite \{{.*?\n\}};", header)[0]
        names = {number: name for name, number in re.findall(r"(\w+) = (\d+)", enum)}
        prefix = commonprefix(list(names.values()))
        yield from lines(f"{architecture.name}, with the prefixes {architecture.prefix} and {prefix}:", " * ", " * ")
        numbers, listing = {}, []
        for relocation, rows in architecture.groups():
            for row in rows:
                number = numbers.setdefault(row.conditions, f"({len(numbers) + 1})")
                listing.append([relocation.replace("`", ""), names[row.number].removeprefix(prefix),
                                architecture.short(row.after), number])
                relocation = ""
        # a longer list of relocations has a line of its own
        widths = [max(len(row[at]) for row in listing if len(row[at]) < 30) for at in range(3)]
        for row in listing:
            if len(row[0]) > widths[0]:
                yield from lines(row[0], " *   ", " *     ")
                row[0] = ""
            yield " *   " + "  ".join(f"{cell:{width}}" for cell, width in zip(row, [*widths, 0]))
        for said, number in numbers.items():
            yield from lines(f"{number} {architecture.short(said)}", " *   ", " *       ")
        yield " *"
    yield MARKS[1]


def snake(name):
    """A name of the source as the header has it."""
    return re.sub(r"(?<!^)(?=[A-Z])", "_", name).upper()


def enumerators(architecture):
    """The rewrites of an architecture as the header's enum has them, in the order of the source."""
    source = (ROOT / f"rust/src/{architecture.module}/rewrites.rs").read_text()
    variants = re.search(r"(?s)\npub enum RewriteKind \{\n(.*?)\n\}", source)[1]
    found = re.findall(r"((?:    ///.*\n)+)(?:    #.*\n)?    (\w+)(\(u8\))?,", variants + "\n")
    for number, (docs, name, with_n) in enumerate(found):
        said = " ".join(re.findall(r"/// (.*)", docs))
        said = re.sub(r"\[`(\w+)Instruction::(\w+)`\]\([\w:]+\)", lambda form: f"LINKER_UTILS_{form[1].upper()}_FORM_{snake(form[2])}", said)
        said = f"opcode_len: {said[0].lower()}{said[1:]}" if with_n else said
        line = f"    LINKER_UTILS_{architecture.header.upper()}_REWRITE_{snake(name)} = {number},"
        line = line.removesuffix(",") if number + 1 == len(found) else line
        if len(f"{line} /* {said} */") <= 100:
            yield f"{line} /* {said} */"
            continue
        said = textwrap.wrap(f"/* {said}\0*/", 96, subsequent_indent=" * ", break_long_words=False)
        yield from (f"    {it}".replace("\0", " ") for it in said)
        yield line


def with_enums(listed, text):
    """The header with the enums of rewrites of the source."""
    for architecture in listed:
        enum = f"enum linker_utils_{architecture.header}_rewrite {{\n"
        before, _, rest = text.partition(enum)
        _, _, after = rest.partition("\n};")
        if not after:
            sys.exit(f"{HEADER} lacks {enum}")
        text = before + enum + "\n".join(enumerators(architecture)) + "\n};" + after
    return text


def with_comment(listed):
    text = with_enums(listed, (ROOT / HEADER).read_text())
    before, _, rest = text.partition(MARKS[0] + "\n")
    _, _, after = rest.partition(MARKS[1] + "\n")
    if not after:
        sys.exit(f"{HEADER} lacks the lines MARKS of {__file__}")
    return before + "\n".join(comment(listed, text)) + "\n" + after


def make():
    listed = read()
    made = {"docs/CHOICES.md": "\n".join(page(listed)) + "\n", HEADER: with_comment(listed)}
    for architecture in listed:
        made[f"rust/doc/{architecture.module}/choose.md"] = "\n".join(end_of_docs(architecture)) + "\n"
    return made
