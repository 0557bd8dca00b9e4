# SPDX-License-Identifier: MIT OR Apache-2.0
"""The tables of docs/CENSUS.md that say how many places the laws of rewrites cover, of the counts in
docs/places.json, and that of docs/PROOFS.md of the rewrites that are in groups of the simulation.
Each relocation for which the library chooses rewrites has to have a row, and each law has to be a
field of `Laws` or `Groups` in crates/linker_laws/specs, which a contract ensures, or a definition that
one names."""
import json
import re
import subprocess
import sys
import textwrap
from pathlib import Path

ROOT = Path(__file__).resolve().parents[2]
sys.path.append(str(ROOT / "tools/statistics"))
import place_laws
import places

PROOFS, CENSUS = "docs/PROOFS.md", "docs/CENSUS.md"
MARKS = "<!-- made by tools/generate -->", "<!-- end of what tools/generate makes -->"
GROUPS_MARKS = "<!-- groups, made by tools/generate -->", "<!-- end of the groups -->"
# by machine: its name in texts, its specs, and the contract
ARCHITECTURES = {
    183: ("AArch64", ["AArch64Groups"], "aarch64"), 21: ("PowerPC64", ["Ppc64Groups"], "ppc64"),
    243: ("RISC-V", ["RiscVGroups"], "riscv64"), 258: ("LoongArch", ["LoongArchGroups"], "loongarch64"),
    62: ("x86-64", ["X86Groups"], "x86_64"),
}
# by the first law of a row: its premises on what jumps where and what reads which register
ONE_PATH = "nothing jumps between them"
# of halves that may stand apart
READ_BY_LOW = "what reads the register"
HAS_HIGH = "the source has what a high half put there"
HAS_BASE = "the base has what a high half put there"
OPEN = {
    183: {
        "GotToAddress": ONE_PATH, "nop_and_adr": ONE_PATH,
        "HighHalfToMovz": READ_BY_LOW, "LowHalfToMovk": HAS_HIGH,
        "DescriptorToLocalExec": f"{ONE_PATH}; nothing reads XT, X30 and what the function changes",
        "WeakBranches": "nothing reads X30 after a `bl`",
    },
    243: {
        "GotToAddress": f"{ONE_PATH}; nothing else reads the register of the `auipc`",
        "DescriptorToLocalExec":
            f"{ONE_PATH}; nothing else reads the registers of the `auipc` and the `ld`, and nothing "
            "t0 and what the function changes",
        "calls": "nothing else reads the register of a tail call's `auipc`",
        "no_high_parts": "what reads the register of a `lui` that is deleted",
        "CluiBecomesCli": "",
        "low_parts":
            "the base has what the `lui` put there; a store stores no register that differs",
        "high_offsets": "what reads the register",
        "sums": "the source has what the `lui` put there",
        "low_offsets":
            "the base has what the `add` put there; a store stores no register that differs",
    },
    258: {
        "GotToAddress": ONE_PATH, "address": ONE_PATH, "EntriesToPcaddi": ONE_PATH,
        "HighHalfToLu12i": READ_BY_LOW, "low_halves": HAS_HIGH, "descriptor_low_halves": HAS_HIGH,
        "descriptor_loads": "`a0` has the descriptor's address",
        "descriptor_calls":
            "`a0` and `ra` have what the others put there; nothing reads `ra` and what the function "
            "changes",
        "high_offsets": READ_BY_LOW,
        "sums": "the source has what the `lu12i.w` put there",
        "low_offsets":
            "the base has what the `add.d` put there; a store stores no register that differs",
        "Calls": "nothing else reads rd",
    },
    21: {
        "PldToPaddi": "", "RestoresToc": "r2 was stored at r1 + 24",
        "TocAtEntry": "r12 has the address of the `addis`, and the `addi` is 4 bytes after it",
        "ToNop": READ_BY_LOW, "Kept": READ_BY_LOW, "LoadToSum": HAS_BASE,
        "LowOverBase": f"{HAS_BASE}; what it loads or stores keeps agreement",
        "WordOverBase": f"{HAS_BASE}; what it loads or stores keeps agreement",
        "OffsetToHighHalf": "the base leads to the entry; what reads rT",
        "OverOffset":
            "the base has what the load put there; what it loads or stores keeps agreement",
        "ArgumentToHighHalf": "the base leads to the entry; what reads rT",
        "ArgumentToThread": "the base leads to the entry; what reads rT",
        "CallToLowHalf":
            "r3 has what an argument's instruction put there; nothing reads what the call changes",
        "CallTo":
            "r3 has what an argument's instruction put there; nothing reads what the call changes",
        "MakesVariable": "what reads rT", "ArgumentToBlock": "what reads rT",
    },
    62: {
        "loads": "", "operations": "", "thread": "",
        "GeneralDynamic": f"{ONE_PATH}; nothing reads what the call changes",
        "LocalDynamic": f"{ONE_PATH}; nothing reads what the call changes; rax is used with offsets in "
            "the block alone",
        "BlockOffsets": "what it is added to",
        "LeaOfDescriptor": READ_BY_LOW,
        "CallOfDescriptor":
            "rax has what a `lea` put there; nothing reads the flags, and memory that the function "
            "changes",
    },
}


def counted():
    """The counts, by machine, law and relocation: of libraries and of programs. They are null where
    places were last counted before there was the law."""
    machines = {name: machine for machine, name in places.census.MACHINES.items()}
    return {(machines[name], laws, relocation): (libraries, programs)
            for name, laws, relocation, libraries, programs in json.loads(places.COUNTS.read_text())}


def two(numbers):
    """The numbers of libraries and of programs, or None where they weren't counted."""
    texts = ["not counted" if number is None else f"{number:,}" for number in numbers]
    return texts[0] if not numbers[0] and numbers[0] == numbers[1] else " / ".join(texts)


def left(both):
    """What isn't covered, by reasons."""
    return "; ".join(f"{two([None if found is None else found.get(reason, 0) for found in both])} {text}"
                     for reason, text in place_laws.REASONS.items()
                     if any(reason in (found or {}) for found in both))


def rows(machine, counts):
    """The rows of an architecture. Relocations with the same numbers share one."""
    made = []
    for laws, name in place_laws.rows(machine):
        both = counts.get((machine, laws, name), ({}, {}))
        numbers = (two([None if found is None else sum(found.values()) for found in both]),
                   two([None if found is None else found.get(place_laws.COVERED, 0)
                        for found in both]), left(both))
        names = laws.split()
        cells = [", ".join(f"`{law}`" for law in names), *numbers, OPEN[machine][names[0]]]
        if made and made[-1][1:] == cells:
            made[-1][0] += f", `{name}`"
        else:
            made.append([f"`{name}`", *cells])
    return made


def tables():
    """The text between the marks."""
    counts, lines = counted(), []
    for machine, (name, *_) in ARCHITECTURES.items():
        lines += [f"### {name}", "", f"Names have the prefix `{places.PREFIXES[machine]}`.", "",
                  "| Relocations | Laws | Places | Covered | Not covered | Not seen in bytes |",
                  "|---|---|--:|--:|---|---|",
                  *("| " + " | ".join(cells) + " |" for cells in rows(machine, counts)), ""]
    return "\n".join(lines) + "\n"


def ensured(contract, files):
    """The fields of `Laws` or `Groups` of specs, each of which a contract ensures, and what they and
    the rows of `law_of` name."""
    found = set()
    for path in files:
        text = path.read_text()
        fields = re.search(r"^pub record (Laws|Groups) : Type 0 where\n((?:  .*\n)+)", text, re.M)
        alias = re.search(rf"^ghost use Rattle\.linker_laws\.specs\.{path.stem} as (\w+);", contract, re.M)
        if not fields or not alias or f" {{ {alias[1]}.{fields[1]} }}\n" not in contract:
            sys.exit(f"tools/generate: no contract ensures the laws of {path.name}")
        found.update(re.findall(r"^  pub (\w+) :", fields[2], re.M))
        named = fields[2]
        if "law_of" in named:  # the rows of a table
            named += "".join(re.findall(r"^law_of .*\n(?:    .*\n)*", text, re.M))
        found.update(name for name in re.findall(r"\w+", named)
                     if re.search(rf"^abbrev pub {name} :", text, re.M))
    return found


def check_rows():
    """Each relocation with choices has a row, and each row's laws are ensured."""
    rows_, _ = places.census.library()
    names = {key: name.removeprefix(places.PREFIXES[key[0]]) for key, (name, _) in rows_.items()}
    listed = subprocess.check_output(places.census.example("choice_places"), text=True,
                                     cwd=places.census.RUST)
    chosen = {(machine, names[machine, code])
              for machine, code in (map(int, line.split()) for line in listed.splitlines())}
    of_laws = {(machine, name) for machine in ARCHITECTURES for _, name in place_laws.rows(machine)}
    if chosen != of_laws:
        sys.exit("tools/generate: without laws or without choices: "
                 f"{sorted(chosen ^ of_laws)}")
    specs = ROOT / "crates/linker_laws"
    for machine, (name, files, function) in ARCHITECTURES.items():
        module = "simulation" if files[0].endswith("Groups") else "rewrites"
        contracts = (specs / f"src/{module}.rt").read_text()
        head, contract = contracts.split(f"pub fn {function}()", 1)
        laws = ensured(head[:head.index("///")] + contract.split("\n{", 1)[0] + "\n",
                       [specs / f"specs/{file}.antt" for file in files])
        for law in {law for laws, _ in place_laws.rows(machine) for law in laws.split()}:
            if law not in laws:
                sys.exit(f"tools/generate: {name} has no law {law}")


def groups():
    """How many rewrites the laws of groups name."""
    parts = []
    for name, (file, *_), function in ARCHITECTURES.values():
        enum = (ROOT / f"crates/linker_utils/src/{function}/rewrites.rt").read_text()
        enum = enum.partition("pub enum RewriteKind {")[2].partition("\n}")[0]
        kinds = re.findall(r"^    (\w+)[,( ]", enum, re.M)
        kinds.remove("NoOp")
        path = ROOT / f"crates/linker_laws/specs/{re.sub('RewriteLaws|Groups', '', file)}Groups.antt"
        text = path.read_text() if path.exists() else ""
        used = set(re.findall(r"\bkinds\.(\w+)", text))
        if unknown := used.difference(kinds):
            sys.exit(f"tools/generate: {path.name} names no rewrites: {sorted(unknown)}")
        left = [kind for kind in kinds if kind not in used]
        without = f" (not {', '.join(f'`{kind}`' for kind in left)})" * bool(left)
        parts.append(f"{name} {len(used)} of {len(kinds)}{without}")
    return textwrap.fill("; ".join(parts), 100) + ".\n\n"


def make():
    check_rows()
    pages = {}
    for name, marks, text in ((CENSUS, MARKS, tables()), (PROOFS, GROUPS_MARKS, groups())):
        page = (ROOT / name).read_text()
        start, end = page.index(marks[0]) + len(marks[0]), page.index(marks[1])
        pages[name] = page[:start] + "\n\n" + text + page[end:]
    return pages
