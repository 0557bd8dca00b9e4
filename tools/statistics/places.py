#!/usr/bin/env python3
# SPDX-License-Identifier: MIT OR Apache-2.0
"""Counts the places of relocations in the code of objects, archives and rlibs: how the instructions
stand that a linker may rewrite. Which relocations those are, and whether a rewrite is chosen for
the bytes at a place, it asks the library (rust/examples/choice_places.rs); which laws of rewrites
cover it, place_laws.py says. docs/CENSUS.md, "Places", says what the columns of the tables are, and
"Places that the laws cover" those of the laws.
usage: tools/statistics/places.py [--json] FILE..
       tools/statistics/places.py --count LIBRARIES.json.. -- PROGRAMS.json..    writes docs/places.json, of
                                                    what --json prints of libraries and of programs"""
import collections
import functools
import json
import struct
import subprocess
import sys
from pathlib import Path

sys.dont_write_bytecode = True
sys.path.insert(0, str(Path(__file__).resolve().parents[1]))
from shared import usage
from shared.elf_file import SHF_EXECINSTR, SHN_XINDEX, SHT_NOBITS, Malformed
import census
import instruction_names
import place_laws
import place_pairs

TOOL = "tools/statistics/places.py"
COUNTS = census.RUST.parent / "docs/places.json"
SHOWN = 3  # instructions that are named, of those that aren't an entry's

PREFIXES = {21: "R_PPC64_", 62: "R_X86_64_", 183: "R_AARCH64_", 243: "R_RISCV_", 258: "R_LARCH_"}
# relocations of x86-64 whose instruction has another count of bytes before the field than 3
BYTES_BEFORE = {"GOTPCREL": 2, "GOTPCRELX": 2, "TLSDESC_CALL": 2}
# the places of calls after a general- or local-dynamic sequence's relocation
TLS_CALLS = {"TLSGD": (6, 8), "TLSLD": (5, 6)}
CALLS = {"REL24", "REL24_NOTOC", "PLTCALL", "PLTCALL_NOTOC"}
# of those whose rewrites are for two instructions: at the first of them, and at the second
FIRST_OF_PAIR = {
    "REL24", "TLSGD", "TLSLD", "ADR_GOT_PAGE", "TLSDESC_ADR_PAGE21", "CALL", "CALL_PLT", "CALL36",
    "GOT_PC_HI20", "PCALA_HI20", "TLS_GD_PC_HI20", "TLS_LD_PC_HI20",
}
SECOND_OF_PAIR = {
    "LD64_GOT_LO12_NC", "ADD_ABS_LO12_NC", "TLSDESC_LD64_LO12", "GOT_PC_LO12", "PCALA_LO12",
}
RESOLVERS = {"__tls_get_addr", "__tls_get_addr_opt"}


class Library:
    """What the library returns for places."""

    def __init__(self):
        command, pipe = census.example("choice_places", "--", "-"), subprocess.PIPE
        self.process = subprocess.Popen(command, cwd=census.RUST, stdin=pipe, stdout=pipe)
        rows, _ = census.library()
        self.names = {key: name.removeprefix(PREFIXES[key[0]]) for key, (name, _) in rows.items()}
        command = census.example("choice_places")
        lines = subprocess.check_output(command, cwd=census.RUST, text=True).splitlines()
        chosen = {tuple(map(int, line.split())) for line in lines}
        # the names of the relocations that are looked at, by their codes
        self.read = collections.defaultdict(dict)
        for (machine, code), name in self.names.items():
            is_call = machine == 21 and name in CALLS
            if (machine, code) in chosen or is_call or place_pairs.is_part(machine, name):
                self.read[machine][code] = name

    def responses(self, machine, section, table):
        """One byte for each relocation: `y`, `n`, or `-` where no choice is made for its type."""
        header = struct.pack("<QQQ", machine, len(section), len(table))
        self.process.stdin.write(header + section + table)
        self.process.stdin.flush()
        response = self.process.stdout.read(len(table) // 24)
        if len(response) != len(table) // 24:
            sys.exit(f"{TOOL}: rust/examples/choice_places.rs stopped")
        return response


class Counts:
    """What is counted of an architecture."""

    def __init__(self, machine):
        self.machine, self.objects, self.sections = machine, 0, 0
        self.places = collections.Counter()
        self.others = collections.defaultdict(collections.Counter)
        self.highs = collections.defaultdict(collections.Counter)
        self.lows = collections.defaultdict(collections.Counter)
        self.calls = collections.Counter()
        self.laws = place_laws.counted()


class Section:
    """A section of code, its relocations that are read, and the object's symbols."""

    def __init__(self, machine, index, code, relocations, symbols):
        self.machine, self.index, self.code = machine, index, code
        self.relocations, self.symbols = relocations, symbols

    def word(self, offset):
        """The four bytes at an offset, those past the end as zeros."""
        return int.from_bytes(self.code[offset:offset + 4], "little")

    def other(self, name, offset):
        """The name of an instruction that is no entry's."""
        if self.machine == 62:
            return self.other_of_x86(name, offset)
        at = offset & ~3 if self.machine == 21 else offset
        first = at - 4 if name in SECOND_OF_PAIR else at
        if name in FIRST_OF_PAIR or name in SECOND_OF_PAIR:
            return instruction_names.pair_at(self.machine, self.code, first)
        # that of a prefixed instruction's address is one byte after the instruction
        further = f", at its byte {offset - at}" if at != offset else ""
        return instruction_names.at(self.machine, self.code, at) + further

    def other_of_x86(self, name, offset):
        if name in TLS_CALLS:
            before = self.code[max(0, offset - 4):offset].hex(" ")
            return f"{before} .. {self.code[offset + 4:offset + 8].hex(' ')}"
        count = int(name[5]) if name.startswith("CODE_") else BYTES_BEFORE.get(name, 3)
        if name == "TLSDESC_CALL":
            return self.code[offset:offset + 2].hex(" ")
        return instruction_names.before_field(self.code, offset, count)

    def count_places(self, counts):
        for offset, name, _, _, response in self.relocations:
            if response != "-":
                counts.places[name] += 1
                if response == "n":
                    counts.others[name][self.other(name, offset)] += 1

    def count_pairs(self, counts):
        """The high and the low parts, and which laws cover them."""
        pairs = place_pairs.Pairs(
            self.machine, lambda symbol: self.symbols.place(symbol, self.index))
        for offset, name, symbol, addend, _ in self.relocations:
            at = offset & ~3 if self.machine == 21 else offset
            pairs.add(name, at, symbol, addend, (self.word(at), self.word(at + 4)))
        pairs.finish(counts.highs, counts.lows)
        place_laws.count(self.machine, self.relocations, pairs.groups(), self.word, counts.laws)

    def count_calls(self, counts):
        """The calls of `__tls_get_addr`."""
        at_place = collections.defaultdict(list)
        for offset, name, symbol, _, _ in self.relocations:
            at_place[offset].append((name, symbol))
        for offset, here in at_place.items():
            names = [name for name, _ in here]
            marks = [name for name in names if name in ("TLSGD", "TLSLD")]
            calls = [name for name, symbol in here
                     if name in CALLS and self.symbols.name(symbol) in RESOLVERS]
            for call in calls or (["no call"] if marks else []):
                counts.calls[call, "+".join(marks) or "none"] += 1

    def count_calls_of_x86(self, counts, all_relocations):
        """What stands at the call's field of a general- or local-dynamic sequence, and which laws
        cover the places."""
        resolved = set()
        self.count_tls_calls_of_x86(counts, all_relocations, resolved)
        place_laws.count_of_x86(self.relocations, lambda *at: at in resolved, counts.laws)

    def count_tls_calls_of_x86(self, counts, all_relocations, resolved):
        """Adds the sequences whose call is one of `__tls_get_addr` to those that are resolved."""
        sequences = [(offset, name) for offset, name, *_ in self.relocations if name in TLS_CALLS]
        if not sequences:
            return
        at_place = {offset: (name, symbol) for offset, name, symbol in all_relocations}
        for offset, name in sequences:
            found = [(n, *at_place[offset + n]) for n in TLS_CALLS[name] if offset + n in at_place]
            if not found:
                counts.calls[name, "none", "none", "none"] += 1
            for distance, call, symbol in found[:1]:
                is_resolver = self.symbols.name(symbol) in RESOLVERS
                resolved |= {(offset, name)} if is_resolver else set()
                target = "__tls_get_addr" if is_resolver else "another"
                counts.calls[name, f"+{distance}", call, target] += 1


class Symbols:
    """The symbols of a table."""

    def __init__(self, file, table):
        self.file, self.table = file, table

    @functools.cached_property
    def listed(self):
        return self.file.symbols_of(self.table)

    def symbol(self, index):
        if index >= len(self.listed):
            raise Malformed(f"no symbol {index}")
        return self.listed[index]

    def name(self, index):
        return self.symbol(index).name

    def place(self, index, section):
        """The offset of a label in a section; None where it is elsewhere."""
        symbol = self.symbol(index)
        return symbol.value if symbol.home in (section, SHN_XINDEX) else None


def code_sections(file):
    """The sections of code of an object that have relocations: (header, the relocations' section,
    relocations, symbols)."""
    headers = file.sections
    for table, entries in census.relocation_tables(file):
        if table.info >= len(headers) or table.link >= len(headers):
            raise Malformed(f"relocations of section {table.info} with symbols of {table.link}")
        section = headers[table.info]
        if section.type != SHT_NOBITS and section.flags & SHF_EXECINSTR:
            yield section, table, entries, Symbols(file, headers[table.link])


def read_object(data, library, counts):
    """Counts the places of an object."""
    file = census.object_of(data)
    machine = file.machine
    if machine not in counts:
        counts[machine] = Counts(machine)
    found, names = counts[machine], library.read[machine]
    found.objects += 1
    for section, table, entries, symbols in code_sections(file):
        found.sections += 1
        code_bytes = file.contents(section)
        if not any(entry.type in names for entry in entries):
            continue
        responses = library.responses(machine, code_bytes, file.contents(table)).decode()
        read = [(offset, names[code], symbol, addend, response)
                for (offset, code, symbol, addend), response in zip(entries, responses)
                if code in names]
        read.sort(key=lambda entry: entry[0])
        section = Section(machine, section.index, code_bytes, read, symbols)
        section.count_places(found)
        if machine == 62:
            section.count_calls_of_x86(found, [
                (offset, library.names.get((machine, code), str(code)), symbol)
                for offset, code, symbol, _ in entries])
        else:
            section.count_pairs(found)
        if machine == 21:
            section.count_calls(found)


def as_json(counts):
    """The counts for scripts."""
    made = {}
    for machine, found in sorted(counts.items()):
        call_names = ("sequence", "at", "call", "symbol") if machine == 62 else ("call", "mark")
        made[census.MACHINES[machine]] = {
            "prefix": PREFIXES[machine],
            "objects": found.objects,
            "sections": found.sections,
            "places": {name: {"places": number, "chosen": number - found.others[name].total(),
                              "others": dict(found.others[name].most_common())}
                       for name, number in sorted(found.places.items())},
            "high parts": {name: dict(kinds) for name, kinds in sorted(found.highs.items())},
            "low parts": [{"low": low, "high": high, **kinds}
                          for (low, high), kinds in sorted(found.lows.items())],
            "calls": [{**dict(zip(call_names, key)), "places": number}
                      for key, number in sorted(found.calls.items())],
            "laws": [{"laws": laws, "relocation": name, **found.laws[laws, name]}
                     for laws, name in place_laws.rows(machine) if found.laws[laws, name]],
        }
    return made


def row(*cells):
    shown = [f"{cell:,}" if isinstance(cell, int) else cell for cell in cells]
    print("| " + " | ".join(shown) + " |")


def ticked(name):
    """A name as code, and a word or a distance as it is."""
    return f"`{name}`" if "_" in name or name.isupper() or name[-2:].isdigit() else name


def table(names, numbers, rows):
    """Prints a table, whose last columns are numbers, if it has rows."""
    if rows:
        print()
        row(*names, *numbers)
        print("|" + "---|" * len(names) + "--:|" * len(numbers))
        for cells in rows:
            row(*cells)


def show(found):
    """Prints the tables of an architecture."""
    print(f"{census.MACHINES[found.machine]}: {found.objects:,} objects, {found.sections:,} "
          "sections of code with relocations. "
          f"Names have the prefix `{PREFIXES[found.machine]}`.")

    def of_others(name):
        most = found.others[name].most_common(SHOWN)
        return ", ".join(f"`{what}` {number:,}" for what, number in most)

    rows = [(f"`{name}`", number, number - found.others[name].total(), found.others[name].total(),
             of_others(name)) for name, number in sorted(found.places.items())]
    if rows:
        print()
        row("Relocation", "Places", "A rewrite's", "Others", "Most frequent others")
        print("|---|--:|--:|--:|---|")
        for cells in rows:
            row(*cells)
    table(["High part"], ["Places", "None", "Others'", "One, next", "One, apart", "Several"],
          [(f"`{name}`", kinds["places"], *(kinds[kind] for kind in place_pairs.HIGH_KINDS))
           for name, kinds in sorted(found.highs.items())])
    table(["Low part", "High part"],
          ["Places", "Next", "Apart", "Same register", "Another register"],
          [(ticked(low), ticked(high), *(kinds[kind] for kind in place_pairs.LOW_KINDS))
           for (low, high), kinds in sorted(found.lows.items())])
    laws = [(f"`{name}`", laws, kinds.total(), kinds[place_laws.COVERED],
             *(kinds[reason] for reason in place_laws.REASONS))
            for laws, name in place_laws.rows(found.machine)
            if (kinds := found.laws[laws, name])]
    table(["Relocation", "Laws"], ["A rewrite's", "Covered", *place_laws.REASONS.values()], laws)
    if found.machine == 62:
        names = ["Sequence", "Call's field at", "Relocation there", "Its symbol"]
    else:
        names = ["Call of `__tls_get_addr`", "Mark"]
    table(names, ["Places"], [(*map(ticked, key), number)
                              for key, number in sorted(found.calls.items())])
    print()


def totals(paths):
    """The counts of several outputs: by architecture, law and relocation."""
    found = collections.defaultdict(collections.Counter)
    for path in paths:
        for name, counts in json.loads(Path(path).read_text()).items():
            for row in counts["laws"]:
                key = name, row.pop("laws"), row.pop("relocation")
                found[key].update(row)
    return found


def count(libraries, programs):
    """Writes the counts, a line for each law and relocation."""
    both = [totals(libraries), totals(programs)]
    lines = [json.dumps([*key, *(dict(sorted(found[key].items())) for found in both)])
             for key in sorted({*both[0], *both[1]})]
    COUNTS.write_text("[\n" + ",\n".join(lines) + "\n]\n")


def main(words):
    if words[0] == "--count":
        at = words.index("--")
        return count(words[1:at], words[at + 1:])
    paths = [word for word in words if word != "--json"]
    library, counts = Library(), {}
    others = census.read_objects(paths, TOOL, lambda body: read_object(body, library, counts))
    if "--json" in words:
        print(json.dumps(as_json(counts), indent=1))
        return
    for _, found in sorted(counts.items()):
        show(found)
    if others:
        print(f"not ELF: {len(others)} archive members, the first of them {others[0]}")


if __name__ == "__main__":
    main(sys.argv[1:])
