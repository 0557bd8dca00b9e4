#!/usr/bin/env python3
# SPDX-License-Identifier: MIT OR Apache-2.0
"""Which relocations of code ld.lld's relaxation changes, without what `compare` has of it: ld.lld's
maps say where each section is, and llvm-objdump-19 which instructions are there. A relocation is
changed if its instruction has another mnemonic, or on PowerPC64 another base register, and the high
part of an address if its low half is.

usage: tests/changed.py NAME ARCHITECTURE PLAIN RELAXED OBJECT..
Beside PLAIN and RELAXED are their maps. NAME begins each line."""
import re
import subprocess
import sys
from bisect import bisect
from pathlib import Path

sys.dont_write_bytecode = True
sys.path.insert(0, str(Path(__file__).resolve().parents[3] / "tools"))
from shared import usage
from objects import MARKS, Object

# high parts, and the low parts that go with them
HALVES = {"aarch64": {275: {277, 299, 278, 284, 285, 286}, 311: {312}}, "powerpc64le": {50: {48, 64}},
          "loongarch64": {71: {72}, 75: {76}}, "riscv64": {}, "x86_64": {}}


def output(*command):
    return subprocess.run(command, check=True, capture_output=True, text=True).stdout


class Linked:
    def __init__(self, path):
        self.sections, self.symbols = {}, {}
        section = None
        for line in open(path + ".map"):
            words = re.match(r" *([0-9a-f]+) +[0-9a-f]+ +([0-9a-f]+) +[0-9]+ +(.*)$", line)
            if not words:
                continue
            inside = re.match(r"(.*\.o):\((.*)\)$", words[3])
            if inside:
                section = inside[1], inside[2]
                self.sections[section] = int(words[1], 16)
            elif section:
                self.symbols.setdefault((section, words[3]), int(words[1], 16))
        self.code = {}
        for line in output("llvm-objdump-19", "-d", "--no-show-raw-insn", path).splitlines():
            words = re.match(r" *([0-9a-f]+): +\t?(.*)$", line)
            if words:
                words_of = words[2].replace("\t", " ").replace(",", " ").split()
                # with `*` where it goes to what a word in memory says
                star = "*" if any(word.startswith("*") for word in words_of) else ""
                prefix = 1 + (words_of[0] == "addr32")
                # PowerPC64: the register that an offset is added to
                base = re.search(r"\((\d+)\)", words[2]) or re.match(r"addi \d+ ()(\d+)", " ".join(words_of))
                base = f" of r{base[base.lastindex]}" if base else ""
                self.code[int(words[1], 16)] = " ".join(words_of[:prefix]) + star + base
        self.starts = sorted(self.code)

    def mnemonic(self, address):
        start = self.starts[bisect(self.starts, address) - 1]
        return self.code[start]


def walk(architecture, linked, path, section, it):
    """The mnemonic at each relocation."""
    address, seen = linked.sections[path, section.name] if section.size else 0, []
    deleted, places = 0, {}
    for at, (offset, kind, symbol, addend) in enumerate(section.relocations):
        place = address + offset - deleted
        after = section.relocations[at + 1:at + 2]
        is_relaxable = after and after[0][:2] == (offset, 51)
        if kind in (43, 102) and architecture in MARKS:
            nops, power = addend, addend.bit_length()
            if kind == 102 and symbol:
                power = addend & 0xFF
                nops = 2 ** power - 4
                assert addend < 0x100, "an alignment with a limit"
            deleted += nops - -place % 2 ** power
            seen.append(None)
            continue
        seen.append(linked.mnemonic(place))
        places[offset] = place
        if architecture == "riscv64" and is_relaxable:
            if kind in (18, 19) and seen[-1] != "auipc":
                deleted += 4
            if kind == 26 and seen[-1] != "lui":
                deleted += 4
    # the map says where the symbols are
    for name, _, _, home, value in it.symbols:
        there = linked.symbols.get(((path, section.name), name))
        is_here = home == it.sections.index(section) and value in places and name[:1] not in ".$"
        if is_here and there is not None:
            assert there == places[value], (path, name, hex(there), hex(places[value]))
    return seen


def main():
    name, architecture, plain, relaxed, *paths = sys.argv[1:]
    files = Linked(plain), Linked(relaxed)
    for path in paths:
        it = Object(path)
        names = {}
        for line in output("llvm-readelf-19", "-rW", path).splitlines():
            words = line.split()
            if len(words) > 2 and words[2].startswith("R_"):
                names[int(words[1], 16) & 0xFFFFFFFF] = words[2]
        for index in it.code():
            section = it.sections[index]
            a, b = (walk(architecture, file, path, section, it) for file in files)
            changed = [one != other for one, other in zip(a, b)]
            for at in range(len(a)):  # the register's name only where it becomes that of the TOC
                if architecture == "powerpc64le" and a[at]:
                    a[at], before = re.subn(" of r.*", "", a[at]), a[at]
                    a[at] = a[at][0]
                    if not (b[at].endswith(" of r2") and before != b[at] and not before.endswith(" of r2")):
                        b[at] = re.sub(" of r.*", "", b[at])
            for at, (offset, kind, symbol, addend) in enumerate(section.relocations):
                lows = HALVES[architecture].get(kind, ())
                for low in range(at + 1, len(section.relocations)):
                    other = section.relocations[low]
                    if other[1] in lows and other[2:] == (symbol, addend):
                        changed[at] = changed[at] or changed[low]
                        break
            for at, (offset, kind, symbol, addend) in enumerate(section.relocations):
                if changed[at] and kind not in MARKS.get(architecture, ()):
                    head = f"{name}/{path}: {it.place(index, offset)}  {names[kind]}"
                    print(f"{head} {it.symbol(symbol, addend)}: {a[at]} -> {b[at]}")


main()
