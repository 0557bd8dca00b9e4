#!/usr/bin/env python3
# SPDX-License-Identifier: MIT OR Apache-2.0
"""What stands at each relocation of a program's code in two linked files, without what `compare`
has of it: llvm-objdump-19 says which instruction is at a place. Where nothing is deleted places are
as far from `_start` as in the object. On RISC-V and LoongArch the linkers wrote where they have the
relocations, in the object's order. What is deleted has the type NONE or the place of what is behind
it there. But what ld.lld wrote for LoongArch isn't so, and is left out. Numbers are written as N.

usage: instructions.py ARCHITECTURE FOLDER A B"""
import re
import subprocess
import sys
from os.path import dirname, join

sys.dont_write_bytecode = True
sys.path.insert(0, join(dirname(__file__), ".."))
from objects import MARKS, Object


def output(*command):
    return subprocess.run(command, check=True, capture_output=True, text=True).stdout


class Linked:
    def __init__(self, architecture, path):
        it = Object(path)
        # the relocations that a linker leaves are of addresses
        tables = {section.name: section.relocations for section in it.sections}
        self.relocations = tables[".text"]
        self.main = next(value for name, _, _, _, value in it.symbols if name == "_start")
        self.starts, self.code = [], {}
        for line in output("llvm-objdump-19", "-d", "--no-show-raw-insn", path).splitlines():
            words = re.match(r" *([0-9a-f]+): +\t?(.*)$", line)
            if words:
                text = re.sub(r"(#|//| ;) .*|<.*?>", "", words[2].replace("\t", " "))
                # (PowerPC64's registers are numbers)
                number = "-[0-9]+|[0-9]{3,}" if architecture == "powerpc64le" else "-?[0-9]+"
                text = re.sub(rf"(?<![a-z0-9_])(-?0x[0-9a-f]+|{number})(?![a-z0-9_])", "N", text)
                self.starts.append(int(words[1], 16))
                self.code[self.starts[-1]] = re.sub(r" +", " ", text).strip()

    def at(self, address):
        return self.code[max(start for start in self.starts if start <= address)]


def main():
    architecture, folder, *linked = sys.argv[1:]
    path = join(folder, "program.o")
    it = Object(path)
    files = [Linked(architecture, join(folder, name)) for name in linked]
    names = {}
    for line in output("llvm-readelf-19", "-rW", path).splitlines():
        words = line.split()
        if len(words) > 2 and words[2].startswith("R_"):
            names[int(words[1], 16) & 0xFFFFFFFF] = words[2]
    marks = MARKS.get(architecture, set())
    main_offset = next(value for name, _, _, _, value in it.symbols if name == "_start")
    for index in it.code():
        section = it.sections[index]
        for at, (offset, kind, symbol, addend) in enumerate(section.relocations):
            if kind in marks or kind == 0:
                continue
            found = []
            for linked in files:
                after, address = None, linked.main + offset - main_offset
                if marks:
                    address, after, _, _ = linked.relocations[at]
                # what is behind it in the object is at the same place
                behind = [there[0] for one, there in zip(section.relocations, linked.relocations)
                          if offset < one[0] < offset + 8] if marks else []
                is_deleted = after == 0 and names[kind] != "R_LARCH_B26" or address in behind
                found.append("deleted" if is_deleted else linked.at(address))
            if architecture == "loongarch64":
                found[0] = "-"
            place, of = it.place(index, offset), it.symbol(symbol, addend)
            of = re.sub(r"[\x00-\x1f]", lambda one: f"\\u{{{ord(one[0]):x}}}", of)
            print(f"program.o: {place}  {names[kind]} {of}: {found[0]} | {found[1]}")


main()
