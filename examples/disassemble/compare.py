#!/usr/bin/env python3
# SPDX-License-Identifier: MIT OR Apache-2.0
"""Compares what the program prints of files with what llvm-objdump-19 prints of them.

usage: compare.py PROGRAM FILE..

Each instruction that either has an immediate of, each pair and each relocation of a section with code
is compared: the address, the form, the number, the symbol and the addend. It prints how many were,
and the first that differ.
"""
import re
import subprocess
import sys
from collections import Counter
from pathlib import Path

sys.dont_write_bytecode = True
sys.path.insert(0, str(Path(__file__).resolve().parents[2] / "tools"))
from shared import usage
from shared.disassembly import LOADS, MACHINES, instruction_of, signed
from shared.elf_file import ElfFile, is_archive, is_elf, members

MACHINE = {183: "aarch64", 243: "riscv64", 258: "loongarch64", 21: "powerpc64le", 62: "x86_64"}


def machine_of(path):
    data = path.read_bytes()
    if is_archive(data):
        data = next(body for _, body in members(data) if is_elf(body))
    return MACHINE[ElfFile(data).machine]


def printed(command):
    """The lines that a program prints, one after the other."""
    with subprocess.Popen(command, stdout=subprocess.PIPE, text=True, errors="replace") as process:
        yield from process.stdout
    if process.returncode:
        sys.exit(f"{command[0]}: {process.returncode}")


def ours(program, path):
    """By member and section, the program's lines."""
    sections, lines = {}, None
    for line in printed([program, str(path)]):
        line = line.rstrip("\n")
        if line.startswith(str(path)):
            member, _, section = line[len(str(path)):].rpartition(" ")
            lines = sections.setdefault((member.strip("()"), section), Counter())
        else:
            lines[line] += 1
    return sections


def pair(machine, before, after):
    """The number of two instructions whose registers make them a pair, and its form."""
    (_, first, operands, one), (_, second, others, other) = before, after
    target = operands.split(",")[0].strip()
    if machine == "riscv64" and first in ("lui", "auipc") and target != "zero":
        base = re.search(r"\((\w+)\)$", others)
        if second == "addi":
            base = re.match(r"\w+, (\w+),", others)
        if (second in ("addi", "jalr") or second in LOADS) and base and base[1] == target:
            return "UiType", signed(one + other)
    if machine == "loongarch64" and first == "pcaddu18i" and target != "$zero":
        if second in ("ret", "jr", "jirl"):
            base = {"ret": "$ra", "jr": others.strip()}.get(second) or others.split(",")[1].strip()
            if base == target:
                return "Call36", signed(one + other)
    return None


def branch_field(text, address, length, place):
    """The number in the field of a branch of x86-64 that ends with it: from the field's end to where
    llvm-objdump says that it goes, which is the end of the instruction."""
    found = re.match(r"(?:call|jmp|j[a-z]+)q?\s+0x([0-9a-f]+)", text)
    if found and place + 4 == address + length:
        return signed(int(found[1], 16) - address - length)
    return None


def theirs(machine, path):
    """The same by llvm-objdump. Of x86-64 these are relocations, and numbers in the fields of branches."""
    options = MACHINES[machine][2] if machine in MACHINES else []
    options = [option for option in options if not option.startswith("--mattr=+m,")]
    sections, lines, member, last = {}, None, "", None
    for line in printed(["llvm-objdump-19", "-d", "-r", "-z", *options, str(path)]):
        line = line.rstrip("\n")
        if found := re.match(r"(.*):\tfile format ", line):
            inside = re.search(r"\(([^()]*)\)$", found[1])
            member = inside[1] if inside else ""
        elif found := re.match(r"Disassembly of section (.*):$", line):
            lines, last = sections.setdefault((member, found[1]), Counter()), None
        elif found := re.match(r"\s+([0-9a-f]{8,16}):\s+(R_\w+|Unknown)\s+(.*)", line):
            symbol, sign, addend = re.fullmatch(r"(.*?)(?:([+-])0x([0-9a-f]+))?", found[3]).groups()
            shown = int(addend or "0", 16) * (-1 if sign == "-" else 1)
            place = int(found[1], 16)
            lines[f"{place:x} {found[2]} {symbol} {shown}"] += 1
            if machine == "x86_64" and last and (field := branch_field(*last, place)) is not None:
                lines[f"{place:x} field {field}"] += 1
        elif found := re.match(r"\s*([0-9a-f]+):\s((?:[0-9a-f]{2,8} ?)+)\s+(.*)", line):
            address, text = int(found[1], 16), found[3]
            if machine == "x86_64":
                last = text, address, len(found[2].split())
                continue
            forms = None if text.startswith("<unknown>") else instruction_of(machine, address, text)
            if forms:
                name, _, operands = text.partition("\t")
                this = (address, name.strip(), re.sub(r"\s*(<|#|//).*", "", operands), forms[1])
                lines[f"{address:x} {forms[0][0]} {forms[1]}"] += 1
                if last and last[0] + 4 == address and (both := pair(machine, last, this)):
                    lines[f"{last[0]:x} {both[0]} {both[1]}"] += 1
                last = this
            else:
                last = None
    return sections


def as_theirs(machine, own, other):
    """The program's lines, with what llvm-objdump doesn't print left out: names of relocations that it
    doesn't know, and the numbers in the fields of x86-64 that aren't those of branches."""
    lines = Counter()
    fields = {line.split()[0] for line in other if " field " in line}
    unknown = {line.replace(" Unknown", "", 1) for line in other if " Unknown " in line}
    for line, count in own.items():
        if machine == "x86_64":
            place, name, field, rest = line.split(" ", 3)
            line = f"{place} {name} {rest}"
            if place in fields:
                lines[f"{place} field {field}"] += count
        place, name, rest = line.split(" ", 2)
        lines[f"{place} Unknown {rest}" if f"{place} {rest}" in unknown else line] += count
    return lines


def main():
    program, *paths = sys.argv[1:]
    compared = differ = 0
    for path in map(Path, paths):
        machine = machine_of(path)
        own, other = ours(program, path), theirs(machine, path)
        for key in own.keys() | other.keys():
            their = other.get(key, Counter())
            mine = as_theirs(machine, own.get(key, Counter()), their)
            compared += sum(their.values())
            for line in (mine - their) + (their - mine):
                differ += 1
                if differ <= 20:
                    print(path, *key, "ours" if line in mine else "theirs", line)
    print(f"{compared} lines compared, {differ} differences")
    sys.exit(differ > 0 or compared == 0)


main()
