#!/usr/bin/env python3
# SPDX-License-Identifier: MIT OR Apache-2.0
"""Which relocations of code the example's linker rewrites and ld.lld 19 doesn't, counted from the
relocations and the example's linked bytes, without what `compare` has of them:

- LoongArch: of calls (R_LARCH_CALL36), pairs of `pcalau12i` and `addi.d`, and loads from the GOT, those
  with R_LARCH_RELAX to a symbol of the program. ld.lld 19 relaxes only alignments there.
- RISC-V: loads from the GOT (R_RISCV_GOT_HI20) of a symbol of the program. ld.lld 19 keeps them.

Each is in the list if the linked bytes have the other instruction. That the program's addresses are
near, and what isn't aligned stays, is asserted.

usage: tests/shorter.py NAME ARCHITECTURE LINKED OBJECT.."""
import sys
from pathlib import Path

sys.dont_write_bytecode = True
sys.path.insert(0, str(Path(__file__).resolve().parents[3] / "tools"))
from shared import usage
from objects import CODE, Object

NAMES = {110: "R_LARCH_CALL36", 71: "R_LARCH_PCALA_HI20", 72: "R_LARCH_PCALA_LO12",
         75: "R_LARCH_GOT_PC_HI20", 76: "R_LARCH_GOT_PC_LO12"}
RISCV_NAMES = {20: "R_RISCV_GOT_HI20", 24: "R_RISCV_PCREL_LO12_I"}


class Linked:
    def __init__(self, path):
        it = Object(path)
        self.word = it.word
        self.symbols = {name: value for name, kind, _, home, value in it.symbols if home and kind < 3}
        self.ends = {section.name: section.address for section in it.sections}


def nops(kind, symbol, addend, place):
    """How many of an alignment's nops are deleted."""
    power, there = addend.bit_length(), addend
    if kind == 102 and symbol:
        power, there = addend & 0xFF, 2 ** (addend & 0xFF) - 4
        assert addend < 0x100, "an alignment with a limit"
    return there - -place % 2 ** power


def loongarch(linked, it, section, start, is_defined):
    """Offset, type, symbol and addend of each relocation that is rewritten, and the places of all."""
    deleted, found, places, all_of = 0, [], {}, section.relocations
    for at, (offset, kind, symbol, addend) in enumerate(all_of):
        place = start + offset - deleted
        places.setdefault(offset, place)
        if kind == 102:
            deleted += nops(kind, symbol, addend, place)
            continue
        is_relaxable = at + 1 < len(all_of) and all_of[at + 1][:2] == (offset, 100)
        if kind not in (110, 71, 75) or not is_relaxable or not is_defined(symbol):
            continue
        word, next_word = linked.word(place), linked.word(place + 4)
        low = [one for one in all_of if one[:2] == (offset + 4, kind + 1) and one[2:] == (symbol, addend)]
        if kind == 110:  # `b` or `bl`
            assert word >> 27 == 0b01010, hex(word)
            found.append(all_of[at])
            deleted += 4
        elif low and word >> 25 == 0x0C:  # `pcaddi`
            found += [all_of[at], low[0]]
            deleted += 4
        else:
            assert word >> 25 == 0x0D, hex(word)  # `pcalau12i`
            name, _, binding, home, value = it.symbols[symbol]
            is_aligned = home and it.sections[home].align >= 4 and (value + addend) % 4 == 0
            if binding:
                is_aligned = (linked.symbols[name] + addend) % 4 == 0
            if kind == 75 and low and next_word >> 22 == 0x00B:  # `addi.d`
                found += [all_of[at], low[0]]
            elif kind == 75 or low:
                assert not is_aligned, (it.symbols[symbol], hex(place))
    return found, places, deleted


def riscv(linked, it, section, start, is_defined):
    deleted, found, places, all_of = 0, [], {}, section.relocations
    for at, (offset, kind, symbol, addend) in enumerate(all_of):
        place = start + offset - deleted
        places.setdefault(offset, place)
        if kind == 43:
            deleted += nops(kind, symbol, addend, place)
        is_relaxable = at + 1 < len(all_of) and all_of[at + 1][:2] == (offset, 51)
        if kind in (18, 19) and is_relaxable and linked.word(place) & 0x7F == 0x6F:
            deleted += 4
    for high in all_of:
        if high[1] != 20 or not is_defined(high[2]):
            continue
        lows = [one for one in all_of
                if one[1] == 24 and it.symbols[one[2]][3:] == (it.sections.index(section), high[0])]
        lows = [low for low in lows if linked.word(places[low[0]]) & 0x707F == 0x13]  # `addi`
        if lows:
            found += [high, *lows]
    return found, places, deleted


def main():
    name, architecture, path, *paths = sys.argv[1:]
    walk = {"loongarch64": loongarch, "riscv64": riscv}.get(architecture)
    linked = Linked(path)
    for path in paths if walk else []:
        it = Object(path)

        def is_defined(symbol):
            symbol, _, _, home, _ = it.symbols[symbol]
            return home != 0 or symbol in linked.symbols

        for index, section in enumerate(it.sections):
            if section.flags & CODE != CODE or not section.size:
                continue
            # sections are one after the other, as the files are named
            output = ".text" if section.name.startswith(".text") else section.name
            start = linked.ends[output] + -linked.ends[output] % section.align
            found, places, deleted = walk(linked, it, section, start, is_defined)
            linked.ends[output] = start + section.size - deleted
            for symbol, _, binding, home, value in it.symbols:
                if home == index and binding == 1 and value in places:
                    assert linked.symbols[symbol] == places[value], symbol
            for offset, kind, symbol, addend in found:
                names = NAMES if architecture == "loongarch64" else RISCV_NAMES
                print(f"{name}/{path}: {it.place(index, offset)}  {names[kind]} {it.symbol(symbol, addend)}")


main()
