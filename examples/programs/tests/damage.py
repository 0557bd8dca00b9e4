#!/usr/bin/env python3
# SPDX-License-Identifier: MIT OR Apache-2.0
"""Writes a copy of an ELF file with one field of it damaged, as a name in DAMAGES says.

usage: damage.py FILE COPY NAME
"""
import struct
import sys
from pathlib import Path

sys.path.insert(0, str(Path(__file__).resolve().parents[3] / "tools"))
sys.dont_write_bytecode = True
from shared import usage
from shared.elf_file import SHF_EXECINSTR, SHT_RELA, SHT_SYMTAB, ElfFile

file, copy, damage = sys.argv[1:]
data = bytearray(Path(file).read_bytes())
elf = ElfFile(bytes(data))
table = struct.unpack_from("<Q", data, 40)[0]
relas = next(it for it in elf.sections if it.type == SHT_RELA and it.info and elf.sections[it.info].flags & SHF_EXECINSTR)
code, symbols = elf.sections[relas.info], next(it for it in elf.sections if it.type == SHT_SYMTAB)
first = struct.unpack_from("<QIIq", data, relas.offset)
named = [it.symbol for it in elf.relocations_of(relas)]
defined = next((it for it in named if 0 < elf.symbols_of(symbols)[it].home < 0xFF00), 0)
last = relas.offset + relas.size // 24 * 24 - 24
# where, what is there then, and in which form
DAMAGES = {
    "magic": (0, 0, "B"),
    "class": (4, 1, "B"),
    "machine": (18, 0x1234, "H"),
    "headers": (40, len(data) - 63, "Q"),
    "count": (60, 0xFFF0, "H"),
    "alignment": (table + 64 * code.index + 48, 3, "Q"),
    "size": (table + 64 * code.index + 32, 1 << 60, "Q"),
    "symbols": (table + 64 * relas.index + 40, 0xFFFF, "I"),
    "names": (table + 64 * elf.sections[symbols.link].index + 32, 1, "Q"),
    "type": (relas.offset + 8, 0xFE, "I"),
    "symbol": (relas.offset + 12, 0xFFFFFF, "I"),
    "offset": (last, code.address + code.size, "Q"),
    "far": (last, 1 << 63, "Q"),
    "twice": (relas.offset + 24, first, "QIIq"),
    "value": (symbols.offset + 24 * defined + 8, 1 << 40, "Q"),
    "field": (code.offset + first[0] - code.address + 1, data[code.offset + first[0] - code.address + 1] ^ 16, "B"),
}
at, value, form = DAMAGES[damage]
struct.pack_into("<" + form, data, at, *(value if isinstance(value, tuple) else (value,)))
Path(copy).write_bytes(data)
