# SPDX-License-Identifier: MIT OR Apache-2.0
"""Reads ELF files of 64 bits and little-endian byte order, by their tables alone: sections, segments,
symbols and relocations; and the members of archives. Fields are those of the ELF specification, with
names in words: `home` is `st_shndx`."""
import dataclasses
import functools
import re
import struct
from typing import NamedTuple

SHT_SYMTAB, SHT_RELA, SHT_NOBITS = 2, 4, 8
SHF_ALLOC, SHF_EXECINSTR = 2, 4
SHN_XINDEX = 0xFFFF
PT_LOAD = 1


class Malformed(Exception):
    """A file that isn't what it should be; its text says why."""


@dataclasses.dataclass
class Section:
    """A section's header."""
    index: int
    name: str
    type: int
    flags: int
    address: int
    offset: int
    size: int
    link: int
    info: int
    align: int
    entry_size: int


class Segment(NamedTuple):
    """A program header."""
    type: int
    flags: int
    offset: int
    address: int
    physical_address: int
    size: int  # in the file
    memory_size: int
    align: int


class Symbol(NamedTuple):
    name: str
    type: int
    binding: int
    home: int
    value: int


class Relocation(NamedTuple):
    offset: int
    type: int
    symbol: int  # its index
    addend: int


def part(data, start, length, what):
    """`length` bytes of a file from `start`."""
    if start + length > len(data):
        raise Malformed(f"{what} ends at {start + length:#x}, past the end at {len(data):#x}")
    return data[start:start + length]


def is_elf(data):
    return data.startswith(b"\x7fELF")


def is_archive(data):
    return data.startswith(b"!<arch>\n")


def members(data):
    """The members of an archive, without its symbols and names: (name, bytes)."""
    at, names = 8, b""
    while at < len(data):
        header = part(data, at, 60, "an archive member's header")
        if header[58:] != b"`\n" or not header[48:58].strip().isdigit():
            raise Malformed(f"no archive member's header at {at:#x}")
        name, size = header[:16].rstrip(), int(header[48:58])
        body = part(data, at + 60, size, f"the archive member at {at:#x}")
        at += 60 + size + size % 2
        if name == b"//":
            names = body
        elif name not in (b"/", b"/SYM64/"):
            if re.fullmatch(rb"/\d+", name):
                name = names[int(name[1:]):].split(b"/\n")[0]
            yield name.rstrip(b"/").decode(errors="replace"), body


class ElfFile:
    """An ELF file: its type, machine, flags and sections."""

    def __init__(self, data):
        self.data = data
        header = part(data, 0, 64, "the ELF header")
        if header[4:6] != b"\x02\x01":
            raise Malformed("not a little-endian ELF file of 64 bits")
        (self.type, self.machine, _, _, self.programs, table, self.flags, _, _, self.program_count,
         size, count, names) = struct.unpack_from("<HHIQQQIHHHHHH", header, 16)
        if table and size != 64:
            raise Malformed(f"section headers of {size} bytes")
        if table and count == 0:  # the count is in the first header
            (count,) = struct.unpack_from("<Q", part(data, table, 64, "the first section header"), 32)
        heads = part(data, table, 64 * count if table else 0, "the table of section headers")
        self.sections = [Section(index, *fields) for index, fields
                         in enumerate(struct.iter_unpack("<IIQQQQIIQQ", heads))]
        if names == SHN_XINDEX and self.sections:
            names = self.sections[0].link
        for section in self.sections:  # a file may have no names
            at = section.name
            section.name = self.text(self.sections[names], at) if names < len(self.sections) else ""

    def text(self, strings, at):
        """The text at an offset of a section of strings."""
        start, end = strings.offset + at, strings.offset + strings.size
        stop = self.data.find(b"\0", start, end)
        return self.data[start:end if stop < 0 else stop].decode(errors="surrogateescape")

    def contents(self, section):
        """A section's bytes in the file."""
        if section.type == SHT_NOBITS:
            return b""
        return part(self.data, section.offset, section.size, f"section {section.index}")

    def symbols_of(self, table):
        """The symbols of a section that has them."""
        if table.link >= len(self.sections):
            raise Malformed(f"no section {table.link} of names")
        entries, names = self.contents(table), self.sections[table.link]
        return [Symbol(self.text(names, name), info & 15, info >> 4, home, value)
                for name, info, _, home, value, _
                in struct.iter_unpack("<IBBHQQ", entries[:len(entries) // 24 * 24])]

    def relocations_of(self, table):
        """The relocations of a section that has them with addends, in the file's order."""
        if table.entry_size != 24 or table.size % 24:
            raise Malformed(f"section {table.index}: {table.size} bytes of relocations of "
                            f"{table.entry_size} each")
        return list(map(Relocation._make, struct.iter_unpack("<QIIq", self.contents(table))))

    @functools.cached_property
    def symbols(self):
        """The symbols of the file's symbol table."""
        return [symbol for section in self.sections if section.type == SHT_SYMTAB
                for symbol in self.symbols_of(section)]

    @functools.cached_property
    def relocations(self):
        """The relocations by the index of the section that they change, in the file's order."""
        found = {section.index: [] for section in self.sections}
        for section in self.sections:
            if section.type == SHT_RELA:
                found.setdefault(section.info, []).extend(self.relocations_of(section))
        return found

    @functools.cached_property
    def segments(self):
        table = part(self.data, self.programs, 56 * self.program_count, "the table of segments")
        return list(map(Segment._make, struct.iter_unpack("<IIQQQQQQ", table)))

    def loaded(self, address, count):
        """Bytes at an address, of those that a segment has in the file."""
        for it in self.segments:
            if it.type == PT_LOAD and it.address <= address <= it.address + it.size - count:
                return self.data[it.offset + address - it.address:][:count]
        raise Malformed(f"nothing is at {address:#x}")

    def word(self, address):
        """The 4 bytes at an address."""
        return int.from_bytes(self.loaded(address, 4), "little")

    def doubleword(self, address):
        """The 8 bytes at an address."""
        return int.from_bytes(self.loaded(address, 8), "little")
