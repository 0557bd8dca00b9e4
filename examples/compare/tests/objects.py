# SPDX-License-Identifier: MIT OR Apache-2.0
"""Relocatable ELF64 objects, read by their tables alone."""
import sys
from pathlib import Path

sys.path.insert(0, str(Path(__file__).resolve().parents[3] / "tools"))
from shared.elf_file import SHF_ALLOC, SHF_EXECINSTR, ElfFile

CODE = SHF_ALLOC | SHF_EXECINSTR
MARKS = {"riscv64": {43, 51}, "loongarch64": {100, 102}}  # ALIGN and RELAX


class Object(ElfFile):
    """An object; each section has its relocations, by their offsets."""

    def __init__(self, path):
        super().__init__(Path(path).read_bytes())
        for section in self.sections:
            section.relocations = sorted(self.relocations[section.index], key=lambda one: one.offset)

    def code(self):
        """The index of each section of code that has relocations."""
        return [index for index, section in enumerate(self.sections)
                if section.relocations and section.flags & CODE == CODE]

    def symbol(self, index, addend):
        """The symbol and the addend of a relocation."""
        name, _, _, home, _ = self.symbols[index]
        name = name or self.sections[home].name
        return name + (f"{addend:+#x}" if addend else "")

    def place(self, section, offset):
        """The symbol before an offset, and the distance to it."""
        before = [(value, name) for name, kind, _, home, value in self.symbols
                  if home == section and value <= offset and kind not in (3, 4)
                  and name and name[0] not in ".$"]
        value, name = max(before, default=(0, self.sections[section].name))
        return f"{name}+{offset - value:#x}"
