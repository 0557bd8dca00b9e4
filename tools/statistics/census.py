#!/usr/bin/env python3
# SPDX-License-Identifier: MIT OR Apache-2.0
"""Counts the relocations of objects, archives and rlibs by type. It says which types have no row in
the library, and which ones mark instructions that a linker may rewrite and the library can't. Rows
and rewrites are the library's own (rust/examples/list_relocations.rs).
usage: tools/statistics/census.py FILE.."""
import collections
import re
import subprocess
import sys
from pathlib import Path

sys.dont_write_bytecode = True
sys.path.insert(0, str(Path(__file__).resolve().parents[1]))
from shared import usage
from shared.elf_file import SHT_RELA, ElfFile, Malformed, is_archive, is_elf, members

# Instructions that linkers rewrite: the names of their relocations, a rewrite of the library for
# them ("" if it has none), and what they are. It goes by the type alone: whether a linker may
# rewrite one depends on its symbol too, and on a R_RISCV_RELAX or R_LARCH_RELAX beside it.
MARKS = [
    (r"R_X86_64_(REX_|CODE_4_)?GOTPCRELX", "MovIndirectToLea", "a load from the GOT"),
    (r"R_X86_64_CODE_6_GOTPCRELX", "RexAddIndirectToAbsolute", "a load from the GOT"),
    (r"R_X86_64_(CODE_4_)?GOTTPOFF", "RexMovIndirectToAbsolute", "initial-exec TLS"),
    (r"R_X86_64_CODE_6_GOTTPOFF", "RexAddIndirectToAbsolute", "initial-exec TLS"),
    (r"R_X86_64_TLSGD", "TlsGdToLocalExec", "general-dynamic TLS"),
    (r"R_X86_64_TLSLD", "TlsLdToLocalExec", "local-dynamic TLS"),
    (r"R_X86_64_(CODE_4_)?GOTPC32_TLSDESC", "TlsDescToLocalExec", "a TLS descriptor"),
    (r"R_X86_64_TLSDESC_CALL", "SkipTlsDescCall", "a TLS descriptor"),
    (r"R_X86_64_CODE_(5_\w+|6_GOTPC32_TLSDESC)", "", "a load from the GOT with an EVEX prefix"),
    (r"R_AARCH64_(ADR_GOT_PAGE|LD64_GOT_LO12_NC)", "LdrToAdd", "a load from the GOT"),
    (r"R_AARCH64_ADD_ABS_LO12_NC", "AdrpAddToNopAdr", "an address by two instructions"),
    (r"R_AARCH64_TLSIE_ADR_GOTTPREL_PAGE21", "MovzXnLsl16", "initial-exec TLS"),
    (r"R_AARCH64_TLSIE_LD64_GOTTPREL_LO12_NC", "MovkXn", "initial-exec TLS"),
    (r"R_AARCH64_TLSDESC_(LD_PREL19|LD64_LO12)", "MovzX0Lsl16", "a TLS descriptor"),
    (r"R_AARCH64_TLSDESC_(ADR_PREL21|ADR_PAGE21)", "MovkX0", "a TLS descriptor"),
    (r"R_AARCH64_TLSDESC_(ADD_LO12|CALL)", "ReplaceWithNop", "a TLS descriptor"),
    (r"R_AARCH64_TLSGD_(ADR_PREL21|ADR_PAGE21|ADD_LO12_NC)", "", "general-dynamic TLS"),
    (r"R_AARCH64_TLSLD_(ADR_PREL21|ADR_PAGE21|ADD_LO12_NC)", "", "local-dynamic TLS"),
    (r"R_RISCV_CALL(_PLT)?", "CallToJal", "a call"),
    (r"R_RISCV_HI20", "Hi20ToCLui", "an address by two instructions"),
    (r"R_RISCV_LO12_[IS]", "Lo12Rs1ToZero", "an address by two instructions"),
    (r"R_RISCV_RVC_LUI", "CLuiToCLi", "an address by two instructions"),
    (r"R_RISCV_PCREL_(HI20|LO12_[IS])", "", "an address by two instructions"),
    (r"R_RISCV_GOT_HI20", "LdToAddi", "a load from the GOT"),
    (r"R_RISCV_TPREL_(HI20|ADD|LO12_[IS])", "BaseToTp", "local-exec TLS"),
    (r"R_RISCV_TLSDESC_\w+", "CallToAddi", "a TLS descriptor"),
    (r"R_LARCH_CALL36", "CallToBl", "a call"),
    (r"R_LARCH_PCALA_(HI20|LO12)", "PcalaToPcaddi", "an address by two instructions"),
    (r"R_LARCH_GOT_PC_(HI20|LO12)", "LdToAddi", "a load from the GOT"),
    (r"R_LARCH_TLS_LE_(HI20|ADD|LO12)_R", "BaseToTp", "local-exec TLS"),
    (r"R_LARCH_TLS_LE_(HI20|LO12)", "", "local-exec TLS"),
    (r"R_LARCH_TLS_IE_PC_(HI20|LO12)", "PcalaToLu12i", "initial-exec TLS"),
    (r"R_LARCH_TLS_(GD|LD)_PC_HI20", "PcalaToPcaddi", "general- or local-dynamic TLS"),
    (r"R_LARCH_TLS_DESC_(PC_HI20|PC_LO12|LD|CALL)", "PcalaToLu12i", "a TLS descriptor"),
    (r"R_PPC64_REL24", "NopToRestoreToc", "the nop after a call"),
    (r"R_PPC64_PLT(16_(HA|LO_DS)|(_PCREL34|SEQ|CALL)(_NOTOC)?)", "", "a call by an address"),
    (r"R_PPC64_REL16_(HA|LO)", "AddisToLis", "the TOC pointer at a function's entry"),
    (r"R_PPC64_ENTRY", "", "the TOC pointer at a function's entry"),
    (r"R_PPC64_TOC16_(HA|LO|LO_DS)", "BaseToToc", "an address from the TOC"),
    (r"R_PPC64_GOT16_(HA|LO_DS)", "LdToAddi", "a load from the GOT"),
    (r"R_PPC64_GOT_PCREL34", "PldToPaddi", "a load from the GOT"),
    (r"R_PPC64_PCREL_OPT", "", "an access by an address from the GOT"),
    (r"R_PPC64_TPREL16_(HA|LO|LO_DS)", "BaseToThread", "local-exec TLS"),
    (r"R_PPC64_(TLS|GOT_TPREL16_(HA|LO_DS|DS))", "AddToAddi", "initial-exec TLS"),
    (r"R_PPC64_GOT_TPREL_PCREL34", "PldToPaddiThread", "initial-exec TLS"),
    (r"R_PPC64_(TLSGD|GOT_TLSGD16(_HA|_LO)?)", "CallToAddi", "general-dynamic TLS"),
    (r"R_PPC64_GOT_TLSGD_PCREL34", "PaddiToPaddiThread", "general-dynamic TLS"),
    (r"R_PPC64_(TLSLD|GOT_TLSLD16(_HA|_LO)?)", "CallToAddi4096", "local-dynamic TLS"),
    (r"R_PPC64_GOT_TLSLD_PCREL34", "PaddiToPaddi4096", "local-dynamic TLS"),
]
RUST = Path(__file__).resolve().parents[2] / "rust"
MACHINES = {21: "ppc64", 62: "x86-64", 183: "aarch64", 243: "riscv64", 258: "loongarch64"}


def example(*words):
    """The command that runs an example of the Rust crate, in its folder."""
    return ["cargo", "run", "--offline", "--quiet", "--example", *words]


def library():
    """What the library has: {(machine, code): (name, has a row)}, and {(machine, rewrite)}."""
    listed = subprocess.check_output(example("list_relocations"), cwd=RUST, text=True)
    lines = [line.split() for line in listed.splitlines()]
    rows = {(int(m), int(code)): (name, row == "row")
            for what, m, code, *rest in lines if what == "relocation" for name, row in [rest]}
    return rows, {(int(line[1]), line[2]) for line in lines if line[0] == "rewrite"}


def object_of(data):
    """An object of one of the library's architectures."""
    file = ElfFile(data)
    if file.machine not in MACHINES:
        raise Malformed(f"e_machine {file.machine} is none of the library's")
    if file.type != 1:
        raise Malformed(f"e_type {file.type}: not an object")
    return file


def relocation_tables(file):
    """The sections of relocations of an object: (header, relocations)."""
    for section in file.sections:
        if section.type in (9, 0x40000014):
            raise Malformed(f"section {section.index} has SHT_REL or SHT_CREL, not SHT_RELA")
        if section.type == SHT_RELA:
            yield section, file.relocations_of(section)


def relocations(data):
    """The machine of an object, and its relocations' types."""
    file = object_of(data)
    codes = collections.Counter()
    for _, entries in relocation_tables(file):
        codes.update(entry.type for entry in entries)
    return file.machine, codes


def read_objects(paths, tool, read):
    """Calls `read` with each object of the files. Returns the archive members that aren't ELF."""
    others = []
    for path in paths:
        where = path
        try:
            data = Path(path).read_bytes()
            if data.startswith(b"!<thin>\n"):
                raise Malformed("a thin archive, which has no members in it: give the objects")
            for name, body in members(data) if is_archive(data) else [(None, data)]:
                where = f"{path}({name})" if name else path
                if is_elf(body):
                    read(body)
                elif is_archive(data):
                    others.append(where)
                else:
                    raise Malformed("neither an ELF file nor an archive")
                where = path
        except (Malformed, OSError) as error:
            sys.exit(f"{tool}: {where}: {getattr(error, 'strerror', None) or error}")
    return others


def count(paths):
    """Of each machine its relocations by code and its objects, and the members that aren't ELF."""
    codes, objects = collections.defaultdict(collections.Counter), collections.Counter()

    def read(body):
        machine, found = relocations(body)
        codes[machine].update(found)
        objects[machine] += 1

    others = read_objects(paths, "tools/statistics/census.py", read)
    return codes, objects, others


def main(paths):
    codes, objects, others = count(paths)
    rows, rewrites = library()
    for machine, found in sorted(codes.items()):
        print(f"{MACHINES[machine]}: {objects[machine]} objects, {found.total()} relocations")
        for code, number in sorted(found.items()):
            name, has_row = rows.get((machine, code), ("-", False))
            notes = [] if has_row else ["no row"]
            notes += [f"no rewrite: {what}" for pattern, rewrite, what in MARKS
                      if re.fullmatch(pattern, name) and (machine, rewrite) not in rewrites]
            print(f"{code:6} {name:36} {number:9} {', '.join(notes)}".rstrip())
    if others:
        print(f"not ELF: {len(others)} archive members, the first of them {others[0]}")


if __name__ == "__main__":
    main(sys.argv[1:])
