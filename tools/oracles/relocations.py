# SPDX-License-Identifier: MIT OR Apache-2.0
"""bindings/rust/tests/data/gnu.txt: what GNU ld makes of relocations that ld.lld 19 lacks.

It needs binutils-powerpc64le-linux-gnu, and binutils-loongarch64-linux-gnu 2.44, of Debian 13.
"""

import re
import tempfile
from pathlib import Path

from oracles.rewrites import run

DATA = Path(__file__).resolve().parents[2] / "bindings/rust/tests/data/gnu.txt"
HEAD = """\
# What GNU ld makes of relocations that ld.lld 19 doesn't know, by `tools/oracle`: 2.40 for
# PowerPC64, and 2.44 for LoongArch. A line: the machine; the type; its name; the place; the
# symbol's address; those of its GOT entry and of its doubleword in the PLT; the TOC pointer; the
# origin of offsets of TLS symbols; the bytes before; the bytes after. Addresses are hexadecimal.
"""
# `own` and the numbers are here, `function` and `other` in another file
PPC64 = """\
    .abiversion 2
    .machine power10
    .text
    .globl _start
_start:
"""
PPC64_SHARED = PPC64 + """\
    addis 12,2,function@plt@ha
    ld 12,function@plt@l(12)
    pld 12,function@plt@pcrel(0),1
    paddi 3,0,other@got@tlsgd@pcrel,1
    paddi 3,0,own@got@tlsld@pcrel,1
    paddi 3,3,own@dtprel
    pld 3,other@got@tprel@pcrel(0),1
    .reloc .,R_PPC64_PLT_PCREL34_NOTOC,function
    pld 12,0(0),1
    ori 3,3,own@dtprel@higher
    ori 3,3,own@dtprel@highera
    lis 3,own@dtprel@highest
    lis 3,own@dtprel@highesta
    oris 3,3,own@dtprel@high
    oris 3,3,own@dtprel@higha
    .section .tdata,"awT",@progbits
    .space 0x2340
own:
    .quad 1
"""
PPC64_PROGRAM = PPC64 + """\
    paddi 3,13,own@tprel
    paddi 3,0,near
    paddi 3,0,below
    paddi 3,3,wide@l
    paddi 3,0,wide@h
    paddi 3,0,wide@ha
    paddi 3,3,carries@l
    paddi 3,0,carries@ha
    ba high
    ba low
    bca 12,2,high_14
    bca 12,2,low_14
    oris 3,3,wide@higha
    oris 3,3,carries@higha
    oris 3,3,own@tprel@high
    oris 3,3,own@tprel@higha
    oris 3,3,first@tprel@high
    oris 3,3,first@tprel@higha
    addi 3,3,ahead-.
    addi 3,3,back-.
    .section .tdata,"awT",@progbits
first:
    .space 0x12340
own:
    .quad 1
    .globl near, below, wide, carries, high, low, high_14, low_14, ahead, back
    ahead = 0x100081a7
    back = 0xfff81ac
    high = 0x1fffffc
    low = -0x2000000
    high_14 = 0x7ffc
    low_14 = -0x8000
    near = 0x123456789
    below = -0x123456789
    wide = 0x123456789abcdef0
    carries = 0x1234567a9abcdef0
"""
# GNU ld makes an entry only where another relocation requires it
LOONGARCH64_SHARED = """\
    .text
    .globl _start
_start:
    pcaddi $a0, %ld_pcrel_20(other)
    pcaddi $a0, %gd_pcrel_20(other)
    pcaddi $a0, %desc_pcrel_20(other)
    pcalau12i $a0, %gd_pc_hi20(other)
    pcalau12i $a0, %desc_pc_hi20(other)
"""
LISTED = {
    "ppc64": r"PLT16|PLT_PCREL34|(GOT_)?TLS[GL]D_PCREL34|TPREL_PCREL34|D?TPREL34|D34|ADDR[12]4|"
    r"DTPREL16_HIGH|TPREL16_HIGHA?$|ADDR16_HIGHA$|_REL16$",
    "loongarch64": r"PCREL20",
}
TOOLS = {"ppc64": "powerpc64le-linux-gnu-", "loongarch64": "loongarch64-linux-gnu-"}
# no other instructions, and a `.plt` that is far from the TOC pointer
KEPT = {
    "ppc64": ["--no-inline-optimize", "--no-tls-optimize", "--section-start=.plt=0x80000"],
    "loongarch64": ["--no-relax"],
}


def bytes_of(tool, file, folder):
    run(f"{tool}objcopy", "-O", "binary", "-j", ".text", str(file), str(folder / "text"))
    return (folder / "text").read_bytes()


def address(pattern, text):
    """The address in front of a dynamic relocation, or of a section."""
    found = re.search(pattern, text, re.M)
    return int(found[1], 16) if found else 0


def entry_of(name, dynamic):
    """The address of the entry in the GOT that a relocation asks for, and of that in the PLT."""
    one = r"^([0-9a-f]{16}) .*"
    entries = {
        "GOT_TLSGD": one + r"R_PPC64_DTPMOD64 .* other \+",
        "GOT_TLSLD": one + r"R_PPC64_DTPMOD64 +0$",
        "GOT_TPREL": one + r"R_PPC64_TPREL64 .* other \+",
        "TLS_LD": one + r"R_LARCH_TLS_DTPMOD64 .* other \+",
        "TLS_GD": one + r"R_LARCH_TLS_DTPMOD64 .* other \+",
        "TLS_DESC": one + r"R_LARCH_TLS_DESC64 .* other \+",
    }
    got = next((address(entries[key], dynamic) for key in entries if f"_{key}_" in name), 0)
    plt = address(one + r"R_PPC64_JMP_SLOT .* function \+", dynamic) if "_PLT" in name else 0
    assert got or plt or not re.search("GOT|PLT|LARCH", name), name
    return got, plt


def rows(machine, source, shared, folder):
    tool, names = TOOLS[machine], LISTED[machine]
    (folder / "one.s").write_text(source)
    run(f"{tool}as", str(folder / "one.s"), "-o", str(folder / "one.o"))
    kept = ["-shared", *KEPT[machine]] if shared else []
    run(f"{tool}ld", *kept, str(folder / "one.o"), "-o", str(folder / "linked"))
    before, after = (bytes_of(tool, folder / file, folder) for file in ("one.o", "linked"))
    listed = run(f"{tool}readelf", "-rW", str(folder / "one.o"))
    headers = run(f"{tool}readelf", "-rlSW", str(folder / "linked"))
    text = address(r"^ +\[ *\d+\] \.text +PROGBITS +([0-9a-f]+)", headers)
    got = address(r"^ +\[ *\d+\] \.got +PROGBITS +([0-9a-f]+)", headers)
    image = address(r"^ +TLS +\S+ 0x([0-9a-f]+)", headers)
    pattern = r"^([0-9a-f]{16}) +[0-9a-f]{8}([0-9a-f]{8}) (\S+) +([0-9a-f]{16}) (\S+) \+ 0$"
    for offset, code, name, value, symbol in re.findall(pattern, listed, re.M):
        if not re.search(names, name):
            continue
        at = int(offset, 16)
        length = 8 if "34" in name else 4
        of_image = symbol in ("own", "first", ".tdata")
        entry, plt = entry_of(name, headers)
        origin = image + (0x8000 if "DTPREL" in name else 0x7000)
        yield " ".join([
            machine, str(int(code, 16)), name, f"{text + at:x}",
            f"{(int(value, 16) + (image if of_image else 0)) % 2**64:x}", f"{entry:x}", f"{plt:x}",
            f"{got + 0x8000:x}", f"{origin:x}", before[at : at + length].hex(),
            after[at : at + length].hex(),
        ])


def make(_):
    with tempfile.TemporaryDirectory() as name:
        folder = Path(name)
        table = [
            *rows("ppc64", PPC64_SHARED, True, folder),
            *rows("ppc64", PPC64_PROGRAM, False, folder),
            *rows("loongarch64", LOONGARCH64_SHARED, True, folder),
        ]
    DATA.write_text(HEAD + "".join(line + "\n" for line in table))
