# SPDX-License-Identifier: MIT OR Apache-2.0
"""The tables of what linkers leave of the instructions in tools/oracles/instructions/*.s.

It writes files in rust/vectors/tests/vectors, and `rustfmt` lays them out. For PowerPC64 it needs
clang-19, lld-19, llvm-19 and binutils-powerpc64le-linux-gnu, and writes ppc64/linked.rs. For LoongArch
it needs binutils-loongarch64-linux-gnu 2.44, of Debian 13 (ld.lld 19 deletes no instructions of
LoongArch), and writes loongarch64/relaxed.rs. For RISC-V it needs clang-19, lld-19, llvm-19 and
binutils-riscv64-linux-gnu, and writes riscv64/linked.rs. A row is a relocation of the object: its type,
whether the symbol is defined there (1), whether the function called may change the TOC pointer (2) and
whether the call that it marks has R_PPC64_REL24_NOTOC (4), the addresses of the symbol and of the place,
and the eight bytes of its instruction before and after. A rewrite of one word leaves the second word,
which is that of another row, as it was.
"""

import re
import subprocess
import tempfile
from pathlib import Path

HERE = Path(__file__).resolve().parent
TABLES = HERE.parents[1] / "rust/vectors/tests/vectors"
TARGET = "--target=powerpc64le-linux-gnu"
# the sections' addresses, by which the TOC pointer is 0x10048000 and the thread pointer 0x10027000
PLACES = {".text": 0x10010000, ".tdata": 0x10020000, ".got": 0x10040000, ".data": 0x10040100,
          ".plt": 0x10080000, ".branch_lt": 0x10090000}
LINKERS = [
    ("lld", ["ld.lld-19", "-z", "norelro"], [".text", ".tdata", ".got", ".data"]),
    ("gnu", ["powerpc64le-linux-gnu-ld"], list(PLACES)),
]
TOC16_HA, TOC16_LO_DS, GOT16_HA, GOT16_LO_DS = 50, 64, 17, 59
REL24, TLS, TLSGD, TLSLD, REL24_NOTOC = 10, 67, 107, 108, 116
# R_PPC64_GOT_PCREL34, DTPREL34, GOT_TLSGD_PCREL34, GOT_TLSLD_PCREL34 and GOT_TPREL_PCREL34
PREFIXED = 133, 147, 148, 149, 150
TLSLD16_LO = 84
LWAX = 31 << 26 | 341 << 1


def run(*command):
    return subprocess.run(command, check=True, capture_output=True, text=True).stdout


def write_table(name, text):
    """Writes the lines of a file of tables."""
    file = TABLES / name
    file.write_text("\n".join(["// SPDX-License-Identifier: MIT OR Apache-2.0", *text]) + "\n")
    run("rustfmt", "--edition", "2024", str(file))


def text_of(file, folder):
    run("llvm-objcopy-19", "-O", "binary", "--only-section=.text", file, f"{folder}/text")
    return (folder / "text").read_bytes()


def symbols_of(file):
    lines = (line.split() for line in run("llvm-nm-19", file).splitlines())
    return {words[2]: int(words[0], 16) for words in lines if len(words) == 3}


def relocations_of(file, section):
    """The offset, the type, the symbol and the addend of each relocation of a section, in order."""
    lines = run("llvm-readelf-19", "-rW", file).split(f"'.rela{section}'")[1].split("\n\n")[0]
    found = re.findall(r"^([0-9a-f]{16}) +([0-9a-f]{16}) +\S+ +[0-9a-f]+ (\S+) \+ ([0-9a-f]+)$", lines, re.M)
    return [(int(o, 16), int(info, 16) & 0xffffffff, name, int(a, 16)) for o, info, name, a in found]


def differs(r_type, name, word, is_prefixed):
    """Whether GNU ld makes something else than ld.lld. In place of the call of `__tls_get_addr` it puts the
    `addi` or the `add`, and leaves the `nop` behind it. Where the high part of an offset from the
    thread pointer or from the TOC pointer is 0, as in local-dynamic TLS and for the GOT entry of a
    variable elsewhere, it adds the low part to that pointer. Of `lwax` it makes an `ld`, which reads
    eight bytes, where the psABI has `lwa`. Of prefixed code it makes the same."""
    if is_prefixed:
        return False
    is_lwax = r_type == TLS and word & 0xfc0007fe == LWAX
    return is_lwax or r_type in (TLSGD, TLSLD, TLSLD16_LO) or name == "other"


def linked(linker, command, sections, folder):
    """The bytes from `_start` on, and the symbols. The linker may put stubs before, so it is linked
    twice, to have `_start` at the same address in both outputs."""
    output, library = folder / "linked", folder / f"lib{linker}.so"
    run(command[0], "-shared", str(folder / "other.o"), "-o", str(library))
    text = PLACES[".text"]
    for _ in range(2):
        places = {section: PLACES[section] for section in sections} | {".text": text}
        options = [f"--section-start={section}={at:#x}" for section, at in places.items()]
        run(*command, *options, str(folder / "sites.o"), str(library), "-o", str(output))
        here, start = symbols_of(output), text
        text += PLACES[".text"] - here["_start"]
    assert here["_start"] == PLACES[".text"]
    return text_of(output, folder)[here["_start"] - start :], here


def rows(folder):
    before = text_of(folder / "sites.o", folder)
    (lld, here), (gnu, gnu_here) = (linked(*linker, folder) for linker in LINKERS)
    relocations = relocations_of(folder / "sites.o", ".text")
    skipped = {o for o, r_type, _, _ in relocations if r_type in (TLSGD, TLSLD)}
    prefixed = {o for o, r_type, _, _ in relocations if r_type == REL24_NOTOC}
    for o, r_type, name, addend in relocations:
        if name == ".TOC." or (r_type in (REL24, REL24_NOTOC) and o in skipped):
            continue
        if name in (".LC0", ".toc"):
            r_type = {TOC16_HA: GOT16_HA, TOC16_LO_DS: GOT16_LO_DS}[r_type]
            name, addend = "far", 0
        assert here.get(name) == gnu_here.get(name)
        is_stub = r_type == REL24 and name == "elsewhere"
        flags = (name in here and not is_stub) + 2 * is_stub + 4 * (o in prefixed)
        place = PLACES[".text"] + o
        symbol = here.get(name, 0) + addend
        if name == "own":
            symbol += PLACES[".tdata"]
        if r_type == REL24:
            # a stub's address isn't looked at; another function has its local entry point 8 on
            symbol = place if is_stub else symbol + 8
        # R_PPC64_TLS of prefixed code is at the second byte of the instruction
        is_prefixed = o in prefixed or o % 4 == 1 or r_type in PREFIXED
        o -= o % 4
        old = before[o : o + 8]
        # the bytes that the relocation's rewrite and value change
        is_call = r_type in (REL24, TLSGD, TLSLD) and not is_prefixed
        changed = 8 if is_call or r_type in PREFIXED else 4
        of_lld, of_gnu = (
            (old[:4] if is_stub else text[o : o + 4]) + (text if changed == 8 else before)[o + 4 : o + 8]
            for text in (lld, gnu)
        )
        word = int.from_bytes(old[:4], "little")
        assert (of_lld != of_gnu) == differs(r_type, name, word, is_prefixed), hex(o)
        yield r_type, flags, symbol, place, old, of_lld


def number(n):
    digits = f"{n:x}"
    groups = [digits[max(0, end - 4) : end] for end in range(len(digits), 0, -4)]
    return "0x" + "_".join(reversed(groups))


def ppc64():
    """Writes the table of PowerPC64."""
    with tempfile.TemporaryDirectory() as name:
        folder = Path(name)
        for source, made in (("ppc64", "sites"), ("ppc64_other", "other")):
            run("clang-19", TARGET, "-c", str(HERE / f"instructions/{source}.s"), "-o", str(folder / f"{made}.o"))
        table = list(rows(folder))
    text = [
        "//! What linkers leave of PowerPC64's instructions. `tools/oracle` makes it.",
        "",
        "/// By LLVM 19.1.7's linker: a relocation's type, 1 for a symbol that is defined there or 2 for a",
        "/// function that may change the TOC pointer, with 4 for the mark of a call of prefixed code, the",
        "/// symbol's address, the place, and the instruction's eight bytes before and after. GNU ld 2.40",
        "/// leaves the same, with the exceptions that `tools/oracles/rewrites.py` lists.",
        f"pub(crate) static SITES: [(u32, u8, u64, u64, u64, u64); {len(table)}] = [",
    ]
    for r_type, flags, symbol, place, old, new in table:
        words = [number(int.from_bytes(b, "little")) for b in (old, new)]
        text.append(f"    ({r_type}, {flags}, {number(symbol)}, {number(place)}, {words[0]}, {words[1]}),")
    text.append("];")
    write_table("ppc64/linked.rs", text)



def labelled(source):
    """The source with the label iN at instruction N, and the first instruction of each one's sequence."""
    lines, starts, start = [], [], 0
    text, rest = source.split("    .data\n")
    for line in text.split("\n"):
        if re.match("    [a-z]", line):
            n = len(starts)
            lines += [f"    .globl i{n}", f"i{n}:", line]
            if "%" in line and "%call36" not in line and "%le_" not in line:
                # the assembler marks only the others
                lines.append(f"    .reloc i{n}, R_LARCH_RELAX")
            starts.append(start)
        else:
            lines.append(line)
            start = len(starts) if line == "" else start
    end = len(starts)
    return "\n".join(lines) + f"\n    .globl i{end}\ni{end}:\n    .data\n{rest}", starts


def loongarch64():
    """Writes the table of LoongArch."""
    tool = "loongarch64-linux-gnu-{}".format
    with tempfile.TemporaryDirectory() as name:
        folder = Path(name)
        source, starts = labelled((HERE / "instructions/loongarch64.s").read_text())
        (folder / "sites.s").write_text(source)
        run(tool("as"), "-mrelax", str(folder / "sites.s"), "-o", str(folder / "sites.o"))
        run(tool("as"), str(HERE / "instructions/loongarch64_other.s"), "-o", str(folder / "other.o"))
        run(tool("ld"), "-shared", str(folder / "other.o"), "-o", str(folder / "libother.so"))
        run(tool("ld"), str(folder / "sites.o"), str(folder / "libother.so"), "-o", str(folder / "linked"))
        texts = []
        for file in ("sites.o", "linked"):
            run(tool("objcopy"), "-O", "binary", "-j", ".text", str(folder / file), str(folder / "text"))
            texts.append((folder / "text").read_bytes())
        symbols = (line.split() for line in run(tool("nm"), str(folder / "linked")).splitlines())
        here = {words[2]: int(words[0], 16) for words in symbols if len(words) == 3}
        headers = run(tool("readelf"), "-rlW", str(folder / "linked"))
        relocations = run(tool("readelf"), "-rW", str(folder / "sites.o"))
    image = int(re.search(r"^ +TLS +\S+ (0x\S+)", headers, re.M)[1], 16)
    entry = int(re.search(r"^(\S+) .*R_LARCH_TLS_TPREL64 .* other", headers, re.M)[1], 16)
    before, after = texts
    table = []
    for o, info, name in re.findall(r"^(\S+) +(\S+) +R_LARCH_\S+ +[0-9a-f]+ (\S+) \+ 0$", relocations, re.M):
        n, start = int(o, 16) // 4, starts[int(o, 16) // 4]
        words = [int.from_bytes(before[4 * k : 4 * k + 4], "little") for k in range(start, start + 4)]
        place = here[f"i{n}"]
        at = place - here["_start"]
        is_deleted = here[f"i{n + 1}"] == place
        word = 0 if is_deleted else int.from_bytes(after[at : at + 4], "little")
        symbol = here.get(name, 0) + (image if name in ("short", "long") else 0)
        table.append((int(info, 16) & 0xffffffff, 4 * (n - start), symbol, place, words, word))
    text = [
        "//! What GNU ld 2.44 leaves of LoongArch's instructions. `tools/oracle` makes it.",
        "",
        "/// The address of the TLS segment.",
        f"pub(crate) const IMAGE: u64 = {number(image)};",
        "",
        "/// The address of the GOT entry of a variable elsewhere.",
        f"pub(crate) const ENTRY: u64 = {number(entry)};",
        "",
        "/// A relocation's type, its offset in a sequence, the symbol's address, or 0 of one elsewhere, the",
        "/// place after all deletions, the sequence and what is behind it, and the word at the place, or 0",
        "/// where it was deleted.",
        f"pub(crate) static SITES: [(u32, u64, u64, u64, [u32; 4], u32); {len(table)}] = [",
    ]
    for r_type, at, symbol, place, words, word in table:
        listed = ", ".join(map(number, words))
        text.append(f"    ({r_type}, {at}, {number(symbol)}, {number(place)}, [{listed}], {number(word)}),")
    text.append("];")
    write_table("loongarch64/relaxed.rs", text)


RISCV = "--target=riscv64-linux-gnu"
RELAX, RISCV_LABELLED = "R_RISCV_RELAX", re.compile(r"([dgp]\d:|   ) [a-z]")


def riscv64_labelled(source):
    """The source with the label iN at instruction N. clang 19 doesn't mark descriptors."""
    lines, n, is_relaxed = [], 0, True
    text, rest = source.split("    .data\n")
    for line in text.split("\n"):
        if RISCV_LABELLED.match(line):
            lines += [f"    .globl i{n}", f"i{n}:", line]
            if "%tlsdesc" in line and is_relaxed:
                lines.append(f"    .reloc i{n}, {RELAX}")
            n += 1
        else:
            is_relaxed = is_relaxed and "norelax" not in line
            lines.append(line)
    return "\n".join(lines) + f"\n    .globl i{n}\ni{n}:\n    .data\n{rest}"


def riscv64_linked(folder, source, ld):
    """The instructions before, those after (none where one was deleted), the relocations, the symbols,
    the address of the TLS segment and that of the GOT entry of `other`."""
    (folder / "sites.s").write_text(riscv64_labelled(source))
    for made, file in (("sites", folder / "sites.s"), ("other", HERE / "instructions/riscv64_other.s")):
        run("clang-19", RISCV, "-march=rv64gc", "-c", str(file), "-o", str(folder / f"{made}.o"))
    run(ld, "-shared", str(folder / "other.o"), "-o", str(folder / "libother.so"))
    run(ld, str(folder / "sites.o"), str(folder / "libother.so"), "-o", str(folder / "linked"))
    here = symbols_of(folder / "linked")
    before, after = (text_of(folder / file, folder) for file in ("sites.o", "linked"))
    headers = run("llvm-readelf-19", "-rlW", str(folder / "linked"))
    image = int(re.search(r"^ +TLS +\S+ (0x\S+)", headers, re.M)[1], 16)
    entry = re.search(r"^(\S+) .*R_RISCV_TLS_TPREL64 .* other", headers, re.M)
    words = [int.from_bytes(before[k : k + 4], "little") for k in range(0, len(before), 4)]
    places = [here[f"i{n}"] for n in range(len(words) + 1)]
    left = [int.from_bytes(after[at - here["_start"] :][:4], "little") if behind > at else None
            for at, behind in zip(places, places[1:])]
    return words, left, places, here, image, int(entry[1], 16) if entry else 0


def riscv64():
    """Writes the table of RISC-V."""
    source = (HERE / "instructions/riscv64.s").read_text()
    with tempfile.TemporaryDirectory() as name:
        folder = Path(name)
        words, left, places, here, image, entry = riscv64_linked(folder, source, "ld.lld-19")
        lines = run("llvm-readelf-19", "-rW", str(folder / "sites.o"))
        # GNU ld 2.40 knows no descriptors
        blocks = [block for block in source.split("\n\n") if "%tlsdesc" not in block]
        gnu = riscv64_linked(folder, "\n\n".join(blocks), "riscv64-linux-gnu-ld")
    instructions = list(filter(RISCV_LABELLED.match, source.split("\n")))
    kept = [n for n, line in enumerate(instructions) if "%tlsdesc" not in line]
    of_gnu = dict(zip(kept, gnu[1]))
    found = [(int(o, 16) // 4, int(info, 16) & 0xffffffff, rest) for o, info, rest in
             re.findall(r"^([0-9a-f]{16}) +([0-9a-f]{16}) +R_RISCV_\S+ +(.*)$", lines, re.M)]
    marked = {n for n, code, _ in found if code == 51}
    high, table = {}, []
    for n, code, rest in found:
        if code == 51:
            continue
        symbol = rest.split()[1]
        if re.fullmatch(r"[dgp]\d", symbol):
            first, symbol = high[symbol]
        else:
            first = n
            label = re.match(r"([dgp]\d):", instructions[n])
            if label:
                high[label[1]] = (n, symbol)
        if symbol == "data":
            continue
        address = here.get(symbol, 0) + (image if symbol in ("near", "edge", "far") else 0)
        # after a descriptor's rewrite the high part is where its `addi` was
        place = places[n - 1] if code == 65 else places[n] if code == 64 else places[first]
        if n in of_gnu:
            assert of_gnu[n] == left[n], n
        table.append((code, n - first, (first in marked) + 2 * (symbol in here), address, place, words[n],
                      left[n] or 0))
    text = [
        "//! What LLVM 19.1.7's linker leaves of RISC-V's instructions. `tools/oracle` makes it.",
        "",
        "/// The address of the TLS segment.",
        f"pub(crate) const IMAGE: u64 = {number(image)};",
        "",
        "/// The address of the GOT entry of a variable elsewhere.",
        f"pub(crate) const ENTRY: u64 = {number(entry)};",
        "",
        "/// A relocation's type, its instruction in a sequence, 1 where it is marked plus 2 where the symbol",
        "/// is defined there, the symbol's address, or 0 of one elsewhere, the place by which its value is",
        "/// computed, and the instruction before and after, or 0 where it was deleted. GNU ld 2.40 leaves",
        "/// the same of local-exec.",
        f"pub(crate) static SITES: [(u32, u64, u8, u64, u64, u32, u32); {len(table)}] = [",
    ]
    for code, at, flags, symbol, place, old, new in table:
        text.append(f"    ({code}, {at}, {flags}, {number(symbol)}, {number(place)}, {number(old)}, "
                    f"{number(new)}),")
    text.append("];")
    load, pair = high["g0"][0], high["p0"][0]
    text += [
        "",
        "/// The address of a symbol, the place, a load from the GOT, and the `auipc` and `addi` there by",
        "/// which LLVM's linker has the address in the same register.",
        f"pub(crate) static ADDRESS: (u64, u64, [u32; 2], [u32; 2]) = ({number(here['data'])}, "
        f"{number(places[pair])},",
        f"    [{', '.join(map(number, words[load : load + 2]))}], "
        f"[{', '.join(map(number, left[pair : pair + 2]))}]);",
    ]
    write_table("riscv64/linked.rs", text)


def make(names):
    parts = {"ppc64": ppc64, "loongarch64": loongarch64, "riscv64": riscv64}
    for name in names or parts:
        parts[name]()
