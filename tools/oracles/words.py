# SPDX-License-Identifier: MIT OR Apache-2.0
"""`crates/linker_final/specs/*Table.antt`: what an emulator made of instructions.

It needs the Debian packages python3 and qemu-user. `rt check` in `crates/linker_final` then compares.

For each instruction below its immediate bits are all 0, all 1, each alone 1, each alone 0, and then
random, in 40 words or more. The registers and whatever else may vary are random, with a fixed seed.
qemu executes each word, and the table says of it what came of it, as 64 bits:

- `gains`: by how much the destination is more than the first operand, the pc or 0
- `jumps`: how far it goes from its own address, or from the base register
- `loads`: where, from the base register or the pc, memory has the bytes that were loaded. Memory is
  random, and the word is executed with four addresses. One distance fits all of them.
- `stores`: where, from the base register, memory has changed

A number from 2^63 on is in the second list of a word's instruction, by how far it is below 2^64.

What is read of a word by the definitions has to be that number, modulo 2^64. Exceptions:

- Bit 0 of `jalr`'s immediate stays 0, since the machine clears that bit of the sum. It varies where
  the call by `auipc` and `jalr` is compared with the laws of relocations (`without_bit_0`).
- `c.lui` has no word whose immediate bits are all 0, since that is reserved.
- LoongArch's `addi.d`, `ld.d` and `st.d` are compared modulo 2^12, since the definitions say which
  12 bits they hold (`loongarch_reads`), and not whether with a sign.
- Words are executed at multiples of a page's size, except for the pairs and sequences that begin
  with `adrp` or `pcalau12i`, which round the pc.

Not executed are LoongArch's `Call30`, of which nothing is claimed, since no manual says what its
pair computes; and PowerPC64's prefixed loads and stores, whose reach is larger than the memory
here: `paddi` stands for them. x86-64 has no forms.
"""
import random
from dataclasses import dataclass, field
from pathlib import Path
from typing import Callable

from oracles.emulator import BASE, PAGE, RANDOM, ZERO, Processor

ROOT = Path(__file__).resolve().parents[2]
ROWS = 40
ALL = 2 ** 64 - 1


@dataclass
class Instruction:
    """One or more instructions, whose bytes are one little-endian number."""
    name: str
    reads: str              # its form, or a name of the architecture's `others`
    opcode: int
    immediate: int          # the immediate bits
    observe: Callable       # what came of it, by the run
    unit: int = 1           # what came of it is so many times the number that is read
    fields: dict = field(default_factory=dict)    # of each register: the lowest bits of its fields
    random: int = 0         # bits that may be anything
    length: int = 4         # bytes
    steps: int = 1          # instructions
    after: bytes = b""      # a further instruction
    anywhere: bool = False  # executed at any multiple of 4; the row's number has that above the words
    bits: int = 64          # so many low bits are compared
    reserved: tuple = ()    # immediate bits and registers that it can't have
    not_registers: tuple = ()


@dataclass
class Architecture:
    file: str
    program: str
    cpu: str
    machine: int
    flags: int
    pc: int
    general: list           # registers that nothing is special about
    definitions: str        # the file with the forms, its function and enum of forms
    function: str
    enum: str
    module: str
    instructions: list
    others: dict = field(default_factory=dict)    # what is read that isn't a form's: uses and text


@dataclass
class Run:
    """A word, its registers, and the processor."""
    processor: Processor
    instruction: Instruction
    word: int
    registers: dict         # by the names of the fields
    random: random.Random
    address: int = 0        # where it was executed

    def start(self, values, amid_data=False):
        """Executes the word, and returns its address."""
        insn = self.instruction
        pages = self.processor.pages_amid_data if amid_data else self.processor.pages
        self.address = next(pages)
        if insn.anywhere:
            self.address += 4 * self.random.randrange(PAGE // 8)
        self.processor.run(self.word.to_bytes(insn.length, "little") + insn.after,
                           insn.steps, self.address, values)
        return self.address

    def get(self, name):
        return self.processor.register(self.registers[name])


# ---- what is seen of an instruction

def gains(origin="base", start=None):
    """The destination less the origin, which holds `start` or anything; an origin that is `None`
    counts as 0, and the destination then holds `start` before."""
    def observe(run):
        before = run.random.getrandbits(64) if start is None else start
        values = {run.registers["target"]: before if origin is None else run.random.getrandbits(64)}
        if origin == "base":
            values[run.registers["base"]] = before
        address = run.start(values)
        return run.get("target") - {"base": before, "pc": address, None: 0}[origin]
    return observe


def jumps(origin="pc", special=None, **values):
    """The pc after less the pc before or the base register. Registers hold the given values."""
    def observe(run):
        base = BASE + 16 * run.random.randrange(RANDOM)
        held = {run.registers[name]: value for name, value in values.items()} | (special or {})
        if origin == "base":
            held[run.registers["base"]] = base
        address = run.start(held)
        return run.processor.register(run.processor.pc) - (base if origin == "base" else address)
    return observe


def loads(size, origin="base", reach=1 << 17, into=0):
    """`into` is the number of the first register of the target's kind, or of a register that isn't
    in a field."""
    def observe(run):
        found = None
        for _ in range(4):
            if origin == "base":
                middle = BASE + RANDOM // 2 + PAGE * run.random.randrange(256)
                run.start({run.registers["base"]: middle})
            else:
                middle = run.start({}, amid_data=True)
            loaded = run.processor.register(run.registers.get("target", 0) + into) % 256 ** size
            places = run.processor.places_of(loaded.to_bytes(size, "little"), middle, reach)
            found = places if found is None else found & places
        distance, = found
        return distance
    return observe


def stores(size, reach):
    """The source register has all its bits set, and all of the memory there is 0."""
    middle = ZERO + (1 << 19)

    def observe(run):
        run.start({run.registers["base"]: middle, run.registers["target"]: ALL})
        memory = run.processor.read(middle - reach, 2 * reach)
        at = memory.find(255)
        assert memory.count(255) == size and memory[at:at + size] == b"\xff" * size, hex(run.word)
        run.processor.write(middle - reach + at, bytes(size))
        return at - reach
    return observe


# ---- sequences

def words(*numbers):
    """Words as one number, the first in bits 0 to 31."""
    return sum(number << 32 * k for k, number in enumerate(numbers))


def sequence(name):
    """What is read of it, by `specs/Sequences.antt`."""
    return [f"use Rattle.linker_final.specs.Sequences.{{{name}}}"], name


# ---- AArch64

RD_RN = {"target": [0], "base": [5]}
IMM12 = 0xfff << 10
IMM16_AT_5 = 0xffff << 5
IMM19 = 0x7ffff << 5


def aarch64_accesses(reads, unit):
    """Loads and stores with an offset of 12 bits, in units of so many bytes or, with None, of their
    size."""
    def access(name, opcode, size, observe):
        return Instruction(name, reads, opcode, IMM12, observe, unit or size, RD_RN)
    return [
        access("ldrb", 0x39400000, 1, loads(1)),
        access("ldrh", 0x79400000, 2, loads(2)),
        access("ldr w", 0xb9400000, 4, loads(4)),
        access("ldr x", 0xf9400000, 8, loads(8)),
        access("ldr b", 0x3d400000, 1, loads(1, into=34)),
        access("ldr s", 0xbd400000, 4, loads(4, into=34)),
        access("ldr q", 0x3dc00000, 16, loads(16, into=34)),
        access("strb", 0x39000000, 1, stores(1, 1 << 12)),
        access("str w", 0xb9000000, 4, stores(4, 1 << 14)),
        access("str x", 0xf9000000, 8, stores(8, 1 << 15)),
    ]


AARCH64 = Architecture(
    "AArch64", "qemu-aarch64", "cortex-a72", 183, 0, 32, [*range(18), *range(19, 31)], "AArch64",
    "aarch64_form", "AArch64Instruction", "aarch64", [
        Instruction("adr", "Adr", 0x10000000, 0x60ffffe0, gains("pc"), 1, {"target": [0]}),
        Instruction("adrp", "Adr", 0x90000000, 0x60ffffe0, gains("pc"), 4096, {"target": [0]}),
        *[Instruction(f"movk, lsl {16 * hw}", "Movkz", 0xf2800000 | hw << 21, IMM16_AT_5,
                      gains(None, 0), 2 ** (16 * hw), {"target": [0]}) for hw in range(4)],
        *[Instruction(f"movz, lsl {16 * hw}", "Movnz", 0xd2800000 | hw << 21, IMM16_AT_5,
                      gains(None), 1, {"target": [0]}) for hw in range(4)],
        *[Instruction(f"movn, lsl {16 * hw}", "Movnz", 0x92800000 | hw << 21, IMM16_AT_5,
                      gains(None), 1, {"target": [0]}) for hw in range(4)],
        Instruction("ldr w, literal", "Ldr", 0x18000000, IMM19, loads(4, "pc", 1 << 20), 4,
                    {"target": [0]}),
        Instruction("ldr x, literal", "Ldr", 0x58000000, IMM19, loads(8, "pc", 1 << 20), 4,
                    {"target": [0]}),
        Instruction("ldr x", "LdrRegister", 0xf9400000, IMM12, loads(8), 8, RD_RN),
        Instruction("add", "Add", 0x91000000, IMM12, gains(), 1, RD_RN),
        Instruction("add, lsl 12", "Add", 0x91400000, IMM12, gains(), 4096, RD_RN),
        *aarch64_accesses("LdSt", None),
        Instruction("tbz", "TstBr", 0x36000000, 0x3fff << 5, jumps(target=0), 4, {"target": [0]},
                    0x80f80000),
        Instruction("tbnz", "TstBr", 0x37000000, 0x3fff << 5, jumps(target=ALL), 4, {"target": [0]},
                    0x80f80000),
        Instruction("b.eq", "Bcond", 0x54000000, IMM19, jumps(special={33: 1 << 30}), 4),
        Instruction("b.ne", "Bcond", 0x54000001, IMM19, jumps(special={33: 0}), 4),
        Instruction("b.al", "Bcond", 0x5400000e, IMM19, jumps(), 4),
        Instruction("cbz", "Bcond", 0xb4000000, IMM19, jumps(target=0), 4, {"target": [0]}),
        Instruction("cbnz", "Bcond", 0xb5000000, IMM19, jumps(target=1), 4, {"target": [0]}),
        Instruction("b", "JumpCall", 0x14000000, 0x3ffffff, jumps(), 4),
        Instruction("bl", "JumpCall", 0x94000000, 0x3ffffff, jumps(), 4),
        Instruction("add", "MachOLow12", 0x91000000, IMM12, gains(), 1, RD_RN),
        *aarch64_accesses("MachOLow12", 1),
        Instruction("movz; movk, lsl 16; movk, lsl 32; movk, lsl 48", "Moves",
                    words(0xd2800000, 0xf2a00000, 0xf2c00000, 0xf2e00000), words(*[IMM16_AT_5] * 4),
                    gains(None), 1, {"target": [0, 32, 64, 96]}, length=16, steps=4),
        Instruction("adrp, add", "Page", words(0x90000000, 0x91000000), words(0x60ffffe0, IMM12),
                    gains(None), 1, {"target": [32], "middle": [0, 37]}, length=8, steps=2,
                    anywhere=True),
    ], {"Moves": sequence("moves_number"), "Page": sequence("page_number")})


# ---- RISC-V

RD = {"target": [7]}
RD_RS1 = {"target": [7], "base": [15]}
RS2_RS1 = {"target": [20], "base": [15]}
U_TYPE = 0xfffff000
I_TYPE = 0xfff00000
S_TYPE = 0xfe000f80
PAIR = words(U_TYPE, I_TYPE)
PAIR_REGISTERS = {"target": [39], "middle": [7, 47]}

RISCV = Architecture(
    "RiscV", "qemu-riscv64", "rv64", 243, 5, 32, list(range(1, 32)), "RiscV", "riscv_form",
    "RiscVInstruction", "riscv64", [
        Instruction("lui", "UType", 0x37, U_TYPE, gains(None), 1, RD),
        Instruction("auipc", "UType", 0x17, U_TYPE, gains("pc"), 1, RD),
        Instruction("addi", "IType", 0x13, I_TYPE, gains(), 1, RD_RS1),
        Instruction("addiw", "IType", 0x1b, I_TYPE, gains(start=0), 1, RD_RS1),
        Instruction("lbu", "IType", 0x4003, I_TYPE, loads(1), 1, RD_RS1),
        Instruction("lh", "IType", 0x1003, I_TYPE, loads(2), 1, RD_RS1),
        Instruction("lw", "IType", 0x2003, I_TYPE, loads(4), 1, RD_RS1),
        Instruction("ld", "IType", 0x3003, I_TYPE, loads(8), 1, RD_RS1),
        Instruction("fld", "IType", 0x3007, I_TYPE, loads(8, into=33), 1, RD_RS1),
        Instruction("jalr", "IType", 0x67, I_TYPE & ~(1 << 20), jumps("base"), 1, RD_RS1),
        Instruction("sb", "SType", 0x23, S_TYPE, stores(1, 2064), 1, RS2_RS1),
        Instruction("sh", "SType", 0x1023, S_TYPE, stores(2, 2064), 1, RS2_RS1),
        Instruction("sw", "SType", 0x2023, S_TYPE, stores(4, 2064), 1, RS2_RS1),
        Instruction("sd", "SType", 0x3023, S_TYPE, stores(8, 2064), 1, RS2_RS1),
        *[Instruction(name, "BType", 0x63 | function << 12, S_TYPE, jumps(base=a, target=b), 1,
                      RS2_RS1)
          for name, function, a, b in [("beq", 0, 7, 7), ("bne", 1, 7, 8), ("blt", 4, ALL, 0),
                                       ("bge", 5, 0, ALL), ("bltu", 6, 0, ALL),
                                       ("bgeu", 7, ALL, 0)]],
        Instruction("jal", "JType", 0x6f, U_TYPE, jumps(), 1, RD),
        Instruction("c.beqz", "CbType", 0xc001, 0x1c7c, jumps(special={r: 0 for r in range(8, 16)}),
                    random=0x380, length=2),
        Instruction("c.bnez", "CbType", 0xe001, 0x1c7c, jumps(special={r: 1 for r in range(8, 16)}),
                    random=0x380, length=2),
        Instruction("c.j", "CjType", 0xa001, 0x1ffc, jumps(), length=2),
        Instruction("c.lui", "CluiType", 0x6001, 0x107c, gains(None), 1, RD, length=2,
                    reserved=(0,), not_registers=(2,)),
        Instruction("lui, addi", "UiType", words(0x37, 0x13), PAIR, gains(None), 1, PAIR_REGISTERS,
                    length=8, steps=2),
        Instruction("auipc, addi", "UiType", words(0x17, 0x13), PAIR, gains("pc"), 1,
                    PAIR_REGISTERS, length=8, steps=2),
        Instruction("auipc, jalr", "UiType", words(0x17, 0x67), PAIR & ~(1 << 52), jumps(), 1,
                    PAIR_REGISTERS, length=8, steps=2),
        Instruction("auipc, jalr", "Call", words(0x17, 0x67), PAIR, jumps(), 1, PAIR_REGISTERS,
                    length=8, steps=2),
    ], {"Call": sequence("call_number")})


# ---- LoongArch

RJ = {"target": [0], "base": [5]}
IMM20 = 0xfffff << 5
IMM16 = 0xffff << 10
BRANCH26 = 0x3ffffff
BRANCH21 = 0x3fffc1f

LOONGARCH = Architecture(
    "LoongArch", "qemu-loongarch64", "la464-loongarch-cpu", 258, 0x43, 33,
    [r for r in range(1, 32) if r != 21], "LoongArch", "loongarch_form", "LoongArch64Instruction",
    "loongarch64", [
        *[Instruction(name, "Shift5", opcode, IMM20, gains(origin, 0), unit, {"target": [0]})
          for name, opcode, origin, unit in [
              ("lu12i.w", 0x14000000, None, 4096), ("lu32i.d", 0x16000000, None, 2 ** 32),
              ("pcaddi", 0x18000000, "pc", 4), ("pcalau12i", 0x1a000000, "pc", 4096),
              ("pcaddu12i", 0x1c000000, "pc", 4096), ("pcaddu18i", 0x1e000000, "pc", 2 ** 18)]],
        Instruction("addu16i.d", "Shift10", 0x10000000, IMM16, gains(), 2 ** 16, RJ),
        Instruction("jirl", "Shift10", 0x4c000000, IMM16, jumps("base"), 4, RJ),
        *[Instruction(name, "Shift10", opcode, IMM16, jumps(base=a, target=b), 4, RJ)
          for name, opcode, a, b in [
              ("beq", 0x58000000, 7, 7), ("bne", 0x5c000000, 7, 8), ("blt", 0x60000000, ALL, 0),
              ("bge", 0x64000000, 0, ALL), ("bltu", 0x68000000, 0, ALL),
              ("bgeu", 0x6c000000, ALL, 0)]],
        Instruction("addi.d", "Low12", 0x02c00000, IMM12, gains(), 1, RJ, bits=12),
        Instruction("ld.d", "Low12", 0x28c00000, IMM12, loads(8), 1, RJ, bits=12),
        Instruction("st.d", "Low12", 0x29c00000, IMM12, stores(8, 2064), 1, RJ, bits=12),
        Instruction("ori", "Low12", 0x03800000, IMM12, gains(start=0), 1, RJ),
        Instruction("lu52i.d", "Low12", 0x03000000, IMM12, gains(start=2 ** 52 - 1), 2 ** 52, RJ),
        *[Instruction(name, "Branch21", opcode, BRANCH21, jumps(base=value), 4, {"base": [5]})
          for name, opcode, value in [("beqz", 0x40000000, 0), ("bnez", 0x44000000, 1)]],
        Instruction("bceqz", "Branch21", 0x48000000, BRANCH21, jumps(), 4, random=0xe0),
        Instruction("b", "Branch26", 0x50000000, BRANCH26, jumps(), 4),
        Instruction("bl", "Branch26", 0x54000000, BRANCH26, jumps(), 4),
        *[Instruction("pcaddu18i, jirl", reads, words(0x1e000000, 0x4c000000),
                      words(IMM20, IMM16), jumps(), unit, {"target": [32], "middle": [0, 37]},
                      length=8, steps=2) for reads, unit in [("Call36", 4), ("Reach", 1)]],
        Instruction("addi.d, lu32i.d, lu52i.d", "Parts", words(0x02c00000, 0x16000000, 0x03000000),
                    words(IMM12, IMM20, IMM12), gains(None), 1, {"target": [0, 32, 64, 69]},
                    length=12, steps=3),
        Instruction("lu12i.w, ori", "Upper", words(0x14000000, 0x03800000), words(IMM20, IMM12),
                    gains(None), 1, {"target": [32], "middle": [0, 37]}, length=8, steps=2),
        Instruction("lu12i.w, ori, lu32i.d, lu52i.d", "Four",
                    words(0x14000000, 0x03800000, 0x16000000, 0x03000000),
                    words(IMM20, IMM12, IMM20, IMM12), gains(None), 1,
                    {"target": [0, 32, 37, 64, 96, 101]}, length=16, steps=4),
        Instruction("pcalau12i, addi.d", "Near", words(0x1a000000, 0x02c00000),
                    words(IMM20, IMM12), gains(None), 1, {"target": [32], "middle": [0, 37]},
                    length=8, steps=2, anywhere=True),
        Instruction("pcalau12i, addi.d, lu32i.d, lu52i.d, add.d", "Address",
                    words(0x1a000000, 0x02c00000, 0x16000000, 0x03000000, 0x00108000),
                    words(IMM20, IMM12, IMM20, IMM12), gains(None), 1,
                    {"target": [128], "middle": [0, 133], "number": [32, 64, 96, 101, 138]},
                    length=20, steps=5, anywhere=True),
    ], {"Low12": (["use Rattle.std.specs.Prelude.{false}",
                   "use Rattle.linker_elf.specs.Agrees.{loongarch_reads}"],
                  "(loongarch_reads Shift10 false)"),
        "Reach": (["use Rattle.linker_elf.specs.LoongArch.{reach}"], "reach"),
        "Parts": sequence("parts_number"), "Upper": sequence("upper_number"),
        "Four": sequence("four_number"), "Near": sequence("near_number"),
        "Address": sequence("address_number")})


# ---- PowerPC64

RT_RA = {"target": [21], "base": [16]}
PREFIXED = words(0x3ffff, 0xffff)

PPC64 = Architecture(
    "Ppc64", "qemu-ppc64le", "power10", 21, 2, 64, list(range(3, 32)), "Ppc64", "ppc64_form",
    "Ppc64Form", "ppc64", [
        Instruction("addi", "D", 0x38000000, 0xffff, gains(), 1, RT_RA),
        Instruction("addis", "D", 0x3c000000, 0xffff, gains(), 2 ** 16, RT_RA),
        *[Instruction(name, "D", opcode, 0xffff, loads(size), 1, RT_RA)
          for name, opcode, size in [("lbz", 0x88000000, 1), ("lhz", 0xa0000000, 2),
                                     ("lha", 0xa8000000, 2), ("lwz", 0x80000000, 4)]],
        Instruction("stb", "D", 0x98000000, 0xffff, stores(1, 1 << 16), 1, RT_RA),
        Instruction("stw", "D", 0x90000000, 0xffff, stores(4, 1 << 16), 1, RT_RA),
        Instruction("ld", "Ds", 0xe8000000, 0xfffc, loads(8), 1, RT_RA),
        Instruction("lwa", "Ds", 0xe8000002, 0xfffc, loads(4), 1, RT_RA),
        Instruction("std", "Ds", 0xf8000000, 0xfffc, stores(8, 1 << 16), 1, RT_RA),
        Instruction("lxv", "Dq", 0xf4000001, 0xfff0, loads(8, into=5), 1, {"base": [16]}, steps=2,
                    after=bytes.fromhex("6602057c")),    # `mfvsrld 5, 0`
        # always; and, of any bit of the condition register, where it is set and where it isn't
        Instruction("bc, always", "Branch14", 0x42800000, 0xfffc, jumps(), random=0x1f0001),
        Instruction("bc, if set", "Branch14", 0x41800000, 0xfffc, jumps(special={66: 2 ** 32 - 1}),
                    random=0x1f0001),
        Instruction("bc, if clear", "Branch14", 0x40800000, 0xfffc, jumps(special={66: 0}),
                    random=0x1f0001),
        Instruction("b", "Branch24", 0x48000000, 0x3fffffc, jumps()),
        Instruction("bl", "Branch24", 0x48000001, 0x3fffffc, jumps()),
        Instruction("paddi", "Prefixed", words(0x06000000, 0x38000000), PREFIXED, gains(), 1,
                    {"target": [53], "base": [48]}, length=8),
        Instruction("pla", "Prefixed", words(0x06100000, 0x38000000), PREFIXED, gains("pc"), 1,
                    {"target": [53]}, length=8),
        Instruction("ori", "DUnsigned", 0x60000000, 0xffff, gains(start=0), 1,
                    {"target": [16], "base": [21]}),
        Instruction("oris", "DUnsigned", 0x64000000, 0xffff, gains(start=0), 2 ** 16,
                    {"target": [16], "base": [21]}),
        Instruction("addis, addi", "Halves", words(0x3c000000, 0x38000000), words(0xffff, 0xffff),
                    gains(), 1, {"target": [53], "middle": [21, 48], "base": [16]}, length=8,
                    steps=2),
        Instruction("lis, ori", "Unadjusted", words(0x3c000000, 0x60000000), words(0xffff, 0xffff),
                    gains(None), 1, {"target": [48], "middle": [21, 53]}, length=8, steps=2),
        Instruction("lis, ori, sldi 32, oris, ori", "Quarters",
                    words(0x3c000000, 0x60000000, 0x780007c6, 0x64000000, 0x60000000),
                    words(0xffff, 0xffff, 0, 0xffff, 0xffff), gains(None), 1,
                    {"target": [21, 48, 53, 80, 85, 112, 117, 144, 149]}, length=20, steps=5),
    ], {"Dq": (["use Rattle.linker_elf.specs.Relocate.{ppc64_reads}"], "(ppc64_reads Ds)"),
        "Halves": sequence("halves_number"), "Unadjusted": sequence("unadjusted_number"),
        "Quarters": sequence("quarters_number")})

ARCHITECTURES = {"aarch64": AARCH64, "riscv": RISCV, "loongarch": LOONGARCH, "ppc64": PPC64}


# ---- the words

def immediates(instruction, chance):
    """All 0, all 1, each bit alone 1, each bit alone 0, and then random."""
    mask = instruction.immediate
    bits = [1 << k for k in range(mask.bit_length()) if mask >> k & 1]
    numbers = [0, mask, *bits, *(mask - bit for bit in bits)]
    numbers = [number for number in numbers if number not in instruction.reserved]
    while len(numbers) < max(ROWS, 2 * len(bits) + 8):
        number = chance.getrandbits(8 * instruction.length) & mask
        if number not in numbers and number not in instruction.reserved:
            numbers.append(number)
    return numbers


def rows_of(architecture, processor, instruction):
    """Each word with what came of it."""
    chance = random.Random(f"{instruction.reads} {instruction.name}")
    allowed = [r for r in architecture.general if r not in instruction.not_registers]
    rows = []
    for immediate in immediates(instruction, chance):
        word = instruction.opcode | immediate | chance.getrandbits(64) & instruction.random
        registers = dict(zip(instruction.fields, chance.sample(allowed, len(instruction.fields))))
        for name, places in instruction.fields.items():
            for place in places:
                word |= registers[name] << place
        run = Run(processor, instruction, word, registers, chance)
        seen = instruction.observe(run)
        if instruction.anywhere:
            word |= run.address << 8 * instruction.length
        rows.append((word, seen % 2 ** 64))
    return rows


# ---- the file

def unit_text(unit):
    """A unit as a power of two."""
    return f"(2 ^ {unit.bit_length() - 1})" if unit > 1 else "1"


def number_text(number):
    return f"{number}" if number < 10 else f"0x{number:x}"


def filled(texts):
    """Texts in lines of at most 100 columns."""
    lines = ["   "]
    for text in texts:
        if len(lines[-1]) + len(text) > 99:
            lines.append("   ")
        lines[-1] += " " + text
    return lines


def written(architecture, tables):
    """The file of tables, and of what holds of them."""
    forms = list(dict.fromkeys(insn.reads for insn, _ in tables))
    others = architecture.others

    scaled = any(insn.unit > 1 for insn, _ in tables)

    def machine(form):
        return f"({architecture.function} {form}).machine"

    declared = f"Rattle.linker_elf.specs.declared.{architecture.module}.forms.{architecture.enum}"
    lines = [
        f"-- What {architecture.program} made of instructions. `tools/oracle words` makes this file.",
        f"use Rattle.std.specs.Prelude.{{List, [], ◌∷◌{', ◌^◌' if scaled else ''}}}",
        f"use Rattle.linker_elf.specs.{architecture.definitions}.{{{architecture.function}}}",
        *(f"use {declared}.TheVariants.{{{form}}}" for form in forms if form not in others),
        *(use for form in forms if form in others for use in others[form][0]),
        "use Rattle.linker_final.specs.Emulated.{Words, words, IsComputed}",
    ]
    for form in forms:
        lines += ["", f"unfoldable pub {table(form)} : List Words", f"{table(form)} ="]
        for insn, rows in tables:
            if insn.reads == form:
                lines += [f"    -- {insn.name}", f"    words {unit_text(insn.unit)} {insn.bits} ("]
                digits = 2 * insn.length
                lines += filled([f"(0x{word:0{digits}x}, {number_text(seen)}) ∷"
                                 for word, seen in rows if seen < 2 ** 63] + ["[]) ("])
                lines += filled([f"(0x{word:0{digits}x}, {number_text(2 ** 64 - seen)}) ∷"
                                 for word, seen in rows if seen >= 2 ** 63] + ["[]) ∷"])
        lines += ["    []"]
    lines += ["", "-- What is read of the words is what came of them.", "abbrev pub Agrees : Type 0",
              "Agrees ="]
    lines += ["    " + "\n    × ".join(
        f"IsComputed {others[form][1] if form in others else machine(form)} {table(form)}"
        for form in forms)]
    return "\n".join(lines) + "\n"


def table(form):
    return f"{form.lower()}_words"


def make(names):
    for name in names or ARCHITECTURES:
        architecture = ARCHITECTURES[name]
        processor = Processor(architecture.program, architecture.cpu, architecture.machine,
                              architecture.flags, architecture.pc)
        try:
            tables = [(insn, rows_of(architecture, processor, insn))
                      for insn in architecture.instructions]
        finally:
            processor.close()
        (ROOT / f"crates/linker_final/specs/{architecture.file}Table.antt").write_text(
            written(architecture, tables))
        print(f"{name}: {len(tables)} instructions, {sum(len(rows) for _, rows in tables)} words")
