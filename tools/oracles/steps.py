# SPDX-License-Identifier: MIT OR Apache-2.0
"""`crates/linker_final/specs/*Steps.antt`: what an emulator made of single instructions.

It needs the Debian packages python3-unicorn, whose emulator is made of qemu's and executes the
instructions of the first three, and qemu-user for PowerPC64. For LoongArch it takes Debian 13's
qemu, which has vector registers, from the folder LOONGARCH_ROOT that `examples/real/loongarch`
fills. `rt check` in `crates/linker_final` then compares with the instructions of `linker_laws`.

Of each instruction there are 40 rows, and of those that do nothing four. A state has a number at each place: at 0
to 65 and at 128 to 159 the registers, at `m0` to `m3` 8 bytes of memory each, at `flags` the flags,
at `pc` the address of the instruction, and at `at` the address of the memory. Operands and
immediates are extremes (0, 1, all ones, the largest and the least of 32 and of 64 signed bits) in
turn, and then random with a fixed seed. Addresses of LoongArch and PowerPC64 wrap, and numbers in
memory aren't aligned.

Of PowerPC64's functions that save and restore registers there is a row for each, from its first
instruction until it has returned. Its memory is at places 160 to 185.

The numbers before are made of the row's own number by `noise`, but for those that the row has
behind `with`. `specs/Steps.antt` and `specs/ARCHExecuted.antt` define the same, and there a
difference is an error of the check. Behind `=>` a row has the numbers after that aren't as before,
or for `pc` not the address of the next instruction. All other places are compared as well. The
instruction is one number: its highest byte is x86-64's first, and the last one of the others.

AF after a logical operation of x86-64 isn't compared: the manual leaves it undefined. Nor is a
`stfs` of PowerPC64 of a number that is too small for single precision, for the same reason. CR,
XER, FPSCR, VSCR and VRSAVE of PowerPC64, which the definitions don't have, have to keep their
numbers, as the vector registers have to in rows of other instructions than theirs.
"""
import os
import random
from dataclasses import dataclass, field
from pathlib import Path

import unicorn
from unicorn import arm64_const as arm, riscv_const as riscv, x86_const as x86
from oracles.emulator import PAGE as CODE_PAGE, Emulator

ROOT = Path(__file__).resolve().parents[2]
ROWS = 40
ALL = 2**64 - 1
PAGE = 4096
EXTREMES = [0, 1, ALL, 2**63, 2**63 - 1, 2**31, 2**31 - 1, 2**32 - 1, ALL - 2**31, ALL - 2**31 + 1]
SHORT = [0, 1, 2**32 - 1, 2**31, 2**31 - 1]
# places of a state beside the registers
MEMORY, FLAGS, PC, AT = 96, 100, 101, 102
NAMES = {MEMORY: "m0", MEMORY + 1: "m1", MEMORY + 2: "m2", MEMORY + 3: "m3", FLAGS: "flags",
         PC: "pc", AT: "at"}


def noise(bits, k):
    """A pseudo-random number of so many bits: the middle of a square."""
    golden = 0x9e3779b97f4a7c15f39cc0605cedc8341082276bf3a27251f86c6a11d0c18e95
    n = k * golden % 2**bits
    return (n * n >> bits // 2) % 2**bits


class Numbers(dict):
    """The numbers before by their places. Those that aren't put are made of the row's."""

    def __init__(self, row, made):
        self.row, self.made = row, made

    def __missing__(self, place):
        return self.made(self.row, place)

    def memory(self, places):
        return b"".join(self[place].to_bytes(8, "little") for place in places)


@dataclass
class Row:
    """An instruction, or some, where its memory is, and what the table has in place of a function's
    instructions."""
    code: bytes
    before: Numbers
    after: dict = None
    places: range = range(MEMORY, MEMORY + 4)
    has_vectors: bool = False   # whether vector registers are among the numbers
    function: int = None

    @property
    def steps(self):
        return 1 if self.function is None else len(self.code) // 4

    def __post_init__(self):
        for place, number in self.before.items():
            if number < 0:
                self.before[place] = number % 2**64

    def given(self):
        """The numbers before that aren't made of the row's."""
        before = self.before
        return {place: before[place] for place in sorted(before)
                if before[place] != before.made(before.row, place)}

    def left(self, mask):
        """The numbers after that aren't as before, and of the flags only the bits of a mask."""
        before = self.before
        kept = {place: before[place] for place in self.after}
        kept |= {PC: (before[PC] + len(self.code)) % 2**64, FLAGS: before[FLAGS] & mask}
        after = self.after | {FLAGS: self.after.get(FLAGS, 0) & mask}
        return {place: after[place] for place in sorted(after) if after[place] != kept[place]}


@dataclass
class Group:
    """Rows of one instruction, and the bits of the flags that are compared."""
    name: str
    rows: list
    mask: int = 0


@dataclass
class Functions:
    """Functions that end with the same instructions, by the code of the longest."""
    name: str
    code: bytes
    rows: list
    mask: int = 0


@dataclass
class Chance:
    """Extremes in turn, and then random numbers."""
    seed: str
    turn: int = 0
    draw: random.Random = field(init=False)

    def __post_init__(self):
        self.draw = random.Random(self.seed)

    def of(self, extremes, bits, n):
        """The number of an operand of some bits, where n operands vary one after the other."""
        if self.turn < ROWS // 2:
            return extremes[(self.turn * n + self.turn // len(extremes)) % len(extremes)]
        return self.draw.getrandbits(bits)

    def put(self, numbers, place, extremes, n):
        """Puts an extreme at a place. After the extremes the number there is noise."""
        if self.turn < ROWS // 2:
            numbers[place] = self.of(extremes, 64, n)


# ---- what runs a row

class Processor:
    """The numbers of states before rows."""
    count = 0       # rows so far
    zero = False    # whether register 0 is always 0

    def vector_groups(self):
        """Instructions of vector registers that a table of their own has."""
        return []

    def functions(self):
        """Functions of which there are rows."""
        return []

    def numbers(self):
        """The numbers of the next row, of which none is put."""
        self.count += 1
        return Numbers(self.count, self.made)

    def made(self, row, place):
        """What is made of a row's number for a place."""
        number = noise(64, 256 * row + place)
        if place == PC:
            return self.code_at(row, number)
        if place == AT:
            return self.data_at(number)
        return 0 if place == 0 and self.zero else number


class Unicorn(Processor):
    """An emulator for each row, with memory only where the row has it."""
    by = f"the emulator unicorn {unicorn.__version__}"
    flags = None    # the number of the flags
    unit = 1        # instructions are at multiples of it

    def code_at(self, row, number):
        return 7 * 2**44 + self.unit * (number % 2**30)

    def data_at(self, number):
        return 6 * 2**44 + number % 2**30

    def prepare(self, engine):
        pass

    def close(self):
        pass

    def executed(self, row):
        """The numbers after the row's instruction, by their places."""
        engine = unicorn.Uc(*self.engine)
        address, at = row.before[PC], row.before[AT]
        mapped = set()
        # the emulator reads code ahead
        for start, end in ((address, address + PAGE), (at, at + 32)):
            for page in range(start // PAGE, (end - 1) // PAGE + 1):
                if page not in mapped:
                    mapped.add(page)
                    engine.mem_map(page * PAGE, PAGE)
        self.prepare(engine)
        engine.mem_write(at, row.before.memory(row.places))
        engine.mem_write(address, row.code)
        for number, register in self.registers.items():
            engine.reg_write(register, row.before[number])
        if self.flags:
            engine.reg_write(self.flags, row.before[FLAGS] & X86_FLAGS | 2)
        ran = []
        engine.hook_add(unicorn.UC_HOOK_CODE, lambda *_: ran.append(True))
        # where a branch goes there may be no memory
        try:
            engine.emu_start(address, 0, count=1)
        except unicorn.UcError as error:
            if error.errno != unicorn.UC_ERR_FETCH_UNMAPPED:
                raise
        assert ran, f"{row.code.hex()} wasn't executed"
        after = {number: engine.reg_read(register) for number, register in self.registers.items()}
        after |= in_words(engine.mem_read(at, 32), row.places) | {PC: engine.reg_read(self.pc)}
        return after | ({FLAGS: engine.reg_read(self.flags)} if self.flags else {})


def in_words(memory, places):
    """The numbers of 8 bytes of memory each by their places."""
    return {place: int.from_bytes(memory[8 * k:8 * k + 8], "little")
            for k, place in enumerate(places)}


class QemuUser(Processor):
    """A processor of qemu's user emulation. Its memory begins at 0, so that addresses wrap, and
    goes on at distances that only 34 bits reach. The lower half of each part is for code, and the
    upper for data."""
    parts = 0, 2**33, 2**34
    length = 2**27
    keeps = ()      # registers that aren't in a row and stay as they are, by GDB's numbers

    def __init__(self):
        self.by = self.processor[0]
        self.qemu = Emulator(*self.processor, [(part, self.length, b"") for part in self.parts])

    def close(self):
        self.qemu.close()

    def code_at(self, row, number):
        """Where an instruction is: in a page that is code in no other part and no other row, but
        for the page's first and last 1,024 bytes. The first pages are for data with low addresses.
        """
        page = 2**20 + CODE_PAGE * row
        assert page + CODE_PAGE <= self.length // 2
        words = CODE_PAGE // 4 - 2**9
        return self.parts[number % 3] + page + 2**10 + 4 * (number // 3 % words)

    def data_at(self, number):
        return self.parts[number % 3] + self.length // 2 + number // 3 % 2**24

    def executed(self, row):
        """The numbers after the row's instructions, by their places."""
        at = row.before[AT]
        registers, keeps = self.compared(row)
        self.qemu.write(at, row.before.memory(row.places))
        kept = [self.qemu.register(number) for number in keeps]
        self.qemu.run(row.code, row.steps, row.before[PC],
                      {of: self.given(n, row.before[n]) for n, of in registers.items()})
        assert kept == [self.qemu.register(number) for number in keeps], row.code.hex()
        after = {n: self.qemu.register(of) for n, of in registers.items()}
        after |= in_words(self.qemu.read(at, 8 * len(row.places)), row.places)
        return after | {PC: self.qemu.register(self.qemu.pc)}

    def compared(self, row):
        """The registers that a row has, by their places, and those that have to stay."""
        return self.registers, self.keeps

    def given(self, place, number):
        """The number by which qemu takes a register's."""
        return number


# ---- x86-64

X86_FLAGS = 0x8d5   # CF, PF, AF, ZF, SF and OF
X86_GROUP_1 = ["add", "or", "adc", "sbb", "and", "sub", "xor", "cmp"]
LOGICAL = {"or", "and", "xor", "test"}


class X86(Unicorn):
    """Register 16 is where the FS segment begins."""
    file = "X86"
    engine = unicorn.UC_ARCH_X86, unicorn.UC_MODE_64
    pc, flags = x86.UC_X86_REG_RIP, x86.UC_X86_REG_EFLAGS
    names = "RAX RCX RDX RBX RSP RBP RSI RDI R8 R9 R10 R11 R12 R13 R14 R15".split()
    registers = {n: getattr(x86, f"UC_X86_REG_{name}") for n, name in enumerate(names)}
    registers[16] = x86.UC_X86_REG_FS_BASE

    def row(self, chance, opcode, group, operand, prefixes=("", "rex")):
        """One instruction. Its operand is in memory, an immediate, or the target of a branch."""
        choose = chance.draw
        prefix = choose.choice(prefixes)
        register = choose.randrange(16 if prefix == "rex" else 8)
        wide, low = choose.getrandbits(1), register & 7
        of_rm = operand == "immediate"
        rex = 0x40 | wide << 3 | (register >> 3) << (0 if of_rm else 2)
        field = group if group is not None else low
        modrm = 0xc0 | field << 3 | low if of_rm else field << 3 | 5
        code = bytes([rex] if prefix == "rex" else []) + bytes.fromhex(opcode)
        if operand != "direct":
            code += bytes([modrm])
        numbers = self.numbers()
        address = numbers[PC]
        distance = chance.of(SHORT, 32, 3)
        end = address + len(code) + 4
        at = end + (distance - (distance >> 31 << 32)) - 8
        if operand != "memory" or abs(at - address) < 0x100:
            at = numbers[AT]
            if operand == "memory":
                distance = (choose.getrandbits(31) | 0x1000) & 0x7fff_ffff
                at = end + distance - 8
        code += distance.to_bytes(4, "little")
        numbers[AT] = at
        is_branch = operand == "direct" or group in (2, 4) and opcode == "ff"
        if operand == "memory":
            chance.put(numbers, MEMORY + 1, EXTREMES, 7)
        if operand == "memory" and is_branch:   # what a branch goes to is an address
            numbers[MEMORY + 1] = choose.getrandbits(47)
        if not is_branch:
            chance.put(numbers, register, EXTREMES, 1)
        # a call, and what is pushed
        if is_branch and group != 4 and opcode != "e9" or opcode == "ff" and group == 6:
            numbers[4] = at + 8
        return Row(code, numbers)

    def other_row(self, chance, name):
        """`lea` from a register, and loads of the FS segment."""
        choose = chance.draw
        register, base = choose.randrange(16), choose.choice([0, 1, 2, 3, 5, 6, 7])
        wide, of_base = choose.getrandbits(1), choose.getrandbits(1)
        if name == "mov %fs:":
            wide, of_base = 1, 0
        rex = 0x40 | wide << 3 | (register >> 3) << 2 | of_base
        distance = chance.of(SHORT, 32, 3)
        numbers = self.numbers()
        chance.put(numbers, register, EXTREMES, 1)
        if name == "mov %fs:":
            code = bytes([0x64, rex, 0x8b, 4 | (register & 7) << 3, 0x25])
            numbers[16] = numbers[AT] + 8 - (distance - (distance >> 31 << 32))
        else:
            code = bytes([rex, 0x8d, 0x80 | (register & 7) << 3 | base])
            chance.put(numbers, base | of_base << 3, EXTREMES, 3)
        code += distance.to_bytes(4, "little")
        return Row(code, numbers)

    def groups(self):
        listed = [("mov", "8b", None, "memory"), ("lea", "8d", None, "memory"),
                  ("test", "85", None, "memory"), ("mov $", "c7", 0, "immediate"),
                  ("test $", "f7", 0, "immediate")]
        for k, name in enumerate(X86_GROUP_1):
            listed += [(name, f"{8 * k + 3:02x}", None, "memory"), (f"{name} $", "81", k, "immediate")]
        plain = [""]
        listed += [("call *", "ff", 2, "memory", plain), ("jmp *", "ff", 4, "memory", plain),
                   ("addr32 call", "67e8", None, "direct", plain),
                   ("call", "e8", None, "direct", plain), ("jmp", "e9", None, "direct", plain)]
        pushes = [("push $", "68", None, "direct", plain), ("push", "ff", 6, "memory", plain)]
        for name, *parts in listed:
            mask = X86_FLAGS & ~0x10 if name.split()[0] in LOGICAL else X86_FLAGS
            yield self.group(name, parts, mask)
        for name in ("lea of a register", "mov %fs:"):
            chance, rows = Chance(name), []
            for chance.turn in range(ROWS):
                rows.append(self.other_row(chance, name))
            yield Group(name, rows, X86_FLAGS)
        yield Group("nop", [Row(b"\x90", self.numbers()) for _ in range(4)], X86_FLAGS)
        for name, *parts in pushes:
            yield self.group(name, parts, X86_FLAGS)
        yield Group("endbr64", [Row(b"\xf3\x0f\x1e\xfa", self.numbers()) for _ in range(4)], X86_FLAGS)

    def group(self, name, parts, mask):
        chance, rows = Chance(name), []
        for chance.turn in range(ROWS):
            rows.append(self.row(chance, *parts))
        return Group(name, rows, mask)


# ---- RISC-V

class RiscV(Unicorn):
    """Registers 32 to 63 are those of floating-point numbers."""
    file = "RiscV"
    engine = unicorn.UC_ARCH_RISCV, unicorn.UC_MODE_RISCV64
    pc = riscv.UC_RISCV_REG_PC
    zero, unit = True, 2
    registers = {n: getattr(riscv, f"UC_RISCV_REG_X{n}") for n in range(32)}
    registers |= {32 + n: getattr(riscv, f"UC_RISCV_REG_F{n}") for n in range(32)}

    def prepare(self, engine):
        """Floating-point registers are in use: FS of mstatus."""
        engine.reg_write(riscv.UC_RISCV_REG_MSTATUS, 3 << 13)

    def groups(self):
        # opcode, function, and what is done: a sum with an immediate or of registers, a load or a store
        listed = [("lui", 0x37, None, "upper"), ("auipc", 0x17, None, "upper"),
                  ("jal", 0x6f, None, "upper"), ("addi", 0x13, 0, "sum"), ("addiw", 0x1b, 0, "sum"),
                  ("jalr", 0x67, 0, "sum"), ("add", 0x33, 0, "add")]
        listed += [(name, 0x03, k, "load")
                   for k, name in enumerate("lb lh lw ld lbu lhu lwu".split())]
        listed += [(name, 0x23, k, "store") for k, name in enumerate("sb sh sw sd".split())]
        listed += [("flw", 0x07, 2, "load"), ("fld", 0x07, 3, "load")]
        listed += [("fsw", 0x27, 2, "store"), ("fsd", 0x27, 3, "store")]
        listed += [("c.nop", None, None, "nop"), ("c.j", None, None, "c.j"),
                   ("c.lui", None, None, "c.lui"), ("c.li", None, None, "c.li")]
        listed += [("sub", 0x33, 0, "sub"), ("srli", 0x13, 5, "shift")]
        for name, opcode, function, does in listed:
            chance, rows = Chance(name), []
            for chance.turn in range(ROWS):
                rows.append(self.row(chance, opcode, function, does))
            yield Group(name, rows)

    def row(self, chance, opcode, function, does):
        choose = chance.draw
        rd, rs1, rs2 = choose.randrange(32), choose.randrange(1, 32), choose.randrange(32)
        numbers = self.numbers()
        immediate = chance.of([0, 0xfff, 0x7ff, 0x800, 1], 12, 1)
        signed = immediate - (immediate >> 11 << 12)
        if does in ("load", "store"):
            numbers[rs1] = numbers[AT] + 8 - signed
        elif does in ("sum", "add", "sub", "shift"):
            chance.put(numbers, rs1, EXTREMES, 3)
        if does == "shift":
            immediate = chance.of([0, 63, 1, 32, 31], 6, 1)
        if does == "upper":
            word = chance.of([0, 0xfffff, 0x80000, 0x7ffff, 1], 20, 1) << 12 | rd << 7 | opcode
            if opcode == 0x6f:
                word &= ~(1 << 21)  # a target that is a multiple of 4
                numbers[PC] &= ~3
            code = word.to_bytes(4, "little")
        elif does == "store":
            word = immediate >> 5 << 25 | rs2 << 20 | rs1 << 15 | function << 12
            code = (word | (immediate & 31) << 7 | opcode).to_bytes(4, "little")
        elif does in ("add", "sub"):
            word = rs2 << 20 | rs1 << 15 | function << 12 | rd << 7 | opcode
            word |= 0x4000_0000 if does == "sub" else 0
            code = word.to_bytes(4, "little")
        elif does == "nop":
            code = b"\x01\x00"
        elif does in ("c.j", "c.jal"):
            base = 0xa001 if does == "c.j" else 0x2001
            code = (base | choose.getrandbits(11) << 2).to_bytes(2, "little")
        elif does == "c.lui":
            rd = choose.choice([r for r in range(1, 32) if r != 2])
            bits = choose.randrange(1, 64)
            code = (0x6001 | bits >> 5 << 12 | rd << 7 | (bits & 31) << 2).to_bytes(2, "little")
        elif does == "c.li":
            rd = choose.randrange(1, 32)
            bits = chance.of([0, 0x3f, 0x20, 0x1f, 1], 6, 1)
            code = (0x4001 | bits >> 5 << 12 | rd << 7 | (bits & 31) << 2).to_bytes(2, "little")
        else:
            word = immediate << 20 | rs1 << 15 | function << 12 | rd << 7 | opcode
            code = word.to_bytes(4, "little")
        if opcode == 0x67:  # somewhere that an address can be
            numbers[rs1] = choose.getrandbits(46)
        return Row(code, numbers)


class RiscV32(RiscV):
    """The instructions of RV32's calls, and what makes their addresses."""
    file = "RiscV32"
    engine = unicorn.UC_ARCH_RISCV, unicorn.UC_MODE_RISCV32
    registers = {n: getattr(riscv, f"UC_RISCV_REG_X{n}") for n in range(32)}

    def code_at(self, row, number):
        return 3 * 2**28 + self.unit * (number % 2**26)

    def data_at(self, number):
        return 2**30 + number % 2**26

    def made(self, row, place):
        number = super().made(row, place)
        return number % 2**32 if place < MEMORY else number

    def groups(self):
        listed = [("lui", 0x37, None, "upper"), ("auipc", 0x17, None, "upper"),
                  ("jal", 0x6f, None, "upper"), ("addi", 0x13, 0, "sum"), ("jalr", 0x67, 0, "sum"),
                  ("add", 0x33, 0, "add")]
        listed += [(name, None, None, name) for name in ("c.j", "c.jal", "c.lui", "c.li")]
        for name, opcode, function, does in listed:
            chance, rows = Chance(name), []
            for chance.turn in range(ROWS // 2 - 5, ROWS // 2 + 5):
                rows.append(self.row(chance, opcode, function, does))
                numbers = rows[-1].before
                numbers.update({place: number % 2**32 for place, number in numbers.items()
                                if place < MEMORY})
            yield Group(name, rows)


# ---- AArch64

class AArch64(Unicorn):
    file = "AArch64"
    engine = unicorn.UC_ARCH_ARM64, unicorn.UC_MODE_ARM
    pc = arm.UC_ARM64_REG_PC
    unit = 4
    registers = {n: getattr(arm, f"UC_ARM64_REG_X{n}") for n in range(31)}
    registers[31] = arm.UC_ARM64_REG_SP

    def groups(self):
        for name in "adrp adr add ldr movz movn movk nop blr bl b br stp bti".split():
            chance, rows = Chance(name), []
            for chance.turn in range(ROWS if name not in ("nop", "bti") else 4):
                rows.append(self.row(chance, name))
            yield Group(name, rows)

    def row(self, chance, name):
        choose = chance.draw
        rd, rn = choose.randrange(32), choose.randrange(32)
        if rn == rd and name == "ldr":
            rn = (rd + 1) % 32
        numbers = self.numbers()
        imm12 = chance.of([0, 0xfff, 1, 0x800], 12, 1)
        imm16 = chance.of([0, 0xffff, 1, 0x8000], 16, 1)
        imm21 = chance.of([0, 0x1fffff, 1, 0x100000, 0xfffff], 21, 1)
        imm26 = chance.of([0, 0x3ffffff, 1, 0x2000000, 0x1ffffff], 26, 1)
        imm7 = imm12 % 128
        shift = chance.turn % 4 << 21
        by_parts = (imm21 & 3) << 29 | imm21 >> 2 << 5 | rd
        word = {
            "adrp": 0x9000_0000 | by_parts,
            "adr": 0x1000_0000 | by_parts,
            "add": 0x9100_0000 | imm12 << 10 | rn << 5 | rd,
            "ldr": 0xf940_0000 | imm12 << 10 | rn << 5 | rd,
            "movz": 0xd280_0000 | shift | imm16 << 5 | rd,
            "movn": 0x9280_0000 | shift | imm16 << 5 | rd,
            "movk": 0xf280_0000 | shift | imm16 << 5 | rd,
            "nop": 0xd503_201f,
            "bti": 0xd503_245f,   # bti c
            "blr": 0xd63f_0000 | rn << 5,
            "bl": 0x9400_0000 | imm26,
            "b": 0x1400_0000 | imm26,
            "br": 0xd61f_0000 | rn << 5,
            "stp": 0,   # below
        }[name]
        if name == "add":
            chance.put(numbers, rn, EXTREMES, 3)
        if name == "movk":
            chance.put(numbers, rd, EXTREMES, 3)
        if name == "ldr":
            if rn == 31:    # the stack pointer is a multiple of 16
                numbers[AT] = (numbers[AT] + 8 - 8 * imm12 & ~15) + 8 * imm12 - 8
            numbers[rn] = numbers[AT] + 8 - 8 * imm12
        if name == "stp":
            # the base is neither of the registers that are stored, except for the stack pointer
            rt2 = choose.randrange(32)
            while rn != 31 and rn in (rd, rt2):
                rn = choose.randrange(32)
            word = 0xa980_0000 | imm7 << 15 | rt2 << 10 | rn << 5 | rd
            offset = 8 * (imm7 - (imm7 >> 6 << 7))
            if rn == 31:
                numbers[AT] = (numbers[AT] + 8 - offset & ~15) + offset - 8
            numbers[rn] = numbers[AT] + 8 - offset
        if name in ("blr", "br"):
            if rn == 31:
                rn, word = 1, word & ~(31 << 5) | 1 << 5
            numbers[rn] = 4 * choose.getrandbits(44)
        return Row(word.to_bytes(4, "little"), numbers)


# ---- LoongArch

# by the opcode
LOONGARCH_SUMS = {"addi.w": 0x00a, "addi.d": 0x00b, "ld.b": 0x0a0, "ld.h": 0x0a1, "ld.w": 0x0a2,
                  "ld.d": 0x0a3, "st.b": 0x0a4, "st.h": 0x0a5, "st.w": 0x0a6, "st.d": 0x0a7,
                  "ld.bu": 0x0a8, "ld.hu": 0x0a9, "ld.wu": 0x0aa, "fld.s": 0x0ac, "fst.s": 0x0ad,
                  "fld.d": 0x0ae, "fst.d": 0x0af, "preld": 0x0ab, "vld": 0x0b0, "vst": 0x0b1,
                  "xvld": 0x0b2, "xvst": 0x0b3}
VECTORS = {"vld", "vst", "xvld", "xvst"}
# also those of 8 and 16 bits
SIGNED = EXTREMES + [0x80, 0x7f, 0x8000, 0x7fff]


class LoongArch(QemuUser):
    """Registers 32 to 63 are those of vectors of 256 bits, whose low 64 bits are floating-point
    numbers."""
    file = "LoongArch"
    registers = {n: n for n in range(32)} | {32 + n: 108 + n for n in range(32)}
    keeps = range(67, 76)   # the condition flags and FCSR
    zero = True

    def __init__(self):
        root = os.environ.get("LOONGARCH_ROOT")
        if not root:
            sys.exit("tools/emulate_steps: LOONGARCH_ROOT has no folder with Debian 13's qemu")
        self.processor = f"{root}/usr/bin/qemu-loongarch64", "max", 258, 0x43, 33
        super().__init__()
        self.by = "qemu-loongarch64"

    def made(self, row, place):
        if 32 <= place < 64:
            return noise(256, 256 * row + place)
        return super().made(row, place)

    def groups(self):
        names = "pcalau12i pcaddi pcaddu18i lu12i.w ori andi jirl b bl add.d".split()
        for name in [*names, *LOONGARCH_SUMS, "pcaddu12i", "sub.d", "srli.d"]:
            chance, rows = Chance(name), []
            for chance.turn in range(ROWS):
                rows.append(self.row(chance, name))
            yield Group(name, rows)

    def row(self, chance, name):
        choose = chance.draw
        rd, rj, rk = (choose.randrange(32) for _ in range(3))
        # register 0, and one register twice
        if chance.turn % 8 == 1:
            rd = 0
        if chance.turn % 8 == 3:
            rj = 0
        if chance.turn % 8 == 5:
            rd = rk = rj
        imm12 = chance.of([0, 0xfff, 1, 0x800, 0x7ff], 12, 1)
        imm16 = chance.of([0, 0xffff, 1, 0x8000, 0x7fff], 16, 1)
        imm20 = chance.of([0, 0xfffff, 1, 0x80000, 0x7ffff], 20, 1)
        imm26 = chance.of([0, 0x3ffffff, 1, 0x2000000, 0x1ffffff], 26, 1)
        branch = (imm26 & 0xffff) << 10 | imm26 >> 16
        registers = self.numbers()
        at = registers[AT]
        if name in ("add.d", "sub.d"):
            chance.put(registers, rk, EXTREMES, 7)
        if name in ("ori", "andi", "jirl", "addi.w", "addi.d", "add.d", "sub.d", "srli.d"):
            chance.put(registers, rj, EXTREMES, 3)
        if name[:2] in ("ld", "st", "fl", "fs") or name in VECTORS:
            first = 0 if name[0] == "x" else 8  # of the bytes of memory
            if rj == 0:     # an immediate that is an address of data
                imm12 = choose.randrange(8, 0x800)
                at = imm12 - first
            elif chance.turn % 8 == 2:      # from below 0
                imm12 = choose.randrange(0x100, 0x800)
                at = choose.randrange(imm12 - 8)
            if name[:2] in ("st", "fs"):
                chance.put(registers, rd + 32 * (name[0] == "f"), SIGNED, 3)
            if name[:2] in ("ld", "fl") or name in ("vld", "xvld"):
                chance.put(registers, MEMORY + 1, SIGNED, 3)
            registers[rj] = at + first - (imm12 - (imm12 >> 11 << 12))
        sums = {of: opcode << 22 | imm12 << 10 | rj << 5 | rd
                for of, opcode in LOONGARCH_SUMS.items()}
        word = sums | {
            "pcalau12i": 0x1a00_0000 | imm20 << 5 | rd,
            "pcaddi": 0x1800_0000 | imm20 << 5 | rd,
            "pcaddu18i": 0x1e00_0000 | imm20 << 5 | rd,
            "lu12i.w": 0x1400_0000 | imm20 << 5 | rd,
            "ori": 0x0380_0000 | imm12 << 10 | rj << 5 | rd,
            "andi": 0x0340_0000 | imm12 << 10 | rj << 5 | rd,
            "jirl": 0x4c00_0000 | imm16 << 10 | rj << 5 | rd,
            "b": 0x5000_0000 | branch,
            "bl": 0x5400_0000 | branch,
            "add.d": 0x0010_8000 | rk << 10 | rj << 5 | rd,
            "pcaddu12i": 0x1c00_0000 | imm20 << 5 | rd,
            "sub.d": 0x0011_8000 | rk << 10 | rj << 5 | rd,
            "srli.d": 0x0045_0000 | imm12 % 64 << 10 | rj << 5 | rd,
        }
        registers[AT] = at
        registers.pop(0, None)
        return Row(word[name].to_bytes(4, "little"), registers)


# ---- PowerPC64

# by the opcode, or the extended one
PPC64_D = {"lwz": 32, "lbz": 34, "stw": 36, "stb": 38, "lhz": 40, "lha": 42, "sth": 44, "lfs": 48,
           "lfd": 50, "stfs": 52, "stfd": 54}
PPC64_DS = {"ld": (58, 0), "lwa": (58, 2), "std": (62, 0)}
PPC64_X = {name + "x": (opcode - 32) * 32 + 23 for name, opcode in PPC64_D.items()}
PPC64_X |= {"ldx": 21, "stdx": 4 * 32 + 21, "lwax": 10 * 32 + 21}
PPC64_VX = {"stvx": 231, "lvx": 103}
PADDI_OVER = "paddi with R = 0"
BLR = 0x4e80_0020
# Functions by their first letters: the opcode of the access of each register from 14 on, its base,
# and what the functions end with: `std 0,16(1)`, or `ld 0,16(1)` and `mtlr 0`, and `blr`.
MTLR_0 = 0x7c08_03a6
PPC64_SAVES_LINK, PPC64_RESTORES_LINK = [0xf801_0010, BLR], [0xe801_0010, MTLR_0, BLR]
PPC64_FUNCTIONS = {"_savegpr0_": (62, 1, PPC64_SAVES_LINK),
                   "_restgpr0_": (58, 1, PPC64_RESTORES_LINK),
                   "_savegpr1_": (62, 12, [BLR]), "_restgpr1_": (58, 12, [BLR]),
                   "_savefpr_": (54, 1, PPC64_SAVES_LINK),
                   "_restfpr_": (50, 1, PPC64_RESTORES_LINK)}
# and the access of each vector register from 20 on
PPC64_VECTOR_FUNCTIONS = {"_savevr_": "stvx", "_restvr_": "lvx"}
# zeros, denormal numbers, the least normal one, others, infinities and NaNs
SINGLES = [0, 2**31, 1, 0x007f_ffff, 0x8000_0100, 0x0080_0000, 0x3f80_0000, 0x7f7f_ffff,
           0x7f80_0000, 0xff80_0000, 0x7fc0_0000, 0x7f80_0001, 0xffff_ffff]
DOUBLES = [0, 2**63, 0x36a0 << 48, 0xb6b8 << 48, 0x380f_ffff_e000_0000, 0x3810 << 48, 0x3ff0 << 48,
           0x47ef_ffff_e000_0000, 0x7ff0 << 48, 0xfff0 << 48, 0x7ff8 << 48, 0x7ff0_0000_2000_0000,
           ALL, 0xc00f_ffff_ffff_ffff, 0x7fef_ffff_ffff_ffff]
QUADWORDS = [0, 1, 2**128 - 1, 2**127, 2**127 - 1, 2**64, 2**64 - 1]


def in_bytes(words):
    return b"".join(word.to_bytes(4, "little") for word in words)


class Ppc64(QemuUser):
    """Registers 32 to 63 are those of floating-point numbers, 64 is the link register, 65 the count
    register, and 128 to 159 are the vector registers."""
    file = "Ppc64"
    processor = "qemu-ppc64le", "power10", 21, 2, 64
    registers = {n: n for n in range(32)} | {32 + n: 71 + n for n in range(32)} | {64: 67, 65: 68}
    vectors = {128 + n: 104 + n for n in range(32)}
    keeps = 66, 69, 103, 136, 137

    def __init__(self):
        super().__init__()
        # the numbers of vector registers are those of the machine: `mfvsrd` takes the upper half of
        # the first to r3, and `mfvsrld` the lower one to r4
        halves = bytes.fromhex("6700037c 6702047c")
        self.qemu.run(halves, 2, self.code_at(0, 0), {104: self.given(128, 3 << 64 | 4)})
        assert [self.qemu.register(of) for of in (3, 4, 104)] == [3, 4, 3 << 64 | 4]

    def made(self, row, place):
        if 128 <= place < 160:
            return noise(128, 256 * row + place)
        return super().made(row, place)

    def compared(self, row):
        if row.has_vectors:
            return self.registers | self.vectors, self.keeps
        return self.registers, [*self.keeps, *self.vectors.values()]

    def given(self, place, number):
        """qemu takes the halves of a vector register in the other order than it returns them."""
        if 128 <= place < 160:
            return number % 2**64 << 64 | number >> 64
        return number

    def somewhere(self, choose):
        """An address that there is code for. Its low bits aren't read."""
        row = 1 + choose.randrange(self.count)
        return self.code_at(row, choose.getrandbits(64)) + choose.randrange(4)

    def groups(self):
        names = ["addi", "addis", "add", *PPC64_D, *PPC64_DS, *PPC64_X, "bl", "nop", "paddi", "pld",
                 "mflr", "mtlr", "mtctr", "bcl 20, 31, .+4", "bctr", "b", "subf", "rldicl", "blr",
                 PADDI_OVER, "mr"]
        for name in names:
            chance, rows = Chance(name), []
            for chance.turn in range(ROWS if name != "nop" else 4):
                rows.append(self.row(chance, name))
            yield Group(name, rows)

    def vector_groups(self):
        for name in PPC64_VX:
            chance, rows = Chance(name), []
            for chance.turn in range(ROWS):
                rows.append(self.vector_row(chance, name))
            yield Group(name, rows)

    def functions(self):
        for name, (opcode, base, tail) in PPC64_FUNCTIONS.items():
            words = [opcode << 26 | n << 21 | base << 16 | -8 * (32 - n) & 0xffff
                     for n in range(14, 32)]
            choose = random.Random(name)
            code = in_bytes([*words, *tail])
            yield Functions(name, code, [self.function_row(choose, code[4 * (n - 14):], n, base)
                                         for n in range(14, 32)])
        for name, access in PPC64_VECTOR_FUNCTIONS.items():
            words = []
            for vrt in range(20, 32):
                # `addi 12,0` and the access over 12 and 0
                words += [14 << 26 | 12 << 21 | -16 * (32 - vrt) & 0xffff,
                          31 << 26 | vrt << 21 | 12 << 16 | PPC64_VX[access] << 1]
            choose = random.Random(name)
            code = in_bytes([*words, BLR])
            yield Functions(name, code, [self.function_row(choose, code[8 * (vrt - 20):], vrt, 0)
                                         for vrt in range(20, 32)])

    def function_row(self, choose, code, n, base):
        """The function of a register. The registers' places are below the base, of which those of
        vectors don't read the low four bits. The return address is in the link register, or behind
        the base."""
        places = range(160, 186)
        registers = self.numbers()
        at = registers[AT]
        if n == 20:             # the first bytes of memory but that at 0, which qemu doesn't show
            at = 1
        if n % 4 == 3:          # the last ones of a part
            at = at // 2**33 * 2**33 + self.length - 8 * len(places)
        end = at + 8 * len(places)
        if base == 0:
            registers[base] = (end if n % 4 == 3 else end - 1 & ~15) + choose.randrange(16)
        else:
            registers[base] = end - (24 if n % 4 == 3 else 48)
        is_restored = code.endswith(in_bytes([MTLR_0, BLR]))
        link = places[(registers[base] + 16 - at) // 8] if is_restored else 64
        registers |= {link: self.somewhere(choose), AT: at}
        return Row(code, registers, places=places, has_vectors=True, function=n)

    def vector_row(self, chance, name):
        """An access of 16 bytes at a multiple of 16. The low bits of its address aren't read."""
        choose = chance.draw
        vrt, ra, rb = (choose.randrange(32) for _ in range(3))
        # register 0, also in both places, and one register twice
        if chance.turn % 8 == 1:
            ra = 0
        if chance.turn % 16 == 9:
            rb = 0
        if chance.turn % 8 == 3:
            rb = ra
        registers = self.numbers()
        at = registers[AT]
        if chance.turn % 8 == 2:        # the first bytes of memory but that at 0
            at = 1
        quadword = at + 15 & ~15
        if chance.turn % 8 == 6:        # the last ones of a part
            quadword = at // 2**33 * 2**33 + self.length - 16
            at = quadword - 16
        address = quadword + chance.of([15, 0, 1, 8, 7], 4, 1)
        if name == "stvx":
            chance.put(registers, 128 + vrt, QUADWORDS, 1)
        else:
            chance.put(registers, MEMORY + 1, EXTREMES, 7)
        if ra == rb and ra:
            registers[ra] = address // 2 + choose.getrandbits(1) * 2**63
        else:
            chance.put(registers, ra, EXTREMES, 3)
            registers[rb] = address - (registers[ra] if ra else 0)
        registers[AT] = at
        word = 31 << 26 | vrt << 21 | ra << 16 | rb << 11 | PPC64_VX[name] << 1
        return Row(word.to_bytes(4, "little"), registers, has_vectors=True)

    def row(self, chance, name):
        choose = chance.draw
        rt, ra, rb = (choose.randrange(32) for _ in range(3))
        # register 0, and one register twice or three times
        if chance.turn % 8 == 1:
            ra = 0
        if chance.turn % 8 == 3:
            rb = ra
        if chance.turn % 8 == 5:
            rt = ra
        if chance.turn % 16 == 7:
            rt = ra = rb
        registers = self.numbers()
        if name.startswith("st"):
            chance.put(registers, rt, EXTREMES, 1)
        if name in ("add", "subf"):
            chance.put(registers, rb, EXTREMES, 7)
        if name in ("rldicl", "mr"):
            chance.put(registers, rt, EXTREMES, 3)
        if name in ("add", "addi", "addis", "subf", PADDI_OVER) or name in PPC64_X:
            chance.put(registers, ra, EXTREMES, 3)
        if name.startswith("lfs"):
            if chance.turn < ROWS // 2:
                number = chance.of(SINGLES, 32, 1)
                registers[MEMORY + 1] = registers[MEMORY + 1] >> 32 << 32 | number
        elif name.startswith("l") or name == "pld":
            chance.put(registers, MEMORY + 1, EXTREMES, 7)
        if name.startswith("stfs"):
            # a number that single precision has, or its bits, or too large a one
            registers[32 + rt] = DOUBLES[chance.turn] if chance.turn < len(DOUBLES) else (
                choose.getrandbits(1) << 63 | choose.randrange(874, 2048) << 52
                | choose.getrandbits(52))
        elif name.startswith("stfd"):
            chance.put(registers, 32 + rt, EXTREMES, 1)
        if name in ("mtlr", "mtctr"):
            chance.put(registers, rt, EXTREMES, 3)
        if name == "mflr":
            chance.put(registers, 64, EXTREMES, 3)
        if name in ("bctr", "blr"):
            registers[65 if name == "bctr" else 64] = self.somewhere(choose)
        address, at = registers[PC], registers[AT]
        imm16 = chance.of([0, 0xffff, 1, 0x8000, 0x7fff], 16, 1)
        if name in PPC64_DS:
            imm16 &= ~3
        if name in PPC64_D or name in PPC64_DS:
            if ra == 0:     # a displacement that is an address of data
                imm16 = choose.randrange(2, 0x2000) << 2
                at = imm16 - 8
            elif chance.turn % 8 == 2:      # from below 0
                imm16 = choose.randrange(0x1000, 0x2000) << 2
                at = choose.randrange(imm16 - 8)
            registers[ra] = at + 8 - (imm16 - (imm16 >> 15 << 16))
            if ra == 0:
                registers.pop(0)
        elif name in PPC64_X:
            if ra == rb and ra:
                at &= ~1
                registers[ra] = (at + 8) // 2 + choose.getrandbits(1) * 2**63
            else:
                registers[rb] = at + 8 - (registers[ra] if ra else 0)
        d_form = rt << 21 | ra << 16
        if name in ("paddi", PADDI_OVER, "pld"):
            imm34 = chance.of([0, 2**34 - 1, 1, 2**33, 2**33 - 1, 0xffff, 0x1_0000, 0x8000,
                               2**34 - 0x1_0000], 34, 1)
            prefix, suffix = 0x0610_0000, 14 << 26 | rt << 21
            if name == PADDI_OVER:
                prefix, suffix = 0x0600_0000, 14 << 26 | d_form
            if address % 64 == 60:      # where a prefixed instruction can't be
                address -= 4
            if name == "pld":
                address = address % 2**33 + 2**33   # the middle part
                if imm34 in (2**33, 2**33 - 1):
                    at = address + (imm34 if imm34 < 2**33 else -2**33) - 8
                elif chance.turn % 4:               # below, at a distance with the same lower half
                    at = at % 2**34 + (imm34 - (at % 2**34 + 8 - address)) % 2**16
                else:
                    at = address + choose.choice([-0x80, -0x28, 0x20, 0x80]) - 8
                imm34 = (at + 8 - address) % 2**34
                prefix, suffix = 0x0410_0000, 57 << 26 | rt << 21
            code = (prefix | imm34 >> 16).to_bytes(4, "little")
            code += (suffix | imm34 & 0xffff).to_bytes(4, "little")
        else:
            if name in PPC64_D:
                word = PPC64_D[name] << 26 | d_form | imm16
            elif name in PPC64_DS:
                opcode, low = PPC64_DS[name]
                word = opcode << 26 | d_form | imm16 | low
            elif name in PPC64_X:
                word = 31 << 26 | d_form | rb << 11 | PPC64_X[name] << 1
            else:
                imm24 = chance.of([0, 0xffffff, 1, 0x800000, 0x7fffff], 24, 1)
                word = {"addi": 14 << 26 | d_form | imm16, "addis": 15 << 26 | d_form | imm16,
                        "add": 31 << 26 | d_form | rb << 11 | 266 << 1,
                        "subf": 31 << 26 | d_form | rb << 11 | 40 << 1,
                        "mr": 31 << 26 | d_form | rt << 11 | 444 << 1,
                        # all bits but bit 0, which would change CR, and 2 to 4, the opcode's
                        "rldicl": 30 << 26 | d_form | imm16 & 0xffe2,
                        "b": 18 << 26 | imm24 << 2,
                        "bl": 18 << 26 | imm24 << 2 | 1, "nop": 0x6000_0000,
                        "mflr": 0x7c08_02a6 | rt << 21, "mtlr": 0x7c08_03a6 | rt << 21,
                        "mtctr": 0x7c09_03a6 | rt << 21, "bcl 20, 31, .+4": 0x429f_0005,
                        "bctr": 0x4e80_0420, "blr": BLR}[name]
            code = word.to_bytes(4, "little")
        registers |= {PC: address, AT: at}
        return Row(code, registers)


# ---- the files

def row_text(architecture, row, mask):
    """The lines of a row."""
    digits = row.code.hex() if architecture.file == "X86" else row.code[::-1].hex()
    words = [f"row {row.before.row} {row.function or f'0x{digits}'}"]
    for word, numbers in (("with", row.given()), ("=>", row.left(mask))):
        words += [f"{word} ({NAMES.get(place, place)}, {number if number < 10 else hex(number)})"
                  for place, number in numbers.items()]
    lines = [""]
    for word in [*words, "∷"]:
        if len(lines[-1]) + len(word) > 95:
            lines.append("")
        lines[-1] += f" {word}" if lines[-1] else word
    return ["    " + line for line in lines]


def in_lines(names):
    """The names for lines of at most 100 columns that import them."""
    lines = [""]
    for name in names:
        if len(lines[-1]) + len(name) > 63:
            lines.append("")
        lines[-1] += f", {name}" if lines[-1] else name
    return lines


def function_lines(architecture, of):
    """The lines of functions: their words, 7 in a line, and rows."""
    name = f"{architecture.file.lower()}{of.name.rstrip('_')}"
    words = [f"0x{of.code[at:at + 4][::-1].hex()} ∷" for at in range(0, len(of.code), 4)] + ["[]"]
    lines = ["", f"unfoldable pub {name} : Functions", f"{name} =", f"    -- {of.name}N",
             "    functions"]
    lines += [("    (" if at == 0 else "    ") + " ".join(words[at:at + 7])
              for at in range(0, len(words), 7)]
    lines[-1] += ") ("
    for row in of.rows:
        lines += row_text(architecture, row, of.mask)
    return [*lines, "    [])"]


def group_lines(architecture, listed, groups):
    """The lines of a list of groups."""
    name = f"{architecture.file.lower()}_{listed}"
    lines = ["", f"unfoldable pub {name} : List Group", f"{name} ="]
    for of in groups:
        lines += [f"    -- {of.name}", f"    group 0x{of.mask:x} ("]
        for row in of.rows:
            lines += row_text(architecture, row, of.mask)
        lines += ["    []) ∷"]
    return [*lines, "    []"]


def written(architecture, groups, vector_groups, functions):
    used = {"Group", "group", "row", "◌with◌", "◌=>◌"}
    if functions:
        used |= {"Functions", "functions"}
    for of in [*groups, *vector_groups, *functions]:
        for row in of.rows:
            used |= {NAMES[place] for place in (*row.given(), *row.left(of.mask))
                     if place in NAMES}
    lines = [
        f"-- What {architecture.by} made of instructions. `tools/oracle steps` makes this file.",
        "use Rattle.std.specs.Prelude.{List, [], ◌∷◌}",
        *(f"use Rattle.linker_final.specs.Steps.{{{names}}}" for names in in_lines(sorted(used))),
        *group_lines(architecture, "groups", groups),
    ]
    if vector_groups:
        lines += group_lines(architecture, "vector_groups", vector_groups)
    for of in functions:
        lines += function_lines(architecture, of)
    return "\n".join(lines) + "\n"


ARCHITECTURES = {"aarch64": AArch64, "riscv": RiscV, "riscv32": RiscV32, "x86_64": X86,
                 "loongarch": LoongArch, "ppc64": Ppc64}


def make(names):
    for name in names or ARCHITECTURES:
        architecture = ARCHITECTURES[name]()
        lists = [list(architecture.groups()), list(architecture.vector_groups()),
                 list(architecture.functions())]
        try:
            for of in sum(lists, []):
                for row in of.rows:
                    row.after = architecture.executed(row)
        finally:
            architecture.close()
        (ROOT / f"crates/linker_final/specs/{architecture.file}Steps.antt").write_text(
            written(architecture, *lists))
        groups, functions = lists[0] + lists[1], lists[2]
        print(f"{name}: {len(groups)} instructions, {sum(len(g.rows) for g in groups)} rows, and "
              f"{sum(len(f.rows) for f in functions)} of functions")
