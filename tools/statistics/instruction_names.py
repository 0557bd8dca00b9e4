# SPDX-License-Identifier: MIT OR Apache-2.0
"""Names of instructions by their opcodes, for places.py: those that stand at relocations. What has
no name here is named by the bits of its opcode."""
import struct

# (bits of the opcode, their value, name), the first that applies
AARCH64 = [
    (0x9F000000, 0x90000000, "adrp"), (0x9F000000, 0x10000000, "adr"),
    (0xFF800000, 0x91000000, "add x, imm"), (0xFF800000, 0x11000000, "add w, imm"),
    (0xFF800000, 0xB1000000, "adds x, imm"), (0xFF800000, 0xD1000000, "sub x, imm"),
    (0xFF80001F, 0xF100001F, "cmp x, imm"), (0xFF80001F, 0x7100001F, "cmp w, imm"),
    (0xFFC00000, 0xF9400000, "ldr x"), (0xFFC00000, 0xB9400000, "ldr w"),
    (0xFFC00000, 0xF9000000, "str x"), (0xFFC00000, 0xB9000000, "str w"),
    (0xFFC00000, 0x39400000, "ldrb"), (0xFFC00000, 0x79400000, "ldrh"),
    (0xFFC00000, 0x39000000, "strb"), (0xFFC00000, 0x79000000, "strh"),
    (0xFFC00000, 0xB9800000, "ldrsw"), (0xFFC00000, 0x3DC00000, "ldr q"),
    (0xFFC00000, 0x3D800000, "str q"), (0xFFC00000, 0xFD400000, "ldr d"),
    (0xFFC00000, 0xFD000000, "str d"), (0xFFC00000, 0xBD400000, "ldr s"),
    (0xFE400000, 0xA8400000, "ldp x"), (0xFE400000, 0xA8000000, "stp x"),
    (0xFE400000, 0x28400000, "ldp w"), (0xFE400000, 0x28000000, "stp w"),
    (0xFE400000, 0x6C000000, "stp d"), (0xFE400000, 0xAC000000, "stp q"),
    (0xFFE00C00, 0xF8400000, "ldur x"), (0xFFE00C00, 0xF8000000, "stur x"),
    (0xFFE00C00, 0xF8000C00, "str x, pre"), (0xFFE00C00, 0xB8400000, "ldur w"),
    (0xFFE00C00, 0xB8000000, "stur w"),
    (0xFFE0FFE0, 0xAA0003E0, "mov x"), (0xFFE0FFE0, 0x2A0003E0, "mov w"),
    (0x7F800000, 0x52800000, "movz"), (0x7F800000, 0x12800000, "movn"),
    (0x7F800000, 0x72800000, "movk"), (0xFF20001F, 0xEB00001F, "cmp x"),
    (0xFF200000, 0x8B000000, "add x"), (0xFF200000, 0xCB000000, "sub x"),
    (0xFFFFFFFF, 0xD503201F, "nop"), (0xFFFFFFDF, 0xD503249F, "bti"),
    (0xFFF00000, 0xD5300000, "mrs"), (0xFC000000, 0x94000000, "bl"), (0xFC000000, 0x14000000, "b"),
    (0xFF000010, 0x54000000, "b.cond"), (0x7F000000, 0x34000000, "cbz"),
    (0x7F000000, 0x35000000, "cbnz"), (0x7F000000, 0x36000000, "tbz"),
    (0x7F000000, 0x37000000, "tbnz"), (0xFFFFFC1F, 0xD63F0000, "blr"),
    (0xFFFFFC1F, 0xD61F0000, "br"), (0xFFFFFC1F, 0xD65F0000, "ret"),
    (0xFFE00C00, 0xF8400400, "ldr x, post"), (0xFFE00C00, 0xF8400C00, "ldr x, pre"),
    (0xFFE00C00, 0xF8600800, "ldr x, x"), (0x9FF80400, 0x0F000400, "movi"),
    (0x0E000000, 0x0E000000, "floating-point or SIMD"),
]
LOONGARCH64 = [
    (0xFE000000, 0x14000000, "lu12i.w"), (0xFE000000, 0x16000000, "lu32i.d"),
    (0xFE000000, 0x18000000, "pcaddi"), (0xFE000000, 0x1A000000, "pcalau12i"),
    (0xFE000000, 0x1C000000, "pcaddu12i"), (0xFE000000, 0x1E000000, "pcaddu18i"),
    (0xFFC00000, 0x02800000, "addi.w"), (0xFFC003E0, 0x02C00000, "addi.d of zero"),
    (0xFFC00000, 0x02C00000, "addi.d"), (0xFFC00000, 0x03000000, "lu52i.d"),
    (0xFFC00000, 0x03400000, "andi"), (0xFFC00000, 0x03800000, "ori"),
    (0xFFC00000, 0x28000000, "ld.b"), (0xFFC00000, 0x28400000, "ld.h"),
    (0xFFC00000, 0x28800000, "ld.w"), (0xFFC00000, 0x28C00000, "ld.d"),
    (0xFFC00000, 0x29000000, "st.b"), (0xFFC00000, 0x29400000, "st.h"),
    (0xFFC00000, 0x29800000, "st.w"), (0xFFC00000, 0x29C00000, "st.d"),
    (0xFFC00000, 0x2A000000, "ld.bu"), (0xFFC00000, 0x2A400000, "ld.hu"),
    (0xFFC00000, 0x2A800000, "ld.wu"), (0xFFC00000, 0x2B000000, "fld.s"),
    (0xFFC00000, 0x2B400000, "fst.s"), (0xFFC00000, 0x2B800000, "fld.d"),
    (0xFFC00000, 0x2BC00000, "fst.d"), (0xFFC00000, 0x2C000000, "vld"),
    (0xFFC00000, 0x2C400000, "vst"), (0xFF000000, 0x24000000, "ldptr.w"),
    (0xFF000000, 0x25000000, "stptr.w"), (0xFF000000, 0x26000000, "ldptr.d"),
    (0xFF000000, 0x27000000, "stptr.d"), (0xFFFF8000, 0x00100000, "add.w"),
    (0xFFFF8000, 0x00108000, "add.d"), (0xFFFFFC00, 0x00150000, "move"),
    (0xFFFF8000, 0x00150000, "or"), (0xFFFF8000, 0x380C0000, "ldx.d"),
    (0xFC000000, 0x40000000, "beqz"), (0xFC000000, 0x44000000, "bnez"),
    (0xFC000000, 0x4C000000, "jirl"), (0xFC000000, 0x50000000, "b"),
    (0xFC000000, 0x54000000, "bl"), (0xFC000000, 0x58000000, "beq"),
    (0xFC000000, 0x5C000000, "bne"), (0xFC000000, 0x60000000, "blt"),
    (0xFC000000, 0x64000000, "bge"), (0xFC000000, 0x68000000, "bltu"),
    (0xFC000000, 0x6C000000, "bgeu"), (0xFF000000, 0x01000000, "floating-point"),
    (0xFF000000, 0x08000000, "floating-point"), (0xFF000000, 0x0C000000, "floating-point"),
    (0xFF000000, 0x0D000000, "floating-point"), (0xFF000000, 0x00000000, "of registers"),
]
RISCV = [
    (0x7F, 0x37, "lui"), (0x7F, 0x17, "auipc"), (0x7F, 0x6F, "jal"), (0x707F, 0x67, "jalr"),
    *[(0x707F, 0x03 | n << 12, name)
      for n, name in enumerate(["lb", "lh", "lw", "ld", "lbu", "lhu", "lwu"])],
    *[(0x707F, 0x23 | n << 12, name) for n, name in enumerate(["sb", "sh", "sw", "sd"])],
    *[(0x707F, opcode | n << 12, name + width) for opcode, name in [(0x07, "fl"), (0x27, "fs")]
      for n, width in [(1, "h"), (2, "w"), (3, "d"), (4, "q")]],
    (0x707F, 0x13, "addi"), (0x707F, 0x1B, "addiw"), (0xFE00707F, 0x33, "add"),
]
PPC64 = [
    (0xFFFFFFFF, 0x60000000, "nop"), (0xFFFFFFFF, 0xE8410018, "ld 2, 24(1)"),
    (0xFC1F0000, 0x38000000, "li"), (0xFC1F0000, 0x3C000000, "lis"),
    (0xFC000003, 0x48000001, "bl"), (0xFC000003, 0x48000000, "b"), (0xFC000000, 0x40000000, "bc"),
    (0xFFFFFFFF, 0x4E800421, "bctrl"), (0xFFFFFFFF, 0x4E800420, "bctr"),
    (0xFFFFFFFF, 0x4E800020, "blr"), (0xFC1FFFFF, 0x7C0903A6, "mtctr"),
    *[(0xFC000000, opcode << 26, name) for opcode, name in [
        (7, "mulli"), (10, "cmpldi"), (11, "cmpdi"), (14, "addi"), (15, "addis"), (24, "ori"),
        (25, "oris"), (32, "lwz"), (33, "lwzu"), (34, "lbz"), (35, "lbzu"), (36, "stw"),
        (37, "stwu"), (38, "stb"), (39, "stbu"), (40, "lhz"), (42, "lha"), (44, "sth"),
        (48, "lfs"), (50, "lfd"), (52, "stfs"), (54, "stfd"), (21, "rotate"),
        (28, "andi."), (29, "andis."), (30, "rotate")]],
    *[(0xFC000003, opcode << 26 | n, name) for opcode, n, name in [
        (57, 2, "lxsd"), (57, 3, "lxssp"), (58, 0, "ld"), (58, 1, "ldu"), (58, 2, "lwa"),
        (61, 2, "stxsd"), (61, 3, "stxssp"), (62, 0, "std"), (62, 1, "stdu"), (62, 2, "stq")]],
    (0xFC000007, 0xF4000001, "lxv"), (0xFC000007, 0xF4000005, "stxv"),
    *[(0xFC0007FE, 31 << 26 | n << 1, name) for n, name in [
        (0, "cmp"), (32, "cmpl"), (266, "add"), (40, "subf"), (21, "ldx"), (23, "lwzx"),
        (87, "lbzx"), (279, "lhzx"), (341, "lwax"), (343, "lhax"), (149, "stdx"), (151, "stwx"),
        (215, "stbx"), (407, "sthx"), (535, "lfsx"), (599, "lfdx"), (663, "stfsx"),
        (727, "stfdx"), (444, "or"), (28, "and"), (60, "andc"), (124, "nor"), (316, "xor"),
        (104, "neg"), (922, "extsh"), (954, "extsb"), (986, "extsw"), (339, "mfspr"),
        (467, "mtspr")]],
]
# prefixed instructions by the opcode of their second word
PREFIXED = {14: "paddi", 32: "plwz", 34: "plbz", 36: "pstw", 38: "pstb", 40: "plhz", 41: "plwa",
            42: "plha", 44: "psth", 48: "plfs", 50: "plfd", 52: "pstfs", 54: "pstfd", 57: "pld",
            61: "pstd"}
# where none of these applies: the bits of the opcode
TABLES = {21: (PPC64, 0xFC000000), 183: (AARCH64, 0xFFC00000), 243: (RISCV, 0x707F),
          258: (LOONGARCH64, 0xFFC00000)}


def by_opcode(machine, word):
    """The name of an instruction by its first word."""
    if machine == 243 and word & 3 != 3:
        return "c.lui" if word & 0xE003 == 0x6001 else f"{word & 0xE003:#06x}"
    table, opcode = TABLES[machine]
    for bits, value, name in table:
        if word & bits == value:
            return name
    if machine == 21 and word >> 26 == 31:
        opcode = 0xFC0007FE
    return f"{word & opcode:#010x}"


def at(machine, section, offset):
    """The name of the instruction at an offset of a section."""
    if machine == 243 and 0 <= offset == len(section) - 2:
        section = section + bytes(2)
    if not 0 <= offset <= len(section) - 4:
        return "no instruction"
    (word,) = struct.unpack_from("<I", section, offset)
    if machine == 21 and word >> 26 == 1 and offset + 8 <= len(section):
        (suffix,) = struct.unpack_from("<I", section, offset + 4)
        return PREFIXED.get(suffix >> 26, f"prefixed {suffix & 0xFC000000:#010x}")
    return by_opcode(machine, word)


def pair_at(machine, section, offset):
    """The names of the instruction at an offset and of the next one. Where the first is the high part
    of an address, it also says whether the second one's register, or its base, is another one."""
    first = at(machine, section, offset)
    second = at(machine, section, offset + (8 if first in PREFIXED.values() else 4))
    if first in ("adrp", "pcalau12i") and second in ("ldr x", "add x, imm", "ld.d", "addi.d"):
        high, low = struct.unpack_from("<II", section, offset)
        if low >> 5 & 31 != high & 31:
            second += " of another register"
        elif low & 31 != high & 31:
            second += " to another register"
    return f"{first}; {second}"


def before_field(section, offset, count):
    """The prefix, if any, and the opcode of an instruction of x86-64 that has so many bytes before
    its field, as `48 8b /r`. Of a REX prefix only W is shown, of longer ones the first byte."""
    if not count <= offset <= len(section):
        return "no instruction"
    *prefix, opcode, operand = section[offset - count:offset]
    shown = [opcode]
    if count == 3 and prefix[0] >> 4 != 4:  # no REX prefix
        return section[max(0, offset - 6):offset].hex(" ")
    if prefix:
        shown = [prefix[0] & 0x48 if count == 3 else prefix[0], opcode]
    # groups of instructions that the register's number tells apart
    is_group = opcode in (0x80, 0x81, 0x83, 0xC6, 0xC7, 0xF6, 0xF7, 0xFF)
    what = operand >> 3 & 7 if is_group else "r"
    mode = "" if operand & 0xC7 == 5 else ", not relative to rip"
    return " ".join(f"{byte:02x}" for byte in shown) + f" /{what}{mode}"
