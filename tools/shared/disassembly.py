# SPDX-License-Identifier: MIT OR Apache-2.0
"""What disassemblers say of instructions with an immediate: which forms it has, by their mnemonic, and
the number in it. The numbers are those that llvm-objdump 19 prints, or GNU objdump where LLVM doesn't
know the instruction. Of each instruction it knows nothing but its address and that text."""
import re
import subprocess

WORD = 2 ** 64
LOADS = "lb lh lw ld lbu lhu lwu flh flw fld".split()
NUMBER = r"-?(?:0x[0-9a-f]+|[0-9]+)"

# e_machine, the format of llvm-objcopy, llvm-objdump's options, and GNU's objdump, if it has one
MACHINES = {
    "aarch64": (183, "elf64-littleaarch64", ["-M", "no-aliases", "--mattr=+hbc,+fullfp16"], None),
    "riscv64": (243, "elf64-littleriscv",
                ["-M", "no-aliases", "--mattr=+m,+a,+f,+d,+c,+zfh"], None),
    "loongarch64": (258, "elf64-loongarch", ["--mattr=+64bit,+d,+lsx,+lasx"], None),
    "powerpc64le": (21, "elf64-powerpcle", ["--mcpu=pwr10"],
                    ["powerpc64le-linux-gnu-objdump", "-M", "raw,power10"]),
}


def signed(number, bits=64):
    """In two's complement."""
    number %= 1 << bits
    return number - (number >> bits - 1 << bits)


def number(text):
    return int(text, 0)


def last(text):
    """The last number of some operands."""
    return number(re.findall(NUMBER, text)[-1])


def offset(text):
    """That of `8(a0)`, or of `[x0, #8]`, or 0."""
    if "(" in text:
        return number(re.search(rf"({NUMBER})\(", text)[1])
    found = re.search(rf"#({NUMBER})\]$", text)
    return number(found[1]) if found else 0


def move(text):
    """LLVM prints MOVZ and MOVN as `mov`, with the number that they make; ORR too, if neither can."""
    found = re.fullmatch(rf"([wx])\w+, #({NUMBER})", text)
    if not found:
        return None
    bits = 32 if found[1] == "w" else 64
    made = number(found[2]) % 2 ** bits
    for forms, moved in [("Movkz Movnz", made), ("Movnz", 2 ** bits - 1 - made)]:
        if any(moved & ~(0xffff << shift) == 0 for shift in range(0, bits, 16)):
            return forms, signed(moved if "Movkz" in forms else ~moved)
    return None


# Each takes the mnemonic, the operands and the address, and returns the forms and the number.

def aarch64(name, text, address):
    distance = lambda: signed(last(text) - address)
    if name == "adr":
        return "Adr", distance()
    if name == "adrp":
        return "Adr", signed(last(text) - address // 4096 * 4096)
    if name in ("b", "bl"):
        return "JumpCall", distance()
    if re.match(r"bc?\.", name) or name in ("cbz", "cbnz"):
        return "Bcond", distance()
    if name in ("tbz", "tbnz"):
        return "TstBr", distance()
    if name == "mov":
        return move(text)
    if name in ("movz", "movn", "movk"):
        found = re.fullmatch(rf"\w+, #({NUMBER})(?:, lsl #({NUMBER}))?", text)
        moved = number(found[1]) << number(found[2] or "0")
        forms = {"movz": "Movkz Movnz", "movn": "Movnz", "movk": "Movkz"}[name]
        return forms, signed(~moved if name == "movn" else moved)
    if name == "add" and (found := re.fullmatch(rf"\w+, \w+, #({NUMBER})(, lsl #(?:12|0xc))?", text)):
        forms = "Add" if found[2] else "Add MachOLow12"
        return forms, number(found[1]) << (12 if found[2] else 0)
    if name in ("ldr", "ldrsw", "prfm") and re.fullmatch(rf"\S+, {NUMBER}", text):
        return "Ldr", distance()
    if re.fullmatch(r"(ldr|str|ldrs?[bh]|str[bh]|ldrsw|prfm)", name):
        if not re.fullmatch(rf"[^,]+, \[\w+(, #{NUMBER})?\]", text):
            return None
        first = "LdrRegister " if name == "ldr" and text[0] in "wx" else ""
        return first + "LdSt MachOLow12", offset(text)
    return None


def riscv64(name, text, address):
    if name in ("lui", "auipc"):
        return "UType", signed(last(text) << 12, 32)
    if name in ("addi", "addiw", "slti", "sltiu", "xori", "ori", "andi"):
        return "IType", last(text)
    if name in LOADS or name == "jalr":
        return "IType", offset(text)
    if re.fullmatch(r"s[bhwd]|fs[hwd]", name):
        return "SType", offset(text)
    if re.fullmatch(r"b(eq|ne|lt|ge|ltu|geu)", name):
        return "BType", signed(last(text) - address)
    if name == "jal":
        return "JType", signed(last(text) - address)
    if name in ("c.beqz", "c.bnez"):
        return "CbType", signed(last(text) - address)
    if name == "c.j":
        return "CjType", signed(last(text) - address)
    if name == "c.lui":
        return "CluiType", signed(last(text) << 12, 32)
    return None


def loongarch64(name, text, address):
    scales = {"lu12i.w": 12, "lu32i.d": 32, "pcaddi": 2, "pcalau12i": 12, "pcaddu12i": 12,
              "pcaddu18i": 18}
    if name in scales:
        return "Shift5", last(text) << scales[name]
    if name in ("b", "bl"):
        return "Branch26", last(text)
    if name in ("beqz", "bnez", "bceqz", "bcnez"):
        return "Branch21", last(text)
    if name in ("beq", "bne", "blt", "bge", "bltu", "bgeu", "jirl"):
        return "Shift10", last(text)
    if name == "addu16i.d":
        return "Shift10", last(text) << 16
    if name == "lu52i.d":
        return "Shift10", signed(last(text) << 52)
    if name in ("slti", "sltui", "addi.w", "addi.d", "andi", "ori", "xori", "preld"):
        return "Shift10", last(text)
    if re.fullmatch(r"(ld|st)\.[bhwd]|ld\.[bhw]u|f(ld|st)\.[sd]|x?v(ld|st)", name):
        return "Shift10", last(text)
    if name in ("nop", "move", "ret", "jr"):    # aliases of `andi`, `or` and `jirl`
        forms = {"nop": "Shift10", "ret": "Shift10", "jr": "Shift10"}.get(name)
        return forms and (forms, 0)
    return None


def powerpc64le(name, text, address):
    if name.startswith("p") and re.fullmatch(
            r"paddi|pli|pla|psubi|p(lwz|lbz|stw|stb|lhz|lha|sth|lfs|lfd|stfs|stfd|lwa|lxsd|lxssp|stxsd"
            r"|stxssp|lxv|stxv|lq|ld|lxvp|stq|std|stxvp)", name):
        found = re.search(rf"({NUMBER})\(", text)
        if found:
            return "Prefixed", number(found[1])
        numbers = re.findall(rf"(?<![\w]){NUMBER}", text)
        # paddi RT, RA, SI[, R]; pli RT, SI
        return "Prefixed", number(numbers[1 if name == "pli" else 2])
    if name in ("addi", "addic", "addic.", "mulli", "subfic", "li"):
        return "D", last(text)
    if name in ("addis", "lis"):
        return "D", signed(last(text) << 16, 32)
    if re.fullmatch(r"cmp[wd]i|cmpi|t[wd]i|t[wd](eq|lgt|llt|gt|lt|u|ne|lg|ge|le|nl|ng|lge|lle|lnl|lng)i", name):
        return "D", last(text)
    if re.fullmatch(r"l(wz|bz|hz|ha|fs|fd)u?|lmw|st(w|b|h|fs|fd)u?|stmw", name):
        return "D", offset(text)
    if name in ("ori", "xori", "andi.") or re.fullmatch(r"cmpl([wd])?i", name):
        return "DUnsigned", last(text)
    if name in ("oris", "xoris", "andis."):
        return "DUnsigned", last(text) << 16
    if name == "nop":
        return "DUnsigned", 0
    if re.fullmatch(r"ldu?|lwa|stdu?|stq|lq|lxsd|lxssp|stxsd|stxssp|lxvp?|stxvp?|lfdp|stfdp", name):
        return "Ds", offset(text)
    if name in ("b", "bl"):
        return "Branch24", signed(last(text.split("<")[0]) - address)
    if name in ("ba", "bla"):
        return "Branch24", signed(last(text), 26)
    if re.match(r"b(c|t|f|dnz|dz|eq|ne|lt|le|gt|ge|so|ns|un|nu|nl|ng)", name) \
            and not re.search(r"(lr|ctr|tar)l?[+-]?$", name) and not name.startswith(("bctr", "bcd", "bcdadd")):
        target = last(text.split("<")[0])
        if name.rstrip("+-").endswith("a"):
            return "Branch14", signed(target, 16)
        return "Branch14", signed(target - address)
    return None


READERS = {"aarch64": aarch64, "riscv64": riscv64, "loongarch64": loongarch64,
           "powerpc64le": powerpc64le}


def lines_of(command):
    """The address, the bytes and the text of each instruction that an objdump prints."""
    text = subprocess.run(command, check=True, capture_output=True, text=True).stdout
    for line in text.splitlines():
        found = re.match(r"\s*([0-9a-f]+):\s((?:[0-9a-f]{2,8} ?)+)\s+(.*)", line)
        if found:
            yield int(found[1], 16), found[2].split(), found[3]


def instruction_of(machine, address, text):
    """The forms and the number of an instruction, by its text; None of one that has none."""
    text = re.sub(r"\s*(//|#|;).*" if machine != "aarch64" else r"\s*//.*", "", text)
    name, _, operands = text.partition("\t" if "\t" in text else " ")
    operands = re.sub(r"\s*<[^>]*>", "", operands.strip())
    if machine == "powerpc64le" and re.search(r"[0-9a-f]$", operands) and re.match(r"b", name):
        operands = re.sub(r"(?:0x)?([0-9a-f]+)$", r"0x\1", operands)    # GNU prints no 0x
    found = READERS[machine](name.strip(), operands, address)
    return found and (found[0].split(), found[1])
