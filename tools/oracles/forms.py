# SPDX-License-Identifier: MIT OR Apache-2.0
"""`rust/vectors/tests/vectors/forms/*.txt`: which forms the immediate of an instruction has, and
the number in it, as disassemblers print it.

It needs llvm-19, and binutils for powerpc64le. Words are random, with a fixed seed; in
each file is a sample of those with each mnemonic, and of those without a form. A line is the bytes,
the number, the forms and the instruction's text. `rust/vectors` compares the files, and with the
environment variable FORM_WORDS all those in a folder. --count is of the words, --to the folder, and
with --all the files have all words.
"""
import random
import re
import struct
import subprocess
import tempfile
from collections import Counter
from pathlib import Path

from shared.disassembly import MACHINES, instruction_of, lines_of

ROOT = Path(__file__).resolve().parents[2]
SAMPLE = 6


def is_invalid_lq(word):
    """LQ or PLQ of an odd register, or with its base in its target: disassemblers differ in these."""
    target, base = word >> 21 & 31, word >> 16 & 31
    return word >> 26 == 56 and (target % 2 == 1 or target == base)


def random_words(machine, count, chance):
    """Bytes of instructions; of RISC-V half of them are compressed, of PowerPC64 some are prefixed."""
    for _ in range(count):
        word = chance.getrandbits(32)
        if machine == "riscv64":
            if chance.random() < 0.3:
                half = chance.getrandbits(16)
                if half % 4 != 3:
                    yield struct.pack("<H", half)
                continue
            if word & 0x1c != 0x1c:    # else it is one of 48 bits or more
                yield struct.pack("<I", word | 3)
        elif machine == "powerpc64le" and (word >> 26 == 1 or is_invalid_lq(word)):
            continue
        elif machine == "powerpc64le" and chance.random() < 0.3:
            prefix = chance.choice([0x04000000, 0x06000000]) | chance.getrandbits(18)
            if chance.random() < 0.2:    # relative to its address, without a base
                prefix |= 1 << 20
                word &= ~(31 << 16)
            if not is_invalid_lq(word):
                yield struct.pack("<II", prefix, word)
        else:
            yield struct.pack("<I", word)


def object_of(machine, words, folder):
    """An object whose code is the words. Each prefixed one begins at a multiple of 8 bytes."""
    code, places = bytearray(), {}
    for word in words:
        while machine == "powerpc64le" and len(word) == 8 and len(code) % 8:
            code += struct.pack("<I", 0x60000000)
        places[len(code)] = word
        code += word
    (folder / "code").write_bytes(code)
    subprocess.run(["llvm-objcopy-19", "-I", "binary", "-O", MACHINES[machine][1],
                    "--set-section-flags", ".data=code,alloc", folder / "code", folder / "object"],
                   check=True)
    return places


def instructions(machine, count, folder):
    """The words, and what disassemblers say of them."""
    places = object_of(machine, random_words(machine, count, random.Random(machine)), folder)
    _, _, options, other = MACHINES[machine]
    texts = {}
    commands = [["llvm-objdump-19", "-D", "-j", ".data", *options, str(folder / "object")]]
    if other:
        commands.append([*other, "-D", "-j", ".data", str(folder / "object")])
    for command in commands:
        for address, _, text in lines_of(command):
            if re.match(r"<unknown>|\.(long|short|word|insn|4byte|2byte|llong)", text):
                continue
            texts.setdefault(address, text)
    for place, word in places.items():
        text = texts.get(place, "none")
        yield word, text, instruction_of(machine, place, text)


def make(words):
    is_all, words = "--all" in words, [word for word in words if word != "--all"]
    given = dict(zip(words[::2], words[1::2]))
    folder = Path(given.get("--to", ROOT / "rust/vectors/tests/vectors/forms"))
    folder.mkdir(parents=True, exist_ok=True)
    for machine in MACHINES:
        with tempfile.TemporaryDirectory() as room:
            counts, lines = Counter(), []
            for word, text, found in instructions(machine, int(given.get("--count", 40_000)), Path(room)):
                name = text.split()[0] if found else "none"
                counts[name] += 1
                if is_all or counts[name] <= (SAMPLE if found else 100):
                    forms, number = found or (["-"], 0)
                    shown = re.sub(r"\s+", " ", re.sub(r"\s*(<.*|//.*)", "", text))
                    lines.append(f"{word.hex()} {number} {','.join(forms)} {shown}\n")
        (folder / f"{machine}.txt").write_text("".join(sorted(lines, key=lambda l: (l.split()[2:4], l))))
        print(machine, sum(counts.values()), len(lines))
