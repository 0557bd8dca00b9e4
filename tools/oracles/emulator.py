# SPDX-License-Identifier: MIT OR Apache-2.0
"""A processor of qemu's user emulation, driven one instruction at a time by the protocol of GDB."""
import os
import random
import re
import socket
import struct
import subprocess
import tempfile
import time

BASE = 0x40_0000_0000        # the address of the memory, which is a multiple of every page's size
RANDOM = 16 << 20            # so many bytes are random, and the others are 0
ZERO = BASE + RANDOM
CODE = ZERO + (1 << 20)
SIZE = RANDOM + (256 << 20)
PAGE = 1 << 14               # of the emulated processors, at most
HEAD = 1 << 16               # the bytes in front of them in the program's file


class Emulator:
    """A processor whose memory is the given segments: ascending addresses, lengths, and the first
    bytes of each, where the others are 0."""

    def __init__(self, program, cpu, machine, flags, pc, segments):
        """`program` is qemu's; `machine` and `flags` are those of the ELF header; `pc` is the
        number that GDB gives the program counter."""
        self.pc = pc
        self.folder = tempfile.TemporaryDirectory()
        file = f"{self.folder.name}/program"
        headers = struct.pack("<16sHHIQQQIHHHHHH", b"\x7fELF\2\1\1", 2, machine, 1, segments[0][0],
                              64, 0, flags, 64, 56, len(segments), 0, 0, 0)
        contents = b""
        for address, length, first in segments:
            headers += struct.pack("<IIQQQQQQ", 1, 7, HEAD + len(contents), address, address,
                                   len(first), length, HEAD)
            contents += first
        with open(file, "wb") as out:
            out.write(headers.ljust(HEAD, b"\0") + contents)
        os.chmod(file, 0o755)
        path = f"{self.folder.name}/gdb"
        self.qemu = subprocess.Popen([program, "-cpu", cpu, "-g", path, file],
                                     stdin=subprocess.DEVNULL)
        self.socket = socket.socket(socket.AF_UNIX)
        for _ in range(200):
            try:
                self.socket.connect(path)
                break
            except OSError:
                time.sleep(0.05)
        self.ask("qXfer:features:read:target.xml:0,ffb")     # else qemu reads no single register

    def close(self):
        self.qemu.kill()
        self.qemu.wait()
        self.socket.close()
        self.folder.cleanup()

    def ask(self, command):
        """Sends a packet, and returns the text of the answer."""
        text = command.encode()
        self.socket.sendall(b"$%s#%02x" % (text, sum(text) % 256))
        answer = b""
        while not (packet := re.search(rb"\$([^#]*)#..", answer)):
            part = self.socket.recv(1 << 16)
            if not part:
                raise EOFError(f"qemu ended: {command}")
            answer += part
        self.socket.sendall(b"+")
        return packet[1].decode("latin1")

    def register(self, number):
        return int.from_bytes(bytes.fromhex(self.ask(f"p{number:x}")), "little")

    def set_register(self, number, value):
        length = len(self.ask(f"p{number:x}")) // 2
        data = (value % 256 ** length).to_bytes(length, "little").hex()
        if self.ask(f"P{number:x}={data}") != "OK":
            raise ValueError(f"register {number}")

    def write(self, address, data):
        if self.ask(f"M{address:x},{len(data):x}:{data.hex()}") != "OK":
            raise ValueError(f"write at {address:#x}")

    def read(self, address, length):
        parts = [bytes.fromhex(self.ask(f"m{at:x},{min(1024, address + length - at):x}"))
                 for at in range(address, address + length, 1024)]
        return b"".join(parts)

    def run(self, code, steps, address, registers):
        """Executes so many instructions of the code at an address, with registers by GDB's
        numbers."""
        self.write(address, code)
        for number, value in registers.items():
            self.set_register(number, value)
        self.set_register(self.pc, address)
        for _ in range(steps):
            answer = self.ask("s")
            if not answer.startswith("T05"):
                raise ValueError(f"{code.hex()} stopped with {answer}")


class Processor(Emulator):
    """One processor, and a copy of its random memory. Code goes to a new page each time, since
    qemu lets GDB write no page that was executed."""

    def __init__(self, *processor):
        self.memory = bytearray(random.Random(1).randbytes(RANDOM))
        self.pages = iter(range(CODE, BASE + SIZE, PAGE))
        self.pages_amid_data = iter(range(BASE + (2 << 20), ZERO - (2 << 20), PAGE))
        super().__init__(*processor, [(BASE, SIZE, self.memory)])

    def write(self, address, data):
        super().write(address, data)
        if address < ZERO:
            self.memory[address - BASE:address - BASE + len(data)] = data

    def places_of(self, data, around, reach):
        """How far from an address the random part of the memory has these bytes: a set."""
        found = set()
        low = max(0, around - BASE - reach)
        end = min(RANDOM, around - BASE + reach + len(data))
        at = self.memory.find(data, low, end)
        while at >= 0:
            found.add(at + BASE - around)
            at = self.memory.find(data, at + 1, end)
        return found
