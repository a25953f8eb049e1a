"""Runs straight code under qemu-user and gives the registers, HI, LO and memory that it leaves.

The words stand at CODE. In front of them stands code that sets all registers, HI and LO; behind them code that writes everything out. Other memory is given in pieces, each an address
and its bytes. The code behind needs one register, the spare one, which no word writes.
"""
import os
import shutil
import signal
import struct
import subprocess

CODE = 0x00400000
OPENING = 0x00300000
DUMP = 0x20000000
# what the manual's exceptions become under Linux; break and the trap instructions with code 6 or 7 become SIGFPE
SIGNALS = {
    "overflow": {signal.SIGFPE},
    "address-load": {signal.SIGBUS, signal.SIGSEGV},
    "address-store": {signal.SIGBUS, signal.SIGSEGV},
    "break": {signal.SIGTRAP, signal.SIGFPE},
    "trap-instr": {signal.SIGTRAP, signal.SIGFPE},
    "reserved": {signal.SIGILL},
}


def prefix(order):
    return "mips-linux-gnu-" if order == "big" else "mipsel-linux-gnu-"


def emulator(order):
    return "qemu-mips" if order == "big" else "qemu-mipsel"


def missing():
    """The commands that aren't there."""
    wanted = [emulator(order) for order in ("big", "little")]
    wanted += [prefix(order) + tool for order in ("big", "little") for tool in ("as", "ld")]
    return [tool for tool in wanted if not shutil.which(tool)]


def link(order, name, assembly, places):
    """An ELF file of that name, with the sections of an assembly text at their places; it begins at __start."""
    with open(name + ".s", "w") as f:
        f.write(assembly)
    subprocess.run([prefix(order) + "as", "-mips32", "-o", name + ".o", name + ".s"], check=True)
    with open(name + ".ld", "w") as f:
        f.write("ENTRY(__start)\nSECTIONS {\n")
        for section, at in sorted(places, key=lambda place: place[1]):
            f.write("  %s 0x%x : { *(%s) }\n" % (section, at, section))
        f.write("  /DISCARD/ : { *(*) }\n}\n")
    subprocess.run([prefix(order) + "ld", "-T", name + ".ld", "-o", name, name + ".o"], check=True)


class Peer:
    """Programs of one byte order, in a folder for their files."""

    def __init__(self, order, folder):
        self.order = order
        self.folder = folder

    def opening(self, registers):
        lines = [".section .opening, \"ax\"", ".globl __start", "__start:", "mthi $0", "mtlo $0"]
        for r in range(1, 32):
            value = registers.get(r, 0)
            lines += ["lui $%d, 0x%04x" % (r, value >> 16), "ori $%d, $%d, 0x%04x" % (r, r, value & 0xFFFF)]
        return lines + ["j 0x%08x" % CODE, "nop"]

    def dump(self, pieces, spare):
        scratch = 1 if spare != 1 else 2
        lines = ["lui $%d, 0x%04x" % (spare, DUMP >> 16)]
        lines += ["sw $%d, %d($%d)" % (r, 4 * r, spare) for r in range(32) if r != spare]
        lines += ["mfhi $%d" % scratch, "sw $%d, 128($%d)" % (scratch, spare), "mflo $%d" % scratch, "sw $%d, 132($%d)" % (scratch, spare)]
        for at, length in [(DUMP, 136)] + [(at, len(data)) for at, data in pieces]:
            lines += ["addiu $4, $0, 1", "lui $5, 0x%04x" % (at >> 16), "ori $5, $5, 0x%04x" % (at & 0xFFFF), "lui $6, 0x%04x" % (length >> 16),
                      "ori $6, $6, 0x%04x" % (length & 0xFFFF), "addiu $2, $0, 4004", "syscall"]
        return lines

    def assembly(self, words, pieces, registers, behind):
        lines = [".set noreorder", ".set noat"] + self.opening(registers) + [".section .text, \"ax\""]
        lines += [".word 0x%08x" % w for w in words] + behind
        lines += ["addu $4, $0, $0", "addiu $2, $0, 4001", "syscall"]
        for number, (_, data) in enumerate(pieces):
            lines += [".section .piece%d, \"aw\", @progbits" % number] + [".byte 0x%02x" % b for b in data]
        lines += [".section .dump, \"aw\", @progbits", ".fill 4096, 1, 0"]
        return "\n".join(lines) + "\n"

    def build(self, words, pieces, registers, behind):
        name = os.path.join(self.folder, "peer")
        places = [(".opening", OPENING), (".text", CODE), (".dump", DUMP)] + [(".piece%d" % k, at) for k, (at, _) in enumerate(pieces)]
        link(self.order, name, self.assembly(words, pieces, registers, behind), places)
        return name

    def execute(self, name):
        # 4Kc is MIPS32 release 1
        return subprocess.run([emulator(self.order), "-cpu", "4Kc", name], stdout=subprocess.PIPE, stderr=subprocess.DEVNULL)

    def run(self, words, pieces, registers, spare):
        """The registers 1 to 31 but the spare one with `hi` and `lo`, by name, and the bytes of the pieces."""
        ended = self.execute(self.build(words, pieces, registers, self.dump(pieces, spare)))
        if ended.returncode or len(ended.stdout) != 136 + sum(len(data) for _, data in pieces):
            raise SystemExit("qemu ended with %d and wrote %d bytes" % (ended.returncode, len(ended.stdout)))
        values = struct.unpack((">" if self.order == "big" else "<") + "34I", ended.stdout[:136])
        left = {str(r): values[r] for r in range(1, 32) if r != spare}
        left["hi"], left["lo"] = values[32], values[33]
        found, at = [], 136
        for _, data in pieces:
            found.append(ended.stdout[at:at + len(data)])
            at += len(data)
        return left, found

    def signal(self, words, pieces, registers):
        """The signal that ends the words, or None where they reach their end."""
        code = self.execute(self.build(words, pieces, registers, [])).returncode
        return signal.Signals(-code) if code < 0 else None
