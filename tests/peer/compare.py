#!/usr/bin/env python3
"""Compares the program with qemu-user on random straight code: tests/peer/compare.py [--seed S] [--programs N] [--words W] [--keep FOLDER]

Each program sets registers, HI and LO, by constants or from memory, and goes on with random instructions, in both byte orders. It runs as a task in simple mode, and under qemu-mips or
qemu-mipsel. Compared are the registers, HI, LO, memory, the words that are put out, the trap, and by the rules of docs/machine.md (straight_times.py) the time of the end. A second job runs
on the memory that the first left. Three programs in ten come as ELF files, the others as words in the task's text. Every fourth program is also run with a deadline one ps too short, and has to be refused with the time that those rules say it needs.

A program ends by the return, or by a trap: overflow, a load or store that isn't aligned or isn't allowed, break, syscall, or a trap instruction whose comparison holds. A trap leaves the state as it was,
so the registers are those before it, and qemu has to end with the signal of that trap (which doesn't tell a load from a store); syscall isn't executed there.

Left out, since the MIPS32 manual leaves the result open: div and divu by zero, div of the least number by -1, HI and LO after mul, HI or LO after a mthi or mtlo that follows a product or quotient which
no mfhi or mflo has read. Left out too: control instructions before the return. qemu-user has no memory at the output port, so there a store to it goes to other memory, and a load from it reads zeros there.

One line says so where nothing is compared, since qemu-user, the cross binutils or the built program are missing, or the program doesn't take such tasks.
"""
import argparse
import os
import random
import struct
import subprocess
import sys
import tempfile

import straight_times
import under_qemu
from under_qemu import CODE

RAM = 0x10000000
RAM_LEN = 256
# the input buffer stands at the beginning of that memory
BUFFER = 160
NOWHERE = 0x30000000
# under qemu: where words go that are put out, and zeros for loads from the port
PORT_THERE = 0x20010000
ZEROS_THERE = 0x7000
MOST_WORDS = 256 * 64
MOST_OUT = ZEROS_THERE // 4
STACK = 0x7FFF0000
RETURN_ADDRESS = 0xFFFFFFF0
RETURN = 0x03E00008
EDGES = [0, 1, 2, 31, 32, 0x7FFF, 0x8000, 0xFFFF, 0x10000, 0x7FFFFFFF, 0x80000000, 0x80000001, 0xFFFF8000, 0xFFFFFFFE, 0xFFFFFFFF]
# cycles of a multiplication and of a division, ps of an access, of a store and to the first cycle, and the period
CORES = [(4, 16, 10000, 10000, 0, 1000), (1, 1, 1, 1, 7, 1000000), (32, 64, 3001, 999, 123456, 1000), (3, 7, 100, 5000, 1, 250), (5, 34, 9999, 100, 0, 100)]

R3 = {"sllv": 0x04, "srlv": 0x06, "srav": 0x07, "movz": 0x0A, "movn": 0x0B, "addu": 0x21, "subu": 0x23, "and": 0x24, "or": 0x25, "xor": 0x26, "nor": 0x27, "slt": 0x2A, "sltu": 0x2B}
SHIFT = {"sll": 0x00, "srl": 0x02, "sra": 0x03}
PRODUCT = {"mult": (0x00, 0x18), "multu": (0x00, 0x19), "madd": (0x1C, 0x00), "maddu": (0x1C, 0x01), "msub": (0x1C, 0x04), "msubu": (0x1C, 0x05)}
IMM = {"addiu": 0x09, "slti": 0x0A, "sltiu": 0x0B, "andi": 0x0C, "ori": 0x0D, "xori": 0x0E}
LOAD = {"lb": 0x20, "lh": 0x21, "lwl": 0x22, "lw": 0x23, "lbu": 0x24, "lhu": 0x25, "lwr": 0x26}
STORE = {"sb": 0x28, "sh": 0x29, "swl": 0x2A, "sw": 0x2B, "swr": 0x2E}
ALIGNED = {"lh": 2, "lhu": 2, "sh": 2, "lw": 4, "sw": 4}


def by_register(op, rs, rt, rd, sa, funct):
    return op << 26 | rs << 21 | rt << 16 | rd << 11 | sa << 6 | funct


def by_half(op, rs, rt, half):
    return op << 26 | rs << 21 | rt << 16 | half & 0xFFFF


def signed(word):
    return word - (1 << 32) if word >> 31 else word


def signed_half(half):
    return half - (1 << 16) if half >> 15 else half


def fits(number):
    return -(1 << 31) <= number < 1 << 31


# when a trap instruction traps
TRAP_IF = {
    "tge": (0x30, lambda a, b: signed(a) >= signed(b)), "tgeu": (0x31, lambda a, b: a >= b), "tlt": (0x32, lambda a, b: signed(a) < signed(b)),
    "tltu": (0x33, lambda a, b: a < b), "teq": (0x34, lambda a, b: a == b), "tne": (0x36, lambda a, b: a != b),
}


class Writer:
    """Random words, without results that the manual leaves open. The spare register holds the port's address, and no word writes it."""

    def __init__(self, draw, spare, ends_by_return):
        self.draw = draw
        self.spare = spare
        self.names = [r for r in range(1, 31 if ends_by_return else 32) if r != spare]
        self.words = []
        self.kinds = {}
        # words that are others under qemu, by place
        self.there = {}
        self.out = 0
        # a product or quotient that wasn't read yet, and whether HI and LO are defined
        self.unread = False
        self.defined = True

    def put(self, name, word):
        self.words.append(word)
        self.kinds[name] = self.kinds.get(name, 0) + 1

    def value(self):
        return self.draw.choice(EDGES) if self.draw.random() < 0.4 else self.draw.getrandbits(32)

    def source(self):
        return 0 if self.draw.random() < 0.06 else self.draw.choice(self.names)

    def target(self):
        return 0 if self.draw.random() < 0.03 else self.draw.choice(self.names)

    def set_register(self, r, value):
        self.put("lui", by_half(0x0F, 0, r, value >> 16))
        self.put("ori", by_half(0x0D, r, r, value))

    def define_pair(self):
        """mthi and mtlo, behind a mflo where a product or quotient stands unread."""
        if self.unread:
            self.put("mflo", by_register(0, 0, 0, self.target(), 0, 0x12))
            self.unread = False
        self.put("mthi", by_register(0, self.source(), 0, 0, 0, 0x11))
        self.put("mtlo", by_register(0, self.source(), 0, 0, 0, 0x13))
        self.defined = True

    def opening(self):
        self.there[0] = by_half(0x0F, 0, self.spare, PORT_THERE >> 16)
        self.put("lui", by_half(0x0F, 0, self.spare, 0xFFFF))
        for r in self.names:
            if self.draw.random() < 0.4:
                self.set_register(r, self.value())
            elif self.draw.random() < 0.5:
                self.put("lui", by_half(0x0F, 0, r, RAM >> 16))
                self.put("lw", by_half(LOAD["lw"], r, r, self.draw.randrange(RAM_LEN // 4) * 4))
        if self.draw.random() < 0.8:
            self.define_pair()

    def two_constants(self, allowed):
        """Two registers with values that are allowed together."""
        s, t = self.draw.sample(self.names, 2)
        while True:
            a, b = self.value(), self.value()
            if self.draw.random() < 0.1:
                b = a
            if allowed(a, b):
                break
        self.set_register(s, a)
        self.set_register(t, b)
        return s, t

    def r3(self):
        name = self.draw.choice(sorted(R3))
        self.put(name, by_register(0, self.source(), self.source(), self.target(), 0, R3[name]))

    def shift(self):
        name = self.draw.choice(sorted(SHIFT))
        self.put(name, by_register(0, 0, self.source(), self.target(), self.draw.randrange(32), SHIFT[name]))

    def imm(self):
        name = self.draw.choice(sorted(IMM))
        half = self.draw.choice([0, 1, 0x7FFF, 0x8000, 0xFFFF]) if self.draw.random() < 0.3 else self.draw.getrandbits(16)
        self.put(name, by_half(IMM[name], self.source(), self.target(), half))

    def lui(self):
        self.put("lui", by_half(0x0F, 0, self.target(), self.draw.getrandbits(16)))

    def count(self):
        rd = self.target()
        name, funct = self.draw.choice([("clz", 0x20), ("clo", 0x21)])
        self.put(name, by_register(0x1C, self.source(), rd, rd, 0, funct))

    def checked_sum(self, overflows=False):
        """add, sub and addi, which overflow or don't."""
        name = self.draw.choice(["add", "sub", "addi"])
        if name == "addi":
            half = self.draw.choice([0x7FFF, 0x8000]) if overflows else self.draw.getrandbits(16)
            s, _ = self.two_constants(lambda a, b: fits(signed(a) + signed_half(half)) != overflows)
            self.put(name, by_half(0x08, s, self.target(), half))
        else:
            sign, funct = (1, 0x20) if name == "add" else (-1, 0x22)
            s, t = self.two_constants(lambda a, b: fits(signed(a) + sign * signed(b)) != overflows)
            self.put(name, by_register(0, s, t, self.target(), 0, funct))

    def trap_if(self, holds=False):
        """A trap instruction whose comparison holds, or doesn't."""
        name = self.draw.choice(sorted(TRAP_IF))
        funct, compares = TRAP_IF[name]
        s, t = self.two_constants(lambda a, b: compares(a, b) == holds)
        self.put(name, s << 21 | t << 16 | self.draw.randrange(1 << 10) << 6 | funct)

    def product(self):
        name = self.draw.choice(sorted(PRODUCT))
        op, funct = PRODUCT[name]
        if op == 0x1C and not self.defined:
            self.define_pair()
        self.put(name, by_register(op, self.source(), self.source(), 0, 0, funct))
        self.unread = self.defined = True

    def quotient(self):
        name, funct = self.draw.choice([("div", 0x1A), ("divu", 0x1B)])
        s, t = self.two_constants(lambda a, b: b != 0 and not (a == 0x80000000 and b == 0xFFFFFFFF))
        self.put(name, by_register(0, s, t, 0, 0, funct))
        self.unread = self.defined = True

    def mul(self):
        self.put("mul", by_register(0x1C, self.source(), self.source(), self.target(), 0, 0x02))
        self.unread = self.defined = False

    def from_pair(self):
        if not self.defined:
            self.define_pair()
        name, funct = self.draw.choice([("mfhi", 0x10), ("mflo", 0x12)])
        self.put(name, by_register(0, 0, 0, self.target(), 0, funct))
        self.unread = False

    def hint(self):
        if self.draw.random() < 0.5:
            self.put("pref", by_half(0x33, self.source(), self.draw.randrange(32), self.draw.getrandbits(16)))
        else:
            self.put("sync", self.draw.randrange(32) << 6 | 0x0F)

    def access_at(self, name, at):
        """A load or store at an address."""
        code = LOAD[name] if name in LOAD else STORE[name]
        half = self.draw.getrandbits(16)
        base = self.draw.choice(self.names)
        self.set_register(base, at - signed_half(half) & 0xFFFFFFFF)
        self.put(name, by_half(code, base, self.target() if name in LOAD else self.source(), half))

    def access(self, members, first, length):
        """A load or store within the bytes from an address on."""
        name = self.draw.choice(sorted(members))
        step = ALIGNED.get(name, 1)
        self.access_at(name, first + self.draw.randrange(length // step) * step)

    def code_load(self):
        """A load from the code, behind its first word and before the first random instruction."""
        self.access(LOAD, CODE + 4, 4 * (self.opened - 1))

    def port_load(self):
        name = self.draw.choice(sorted(LOAD))
        half = self.draw.randrange(4 // ALIGNED.get(name, 1)) * ALIGNED.get(name, 1)
        to = self.target()
        self.there[len(self.words)] = by_half(LOAD[name], self.spare, to, ZEROS_THERE + half)
        self.put(name, by_half(LOAD[name], self.spare, to, half))

    def port_store(self):
        if self.out == MOST_OUT:
            return
        kept = self.source()
        self.there[len(self.words)] = by_half(STORE["sw"], self.spare, kept, 4 * self.out)
        self.put("sw", by_half(STORE["sw"], self.spare, kept, 0))
        self.out += 1

    def any(self):
        part = self.draw.choices(
            [self.r3, self.shift, self.imm, self.lui, self.count, self.checked_sum, self.product, self.quotient, self.mul, self.define_pair, self.from_pair, self.hint, self.trap_if,
             self.code_load, self.port_load, self.port_store, lambda: self.access(LOAD, RAM, RAM_LEN), lambda: self.access(STORE, RAM, RAM_LEN)],
            [10, 4, 5, 1, 2, 3, 4, 2, 2, 1, 3, 1, 1, 1, 1, 2, 7, 6])[0]
        part()

    def body(self, count):
        self.opening()
        self.opened = len(self.words)
        for _ in range(count):
            if len(self.words) > MOST_WORDS - 20:
                break
            self.any()
        if not self.defined:
            self.define_pair()

    def one_word(self):
        self.draw.choice([self.r3, self.shift, self.imm, self.lui, self.count])()

    def bad_access(self, members, kind):
        """An access that isn't aligned, or of an address that isn't declared, or a store that isn't allowed."""
        name = self.draw.choice(sorted(members))
        step = ALIGNED.get(name)
        if step and self.draw.random() < 0.6:
            at = RAM + self.draw.randrange(RAM_LEN // step - 1) * step + self.draw.randrange(1, step)
        elif members is STORE and self.draw.random() < 0.5:
            at = CODE + 4 * self.draw.randrange(self.opened)
        else:
            at = NOWHERE + 4 * self.draw.randrange(1 << 20)
        self.access_at(name, at)
        return kind

    def stop(self, kind, funct):
        self.put(kind, self.draw.randrange(1 << 20) << 6 | funct)
        return kind

    def trap(self):
        """A last instruction that traps; the kind of its trap."""
        return self.draw.choice([
            lambda: self.checked_sum(True) or "overflow", lambda: self.trap_if(True) or "trap-instr", lambda: self.bad_access(LOAD, "address-load"),
            lambda: self.bad_access(STORE, "address-store"), lambda: self.stop("break", 0x0D), lambda: self.stop("syscall", 0x0C)])()


class Case:
    """A program, its machine, and what ran of it."""

    def __init__(self, draw, count):
        self.spare = draw.randrange(1, 31)
        ends_by_return = draw.random() < 0.5
        writer = Writer(draw, self.spare, ends_by_return)
        writer.body(count)
        body = len(writer.words)
        if ends_by_return:
            self.trap = None
            writer.put("jr", RETURN)
            writer.one_word()
            self.text = self.executed = list(writer.words)
            self.place = body + 1
        else:
            self.trap = writer.trap()
            self.place = len(writer.words) - 1
            self.executed = list(writer.words)
            # a break, a syscall or the return has to follow, though nothing behind the trap is executed
            self.text = self.executed + ([] if self.trap in ("break", "syscall") else [RETURN, 0])
        there = [writer.there.get(k, w) for k, w in enumerate(writer.words)]
        # what qemu executes: no return, and nothing that traps
        self.there = there[:body] + there[body + 1:] if ends_by_return else there[:-1]
        self.trapping = there
        self.kinds = writer.kinds
        self.out = writer.out
        self.core = draw.choice(CORES)
        # whether the program is given an ELF file
        self.as_image = draw.random() < 0.3
        self.inputs = [draw.randbytes(draw.choice([0, 1, 100, BUFFER])) for _ in range(2)]

    def ending(self):
        return "exit" if self.trap is None else "trap %s %08x" % (self.trap, CODE + 4 * self.place)

    def machine(self):
        mul, div, mem, store, _, period = self.core
        return straight_times.Machine(mul, div, mem, store, period)

    def end_ps(self):
        return self.core[4] + self.core[5] * self.machine().end(self.executed, self.trap is not None)

    def needed_ps(self):
        return self.core[4] + self.core[5] * self.machine().needed(self.text)

    def wanted(self, peer):
        """What the program should tell of each job: the line of the job, the registers by name, the words put out, the memory shown."""
        memory, jobs = bytes(RAM_LEN), []
        for number, data in enumerate(self.inputs, 1):
            memory = data + bytes(BUFFER - len(data)) + memory[BUFFER:]
            opening = {4: RAM, 5: len(data), 29: STACK, 31: RETURN_ADDRESS}
            pieces = [(RAM, memory), (PORT_THERE, bytes(ZEROS_THERE + 4))]
            registers, (memory, port) = peer.run(self.there, pieces, opening, self.spare)
            registers[str(self.spare)] = 0xFFFF0000
            words = struct.unpack_from((">" if peer.order == "big" else "<") + "%dI" % self.out, port)
            jobs.append(("job %d simple end %d %s" % (number, self.end_ps(), self.ending()), registers, list(words), memory.hex()))
        return jobs

    def signal_fault(self, peer):
        """What is wrong with qemu's signal, or None."""
        if self.trap in (None, "syscall"):
            return None
        opening = {4: RAM, 5: len(self.inputs[0]), 29: STACK, 31: RETURN_ADDRESS}
        pieces = [(RAM, self.inputs[0] + bytes(RAM_LEN - len(self.inputs[0]))), (PORT_THERE, bytes(ZEROS_THERE + 4))]
        got = peer.signal(self.trapping, pieces, opening)
        return None if got in under_qemu.SIGNALS[self.trap] else "qemu ends with %s at %s" % (got, self.trap)


class Program:
    """The built program, in simple mode."""

    def __init__(self, path, folder):
        self.path = path
        self.folder = folder

    def image(self, case, order):
        """An ELF file of the words and of the memory behind the input buffer."""
        lines = [".section .text, \"ax\"", ".globl __start", "__start:"] + [".word 0x%08x" % w for w in case.text]
        lines += [".section .more, \"aw\", @progbits", ".fill %d, 1, 0" % (RAM_LEN - BUFFER)]
        under_qemu.link(order, os.path.join(self.folder, "image"), "\n".join(lines) + "\n", [(".text", CODE), (".more", RAM + BUFFER)])

    def code_lines(self, case, order):
        if case.as_image:
            self.image(case, order)
            return ["image image", "entry -"]
        places = range(0, len(case.text), 64)
        return ["words %08x " % (CODE + 4 * k) + " ".join("%08x" % w for w in case.text[k:k + 64]) for k in places] + ["entry %08x" % CODE]

    def task(self, case, order, deadline):
        mul, div, mem, store, start, period = case.core
        lines = ["visa-task 1", "order " + order, "core 1 8 %d %d" % (mul, div), "memory %d %d 0 %d" % (mem, store, start), "icache none", "dcache none", "point %d" % period,
                 "time 1000000000000 %d" % deadline]
        lines += self.code_lines(case, order) + ["stack %08x" % STACK, "ram %08x %d" % (RAM, BUFFER if case.as_image else RAM_LEN), "input %08x %d" % (RAM, BUFFER), "output 65536",
                                                 "show %08x %d" % (RAM, RAM_LEN)]
        return "\n".join(lines) + "\n"

    def run(self, case, order, deadline=1000000000000):
        """The status and what was printed."""
        with open(os.path.join(self.folder, "task"), "w") as f:
            f.write(self.task(case, order, deadline))
        with open(os.path.join(self.folder, "jobs"), "w") as f:
            f.write("visa-jobs 1\n" + "".join("job %s\n" % (data.hex() or "-") for data in case.inputs))
        ended = subprocess.run([self.path, "simple", "task", "jobs"], cwd=self.folder, stdout=subprocess.PIPE, stderr=subprocess.DEVNULL)
        return ended.returncode, ended.stdout.decode()


def read_registers(line):
    registers = {str(r): 0 for r in range(1, 32)}
    registers["hi"] = registers["lo"] = 0
    for field in line.split()[1:]:
        name, value = field.split("=")
        registers[name] = int(value, 16)
    return registers


def job_faults(lines, wanted):
    """What differs between the four lines of a job and what is wanted of it."""
    job, registers, words, memory = wanted
    found = read_registers(lines[1])
    faults = ["register %s is %08x, and %08x under qemu" % (name, found[name], registers[name]) for name in registers if found[name] != registers[name]]
    if lines[0] != job:
        faults.append("the line `%s`, wanted `%s`" % (lines[0], job))
    if [int(word, 16) for word in lines[2].split()[1:]] != words:
        faults.append("the words put out differ")
    if lines[3] != "mem %08x %s" % (RAM, memory):
        faults.append("memory is\n  %s, and under qemu\n  %s" % (lines[3].split()[-1], memory))
    return faults


def faults_of(case, peer, program):
    """What differs, in words."""
    faults = [fault for fault in [case.signal_fault(peer)] if fault]
    wanted = case.wanted(peer)
    if program is None:
        return faults
    status, text = program.run(case, peer.order)
    lines = text.splitlines()
    if status or len(lines) != 1 + 4 * len(wanted):
        return faults + ["status %d, %d lines: %s" % (status, len(lines), lines[:1])]
    for number, job in enumerate(wanted):
        faults += ["job %d: %s" % (number + 1, fault) for fault in job_faults(lines[1 + 4 * number:5 + 4 * number], job)]
    return faults


def refusal_fault(case, order, program):
    """What is wrong with the answer to a deadline one ps too short, or None."""
    deadline = case.needed_ps() - 1
    answer = program.run(case, order, deadline)
    return None if answer == (5, "refused exceeds %d %d\n" % (deadline + 1, deadline)) else "deadline %d: %s" % (deadline, answer)


def is_taken(program):
    """Whether the program takes tasks of such a form."""
    case = Case(random.Random(0), 1)
    return program.run(case, "little")[0] == 0


def compare(chosen, program, folder):
    words, instructions, different, kinds, endings = 0, 0, 0, {}, {}
    for order in ("big", "little"):
        peer = under_qemu.Peer(order, folder)
        for number in range(chosen.programs):
            case = Case(random.Random("%d %s %d" % (chosen.seed, order, number)), chosen.words)
            faults = faults_of(case, peer, program)
            if program and number % 4 == 0:
                faults += [fault for fault in [refusal_fault(case, order, program)] if fault]
            for fault in faults:
                print("order %s program %d: %s" % (order, number, fault))
            words, instructions, different = words + len(case.text), instructions + 2 * len(case.executed), different + len(faults)
            endings[case.trap or "exit"] = endings.get(case.trap or "exit", 0) + 1
            for name, count in case.kinds.items():
                kinds[name] = kinds.get(name, 0) + count
    print("instructions: " + " ".join("%s %d" % pair for pair in sorted(kinds.items())))
    print("ends: " + " ".join("%s %d" % pair for pair in sorted(endings.items())))
    result = "differences %d" % different if program else "under qemu alone, wrong signals %d" % different
    print("seed %d  programs %d  words %d  instructions executed %d  %s" % (chosen.seed, 2 * chosen.programs, words, instructions, result))
    return 1 if different else 0


def main():
    arguments = argparse.ArgumentParser(description=__doc__.splitlines()[0])
    arguments.add_argument("--seed", type=int, default=random.randrange(1 << 32))
    arguments.add_argument("--programs", type=int, default=100, help="programs in each byte order")
    arguments.add_argument("--words", type=int, default=150, help="random instructions of a program, those that set registers aside; it has at most 16384 words")
    arguments.add_argument("--keep", help="a folder that is made, for the files of the last program")
    arguments.add_argument("--peer-only", action="store_true", help="run qemu alone, and print how many words of each instruction there were")
    chosen = arguments.parse_args()
    top = os.path.dirname(os.path.dirname(os.path.dirname(os.path.abspath(__file__))))
    path = os.environ.get("VISA", os.path.join(top, "crates/visa/out/visa"))
    missing = under_qemu.missing()
    if missing:
        print("compare: skipped, missing: " + " ".join(missing) + " (Debian: qemu-user gcc-mips-linux-gnu gcc-mipsel-linux-gnu)")
        return 0
    if not chosen.peer_only and not os.access(path, os.X_OK):
        print("compare: skipped, the program isn't built (./visa builds it)")
        return 0
    if chosen.keep:
        os.makedirs(chosen.keep, exist_ok=True)
    with tempfile.TemporaryDirectory() as temporary:
        folder = chosen.keep or temporary
        program = None if chosen.peer_only else Program(os.path.abspath(path), folder)
        if program and not is_taken(program):
            print("compare: skipped, the program doesn't take such tasks")
            return 0
        return compare(chosen, program, folder)


if __name__ == "__main__":
    sys.exit(main())
