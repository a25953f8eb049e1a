#!/usr/bin/env python3
"""Compares `list` with GNU objdump on every word of compiled programs: tests/peer/list.py [PROGRAM] [--words N] [--seed S] [--keep FOLDER] [--own]

In both byte orders gcc builds the C files of compiled/, elf_dump/ and examples/ at -O0 to -O3, some with floating point and for a later release, and one with a whole C library. Of each image the lines of `list` are compared with
`objdump -d -M no-aliases,gpr-names=numeric`: the addresses, the words, and of each distinct word (with a branch's or jump's distance) its text; and the lines `sym` with readelf's symbols. N more words are drawn, half of them
instructions with random fields, half of them of any bits. With --own the texts come from a second reading (own_lines) in place of the program.

The notation differs in these points, and the text of objdump is turned into that of `list` by `in_our_notation`:
- numbers behind lui, andi, ori, xori and of shifts, codes and hints are hexadecimal there and decimal in `list`;
- a code of 0 isn't printed there (break, syscall, the trap instructions), nor a stype of 0; break has two codes of ten bits there, which are one of twenty bits in `list`, the first one the more significant;
- div and divu have a first register $0 there; sub and subu from $0 are neg and negu there;
- a jalr that links in $31 doesn't name it there;
- an address has no leading zeros there, and a symbol's name behind it.
A word that is `reserved` in `list` may have a text there: release 2 and later, floating point, coprocessors, ll and sc, the traps with a number, branch-likely, and words whose unused fields aren't zero (objdump passes over
some of these). So a reserved word is compared with the table of mips_step.py: it has to be none of its instructions, and objdump's mnemonic has to be none of the table or one of LOOSE.
"""
import argparse
import os
import random
import re
import shutil
import struct
import subprocess
import sys
import tempfile

import mips_step

HERE = os.path.dirname(os.path.abspath(__file__))
TOP = os.path.dirname(os.path.dirname(HERE))
PROGRAM = os.path.join(TOP, "crates/visa/out/visa")
PLAIN = ["-march=mips32", "-mabi=32", "-msoft-float", "-mno-abicalls", "-fno-pic", "-G0", "-ffreestanding", "-nostdlib", "-static", "-Wl,-e,start"]
LATER = ["-march=mips32r2", "-mabi=32", "-mno-abicalls", "-fno-pic", "-G0", "-ffreestanding", "-nostdlib", "-static", "-Wl,-e,start", "-Wl,--unresolved-symbols=ignore-all"]
# 64-bit division is in a library that isn't there
LOOSELY = PLAIN + ["-Wl,--unresolved-symbols=ignore-all"]
WORDS, TRAPS = "tests/peer/compiled/words.c", "tests/peer/compiled/traps.c"
LEVELS = ["-O0", "-O1", "-O2", "-O3", "-Os"]
# mnemonics of our table that objdump also gives to words that are none of our instructions: a field that isn't used isn't zero there
LOOSE = {"break", "syscall", "sync", "jr", "jalr", "sll", "srl", "srlv", "mult", "multu", "div", "divu", "madd", "maddu", "msub", "msubu", "mthi", "mtlo", "mfhi", "mflo", "mul", "clz", "clo", "movz", "movn"}
HEXADECIMAL = {"lui", "andi", "ori", "xori", "sll", "srl", "sra", "sync", "syscall", "pref", "tge", "tgeu", "tlt", "tltu", "teq", "tne"}
CODED = {"tge", "tgeu", "tlt", "tltu", "teq", "tne"}
NOWHERE = "00400000"


def prefix(order):
    return "mips-linux-gnu-" if order == "big" else "mipsel-linux-gnu-"


def missing():
    wanted = [prefix(order) + tool for order in ("big", "little") for tool in ("gcc", "objdump", "readelf")]
    return [tool for tool in wanted if not shutil.which(tool)]


def builds():
    """Name, flags, C files."""
    made = []
    for level in LEVELS:
        made.append(("words" + level, LOOSELY + [level], [WORDS]))
        made.append(("later" + level, LATER + [level], [WORDS]))
        made.append(("traps" + level, LATER + [level], [TRAPS]))
        made.append(("two" + level, LOOSELY + [level], ["tests/peer/elf_dump/one.c", "tests/peer/elf_dump/two.c"]))
        for folder in sorted(os.listdir(os.path.join(TOP, "examples"))):
            for name in sorted(os.listdir(os.path.join(TOP, "examples", folder))):
                if name.endswith(".c"):
                    made.append((name[:-2] + level, LOOSELY + [level], ["examples/%s/%s" % (folder, name)]))
    made.append(("position-independent", ["-march=mips32r2", "-mabi=32", "-O2", "-mabicalls", "-fPIC", "-nostdlib", "-static", "-Wl,-e,start", "-Wl,--unresolved-symbols=ignore-all"], [WORDS]))
    made.append(("c-library", ["-static", "-O2"], ["tests/peer/elf_dump/hello.c"]))
    return made


def build(order, flags, sources, to):
    """Whether gcc made the file."""
    command = [prefix(order) + "gcc", "-EB" if order == "big" else "-EL"] + flags + ["-w", "-o", to] + [os.path.join(TOP, source) for source in sources]
    ended = subprocess.run(command, stdout=subprocess.PIPE, stderr=subprocess.STDOUT)
    if ended.returncode:
        print("%s: gcc makes no file: %s" % (os.path.basename(to), ended.stdout.decode().strip().split("\n")[-1]))
    return ended.returncode == 0


# what objdump prints

def in_our_notation(text):
    """objdump's text in the notation of `list`, or None where it has none."""
    parts = text.split("\t") if "\t" in text else text.split(None, 1)
    name, fields = parts[0].strip(), parts[1].strip() if len(parts) > 1 else ""
    fields = re.sub(r"\s*<.*>$", "", fields)
    operands = fields.split(",") if fields else []
    if name == "break":
        operands = [str((int(operands[0], 16) if operands else 0) << 10 | (int(operands[1], 16) if len(operands) > 1 else 0))]
    elif name == "syscall":
        operands = operands or ["0"]
    elif name == "sync":
        operands = operands or ["0"]
    elif name in CODED:
        operands += ["0"] if len(operands) == 2 else []
    elif name == "jalr" and len(operands) == 1:
        operands = ["$31"] + operands
    elif name in ("div", "divu") and operands[0] == "$0" and len(operands) == 3:
        del operands[0]
    elif name in ("neg", "negu"):
        name, operands = "sub" + name[3:], [operands[0], "$0", operands[1]]
    if name in mips_step.BRANCHES_ONE.values() or name in ("beq", "bne", "blez", "bgtz", "j", "jal"):
        operands[-1] = "%08x" % int(operands[-1], 16)
    elif name in HEXADECIMAL:
        operands = [str(int(x, 16)) if x.startswith("0x") else re.sub(r"^0x[0-9a-f]+\b", lambda m: str(int(m.group(), 16)), x) for x in operands]
    return name + (" " + ",".join(operands) if operands else "")


def disassembled(order, image):
    """Of each address its word and objdump's text."""
    command = [prefix(order) + "objdump", "-d", "-z", "-M", "no-aliases,gpr-names=numeric", "-j", ".text", image]
    return parse(subprocess.run(command, stdout=subprocess.PIPE, check=True).stdout.decode("utf-8", "replace"))


def disassembled_words(order, words, folder):
    """The same of bare words from address 00400000 on."""
    name = os.path.join(folder, "words.bin")
    with open(name, "wb") as f:
        f.write(struct.pack((">" if order == "big" else "<") + "%dI" % len(words), *words))
    command = [prefix(order) + "objdump", "-D", "-z", "-b", "binary", "-m", "mips:isa32", "-EB" if order == "big" else "-EL", "--adjust-vma=0x" + NOWHERE, "-M", "no-aliases,gpr-names=numeric", name]
    return parse(subprocess.run(command, stdout=subprocess.PIPE, check=True).stdout.decode("utf-8", "replace"))


def parse(printed):
    found = {}
    for line in printed.split("\n"):
        fields = re.match(r"\s*([0-9a-f]+):\s+([0-9a-f]{8})\s*(.*)$", line)
        if fields:
            found[int(fields.group(1), 16)] = (int(fields.group(2), 16), fields.group(3).strip())
    return found


def symbols(order, image):
    """The names at each address, in the file's order; a name counts at its first value."""
    printed = subprocess.run([prefix(order) + "readelf", "-sW", image], stdout=subprocess.PIPE, check=True).stdout.decode("latin-1")
    at, seen = {}, set()
    for line in printed.split("\n"):
        fields = re.match(r"\s*\d+:\s+([0-9a-f]{8})\s+\S+\s+(\w+)\s+\w+\s+\w+\s+(?:\[[^]]*\]\s+)?\S+\s(\S+)$", line)
        if fields and fields.group(2) != "SECTION" and fields.group(3) not in seen:
            seen.add(fields.group(3))
            at.setdefault(int(fields.group(1), 16), []).append(fields.group(3))
    return at


# what `list` prints

def listed(lines):
    """The words in their order, as address, word, text and names; and the first line."""
    found, names = [], []
    for line in lines[1:]:
        if line.startswith("sym "):
            names.append(line[4:])
        else:
            at, word, text = line.split(" ", 2)
            found.append((int(at, 16), int(word, 16), text, names))
            names = []
    return found


def task(order, lines):
    head = ["visa-task 1", "order " + order, "core 1 8 4 16", "memory 10000 10000 0 0", "icache none", "dcache none", "point 1000", "time 100000 100000"]
    return head + lines + ["stack 7fff0000", "input 00000000 0", "output 16"]


def run_list(program, folder, lines):
    with open(os.path.join(folder, "task"), "w") as f:
        f.write("\n".join(lines) + "\n")
    ended = subprocess.run([program, "list", "task"], cwd=folder, stdout=subprocess.PIPE, stderr=subprocess.DEVNULL)
    return ended.returncode, ended.stdout.decode("latin-1").split("\n")[:-1]


# a second reading of the texts

def own_text(word, at):
    i = mips_step.decode(word)
    if i is None:
        return "reserved"
    n = i.name
    far = mips_step.signed_half(i.imm)
    if n in mips_step.LOADS.values() or n in mips_step.STORES.values() or n == "pref":
        return "%s %s%d,%d($%d)" % (n, "" if n == "pref" else "$", i.rt, far, i.rs)
    if n in ("beq", "bne"):
        return "%s $%d,$%d,%08x" % (n, i.rs, i.rt, mips_step.branch_target(i, at))
    if n in mips_step.BRANCHES_ONE.values() or n in ("blez", "bgtz"):
        return "%s $%d,%08x" % (n, i.rs, mips_step.branch_target(i, at))
    if n in ("j", "jal"):
        return "%s %08x" % (n, mips_step.jump_target(i, at))
    if n in mips_step.IMMEDIATES.values():
        return "%s $%d,$%d,%d" % (n, i.rt, i.rs, i.imm if n in ("andi", "ori", "xori") else far)
    if n == "lui":
        return "lui $%d,%d" % (i.rt, i.imm)
    if n in mips_step.SHIFTS.values():
        return "%s $%d,$%d,%d" % (n, i.rd, i.rt, i.sa)
    if n in ("sllv", "srlv", "srav"):
        return "%s $%d,$%d,$%d" % (n, i.rd, i.rt, i.rs)
    if n in mips_step.THREE.values() or n == "mul":
        return "%s $%d,$%d,$%d" % (n, i.rd, i.rs, i.rt)
    if n in ("clz", "clo", "jalr"):
        return "%s $%d,$%d" % (n, i.rd, i.rs)
    if n in ("mfhi", "mflo"):
        return "%s $%d" % (n, i.rd)
    if n in ("mthi", "mtlo", "jr"):
        return "%s $%d" % (n, i.rs)
    if n in mips_step.TRAP_IFS.values():
        return "%s $%d,$%d,%d" % (n, i.rs, i.rt, i.word >> 6 & 1023)
    if n in ("break", "syscall"):
        return "%s %d" % (n, i.word >> 6 & 0xFFFFF)
    if n == "sync":
        return "sync %d" % i.sa
    return "%s $%d,$%d" % (n, i.rs, i.rt)


class Comparison:
    def __init__(self):
        self.words, self.distinct, self.reserved, self.different, self.names, self.images = 0, set(), set(), 0, 0, 0
        self.mnemonics = set()

    def differs(self, *said):
        self.different += 1
        if self.different <= 20:
            print(" ".join(said))

    def word(self, at, word, text, theirs):
        """One listed word against objdump's text of it."""
        key = (word, text.split(",")[-1] if re.match(r"[bj]", text) else "")
        if key in self.distinct or key in self.reserved:
            return
        if text == "reserved":
            self.reserved.add(key)
            name = theirs.split()[0] if theirs else ".word"
            if mips_step.decode(word) is not None or own_names() & {name} - LOOSE:
                self.differs("%08x %08x is reserved, and objdump says" % (at, word), theirs)
            return
        self.distinct.add(key)
        self.mnemonics.add(text.split()[0])
        wanted = in_our_notation(theirs)
        if text != wanted:
            self.differs("%08x %08x is listed as `%s`, and objdump says" % (at, word, text), wanted)

    def image(self, name, lines, theirs, names):
        """All lines of an image. objdump doesn't show what isn't in .text, so these words are compared with the second reading alone."""
        self.images += 1
        if lines[:1] != ["visa 1 list"]:
            self.differs(name, "first line", str(lines[:1]))
        for at, word, text, given in listed(lines):
            self.words += 1
            if at in theirs:
                if theirs[at][0] != word:
                    self.differs("%s: %08x %08x, and objdump has %08x" % (name, at, word, theirs[at][0]))
                self.word(at, word, text, theirs[at][1])
            elif text != own_text(word, at):
                self.differs("%s: %08x %08x `%s`, by the second reading `%s`" % (name, at, word, text, own_text(word, at)))
            self.names += len(given)
            if given != names.get(at, []):
                self.differs("%s: names at %08x: %s, and readelf has %s" % (name, at, given, names.get(at, [])))
        gone = set(theirs) - {at for at, _, _, _ in listed(lines)}
        if gone:
            self.differs("%s: %d words aren't listed, from %08x on" % (name, len(gone), min(gone)))

    def line(self):
        return ("%d images and lists, %d words, of which %d distinct ones have a text (%d mnemonics) and %d are reserved; %d names; differences %d"
                % (self.images, self.words, len(self.distinct), len(self.mnemonics), len(self.reserved), self.names, self.different))


def own_names():
    s = mips_step
    tables = [s.LOADS, s.STORES, s.IMMEDIATES, s.THREE, s.SHIFTS, s.PAIRED, s.PAIRED_MORE, s.TRAP_IFS, s.BRANCHES_ONE]
    more = {"mfhi", "mflo", "mthi", "mtlo", "mul", "clz", "clo", "lui", "beq", "bne", "blez", "bgtz", "j", "jal", "jr", "jalr", "break", "syscall", "sync", "pref"}
    return more | {name for table in tables for name in table.values()}


def own_lines(order, image):
    """What `list` has to print of an image, by the second reading; without names."""
    import fast_run
    with open(image, "rb") as f:
        _, segments = fast_run.segments_of(f.read())
    lines = ["visa 1 list"]
    for first, data, rights in sorted(segments, key=lambda segment: segment[0]):
        if "x" not in rights:
            continue
        for at in range(-(-first // 4) * 4, (first + len(data)) // 4 * 4, 4):
            word, = struct.unpack_from((">" if order == "big" else "<") + "I", data, at - first)
            lines.append("%08x %08x %s" % (at, word, own_text(word, at)))
    return lines


def random_words(draw, count):
    """Half of them instructions with random fields, half of them any bits; the fields of an instruction's row that aren't used are zero most often."""
    words = []
    while len(words) < count:
        word = draw.getrandbits(32)
        if len(words) % 2:
            op = draw.choice([0, 0, 0, 0x1C, 1] + list(range(2, 16)) + list(range(0x20, 0x2F)) + [0x33])
            word = op << 26 | draw.getrandbits(26)
            for field in (31 << 21, 31 << 16, 31 << 11, 31 << 6):
                if draw.random() < 0.5 and op in (0, 0x1C, 1, 6, 7, 0x0F):
                    word &= ~field
            if op == 0x1C and draw.random() < 0.3:
                word = word & ~(31 << 16) | (word >> 11 & 31) << 16
        words.append(word)
    return words


def compare_words(order, program, chosen, folder, comparison):
    draw = random.Random(chosen.seed)
    words = random_words(draw, chosen.words)
    for first in range(0, len(words), 16384):
        part = words[first:first + 16384]
        theirs = disassembled_words(order, part, folder)
        if chosen.own:
            lines = ["visa 1 list"] + ["%08x %08x %s" % (0x400000 + 4 * k, w, own_text(w, 0x400000 + 4 * k)) for k, w in enumerate(part)]
        else:
            texts = ["words %08x " % (0x400000 + 4 * k) + " ".join("%08x" % w for w in part[k:k + 64]) for k in range(0, len(part), 64)]
            status, lines = run_list(program, folder, task(order, texts + ["entry " + NOWHERE]))
            if status:
                comparison.differs("random words: status %d" % status, str(lines))
                return
        comparison.image("random words", lines, theirs, {})


def compare_image(order, name, program, chosen, folder, comparison):
    image = os.path.join(folder, name)
    names = symbols(order, image)
    if chosen.own:
        lines, names = own_lines(order, image), {}
    else:
        status, lines = run_list(program, folder, task(order, ["image " + name, "entry -"]))
        if status:
            comparison.differs("%s: status %d" % (name, status), str(lines))
            return
    comparison.image(name, lines, disassembled(order, image), names)


def main():
    arguments = argparse.ArgumentParser(description=__doc__.splitlines()[0])
    arguments.add_argument("program", nargs="?", default=os.environ.get("VISA", PROGRAM))
    arguments.add_argument("--words", type=int, default=20000)
    arguments.add_argument("--seed", type=int, default=1)
    arguments.add_argument("--keep", help="a folder that is made, for the images")
    arguments.add_argument("--own", action="store_true")
    chosen = arguments.parse_args()
    lacking = missing()
    if lacking:
        print("list: skipped, missing: " + " ".join(lacking) + " (Debian: gcc-mips-linux-gnu gcc-mipsel-linux-gnu)")
        return 0
    program = os.path.abspath(chosen.program)
    if not chosen.own and not os.access(program, os.X_OK):
        print("list: skipped, the program isn't built (./visa builds it)")
        return 0
    comparison = Comparison()
    with tempfile.TemporaryDirectory() as temporary:
        folder = chosen.keep or temporary
        os.makedirs(folder, exist_ok=True)
        for order in ("big", "little"):
            compare_words(order, program, chosen, folder, comparison)
            for name, flags, sources in builds():
                name = order + "-" + name
                if build(order, flags, sources, os.path.join(folder, name)):
                    compare_image(order, name, program, chosen, folder, comparison)
    print(comparison.line())
    return 1 if comparison.different else 0


if __name__ == "__main__":
    sys.exit(main())
