#!/usr/bin/env python3
"""Compares how `mips_elf` and GNU readelf read ELF files that gcc makes: tests/peer/elf.py [--work FOLDER] [--damaged N] [--seed S] [FILE ..]

In both byte orders, gcc and ld build the C files of elf_dump/ in several ways: with an own linker script, with the default one (which loads the headers and has MIPS's own segments), with debug sections, stripped, and with a
whole C library. The images of examples/ come beside them, and so do the FILEs that are named. Compared are byte order, entry, load segments (address, size in memory, flags), a checksum of their bytes,
and the symbols: the first value of each name, in the file's order. Files that are no such image have to be refused, with the right reason.
N files are made from small ones of these by changing some of their bytes, mostly in headers and tables, or by cutting their end off; readelf doesn't judge such files, so these are compared with elf_rules.py.

No command of the program prints an image, so a small program is built for it: elf_dump/main.rattle, over copies of the crates visa_io and mips_elf, in a temporary folder (or FOLDER, which is kept and used again), by `rt`.
That proves the two crates where they weren't proved on this machine before. One line says so where rt or the packages are missing.
"""
import argparse
import os
import random
import re
import shutil
import struct
import subprocess
import sys
import tempfile

import elf_rules

HERE = os.path.dirname(os.path.abspath(__file__))
TOP = os.path.dirname(os.path.dirname(HERE))
PORT = 0xFFFF0000
SOURCES = os.path.join(HERE, "elf_dump")
CRATES = "visa_io: indexmap\nmips_elf: visa_io byteorder thiserror\nelf_dump: mips_elf visa_io\n"
PLAIN = ["-march=mips32", "-mabi=32", "-msoft-float", "-mno-abicalls", "-fno-pic", "-G0", "-ffreestanding", "-nostdlib", "-static"]
OWN = ["-Wl,-z,max-page-size=16", "-Wl,--build-id=none", "-T", "own.ld"]
TWO = ["one.c", "two.c"]
# name, flags, C files
BUILDS = [
    ("own-script", PLAIN + OWN + ["-O2"], TWO),
    ("own-script-debug", PLAIN + OWN + ["-O0", "-g3"], TWO),
    ("own-script-stripped", PLAIN + OWN + ["-O2", "-s"], TWO),
    ("default-script", PLAIN + ["-O1", "-Wl,-e,start"], TWO),
    ("default-script-debug", PLAIN + ["-Og", "-g", "-Wl,-e,start"], TWO),
    ("default-script-small-data", PLAIN[:5] + PLAIN[6:] + ["-G8", "-fcommon", "-O1", "-Wl,-e,start"], TWO),
    ("sections-of-their-own", PLAIN + OWN + ["-O2", "-ffunction-sections", "-fdata-sections", "-Wl,--gc-sections"], TWO),
    ("release-two", ["-static", "-nostdlib", "-O2", "-Wl,-e,start"], TWO),
    ("c-library", ["-static", "-O2"], ["hello.c"]),
    ("c-library-debug", ["-static", "-O0", "-g"], ["hello.c"]),
]
# name, flags, C files, what the file is refused with
REFUSED = [
    ("an-object", ["-c"], ["hello.c"], "WrongType"),
    ("linked-dynamically", ["-no-pie"], ["hello.c"], "Dynamic"),
    ("position-independent", ["-pie", "-fPIE"], ["hello.c"], "WrongType"),
    ("a-shared-library", ["-shared", "-fPIC"], ["two.c"], "WrongType"),
]
# files of this machine, and what they are refused with
OTHERS = [("/bin/true", "WrongClass"), (os.path.abspath(__file__), "NotElf"), (os.devnull, "NotElf")]


def prefix(order):
    return "mips-linux-gnu-" if order == "big" else "mipsel-linux-gnu-"


def missing():
    wanted = ["rt"] + [prefix(order) + tool for order in ("big", "little") for tool in ("gcc", "readelf")]
    return [tool for tool in wanted if not shutil.which(tool)]


def copy_crate(name, work):
    place = os.path.join(work, "crates", name)
    shutil.rmtree(place, ignore_errors=True)
    shutil.copytree(os.path.join(TOP, "crates", name), place, ignore=shutil.ignore_patterns("out", "must-fail"))


def same_files(left, right):
    """Whether two folders hold the same, rt's own folder and the edits left out."""
    if not os.path.isdir(right):
        return False
    return subprocess.run(["diff", "-rq", "-x", "out", "-x", "must-fail", left, right], stdout=subprocess.DEVNULL).returncode == 0


def dumper(work):
    """The program that prints what `mips_elf` reads, built in a folder."""
    crate = os.path.join(work, "crates/elf_dump")
    os.makedirs(os.path.join(crate, "src"), exist_ok=True)
    if not os.path.isdir(os.path.join(work, ".git")):
        subprocess.run(["git", "init", "-q", work], check=True)
    for name in ("visa_io", "mips_elf"):
        if not same_files(os.path.join(TOP, "crates", name), os.path.join(work, "crates", name)):
            copy_crate(name, work)
    with open(os.path.join(work, "crates.txt"), "w") as f:
        f.write(CRATES)
    shutil.copy(os.path.join(TOP, "HANDLES"), work)
    shutil.copy(os.path.join(SOURCES, "main.rattle"), os.path.join(crate, "src/main.rt"))
    print("elf: building the program that prints images")
    sys.stdout.flush()
    ended = subprocess.run(["rt", "run"], cwd=crate, stdin=subprocess.DEVNULL, stdout=subprocess.PIPE, stderr=subprocess.STDOUT)
    program = os.path.join(crate, "out/elf_dump")
    if ended.returncode or not os.access(program, os.X_OK):
        sys.exit("elf: the program wasn't built:\n" + ended.stdout.decode()[-2000:])
    return program


def build(order, name, flags, files, folder):
    """The path of the file, or None where gcc can't build it here."""
    path = os.path.join(folder, "%s-%s" % (order, name))
    flag = "-EB" if order == "big" else "-EL"
    ended = subprocess.run([prefix(order) + "gcc", flag] + flags + ["-o", path] + files, cwd=SOURCES, stdout=subprocess.PIPE, stderr=subprocess.STDOUT)
    if ended.returncode:
        print("%s-%s: not built: %s" % (order, name, ended.stdout.decode().strip().splitlines()[-1]))
        return None
    return path


def readelf(options, path):
    return subprocess.run([prefix("big") + "readelf", options, path], stdout=subprocess.PIPE, check=True).stdout.decode().splitlines()


def loads_by_readelf(path):
    """The lines of the load segments, and of their bytes."""
    with open(path, "rb") as f:
        data = f.read()
    spans, loaded = [], b""
    for line in readelf("-lW", path):
        fields = re.match(r"\s*LOAD\s+0x(\S+) 0x(\S+) 0x\S+ 0x(\S+) 0x(\S+) (.{3}) ", line)
        if fields:
            offset, at, in_file, size = (int(fields.group(k), 16) for k in range(1, 5))
            loaded += data[offset:offset + in_file] + bytes(size - in_file)
            if size:
                spans.append("span %08x %d %s" % (at, size, fields.group(5).replace(" ", "")))
    return spans + ["bytes %d %08x" % (len(loaded), elf_rules.checksum(loaded))]


def symbols_by_readelf(path):
    """The lines of the symbols of the section .symtab: the first value of each name, in the file's order. The names that readelf gives to sections are none."""
    values, here = {}, False
    for line in readelf("-sW", path):
        if line.startswith("Symbol table"):
            here = "'.symtab'" in line
        fields = line.split(None, 7)
        if here and len(fields) == 8 and re.match(r"\d+:$", fields[0]) and fields[3] != "SECTION":
            values.setdefault(fields[7].encode(), int(fields[1], 16))
    return ["sym %08x %s" % (value, name.hex()) for name, value in values.items()]


def by_readelf(path):
    head = "\n".join(readelf("-hW", path))
    order = "big" if "big endian" in head else "little"
    entry = int(re.search(r"Entry point address:\s+0x(\S+)", head).group(1), 16)
    return ["order " + order, "entry %08x" % entry] + loads_by_readelf(path) + symbols_by_readelf(path)


def by_mips_elf(program, path):
    return subprocess.run([program, path], stdout=subprocess.PIPE, check=True).stdout.decode().splitlines()[1:]


def compare(name, wanted, found):
    """Prints what differs, in one line what was compared, and gives the number of differences."""
    pairs = [(w, f) for w, f in zip(wanted, found) if w != f]
    different = len(pairs) + abs(len(wanted) - len(found))
    for pair in pairs[:3]:
        print("%s: readelf: %s, mips_elf: %s" % ((name,) + pair))
    spans = sum(line.startswith("span") for line in wanted)
    symbols = sum(line.startswith("sym") for line in wanted)
    print("%s: segments %d symbols %d differences %d" % (name, spans, symbols, different))
    return spans, symbols, different


def images(folder):
    """The files that are images, with their names."""
    for order in ("big", "little"):
        for name, flags, files in BUILDS:
            path = build(order, name, flags, files, folder)
            if path:
                yield "%s-%s" % (order, name), path
        yield "examples/sensor/%s.elf" % order, os.path.join(TOP, "examples/sensor/%s.elf" % order)


def refused(folder):
    """The files that are none, with their names and reasons."""
    for order in ("big", "little"):
        for name, flags, files, reason in REFUSED:
            path = build(order, name, flags, files, folder)
            if path:
                yield "%s-%s" % (order, name), path, reason
    for path, reason in OTHERS:
        if os.path.exists(path):
            yield path, path, reason


def damaged(draw, data):
    """A file with other bytes in places that matter, or with fewer of them."""
    data = bytearray(data)
    mark = ">" if data[5] == 2 else "<"
    segments, sections = struct.unpack_from(mark + "II", data, 28)
    segment_count, = struct.unpack_from(mark + "H", data, 44)
    section_count, = struct.unpack_from(mark + "H", data, 48)
    for _ in range(draw.choice([1, 1, 1, 2, 3])):
        first, size = draw.choice([(0, 52), (segments, 32 * segment_count), (segments, 32 * segment_count), (sections, 40 * section_count), (0, len(data))])
        at = first + draw.randrange(size)
        if draw.random() < 0.4:
            number = draw.choice([0, 1, 2, 3, 4, 16, 32, 64, 65, len(data), len(data) - 1, PORT, PORT - 1, 0xFFFFFFFF, 0x400000, 0x400001, 0x500000, draw.getrandbits(32)])
            data[at // 4 * 4:at // 4 * 4 + 4] = struct.pack(mark + "I", number)
        else:
            data[at] = draw.choice([0, 1, 2, 3, 4, 5, 7, 8, 16, 32, 40, 0x7F, 0x80, 0xFF, data[at] ^ 1, draw.getrandbits(8)])
    return bytes(data[:draw.randrange(len(data) + 1)] if draw.random() < 0.1 else data)


def compare_damaged(program, folder, count, seed):
    """The number of files whose answers differ."""
    draw = random.Random(seed)
    sources = [os.path.join(folder, name) for name in sorted(os.listdir(folder)) if "own" in name and "debug" not in name]
    different, kinds = 0, {}
    for _ in range(count):
        with open(draw.choice(sources), "rb") as f:
            data = damaged(draw, f.read())
        path = os.path.join(folder, "damaged")
        with open(path, "wb") as f:
            f.write(data)
        wanted, found = elf_rules.read(data), by_mips_elf(program, path)
        kind = wanted[0].split()[1] if wanted[0].startswith("refused") else "image"
        kinds[kind] = kinds.get(kind, 0) + 1
        if wanted != found:
            different += 1
            kept = shutil.copy(path, "%s-%d" % (path, different))
            print("%s: by the rules %s, mips_elf: %s" % (kept, wanted[:1], found[:1]))
    print("damaged %d  seed %d  differences %d: %s" % (count, seed, different, " ".join("%s %d" % pair for pair in sorted(kinds.items()))))
    return different


def compare_all(program, folder, named):
    files, spans, symbols, different, answers = 0, 0, 0, 0, 0
    for name, path in list(images(folder)) + [(path, path) for path in named]:
        more = compare(name, by_readelf(path), by_mips_elf(program, path))
        files, spans, symbols, different = files + 1, spans + more[0], symbols + more[1], different + more[2]
    for name, path, reason in refused(folder):
        answer = by_mips_elf(program, path)
        right = len(answer) == 1 and answer[0].startswith("refused " + reason)
        if not right:
            print("%s: wanted refused %s, but: %s" % (name, reason, answer[:1]))
        answers, different = answers + 1, different + (0 if right else 1)
    print("files %d  segments %d  symbols %d  refused %d  differences %d" % (files, spans, symbols, answers, different))
    return different


def main():
    arguments = argparse.ArgumentParser(description=__doc__.splitlines()[0])
    arguments.add_argument("--work", help="a folder that is made, where the printing program and the files are built and stay")
    arguments.add_argument("--damaged", type=int, default=1000, metavar="N", help="files that are made by damage")
    arguments.add_argument("--seed", type=int, default=random.randrange(1 << 32))
    arguments.add_argument("files", nargs="*", metavar="FILE", help="further images")
    chosen = arguments.parse_args()
    tools = missing()
    if tools:
        print("elf: skipped, missing: " + " ".join(tools) + " (Debian: gcc-mips-linux-gnu gcc-mipsel-linux-gnu; rt is the Rattle kit's)")
        return 0
    with tempfile.TemporaryDirectory() as temporary:
        work = os.path.abspath(chosen.work or temporary)
        folder = os.path.join(work, "files")
        os.makedirs(folder, exist_ok=True)
        program = dumper(work)
        different = compare_all(program, folder, chosen.files) + compare_damaged(program, folder, chosen.damaged, chosen.seed)
        return 1 if different else 0


if __name__ == "__main__":
    sys.exit(main())
