#!/usr/bin/env python3
"""Works out the logs of examples/sensor and compares them with the stored ones and with what the program prints: tests/peer/example.py [--write] [--keep FOLDER]

The registers, the output and the memory of each job come from qemu-user, which runs the code of the ELF file; the times come from straight_times.py. With --write the logs are
stored. Where the program doesn't take the task yet, its answer is printed. What is missing is told in one line.
"""
import argparse
import os
import struct
import subprocess
import sys
import tempfile

import straight_times
import under_qemu

TOP = os.path.dirname(os.path.dirname(os.path.dirname(os.path.abspath(__file__))))
FOLDER = os.path.join(TOP, "examples/sensor")
PORT = 0xFFFF0000
# where the output port stands under qemu-user, which has no memory at its real place
PORT_THERE = 0x20010000
# a register that the code doesn't use
SPARE = 26
RETURN = 0x03E00008


def read_task(name):
    """The fields of each keyword, in the order of the lines."""
    task = {}
    with open(os.path.join(FOLDER, name)) as f:
        for line in f:
            if line.strip() and not line.startswith("#"):
                keyword, *fields = line.split()
                task.setdefault(keyword, []).append(fields)
    return task


def ranges(task, keyword):
    return [(int(at, 16), int(length)) for at, length in task[keyword]]


def read_jobs(name):
    with open(os.path.join(FOLDER, name)) as f:
        inputs = [line.split()[1] for line in f if line.startswith("job ")]
    return [b"" if hexadecimal == "-" else bytes.fromhex(hexadecimal) for hexadecimal in inputs]


def read_image(name, mark):
    """The entry, and of each load segment its address, its flags and its bytes."""
    with open(os.path.join(FOLDER, name), "rb") as f:
        data = f.read()
    entry, table = struct.unpack_from(mark + "II", data, 24)
    count, = struct.unpack_from(mark + "H", data, 44)
    segments = []
    for k in range(count):
        kind, offset, at, _, in_file, size, flags, _ = struct.unpack_from(mark + "8I", data, table + 32 * k)
        if kind == 1:
            segments.append((at, flags, data[offset:offset + in_file] + bytes(size - in_file)))
    return entry, segments


def straight_words(entry, segments, mark):
    """The words from the entry up to the return and its slot."""
    for at, flags, data in segments:
        if flags & 1 and at <= entry < at + len(data):
            words = [w for w, in struct.iter_unpack(mark + "I", data[entry - at:len(data) // 4 * 4])]
            return words[:words.index(RETURN) + 2]
    sys.exit("the entry is no code")


def with_port(word):
    """A word for qemu: `lui r, 0xffff` makes the address of the port there."""
    return word & 0xFFFF0000 | PORT_THERE >> 16 if word & 0xFFE0FFFF == 0x3C00FFFF else word


class Run:
    """The jobs of one task, each on the memory that the one before left."""

    def __init__(self, order, folder):
        self.mark = ">" if order == "big" else "<"
        self.peer = under_qemu.Peer(order, folder)
        self.task = read_task(order + ".task")
        self.jobs = read_jobs(order + ".jobs")
        entry, segments = read_image(self.task["image"][0][0], self.mark)
        self.words = straight_words(entry, segments, self.mark)
        self.memory = [(at, bytes(length)) for at, length in ranges(self.task, "ram")] + [(at, data) for at, flags, data in segments if flags & 2]
        if entry != under_qemu.CODE:
            sys.exit("the entry isn't where the harness has its code")

    def put(self, at, data):
        self.memory = [(first, old[:at - first] + data + old[at - first + len(data):]) if first <= at < first + len(old) else (first, old) for first, old in self.memory]

    def get(self, at, length):
        return next(data[at - first:at - first + length] for first, data in self.memory if first <= at < first + len(data))

    def end_ps(self):
        _, _, mul, div = (int(n) for n in self.task["core"][0])
        mem, store, _, start = (int(n) for n in self.task["memory"][0])
        period = int(self.task["point"][0][0])
        return start + period * straight_times.Machine(mul, div, mem, store, period).end(self.words, False)

    def job(self, number, data):
        (at, length), = ranges(self.task, "input")
        self.put(at, data + bytes(length - len(data)))
        opening = {4: at, 5: len(data), 29: int(self.task["stack"][0][0], 16), 31: 0xFFFFFFF0}
        words = [with_port(w) for w in self.words if w != RETURN]
        left, pieces = self.peer.run(words, self.memory + [(PORT_THERE, bytes(4))], opening, SPARE)
        self.memory = [(first, piece) for (first, _), piece in zip(self.memory, pieces)]
        names = [str(r) for r in range(1, 32) if r != SPARE] + ["hi", "lo"]
        values = {name: PORT if left[name] == PORT_THERE else left[name] for name in names}
        lines = ["job %d simple end %d exit" % (number, self.end_ps()), "regs" + "".join(" %s=%08x" % (name, values[name]) for name in names if values[name])]
        lines.append("out %08x" % struct.unpack(self.mark + "I", pieces[-1]))
        return lines + ["mem %08x %s" % (shown, self.get(shown, size).hex()) for shown, size in ranges(self.task, "show")]

    def log(self):
        lines = ["visa 1 simple"]
        for number, data in enumerate(self.jobs, 1):
            lines += self.job(number, data)
        return "\n".join(lines) + "\n"


def differences(name, wanted, found):
    """Prints the first lines that differ, and how many do."""
    pairs = [(w, f) for w, f in zip(wanted.splitlines(), found.splitlines()) if w != f]
    for pair in pairs[:4]:
        print("%s:\n  worked out %s\n  found      %s" % ((name,) + pair))
    return len(pairs) + abs(len(wanted.splitlines()) - len(found.splitlines()))


def compare(order, wanted, program):
    with open(os.path.join(FOLDER, order + ".log")) as f:
        different = differences("examples/sensor/%s.log" % order, wanted, f.read())
    print("%s: %d jobs, stored log: differences %d" % (order, wanted.count("\njob "), different))
    if not os.access(program, os.X_OK):
        print("%s: the program isn't built (./visa builds it)" % order)
        return different
    ended = subprocess.run([program, "simple", order + ".task", order + ".jobs"], cwd=FOLDER, stdout=subprocess.PIPE, stderr=subprocess.DEVNULL)
    if ended.returncode:
        print("%s: the program ends with %d: %s" % (order, ended.returncode, ended.stdout.decode().strip()))
        return different
    more = differences("the program", wanted, ended.stdout.decode())
    print("%s: the program's log: differences %d" % (order, more))
    return different + more


def main():
    arguments = argparse.ArgumentParser(description=__doc__.splitlines()[0])
    arguments.add_argument("--write", action="store_true", help="store the logs that were worked out")
    arguments.add_argument("--keep", help="a folder that is made, for the files of the last job")
    chosen = arguments.parse_args()
    missing = under_qemu.missing()
    if missing:
        print("example: skipped, missing: " + " ".join(missing) + " (Debian: qemu-user gcc-mips-linux-gnu gcc-mipsel-linux-gnu)")
        return 0
    program = os.environ.get("VISA", os.path.join(TOP, "crates/visa/out/visa"))
    different = 0
    with tempfile.TemporaryDirectory() as temporary:
        if chosen.keep:
            os.makedirs(chosen.keep, exist_ok=True)
        for order in ("big", "little"):
            wanted = Run(order, chosen.keep or temporary).log()
            if chosen.write:
                with open(os.path.join(FOLDER, order + ".log"), "w") as f:
                    f.write(wanted)
            different += compare(order, wanted, os.path.abspath(program))
    return 1 if different else 0


if __name__ == "__main__":
    sys.exit(main())
