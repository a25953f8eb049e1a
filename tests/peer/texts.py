#!/usr/bin/env python3
"""Compares how the program and a second reading of docs/formats.md (text_rules.py) judge damaged task and jobs texts: tests/peer/texts.py [--seed S] [--texts N]

Each text is a sound one of random lines that is damaged in a few places, or in none: bytes, fields and lines are changed, left out, doubled or moved. The program has to name the same line and kind; where the rules find no fault,
it must not speak of one. One line says so where the program isn't built.
"""
import argparse
import os
import random
import subprocess
import sys
import tempfile

import text_rules

TOP = os.path.dirname(os.path.dirname(os.path.dirname(os.path.abspath(__file__))))
BUFFER = 8
NUMBERS = [0, 1, 2, 3, 4, 7, 8, 9, 16, 31, 32, 33, 63, 64, 65, 99, 100, 127, 128, 129, 255, 256, 257, 1000, 1024, 1025, 2048, 65535, 65536, 65537, 999999, 1000000, 1000001, 9999999, 10000000, 10000001, 999999999, 1000000000,
           1000000001, 2147483647, 2147483648, 4294967295, 4294967296, 999999999999, 1000000000000, 1000000000001, 10 ** 18, 10 ** 18 + 1, 1 << 64, 10 ** 30]
ADDRESSES = ["00000000", "00000001", "00000002", "00400000", "00400004", "10000000", "10000fff", "7fffffff", "80000000", "fffeff00", "fffefffc", "ffff0000", "fffffff0", "fffffffc", "ffffffff"]
WORDS = ["", "-", "none", "big", "little", "x", "1", "-1", "-0", "+1", "01", "00", "1.5", "0x10", "0040000", "004000000", "0040000G", "7FFF0000", "visa-task", "visa-jobs", "order", "core", "memory", "icache", "dcache", "point",
         "time", "image", "words", "entry", "stack", "ram", "input", "output", "show", "cut", "loop", "fact", "past", "job", "#", "Job", "0", "0123", "012", "abcdefAB", "abcdefab"]
BYTES = [b"\t", b"\r", b"\n", b" ", b"#", b"\x00", b"\x1f", b"\x7e", b"\x7f", b"\x80", b"\xff", b"-", b"0", b"1", b"a", b"A"]
TASK = """visa-task 1
order big
core 1 8 4 16
memory 10000 10000 0 0
icache none
dcache none
point 1000
time 1000000000 1000000000
words 00400000 03e00008 00000000
entry 00400000
stack 7fff0000
ram 10000000 4096
input 10000000 8
output 1
"""


def some(draw, most, line):
    """So many lines: mostly few, at times as many as there may be, or one more."""
    count = draw.choice([0, 1, 1, 2, 3, most, most + 1]) if draw.random() < 0.2 else draw.choice([0, 1, 2])
    return [line(k) for k in range(count)]


def cache(draw):
    return "none" if draw.random() < 0.6 else "%d %d %d" % (1 << draw.randrange(11), draw.randrange(1, 9), draw.choice([8, 16, 32, 64]))


def address(draw):
    return draw.choice(ADDRESSES[:10])


def fact(draw, k):
    low, stride = draw.randrange(-1000, 1000), draw.randrange(1, 50)
    rounds = draw.randrange(0, 5)
    return "fact %08x %d %d %d %d" % (0x00400000 + 4 * k, draw.randrange(1, 32), low, low + rounds * stride, stride if rounds else 1)


def sound_task(draw):
    """The lines of a task without a fault, but that there may be one line too many of a kind."""
    points = sorted(draw.sample(range(100, 1000001), draw.choice([1, 1, 2, 8])), reverse=True)
    period = draw.choice([1, 1000, 10 ** 12])
    lines = ["visa-task 1", "order " + draw.choice(["big", "little"]), "core %d %d %d %d" % (draw.choice([1, 2, 4]), draw.randrange(8, 129), draw.randrange(1, 33), draw.randrange(1, 65)),
             "memory %d %d %d %d" % (draw.choice([1, 10 ** 7]), draw.choice([1, 10 ** 7]), draw.choice([0, 10 ** 9]), draw.choice([0, 10 ** 9])), "icache " + cache(draw), "dcache " + cache(draw)]
    lines += ["point %d" % p for p in points] + ["time %d %d" % (period, draw.choice([1, period]))]
    by_words = draw.random() < 0.7
    if by_words:
        lines += some(draw, 256, lambda k: "words %08x " % (0x00400000 + 256 * k) + " ".join("%08x" % draw.getrandbits(32) for _ in range(draw.choice([1, 2, 64])))) or ["words fffefffc 00000000"]
    else:
        lines.append("image " + "n" * draw.choice([1, 3, 255]))
    lines += ["entry " + ("-" if not by_words and draw.random() < 0.5 else address(draw)), "stack " + draw.choice(ADDRESSES)]
    lines += some(draw, 32, lambda k: "ram %s %d" % (address(draw), draw.choice([1, 4096])))
    lines += ["input %s %d" % (address(draw), draw.choice([0, 8, 65536])), "output %d" % draw.choice([1, 65536])]
    lines += some(draw, 16, lambda k: "show %s %d" % (address(draw), draw.choice([1, 256]))) + some(draw, 31, lambda k: "cut " + draw.choice(ADDRESSES))
    lines += some(draw, 256, lambda k: "loop %s %s %s %d %d" % (address(draw), address(draw), address(draw), draw.choice([1, 4294967295]), draw.randrange(1, 32)))
    return lines + some(draw, 4096, lambda k: fact(draw, k))


def sound_jobs(draw):
    lines = ["visa-jobs 1"] + some(draw, 1024, lambda k: "past 1 %d" % draw.choice([0, 5, 10 ** 18]))
    return lines + some(draw, 10000, lambda k: "job " + (draw.randbytes(draw.randrange(1, BUFFER + 1)).hex() if draw.random() < 0.7 else "-"))


def damage_line(draw, lines):
    at = draw.randrange(len(lines))
    kind = draw.randrange(5)
    if kind == 0:
        del lines[at]
    elif kind == 1:
        lines.insert(at, lines[at])
    elif kind == 2 and at:
        lines[at - 1], lines[at] = lines[at], lines[at - 1]
    elif kind == 3:
        lines.insert(at, draw.choice(["", "# a remark", "#", " ", "# \u00b5", draw.choice(lines)]))
    else:
        del lines[at + 1:]


def damage_field(draw, lines):
    at = draw.randrange(len(lines))
    fields = lines[at].split(" ")
    which = draw.randrange(len(fields))
    kind = draw.randrange(6)
    if kind == 0:
        del fields[which]
    elif kind == 1:
        fields.insert(which, draw.choice(WORDS))
    elif kind == 2:
        fields[which] = draw.choice(WORDS + ADDRESSES)
    elif kind == 3 and fields[which].lstrip("-").isdigit():
        fields[which] = str(int(fields[which]) + draw.choice([-1, 1]))
    else:
        fields[which] = draw.choice(["", "", "", "-"]) + str(draw.choice(NUMBERS))
    lines[at] = " ".join(fields)


def damaged(draw, lines):
    """The text of the lines with some damage."""
    lines = list(lines)
    for _ in range(draw.choice([0, 1, 1, 1, 2])):
        if lines:
            draw.choice([damage_line, damage_field, damage_field])(draw, lines)
    data = "\n".join(lines).encode() + (b"\n" if draw.random() < 0.8 else b"")
    if data and draw.random() < 0.15:
        at = draw.randrange(len(data))
        data = data[:at] + draw.choice(BYTES) + data[at + draw.choice([0, 1]):]
    return data


class Texts:
    """The program, on texts in a folder."""

    def __init__(self, program, folder):
        self.program = program
        self.folder = folder

    def answer(self, task, jobs):
        for name, data in (("task", task), ("jobs", jobs)):
            with open(os.path.join(self.folder, name), "wb") as f:
                f.write(data)
        ended = subprocess.run([self.program, "simple", "task", "jobs"], cwd=self.folder, stdout=subprocess.PIPE, stderr=subprocess.DEVNULL)
        return ended.returncode, ended.stdout.decode()

    def judges_task(self, data):
        """What the rules say, and whether the program says so too."""
        fault = text_rules.task_fault(data)
        status, text = self.answer(data, b"")
        if fault is None:
            return "sound", status != 3, (status, text[:100])
        return fault[1], (status, text) == (3, "task line %d %s\n" % fault), (fault, status, text[:100])

    def judges_jobs(self, data):
        line = text_rules.jobs_fault(data, BUFFER, 1)
        status, text = self.answer(TASK.encode(), data)
        if line is None:
            return "sound", status == 0 and text.count("\njob ") == sum(part.startswith(b"job ") for part in data.split(b"\n")), (status, text[:100])
        return "fault", (status, text) == (6, "jobs line %d\n" % line), (line, status, text[:100])


def compare(name, judge, make, chosen, folder):
    """The number of texts that are judged otherwise."""
    different, kinds = 0, {}
    for number in range(chosen.texts):
        draw = random.Random("%d %s %d" % (chosen.seed, name, number))
        data = damaged(draw, make(draw))
        kind, agrees, found = judge(data)
        kinds[kind] = kinds.get(kind, 0) + 1
        if not agrees:
            different += 1
            print("%s %d: %s" % (name, number, found))
            if chosen.keep:
                with open(os.path.join(folder, "%s-%d" % (name, number)), "wb") as f:
                    f.write(data)
    print("%s texts %d  differences %d: %s" % (name, chosen.texts, different, " ".join("%s %d" % pair for pair in sorted(kinds.items()))))
    return different


def main():
    arguments = argparse.ArgumentParser(description=__doc__.splitlines()[0])
    arguments.add_argument("--seed", type=int, default=random.randrange(1 << 32))
    arguments.add_argument("--texts", type=int, default=2000, help="texts of each sort")
    arguments.add_argument("--keep", help="a folder that is made, for the texts that are judged otherwise")
    chosen = arguments.parse_args()
    program = os.path.abspath(os.environ.get("VISA", os.path.join(TOP, "crates/visa/out/visa")))
    if not os.access(program, os.X_OK):
        print("texts: skipped, the program isn't built (./visa builds it)")
        return 0
    with tempfile.TemporaryDirectory() as temporary:
        folder = chosen.keep or temporary
        os.makedirs(folder, exist_ok=True)
        texts = Texts(program, folder)
        different = compare("task", texts.judges_task, sound_task, chosen, folder) + compare("jobs", texts.judges_jobs, sound_jobs, chosen, folder)
    print("seed %d  differences %d" % (chosen.seed, different))
    return 1 if different else 0


if __name__ == "__main__":
    sys.exit(main())
