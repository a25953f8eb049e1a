#!/usr/bin/env python3
"""Compares compiled functions with loops and calls: tests/peer/compiled.py [PROGRAM] [--jobs N] [--seed S] [--keep FOLDER]

gcc compiles each job of compiled/jobs.c in both byte orders, at -O1 -fno-ivopts (docs/guide.md). found_facts.py finds their loops and facts, the program has to admit them, and their jobs run in `simple` and, on a core and caches of random
sizes, in `run` at several deadlines and under each predictor. The registers, the memory and the last word that is put out are compared with the same code under qemu-user (functions.py), all lines with the second reading (fast_run.py), and the
deadlines are kept. What is missing is told in one line.
"""
import argparse
import os
import random
import re
import subprocess
import sys
import tempfile

import compare_fast
import fast_run
import fast_tasks
import found_facts
import functions
import under_qemu

HERE = os.path.dirname(os.path.abspath(__file__))
SOURCE = os.path.join(HERE, "compiled/jobs.c")
FLAGS = ["-march=mips32", "-mabi=32", "-msoft-float", "-mno-abicalls", "-fno-pic", "-G0", "-ffreestanding", "-nostdlib", "-static", "-fno-jump-tables", "-mno-branch-likely", "-O1", "-fno-ivopts", "-Wl,--build-id=none,-z,max-page-size=16"]
SCRIPT = "SECTIONS { . = 0x00400000; .text : { *(.text .text.*) } . = 0x10000000; .data : { *(.rodata .rodata.* .data .data.* .bss .bss.* COMMON) } /DISCARD/ : { *(*) } }\n"
INPUT, LENGTH, STACK = 0x10010000, 64, 0x10011000


def names():
    with open(SOURCE) as f:
        return re.findall(r"^void (job_\w+)", f.read(), re.M)


def build(order, name, folder):
    script = os.path.join(folder, "jobs.ld")
    with open(script, "w") as f:
        f.write(SCRIPT)
    image = os.path.join(folder, "%s-%s.elf" % (order, name))
    compiler = [under_qemu.prefix(order) + "gcc", "-EB" if order == "big" else "-EL"]
    subprocess.run(compiler + FLAGS + ["-T", script, "-Wl,-e," + name, "-o", image, SOURCE], check=True)
    return os.path.basename(image)


def task_lines(order, image, folder, draw):
    points = sorted(draw.sample([1000, 2500, 4000, 10000], draw.randint(1, 2)), reverse=True)
    lines = ["visa-task 1", "order " + order, "core %d %d 4 16" % (draw.choice([1, 2, 4]), draw.choice([8, 16, 32, 64])), "memory %d %d 5000 0" % (draw.choice([1000, 10000, 30000]), draw.choice([1000, 10000])),
             "icache " + fast_tasks.shape_fields(fast_tasks.shape(draw)), "dcache " + fast_tasks.shape_fields(fast_tasks.shape(draw))]
    lines += ["point %d" % p for p in points] + ["time %d %d" % (compare_fast.LATE, compare_fast.LATE), "image " + image, "entry -", "stack %08x" % STACK]
    with open(os.path.join(folder, image), "rb") as f:
        (at, data, _), = [segment for segment in fast_run.segments_of(f.read())[1] if "x" not in segment[2]]
    shown = ["show %08x %d" % (at + k, min(256, len(data) - k)) for k in range(0, len(data), 256)]
    return lines + ["ram %08x 4112" % INPUT, "input %08x %d" % (INPUT, LENGTH), "output 4"] + shown


def random_inputs(draw, count):
    text = b" -12 7 x9 33-4 0 88 "
    made = [b"", draw.randbytes(LENGTH), text[:draw.randrange(len(text))]]
    while len(made) < count:
        made.append(draw.choice([draw.randbytes(draw.randrange(LENGTH + 1)), bytes(draw.choice([0, 1, 32, 49, 255]) for _ in range(LENGTH)), draw.randbytes(4) * 16]))
    return made[:count]


class Comparison(compare_fast.Comparison):
    """The same logs, whose values are compared with qemu's too."""

    def with_qemu(self, wanted, values):
        for words in [["simple", "task", "jobs"]] + [["run", "--predictor", predictor, "task", "jobs"] for predictor in compare_fast.fast_core.PREDICTORS]:
            status, printed = self.program.answer(*words)
            if status == 0:
                values.compare("%s %s" % (self.name, " ".join(words[:3])), self.task(compare_fast.LATE), wanted, printed)


def compare(order, name, program, counts, values, chosen):
    draw = random.Random("%d %s %s" % (chosen.seed, order, name))
    image = build(order, name, program.folder)
    lines = task_lines(order, image, program.folder, draw)
    task = fast_run.Task("\n".join(lines), program.folder)
    found, missing = found_facts.lines_for(task.memory(), task.entry, task.input_at, task.input_length, task.stack)
    if missing:
        counts.passed_over += 1
        print("%s %s: %s" % (order, name, missing))
        return
    inputs = random_inputs(draw, chosen.jobs)
    job_lines = ["visa-jobs 1"] + ["job " + (data.hex() or "-") for data in inputs]
    comparison = Comparison(program, counts, "%s %s" % (order, name), lines + found, job_lines)
    comparison.run(draw)
    function = functions.Function(task, program.folder)
    program.write("task", lines + found)
    comparison.with_qemu([function.job(data) for data in inputs], values)


def main():
    arguments = argparse.ArgumentParser(description=__doc__.splitlines()[0])
    arguments.add_argument("program", nargs="?", default=os.environ.get("VISA", fast_run.PROGRAM))
    arguments.add_argument("--jobs", type=int, default=6)
    arguments.add_argument("--seed", type=int, default=1)
    arguments.add_argument("--keep", help="a folder that is made, for the images and the files of what differs")
    chosen = arguments.parse_args()
    missing = under_qemu.missing()
    if missing:
        print("compiled: skipped, missing: " + " ".join(missing) + " (Debian: qemu-user gcc-mips-linux-gnu gcc-mipsel-linux-gnu)")
        return 0
    if not os.access(chosen.program, os.X_OK):
        print("compiled: skipped, the program isn't built (./visa builds it)")
        return 0
    counts, values = compare_fast.Counts(), functions.Comparison(chosen.program)
    with tempfile.TemporaryDirectory() as temporary:
        if chosen.keep:
            os.makedirs(chosen.keep, exist_ok=True)
        program = compare_fast.Program(chosen.program, chosen.keep or temporary)
        for order in ("big", "little"):
            for name in names():
                compare(order, name, program, counts, values, chosen)
    print(counts.line())
    print("with qemu-user: %d logs, %d jobs, differences %d" % (values.logs, values.jobs, values.different))
    return 1 if counts.different or values.different else 0


if __name__ == "__main__":
    sys.exit(main())
