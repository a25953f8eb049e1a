#!/usr/bin/env python3
"""Compares `visa demo N` with `visa run` on the demonstration's texts: tests/peer/demonstration.py [--seed N ..] [--write FOLDER]

A second reading of the section on the demonstration in docs/formats.md writes the files `task` and `jobs` of a seed. `visa run task jobs` runs them, and from its log come the counts of jobs that ended in fast mode and that missed a
checkpoint, the latest end and the sum of the output words: the lines that `visa demo N` has to write. Each job's output is also worked out here: the sum of its words up to the first zero. With --write the two files of the
first seed are written there, and nothing is run. One line says so where the program isn't built, or doesn't know a command yet.
"""
import argparse
import os
import subprocess
import sys
import tempfile

TOP = os.path.dirname(os.path.dirname(os.path.dirname(os.path.abspath(__file__))))
TASK = """visa-task 1
order big
core 1 32 4 16
memory 10000 10000 100000 0
icache 8 1 32
dcache 8 1 16
point 4000
point 1000
time 2000000 1900000
words 00400000 24890100 8c880000 11000003 24840004 1489fffc 00481021 3c03ffff ac620000 03e00008 00000000
entry 00400000
stack 7fff0000
ram 10000000 4096
input 10000000 256
output 16
loop 00400004 00400014 00400004 64 4
fact 00400000 4 268435456 268435456 1
fact 00400004 4 268435456 268435708 4
fact 00400004 9 268435712 268435712 1
fact 00400010 4 268435460 268435712 4
fact 00400010 9 268435712 268435712 1
"""
JOBS = 200


def inputs_of(seed):
    """The words of each job."""
    number = seed

    def draw():
        nonlocal number
        number = (1664525 * number + 1013904223) % 4294967296
        return number

    inputs = []
    for job in range(1, JOBS + 1):
        count = 64 if job % 10 == 0 else 1 + (draw() >> 24) % 8
        inputs.append([(draw() >> 8) + 1 for _ in range(count)])
    return inputs


def jobs_text(inputs):
    return "visa-jobs 1\n" + "".join("job %s\n" % "".join("%08x" % word for word in words) for words in inputs)


def output_of(words):
    """What a job puts out: the sum of its words before the first zero; zeros stand behind a short input."""
    total = 0
    for word in words:
        if word == 0:
            break
        total += word
    return total % 4294967296


class Log:
    """What a log of `visa run` or `visa simple` says of its jobs."""

    def __init__(self, text):
        self.modes, self.ends, self.endings, self.outputs = [], [], [], []
        for line in text.splitlines():
            keyword, *fields = line.split(" ")
            if keyword == "job":
                at = fields.index("end")
                self.modes.append(fields[1])
                self.ends.append(int(fields[at + 1]))
                self.endings.append(" ".join(fields[at + 2:]))
            elif keyword == "out":
                self.outputs.append([int(word, 16) for word in fields])

    def summary(self, seed):
        """The lines of the demonstration."""
        total = sum(word for words in self.outputs for word in words) % 4294967296
        return "visa 1 demo %d\njobs %d\nfast %d\nmissed %d\nlatest %d\nsum %08x\n" % (
            seed, len(self.ends), self.modes.count("fast"), self.modes.count("missed"), max(self.ends, default=0), total)

    def faults(self, inputs):
        """What isn't as the inputs say."""
        found = []
        if len(self.ends) != len(inputs):
            found.append("%d jobs" % len(self.ends))
        for k, (words, output, ending) in enumerate(zip(inputs, self.outputs, self.endings)):
            if output != [output_of(words)] or ending != "exit":
                found.append("job %d: %s, out %s" % (k + 1, ending, " ".join("%08x" % word for word in output)))
        return found


def write(folder, inputs):
    os.makedirs(folder, exist_ok=True)
    for name, text in (("task", TASK), ("jobs", jobs_text(inputs))):
        with open(os.path.join(folder, name), "w") as f:
            f.write(text)


def answer(program, folder, *words):
    ended = subprocess.run([program, *words], cwd=folder, stdout=subprocess.PIPE, stderr=subprocess.DEVNULL, text=True)
    return ended.returncode, ended.stdout


def compare(program, folder, seed):
    """How many differences there are for a seed, and a line on it."""
    inputs = inputs_of(seed)
    write(folder, inputs)
    found, tried = [], []
    summary = None
    for command in ("simple", "run"):
        status, text = answer(program, folder, command, "task", "jobs")
        if status != 0:
            found.append("%s: status %d, %s" % (command, status, text[:100].strip()))
        else:
            log = Log(text)
            found += ["%s: %s" % (command, fault) for fault in log.faults(inputs)]
            tried.append("%s %d jobs" % (command, len(log.ends)))
            summary = log.summary(seed) if command == "run" else None
    status, text = answer(program, folder, "demo", str(seed))
    if (status, text) != (0, summary):
        found.append("demo: status %d, %r instead of %r" % (status, text, summary))
    else:
        tried.append("demo %s" % " ".join(text.split("\n")[1:]).strip())
    for fault in found[:10]:
        print("seed %d: %s" % (seed, fault))
    print("seed %d  %s  differences %d" % (seed, ", ".join(tried), len(found)))
    return len(found)


def main():
    parser = argparse.ArgumentParser(description=__doc__.splitlines()[0])
    parser.add_argument("--seed", type=int, nargs="+", default=[1, 0, 7, 4294967295])
    parser.add_argument("--write", metavar="FOLDER")
    chosen = parser.parse_args()
    if chosen.write:
        write(chosen.write, inputs_of(chosen.seed[0]))
        return 0
    program = os.path.abspath(os.environ.get("VISA", os.path.join(TOP, "crates/visa/out/visa")))
    if not os.access(program, os.X_OK):
        print("demonstration: skipped, the program isn't built (./visa builds it)")
        return 0
    with tempfile.TemporaryDirectory() as folder:
        return 1 if sum(compare(program, folder, seed) for seed in chosen.seed) else 0


if __name__ == "__main__":
    sys.exit(main())
