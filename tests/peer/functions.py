#!/usr/bin/env python3
"""Compares the jobs of compiled functions with the same code under qemu-user: tests/peer/functions.py [PROGRAM] [--keep FOLDER]

The tasks are those of examples/ that name an image. qemu gets the image's code, data and memory, the registers that a job opens with, and a return address behind the code, where all is written out. Compared are, for each job of
`simple` and of `run`, under each predictor, the registers 1 to 30 but 26, HI and LO, the shown memory and the last word that was put out; and that no job ends behind the deadline. The logs that stand in examples/ (NAME.log of `simple` and NAME-run.log of `run`) have to be those that the program prints. The memory that one job
leaves is that of the next. A word `lui r, 0xffff` makes the address of another place under qemu, which has no memory at the output port.

Left out are register 26, which the code behind uses, register 31, which has another return address, and jobs that end in a trap.
"""
import argparse
import os
import re
import struct
import subprocess
import sys
import tempfile

import fast_run
import under_qemu
from example import PORT, PORT_THERE, SPARE, with_port

EXAMPLES = os.path.join(fast_run.TOP, "examples")


class Peer(under_qemu.Peer):
    """A function in the middle of the words."""

    def __init__(self, order, folder, entry):
        under_qemu.Peer.__init__(self, order, folder)
        self.entry = entry

    def opening(self, registers):
        lines = under_qemu.Peer.opening(self, registers)
        return lines[:-2] + ["j 0x%08x" % self.entry, "nop"]


class Function:
    """The jobs of one task under qemu, each on the memory that the one before left."""

    def __init__(self, task, folder):
        self.task = task
        self.mark = ">" if task.big else "<"
        code, = [(at, data) for at, data, rights in task.ranges if "x" in rights]
        if code[0] != under_qemu.CODE:
            sys.exit("the code isn't where the harness has it")
        words = [w for w, in struct.iter_unpack(self.mark + "I", code[1][:len(code[1]) // 4 * 4])]
        self.words = [with_port(w) for w in words]
        self.memory = [(at, bytes(data)) for at, data, rights in task.ranges if "x" not in rights]
        self.peer = Peer("big" if task.big else "little", folder, task.entry)

    def put(self, at, data):
        self.memory = [(first, old[:at - first] + data + old[at - first + len(data):]) if first <= at < first + len(old) else (first, old) for first, old in self.memory]

    def job(self, data):
        """The registers by name, the shown bytes and the word at the port."""
        t = self.task
        self.put(t.input_at, data + bytes(t.input_length - len(data)))
        opening = {4: t.input_at, 5: len(data), 29: t.stack, 31: under_qemu.CODE + 4 * len(self.words)}
        left, pieces = self.peer.run(self.words, self.memory + [(PORT_THERE, bytes(4))], opening, SPARE)
        self.memory = [(first, piece) for (first, _), piece in zip(self.memory, pieces)]
        names = [str(r) for r in range(1, 31) if r != SPARE] + ["hi", "lo"]
        values = {name: PORT if left[name] == PORT_THERE else left[name] for name in names}
        shown = ["mem %08x %s" % (at, self.get(at, length).hex()) for at, length in t.shows]
        return {name: value for name, value in values.items() if value}, shown, struct.unpack(self.mark + "I", pieces[-1])[0]

    def get(self, at, length):
        return next(data[at - first:at - first + length] for first, data in self.memory if first <= at < first + len(data))


def jobs_of(lines):
    """Of each job of a log its first line, the registers by name, the shown bytes and the words that it put out."""
    jobs = []
    for line in lines[1:]:
        keyword, *fields = line.split(" ")
        if keyword == "job":
            jobs.append({"first": line, "mem": []})
        elif keyword == "regs":
            jobs[-1]["regs"] = {name: int(value, 16) for name, value in (field.split("=") for field in fields)}
        elif keyword == "out":
            jobs[-1]["out"] = [int(word, 16) for word in fields]
        elif keyword == "mem":
            jobs[-1]["mem"].append(line)
    return jobs


class Comparison:
    def __init__(self, program):
        self.program = os.path.abspath(program)
        self.jobs = self.logs = self.different = 0

    def differs(self, *said):
        self.different += 1
        print(" ".join(str(word) for word in said))

    def compare(self, name, task, wanted, lines):
        self.logs += 1
        jobs = jobs_of(lines)
        if len(jobs) != len(wanted):
            self.differs(name, "has", len(jobs), "jobs")
        for number, (job, (registers, shown, word)) in enumerate(zip(jobs, wanted), 1):
            self.jobs += 1
            fields = job["first"].split(" ")
            if "trap" in fields:
                self.differs(name, "job", number, "ends in a trap")
            if int(fields[fields.index("end") + 1]) > task.deadline_ps:
                self.differs(name, "is late:", job["first"])
            mine = {r: value for r, value in job["regs"].items() if r not in ("31", str(SPARE))}
            if mine != registers:
                self.differs(name, "job", number, "registers", mine, "under qemu", registers)
            if job["mem"] != shown:
                self.differs(name, "job", number, job["mem"], "under qemu", shown)
            if (job["out"] or [0])[-1] != word:
                self.differs(name, "job", number, "put out", job["out"], "under qemu the last word is", word)

    def stored(self, label, path, printed):
        """The log that stands beside the task, if one does."""
        if os.path.exists(path):
            with open(path, "rb") as f:
                if f.read() != printed:
                    self.differs(label, "isn't", os.path.basename(path))

    def task(self, folder, name, jobs, temporary):
        with open(os.path.join(folder, name)) as f:
            task = fast_run.Task(f.read(), folder)
        with open(os.path.join(folder, jobs)) as f:
            _, inputs = fast_run.read_jobs(f.read())
        function = Function(task, temporary)
        wanted = [function.job(data) for data in inputs]
        for words in [["simple"], ["run"], ["run", "--predictor", "bimodal"], ["run", "--predictor", "gshare"]]:
            ended = subprocess.run([self.program] + words + [name, jobs], cwd=folder, stdout=subprocess.PIPE, stderr=subprocess.DEVNULL)
            label = "%s/%s %s" % (os.path.basename(folder), name, " ".join(words))
            printed = ended.stdout.decode().split("\n")[:-1]
            if ended.returncode == 5 and words[0] == "run":
                print(label + ": " + printed[0])
            elif ended.returncode:
                self.differs(label, "ends with", ended.returncode, printed)
            else:
                self.compare(label, task, wanted, printed)
                self.stored(label, os.path.join(folder, name[:-5] + {"simple": ".log", "run": "-run.log"}.get(" ".join(words), "-none")), ended.stdout)


def main():
    arguments = argparse.ArgumentParser(description=__doc__.splitlines()[0])
    arguments.add_argument("program", nargs="?", default=os.environ.get("VISA", fast_run.PROGRAM))
    arguments.add_argument("--keep", help="a folder that is made, for the files of the last job")
    chosen = arguments.parse_args()
    missing = under_qemu.missing()
    if missing:
        print("functions: skipped, missing: " + " ".join(missing) + " (Debian: qemu-user gcc-mips-linux-gnu gcc-mipsel-linux-gnu)")
        return 0
    if not os.access(chosen.program, os.X_OK):
        print("functions: skipped, the program isn't built (./visa builds it)")
        return 0
    comparison = Comparison(chosen.program)
    with tempfile.TemporaryDirectory() as temporary:
        if chosen.keep:
            os.makedirs(chosen.keep, exist_ok=True)
        for example in sorted(os.listdir(EXAMPLES)):
            folder = os.path.join(EXAMPLES, example)
            for name in sorted(os.listdir(folder)):
                if re.fullmatch(r".+\.task", name):
                    comparison.task(folder, name, name[:-5] + ".jobs", chosen.keep or temporary)
    print("%d logs, %d jobs, differences %d" % (comparison.logs, comparison.jobs, comparison.different))
    return 1 if comparison.different else 0


if __name__ == "__main__":
    sys.exit(main())
