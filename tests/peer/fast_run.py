#!/usr/bin/env python3
"""Works out the log of `run` or `simple` by a second reading of the documents: tests/peer/fast_run.py simple|run TASK JOBS [--predictor P] [--visa PROGRAM | --bounds FILE]

The jobs are those of docs/modes.md: the fast core cycle by cycle (fast_core.py), watchdogs, switch, the simple pipeline for the rest (simple_pipeline.py), and the choice of a pair by the last eight counts.
The bounds of the sub-tasks aren't worked out here: they are the lines `bound` of `visa check TASK`, printed by the program or stored in a file. Plans are worked out from them.
"""
import argparse
import os
import struct
import subprocess
import sys

import fast_core
import mips_step
import simple_pipeline

TOP = os.path.dirname(os.path.dirname(os.path.dirname(os.path.abspath(__file__))))
PROGRAM = os.path.join(TOP, "crates/visa/out/visa")


def lines_of(text):
    return [line for line in text.split("\n") if line and not line.startswith("#")]


class Machine:
    def __init__(self, core, memory, icache, dcache):
        self.width, self.rob, self.mul, self.div = (int(x) for x in core)
        self.mem_ps, self.store_ps, self.settle_ps, self.start_ps = (int(x) for x in memory)
        self.icache, self.dcache = (None if shape == ["none"] else tuple(int(x) for x in shape) for shape in (icache, dcache))

    def lines(self):
        return sum(shape[0] * shape[1] for shape in (self.icache, self.dcache) if shape)


class Task:
    """A task text that is known to be sound."""

    def __init__(self, text, folder):
        many = {}
        for line in lines_of(text):
            keyword, *fields = line.split(" ")
            many.setdefault(keyword, []).append(fields)
        self.big = many["order"][0] == ["big"]
        self.machine = Machine(many["core"][0], many["memory"][0], many["icache"][0], many["dcache"][0])
        self.points = [int(fields[0]) for fields in many["point"]]
        self.deadline_ps = int(many["time"][0][1])
        self.stack = int(many["stack"][0][0], 16)
        self.input_at, self.input_length = int(many["input"][0][0], 16), int(many["input"][0][1])
        self.most_out = int(many["output"][0][0])
        self.cuts = [int(fields[0], 16) for fields in many.get("cut", [])]
        self.shows = [(int(at, 16), int(length)) for at, length in many.get("show", [])]
        ram = [(int(at, 16), bytes(int(length)), "rw") for at, length in many.get("ram", [])]
        self.entry, code = self.image(many, folder)
        self.ranges = code + ram

    def image(self, many, folder):
        entry = many["entry"][0][0]
        if "words" in many:
            mark = ">" if self.big else "<"
            code = [(int(at, 16), b"".join(struct.pack(mark + "I", int(w, 16)) for w in words), "rx") for at, *words in many["words"]]
            return int(entry, 16), code
        with open(os.path.join(folder, many["image"][0][0]), "rb") as f:
            own, segments = segments_of(f.read())
        return own if entry == "-" else int(entry, 16), segments

    def memory(self):
        return mips_step.Memory(self.ranges, self.big)


def segments_of(data):
    """The entry of an ELF file that is known to be sound, and its load segments with their rights."""
    mark = ">" if data[5] == 2 else "<"
    entry, table = struct.unpack_from(mark + "II", data, 24)
    count, = struct.unpack_from(mark + "H", data, 44)
    segments = []
    for k in range(count):
        kind, offset, at, _, in_file, size, flags, _ = struct.unpack_from(mark + "8I", data, table + 32 * k)
        if kind == 1:
            rights = "".join(letter for letter, bit in (("r", 4), ("w", 2), ("x", 1)) if flags & bit)
            segments.append((at, data[offset:offset + in_file] + bytes(size - in_file), rights))
    return entry, segments


def read_jobs(text):
    past, inputs = [], []
    for line in lines_of(text)[1:]:
        keyword, *fields = line.split(" ")
        if keyword == "past":
            past.append((int(fields[0]), int(fields[1])))
        else:
            inputs.append(b"" if fields[0] == "-" else bytes.fromhex(fields[0]))
    return past, inputs


def ceil(a, b):
    return -(-a // b)


class Plan:
    """The overhead, checkpoints and watchdogs of a pair; short where the first checkpoint is below zero."""

    def __init__(self, task, bounds, a, b):
        m, pa, pb = task.machine, task.points[a], task.points[b]
        self.overhead = max(ceil(m.mem_ps, pa), ceil(m.store_ps, pa)) * pa + (34 + m.lines() + ceil(m.mem_ps, pb)) * pb + m.settle_ps
        left = [5 + sum(bounds[b][i:]) for i in range(len(bounds[b]))]
        self.checkpoints = [task.deadline_ps - m.start_ps - self.overhead - cycles * pb for cycles in left]
        self.watchdogs = [c // pa for c in self.checkpoints]
        self.short = self.checkpoints[0] < 0

    def line(self, a, b):
        if self.short:
            return "short %d %d %d" % (a, b, -self.checkpoints[0])
        return "plan %d %d %d %s" % (a, b, self.overhead, " ".join(str(w) for w in self.watchdogs))


class Course:
    """How far a job has come in fast mode: the cycles performed when each sub-task ended."""

    def __init__(self, cuts):
        self.cuts = cuts
        self.ends = []

    def passes(self, pcs, cycles):
        for pc in pcs:
            if len(self.ends) < len(self.cuts) and pc == self.cuts[len(self.ends)]:
                self.ends.append(cycles)

    def under_way(self):
        return len(self.ends)

    def counts(self):
        return [end - before for end, before in zip(self.ends, [0] + self.ends)]


class Runner:
    def __init__(self, task, bounds, predictor):
        self.task, self.bounds = task, bounds
        self.predictor = fast_core.PREDICTORS[predictor]()
        self.memory = task.memory()
        self.decoded = {}
        self.plans = {(a, b): Plan(task, bounds, a, b) for a in range(len(task.points)) for b in range(len(task.points))}
        self.counted = [[] for _ in range(len(task.cuts) + 1)]

    def count(self, sub, cycles):
        self.counted[sub].append(cycles)

    def is_feasible(self, pair):
        plan = self.plans[pair]
        if plan.short or not all(self.counted):
            return False
        predictions = [max(counts[-8:]) for counts in self.counted]
        return all(sum(predictions[:i + 1]) * self.task.points[pair[0]] <= plan.checkpoints[i] for i in range(len(predictions)))

    def choose(self):
        last = len(self.task.points) - 1
        return next((pair for pair in sorted(self.plans) if self.is_feasible(pair)), (last, last))

    def state(self, data):
        t = self.task
        state = mips_step.State(self.memory, t.entry, t.stack, t.input_at, t.input_length, data, t.most_out)
        state.decoded = self.decoded
        return state

    def values(self, state):
        names = [(str(r), state.names[r]) for r in range(1, 32)] + [("hi", state.names[32] >> 32), ("lo", state.names[32] & mips_step.MASK)]
        lines = ["regs" + "".join(" %s=%08x" % (name, value) for name, value in names if value), "out" + "".join(" %08x" % w for w in state.output)]
        return lines + ["mem %08x %s" % (at, "".join("%02x" % self.memory.byte(at + k) for k in range(length))) for at, length in self.task.shows]

    def ending(self, answer):
        return "exit" if answer[0] == "exit" else "trap %s %08x" % (answer[1], answer[2])

    def simple(self, number, data):
        """The lines of a job of `simple`."""
        state, period = self.state(data), self.task.points[-1]
        cycles, answer = simple_pipeline.run(state, self.task.machine, period)
        return ["job %d simple end %d %s" % (number, self.task.machine.start_ps + cycles * period, self.ending(answer))] + self.values(state)

    def fast(self, number, data):
        """The lines of a job of `run`."""
        a, b = self.choose()
        plan, pa = self.plans[a, b], self.task.points[a]
        state = self.state(data)
        core = fast_core.FastCore(self.task.machine, pa, state, self.predictor)
        course, cycles = Course(self.task.cuts), 0
        while core.ending is None and cycles < plan.watchdogs[course.under_way()]:
            pcs = core.cycle(cycles)
            cycles += 1
            course.passes(pcs, cycles)
        if core.ending is not None:
            course.ends.append(cycles)
            first = "job %d fast pair %d %d end %d %s" % (number, a, b, self.task.machine.start_ps + cycles * pa, self.ending(core.ending))
        else:
            first = self.missed(number, (a, b), core, cycles, course)
        for i, counted in enumerate(course.counts()):
            self.count(i, counted)
        if core.ending is None:
            self.count(course.under_way(), self.bounds[a][course.under_way()])
        return [first] + ["sub %d %d" % (i + 1, counted) for i, counted in enumerate(course.counts())] + self.values(state)

    def missed(self, number, pair, core, cycles, course):
        m, (pa, pb) = self.task.machine, (self.task.points[k] for k in pair)
        switch = core.in_flight(cycles) * pa + m.settle_ps + (34 + m.lines()) * pb
        rest, answer = simple_pipeline.run(core.state, m, pb)
        end = m.start_ps + cycles * pa + switch + rest * pb
        return "job %d missed %d pair %d %d at %d switch %d end %d %s" % (number, course.under_way() + 1, pair[0], pair[1], cycles, switch, end, self.ending(answer))


def read_bounds(text, points):
    """The bounds of each point, from the lines of a check."""
    bounds = [[] for _ in range(points)]
    for line in text.split("\n"):
        fields = line.split(" ")
        if fields[0] == "bound":
            bounds[int(fields[1])].append(int(fields[3]))
    return bounds


def checked(program, task, folder):
    ended = subprocess.run([program, "check", task], cwd=folder, stdout=subprocess.PIPE, stderr=subprocess.DEVNULL)
    return ended.returncode, ended.stdout.decode()


def log(command, task, past, inputs, bounds, predictor="static"):
    """The lines of a log, and the runner behind its last job."""
    runner = Runner(task, bounds, predictor)
    for sub, cycles in past:
        runner.count(sub - 1, cycles)
    lines = ["visa 1 " + command]
    for number, data in enumerate(inputs, 1):
        lines += runner.fast(number, data) if command == "run" else runner.simple(number, data)
    return lines, runner


def main():
    arguments = argparse.ArgumentParser(description=__doc__.splitlines()[0])
    arguments.add_argument("command", choices=["simple", "run"])
    arguments.add_argument("task")
    arguments.add_argument("jobs")
    arguments.add_argument("--predictor", default="static", choices=sorted(fast_core.PREDICTORS))
    arguments.add_argument("--visa", default=os.environ.get("VISA", PROGRAM))
    arguments.add_argument("--bounds", help="a file with the lines of a check")
    chosen = arguments.parse_args()
    with open(chosen.task) as f:
        task = Task(f.read(), ".")
    with open(chosen.jobs) as f:
        past, inputs = read_jobs(f.read())
    bounds = [[0] * (len(task.cuts) + 1) for _ in task.points]
    if chosen.command == "run":
        if chosen.bounds:
            with open(chosen.bounds) as f:
                text = f.read()
        else:
            status, text = checked(chosen.visa, chosen.task, ".")
            if status:
                sys.exit("the check ends with %d: %s" % (status, text.strip()))
        bounds = read_bounds(text, len(task.points))
    print("\n".join(log(chosen.command, task, past, inputs, bounds, chosen.predictor)[0]))
    return 0


if __name__ == "__main__":
    sys.exit(main())
