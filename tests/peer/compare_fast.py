#!/usr/bin/env python3
"""Compares the program's `run` with a second reading of the documents: tests/peer/compare_fast.py [PROGRAM] [--seed S] [--tasks N] [--points N] [--examples] [--demo N ..] [--keep FOLDER]

Random small tasks (fast_tasks.py) at deadlines from just admitted to loose, under each predictor; with --examples the tasks of examples/ too, at their own deadline and others. Line by line are compared the logs of `run` and
`simple` with those that fast_run.py works out, the plans of `check` with their formulas, and the refusal of a deadline that is one ps too short. The bounds that `check` prints are compared with bounds.py, and a job of
`simple` must not take longer than they say.
"""
import argparse
import os
import random
import re
import subprocess
import sys
import tempfile

import bounds
import fast_core
import fast_run
import fast_tasks

# no task whose jobs may take more cycles: the second reading is slow
MOST_CYCLES = 60000
LATE = 1000000000000


class Program:
    def __init__(self, path, folder):
        self.path, self.folder = os.path.abspath(path), folder

    def answer(self, *words):
        ended = subprocess.run([self.path] + list(words), cwd=self.folder, stdout=subprocess.PIPE, stderr=subprocess.DEVNULL)
        return ended.returncode, ended.stdout.decode().split("\n")[:-1]

    def write(self, name, lines):
        with open(os.path.join(self.folder, name), "w") as f:
            f.write("\n".join(lines) + "\n")


class Counts:
    def __init__(self):
        self.tasks = self.logs = self.jobs = self.missed = self.traps = self.checks = self.different = self.passed_over = self.pairs = 0

    def differs(self, what, wanted, found):
        self.different += 1
        print("%s differs" % what)
        for k in range(max(len(wanted), len(found))):
            w, f = (lines[k] if k < len(lines) else "(none)" for lines in (wanted, found))
            if w != f:
                print("  line %d\n    worked out %s\n    printed    %s" % (k + 1, w, f))
                break
        sys.stdout.flush()

    def line(self):
        return ("%d tasks (%d passed over), %d logs compared, %d jobs worked out, %d of them missed, %d ended by a trap, %d not at the fastest pair, %d checks; differences %d"
                % (self.tasks, self.passed_over, self.logs, self.jobs, self.missed, self.traps, self.pairs, self.checks, self.different))


def deadlines(needed, draw, many):
    """From just admitted to loose."""
    at = [needed, needed + draw.choice([1, 999, 20000]), needed + needed // 50, needed + needed // 8, 2 * needed, LATE]
    return [min(x, LATE) for x in (at if many else [needed] + draw.sample(at[1:], 2))]


def with_deadline(lines, deadline):
    return ["time %d %d" % (LATE, deadline) if line.startswith("time ") else line for line in lines]


class Comparison:
    """One task with one jobs text, at several deadlines."""

    def __init__(self, program, counts, name, lines, job_lines):
        self.program, self.counts, self.name = program, counts, name
        self.lines, self.job_lines = lines, job_lines
        program.write("jobs", job_lines)

    def check(self, deadline):
        self.program.write("task", with_deadline(self.lines, deadline))
        return self.program.answer("check", "task")

    def bounds(self):
        """The bounds, from a check with the latest deadline; None where the task isn't admitted."""
        status, printed = self.check(LATE)
        if status:
            return None
        task = self.task(LATE)
        found = fast_run.read_bounds("\n".join(printed), len(task.points))
        wanted = bounds.Bounds(task, self.lines).all()
        if found != wanted:
            self.counts.differs("%s: bounds" % self.name, ["%s" % row for row in wanted], ["%s" % row for row in found])
        return found

    def task(self, deadline):
        return fast_run.Task("\n".join(with_deadline(self.lines, deadline)), self.program.folder)

    def checks(self, bounds, deadline):
        """The lines of the check at a deadline, worked out from the bounds."""
        task = self.task(deadline)
        runner = fast_run.Runner(task, bounds, "static")
        wanted = ["visa 1 check"] + ["bound %d %d %d" % (p, i + 1, b) for p, row in enumerate(bounds) for i, b in enumerate(row)]
        wanted += [runner.plans[pair].line(*pair) for pair in sorted(runner.plans)]
        self.counts.checks += 1
        _, printed = self.check(deadline)
        if printed != wanted:
            self.counts.differs("%s: check at %d" % (self.name, deadline), wanted, printed)

    def needed(self, bounds):
        task = self.task(LATE)
        last = len(task.points) - 1
        return LATE - fast_run.Plan(task, bounds, last, last).checkpoints[0]

    def refused(self, needed):
        _, printed = self.check(needed - 1)
        wanted = ["refused exceeds %d %d" % (needed, needed - 1)]
        if printed != wanted:
            self.counts.differs("%s: one ps too short" % self.name, wanted, printed)

    def logs(self, command, bounds, deadline, predictor):
        task = self.task(deadline)
        past, inputs = fast_run.read_jobs("\n".join(self.job_lines))
        wanted, _ = fast_run.log(command, task, past, inputs, bounds, predictor)
        self.count(wanted, task, deadline)
        self.program.write("task", with_deadline(self.lines, deadline))
        words = ["run", "--predictor", predictor, "task", "jobs"] if command == "run" else ["simple", "task", "jobs"]
        _, printed = self.program.answer(*words)
        self.counts.logs += 1
        if printed != wanted:
            self.counts.differs("%s: %s at %d, %s" % (self.name, command, deadline, predictor), wanted, printed)
            kept = "%s-%d-%s-%s" % (re.sub(r"\W", "-", self.name), deadline, command, predictor)
            self.program.write(kept + ".task", with_deadline(self.lines, deadline))
            self.program.write(kept + ".jobs", self.job_lines)

    def count(self, wanted, task, deadline):
        last = len(task.points) - 1
        for line in wanted:
            fields = line.split(" ")
            if fields[0] != "job":
                continue
            self.counts.jobs += 1
            self.counts.missed += fields[2] == "missed"
            self.counts.traps += "trap" in fields
            self.counts.pairs += "pair" in fields and fields[fields.index("pair") + 1:fields.index("pair") + 3] != [str(last), str(last)]
            if int(fields[fields.index("end") + 1]) > deadline:
                self.counts.differs("%s: late" % self.name, ["at most %d" % deadline], [line])

    def in_bounds(self, bounds):
        """Jobs of `simple` take no longer than the bounds say."""
        task = self.task(LATE)
        _, inputs = fast_run.read_jobs("\n".join(self.job_lines))
        limit = task.machine.start_ps + (5 + sum(bounds[-1])) * task.points[-1]
        for line in fast_run.log("simple", task, [], inputs, bounds)[0]:
            if line.startswith("job ") and int(line.split(" ")[4]) > limit:
                self.counts.differs("%s: beyond the bound" % self.name, ["at most %d" % limit], [line])

    def run(self, draw, many=False):
        bounds = self.bounds()
        if bounds is None:
            self.counts.passed_over += 1
            print("%s isn't admitted: %s" % (self.name, self.check(LATE)[1]))
            return
        if max(sum(row) for row in bounds) > MOST_CYCLES:
            self.counts.passed_over += 1
            return
        self.counts.tasks += 1
        needed = self.needed(bounds)
        self.refused(needed)
        self.in_bounds(bounds)
        for deadline in deadlines(needed, draw, many):
            self.checks(bounds, deadline)
            predictors = sorted(fast_core.PREDICTORS) if many else draw.sample(sorted(fast_core.PREDICTORS), 2)
            for predictor in predictors:
                self.logs("run", bounds, deadline, predictor)
        self.logs("simple", bounds, LATE, "static")


def random_tasks(program, counts, chosen):
    for number in range(chosen.tasks):
        draw = random.Random("%d %d" % (chosen.seed, number))
        made = fast_tasks.RandomTask(draw, chosen.points)
        Comparison(program, counts, "task %d of seed %d" % (number, chosen.seed), made.lines(LATE), made.job_lines(draw.randint(2, 6))).run(draw)
        if number % 50 == 49:
            print("  so far " + counts.line())
            sys.stdout.flush()


def example_tasks(program, counts):
    top = os.path.join(fast_run.TOP, "examples")
    for folder in sorted(os.listdir(top)):
        for name in sorted(os.listdir(os.path.join(top, folder))):
            if not re.fullmatch(r"(.*\.)?task", name):
                continue
            with open(os.path.join(top, folder, name)) as f:
                lines = fast_run.lines_of(f.read())
            for line in lines:
                if line.startswith("image "):
                    with open(os.path.join(top, folder, line[6:]), "rb") as f, open(os.path.join(program.folder, line[6:]), "wb") as copy:
                        copy.write(f.read())
            with open(os.path.join(top, folder, re.sub("task$", "jobs", name))) as f:
                jobs = fast_run.lines_of(f.read())
            Comparison(program, counts, "examples/%s/%s" % (folder, name), lines, jobs).run(random.Random(1), True)


def demonstrations(program, counts, seeds):
    """The lines of `demo N`, worked out from the log of its jobs."""
    import demonstration
    program.write("task", demonstration.TASK.split("\n")[:-1])
    task = fast_run.Task(demonstration.TASK, program.folder)
    bounds = fast_run.read_bounds("\n".join(program.answer("check", "task")[1]), len(task.points))
    for seed in seeds:
        inputs = [b"".join(word.to_bytes(4, "big") for word in words) for words in demonstration.inputs_of(seed)]
        log, _ = fast_run.log("run", task, [], inputs, bounds)
        wanted = demonstration.Log("\n".join(log)).summary(seed).split("\n")[:-1]
        _, printed = program.answer("demo", str(seed))
        counts.logs += 1
        counts.jobs += len(inputs)
        if printed != wanted:
            counts.differs("demo %d" % seed, wanted, printed)


def main():
    arguments = argparse.ArgumentParser(description=__doc__.splitlines()[0])
    arguments.add_argument("program", nargs="?", default=os.environ.get("VISA", fast_run.PROGRAM))
    arguments.add_argument("--seed", type=int, default=1)
    arguments.add_argument("--tasks", type=int, default=100)
    arguments.add_argument("--points", type=int, default=3, help="the most operating points of a task")
    arguments.add_argument("--examples", action="store_true")
    arguments.add_argument("--demo", type=int, nargs="*", default=[], metavar="N", help="numbers for which `demo N` is compared too")
    arguments.add_argument("--keep", help="a folder that is made, for the files of what differs")
    chosen = arguments.parse_args()
    if not os.access(chosen.program, os.X_OK):
        print("compare_fast: skipped, the program isn't built (./visa builds it)")
        return 0
    counts = Counts()
    with tempfile.TemporaryDirectory() as temporary:
        if chosen.keep:
            os.makedirs(chosen.keep, exist_ok=True)
        program = Program(chosen.program, chosen.keep or temporary)
        if chosen.examples:
            example_tasks(program, counts)
        if chosen.demo:
            demonstrations(program, counts, chosen.demo)
        random_tasks(program, counts, chosen)
    print("met in the windows: " + ", ".join("%s %d" % pair for pair in sorted(fast_core.MET.items())))
    print(counts.line())
    return 1 if counts.different else 0


if __name__ == "__main__":
    sys.exit(main())
