#!/usr/bin/env python3
"""Measures the built program: bench/measure.py [--once] [--only NAME] [--keep FOLDER]

Makes tasks and jobs of given sizes in a temporary folder, runs the program on each three times (once with --once), and prints a table with the shortest time of each: running straight code and loops, with and without caches,
analysing code of many units, calls, regions, facts, points and sub-tasks, and reading texts and images of the greatest sizes. The variable VISA names another program than crates/visa/out/visa. Nothing here is a test: it stops only where an answer isn't the one that the case is made for.
"""
import argparse
import os
import random
import struct
import subprocess
import sys
import tempfile
import time

TOP = os.path.dirname(os.path.dirname(os.path.abspath(__file__)))
CODE = 0x00400000
RAM = 0x10000000
RETURN = 0x03E00008
LONGEST = 8388608
HEAD = ["visa-task 1", "order big", "core 1 8 4 16", "memory 10000 10000 0 0", "icache none", "dcache none", "point 1000", "time 1000000000000 1000000000000"]


# each access one cycle more, in place of ten
QUICK = [line.replace("memory 10000 10000", "memory 1000 1000") for line in HEAD]


def ram_and_input(length, more=()):
    return ["stack 7fff0000", "ram %08x 65536" % RAM] + list(more) + ["input %08x %d" % (RAM, length), "output 16"]


def random_word(draw):
    """An instruction on the registers 2 to 15: arithmetic, a shift, a product, a move that depends, a load from the input or a store to it."""
    kind = draw.randrange(8)
    d, s, t = (draw.randrange(2, 16) for _ in range(3))
    if kind == 0:
        return t << 16 | d << 11 | draw.randrange(32) << 6
    if kind == 1:
        return s << 21 | t << 16 | d << 11 | draw.choice([0x21, 0x23, 0x24, 0x25, 0x26, 0x2A])
    if kind == 2:
        return 0x09 << 26 | s << 21 | t << 16 | draw.randrange(1 << 16)
    if kind == 3:
        return 0x0F << 26 | t << 16 | draw.randrange(1 << 16)
    if kind == 4:
        return draw.choice([s << 21 | t << 16 | 0x18, d << 11 | 0x12])
    if kind == 5:
        return s << 21 | t << 16 | d << 11 | 0x0A
    op = 0x23 if kind == 6 else 0x2B
    return op << 26 | 16 << 21 | t << 16 | 4 * draw.randrange(64)


def straight(count):
    """So many words: the base of the input into $16, random instructions, one store to the output port, the return and its slot."""
    draw = random.Random(1)
    ends = [0x3C11FFFF, 0xAE220000, RETURN, 0]
    return [0x3C100000 | RAM >> 16] + [random_word(draw) for _ in range(count - 5)] + ends


def word_lines(words):
    return ["words %08x " % (CODE + 4 * k) + " ".join("%08x" % w for w in words[k:k + 64]) for k in range(0, len(words), 64)] + ["entry %08x" % CODE]


def text_of(lines):
    return ("\n".join(lines) + "\n").encode()


def padded(lines):
    """The lines behind a first line and comments, as many bytes as a file may have at most."""
    whole, comment = text_of(lines), b"# " + b"x" * 97 + b"\n"
    first, rest = whole.split(b"\n", 1)
    missing = LONGEST - len(whole)
    comments = comment * (missing // len(comment) - 1)
    last = missing - len(comments)
    return first + b"\n" + comments + b"#" + b"x" * (last - 2) + b"\n" + rest


def elf(words):
    """An ELF file of one segment."""
    code = struct.pack(">%dI" % len(words), *words)
    head = b"\x7fELF\x01\x02\x01" + bytes(9) + struct.pack(">HHIIIIIHHHHHH", 2, 8, 1, CODE, 52, 0, 0x50001001, 52, 32, 1, 0, 0, 0)
    return head + struct.pack(">8I", 1, 84, CODE, CODE, len(code), len(code), 5, 4) + code


def jobs_of(count, data=b"\x01\x02\x03\x04"):
    return text_of(["visa-jobs 1"] + ["job " + data.hex()] * count)


class Case:
    """The name, the files, the words that are executed, and the first line and status that the program has to answer with."""

    def __init__(self, name, files, executed, jobs, first="visa 1 simple", status=0):
        self.name = name
        self.files = files
        self.executed = executed
        self.jobs = jobs
        self.first = first
        self.status = status
        self.words = ["simple", "task", "jobs"]
        # of the fast core, as the log has them
        self.cycles = 0

    def bytes(self):
        return sum(len(data) for data in self.files.values())

    def rate(self, seconds):
        """What the case is made for: instructions, or bytes where there are many."""
        if self.words[0] == "demo":
            return "%.0f jobs/s" % (200 / seconds)
        if self.bytes() < LONGEST // 2:
            if self.words[0] == "check":
                return "%.0f thousand words of code/s" % (self.executed / seconds / 1e3)
            if self.cycles:
                return "%.2f million cycles of the fast core/s, %.0f jobs/s" % (self.cycles / seconds / 1e6, self.jobs / seconds)
            return "%.2f million instructions/s" % (self.executed / seconds / 1e6)
        return "%.0f MB/s" % (self.bytes() / seconds / 1e6)


def long_head(points=(1000,), icache="none", dcache="none", core="1 8 4 16"):
    """The first lines of a task of several points and with caches, whose deadline is the longest one."""
    return ["visa-task 1", "order big", "core " + core, "memory 10000 10000 0 0", "icache " + icache, "dcache " + dcache] + ["point %d" % p for p in points] + HEAD[7:]


def branch(op, rs, rt, words):
    """A branch over so many words behind its slot, or back; with a slot that does nothing."""
    return [op << 26 | rs << 21 | rt << 16 | words + 1 & 0xFFFF, 0]


def call(to):
    return [0x0C000000 | CODE + 4 * to >> 2, 0]


class Branches:
    """Units that branch over others: each group is a branch, its slot, two words that may be passed over, and one more."""

    def __init__(self, seed):
        self.draw = random.Random(seed)

    def group(self):
        kind = self.draw.randrange(3)
        test = branch(4 + self.draw.randrange(2), self.draw.randrange(2, 8), self.draw.randrange(8, 14), 2) if kind else branch(7, self.draw.randrange(2, 8), 0, 2)
        return test + [random_word(self.draw) for _ in range(3)]

    def units(self, count):
        """So many units, four in each group."""
        return [word for _ in range(count // 4) for word in self.group()]


def ends(words):
    return words + [RETURN, 0]


def image_files(head, words, more=(), jobs=1):
    return {"task": text_of(head + ["image image", "entry -"] + ram_and_input(256) + list(more)), "jobs": jobs_of(jobs), "image": elf(words)}


def check_case(name, head, words, more=(), first="visa 1 check", status=0):
    case = Case(name, image_files(head, words, more), len(words), 0, first, status)
    case.words = ["check", "task"]
    return case


def base():
    """The words before code of Branches: the base of its loads and stores."""
    return [0x3C100000 | RAM >> 16]


def branches_case(count):
    return check_case("check: %d units with branches" % count, HEAD, ends(base() + Branches(2).units(count)))


def chain_case(functions, units):
    """Each function calls the next one in its middle; each keeps its return address on the stack."""
    words, made = [], [base() + Branches(k).units(units) for k in range(functions)]
    places, at = [], 0
    for body in made:
        places.append(at)
        at += len(body) + (8 if len(places) < functions else 2)
    for k, body in enumerate(made):
        if k + 1 < functions:
            half = 1 + (units // 8) * 5
            words += [0x27BDFFF8, 0xAFBF0004] + body[:half] + call(places[k + 1]) + body[half:] + [0x8FBF0004, RETURN, 0x27BD0008]
            words += [0] * (places[k + 1] - len(words))
        else:
            words += ends(body)
    return check_case("check: %d functions of %d units, each calls the next" % (functions, units), HEAD, words)


def calls_case(calls, units):
    """Many calls of one long function; the return address stands in $30."""
    first = calls * 2 + 4
    words = [0x001FF025] + [word for _ in range(calls) for word in call(first)] + [0x001EF825 & ~(31 << 16) | 30 << 21, RETURN, 0]
    return check_case("check: %d calls of one function of %d units" % (calls, units), [line.replace("10000 10000 0", "1000 1000 0").replace("point 1000", "point 100") for line in HEAD], words + ends(base() + Branches(3).units(units)))


class Nests:
    """Loops of three rounds inside one another, four deep; their lines."""

    COUNTERS = [18, 19, 20, 21]

    def __init__(self, nests, units):
        self.words, self.loops, self.facts, self.begins = base(), [], [], []
        self.branches = Branches(4)
        for _ in range(nests):
            self.begins.append(CODE + 4 * len(self.words))
            self.loop(0, units)
        self.words = ends(self.words)

    def mark(self, counters):
        self.facts += ["fact %08x %d 1 3 1" % (CODE + 4 * len(self.words), c) for c in counters]

    def loop(self, depth, units):
        counter, around = self.COUNTERS[depth], self.COUNTERS[:depth]
        self.words.append(0x24000003 | counter << 16)
        first = len(self.words)
        self.mark(around + [counter])
        if depth < 3:
            self.loop(depth + 1, units)
        else:
            self.words += [random_word(self.branches.draw) for _ in range(units)]
        self.words.append(0x2400FFFF | counter << 21 | counter << 16)
        self.words += branch(5, counter, 0, first - len(self.words) - 2)
        self.loops.append("loop %08x %08x %08x 3 %d" % (CODE + 4 * first, CODE + 4 * len(self.words) - 4, CODE + 4 * first, counter))
        self.mark(around)

    def lines(self, cuts=0):
        step = len(self.begins) // (cuts + 1)
        return ["cut %08x" % self.begins[step * (k + 1)] for k in range(cuts)] + self.loops + self.facts


POINTS = (10000, 8000, 6000, 5000, 4000, 3000, 2000, 1000)


def nests_case(nests, units, points=(1000,), cuts=0, icache="none"):
    made = Nests(nests, units)
    name = "check: %d regions, %d facts, %d units" % (4 * nests, len(made.facts), len(made.words) - 4 * nests)
    if cuts:
        name += ", %d points, %d sub-tasks, cache %s" % (len(points), cuts + 1, icache)
    return check_case(name, long_head(points, icache), made.words, made.lines(cuts))


def cuts_case(units, cuts, icache):
    part = [base() + Branches(k).units(units // (cuts + 1)) for k in range(cuts + 1)]
    places, at = [], 0
    for body in part:
        places.append(at)
        at += len(body)
    lines = ["cut %08x" % (CODE + 4 * place) for place in places[1:]]
    return check_case("check: %d units, 8 points, %d sub-tasks, cache %s" % (units, cuts + 1, icache), long_head(POINTS, icache), ends([word for body in part for word in body]), lines)


def rounds_case(rounds, jobs, words=("simple", "task", "jobs"), head=HEAD, what=""):
    """The counted loop: a load from the input, a sum, the step and the branch with its slot."""
    code = [0x3C100000 | RAM >> 16, 0x3C080000 | rounds >> 16, 0x35080000 | rounds & 0xFFFF, 0x8E090000, 0x00491021, 0x2508FFFF, 0x1500FFFC, 0, RETURN, 0]
    lines = ["loop %08x %08x %08x %d 8" % (CODE + 12, CODE + 28, CODE + 12, rounds), "fact %08x 8 1 %d 1" % (CODE + 12, rounds)]
    files = {"task": text_of(head + word_lines(code) + ram_and_input(256) + lines), "jobs": jobs_of(jobs)}
    case = Case("%s: loop of 5 words, %d rounds, %d jobs%s" % (words[0], rounds, jobs, what), files, jobs * (5 * rounds + 5), jobs, "visa 1 " + words[0])
    case.words = list(words)
    return case


def example_case(times):
    """The jobs of examples/monitor for two clocks, so many times."""
    folder = os.path.join(TOP, "examples/monitor")
    files = {}
    for name in ("little.task", "little.jobs", "little.elf"):
        with open(os.path.join(folder, name), "rb") as f:
            files[name] = f.read()
    first, *jobs = files.pop("little.jobs").decode().splitlines()
    files["task"], files["jobs"] = files.pop("little.task"), text_of([first] + jobs * times)
    count = sum(line.startswith("job ") for line in jobs) * times
    case = Case("run: examples/monitor, two clocks, %d jobs" % count, files, 0, count, "visa 1 run")
    case.words = ["run", "task", "jobs"]
    return case


def demo_case():
    case = Case("demo 1", {}, 0, 0, "visa 1 demo 1")
    case.words = ["demo", "1"]
    return case


CACHES = [("none", "none"), ("256 1 16", "64 1 16"), ("256 8 16", "64 8 16")]


def cached_case(count, jobs, icache, dcache):
    case = run_case(count, jobs, long_head((1000,), icache, dcache), ", caches %s and %s" % (icache, dcache))
    return case


def run_case(count, jobs, head=HEAD, what=""):
    words = straight(count)
    files = {"task": text_of(head + word_lines(words) + ram_and_input(256)), "jobs": jobs_of(jobs)}
    return Case("%d words, %d jobs%s" % (count, jobs, what), files, count * jobs, jobs)


def ranges_case(jobs):
    """As many ranges as a task may have: 256 lines of words, and 32 of memory."""
    count = 256 * 64
    rams = ["ram %08x 16" % (RAM + 0x100000 * k) for k in range(1, 32)]
    files = {"task": text_of(HEAD + word_lines(straight(count)) + ram_and_input(256, rams)), "jobs": jobs_of(jobs)}
    return Case("%d words in 288 ranges, %d jobs" % (count, jobs), files, count * jobs, jobs)


def shows_case(jobs):
    """As much as a log may show of each job: sixteen ranges of 256 bytes."""
    shows = ["show %08x 256" % (RAM + 0x1000 * k) for k in range(16)]
    files = {"task": text_of(HEAD + word_lines([0x3C11FFFF, 0xAE220000, RETURN, 0]) + ram_and_input(256) + shows), "jobs": jobs_of(jobs)}
    return Case("4 words, %d jobs that show 16 ranges of 256 bytes" % jobs, files, 4 * jobs, jobs)


def image_case(count, jobs):
    files = {"task": text_of(HEAD + ["image image", "entry -"] + ram_and_input(256)), "jobs": jobs_of(jobs), "image": elf(straight(count))}
    return Case("%d words in an image, %d jobs" % (count, jobs), files, count * jobs, jobs)


def cases():
    small = word_lines([0x3C11FFFF, 0xAE220000, RETURN, 0])
    inputs = (LONGEST - 12) // (2 * 65536 + 5)
    big_task = padded(HEAD + small + ram_and_input(256))
    return [
        run_case(5, 10000), run_case(64, 10000), run_case(1000, 1000), run_case(16000, 100), run_case(16000, 1000),
        run_case(64, 10000, QUICK, ", M = 1"), run_case(1000, 1000, QUICK, ", M = 1"), run_case(16000, 100, QUICK, ", M = 1"),
        ranges_case(100), image_case(65536, 100), shows_case(10000),
    ] + [cached_case(16000, 100, *shapes) for shapes in CACHES] + [
        rounds_case(100000, 10), rounds_case(100000, 10, head=long_head((1000,), "64 2 16", "64 2 16"), what=", caches 64 2 16"),
        branches_case(16000), branches_case(52000), chain_case(60, 260), calls_case(16000, 16000),
        nests_case(64, 240), nests_case(64, 1000), nests_case(64, 240, POINTS, 31, "256 2 16"), cuts_case(16000, 31, "none"), cuts_case(16000, 31, "256 2 16"),
        rounds_case(100000, 5, ("run", "task", "jobs"), long_head((1000,), "64 2 16", "64 2 16", "4 64 4 16"), ", width 4, window of 64, caches 64 2 16"),
        rounds_case(10000, 5, ("run", "task", "jobs"), long_head((1000,), core="4 64 4 16"), ", width 4, window of 64"),
        rounds_case(1, 10000, ("run", "task", "jobs"), long_head((1000,), "64 2 16", "64 2 16", "4 64 4 16"), ", width 4, window of 64, caches 64 2 16"),
        example_case(200), demo_case(),
        Case("task text of 8 MiB, mostly comments, one job", {"task": big_task, "jobs": jobs_of(1)}, 4, 1),
        Case("task text of 8 MiB, one line of spaces behind the first", {"task": b"visa-task 1\n" + b" " * (LONGEST - 13) + b"\n", "jobs": jobs_of(1)}, 0, 0, None, 3),
        Case("jobs text of 8 MiB, mostly comments, one job", {"task": text_of(HEAD + small + ram_and_input(256)), "jobs": padded(["visa-jobs 1", "job 01020304"])}, 4, 1),
        Case("jobs text of 8 MiB, %d inputs of 65536 bytes" % inputs, {"task": text_of(HEAD + small + ram_and_input(65536)), "jobs": jobs_of(inputs, bytes(range(256)) * 256)}, 4 * inputs, inputs),
        Case("jobs text of 8 MiB, refused at its last line", {"task": text_of(HEAD + small + ram_and_input(256)), "jobs": padded(["visa-jobs 1", "job 01020304", "job 0"])}, 0, 0, None, 6),
    ]


def measure(case, program, folder, times):
    """The shortest time in seconds."""
    for name, data in case.files.items():
        with open(os.path.join(folder, name), "wb") as f:
            f.write(data)
    shortest = None
    for _ in range(times):
        with open(os.path.join(folder, "log"), "wb") as log:
            begin = time.perf_counter()
            status = subprocess.run([program] + case.words, cwd=folder, stdout=log, stderr=subprocess.DEVNULL).returncode
            seconds = time.perf_counter() - begin
        check(case, status, os.path.join(folder, "log"))
        shortest = seconds if shortest is None else min(shortest, seconds)
    return shortest


def check(case, status, log):
    with open(log) as f:
        lines = f.read().splitlines()
    ended = [line for line in lines if line.startswith("job ") and line.endswith(" exit")]
    case.cycles = sum(int(line.split(" ")[2]) for line in lines if line.startswith("sub "))
    if status != case.status or len(ended) != case.jobs or (case.first and lines[:1] != [case.first]):
        sys.exit("%s: status %d, %d jobs ended, first line: %s" % (case.name, status, len(ended), lines[:1]))


def main():
    arguments = argparse.ArgumentParser(description=__doc__.splitlines()[0])
    arguments.add_argument("--once", action="store_true", help="run each case once")
    arguments.add_argument("--only", help="the cases with this in their name")
    arguments.add_argument("--keep", help="a folder that is made, for the files of the last case")
    chosen = arguments.parse_args()
    program = os.path.abspath(os.environ.get("VISA", os.path.join(TOP, "crates/visa/out/visa")))
    if not os.access(program, os.X_OK):
        sys.exit("the program isn't built (./visa builds it)")
    with tempfile.TemporaryDirectory() as temporary:
        folder = chosen.keep or temporary
        os.makedirs(folder, exist_ok=True)
        print("| case | bytes read | instructions | seconds | rate |\n|---|---|---|---|---|")
        for case in cases():
            if chosen.only and chosen.only not in case.name:
                continue
            seconds = measure(case, program, folder, 1 if chosen.once else 3)
            row = (case.name, case.bytes(), case.executed, seconds, case.rate(seconds))
            print("| %s | %d | %d | %.3f | %s |" % row)
            sys.stdout.flush()
    return 0


if __name__ == "__main__":
    sys.exit(main())
