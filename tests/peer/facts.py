#!/usr/bin/env python3
"""Compares the refusals of facts and counts with a second reading of docs/facts.md: tests/peer/facts.py [PROGRAM] [--seed S] [--tasks N]

Random small tasks (fast_tasks.py) and, where gcc for MIPS is there, those of compiled.py, with lines `loop` and `fact` that were changed: narrowed, widened, moved, left out, added, with another stride, count or register. Most of them don't hold any
more. Compared is what `check` says: `refused fact FROM TO REG` or `refused loop R ..` exactly as worked out here, or that it is none of these.
"""
import argparse
import os
import random
import subprocess
import sys
import tempfile

import fast_run
import fast_tasks
import found_facts
import mips_step
from found_facts import Known, UNKNOWN

OPENING = 0xFFFFFFF0


class Lines:
    def __init__(self, lines):
        self.cuts = [int(line.split(" ")[1], 16) for line in lines if line.startswith("cut ")]
        self.loops, self.facts = [], {}
        for line in lines:
            keyword, *fields = line.split(" ")
            if keyword == "loop":
                self.loops.append(tuple(int(x, 16) for x in fields[:3]) + (int(fields[3]), int(fields[4])))
            elif keyword == "fact":
                self.facts.setdefault(int(fields[0], 16), {})[int(fields[1])] = tuple(int(x) for x in fields[2:])


def lies_in(a, b):
    """Whether each value of a is one of b."""
    if not b[0] <= a[0] <= a[1] <= b[1]:
        return False
    return (a[0] - b[0]) % b[2] == 0 and (a[0] == a[1] or a[2] % b[2] == 0)


class Judge:
    """The first fact or count that doesn't hold."""

    def __init__(self, task, lines):
        self.lines = Lines(lines)
        self.code = found_facts.Code(task.memory(), task.entry)
        self.units = sorted(set().union(*self.code.functions.values()))
        self.blocks = (self.code.blocks | set(self.lines.facts) | set(self.lines.cuts)) & set(self.units)
        self.opening = [found_facts.constant(0)] * 32
        self.opening[4], self.opening[5] = found_facts.constant(mips_step.signed(task.input_at)), found_facts.fits(0, task.input_length, 1)
        self.opening[29], self.opening[31] = found_facts.constant(mips_step.signed(task.stack)), found_facts.constant(-16)
        self.before = {}
        self.lost = []
        for block in sorted(self.blocks):
            self.walk(block)
        self.arrives(OPENING, task.entry, Known(self.opening))

    def at(self, block):
        return [self.lines.facts.get(block, {}).get(r, UNKNOWN) for r in range(32)]

    def arrives(self, at, to, known):
        if to in self.blocks:
            wanted = self.at(to)
            self.lost += [(at, to, r) for r in range(1, 32) if not lies_in(known.get(r), wanted[r])]

    def walk(self, u):
        known = Known(self.at(u))
        while True:
            i = self.code.at(u)
            self.before[u] = known.copy()
            if i.is_control():
                return self.leaves(u, i, known)
            if i.kind == "stop":
                return None
            known.after(i, u)
            if u + 4 in self.blocks:
                return self.arrives(u, u + 4, known)
            u += 4

    def leaves(self, u, i, known):
        slot, unrefined = self.code.at(u + 4), known.copy()
        unrefined.after(i, u)
        self.before[u + 4] = unrefined.copy()
        if i.kind == "call":
            known = unrefined
            known.after(slot, u + 4)
            to, = self.code.call_of(u)
            self.arrives(u, to, known)
            back = known.copy()
            for r in self.code.written[to]:
                if r < 32:
                    back.set(r, UNKNOWN)
            return self.arrives(u, u + 8, back)
        for kind, to in self.code.edges(u):
            there = known.refined(i, kind == "taken") if i.kind == "branch" else known.copy()
            if there is not None:
                there.after(i, u)
                there.after(slot, u + 4)
                self.arrives(u, to, there)
        return None

    def answer(self):
        """The line, or None where all hold."""
        if self.lost:
            return "refused fact %08x %08x %d" % min(self.lost)
        for number, loop in enumerate(self.lines.loops, 1):
            fault = self.counted(loop)
            if fault:
                return "refused loop %d %s" % (number, fault)
        return None

    def counted(self, loop):
        first, last, header, count, counter = loop
        inside = [u for u in self.units if first <= u <= last]
        placed = [(u + 4 * k, i) for u in inside for k, i in enumerate(self.code.instructions(u))]
        steps = [(at, mips_step.signed_half(i.imm)) for at, i in placed if self.is_step(i, counter)]
        if self.cycle_without(inside, header, {at for at, _ in steps}):
            return "no-step"
        others = [at for at, i in placed if i.writes == counter and not self.is_step(i, counter)]
        others += [at for at, s in steps if (s > 0) != (steps[0][1] > 0)]
        others += [at for at, i in self.callees(inside) if i.writes == counter]
        if others:
            return "other-write %08x" % min(others)
        for at, step in steps:
            low, high, _ = self.before[at].get(counter)
            if low + step < UNKNOWN[0] or high + step > UNKNOWN[1]:
                return "wraps %08x" % at
        low, high, _ = self.before[header].get(counter)
        needed = (high - low) // min(abs(s) for _, s in steps) + 1 if steps else 1
        return "too-few %d" % needed if needed > count else None

    def is_step(self, i, counter):
        return i.name == "addiu" and i.rs == i.rt == counter and i.imm != 0

    def callees(self, inside):
        """The instructions of the functions that are called from inside, directly or through others."""
        todo, seen = [to for u in inside for to in self.code.call_of(u)], set()
        while todo:
            f = todo.pop()
            if f not in seen:
                seen.add(f)
                todo += self.code.called[f]
        return [(u + 4 * k, i) for f in seen for u in self.code.functions[f] for k, i in enumerate(self.code.instructions(u))]

    def cycle_without(self, inside, header, steps):
        """Whether the header lies on a cycle inside the loop without a step."""
        edges = {u: to for units in self.code.functions.values() for u, to in units.items()}
        free = {u for u in inside if u not in steps and not (self.code.length(u) == 8 and u + 4 in steps)}
        if header not in free:
            return False
        seen, todo = set(), [header]
        while todo:
            for _, to in edges[todo.pop()]:
                if to == header:
                    return True
                if to in free and to not in seen:
                    seen.add(to)
                    todo.append(to)
        return False


def changed(lines, draw, units):
    """The lines with one or two of loop and fact changed."""
    lines = list(lines)
    for _ in range(draw.choice([1, 1, 2, 3])):
        places = [k for k, line in enumerate(lines) if line.startswith(("fact ", "loop "))]
        kind = draw.randrange(9)
        if kind == 8:
            new_write(lines, draw)
            continue
        if kind == 0 or not places:
            new_fact(lines, draw, units)
            continue
        k = draw.choice(places)
        fields = lines[k].split(" ")
        if kind == 1 and fields[0] == "fact":
            del lines[k]
            continue
        if fields[0] == "loop":
            if draw.random() < 0.6:
                fields[4] = str(max(1, int(fields[4]) + draw.choice([-1, -1, -2, 3, -int(fields[4]) + 1])))
            else:
                fields[5] = str(draw.choice([2, 8, 14, 16, 17, 18, 20, 22, 29, 31]))
        else:
            fact = [int(x) for x in fields[3:]]
            fact = draw.choice([[fact[0] + fact[2], fact[1], fact[2]], [fact[0], fact[1] - fact[2], fact[2]], [fact[0] - fact[2], fact[1], fact[2]], [fact[0], fact[1] + fact[2], fact[2]],
                                [fact[0], fact[1], 1], [fact[0], fact[1], 2 * fact[2]], [fact[0] + 1, fact[1] + 1, fact[2]], [-(1 << 31), (1 << 31) - 1, 1], [fact[0], (1 << 31) - 1, 1], [-(1 << 31), fact[1], 1]])
            if fact[0] > fact[1] or (fact[1] - fact[0]) % fact[2] or fact[0] < -(1 << 31) or fact[1] >= 1 << 31:
                continue
            fields[3:] = [str(x) for x in (fact if fact[0] < fact[1] else [fact[0], fact[0], 1])]
        lines[k] = " ".join(fields)
    return lines


def new_write(lines, draw):
    """Another word in a loop or behind it, which writes a counter."""
    loops = [line.split(" ") for line in lines if line.startswith("loop ")]
    words = [k for k, line in enumerate(lines) if line.startswith("words ")]
    if not loops or not words:
        return
    _, first, last, _, _, counter = draw.choice(loops)
    at, counter = draw.randrange(int(first, 16), int(last, 16) + 128, 4), int(counter)
    for k in words:
        fields = lines[k].split(" ")
        place = (at - int(fields[1], 16)) // 4
        if 0 <= place < len(fields) - 2:
            old = mips_step.decode(int(fields[place + 2], 16))
            if old is not None and not old.is_control():
                step = 0x24000000 | counter << 21 | counter << 16
                fields[place + 2] = "%08x" % draw.choice([step | 1, step | 0xFFFF, step | 0xFFFE, step, 0x24000001 | counter << 16, 0x25 | counter << 11, 0x8C800000 | counter << 16])
                lines[k] = " ".join(fields)


def new_fact(lines, draw, units):
    at, register = draw.choice(units + [0x00400002, 0x00500000]), draw.randrange(1, 32)
    head = "fact %08x %d " % (at, register)
    if not any(line.startswith(head) for line in lines):
        low = draw.choice([0, 1, -1, 268435456, -(1 << 31)])
        lines.append(head + "%d %d 1" % (low, draw.choice([low, low + 3, 65535 + low, (1 << 31) - 1])))


def kind_of(answer):
    if answer is None:
        return "holds"
    words = answer.split(" ")
    return "refused loop R " + words[3] if words[1] == "loop" else "refused fact"


class Comparison:
    def __init__(self, program, folder):
        self.program, self.folder = os.path.abspath(program), folder
        self.said, self.different = {}, 0

    def compare(self, name, lines):
        with open(os.path.join(self.folder, "task"), "w") as f:
            f.write("\n".join(lines) + "\n")
        ended = subprocess.run([self.program, "check", "task"], cwd=self.folder, stdout=subprocess.PIPE, stderr=subprocess.DEVNULL)
        printed = ended.stdout.decode().split("\n")[0]
        if printed.startswith(("refused flow", "refused region", "task line", "image")):
            key = "passed over"
        else:
            wanted = Judge(fast_run.Task("\n".join(lines), self.folder), lines).answer()
            key = kind_of(wanted)
            if wanted != (printed if printed.startswith(("refused fact", "refused loop")) else None):
                self.different += 1
                print("%s: worked out %s, printed %s" % (name, wanted, printed))
                with open(os.path.join(self.folder, "differs-%d.task" % self.different), "w") as f:
                    f.write("\n".join(lines) + "\n")
        self.said[key] = self.said.get(key, 0) + 1

    def line(self):
        return ", ".join("%s %d" % pair for pair in sorted(self.said.items())) + "; differences %d" % self.different


def tried(comparison, name, lines, draw, number):
    """The lines as they are, and changed so many times."""
    units = Judge(fast_run.Task("\n".join(lines), comparison.folder), lines).units
    comparison.compare(name, lines)
    for k in range(number):
        comparison.compare("%s, change %d" % (name, k), changed(lines, draw, units))


def compiled_tasks(comparison, chosen):
    import compiled
    import under_qemu
    if under_qemu.missing():
        print("facts: gcc for MIPS is missing, so nothing compiled is compared")
        return
    for order in ("big", "little"):
        for name in compiled.names():
            draw = random.Random("%d %s %s" % (chosen.seed, order, name))
            image = compiled.build(order, name, comparison.folder)
            lines = compiled.task_lines(order, image, comparison.folder, draw)
            task = fast_run.Task("\n".join(lines), comparison.folder)
            found, missing = found_facts.lines_for(task.memory(), task.entry, task.input_at, task.input_length, task.stack)
            if not missing:
                tried(comparison, order + " " + name, lines + found, draw, 20)


def main():
    arguments = argparse.ArgumentParser(description=__doc__.splitlines()[0])
    arguments.add_argument("program", nargs="?", default=os.environ.get("VISA", fast_run.PROGRAM))
    arguments.add_argument("--seed", type=int, default=1)
    arguments.add_argument("--tasks", type=int, default=200)
    arguments.add_argument("--keep", help="a folder that is made, for the tasks that differ")
    chosen = arguments.parse_args()
    if not os.access(chosen.program, os.X_OK):
        print("facts: skipped, the program isn't built (./visa builds it)")
        return 0
    with tempfile.TemporaryDirectory() as temporary:
        if chosen.keep:
            os.makedirs(chosen.keep, exist_ok=True)
        comparison = Comparison(chosen.program, chosen.keep or temporary)
        for number in range(chosen.tasks):
            draw = random.Random("facts %d %d" % (chosen.seed, number))
            tried(comparison, "task %d of seed %d" % (number, chosen.seed), fast_tasks.RandomTask(draw, 1).lines(1000000000000), draw, 10)
        compiled_tasks(comparison, chosen)
    print(comparison.line())
    return 1 if comparison.different else 0


if __name__ == "__main__":
    sys.exit(main())
