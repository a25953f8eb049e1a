"""Finds lines `loop` and `fact` for compiled code, by a second reading of docs/facts.md: loops by the edges back, facts by going along the code until nothing changes. Not taken from the program, which only checks such lines.

What is found needn't be the best; a task with it has to be admitted, which the program judges.
"""
import math

import mips_step
from mips_step import signed

UNKNOWN = (-(1 << 31), (1 << 31) - 1, 1)
# how often what is known of a register at the beginning of a block may change before it becomes unknown
PATIENCE = 400
COMPARES = ("slt", "sltu", "slti", "sltiu")


def constant(value):
    return (value, value, 1)


def is_constant(fact):
    return fact[0] == fact[1]


def fits(low, high, stride):
    if low < UNKNOWN[0] or high > UNKNOWN[1]:
        return UNKNOWN
    return constant(low) if low == high else (low, high, stride)


def stride_of(*facts):
    return math.gcd(*(0 if is_constant(fact) else fact[2] for fact in facts)) or 1


def hull(a, b):
    """The least fact with the values of both."""
    low, high = min(a[0], b[0]), max(a[1], b[1])
    if low == high:
        return constant(low)
    return (low, high, math.gcd(0 if is_constant(a) else a[2], 0 if is_constant(b) else b[2], abs(a[0] - b[0])) or 1)


class Known:
    """What is known of the registers at a place, and which comparisons stand."""

    def __init__(self, facts):
        self.facts = list(facts)
        self.compared = {}

    def copy(self):
        other = Known(self.facts)
        other.compared = dict(self.compared)
        return other

    def get(self, register):
        return constant(0) if register == 0 else self.facts[register]

    def set(self, register, fact):
        self.facts[register] = fact
        self.compared = {t: c for t, c in self.compared.items() if t != register and c[0] != register}

    def after(self, i, at):
        """An instruction has been executed."""
        if i.writes is None or i.writes == 32:
            return
        fact, note = self.written(i, at), self.note(i)
        self.set(i.writes, fact)
        if note is not None and note[0] != i.writes:
            self.compared[i.writes] = note

    def note(self, i):
        """A comparison with a constant: the register, the constant."""
        if i.name not in COMPARES or i.rs == 0:
            return None
        if i.name in ("slti", "sltiu"):
            bound = mips_step.signed_half(i.imm)
        elif is_constant(self.get(i.rt)):
            bound = self.get(i.rt)[0]
        else:
            return None
        if i.name in ("sltiu", "sltu") and (bound < 0 or self.get(i.rs)[0] < 0):
            return None
        return (i.rs, bound)

    def written(self, i, at):
        n, a, b = i.name, self.get(i.rs), self.get(i.rt)
        if i.is_control():
            return constant(signed(at + 8 & mips_step.MASK))
        table = n in mips_step.THREE.values() or n in mips_step.SHIFTS.values() or n in mips_step.IMMEDIATES.values() or n in ("lui", "clz", "clo", "mul")
        if table and all(is_constant(self.get(r)) for r in i.reads):
            value = mips_step.value_of(i, a[0] & mips_step.MASK, b[0] & mips_step.MASK, lambda r: self.get(r)[0] & mips_step.MASK)
            return UNKNOWN if value is None else constant(signed(value))
        if n in ("addi", "addiu"):
            step = mips_step.signed_half(i.imm)
            return fits(a[0] + step, a[1] + step, a[2])
        if n in ("or", "addu", "add") and constant(0) in (a, b):
            return b if a == constant(0) else a
        if n in ("addu", "add"):
            return fits(a[0] + b[0], a[1] + b[1], stride_of(a, b))
        if n in ("subu", "sub"):
            return fits(a[0] - b[1], a[1] - b[0], stride_of(a, b))
        if n == "sll" and b[2] << i.sa < 1 << 32:
            return fits(b[0] << i.sa, b[1] << i.sa, b[2] << i.sa)
        if n == "andi":
            return fits(0, i.imm, 1)
        if n in COMPARES:
            return (0, 1, 1)
        if n == "srl" and i.sa >= 1:
            return (0, (1 << 32 - i.sa) - 1, 1)
        return {"lbu": (0, 255, 1), "lhu": (0, 65535, 1), "lb": (-128, 127, 1), "lh": (-32768, 32767, 1)}.get(n, UNKNOWN)

    def refined(self, i, taken):
        """What is known on an edge of a branch, before its slot; None where nothing goes along it."""
        known = self.copy()
        for register, condition in self.conditions(i, taken):
            fact = refine(known.get(register), condition)
            if fact is None:
                return None
            if register != 0:
                known.facts[register] = fact
        return known

    def conditions(self, i, taken):
        found = []
        if i.name in ("beq", "bne"):
            equal = taken == (i.name == "beq")
            if is_constant(self.get(i.rt)):
                found.append((i.rs, ("eq" if equal else "ne", self.get(i.rt)[0])))
            elif is_constant(self.get(i.rs)):
                found.append((i.rt, ("eq" if equal else "ne", self.get(i.rs)[0])))
            flag = i.rs if i.rt == 0 else i.rt if i.rs == 0 else None
            if flag in self.compared:
                register, bound = self.compared[flag]
                found.append((register, ("least", bound) if equal else ("most", bound - 1)))
        else:
            yes = {"blez": ("most", 0), "bgtz": ("least", 1), "bltz": ("most", -1), "bgez": ("least", 0)}
            no = {"blez": ("least", 1), "bgtz": ("most", 0), "bltz": ("least", 0), "bgez": ("most", -1)}
            if i.name in yes:
                found.append((i.rs, (yes if taken else no)[i.name]))
        return found


def refine(fact, condition):
    kind, number = condition
    low, high, stride = fact
    if kind == "eq":
        return constant(number) if low <= number <= high and (number - low) % stride == 0 else None
    if kind == "ne":
        low, high = low + stride * (number == low), high - stride * (number == high)
    elif kind == "most":
        high = min(high, low + (number - low) // stride * stride)
    else:
        low = max(low, high - (high - number) // stride * stride)
    return None if low > high else fits(low, high, stride)


class Code:
    """Units, edges and functions of code, from an entry."""

    def __init__(self, memory, entry):
        self.memory, self.entry = memory, entry
        self.functions, self.written, self.called, self.blocks = {}, {}, {}, set()
        todo = [entry]
        while todo:
            start = todo.pop()
            if start not in self.functions:
                self.functions[start] = self.reach(start)
                self.called[start] = {to for u in self.functions[start] for to in self.call_of(u)}
                todo += self.called[start]
        self.close_writes()

    def at(self, at):
        return mips_step.decode(self.memory.code(at))

    def length(self, u):
        return 8 if self.at(u).is_control() else 4

    def call_of(self, u):
        i = self.at(u)
        if i.kind != "call":
            return []
        return [mips_step.jump_target(i, u) if i.name == "jal" else mips_step.branch_target(i, u)]

    def edges(self, u):
        """Kind and target inside the function."""
        i = self.at(u)
        if i.kind == "call":
            return [("over", u + 8)]
        if i.kind == "jump":
            return [("taken", mips_step.jump_target(i, u))]
        if i.kind == "branch":
            way = mips_step.only_way(i)
            return [("next", u + 8)] * (way is not True) + [("taken", mips_step.branch_target(i, u))] * (way is not False)
        if i.kind in ("return", "stop"):
            return []
        return [("next", u + 4)]

    def reach(self, start):
        found, todo = {}, [start]
        self.blocks.add(start)
        while todo:
            u = todo.pop()
            if u not in found:
                found[u] = self.edges(u)
                todo += [to for _, to in found[u]]
                if self.length(u) == 8:
                    self.blocks |= {to for _, to in found[u]} | {u + 8}
                    # also where no edge leads to it
                    if self.at(u).kind == "branch":
                        self.blocks.add(mips_step.branch_target(self.at(u), u))
        return found

    def instructions(self, u):
        return [self.at(u)] + ([self.at(u + 4)] if self.length(u) == 8 else [])

    def writes(self, u):
        return {i.writes for i in self.instructions(u) if i.writes is not None}

    def close_writes(self):
        self.written = {f: set().union(*(self.writes(u) for u in units)) for f, units in self.functions.items()}
        for _ in self.functions:
            for f in self.functions:
                self.written[f] = self.written[f].union(*(self.written[to] for to in self.called[f]))

    # loops

    def regions(self):
        """First and last address and header of each loop, from the edges back."""
        found = {}
        for f, units in sorted(self.functions.items()):
            for tail, header in back_edges(units, f):
                body = loop_body(units, tail, header)
                first, last, _ = found.get(header, (header, header, f))
                found[header] = (min([first] + list(body)), max([last] + [u + self.length(u) - 4 for u in body]), f)
        return [(first, last, header, f) for header, (first, last, f) in sorted(found.items())]

    def counters(self, region):
        """The registers that are only stepped in a loop, one way."""
        first, last, _, f = region
        units = [u for u in self.functions[f] if first <= u <= last]
        steps, others = {}, set()
        for u in units:
            for i in self.instructions(u):
                if i.name == "addiu" and i.rs == i.rt and i.rt != 0 and i.imm != 0:
                    steps.setdefault(i.rt, set()).add(mips_step.signed_half(i.imm))
                elif i.writes is not None:
                    others.add(i.writes)
            for to in self.call_of(u):
                others |= self.written[to]
        return {r: min(abs(s) for s in signs) for r, signs in steps.items() if r not in others and len({s > 0 for s in signs}) == 1}


def back_edges(units, start):
    """Edges to a unit from which the search came."""
    found, state, path = [], {}, [(start, iter(units[start]))]
    state[start] = "open"
    while path:
        u, edges = path[-1]
        for _, to in edges:
            if state.get(to) == "open":
                found.append((u, to))
            elif to not in state:
                state[to] = "open"
                path.append((to, iter(units[to])))
                break
        else:
            state[u] = "done"
            path.pop()
    return found


def loop_body(units, tail, header):
    before = {}
    for u, edges in units.items():
        for _, to in edges:
            before.setdefault(to, []).append(u)
    body, todo = {header}, [tail]
    while todo:
        u = todo.pop()
        if u not in body:
            body.add(u)
            todo += before.get(u, [])
    return body


class Finder:
    """Facts at the beginnings of blocks."""

    def __init__(self, code, opening):
        self.code = code
        self.facts, self.changes = {}, {}
        self.todo = []
        self.arrive(code.entry, Known(opening))
        while self.todo:
            self.block(self.todo.pop(0))

    def arrive(self, at, known):
        old = self.facts.get(at)
        new = list(known.facts) if old is None else [hull(a, b) for a, b in zip(old, known.facts)]
        for r in range(1, 32):
            if old is not None and new[r] != old[r]:
                self.changes[at, r] = self.changes.get((at, r), 0) + 1
                if self.changes[at, r] > PATIENCE:
                    new[r] = UNKNOWN
        if new != old:
            self.facts[at] = new
            if at not in self.todo:
                self.todo.append(at)

    def block(self, u):
        known = Known(self.facts[u])
        while True:
            i = self.code.at(u)
            if i.is_control():
                return self.leaves(u, i, known)
            if i.kind == "stop":
                return None
            known.after(i, u)
            u += 4
            if u in self.code.blocks:
                return self.arrive(u, known)

    def leaves(self, u, i, known):
        slot = self.code.at(u + 4)
        if i.kind == "call":
            known.after(i, u)
            known.after(slot, u + 4)
            to, = self.code.call_of(u)
            self.arrive(to, known)
            back = known.copy()
            for r in self.code.written[to]:
                if r < 32:
                    back.set(r, UNKNOWN)
            return self.arrive(u + 8, back)
        for kind, to in self.code.edges(u):
            there = known.refined(i, kind == "taken") if i.kind == "branch" else known.copy()
            if there is not None:
                there.after(slot, u + 4)
                self.arrive(to, there)
        return None

    def lines(self):
        return ["fact %08x %d %d %d %d" % ((at, r) + tuple(facts[r])) for at, facts in sorted(self.facts.items()) for r in range(1, 32) if facts[r] != UNKNOWN]

    def before(self, at, register):
        """What is known of a register before a unit: of its block, passed along."""
        start = at
        while start not in self.facts:
            start -= 4
        known = Known(self.facts[start])
        while start < at:
            known.after(self.code.at(start), start)
            start += 4
        return known.get(register)


def lines_for(memory, entry, input_at, input_length, stack):
    """Lines `loop` and `fact`, or what couldn't be found."""
    opening = [constant(0)] * 32
    opening[4], opening[5], opening[29], opening[31] = constant(signed(input_at)), fits(0, input_length, 1), constant(signed(stack)), constant(-16)
    code = Code(memory, entry)
    finder = Finder(code, opening)
    loops = []
    for region in code.regions():
        counted = []
        for register, step in code.counters(region).items():
            low, high, _ = finder.before(region[2], register)
            if (low, high) != UNKNOWN[:2]:
                counted.append(((high - low) // step + 1, register))
        if not counted:
            return None, "no counter for the loop at %08x" % region[2]
        count, register = min(counted)
        loops.append("loop %08x %08x %08x %d %d" % (region[:3] + (count, register)))
    return loops + finder.lines(), None
