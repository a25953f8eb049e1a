"""A second reading of the bounds that `check` prints: charged fetches, persistent lines, static costs, and the costliest legal walk, found by going along the code with the laps of each loop put in. Not taken from the program.

A lap of a loop is what lies between two visits of its header. Inside a lap each inner loop is gone through as a whole: all its laps but the last, and the last one up to where it is left.
"""
import mips_step
import simple_pipeline
from facts import Lines
from found_facts import Code


def most(numbers):
    return max((n for n in numbers if n is not None), default=None)


class Bounds:
    def __init__(self, task, lines):
        self.task, self.lines = task, Lines(lines)
        self.code = Code(task.memory(), task.entry)
        self.edges = {u: to for units in self.code.functions.values() for u, to in units.items()}
        units = set(self.edges)
        self.blocks = (self.code.blocks | set(self.lines.facts) | set(self.lines.cuts)) & units
        self.starts = [task.entry] + task.cuts
        self.ends = task.cuts + [None]

    def all(self):
        """The bounds of each point."""
        return [[self.bound(period, k) for k in range(len(self.starts))] for period in self.task.points]

    # what is charged

    def scope(self, k):
        found, todo = set(), [self.starts[k]]
        while todo:
            u = todo.pop()
            if u not in found:
                found.add(u)
                todo += [to for _, to in self.edges[u] if to != self.ends[k]] + self.code.call_of(u)
        return found

    def instructions(self, units):
        return [u + 4 * n for u in units for n in range(self.code.length(u) // 4)]

    def line(self, at):
        return at // self.task.machine.icache[2]

    def persistent(self, scope):
        if self.task.machine.icache is None:
            return set()
        sets, ways, _ = self.task.machine.icache
        lines, in_set = {self.line(at) for at in self.instructions(scope)}, {}
        for line in lines:
            in_set.setdefault(line % sets, set()).add(line)
        return {line for line in lines if len(in_set[line % sets]) <= ways}

    def is_charged(self, at, unit, kept):
        if self.task.machine.icache is None:
            return True
        if self.line(at) in kept:
            return False
        first = at == unit and unit in self.blocks
        return first or self.line(at - 4) != self.line(at)

    # what it costs

    def cost(self, u):
        total = 0
        for n, i in enumerate(self.code.instructions(u)):
            total += 1 + self.speeds.execute(i.kind) - 1
            total += self.speeds.miss if self.is_charged(u + 4 * n, u, self.kept) else 0
            total += self.speeds.miss + 1 if i.kind == "load" else self.speeds.store if i.kind == "store" else 0
        return total

    def edge_cost(self, u, kind):
        i = self.code.at(u)
        return 2 if i.kind == "branch" and (kind == "taken") != mips_step.predicted(i) else 0

    def bound(self, period, k):
        self.speeds = simple_pipeline.Speeds(self.task.machine, period)
        scope = self.scope(k)
        self.kept = self.persistent(scope)
        self.costs = {u: self.cost(u) for u in scope}
        self.laps, self.whole = {}, {}
        _, _, end = self.lap(self.starts[k], set(self.code.functions[self.task.entry]), None, self.ends[k])
        return min(end + self.speeds.miss * len(self.kept), 10 ** 18)

    def function(self, f):
        """The costliest ways through a function: to its return and behind it, and to any end."""
        if f not in self.whole:
            left, _, end = self.lap(f, set(self.code.functions[f]), None, None)
            returns = [cost for u, cost in left.items() if self.code.at(u).kind == "return"]
            self.whole[f] = (max(returns) + 2 if returns else None, end)
        return self.whole[f]

    def inner(self, inside, around):
        """The loops that lie directly inside, by their headers."""
        lower = [loop for loop in self.lines.loops if loop != around and loop[2] in inside and (around is None or around[0] <= loop[0] and loop[1] <= around[1])]
        return {loop[2]: loop for loop in lower if not any(o != loop and o[0] <= loop[0] and loop[1] <= o[1] for o in lower)}

    def loop(self, loop, units):
        """Of a loop: the costs up to behind each of its units, and up to any end, from its entry on."""
        if loop not in self.laps:
            inside = {u for u in units if loop[0] <= u <= loop[1]}
            left, lap, end = self.lap(loop[2], inside, loop, None)
            before = (loop[3] - 1) * lap if lap is not None else 0
            self.laps[loop] = ({u: cost + before for u, cost in left.items()}, end + before, inside)
        return self.laps[loop]

    def lap(self, start, inside, around, stop):
        """From a unit on, inside some units: the greatest cost up to behind each unit, back to the start (where it is a loop's header), and up to any end."""
        arrive, left, todo, lap, end = {start: 0}, {}, [start], None, 0
        inner = self.inner(inside, around)
        while todo:
            u = todo.pop(0)
            if u in inner and u != (around[2] if around else None):
                costs, ended, within = self.loop(inner[u], inside)
            else:
                costs, ended, within = self.unit(u)
            end = max(end, arrive[u] + ended)
            for x, cost in costs.items():
                left[x] = max(left.get(x, 0), arrive[u] + cost)
                for kind, to in self.edges[x]:
                    there = arrive[u] + cost + self.edge_cost(x, kind)
                    if to in within and not (to == u and u == start and around):
                        continue
                    end = max(end, there)
                    if around and to == start:
                        lap = most([lap, there])
                    elif to in inside and to != stop and there > arrive.get(to, -1):
                        arrive[to] = there
                        todo.append(to)
        return left, lap, end

    def unit(self, u):
        cost = self.costs[u]
        called = self.code.call_of(u)
        if not called:
            return {u: cost}, cost, set()
        through, end = self.function(called[0])
        return ({} if through is None else {u: cost + through}), cost + end, set()
