"""A second reading of the times of simple mode in docs/machine.md, with caches, branches and returns: a row of times for each executed instruction. Not taken from the program."""
import mips_step


class Cache:
    """A cache read off the list of its accesses: a line hits where it was accessed before and fewer than `ways` other lines of its set since then."""

    def __init__(self, shape):
        self.shape = shape
        # of each set its lines, the one that was accessed last first; only the first `ways` of them can hit
        self.sets = {}

    def touch(self, at):
        if self.shape is None:
            return False
        sets, ways, size = self.shape
        line = at // size
        recent = self.sets.setdefault(line % sets, [])
        hit = line in recent[:ways]
        if line in recent:
            recent.remove(line)
        recent.insert(0, line)
        del recent[16:]
        return hit


class Speeds:
    """Cycles of an access and a store beyond the first at a period, and of a multiplication and a division."""

    def __init__(self, machine, period):
        self.miss = -(-machine.mem_ps // period)
        self.store = -(-machine.store_ps // period)
        self.mul, self.div = machine.mul, machine.div

    def execute(self, kind):
        return {"mul": self.mul, "div": self.div}.get(kind, 1)


def is_port(at):
    return mips_step.PORT <= at < mips_step.PORT + 4


class Pipeline:
    """The times at which the newest instruction has entered each stage: A[1] fetch to A[6] write back, A[7] when it has left."""

    def __init__(self, machine, speeds):
        self.speeds = speeds
        self.fetches, self.loads = Cache(machine.icache), Cache(machine.dcache)
        self.times = [0] * 8
        self.before = None
        # when the instruction before the newest one was in the memory stage, where it changed the way; else 0
        self.redirects = [0, 0]

    def executes(self, pc, i, part, fetched=True):
        """One more instruction: None where its word is none; no part where it traps. `fetched`: there is code at pc."""
        spent = [0, 1, 1, 1, 1, 1, 1]
        if fetched and not self.fetches.touch(pc):
            spent[1] += self.speeds.miss
        if i is not None:
            spent[4] = self.speeds.execute(i.kind)
        if part is not None and i.kind == "load":
            if is_port(part.at) or not self.loads.touch(part.at):
                spent[5] += self.speeds.miss
        if part is not None and i.kind == "store":
            spent[5] += self.speeds.store
        self.enter(spent, self.waits(i), self.redirects[0])
        turned = part is not None and (i.kind == "return" or i.kind == "branch" and part.taken != mips_step.predicted(i))
        self.redirects = [self.redirects[1], self.times[5] if turned else 0]
        self.before = i

    def waits(self, i):
        """Right behind a load of a register that it reads."""
        return i is not None and self.before is not None and self.before.kind == "load" and self.before.writes is not None and self.before.writes in i.reads

    def enter(self, spent, waits, redirect):
        old, new = self.times, [0] * 8
        new[1] = max(old[2], redirect)
        for stage in range(1, 6):
            new[stage + 1] = max(new[stage] + spent[stage], old[stage + 2])
            if stage == 3 and waits:
                new[4] = max(new[4], old[6])
        new[7] = new[6] + 1
        self.times = new


def run(state, machine, period):
    """Runs a job to its end; the cycles that it takes, and how it ends."""
    pipeline = Pipeline(machine, Speeds(machine, period))
    while True:
        pc = state.pc
        fetched = state.memory.is_code(pc)
        i = state.instruction_at(pc) if fetched else None
        answer = state.step()
        if answer[0] == "exit":
            return pipeline.times[7], answer
        pipeline.executes(pc, i, answer[2] if answer[0] == "went" else None, fetched)
        if answer[0] == "trap":
            return pipeline.times[7], answer
