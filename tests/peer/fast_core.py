"""A second reading of docs/cycles.md, docs/window.md and docs/modes.md: the fast core, played cycle by cycle. Plain and slow, not taken from the program.

Each rule is looked up anew in each cycle: operands by a search through the older entries, what may issue by a pass over all. The state makes each committed step itself, and what the
window had worked out has to be the same.
"""
import collections

import mips_step
import simple_pipeline
from mips_step import MASK

WAITING, RUNNING, DONE = "waiting", "running", "done"
# what was met in all windows, so that a comparison can tell what it has seen
MET = collections.Counter()


class Static:
    def guess(self, pc, npc, i):
        if i.kind == "branch":
            return self.way(pc, npc, i, mips_step.predicted(i))
        return npc + 4 & MASK

    def way(self, pc, npc, i, taken):
        return mips_step.branch_target(i, pc) if taken else npc + 4 & MASK

    def learn(self, pc, i, taken, goes):
        pass


class Bimodal(Static):
    def __init__(self):
        self.counters = [1] * 256
        self.last = 0

    def index(self, pc):
        return pc // 4 % 256

    def guess(self, pc, npc, i):
        if i.kind == "branch":
            return self.way(pc, npc, i, self.counters[self.index(pc)] >= 2)
        return self.last if i.name in ("jr", "jalr") else npc + 4 & MASK

    def learn(self, pc, i, taken, goes):
        if i.kind == "branch":
            k = self.index(pc)
            self.counters[k] = min(3, self.counters[k] + 1) if taken else max(0, self.counters[k] - 1)
        elif i.name in ("jr", "jalr"):
            self.last = goes


class Gshare(Bimodal):
    def __init__(self):
        Bimodal.__init__(self)
        self.history = 0

    def index(self, pc):
        return (pc // 4 ^ self.history) % 256

    def learn(self, pc, i, taken, goes):
        Bimodal.learn(self, pc, i, taken, goes)
        if i.kind == "branch":
            self.history = (2 * self.history + taken) % 256


PREDICTORS = {"static": Static, "bimodal": Bimodal, "gshare": Gshare}


class Entry:
    def __init__(self, pc, npc, guess, i, cycle):
        self.pc, self.npc, self.guess, self.i = pc, npc, guess, i
        self.fetched, self.ends = cycle, None
        self.status = WAITING if i is not None else DONE
        self.part = None if i is not None else mips_step.Part(trap="reserved")

    def is_done(self):
        return self.status == DONE and self.part.trap is None


class FastCore:
    """The window with its clock, over a state."""

    def __init__(self, machine, period, state, predictor):
        self.machine = machine
        self.speeds = simple_pipeline.Speeds(machine, period)
        self.state = state
        self.predictor = predictor
        self.fetches, self.loads = simple_pipeline.Cache(machine.icache), simple_pipeline.Cache(machine.dcache)
        self.entries = []
        self.pair = (state.pc, state.npc)
        self.fetch_free = self.load_free = self.store_free = 0
        self.arrived = None
        self.ending = None
        self.events = []

    # operands

    def operand(self, k, name):
        """The value of the nearest older entry that writes the name, else the committed one; None where it isn't there yet."""
        for older in reversed(self.entries[:k]):
            if older.i is not None and older.i.writes == name:
                return older.part.value if older.is_done() else None
        return self.state.value(name)

    def older_stores(self, k):
        return [e for e in self.entries[:k] if e.i is not None and e.i.kind == "store"]

    def can_issue(self, k):
        entry = self.entries[k]
        if entry.status != WAITING or any(self.operand(k, name) is None for name in entry.i.reads):
            return False
        return entry.i.kind != "load" or all(e.status == DONE for e in self.older_stores(k))

    def result(self, k):
        entry = self.entries[k]

        def value(name):
            return self.operand(k, name) if name in entry.i.reads else 0

        def byte(at):
            for store in reversed(self.older_stores(k)):
                if store.part.trap is None and store.part.at != mips_step.PORT:
                    for x, there in store.part.stored:
                        if x == at:
                            MET["bytes loaded from older stores"] += 1
                            return there
            return self.state.memory.byte(at)
        return mips_step.act(entry.i, entry.pc, entry.npc, value, self.state.memory, byte)

    # the four phases

    def may_commit(self, cycle):
        if self.ending is not None or not self.entries:
            return False
        entry = self.entries[0]
        if entry.status != DONE:
            return False
        if entry.part.trap is not None:
            return True
        if entry.part.goes != entry.guess:
            return False
        if entry.i.kind == "store" and self.store_free > cycle:
            MET["commits held back by a store"] += 1
            return False
        return True

    def commit(self, cycle):
        """The pc after the commit, or None where it traps."""
        entry = self.entries[0]
        if (entry.pc, entry.npc) != (self.state.pc, self.state.npc):
            raise SystemExit("the oldest entry isn't the next instruction: %08x, state %08x" % (entry.pc, self.state.pc))
        answer = self.state.step()
        if answer[0] != "went":
            MET["traps of a commit alone" if entry.part.trap is None else "traps committed"] += 1
            self.ending = answer
            return None
        self.same(entry, answer[2])
        del self.entries[0]
        if entry.i.kind == "store":
            self.store_free = cycle + 1 + self.speeds.store
        if entry.i.kind in ("branch", "return", "indirect"):
            self.predictor.learn(entry.pc, entry.i, answer[2].taken, answer[2].goes)
        if self.state.at_exit():
            self.ending = ("exit",)
        return self.state.pc

    def same(self, entry, part):
        mine = entry.part
        if (mine.value, mine.at, list(mine.stored), mine.goes, mine.taken) != (part.value, part.at, list(part.stored), part.goes, part.taken):
            raise SystemExit("the window worked out something else at %08x than the state" % entry.pc)

    def commits(self, cycle):
        pcs = []
        for _ in range(self.machine.width):
            if not self.may_commit(cycle):
                break
            pc = self.commit(cycle)
            if pc is not None:
                pcs.append(pc)
        return pcs

    def squash(self, k):
        entry, goes = self.entries[k], self.entries[k].part.goes
        entry.guess = goes
        slot = self.entries[k + 1] if k + 1 < len(self.entries) else None
        if slot is not None and not (slot.i is not None and slot.i.is_control()):
            MET["squashes, the slot " + slot.status] += 1
            slot.npc, slot.guess = goes, goes + 4 & MASK
            if slot.part is not None and slot.part.trap is None:
                slot.part.goes = goes + 4 & MASK
            del self.entries[k + 2:]
            self.pair = (goes, goes + 4 & MASK)
        else:
            MET["squashes, the slot not there" if slot is None else "squashes, the slot control"] += 1
            del self.entries[k + 1:]
            self.pair = (entry.npc, goes)

    def finishes(self, cycle):
        k = 0
        while k < len(self.entries):
            entry = self.entries[k]
            if entry.status == RUNNING and entry.ends <= cycle:
                entry.status = DONE
                if entry.part.trap is None and entry.i.is_control() and entry.part.goes != entry.guess:
                    self.squash(k)
            k += 1

    def due(self, cycle):
        """The oldest entry that may issue in this cycle."""
        for k, entry in enumerate(self.entries):
            if entry.status == WAITING and entry.fetched <= cycle - 2 and self.can_issue(k) and (entry.i.kind != "load" or self.load_free <= cycle):
                return k
        return None

    def issues(self, cycle):
        for _ in range(self.machine.width):
            k = self.due(cycle)
            if k is None:
                return
            entry = self.entries[k]
            entry.part = self.result(k)
            entry.status = RUNNING
            if entry.part.trap is not None:
                MET["traps issued"] += 1
            if any(older.status == WAITING for older in self.entries[:k]):
                MET["issues before an older entry"] += 1
            entry.ends = cycle + self.latency(entry, cycle)

    def latency(self, entry, cycle):
        if entry.i.kind != "load":
            return self.speeds.execute(entry.i.kind)
        if entry.part.trap is not None:
            return 1
        if not simple_pipeline.is_port(entry.part.at) and self.loads.touch(entry.part.at):
            MET["loads that hit"] += 1
            self.load_free = cycle + 1
            return 2
        MET["loads that miss"] += 1
        self.load_free = cycle + 1 + self.speeds.miss
        return 2 + self.speeds.miss

    def is_there(self, pc, cycle):
        """Whether the fetch of pc hits; else it is under way."""
        if self.machine.icache is not None:
            hit = self.fetches.touch(pc)
        else:
            hit = self.arrived == pc
            self.arrived = None if hit else pc
        if not hit:
            self.fetch_free = cycle + self.speeds.miss
        return hit

    def guess(self, pc, npc, i):
        if i is None or not i.is_control():
            return npc + 4 & MASK
        if i.name in ("j", "jal"):
            return mips_step.jump_target(i, pc)
        if i.name == "bgezal" and i.rs == 0:
            return mips_step.branch_target(i, pc)
        return self.predictor.guess(pc, npc, i)

    def fetch_phase(self, cycle):
        for _ in range(self.machine.width):
            pc, npc = self.pair
            if len(self.entries) >= self.machine.rob:
                MET["cycles with a full window"] += 1
                return
            if not self.state.memory.is_code(pc):
                MET["cycles with no code to fetch"] += 1
                return
            if self.fetch_free > cycle:
                return
            if not self.is_there(pc, cycle):
                return
            i = self.state.instruction_at(pc)
            if i is None:
                MET["reserved words fetched"] += 1
            elif i.is_control() and self.entries and self.entries[-1].i is not None and self.entries[-1].i.is_control():
                MET["control fetched into a slot"] += 1
            guess = self.guess(pc, npc, i)
            self.entries.append(Entry(pc, npc, guess, i, cycle))
            self.pair = (npc, guess)

    def cycle(self, cycle):
        """Plays one cycle; the pcs after its commits."""
        pcs = self.commits(cycle)
        if self.ending is None:
            self.finishes(cycle)
            self.issues(cycle)
            self.fetch_phase(cycle)
        return pcs

    def in_flight(self, cycles):
        return max(0, self.fetch_free - cycles, self.load_free - cycles, self.store_free - cycles)
