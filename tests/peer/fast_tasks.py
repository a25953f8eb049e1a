"""Random small tasks that are admitted: counted loops with their facts, branches that hang on the input, calls, loads and stores, cuts, traps, and words behind returns that only a wrong guess can reach."""
import mips_step

CODE = 0x00400000
RAM = 0x10000000
RAM_LENGTH = 0x400
# the input buffer stands at the beginning of that memory, the stack at its end
INPUT_LENGTH = 64
STACK = RAM + RAM_LENGTH - 32
PORT_BASE, RAM_BASE, SECOND_BASE = 27, 28, 26
# registers that hold data; counters of the entry's function and of the two others
DATA = [2, 3, 6, 7, 8, 9, 10, 11, 12, 13]
FLAG = 14
COUNTERS = {"job": [16, 17, 18, 19], "middle": [20, 21], "leaf": [22, 23]}
ENDS = {"job": 15, "middle": 24, "leaf": 25}


def three(funct, rs, rt, rd):
    return rs << 21 | rt << 16 | rd << 11 | funct


def immediate(op, rs, rt, half):
    return op << 26 | rs << 21 | rt << 16 | half & 0xFFFF


class Text:
    """Words under construction, with labels, and the facts and loops that hold at their places."""

    def __init__(self):
        self.words = []
        self.places = {}
        self.wanted = []
        self.active = []
        self.facts = {}
        self.loops = []
        self.labels = 0

    def at(self):
        return CODE + 4 * len(self.words)

    def put(self, word):
        self.words.append(word)

    def label(self):
        self.labels += 1
        return self.labels

    def mark(self):
        """A block may begin here: what is known of the counters of the loops around stands in facts."""
        for register, low, high, stride in self.active:
            self.facts[self.at(), register] = (low, high, stride)

    def place(self, label):
        self.places[label] = self.at()
        self.mark()

    def goes(self, word, label):
        """A branch or jump to a label."""
        self.wanted.append((len(self.words), label))
        self.put(word)

    def link(self):
        for k, label in self.wanted:
            word, to = self.words[k], self.places[label]
            if word >> 26 in (2, 3):
                self.words[k] = word | to >> 2 & 0x3FFFFFF
            else:
                self.words[k] = word | (to - CODE - 4 * k - 4) // 4 & 0xFFFF


class Writer:
    def __init__(self, draw):
        self.draw = draw
        self.text = Text()
        self.cuts = []
        self.trap_rate = draw.choice([0, 0, 0, 0.02, 0.06])
        self.function = "job"
        self.depth = 0

    # words without control

    def data(self):
        return 0 if self.draw.random() < 0.05 else self.draw.choice(DATA)

    def target(self):
        return 0 if self.draw.random() < 0.03 else self.draw.choice(DATA)

    def plain(self):
        d = self.draw
        kind = d.randrange(9)
        if kind < 3:
            return three(d.choice([0x21, 0x23, 0x24, 0x25, 0x26, 0x27, 0x2A, 0x2B, 0x04, 0x06, 0x07, 0x0A, 0x0B]), self.data(), self.data(), self.target())
        if kind < 6:
            return immediate(d.choice([0x09, 0x0A, 0x0B, 0x0C, 0x0D, 0x0E]), self.data(), self.target(), d.choice([0, 1, 3, 0x7FFF, 0xFFFF, d.getrandbits(16)]))
        if kind == 6:
            return three(d.choice([0, 2, 3]), 0, self.data(), self.target()) | d.randrange(32) << 6
        if kind == 7:
            return immediate(0x0F, 0, self.target(), d.getrandbits(16))
        rd = self.target()
        return 0x1C << 26 | three(d.choice([0x20, 0x21]), self.data(), rd, rd)

    def long(self):
        """A product, a quotient or a move from or to HI and LO."""
        d = self.draw
        kind = d.randrange(4)
        if kind == 0:
            return three(d.choice([0x18, 0x19, 0x1A, 0x1B]), self.data(), self.data(), 0)
        if kind == 1:
            return 0x1C << 26 | d.choice([three(d.choice([0, 1, 4, 5]), self.data(), self.data(), 0), three(2, self.data(), self.data(), self.target())])
        if kind == 2:
            return three(d.choice([0x10, 0x12]), 0, 0, self.target())
        return three(d.choice([0x11, 0x13]), self.data(), 0, 0)

    def offset(self, step):
        return self.draw.randrange((RAM_LENGTH - 128) // step) * step

    def load(self):
        name, code, step = self.draw.choice([("lw", 0x23, 4), ("lh", 0x21, 2), ("lhu", 0x25, 2), ("lb", 0x20, 1), ("lbu", 0x24, 1), ("lwl", 0x22, 1), ("lwr", 0x26, 1), ("lw", 0x23, 4)])
        if self.draw.random() < 0.05:
            return immediate(code, PORT_BASE, self.target(), 0 if step > 1 else self.draw.randrange(4))
        if self.draw.random() < 0.06:
            return immediate(0x23, SECOND_BASE, self.target(), 4 * self.draw.randrange(8))
        near = self.draw.random() < 0.5
        return immediate(code, RAM_BASE, self.target(), self.draw.randrange(32 // step) * step if near else self.offset(step))

    def store(self):
        code, step = self.draw.choice([(0x2B, 4), (0x29, 2), (0x28, 1), (0x2A, 1), (0x2E, 1), (0x2B, 4)])
        near = self.draw.random() < 0.5
        return immediate(code, RAM_BASE, self.data(), self.draw.randrange(32 // step) * step if near else self.offset(step))

    def out(self):
        return immediate(0x2B, PORT_BASE, self.data(), 0)

    def trap(self):
        """A word that traps for some data."""
        d = self.draw
        kind = d.randrange(6)
        if kind == 0:
            return three(d.choice([0x30, 0x31, 0x32, 0x33, 0x34, 0x36]), self.data(), self.data(), 0) | d.randrange(1024) << 6
        if kind == 1:
            return three(d.choice([0x20, 0x22]), self.data(), self.data(), self.target())
        if kind == 2:
            return immediate(d.choice([0x23, 0x21, 0x2B, 0x29]), self.data(), self.target(), d.getrandbits(16))
        if kind == 3:
            return immediate(0x2B, SECOND_BASE, self.data(), 4)
        if kind == 4:
            return immediate(0x23, RAM_BASE, self.target(), d.randrange(60))
        return immediate(0x08, self.data(), self.target(), d.getrandbits(16))

    def word(self):
        d = self.draw
        if d.random() < self.trap_rate:
            return self.trap()
        kind = d.choices(["plain", "long", "load", "store", "out", "nop", "pref"], [10, 3, 6, 5, 0.6, 1, 0.3])[0]
        if kind == "nop":
            return 0
        if kind == "pref":
            return d.choice([immediate(0x33, self.data(), d.randrange(32), d.getrandbits(16)), 0x0F | d.randrange(32) << 6])
        return getattr(self, kind)()

    def slot(self):
        self.text.put(0 if self.draw.random() < 0.3 else self.word())

    def straight(self, most):
        for _ in range(self.draw.randint(1, most)):
            self.text.put(self.word())

    # control

    def condition(self, label):
        """A branch on data, forth to a label, with its slot."""
        d, t = self.draw, self.text
        kind = d.randrange(5)
        if kind == 0:
            t.goes(immediate(d.choice([4, 5]), self.data(), self.data(), 0), label)
        elif kind == 1:
            t.goes(immediate(d.choice([6, 7]), self.data(), 0, 0), label)
        elif kind == 2:
            t.goes(immediate(1, self.data(), d.choice([0, 1]), 0), label)
        else:
            t.put(immediate(0x0C, self.data(), FLAG, 1 << d.randrange(8)))
            t.goes(immediate(d.choice([4, 5]), FLAG, 0, 0), label)
        self.slot()
        t.mark()

    def choice(self, most):
        other, end = self.text.label(), self.text.label()
        self.condition(other)
        self.body(most)
        if self.draw.random() < 0.5:
            self.text.place(other)
            return
        self.jump(end)
        self.text.place(other)
        self.body(most)
        self.text.place(end)

    def jump(self, label):
        word = 0x02 << 26 if self.draw.random() < 0.5 else immediate(4, 0, 0, 0)
        self.text.goes(word, label)
        self.slot()
        self.text.mark()

    def loop(self, most):
        free = COUNTERS[self.function][self.depth:]
        if not free:
            return self.straight(4)
        counter, count = free[0], self.draw.choice([1, 2, 2, 3, 4, 5, 7])
        self.depth += 1
        {0: self.falling, 1: self.rising, 2: self.pointer}[self.draw.randrange(3)](counter, count, most)
        self.depth -= 1

    def region(self, counter, count, fact, most, step, last, opening=(), end=()):
        """A loop: the fact of its counter before the step, what steps it, and the branch back with its test; words at its head, and the fact of what the counter is compared with."""
        t, around = self.text, self.text.active
        out = t.label() if self.draw.random() < 0.3 else None
        t.active = around + [(counter,) + fact] + list(end)
        header, first = t.label(), t.at()
        t.place(header)
        for word in opening:
            t.put(word)
        self.body(most)
        if out is not None:
            self.condition(out)
            self.straight(2)
        t.put(immediate(0x09, counter, counter, step))
        last(header)
        t.active = around
        t.loops.append((first, t.at(), first, count + self.draw.choice([0, 0, 1, 3]), counter))
        self.slot()
        t.mark()
        if out is not None:
            t.place(out)

    def falling(self, counter, count, most):
        self.text.put(immediate(0x09, 0, counter, count))
        branch = self.draw.choice([immediate(5, counter, 0, 0), immediate(7, counter, 0, 0)])
        self.region(counter, count, (1, count, 1), most, -1, lambda header: self.text.goes(branch, header))

    def rising(self, counter, count, most):
        def last(header):
            self.text.put(immediate(self.draw.choice([0x0A, 0x0B]), counter, FLAG, count))
            self.text.goes(immediate(5, FLAG, 0, 0), header)
        self.text.put(immediate(0x09, 0, counter, 0))
        self.region(counter, count, (0, count - 1, 1), most, 1, last)

    def pointer(self, counter, count, most):
        t, end, start = self.text, ENDS[self.function], RAM + 4 * self.draw.randrange(8)
        if any(fact[0] == end for fact in t.active):
            return self.falling(counter, count, most)
        t.put(immediate(0x0F, 0, counter, RAM >> 16))
        t.put(immediate(0x0D, counter, counter, start & 0xFFFF))
        t.put(immediate(0x09, counter, end, 4 * count))
        access = immediate(self.draw.choice([0x23, 0x2B]), counter, self.draw.choice(DATA), 0)

        def last(header):
            t.goes(immediate(5, counter, end, 0), header)
        self.region(counter, count, (start, start + 4 * (count - 1), 4 if count > 1 else 1), most, 4, last, [access], [(end, start + 4 * count, start + 4 * count, 1)])

    def call(self):
        to = {"job": ["middle", "leaf"], "middle": ["leaf"], "leaf": []}[self.function]
        if not to:
            return self.straight(3)
        name = self.draw.choice(to)
        self.called.add(name)
        self.text.goes(0x03 << 26 if self.draw.random() < 0.7 else immediate(1, 0, 0x11, 0), name)
        self.slot()
        self.text.mark()

    def body(self, most):
        for _ in range(self.draw.randint(1, 2)):
            kind = self.draw.choices(["straight", "choice", "loop", "call"], [4, 2 if most > 0 else 0, 1.2 if most > 0 else 0, 1 if self.function != "leaf" else 0])[0]
            if kind == "straight":
                self.straight(5)
            elif kind == "call":
                self.call()
            else:
                getattr(self, kind)(most - 1)

    # functions

    def base(self, register, value):
        self.text.put(immediate(0x0F, 0, register, value >> 16))
        if value & 0xFFFF:
            self.text.put(immediate(0x0D, register, register, value))

    def enter(self, name):
        self.function, self.depth = name, 0
        self.text.place(name)
        self.text.put(immediate(0x09, 29, 29, -16))
        self.text.put(immediate(0x2B, 29, 31, 12))

    def leave(self):
        t = self.text
        t.put(immediate(0x23, 29, 31, 12))
        if self.draw.random() < self.trap_rate:
            t.put(three(0x21, 31, self.draw.choice(DATA), 31))
        if self.draw.random() < 0.5:
            t.put(0x03E00008)
            t.put(immediate(0x09, 29, 29, 16))
        else:
            t.put(immediate(0x09, 29, 29, 16))
            t.put(0x03E00008)
            t.put(0 if self.draw.random() < 0.5 else self.word())
        self.never()

    def never(self):
        """Words that no run reaches, but a wrong guess may."""
        d = self.draw
        if d.random() < 0.4:
            # a branch that goes elsewhere than guessed, with a control instruction or no instruction in its slot
            self.text.put(immediate(d.choice([5, 7]), 29, 0, d.randrange(1, 6)))
            self.text.put(d.choice([0x03E00008, 0xFC000000, 0x02 << 26 | CODE + 8 >> 2, immediate(4, 0, 0, 2), immediate(5, 29, 0, 3), immediate(1, self.data(), 0x11, 2)]))
        for _ in range(d.choice([0, 0, 1, 2, 4])):
            self.text.put(d.choice([
                d.getrandbits(32), 0xFC000000, 0x00400008, 0x03E00008, three(9, self.data(), 0, 31), immediate(4, 0, 0, d.randrange(0xFFF0, 0x10000)), immediate(1, self.data(), 0x10, d.randrange(8)),
                0x02 << 26 | CODE >> 2, immediate(0x2B, PORT_BASE, 2, 0), immediate(0x23, RAM_BASE, 2, 1), self.word(), self.word(), immediate(5, 2, 3, 2)]))

    def job(self):
        self.enter("job")
        self.base(PORT_BASE, mips_step.PORT)
        self.base(RAM_BASE, RAM)
        self.base(SECOND_BASE, CODE)
        for register in self.draw.sample(DATA, 4):
            self.text.put(immediate(0x23, 4, register, 4 * self.draw.randrange(INPUT_LENGTH // 4)))
        for _ in range(self.draw.randint(1, 4)):
            if self.draw.random() < 0.6:
                self.cuts.append(self.text.at())
            self.body(2)
            self.straight(3)
        self.leave()

    def program(self):
        self.called = set()
        self.job()
        for name in ("middle", "leaf"):
            if name in self.called:
                self.enter(name)
                self.body(1)
                self.leave()
        self.text.link()


def shape(draw):
    return draw.choice([None, (draw.choice([1, 2, 4, 8]), draw.choice([1, 1, 2, 4, 8]), draw.choice([8, 16, 32, 64, 64]))])


def shape_fields(it):
    return "none" if it is None else "%d %d %d" % it


class RandomTask:
    """The lines of a task but for its deadline, and its jobs."""

    def __init__(self, draw, most_points):
        self.draw = draw
        writer = Writer(draw)
        writer.program()
        self.text = writer.text
        self.cuts = writer.cuts
        self.big = draw.random() < 0.5
        self.rob = draw.choice([8, 8, 9, 12, 16, 24, 32, 64, 128])
        points = draw.randint(1, most_points)
        self.points = sorted(draw.sample([100, 250, 333, 500, 1000, 1001, 2500, 4000, 10000], points), reverse=True)
        self.before = [
            "visa-task 1", "order " + ("big" if self.big else "little"),
            "core %d %d %d %d" % (draw.choice([1, 2, 4]), self.rob, draw.choice([1, 2, 4, 9]), draw.choice([1, 5, 16, 35])),
            "memory %d %d %d %d" % (draw.choice([1, 1000, 3000, 10000]), draw.choice([1, 1000, 10000, 25000]), draw.choice([0, 777, 50000]), draw.choice([0, 0, 1234])),
            "icache " + shape_fields(shape(draw)), "dcache " + shape_fields(shape(draw))] + ["point %d" % p for p in self.points]
        self.most_out = draw.choice([1, 2, 64, 64])

    def lines(self, deadline):
        words = self.text.words
        lines = self.before + ["time 1000000000000 %d" % deadline]
        lines += ["words %08x " % (CODE + 4 * k) + " ".join("%08x" % w for w in words[k:k + 64]) for k in range(0, len(words), 64)]
        lines += ["entry %08x" % CODE, "stack %08x" % STACK, "ram %08x %d" % (RAM, RAM_LENGTH), "input %08x %d" % (RAM, INPUT_LENGTH), "output %d" % self.most_out, "show %08x 32" % RAM, "show %08x 16" % (STACK - 16)]
        lines += ["cut %08x" % cut for cut in self.cuts]
        lines += ["loop %08x %08x %08x %d %d" % loop for loop in self.text.loops]
        return lines + ["fact %08x %d %d %d %d" % (at, register, low, high, stride) for (at, register), (low, high, stride) in sorted(self.text.facts.items())]

    def job_lines(self, number):
        d = self.draw
        past = ["past %d %d" % (d.randint(1, len(self.cuts) + 1), d.choice([0, 1, 100, 1000, 100000])) for _ in range(d.choice([0, 0, 3, 12]))]
        pool = [bytes(d.choice([0, 0, 1, 255, d.getrandbits(8)]) for _ in range(d.choice([0, 4, 17, INPUT_LENGTH, INPUT_LENGTH]))) for _ in range(3)]
        inputs = [d.choice(pool) if d.random() < 0.6 else d.randbytes(INPUT_LENGTH) for _ in range(number)]
        return ["visa-jobs 1"] + past + ["job " + (data.hex() or "-") for data in inputs]
