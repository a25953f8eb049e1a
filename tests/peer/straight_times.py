"""Times of straight code in simple mode, worked out from docs/machine.md: a table of when each instruction enters each stage, and static costs. Not taken from the program."""

PRODUCTS = {(0x00, 0x18), (0x00, 0x19), (0x1C, 0x00), (0x1C, 0x01), (0x1C, 0x02), (0x1C, 0x04), (0x1C, 0x05)}
QUOTIENTS = {(0x00, 0x1A), (0x00, 0x1B)}
LOADS = range(0x20, 0x27)
STORES = (0x28, 0x29, 0x2A, 0x2B, 0x2E)


def op(word):
    return word >> 26


def rs(word):
    return word >> 21 & 31


def rt(word):
    return word >> 16 & 31


def rd(word):
    return word >> 11 & 31


def is_load(word):
    return op(word) in LOADS


def registers_read(word):
    """The registers that an instruction which isn't a branch, jump or call reads."""
    funct = word & 63
    if op(word) == 0:
        if funct in (0x00, 0x02, 0x03):
            read = {rt(word)}
        elif funct in (0x0A, 0x0B):
            read = {rs(word), rt(word), rd(word)}
        elif funct in (0x08, 0x11, 0x13):
            read = {rs(word)}
        elif funct in (0x0C, 0x0D, 0x0F, 0x10, 0x12):
            read = set()
        else:
            read = {rs(word), rt(word)}
    elif op(word) == 0x1C:
        read = {rs(word)} if funct in (0x20, 0x21) else {rs(word), rt(word)}
    elif op(word) == 0x0F:
        read = set()
    elif op(word) in STORES or op(word) in (0x22, 0x26):
        read = {rs(word), rt(word)}
    else:
        read = {rs(word)}
    return read - {0}


class Machine:
    """Cycles of a multiplication, of a division, of an access beyond its first, of a store beyond its first."""

    def __init__(self, mul, div, mem_ps, store_ps, period_ps):
        self.mul = mul
        self.div = div
        self.access = -(-mem_ps // period_ps)
        self.store = -(-store_ps // period_ps)

    def execute(self, word):
        if (op(word), word & 63) in PRODUCTS:
            return self.mul
        return self.div if (op(word), word & 63) in QUOTIENTS else 1

    def memory(self, word):
        if is_load(word):
            return 1 + self.access
        return 1 + self.store if op(word) in STORES else 1

    def end(self, words, traps):
        """The cycle in which the last word has left the pipeline; `traps`: the last one traps."""
        enters, before = [0] * 8, None
        for number, word in enumerate(words):
            spent = [0, 1 + self.access, 1, 1, self.execute(word), self.memory(word), 1]
            if traps and number == len(words) - 1:
                spent[5] = 1
            waits = before is not None and is_load(before) and rt(before) in registers_read(word)
            now = [0] * 8
            now[1] = enters[2]
            for stage in range(1, 6):
                now[stage + 1] = max(now[stage] + spent[stage], enters[stage + 2])
                if stage == 3 and waits:
                    now[4] = max(now[4], enters[6])
            now[7] = now[6] + 1
            enters, before = now, word
        return enters[7]

    def needed(self, words):
        """The cycles that admission takes for the words: the pipeline, and the static cost of each."""
        return 5 + sum(1 + self.access + self.execute(w) - 1 + (self.access + 1 if is_load(w) else 0) + (self.store if op(w) in STORES else 0) for w in words)
