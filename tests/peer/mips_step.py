"""A second reading of docs/machine.md: what a word says, and one step of the reference machine. Plain and slow, not taken from the program."""

MASK = 0xFFFFFFFF
EXIT = 0xFFFFFFF0
PORT = 0xFFFF0000
# the name of the pair HI and LO
PAIR = 32

LOADS = {0x20: "lb", 0x21: "lh", 0x22: "lwl", 0x23: "lw", 0x24: "lbu", 0x25: "lhu", 0x26: "lwr"}
STORES = {0x28: "sb", 0x29: "sh", 0x2A: "swl", 0x2B: "sw", 0x2E: "swr"}
IMMEDIATES = {0x08: "addi", 0x09: "addiu", 0x0A: "slti", 0x0B: "sltiu", 0x0C: "andi", 0x0D: "ori", 0x0E: "xori"}
THREE = {0x04: "sllv", 0x06: "srlv", 0x07: "srav", 0x0A: "movz", 0x0B: "movn", 0x20: "add", 0x21: "addu", 0x22: "sub", 0x23: "subu",
         0x24: "and", 0x25: "or", 0x26: "xor", 0x27: "nor", 0x2A: "slt", 0x2B: "sltu"}
SHIFTS = {0x00: "sll", 0x02: "srl", 0x03: "sra"}
PAIRED = {0x18: "mult", 0x19: "multu", 0x1A: "div", 0x1B: "divu"}
PAIRED_MORE = {0x00: "madd", 0x01: "maddu", 0x04: "msub", 0x05: "msubu"}
TRAP_IFS = {0x30: "tge", 0x31: "tgeu", 0x32: "tlt", 0x33: "tltu", 0x34: "teq", 0x36: "tne"}
BRANCHES_ONE = {0x00: "bltz", 0x01: "bgez", 0x10: "bltzal", 0x11: "bgezal"}
ALIGNED = {"lh": 2, "lhu": 2, "sh": 2, "lw": 4, "sw": 4}
MULTIPLIES = {"mul", "mult", "multu", "madd", "maddu", "msub", "msubu"}


def signed(word):
    return word - (1 << 32) if word >> 31 else word


def signed_half(half):
    return half - (1 << 16) if half >> 15 else half


class Instruction:
    """What a word says: its mnemonic, its fields, its kind, the names that it reads and the one that it writes."""

    def __init__(self, word, name, unused):
        self.word = word
        self.name = name
        self.rs, self.rt, self.rd = word >> 21 & 31, word >> 16 & 31, word >> 11 & 31
        self.sa = word >> 6 & 31
        self.imm = word & 0xFFFF
        self.target = word & 0x3FFFFFF
        self.fits = word & unused == 0
        self.reads, self.writes, self.kind = (), None, "plain"

    def says(self, reads=(), writes=None, kind="plain"):
        self.reads = tuple(name for name in dict.fromkeys(reads) if name != 0)
        self.writes = None if writes == 0 else writes
        self.kind = kind
        return self if self.fits else None

    def is_control(self):
        return self.kind in ("branch", "jump", "call", "return", "indirect")


# the fields as bits of the word
RS, RT, RD, SA, CODE = 31 << 21, 31 << 16, 31 << 11, 31 << 6, 0x3FF << 6


def decode_special(word):
    funct = word & 63
    if funct in THREE:
        i = Instruction(word, THREE[funct], SA)
        return i.says([i.rs, i.rt] + ([i.rd] if i.name in ("movz", "movn") else []), i.rd)
    if funct in SHIFTS:
        i = Instruction(word, SHIFTS[funct], RS)
        return i.says([i.rt], i.rd)
    if funct in PAIRED:
        i = Instruction(word, PAIRED[funct], RD | SA)
        divides = i.name in ("div", "divu")
        return i.says([i.rs, i.rt] + ([PAIR] if divides else []), PAIR, "div" if divides else "mul")
    if funct in (0x10, 0x12):
        i = Instruction(word, "mfhi" if funct == 0x10 else "mflo", RS | RT | SA)
        return i.says([PAIR], i.rd)
    if funct in (0x11, 0x13):
        i = Instruction(word, "mthi" if funct == 0x11 else "mtlo", RT | RD | SA)
        return i.says([i.rs, PAIR], PAIR)
    if funct == 0x08:
        i = Instruction(word, "jr", RT | RD | SA)
        return i.says([i.rs], None, "return" if i.rs == 31 else "indirect")
    if funct == 0x09:
        i = Instruction(word, "jalr", RT | SA)
        return i.says([i.rs], i.rd, "call")
    if funct in TRAP_IFS:
        i = Instruction(word, TRAP_IFS[funct], 0)
        return i.says([i.rs, i.rt])
    if funct in (0x0C, 0x0D):
        return Instruction(word, "syscall" if funct == 0x0C else "break", 0).says([], None, "stop")
    if funct == 0x0F:
        return Instruction(word, "sync", RS | RT | RD).says()
    return None


def decode_special_two(word):
    funct = word & 63
    if funct == 0x02:
        i = Instruction(word, "mul", SA)
        return i.says([i.rs, i.rt], i.rd, "mul")
    if funct in PAIRED_MORE:
        i = Instruction(word, PAIRED_MORE[funct], RD | SA)
        return i.says([i.rs, i.rt, PAIR], PAIR, "mul")
    if funct in (0x20, 0x21):
        i = Instruction(word, "clz" if funct == 0x20 else "clo", SA)
        i.fits = i.fits and i.rt == i.rd
        return i.says([i.rs], i.rd)
    return None


def decode(word):
    """The instruction of a word, or None."""
    op = word >> 26
    if op == 0x00:
        return decode_special(word)
    if op == 0x1C:
        return decode_special_two(word)
    if op == 0x01 and word >> 16 & 31 in BRANCHES_ONE:
        i = Instruction(word, BRANCHES_ONE[word >> 16 & 31], 0)
        links = i.name in ("bltzal", "bgezal")
        return i.says([i.rs], 31 if links else None, "call" if i.name == "bgezal" and i.rs == 0 else "branch")
    if op in (0x02, 0x03):
        return Instruction(word, "j" if op == 2 else "jal", 0).says([], None if op == 2 else 31, "jump" if op == 2 else "call")
    if op in (0x04, 0x05):
        i = Instruction(word, "beq" if op == 4 else "bne", 0)
        return i.says([i.rs, i.rt], None, "branch")
    if op in (0x06, 0x07):
        i = Instruction(word, "blez" if op == 6 else "bgtz", RT)
        return i.says([i.rs], None, "branch")
    if op in IMMEDIATES:
        i = Instruction(word, IMMEDIATES[op], 0)
        return i.says([i.rs], i.rt)
    if op == 0x0F:
        i = Instruction(word, "lui", RS)
        return i.says([], i.rt)
    if op in LOADS:
        i = Instruction(word, LOADS[op], 0)
        return i.says([i.rs, i.rt] if i.name in ("lwl", "lwr") else [i.rs], i.rt, "load")
    if op in STORES:
        i = Instruction(word, STORES[op], 0)
        return i.says([i.rs, i.rt], None, "store")
    if op == 0x33:
        i = Instruction(word, "pref", 0)
        return i.says([i.rs])
    return None


def branch_target(i, pc):
    return pc + 4 + 4 * signed_half(i.imm) & MASK


def jump_target(i, pc):
    return (pc + 4 & 0xF0000000) | i.target << 2


def only_way(i):
    """True for a branch that is always taken by what it compares, False for one that never is, else None."""
    if i.name in ("beq", "bne") and i.rs == i.rt:
        return i.name == "beq"
    if i.rs == 0 and i.name in ("bgez", "blez"):
        return True
    if i.rs == 0 and i.name in ("bltz", "bgtz"):
        return False
    return None


def predicted(i):
    """The static prediction of a branch: back is taken, forth isn't, and the only way where there is one."""
    way = only_way(i)
    return signed_half(i.imm) < 0 if way is None else way


def is_taken(i, a, b):
    return {"beq": a == b, "bne": a != b, "blez": signed(a) <= 0, "bgtz": signed(a) > 0, "bltz": signed(a) < 0, "bltzal": signed(a) < 0,
            "bgez": signed(a) >= 0, "bgezal": signed(a) >= 0}[i.name]


def sum_that_fits(number):
    return number & MASK if -(1 << 31) <= number < 1 << 31 else None


def three(name, a, b, old):
    """The value of an instruction of three registers, from those of rs, rt and rd; None where it overflows."""
    if name in ("add", "sub"):
        return sum_that_fits(signed(a) + (signed(b) if name == "add" else -signed(b)))
    return {
        "sllv": lambda: b << (a & 31), "srlv": lambda: b >> (a & 31), "srav": lambda: signed(b) >> (a & 31), "movz": lambda: a if b == 0 else old, "movn": lambda: a if b != 0 else old,
        "addu": lambda: a + b, "subu": lambda: a - b, "and": lambda: a & b, "or": lambda: a | b, "xor": lambda: a ^ b, "nor": lambda: ~(a | b),
        "slt": lambda: int(signed(a) < signed(b)), "sltu": lambda: int(a < b), "mul": lambda: a * b}[name]() & MASK


def immediate(name, a, imm):
    far = signed_half(imm)
    if name == "addi":
        return sum_that_fits(signed(a) + far)
    return {"addiu": lambda: a + far, "slti": lambda: int(signed(a) < far), "sltiu": lambda: int(a < far & MASK), "andi": lambda: a & imm, "ori": lambda: a | imm, "xori": lambda: a ^ imm}[name]() & MASK


def towards_zero(a, b):
    quotient = abs(a) // abs(b)
    return -quotient if (a < 0) != (b < 0) else quotient


def pair_after(name, a, b, pair):
    """HI and LO as one number, after an instruction that writes them."""
    if name == "mthi":
        return a << 32 | pair & MASK
    if name == "mtlo":
        return pair >> 32 << 32 | a
    if name in ("div", "divu"):
        if b == 0:
            return pair
        x, y = (signed(a), signed(b)) if name == "div" else (a, b)
        quotient = towards_zero(x, y)
        return (x - quotient * y & MASK) << 32 | quotient & MASK
    product = a * b if name.endswith("u") else signed(a) * signed(b)
    if name.startswith("madd"):
        product = pair + product
    elif name.startswith("msub"):
        product = pair - product
    return product & (1 << 64) - 1


def leading(word, bit):
    count = 0
    while count < 32 and word >> 31 - count & 1 == bit:
        count += 1
    return count


def holds(name, a, b):
    return {"tge": signed(a) >= signed(b), "tgeu": a >= b, "tlt": signed(a) < signed(b), "tltu": a < b, "teq": a == b, "tne": a != b}[name]


class Part:
    """What an instruction comes to: a trap, or a value for what it writes, an address with bytes, and where it goes."""

    def __init__(self, trap=None, value=None, at=None, stored=(), goes=None, taken=False):
        self.trap, self.value, self.at, self.stored, self.goes, self.taken = trap, value, at, stored, goes, taken


def moved(name, at, big):
    """The addresses that a load or store moves, in the order of the bytes of the register from the most significant one on, and the first of those bytes (0 is the most significant)."""
    start = at & ~3
    if name in ("lb", "lbu", "sb"):
        return [at], 3
    if name in ("lh", "lhu", "sh"):
        return ([at, at + 1] if big else [at + 1, at]), 2
    if name in ("lw", "sw"):
        return [at + k for k in (range(4) if big else (3, 2, 1, 0))], 0
    if name in ("lwl", "swl"):
        return (list(range(at, start + 4)) if big else list(range(at, start - 1, -1))), 0
    addresses = list(range(start, at + 1)) if big else list(range(start + 3, at - 1, -1))
    return addresses, 4 - len(addresses)


class Memory:
    """Declared ranges, each with its bytes and rights."""

    def __init__(self, ranges, big):
        self.ranges = [(at, bytearray(data), rights) for at, data, rights in ranges if len(data)]
        self.big = big
        self.last = None

    def place(self, at):
        held = self.last
        if held is not None and held[0] <= at < held[0] + len(held[1]):
            return held
        for held in self.ranges:
            if held[0] <= at < held[0] + len(held[1]):
                self.last = held
                return held
        return None

    def byte(self, at):
        if PORT <= at < PORT + 4:
            return 0
        held = self.place(at)
        return held[1][at - held[0]] if held else 0

    def put(self, at, value):
        held = self.place(at)
        held[1][at - held[0]] = value

    def put_all(self, at, data):
        for k, value in enumerate(data):
            self.put(at + k, value)

    def code(self, at):
        """The word at an address of code, or None."""
        if at % 4:
            return None
        held = self.place(at)
        if held is None or "x" not in held[2] or at + 4 > held[0] + len(held[1]):
            return None
        return int.from_bytes(held[1][at - held[0]:at - held[0] + 4], "big" if self.big else "little")

    def is_code(self, at):
        return self.code(at) is not None

    def can_load(self, at):
        held = self.place(at)
        return PORT <= at < PORT + 4 or held is not None and "r" in held[2]

    def can_store(self, at):
        held = self.place(at)
        return held is not None and "w" in held[2] and "x" not in held[2]

    def refuses(self, i, at):
        """The trap of a load or store at an address, a full output left aside."""
        trap = "address-load" if i.kind == "load" else "address-store"
        if at % ALIGNED.get(i.name, 1):
            return trap
        if i.kind == "store" and i.name == "sw" and at == PORT:
            return None
        right = self.can_load if i.kind == "load" else self.can_store
        return None if all(right(x) for x in moved(i.name, at, self.big)[0]) else trap


def loaded(i, at, old, byte, big):
    """The register after a load, with a function that gives bytes."""
    addresses, first = moved(i.name, at, big)
    if i.name in ("lwl", "lwr"):
        value = [old >> 24 - 8 * k & 255 for k in range(4)]
        for k, x in enumerate(addresses):
            value[first + k] = byte(x)
        return int.from_bytes(bytes(value), "big")
    number = int.from_bytes(bytes(byte(x) for x in addresses), "big", signed=i.name in ("lb", "lh"))
    return number & MASK


def stored(i, at, value, big):
    """The addresses with the bytes that a store puts there."""
    addresses, first = moved(i.name, at, big)
    return [(x, value >> 24 - 8 * (first + k) & 255) for k, x in enumerate(addresses)]


def control(i, pc, npc, a, b):
    """Where a control instruction goes after its slot."""
    if i.kind in ("branch", "call") and i.name not in ("jal", "jalr"):
        taken = is_taken(i, a, b)
        goes = branch_target(i, pc) if taken else npc + 4 & MASK
    else:
        taken = True
        goes = a if i.name in ("jr", "jalr") else jump_target(i, pc)
    return Part(value=pc + 8 & MASK if i.writes is not None else None, goes=goes, taken=taken)


def act(i, pc, npc, values, memory, byte):
    """What an instruction comes to, with a function that gives the value of a name and one that gives bytes. Not the traps that hang on the return stack or the output."""
    a, b = values(i.rs), values(i.rt)
    if i.is_control():
        return control(i, pc, npc, a, b)
    after = npc + 4 & MASK
    if i.kind == "stop":
        return Part(trap=i.name)
    if i.name in TRAP_IFS.values():
        return Part(trap="trap-instr") if holds(i.name, a, b) else Part(goes=after)
    if i.kind in ("load", "store"):
        at = a + signed_half(i.imm) & MASK
        trap = memory.refuses(i, at)
        if trap:
            return Part(trap=trap, at=at)
        if i.kind == "load":
            return Part(value=loaded(i, at, b, byte, memory.big), at=at, goes=after)
        return Part(at=at, stored=stored(i, at, b, memory.big), goes=after)
    value = value_of(i, a, b, values)
    return Part(trap="overflow") if value is None and i.name in ("add", "sub", "addi") else Part(value=value, goes=after)


def value_of(i, a, b, values):
    if i.name in THREE.values() or i.name == "mul":
        return three(i.name, a, b, values(i.rd))
    if i.name in IMMEDIATES.values():
        return immediate(i.name, a, i.imm)
    if i.name in SHIFTS.values():
        return {"sll": b << i.sa, "srl": b >> i.sa, "sra": signed(b) >> i.sa}[i.name] & MASK
    if i.name == "lui":
        return i.imm << 16
    if i.name in ("clz", "clo"):
        return leading(a, 0 if i.name == "clz" else 1)
    if i.name in ("mfhi", "mflo"):
        return values(PAIR) >> 32 if i.name == "mfhi" else values(PAIR) & MASK
    if i.writes == PAIR:
        return pair_after(i.name, a, b, values(PAIR))
    return None


class State:
    """The reference machine in the middle of a job."""

    def __init__(self, memory, entry, stack, input_at, input_length, data, most_out):
        self.memory = memory
        self.names = [0] * 33
        self.names[4], self.names[5], self.names[29], self.names[31] = input_at, len(data), stack, EXIT
        self.pc, self.npc = entry, entry + 4 & MASK
        self.calls = [EXIT]
        self.output = []
        self.most_out = most_out
        memory.put_all(input_at, data + bytes(input_length - len(data)))
        self.decoded = {}

    def value(self, name):
        return self.names[name]

    def instruction_at(self, pc):
        """The instruction at an address of code, or None."""
        if pc not in self.decoded:
            self.decoded[pc] = decode(self.memory.code(pc))
        return self.decoded[pc]

    def at_exit(self):
        return self.pc == EXIT and not self.calls

    def call_trap(self, i, part):
        """What pushes and pops; the trap of a full or another return stack."""
        if i.name in ("jal", "jalr") or i.name in ("bltzal", "bgezal") and part.taken:
            if len(self.calls) == 64:
                return "return-full"
            self.calls.append(self.pc + 8 & MASK)
        elif i.kind == "return":
            if not self.calls or self.calls[-1] != self.names[31]:
                return "return-mismatch"
            self.calls.pop()
        return None

    def step(self):
        """`exit`, (`trap`, kind, pc) or (`went`, instruction, part)."""
        if self.at_exit():
            return ("exit",)
        if not self.memory.is_code(self.pc):
            return ("trap", "fetch-fault", self.pc)
        i = self.instruction_at(self.pc)
        if i is None:
            return ("trap", "reserved", self.pc)
        part = act(i, self.pc, self.npc, self.value, self.memory, self.memory.byte)
        trap = part.trap
        if trap is None and part.at == PORT and i.kind == "store" and len(self.output) == self.most_out:
            trap = "output-full"
        if trap is None:
            trap = self.call_trap(i, part)
        if trap is not None:
            return ("trap", trap, self.pc)
        self.change(i, part)
        return ("went", i, part)

    def change(self, i, part):
        if i.kind == "store":
            if part.at == PORT:
                self.output.append(self.names[i.rt])
            else:
                for x, value in part.stored:
                    self.memory.put(x, value)
        elif i.writes is not None:
            self.names[i.writes] = part.value
        self.pc, self.npc = self.npc, part.goes
