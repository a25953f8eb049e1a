"""The faults of task and jobs texts once more, read from docs/formats.md; not taken from `task_text`."""
import re

NUMBER = re.compile(r"(0|[1-9][0-9]*)\Z")
SIGNED = re.compile(r"(0|-?[1-9][0-9]*)\Z")
HEX = re.compile(r"[0-9a-f]{8}\Z")
PORT = 0xFFFF0000
END = 1 << 32
# the lines in their order: keyword, whether it is needed, how often it may stand
TABLE = [("visa-task", True, 1), ("order", True, 1), ("core", True, 1), ("memory", True, 1), ("icache", True, 1), ("dcache", True, 1), ("point", True, 8), ("time", True, 1),
         ("image", True, 1), ("entry", True, 1), ("stack", True, 1), ("ram", False, 32), ("input", True, 1), ("output", True, 1), ("show", False, 16), ("cut", False, 31),
         ("loop", False, 256), ("fact", False, 4096)]
PLACES = {keyword: place for place, (keyword, _, _) in enumerate(TABLE)}
PLACES["words"] = PLACES["image"]
MOST = {keyword: most for keyword, _, most in TABLE}
MOST["words"] = 256
# the forms of fixed fields: n number, s number that may have a sign, h eight digits
FORMS = {"visa-task": "n", "core": "nnnn", "memory": "nnnn", "point": "n", "time": "nn", "stack": "h", "ram": "hn", "input": "hn", "output": "n", "show": "hn", "cut": "h", "loop": "hhhnn",
         "fact": "hssss"}
PATTERNS = {"n": NUMBER, "s": SIGNED, "h": HEX}


def lines_of(data):
    """The lines; what no line feed ends is one too."""
    lines = data.split(b"\n")
    return lines[:-1] if lines[-1] == b"" else lines


def is_plain(line):
    return all(0x20 <= byte <= 0x7E for byte in line)


def says_something(line):
    return line != b"" and not line.startswith(b"#")


def is_formed(keyword, fields):
    if keyword == "order":
        return fields in (["big"], ["little"])
    if keyword in ("icache", "dcache"):
        return len(fields) in (1, 3) and (fields[0] == "none" or bool(NUMBER.match(fields[0]))) and all(NUMBER.match(field) for field in fields[1:])
    if keyword == "image":
        return len(fields) == 1 and fields[0] != ""
    if keyword == "words":
        return 2 <= len(fields) <= 65 and all(HEX.match(field) for field in fields)
    if keyword == "entry":
        return len(fields) == 1 and (fields[0] == "-" or bool(HEX.match(fields[0])))
    form = FORMS[keyword]
    return len(fields) == len(form) and all(PATTERNS[kind].match(field) for kind, field in zip(form, fields))


def values_of(keyword, fields):
    form = "h" * len(fields) if keyword == "words" else FORMS[keyword]
    return [int(field, 16 if kind == "h" else 10) for kind, field in zip(form, fields)]


class Reader:
    """What is known behind some lines."""

    def __init__(self):
        self.place = -1
        self.count = 0
        self.last = None
        self.points = []
        self.by_words = False
        self.facts = set()

    def can_stand(self, keyword):
        place = PLACES[keyword]
        if place == self.place:
            return keyword == self.last and self.count < MOST[keyword]
        return place > self.place and not any(needed for _, needed, _ in TABLE[self.place + 1:place])

    def take(self, keyword):
        self.count = self.count + 1 if keyword == self.last else 1
        self.place, self.last = PLACES[keyword], keyword

    def has_value(self, keyword, fields):
        if keyword == "order":
            return True
        if keyword in ("icache", "dcache"):
            return is_cache(fields)
        if keyword == "image":
            return len(fields[0]) <= 255
        if keyword == "entry":
            return fields[0] != "-" or not self.by_words
        return getattr(self, "has_" + keyword.replace("-", "_"))(*([values_of(keyword, fields)] if keyword == "words" else values_of(keyword, fields)))

    def has_visa_task(self, version):
        return version == 1

    def has_core(self, width, rob, mul, div):
        return width in (1, 2, 4) and 8 <= rob <= 128 and 1 <= mul <= 32 and 1 <= div <= 64

    def has_memory(self, mem, store, settle, start):
        return 1 <= mem <= 10 ** 7 and 1 <= store <= 10 ** 7 and settle <= 10 ** 9 and start <= 10 ** 9

    def has_point(self, period):
        good = 100 <= period <= 10 ** 6 and (not self.points or period < self.points[-1])
        self.points.append(period)
        return good

    def has_time(self, period, deadline):
        return 1 <= period <= 10 ** 12 and 1 <= deadline <= period

    def has_words(self, values):
        self.by_words = True
        return values[0] % 4 == 0 and values[0] + 4 * (len(values) - 1) <= PORT

    def has_stack(self, at):
        return True

    def has_ram(self, at, length):
        return 1 <= length <= END - 1 and at + length <= END

    def has_input(self, at, length):
        return length <= 65536 and at + length <= END

    def has_output(self, most):
        return 1 <= most <= 65536

    def has_show(self, at, length):
        return 1 <= length <= 256 and at + length <= END

    def has_cut(self, at):
        return True

    def has_loop(self, first, last, header, count, register):
        return 1 <= count <= END - 1 and 1 <= register <= 31

    def has_fact(self, at, register, low, high, stride):
        new = (at, register) not in self.facts
        self.facts.add((at, register))
        inside = 1 <= register <= 31 and -(1 << 31) <= low <= high < 1 << 31 and 1 <= stride <= END - 1
        return new and inside and (high - low) % stride == 0 and (low != high or stride == 1)


def is_cache(fields):
    if len(fields) == 1:
        return fields == ["none"]
    if fields[0] == "none":
        return False
    sets, ways, line = (int(field) for field in fields)
    return sets in [1 << k for k in range(11)] and 1 <= ways <= 8 and line in (8, 16, 32, 64)


def task_fault(data):
    """The line and kind of the fault of a task text, or None."""
    reader, lines = Reader(), lines_of(data)
    for number, line in enumerate(lines, 1):
        if not is_plain(line):
            return number, "bytes"
        if not says_something(line):
            continue
        keyword, *fields = line.decode().split(" ")
        if keyword not in PLACES or not reader.can_stand(keyword):
            return number, "word"
        reader.take(keyword)
        if not is_formed(keyword, fields):
            return number, "field"
        if not reader.has_value(keyword, fields):
            return number, "value"
    return None if reader.place >= PLACES["output"] else (len(lines) + 1, "end")


def is_job(fields, buffer):
    return len(fields) == 1 and (fields[0] == "-" or (re.match(r"([0-9a-f]{2})+\Z", fields[0]) is not None and len(fields[0]) <= 2 * buffer))


def is_past(fields, subs):
    return len(fields) == 2 and all(NUMBER.match(field) for field in fields) and 1 <= int(fields[0]) <= subs and int(fields[1]) <= 10 ** 18


def jobs_fault(data, buffer, subs):
    """The line of the fault of a jobs text, or None; for an input buffer of so many bytes, and a task of so many sub-tasks."""
    seen, pasts, jobs, lines = False, 0, 0, lines_of(data)
    for number, line in enumerate(lines, 1):
        if not is_plain(line):
            return number
        if not says_something(line):
            continue
        keyword, *fields = line.decode().split(" ")
        if not seen:
            seen = good = line == b"visa-jobs 1"
        elif keyword == "past":
            pasts += 1
            good = jobs == 0 and pasts <= 1024 and is_past(fields, subs)
        else:
            jobs += 1
            good = keyword == "job" and jobs <= 10000 and is_job(fields, buffer)
        if not good:
            return number
    return None if seen else len(lines) + 1
