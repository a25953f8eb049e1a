"""The rules on ELF files once more, read from the System V ABI and from what the program says of its refusals; not taken from `mips_elf`. Gives the lines that elf_dump prints."""
import struct

MOST_MEMORY = 4194304
MOST_SYMBOLS = 65536
MOST_NAME = 1024
PORT = 0xFFFF0000


class Refused(Exception):
    pass


def holds(data, at, size):
    """Whether so many bytes stand in the file; no bytes stand anywhere."""
    return size == 0 or at + size <= len(data)


def truncated(data):
    return Refused("Truncated { offset: %d }" % len(data))


def check_header(data):
    """The mark of the byte order."""
    if data[:4] != b"\x7fELF":
        raise Refused("NotElf")
    if len(data) < 52:
        raise truncated(data)
    if data[4] != 1 or data[5] not in (1, 2):
        raise Refused("WrongClass")
    mark = "<" if data[5] == 1 else ">"
    kind, machine = struct.unpack_from(mark + "HH", data, 16)
    if machine != 8:
        raise Refused("WrongMachine")
    if kind != 2:
        raise Refused("WrongType")
    flags, = struct.unpack_from(mark + "I", data, 36)
    if flags >> 28 not in (0, 1, 5, 7):
        raise Refused("WrongArch")
    return mark


def program_headers(data, mark):
    table, = struct.unpack_from(mark + "I", data, 28)
    size, count = struct.unpack_from(mark + "HH", data, 42)
    if count and size != 32:
        raise Refused("EntrySize")
    if count > 64:
        raise Refused("TooMany")
    if not holds(data, table, 32 * count):
        raise truncated(data)
    return [struct.unpack_from(mark + "8I", data, table + 32 * k) for k in range(count)]


def check_loads(data, headers):
    if any(header[0] in (2, 3) for header in headers):
        raise Refused("Dynamic")
    for number, (kind, offset, _, _, in_file, size, _, _) in enumerate(headers):
        if kind == 1 and not holds(data, offset, in_file):
            raise truncated(data)
        if kind == 1 and in_file > size:
            raise Refused("SegmentSize { segment: %d }" % number)


def check_memory(loads):
    ranges = sorted((at, at + size) for _, _, at, _, _, size, _, _ in loads if size)
    refused = [max(start, PORT) for start, end in ranges if end > PORT]
    refused += [later for k, (_, end) in enumerate(ranges) for later, _ in ranges[k + 1:] if later < end]
    if refused:
        raise Refused("Overlap { at: %d }" % min(refused))
    if sum(end - start for start, end in ranges) > MOST_MEMORY:
        raise Refused("TooBig")


def checksum(data):
    total = 0
    for byte in data:
        total = (total * 31 + byte) & 0xFFFFFFFF
    return total


def span_lines(data, loads):
    lines, loaded = [], b""
    for _, offset, at, _, in_file, size, flags, _ in loads:
        if size:
            lines.append("span %08x %d %s" % (at, size, ("R" if flags & 4 else "") + ("W" if flags & 2 else "") + ("E" if flags & 1 else "")))
            loaded += data[offset:offset + in_file] + bytes(size - in_file)
    return lines + ["bytes %d %08x" % (len(loaded), checksum(loaded))]


def sections(data, mark):
    """Type, offset, size, link and entry size of each section."""
    table, = struct.unpack_from(mark + "I", data, 32)
    size, count = struct.unpack_from(mark + "HH", data, 46)
    if size != 40 or not holds(data, table, 40 * count):
        return []
    found = [struct.unpack_from(mark + "10I", data, table + 40 * k) for k in range(count)]
    return [(s[1], s[4], s[5], s[6], s[9]) for s in found]


def symbol_lines(data, mark):
    found = sections(data, mark)
    for kind, offset, size, link, entry in found:
        if kind != 2 or entry != 16 or not holds(data, offset, size) or link >= len(found):
            continue
        _, names_at, names_size, _, _ = found[link]
        if holds(data, names_at, names_size):
            names = data[names_at:names_at + names_size] if names_size else b""
            return lines_of(names, [struct.unpack_from(mark + "II", data, offset + 16 * k) for k in range(min(size // 16, MOST_SYMBOLS))])
    return []


def lines_of(names, symbols):
    values = {}
    for at, value in symbols:
        end = names.find(b"\0", at) if at < len(names) else -1
        if end > at and end - at <= MOST_NAME:
            values.setdefault(names[at:end], value)
    return ["sym %08x %s" % (value, name.hex()) for name, value in values.items()]


def read(data):
    """The lines of an image, or the one of its refusal."""
    try:
        mark = check_header(data)
        headers = program_headers(data, mark)
        check_loads(data, headers)
        loads = [header for header in headers if header[0] == 1]
        check_memory(loads)
    except Refused as refusal:
        return ["refused %s" % refusal]
    entry, = struct.unpack_from(mark + "I", data, 24)
    return ["order " + ("big" if mark == ">" else "little"), "entry %08x" % entry] + span_lines(data, loads) + symbol_lines(data, mark)
