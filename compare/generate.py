#!/usr/bin/env python3
"""Writes inputs for the comparison. The same arguments write the same inputs.

    generate.py [--narrow] walks SEED N   N inputs of rangewalk in hexadecimal digits, one to a line
    generate.py [--narrow] reads SEED N   N lines for the driver `reads`

--narrow leaves out the readers whose offsets have 64 bits, for drivers that are 32-bit programs. The inputs that are not
drawn come first, shuffled; if they are more than half of N, a part of them is drawn. The others are drawn by SEED.
"""
import itertools
import random
import sys

MAX_INPUT = 65536
MAX_RECORDS = 256
TOP = 1 << 64
SIZES = (1, 2, 4, 8)
ORDERS = ("little", "big")


class Draw:
    """Random draws; quicker than the ready-made ones, which matters for a million inputs."""

    def __init__(self, seed):
        source = random.Random(seed)
        self.unit, self.bits, self.shuffle, self.sample = source.random, source.getrandbits, source.shuffle, source.sample

    def below(self, count):
        return int(self.unit() * count)

    def one(self, choices):
        return choices[int(self.unit() * len(choices))]

    def chance(self, part):
        return self.unit() < part

    def bytes(self, count):
        return self.bits(8 * count).to_bytes(count, "little") if count else b""


def number(value, size, order):
    return (value % (1 << 8 * size)).to_bytes(size, ORDERS[order])


# Inputs of rangewalk

def whole_input(kind, order, records, section, commands):
    parts = [bytes((kind, order)), number(len(records), 2, 0)]
    for offset, what, amount in records:
        parts.append(number(offset, 8, 0) + bytes((what,)) + number(amount, 8, 0))
    parts += [number(len(section), 4, 0), section, commands]
    return b"".join(parts)


def lookup(address):
    return b"L" + number(address, 8, 0)


def lookups(*addresses):
    return b"".join(map(lookup, addresses))


def header_size(word):
    return 12 if word == 4 else 24


def padding(word, size):
    return -header_size(word) % (2 * size)


def length_field(word, order, length):
    return number(length, 4, order) if word == 4 else b"\xff" * 4 + number(length, 8, order)


def one_set(word, order, size, tail, version=2, info=16, segment=0, fill=0xaa, length=None):
    """A set with the padding that its sizes ask for, if they are any that a reader takes."""
    body = number(version, 2, order) + number(info, word, order) + bytes((size, segment))
    if size in SIZES:
        body += bytes((fill,)) * padding(word, size)
    body += tail
    return length_field(word, order, len(body) if length is None else length) + body


def pair(begin, length, size, order):
    return number(begin, size, order) + number(length, size, order)


def fixed_walks():
    every = list(itertools.product(range(4), range(2)))
    calls = b"NREHENRNHENN" + lookups(0, 1, 0xff) + b"H"

    # every section of at most one byte, and longer ones that end within an initial length
    for kind, order in every:
        for byte in range(256):
            yield whole_input(kind, order, [], bytes((byte,)), calls)
        for count in (0, 2, 3):
            for section in itertools.product((0x00, 0x02, 0xff), repeat=count):
                yield whole_input(kind, order, [], bytes(section), calls)

    # initial lengths
    for kind, order in itertools.product(range(2), range(2)):
        for section in itertools.product((0x00, 0x01, 0xef, 0xf0, 0xfe, 0xff), repeat=4):
            yield whole_input(kind, order, [], bytes(section), b"HHEL" + bytes(8))
    for kind, order in every:
        for length in (0, 1, 11, 12, 13, (1 << 31) - 1, 1 << 31, (1 << 32) - 1, 1 << 32, (1 << 32) + 12, (1 << 63) - 1,
                       1 << 63, TOP - 13, TOP - 12, TOP - 1):
            for behind in (0, 12, 30):
                yield whole_input(kind, order, [], length_field(8, order, length) + bytes(behind), b"HHEN" + lookup(0))
        for length in (0, 1, 7, 8, 9, 0x7fffffff, 0x80000000, *range(0xffffffec, 1 << 32)):
            for behind in (0, 7, 8, 30):
                yield whole_input(kind, order, [], length_field(4, order, length) + bytes(behind), b"HHEN" + lookup(0))

    # every prefix of a set, with the length that it had and with its own
    for word, order, size in itertools.product((4, 8), range(2), SIZES):
        tail = pair(3, 2, size, order) + bytes(2 * size) + b"\1" * (2 * size - 1)
        section = one_set(word, order, size, tail)
        first = 4 if word == 4 else 12
        for cut, kind in itertools.product(range(len(section) + 1), range(4)):
            calls = b"HENRN" + lookup(4) + b"HE"
            yield whole_input(kind, order, [], section[:cut], calls)
            if cut >= first:
                yield whole_input(kind, order, [], length_field(word, order, cut - first) + section[first:cut], calls)

    # every address size and segment size, and many versions
    for value, order, word in itertools.product(range(256), range(2), (4, 8)):
        kind = (value + order) % 4
        yield whole_input(kind, order, [], one_set(word, order, value, bytes(16)), b"HEN")
        yield whole_input(kind, order, [], one_set(word, order, 4, bytes(16), segment=value), b"HEN")
        yield whole_input(kind, order, [], one_set(word, order, 4, bytes(8), version=value), b"HEN")
        yield whole_input(kind, order, [], one_set(word, order, 4, bytes(8), version=value << 8), b"HEN")

    # tuples at the edges of each size
    for size, word, order in itertools.product(SIZES, (4, 8), range(2)):
        top = 1 << 8 * size
        edges = (0, 1, 2, top // 2, top - 4, top - 3, top - 2, top - 1)
        for begin, length in itertools.product(edges, repeat=2):
            tail = pair(begin, length, size, order) + pair(5, 1, size, order)
            yield whole_input((begin + length // 2) % 4, order, [], one_set(word, order, size, tail),
                              b"HENNNERRR" + lookups(begin, begin + length, begin + length - 1, 5))

    # a record at each place of a set
    for word, size, kind, order in itertools.product((4, 8), SIZES, (2, 3), range(2)):
        section = one_set(word, order, size, pair(9, 2, size, order) + bytes(2 * size))
        for place, what in itertools.product(range(len(section) + 1), (0, 1, 2, 255)):
            amount = (0x1fffffff0, 0xf7, TOP - 9)[place % 3]
            yield whole_input(kind, order, [(place, what, amount)], section, b"HENNERR" + lookups(9, 0x1fffffff0, 0xf7))

    # two records with one offset
    for kind, kinds in itertools.product((2, 3), itertools.product((0, 1, 2), repeat=2)):
        section = one_set(4, 0, 4, pair(9, 2, 4, 0))
        yield whole_input(kind, 0, [(16, kinds[0], 5), (16, kinds[1], 7)], section, b"HENRN" + lookup(14))

    # rows of tuples: null, plain, tombstone, overflow, end at the top
    sorts = (b"\0\0", b"\5\2", b"\xfe\1", b"\xfd\3", b"\xfd\2")
    for count in range(1, 5):
        for row in itertools.product(sorts, repeat=count):
            section = one_set(4, 0, 1, b"".join(row)) + one_set(8, 0, 1, b"\5\1\x50\2", info=9)
            calls = b"HENNNNNERRRRRHEN" + lookups(6, 0x51, 0x60, 0xfe)
            yield whole_input(sum(map(sum, row)) % 4, 0, [], section, calls)

    # a refusal, or an offset that does not fit, at each field of a set of three tuples
    section = one_set(4, 0, 1, b"\5\2\7\1\x20\2") + one_set(4, 0, 1, b"\x20\2", info=9)
    for kind, place, what in itertools.product((2, 3), (6, *range(12, 18), 24, 30, 31), (0, 7)):
        for calls in itertools.product(b"NR", repeat=4):
            yield whole_input(kind, 0, [(place, what, 1 << 32)], section,
                              b"HE" + bytes(calls) + b"ENHEN" + lookups(6, 7, 0x21, 0x22))

    # every list of at most six calls on two sets, without and with a fault behind them
    section = one_set(4, 0, 1, b"\5\2\xfd\3\7\1") + one_set(8, 0, 2, b"\x20\0\2\0", info=9)
    for count in range(1, 7):
        for index, calls in enumerate(itertools.product(b"HENR", repeat=count)):
            more = b"\1" if index // 4 % 2 else b""
            yield whole_input(index % 4, 0, [], section + more, bytes(calls) + lookup(0x20) + b"HEN")

    # malformed ones
    for kind in range(4):
        section = one_set(4, 0, 4, pair(9, 2, 4, 0))
        whole = whole_input(kind, 0, [(16, 0, 1)], section, b"HEN" + lookup(10) + b"N")
        for cut in range(len(whole) + 1):
            yield whole[:cut]
    for letter in range(256):
        yield whole_input(letter % 4, 0, [], b"", b"H" + bytes((letter,)) + b"H" + b"E" * 8)
    for kind, order in itertools.product(range(6), range(4)):
        yield whole_input(kind, order, [], b"", b"H")
    for kind, count in itertools.product(range(4), (255, 256, 257)):
        yield whole_input(kind, 0, [(4, 9, 9)] * count, b"", b"H")


class Section:
    """A section that is being drawn, and what there is to aim at in it."""

    def __init__(self):
        self.data = bytearray()
        self.heads = []       # (place, size) of lengths, versions, address sizes and segment sizes
        self.fields = []      # (place, value, address size) of what is relocated
        self.addresses = []   # near the ends of ranges
        self.rows = []        # how many tuples each set has
        self.starts = []      # where the tuples of each set begin


def draw_pair(draw, size):
    top = 1 << 8 * size
    sort = draw.unit()
    if sort < 0.50:           # plain
        begin = draw.bits(8 * size) if draw.chance(0.3) else draw.below(min(top, 0x10000))
        return begin, draw.below(min(top - begin, 0x100))
    if sort < 0.62:           # null
        return 0, 0
    if sort < 0.74:           # about the tombstones
        return top - 1 - draw.below(5), draw.one((0, 1, 2, 3, top - 1))
    if sort < 0.86:           # ends about 2^(8 size)
        length = draw.below(min(top, 0x1000))
        return (top - length + draw.below(5) - 2) % top, length
    if sort < 0.92:
        return 0, draw.one((1, top - 2, top - 1, draw.bits(8 * size)))
    if sort < 0.95:
        return draw.bits(8 * size), 0
    return draw.bits(8 * size), draw.bits(8 * size)


def draw_info(draw, word):
    if draw.chance(0.8):
        return draw.below(0x10000)
    if word == 4:
        return draw.one((0, 0xfffffff0, 0xffffffff, draw.bits(32)))
    return draw.one((0, 0xffffffff, 1 << 32, TOP - 1, draw.bits(32), draw.bits(64)))


def add_set(draw, section, order):
    """Adds a set that is whole."""
    word, size = draw.one((4, 4, 8)), draw.one(SIZES)
    place = len(section.data)
    first = 4 if word == 4 else 12
    fields, addresses = section.fields, section.addresses
    section.heads += ((place, 4), (place + first - word, word), (place + first, 2), (place + first + 2 + word, 1),
                      (place + first + 3 + word, 1))
    info = draw_info(draw, word)
    fields.append((place + first + 2, info, 8))
    count = draw.one((0, 1, 1, 2, 2, 3, 3, 4, 6))
    tail = []
    at = place + header_size(word) + padding(word, size)
    section.starts.append(at)
    for index in range(count + draw.chance(0.7)):
        begin, length = draw_pair(draw, size) if index < count else (0, 0)
        fields += ((at, begin, size), (at + size, length, size))
        addresses += (begin, begin + length)
        tail.append(pair(begin, length, size, order))
        at += 2 * size
    if draw.chance(0.3):
        tail.append(draw.bytes(draw.below(2 * size)) if draw.chance(0.5) else bytes(draw.below(2 * size)))
    section.rows.append(count)
    section.data += one_set(word, order, size, b"".join(tail), version=2 + draw.chance(0.25), info=info,
                            fill=draw.below(256) if draw.chance(0.3) else 0)


EDGES = {1: (0, 1, 2, 3, 4, 7, 8, 9, 16, 0x7f, 0x80, 0x81, 0xff),
         2: (0, 1, 2, 3, 4, 5, 0x200, 0x300, 0xffff),
         4: (0, 1, 2, 8, 0x7fffffff, 0x80000000, 0xffffffef, 0xfffffff0, 0xfffffff1, 0xfffffffe, 0xffffffff, 0xffffffff),
         8: (0, 1, 2, 20, 1 << 31, (1 << 32) - 1, 1 << 32, 1 << 63, TOP - 12, TOP - 1)}


def damage(draw, section, order):
    """Changes a section in one to four places: at a field of a header, or anywhere. Mostly the first header is spared."""
    data = section.data
    low = draw.one(section.starts) if section.starts and draw.chance(0.65) else 0
    heads = [head for head in section.heads if head[0] >= low]
    for _ in range(draw.one((1, 1, 1, 2, 4))):
        sort = draw.unit()
        if len(data) <= low:
            data += draw.bytes(draw.below(14))
            continue
        at = low + draw.below(len(data) - low)
        if sort < 0.35 and heads:
            place, size = draw.one(heads)
            field = data[place:place + size]
            if draw.chance(0.5):
                value = int.from_bytes(field, ORDERS[order]) + draw.one((-9, -2, -1, 1, 2, 9))
            else:
                value = draw.one(EDGES[size])
            data[place:place + len(field)] = number(value, size, order)[:len(field)]
        elif sort < 0.55:
            data[at] ^= 1 << draw.below(8)
        elif sort < 0.65:
            data[at] = draw.one((0, 1, 2, 3, 4, 8, 0x80, 0xfe, 0xff))
        elif sort < 0.85:
            del data[at + draw.below(2):]
        elif sort < 0.93:
            data[at:at] = draw.bytes(1 + draw.below(5))
        else:
            del data[at:at + 1 + draw.below(5)]


def draw_amount(draw, value, size):
    """An amount for a record of kind 0 or 1, often one that brings a value of a size to an edge."""
    top = 1 << 8 * size
    sort = draw.unit()
    if sort < 0.35:           # sums that wrap, to an edge
        return draw.one((0, 1, top - 4, top - 3, top - 2, top - 1, top, top + 1, (1 << 32) - 1, 1 << 32, TOP - 1)) - value
    if sort < 0.55:           # the edges themselves
        return draw.one((0, 1, top - 3, top - 2, top - 1, top, (1 << 32) - 1, 1 << 32, (1 << 64) - (1 << 32), TOP - 2))
    if sort < 0.80:
        return draw.below(0x10000)
    return draw.bits(draw.one((8, 16, 32, 33, 64)))


def draw_records(draw, section, most):
    records = []
    for _ in range(most):
        place, value, size = draw.one(section.fields) if section.fields else (draw.below(64), 0, 4)
        sort = draw.unit()
        if sort < 0.72:
            pass
        elif sort < 0.84:     # beside a field
            place += draw.one((-1, 1, 2, 3, 4, 8))
        elif sort < 0.90:     # a field's place in the lower 32 bits
            place += 1 << draw.one((32, 33, 63))
        elif section.heads and sort < 0.96:
            place = draw.one(section.heads)[0]
        else:
            place = draw.one((0, TOP - 1, draw.below(256), draw.bits(64)))
        what = draw.one((0, 0, 0, 1, 1)) if draw.chance(0.85) else draw.one((2, 3, 0x80, 0xff))
        amount = draw_amount(draw, value, size) % TOP
        records.append((place % TOP, what, amount))
        if draw.chance(0.1):  # the offset once more
            records.append((place % TOP, draw.below(3), draw.bits(33)))
        section.addresses += (amount, amount + value)
    draw.shuffle(records)
    return records[:MAX_RECORDS]


def draw_address(draw, section):
    if section.addresses and draw.chance(0.85):
        return (draw.one(section.addresses) + draw.one((-1, 0, 0, 1))) % TOP
    return draw.one((0, 1, TOP - 2, TOP - 1, draw.below(0x10000), draw.bits(64)))


MIXES = ("HHHEENNNNNNRRRL", "HENNNNNNRRRRRRL", "HHHHHHEEENNRRLL", "HEEENNNRRRLLLLL")


def draw_commands(draw, section):
    parts = []
    if draw.chance(0.6):      # walk all sets, or not quite
        calls = draw.one((b"N", b"N", b"R", b"NR"))
        for count in section.rows + [0]:
            parts.append(b"HE" if draw.chance(0.9) else b"H")
            parts.append(calls * (count + 1 if draw.chance(0.8) else draw.below(4)))
    else:
        mix = draw.one(MIXES)
        if draw.chance(0.7):
            parts.append(b"HE")
        for _ in range(draw.below(24)):
            letter = draw.one(mix)
            parts.append(lookup(draw_address(draw, section)) if letter == "L" else letter.encode())
    for _ in range(draw.one((0, 1, 2, 3))):
        parts.append(lookup(draw_address(draw, section)))
    if draw.chance(0.02):     # another letter, with more behind it
        parts.insert(draw.below(len(parts) + 1), bytes((draw.one(b"henrl\0\n ?AZ\x80\xff"),)))
    if draw.chance(0.02):     # an address cut short
        parts.append(lookup(draw_address(draw, section))[:1 + draw.below(8)])
    return b"".join(parts)


def malformed(draw, data):
    data = bytearray(data)
    sort = draw.below(5)
    if sort == 0:
        data[0] = draw.one((4, 5, 0x30, 0xff))
    elif sort == 1:
        data[1] = draw.one((2, 3, 0x80, 0xff))
    elif sort == 2:
        data[2:4] = number(draw.one((data[2] + 1, 257, 0x200, 0xffff)), 2, 0)
    elif sort == 3:
        del data[draw.below(len(data)):]
    else:
        at = 4 + 17 * int.from_bytes(data[2:4], "little")
        data[at:at + 4] = number(draw.one((len(data), 65536, 1 << 31, (1 << 32) - 1)), 4, 0)
    return bytes(data)


def draw_walk(draw, kind, order):
    section = Section()
    for _ in range(draw.one((0, 1, 1, 1, 2, 2, 2, 2, 3, 3, 5))):
        add_set(draw, section, order)
    sort = draw.unit()
    if sort < 0.40:
        damage(draw, section, order)
    elif sort < 0.44:         # bytes of no set, behind or alone
        if draw.chance(0.3):
            section = Section()
        section.data += bytes(draw.one((0, 1, 2, 4, 0xff, draw.below(256))) for _ in range(draw.below(40)))
    records = []
    if kind > 1 or draw.chance(0.1):
        records = draw_records(draw, section, draw.one((0, 1, 1, 2, 3, 4, 8, 16)))
    data = whole_input(kind, order, records, bytes(section.data), draw_commands(draw, section))
    return malformed(draw, data) if draw.chance(0.02) else data


def draw_long_walk(draw, kind, order):
    section, records = Section(), []
    sort = draw.below(4)
    if sort == 0:             # many sets
        while len(section.data) < 8000:
            add_set(draw, section, order)
    elif sort == 1:           # as many records as there may be
        for _ in range(6):
            add_set(draw, section, order)
        while len(records) < MAX_RECORDS:
            records += draw_records(draw, section, 64)
        records = records[:MAX_RECORDS]
    else:                     # a long row of null pairs; a record may end or interrupt it
        size, word = draw.one(SIZES), draw.one((4, 8))
        count = 1000 + draw.below(min(7000, 50000 // (2 * size)))
        tail = bytes(2 * size * count) + pair(5, 6, size, order)
        section.data += one_set(word, order, size, tail) + one_set(4, order, 1, b"\x20\2", info=9)
        section.addresses += (5, 10, 11, 0x20, 0x21)
        section.rows += [1, 1]
        if kind > 1:
            at = header_size(word) + padding(word, size) + size * draw.below(2 * count)
            records = [(at, draw.below(3), 1 + draw.below(200))]
    return whole_input(kind, order, records, bytes(section.data), draw_commands(draw, section))[:MAX_INPUT]


def walks(draw, count, kinds):
    """Inputs in hexadecimal digits. Without kind 0, inputs of kinds 0 and 2 are left out."""
    fixed = [data for data in fixed_walks() if data[:1] not in (b"\0", b"\2") or 0 in kinds]
    if len(fixed) > count // 2:
        fixed = draw.sample(fixed, count // 2)
    else:
        draw.shuffle(fixed)
    for data in fixed:
        yield data.hex()
    for index in range(len(fixed), count):
        make = draw_long_walk if index % 1500 == 0 else draw_walk
        yield make(draw, draw.one(kinds), draw.below(2)).hex()


# Lines for the driver `reads`

LEBS = ("uleb", "uleb32", "uleb16", "sleb", "skip_leb")
POWERS = sorted({(1 << bit) + step for bit in range(65) for step in (-1, 0, 1) if 0 <= (1 << bit) + step < TOP})


def read_line(kind, order, section, call):
    return f"{kind} {order} {section.hex() or '-'} {call}"


def layer_line(kind, order, section, lower, upper, skip, call):
    return f"reloc {kind} {order} {section.hex() or '-'} {records_text(lower)} {records_text(upper)} {skip} {call}"


def records_text(records):
    return ";".join("%d,%d,%d" % record for record in records) or "-"


def calls_by_width():
    """Calls that read a number, with the bytes that it takes."""
    for bits in (8, 16, 32, 64):
        yield f"u{bits}", bits // 8
        yield f"i{bits}", bits // 8
    for width in range(9):
        yield f"uint:{width}", width
    for name, word in itertools.product(("word", "length", "offset"), (4, 8)):
        yield f"{name}:{word}", word
    for name, size in itertools.product(("address", "sized_offset"), SIZES):
        yield f"{name}:{size}", size


WIDTHS = tuple(calls_by_width())


def fixed_reads(kinds):
    every = list(itertools.product(kinds, range(2)))
    narrow_only = kinds[0] > 0

    # numbers at the powers of two and beside them, with all their bytes, one too many, and too few
    for call, width in WIDTHS:
        for kind, order in every:
            for value in POWERS:
                if value < 1 << 8 * width:
                    yield read_line(kind, order, number(value, width, order), call)
            for length in range(width + 3):
                for fill in (b"\x00", b"\x01", b"\x7f", b"\x80", b"\xff"):
                    yield read_line(kind, order, fill * length, call)

    # every size, known or not
    for size, (kind, order) in itertools.product(range(256), every):
        for length in (0, 9):
            yield read_line(kind, order, b"\x12" * length, f"address:{size}")
            yield read_line(kind, order, b"\x12" * length, f"sized_offset:{size}")
        yield read_line(kind, order, bytes((size,)), "address_size")
        yield read_line(kind, order, bytes((size, 4)), "address_size")

    # initial lengths
    for kind, order in every:
        for value in (0, 1, 0x7fffffff, 0x80000000, *range(0xffffffe8, 1 << 32)):
            for more in range(10):
                yield read_line(kind, order, number(value, 4, order) + b"\0" * (more - 1) + b"\1" * min(more, 1),
                                "initial_length")
        for value in POWERS:
            yield read_line(kind, order, length_field(8, order, value), "initial_length")
        for length in range(4):
            yield read_line(kind, order, b"\xff" * length, "initial_length")

    # find, skip, truncate and split
    for kind, order in every:
        for byte in range(256):
            for section in (b"", bytes((byte,)), bytes((byte ^ 1, byte, byte)), bytes((byte ^ 1, byte ^ 0x80, byte ^ 0xff))):
                yield read_line(kind, order, section, f"find:{byte}")
        for name, length in itertools.product(("skip", "truncate", "split"), range(12)):
            for count in (*range(length + 3), *POWERS):
                if count < 1 << 32 or kind == 0:
                    yield read_line(kind, order, bytes(range(length)), f"{name}:{count}")

    # LEB128: every input of at most two bytes
    for call in LEBS:
        for kind in kinds:
            yield read_line(kind, 0, b"", call)
            for byte in range(256):
                yield read_line(kind, 1, bytes((byte,)), call)
        for first, second in itertools.product(range(256), repeat=2):
            yield read_line(1 if narrow_only else (first + second) % 2, 0, bytes((first, second)), call)
    # and longer ones, with every last byte
    for call, length, fill, last in itertools.product(LEBS, range(2, 13), (0x80, 0x81, 0xc0, 0xff), range(256)):
        yield read_line(1 if narrow_only else last // 2 % 2, 0, bytes((fill,)) * length + bytes((last,)), call)

    for value in POWERS:
        yield f"wu {value}"
        for signed in (value, -value):
            if -(1 << 63) <= signed < 1 << 63:
                yield f"ws {signed}"

    # one layer and two, each with a record before, at and behind the place of the read
    section = bytes(range(1, 13))
    for (kind, order), call in itertools.product(every, ("address:2", "address:8", "offset:4", "offset:8", "sized_offset:1",
                                                         "sized_offset:4", "sized_offset:8")):
        for skip, below, above, what in itertools.product((0, 2), range(4), range(-1, 3), (0, 1, 2)):
            lower = [(below, what, 0x100)]
            upper = [(above, (what + 1) % 3, 1 << 32)] if above >= 0 else []
            yield layer_line(kind, order, section, lower, upper, skip, call)


def draw_leb(draw):
    length = 1 + draw.one((0, 1, 2, 3, 4, 5, 6, 7, 8, 9, 9, 9, 10))
    data = bytearray(draw.bytes(length))
    if draw.chance(0.3):
        data[:] = bytes((draw.one((0x00, 0x01, 0x7f)),)) * length
    for index in range(length):
        data[index] |= 0x80
    if draw.chance(0.9):
        data[-1] &= 0x7f
    if length > 8 and draw.chance(0.7):
        data[-1] = draw.one((0x00, 0x01, 0x02, 0x3f, 0x40, 0x7e, 0x7f, 0x80, 0x81, 0xff))
    if draw.chance(0.3):
        data += draw.bytes(1 + draw.below(3))
    return bytes(data)


def draw_layers(draw, kind, order):
    section = draw.bytes(draw.below(24)) if draw.chance(0.8) else b"\xff" * draw.below(24)
    skip = draw.below(len(section) + 1)
    name = draw.one(("address", "offset", "sized_offset"))
    size = draw.one((4, 8)) if name == "offset" else draw.one((1, 2, 4, 8, 8, draw.below(256)))
    layers = []
    for place in (skip, 0):
        records = []
        for _ in range(draw.one((0, 1, 1, 2, 3))):
            at = place if draw.chance(0.7) else draw.one((skip, 0, draw.below(26), place + (1 << 32), TOP - 1))
            what = draw.one((0, 0, 0, 1, 1)) if draw.chance(0.85) else draw.one((2, 0x80, 0xff))
            here = int.from_bytes(section[skip:skip + size], ORDERS[order]) if size < 9 else 0
            records.append((at, what, draw_amount(draw, here, min(size, 8) or 1) % TOP))
        layers.append(records)
    return layer_line(kind, order, section, layers[0], layers[1], skip, f"{name}:{size}")


def draw_read(draw, kinds):
    kind, order = draw.one(kinds), draw.below(2)
    sort = draw.unit()
    if sort < 0.30:
        return draw_layers(draw, kind, order)
    if sort < 0.50:
        return read_line(kind, order, draw_leb(draw), draw.one(LEBS))
    if sort < 0.55:
        return f"wu {draw.bits(1 + draw.below(64))}"
    if sort < 0.60:
        value = draw.bits(1 + draw.below(63))
        return f"ws {value if draw.chance(0.5) else -1 - value}"
    length = draw.below(20)
    section = draw.bytes(length)
    if draw.chance(0.3):
        section = bytes(draw.one((0, 1, 4, 8, 0x7f, 0x80, 0xff)) for _ in range(length))
    if sort < 0.70:
        name = draw.one(("skip", "truncate", "split", "find"))
        count = draw.below(length + 3)
        if name == "find":
            count = section[draw.below(length)] if length and draw.chance(0.7) else draw.below(256)
        elif draw.chance(0.1):
            count = draw.bits(64 if kind == 0 else 32)
        return read_line(kind, order, section, f"{name}:{count}")
    if sort < 0.80:
        value = draw.one((0xfffffff0, 0xfffffffe, 0xffffffff, 0xffffffff, 0xffffffff, draw.bits(32)))
        section = number(value, 4, order) + (number(draw.bits(1 + draw.below(64)), 8, order) + section)[:draw.below(14)]
        return read_line(kind, order, section, "initial_length")
    call, _ = draw.one(WIDTHS)
    return read_line(kind, order, section, call)


def reads(draw, count, kinds):
    fixed = list(fixed_reads(kinds))
    if len(fixed) > count // 2:
        fixed = draw.sample(fixed, count // 2)
    else:
        draw.shuffle(fixed)
    yield from fixed
    for _ in range(len(fixed), count):
        yield draw_read(draw, kinds)


def main(arguments):
    narrow = arguments[:1] == ["--narrow"]
    if narrow:
        del arguments[0]
    if len(arguments) != 3 or arguments[0] not in ("walks", "reads"):
        sys.exit(__doc__)
    draw, count = Draw(int(arguments[1])), int(arguments[2])
    if arguments[0] == "walks":
        lines = walks(draw, count, (1, 3) if narrow else (0, 1, 2, 3))
    else:
        lines = reads(draw, count, (1,) if narrow else (0, 1))
    for batch in iter(lambda: list(itertools.islice(lines, 1000)), []):
        sys.stdout.write("\n".join(batch) + "\n")


if __name__ == "__main__":
    main(sys.argv[1:])
