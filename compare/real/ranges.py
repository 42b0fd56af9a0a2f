#!/usr/bin/env python3
"""Compares our program with gimli and with readelf on the sections of ELF files.

    ranges.py DRIVER REPLAY LIST

DRIVER is the driver `walks`, REPLAY our program `replay`. LIST has a line for each file: a target's name, a tab and the path
of an ELF file, whose .debug_aranges lies beside it as PATH.aranges. Every set and tuple of a section is walked, raw and
converted, and some addresses are looked up:

- in a linked file by reader kinds 0 and 1, and by 2 and 3 with an empty table;
- in an object by kinds 2 and 3, relocated by records made of what `readelf -r` prints, as if all its sections lay at 0;
  by 2 and 3 with its sections at other places; and by 0 and 1 without relocation.

What our program writes is compared with what gimli writes. All but the last are also compared with what `readelf
--debug-dump=aranges` prints, from which the lines are made here. In the table, sizes are those of addresses, and of words,
4 for 32-bit DWARF. The last line is `N equal, M different`, each input counted once for each comparison. Ends with 1 if M is
not 0.
"""
import collections
import re
import subprocess
import sys

MAX_INPUT = 65536
MAX_RECORDS = 256
ROOM = 3000        # left in an input for records and commands
STEP = 0x800       # from one made-up place of a section to the next
ROW = "{:20}{:>6}{:>6}{:>8}{:>10}{:>8}{:>14}{:>14}"


def run(*command, text=None):
    return subprocess.run(command, input=text, capture_output=True, check=True, text=True).stdout


class Set:
    """A set as readelf prints it, with the places of its fields."""

    def __init__(self, place, word, length, version, info, size, tuples):
        self.place, self.word, self.version, self.info, self.size, self.tuples = place, word, version, info, size, tuples
        self.end = place + (4 if word == 4 else 12) + length
        self.info_at = place + (6 if word == 4 else 14)
        header = 12 if word == 4 else 24
        self.tuples_at = place + header + -header % (2 * size)

    def fields(self):
        """The place, size and value of each field that is relocated."""
        yield self.info_at, self.word, self.info
        for index, (begin, length) in enumerate(self.tuples):
            at = self.tuples_at + 2 * self.size * index
            yield at, self.size, begin
            yield at + self.size, self.size, length

    def moved(self, moves):
        """The set with some fields moved, each by its place."""
        def move(at, size, value):
            return (value + moves.get(at, 0)) % (1 << 8 * size)
        values = [move(*field) for field in self.fields()]
        copy = Set.__new__(Set)
        copy.__dict__.update(self.__dict__, info=values[0], tuples=list(zip(values[1::2], values[2::2])))
        return copy

    def header(self):
        return f"H {self.place} {self.word} {self.version} {self.size} {self.info}"

    def raw(self):
        return [(begin, length) for begin, length in self.tuples if (begin, length) != (0, 0)]

    def ranges(self):
        """Begin, end and length, with None for the end where it does not fit."""
        top = 1 << 8 * self.size
        for begin, length in self.raw():
            if begin < top - 2:
                yield begin, begin + length if begin + length < top else None, length


def printed_sets(path, section):
    """The sets that readelf prints for a file."""
    sets, tuples, fields, place = [], None, {}, 0
    for line in run("readelf", "--debug-dump=aranges", path).split("\n"):
        words = line.split()
        if ":" in line:
            name, value = line.strip().split(":", 1)
            fields[name] = value.split()[0] if value.split() else ""
        elif words == ["Address", "Length"]:
            word = 8 if section[place:place + 4] == b"\xff" * 4 else 4
            tuples = []
            number = [int(fields[name], 0) for name in ("Length", "Version", "Offset into .debug_info", "Pointer Size")]
            sets.append(Set(place, word, *number, tuples))
            place = sets[-1].end
        elif tuples is not None and len(words) == 2:
            tuples.append((int(words[0], 16), int(words[1], 16)))
    return sets


# The section is the symbol's; the addend is None where it lies in the field.
Relocation = collections.namedtuple("Relocation", "at kind section value addend")


def relocations(path, bits):
    """The relocations of the section, by readelf: the section of each symbol by its index in the symbol table."""
    home = {}
    for line in run("readelf", "-sW", path).split("\n"):
        match = re.match(r"\s*(\d+): [0-9a-f]+ +\S+ +\S+ +\S+ +\S+(?: +\[.*?\])* +(\d+)", line)
        if match:
            home[int(match[1])] = int(match[2])
    found, here = [], False
    for line in run("readelf", "-rW", path).split("\n"):
        if line.startswith("Relocation section"):
            here = ".debug_aranges'" in line
        match = here and re.match(r"([0-9a-f]+) +([0-9a-f]+) +(R_\w+) +([0-9a-f]+) +.*?(?: ([+-]) ([0-9a-f]+))?$", line)
        if match:
            addend = int(match[5] + match[6], 16) if match[5] else None
            symbol = int(match[2], 16) >> (32 if bits == 64 else 8)
            found.append(Relocation(int(match[1], 16), match[3], home.get(symbol), int(match[4], 16), addend))
    return found


def records(relocations, fields, section, order, bases):
    """The records that do what relocations do, with sections at their bases; and how far that moves each field."""
    values, moves, table = {}, {}, []
    for relocation in relocations:
        at = relocation.at
        if at not in fields and order == "big" and fields.get(at - 4) == 8:
            at -= 4                                            # only the lower half of the field is relocated
        base = bases.get(relocation.section, 0)
        symbol = relocation.value + base
        if re.search("NONE|DIFF|RELAX", relocation.kind):      # says something to a linker only
            continue
        size = fields[at]
        if relocation.addend is None:
            table.append((at, 0, symbol))
            moves[at] = base
            continue
        start = values.get(at, int.from_bytes(section[at:at + size], order))
        sign = 1 if "_ADD" in relocation.kind else -1 if "_SUB" in relocation.kind else 0
        values[at] = start + sign * (symbol + relocation.addend) if sign else symbol + relocation.addend
        moves[at] = moves.get(at, 0) + (sign or 1) * base
    table += [(at, 1, value % (1 << 8 * fields[at])) for at, value in values.items()]
    return table, moves


def commands(sets, addresses):
    parts = []
    for one in sets:
        calls = len(one.raw()) + 1
        parts += [b"HE", b"R" * calls, b"E", b"N" * calls]
    parts.append(b"H")
    for address in addresses:
        parts.append(b"L" + address.to_bytes(8, "little"))
    return b"".join(parts)


def looked_up(sets):
    """Addresses at the ends of some ranges."""
    addresses = {0: None, 0xffffffff: None}
    for one in sets:
        for begin, end, _ in one.ranges():
            if end is not None:
                addresses.update(dict.fromkeys((begin, max(end - 1, 0), end)))
    addresses = list(addresses)
    return addresses if len(addresses) <= 60 else addresses[::len(addresses) // 60]


def lines(sets, addresses):
    """What must be written, by the sets that readelf printed."""
    out = []
    for one in sets:
        raw = [f"R {begin} {length}" for begin, length in one.raw()]
        converted = ["! AddressOverflow 0" if end is None else f"N {begin} {end} {length}"
                     for begin, end, length in one.ranges()]
        calls = len(raw) + 1
        out += [one.header(), "E", *raw, "-", "E", *converted, *["-"] * (calls - len(converted))]
    out.append("-")
    return out + [lookup_line(sets, address) for address in addresses]


def lookup_line(sets, address):
    passed = 0
    for one in sets:
        for begin, end, _ in one.ranges():
            if end is None:
                passed += 1
            elif begin <= address < end:
                return f"L {begin} {end} {one.info} {one.place} {passed}"
    return f"- {passed}"


def whole_input(kind, order, table, section, letters):
    head = bytes((kind, order == "big")) + len(table).to_bytes(2, "little")
    for offset, what, amount in table:
        head += offset.to_bytes(8, "little") + bytes((what,)) + amount.to_bytes(8, "little")
    return head + len(section).to_bytes(4, "little") + section + letters


def inputs_of(path):
    """The sets of a file, and inputs made of it, each with the lines that readelf's sets make, or None."""
    head = run("readelf", "-hW", path)
    order = "big" if "big endian" in head else "little"
    bits = 64 if "ELF64" in head else 32
    with open(path + ".aranges", "rb") as file:
        section = file.read()
    sets = printed_sets(path, section)
    if sets[-1].end != len(section):
        raise ValueError(f"{path}: readelf's sets end at {sets[-1].end}, the section at {len(section)}")
    while sets[-1].end + 30 * len(sets) + 2 * sum(len(one.raw()) for one in sets) > MAX_INPUT - ROOM:
        sets.pop()             # a long section is cut behind a set
    section = section[:sets[-1].end]
    made = []

    def make(kinds, table, sets, known):
        addresses = looked_up(sets)
        for kind in kinds:
            data = whole_input(kind, order, table, section, commands(sets, addresses))
            if len(table) > MAX_RECORDS or len(data) > MAX_INPUT:
                raise ValueError(f"{path}: too much for one input")
            made.append((data.hex(), lines(sets, addresses) if known else None))

    if "REL (" not in head:
        make((0, 1, 2, 3), [], sets, True)
    else:
        found = relocations(path, bits)
        fields = {at: size for one in sets for at, size, _ in one.fields()}
        make((2, 3), records(found, fields, section, order, {})[0], sets, True)
        homes = dict.fromkeys(relocation.section for relocation in found if relocation.at not in
                              [one.info_at for one in sets])
        bases = {home: STEP * (index + 1) for index, home in enumerate(homes)}
        table, moves = records(found, fields, section, order, bases)
        make((2, 3), table, [one.moved(moves) for one in sets], True)
        make((0, 1), [], sets, False)
    return sets, made


def answers(program, inputs):
    output = run(program, text="".join(line + "\n" for line in inputs)).split("=\n")
    if len(output) != len(inputs) + 1:
        sys.exit(f"{program}: {len(output) - 1} answers to {len(inputs)} inputs")
    return [answer.split("\n")[:-1] for answer in output[:-1]]


def main(driver, replay, listing):
    files = {}
    with open(listing) as file:
        for line in file:
            target, path = line.rstrip("\n").split("\t")
            files.setdefault(target, []).append(path)
    total = [0, 0]
    print(ROW.format("target", "files", "sets", "tuples", "sizes", "inputs", "as gimli", "as readelf"))
    for target, paths in files.items():
        sets, made = [], []
        for path in paths:
            some, more = inputs_of(path)
            sets += some
            made += [(path, *one) for one in more]
        inputs = [data for _, data, _ in made]
        gimli, ours = answers(driver, inputs), answers(replay, inputs)
        equal = [0, 0]
        known = sum(wanted is not None for _, _, wanted in made)
        for (path, data, wanted), first, second in zip(made, gimli, ours):
            for index, (name, other) in enumerate((("gimli", first), ("readelf", wanted))):
                if other == second:
                    equal[index] += 1
                elif other is not None:
                    at = next(at for at in range(len(other) + 1) if other[at:at + 1] != second[at:at + 1])
                    print(f"{path}: line {at + 1}: {other[at:at + 1]} by {name}, {second[at:at + 1]} by ours: {data[:400]}")
        total[0] += sum(equal)
        total[1] += len(made) + known - sum(equal)
        sizes = "/".join(f"{size}" for size in sorted({one.size for one in sets}))
        words = "/".join(f"{word}" for word in sorted({one.word for one in sets}))
        print(ROW.format(target, len(paths), len(sets), sum(len(one.tuples) for one in sets), f"{sizes}, {words}", len(made),
                         f"{equal[0]} of {len(made)}", f"{equal[1]} of {known}"))
    print(f"{total[0]} equal, {total[1]} different")
    return 1 if total[1] else 0


if __name__ == "__main__":
    if len(sys.argv) != 4:
        sys.exit(__doc__)
    sys.exit(main(*sys.argv[1:]))
