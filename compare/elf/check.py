#!/usr/bin/env python3
"""Compares the reports of addr2unit with reports that are made of what other tools print.

    check.py SEED ADDR2UNIT LIST

LIST has the lines that make.py prints. For each file the whole report is made of what readelf prints of its header, sections,
symbols, relocations and .debug_aranges, for addresses that are drawn, and compared line by line with addr2unit's. In files
that are linked, the sets are also compared with those of `llvm-dwarfdump --debug-aranges`, and the names of the units told with
the files that eu-addr2line tells and the units that `llvm-dwarfdump --lookup` finds.

Prints the differences, a table, and a last line `N files, M addresses, K different`. Ends with 1 if K is not 0.
"""
import collections
import concurrent.futures
import os
import random
import re
import shutil
import subprocess
import sys

MANY = 10000       # relocations of an object, for which a lookup takes long
LOOKED_UP = 3      # addresses of a file that llvm-dwarfdump --lookup is asked for; it takes one at a call

# readelf's name of a machine: its number, and addr2unit's name
MACHINES = {
    "Intel 80386": (3, "i386"), "MIPS R3000": (8, "MIPS"), "PowerPC": (20, "PowerPC"), "PowerPC64": (21, "PowerPC64"),
    "ARM": (40, "ARM"), "Advanced Micro Devices X86-64": (62, "x86-64"), "AArch64": (183, "AArch64"),
    "RISC-V": (243, "RISC-V"), "IBM S/390": (22, None), "Sparc v9": (43, None), "Atmel AVR 8-bit microcontroller": (83, None),
    "Texas Instruments msp430 microcontroller": (105, None),
}
KINDS = {"REL": "relocatable", "EXEC": "executable", "DYN": "shared"}


def run(*command, text=None):
    done = subprocess.run(command, input=text, capture_output=True, text=True, errors="replace",
                          env=dict(os.environ, LC_ALL="C"))
    return done.stdout


def hexadecimal(line, name):
    return int(re.search(name + r" = 0x([0-9a-f]+)", line)[1], 16)


Section = collections.namedtuple("Section", "name offset size")

# `at` is the place in the section that is changed, `home` the index of the symbol's section, or what readelf has in its place
class Relocation(collections.namedtuple("Relocation", "at kind symbol home")):
    def width(self):
        """How many bytes are changed: the names of the types that change eight end so."""
        return 8 if self.kind.endswith("64") else 4


class Set:
    """A set of tuples as readelf prints it."""

    def __init__(self, place, word, length, unit, size):
        self.place, self.word, self.unit, self.size, self.tuples = place, word, unit, size, []
        self.end = place + (4 if word == 4 else 12) + length

    def first_tuple(self):
        header = 12 if self.word == 4 else 24
        return self.place + header + -header % (2 * self.size)

    def shape(self):
        return self.unit, self.size, [pair for pair in self.tuples if pair != (0, 0)]


class File:
    """What readelf tells of a file."""

    def __init__(self, path):
        self.path = path
        head = run("readelf", "-hW", path)
        fields = dict(re.findall(r"^ +(\w[^:]*): +(.*)$", head, re.M))
        self.bits = 64 if fields["Class"] == "ELF64" else 32
        self.order = "big" if "big endian" in fields["Data"] else "little"
        self.kind = KINDS[fields["Type"].split()[0]]
        self.machine = MACHINES[fields["Machine"]]
        self.sections = {}
        for index, name, offset, size in re.findall(
                r"^ *\[ *(\d+)\] (\S+) +[A-Z]\S* +[0-9a-f]+ ([0-9a-f]+) ([0-9a-f]+) ", run("readelf", "-SW", path), re.M):
            self.sections[int(index)] = Section(name, int(offset, 16), int(size, 16))
        self.aranges = next((one for one in self.sections.values() if one.name == ".debug_aranges"), None)
        self.sets = self.read_sets() if self.aranges else []
        self.relocations = self.read_relocations() if self.kind == "relocatable" else []

    def read_sets(self):
        with open(self.path, "rb") as file:
            file.seek(self.aranges.offset)
            bytes_of_section = file.read(self.aranges.size)
        sets, fields, place = [], {}, 0
        for line in run("readelf", "--debug-dump=aranges", self.path).split("\n"):
            words = line.split()
            if ":" in line:
                name, value = line.strip().split(":", 1)
                fields[name] = value.split()[0] if value.split() else ""
            elif words == ["Address", "Length"]:
                word = 8 if bytes_of_section[place:place + 4] == b"\xff" * 4 else 4
                sets.append(Set(place, word, *[int(fields[name], 0) for name in
                                               ("Length", "Offset into .debug_info", "Pointer Size")]))
                place = sets[-1].end
            elif len(words) == 2 and sets:
                sets[-1].tuples.append((int(words[0], 16), int(words[1], 16)))
        if place != self.aranges.size:
            raise ValueError(f"readelf's sets end at {place}, the section at {self.aranges.size}")
        return sets

    def read_relocations(self):
        homes = {}
        for number, place in re.findall(r"^ *(\d+): [0-9a-f]+ +\S+ +\S+ +\S+ +\S+(?: +\[.*?\])* +(\S+)",
                                        run("readelf", "-sW", self.path), re.M):
            homes[int(number)] = int(place) if place.isdigit() else place
        found, here = [], False
        for line in run("readelf", "-rW", self.path).split("\n"):
            if line.startswith("Relocation section"):
                here = "debug_aranges'" in line
            match = here and re.match(r"([0-9a-f]+) +([0-9a-f]+) +(R_\w+)", line)
            if match:
                symbol = int(match[2], 16) >> (32 if self.bits == 64 else 8)
                found.append(Relocation(int(match[1], 16), match[3], symbol, homes.get(symbol)))
        return [one for one in found if not one.kind.endswith("_NONE")]

    def refusal(self):
        """Why the file should be refused, if it should."""
        if self.relocations and not self.machine[1]:
            return f"the relocations of machine {self.machine[0]} are not known"
        for one in self.relocations:
            if one.home in ("UND", "COM"):
                return f"the relocation at offset {one.at} needs symbol {one.symbol}, which has no address in the file"
        fields = self.fields()
        for one in self.relocations:
            if fields.get(one.at) != one.width():
                return f"relocation at offset {one.at} of .debug_aranges is of no address or offset that is read"
        return None

    def fields(self):
        """The numbers that may be relocated, by their places, with their bytes."""
        fields = {}
        for one in self.sets:
            fields[one.place + (6 if one.word == 4 else 14)] = one.word
            for index in range((one.end - one.first_tuple()) // (2 * one.size)):
                for half in (0, one.size):
                    fields[one.first_tuple() + 2 * one.size * index + half] = one.size
        return fields

    def ranges(self):
        """Each tuple that counts: its set, its place, begin and end; the end is None where it does not fit."""
        for one in self.sets:
            top = 1 << 8 * one.size
            for index, (begin, length) in enumerate(one.tuples):
                if (begin, length) != (0, 0) and begin < top - 2:
                    end = begin + length
                    yield one, one.first_tuple() + 2 * one.size * index, index, begin, end if end < top else None

    def report(self, addresses):
        """The lines that addr2unit should print."""
        number, name = self.machine
        machine = f"{number} ({name})" if name else f"{number}"
        lines = [f"file: ELF{self.bits}, {self.order}-endian, {self.kind}, machine {machine}",
                 f"section: .debug_aranges, {self.aranges.size} bytes at {self.aranges.offset:#x}"]
        if self.kind == "relocatable":
            lines.append(f"relocated: {len({one.at for one in self.relocations})} places")
        ranges = list(self.ranges())
        spoilt = [f"spoilt tuple: set {one.place:#x}, tuple {index}: AddressOverflow 0; passed"
                  for one, _, index, _, end in ranges if end is None]
        lines += spoilt
        lines.append(f"read: sets {len(self.sets)}, ranges {len(ranges) - len(spoilt)}, spoilt tuples {len(spoilt)}")
        homes = {one.at: one.home for one in reversed(self.relocations)}
        answers = [self.answer(ranges, homes, address) for address in addresses]
        found = sum("no unit" not in line for line in answers)
        return lines, answers, f"total: addresses {len(answers)}, found {found}, not found {len(answers) - found}"

    def answer(self, ranges, homes, address):
        passed = 0
        for one, at, _, begin, end in ranges:
            if end is None:
                passed += 1
            elif begin <= address < end:
                home = self.sections.get(homes.get(at))
                place = f", in {home.name}" if home else ""
                return (f"{address:#x}: unit {one.unit:#x}, range {begin:#x}..{end:#x}, set {one.place:#x}, "
                        f"tuples passed {passed}{place}")
        return f"{address:#x}: no unit, tuples passed {passed}"

    def addresses(self, draw):
        """Addresses at the ends of some ranges, in them, beside them, and elsewhere."""
        drawn, ranges = {0: None, 1: None}, [one for one in self.ranges() if one[4] is not None]
        for one, _, _, begin, end in draw.sample(ranges, min(len(ranges), 25)):
            middle = draw.randrange(begin, end) if end > begin else begin
            drawn.update(dict.fromkeys((begin, middle, max(end - 1, 0), end, max(begin - 1, 0), end + draw.randint(1, 64))))
        top = max((end for *_, end in ranges), default=0)
        drawn.update(dict.fromkeys(draw.randrange(0, 2 * top + 1) for _ in range(6)))
        drawn.update(dict.fromkeys(draw.getrandbits(bits) for bits in (16, 32, 48, 64)))
        drawn.update(dict.fromkeys((0xffff, 0xfffffffe, 0xffffffff, (1 << 64) - 2, (1 << 64) - 1)))
        drawn = list(drawn)
        draw.shuffle(drawn)
        return drawn if len(self.relocations) < MANY else drawn[:10]

    def overlapping(self, address):
        """Whether more than one set has a range that holds an address."""
        return len({one.place for one, _, _, begin, end in self.ranges() if end and begin <= address < end}) > 1


def llvm_shapes(path):
    """The sets by llvm-dwarfdump, like Set.shape; it prints ends in place of lengths."""
    shapes = []
    for line in run("llvm-dwarfdump", "--debug-aranges", path).split("\n"):
        if line.startswith("Address Range Header"):
            shapes.append((hexadecimal(line, "cu_offset"), hexadecimal(line, "addr_size"), []))
        match = re.match(r"\[0x([0-9a-f]+), *0x([0-9a-f]+)\)", line)
        if match:
            begin, end = int(match[1], 16), int(match[2], 16)
            if (begin, end) != (0, 0):
                shapes[-1][2].append((begin, (end - begin) % (1 << 64)))
    return shapes


def unit_names(path):
    """The name of the unit at each offset."""
    names, unit = {}, None
    for line in run("readelf", "--debug-dump=info", "--dwarf-depth=1", "-W", path).split("\n"):
        match = re.match(r" +Compilation Unit @ offset (?:0x)?([0-9a-f]+):", line)
        if match:
            unit = int(match[1], 16)
        if "DW_AT_name" in line and unit not in names:
            names[unit] = re.sub(r"^.*: (\(string\) )?", "", line.rstrip())
    return names


class Checked:
    """What came of one file."""

    def __init__(self, path):
        self.path, self.refused, self.addresses, self.found, self.named, self.looked = path, 0, 0, 0, 0, 0
        self.different, self.notes = 0, []

    def differs(self, count, what):
        self.different += count
        self.notes.append(f"{self.path}: {what}")


def check_report(checked, program, file, draw):
    """Compares a report; the answers of addr2unit to the addresses, where it has a report."""
    addresses = file.addresses(draw)
    checked.addresses = len(addresses)
    if draw.random() < 0.5:
        words = [draw.choice((f"{one:x}", f"{one:#x}", f"{one:X}")) for one in addresses]
        done = subprocess.run([program, file.path, *words], capture_output=True, text=True)
    else:
        text = "".join(f"{one:x}\n" for one in addresses)
        done = subprocess.run([program, file.path], input=text, capture_output=True, text=True)
    if file.refusal():
        wanted = f"addr2unit: {file.path}: {file.refusal()}\n"
        if (done.returncode, done.stdout, done.stderr) != (1, "", wanted):
            checked.differs(1, f"should be refused: {done.returncode} {done.stdout!r} {done.stderr!r}")
        checked.addresses, checked.refused = 0, 1
        return []
    head, answers, total = file.report(addresses)
    wanted = [*head, *answers, total]
    lines = done.stdout.split("\n")[:-1]
    if done.returncode != 0 or done.stderr or len(lines) != len(wanted):
        checked.differs(len(addresses), f"status {done.returncode}, {len(lines)} lines for {len(wanted)}: {done.stderr!r}")
        return []
    for line, want in zip(lines, wanted):
        if line != want:
            checked.differs(1, f"\n    wanted {want}\n    is     {line}")
    checked.found = sum("no unit" not in line for line in answers)
    return lines[len(head):-1]


def check_voices(checked, file, compiler, answers, draw):
    """Compares with llvm-dwarfdump and eu-addr2line, in a linked file."""
    shapes, theirs = [one.shape() for one in file.sets], llvm_shapes(file.path)
    if shapes != theirs:
        # llvm-dwarfdump does not read a section whose addresses have 2 bytes
        if not (theirs == [] and file.sets and file.sets[0].size == 2):
            checked.differs(1, f"readelf and llvm-dwarfdump do not agree: {shapes} {theirs}"[:600])
    names = unit_names(file.path)
    told = {}
    for line in answers:
        match = re.match(r"0x([0-9a-f]+): unit 0x([0-9a-f]+),", line)
        if match and not file.overlapping(int(match[1], 16)):
            told[int(match[1], 16)] = os.path.basename(names.get(int(match[2], 16), "no unit there"))
    if not told:
        return
    addresses = list(told)
    # a unit of rustc is made of many files
    if compiler != "rustc" and shutil.which("eu-addr2line"):
        text = "".join(f"{one:#x}\n" for one in addresses)
        files = run("eu-addr2line", "-e", file.path, text=text).split("\n")[:-1]
        for address, line in zip(addresses, files):
            name = os.path.basename(re.sub(r"(:\d+)+( \(.*\))?$", "", line))
            if name.startswith("??"):
                continue               # data, or nothing known of the place
            checked.named += 1
            if name != told[address]:
                checked.differs(1, f"{address:#x} is in {told[address]}, by eu-addr2line in {line}")
    addresses = [one for one in addresses if one]          # llvm-dwarfdump takes --lookup=0 for no address
    for address in draw.sample(addresses, min(LOOKED_UP, len(addresses))):
        text = run("llvm-dwarfdump", f"--lookup={address:#x}", file.path)
        match = re.search(r"DW_TAG_compile_unit.*?DW_AT_name\s+\(\"(.*?)\"\)", text, re.S)
        if match:
            checked.looked += 1
            if os.path.basename(match[1]) != told[address]:
                checked.differs(1, f"{address:#x} is in {told[address]}, by llvm-dwarfdump in {match[1]}")


def check(seed, program, compiler, path):
    checked = Checked(path)
    draw = random.Random(f"{seed} {os.path.basename(os.path.dirname(path))} {os.path.basename(path)}")
    try:
        file = File(path)
        if not file.aranges:
            return None
        answers = check_report(checked, program, file, draw)
        if file.kind != "relocatable":
            check_voices(checked, file, compiler, answers, draw)
    except (KeyError, ValueError, IndexError) as error:
        checked.differs(1, f"the tools' words were not understood: {error!r}")
    return checked


ROW = "{:12} {:6} {:28}{:>6}{:>9}{:>11}{:>8}{:>9}{:>8}{:>11}"


def main(seed, program, listing):
    with open(listing) as file:
        files = [line.rstrip("\n").split("\t") for line in file]
    with concurrent.futures.ThreadPoolExecutor(max(1, (os.cpu_count() or 2) // 2)) as pool:
        results = list(pool.map(lambda line: check(seed, program, line[1], line[3]), files))
    rows, without = {}, 0
    for (target, compiler, kind, _), one in zip(files, results):
        if one is None:
            without += 1
            continue
        if one.notes:
            print("\n".join(one.notes[:5]))
        row = rows.setdefault((target, compiler, kind), [0] * 7)
        for index, number in enumerate((1, one.refused, one.addresses, one.found, one.named, one.looked, one.different)):
            row[index] += number
    print(ROW.format("target", "made by", "kind", "files", "refused", "addresses", "found", "elfutils", "llvm", "different"))
    for key, row in rows.items():
        print(ROW.format(*key, *row))
    total = [sum(column) for column in zip(*rows.values())] or [0] * 7
    print(ROW.format("all", "", "", *total))
    print(f"{without} files more have no section .debug_aranges")
    print(f"{total[0]} files, {total[2]} addresses, {total[6]} different")
    return 1 if total[6] or not total[2] else 0


if __name__ == "__main__":
    if len(sys.argv) != 4:
        sys.exit(__doc__)
    sys.exit(main(*sys.argv[1:]))
