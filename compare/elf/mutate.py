#!/usr/bin/env python3
"""Gives addr2unit files with changed bytes and cut ends: it has to end with status 0 or 1, soon, and with a sentence at 1.

    mutate.py SEED COUNT ADDR2UNIT LIST

LIST has the lines that make.py prints; files of at most 200,000 bytes are changed. Bytes are changed in the ELF header, in the
section table, in the section .debug_aranges, in its relocations and symbols, and anywhere, or the end is cut. Each changed file
is run with 12 addresses, a part of them with --strict. Prints how many ended how, and ends with 1 if one ended otherwise, or
took longer than a second of its own time.
"""
import collections
import os
import random
import re
import resource
import subprocess
import sys
import tempfile

LARGEST = 200000
INTERESTING = (0, 1, 2, 3, 4, 8, 0x7f, 0x80, 0xf0, 0xfe, 0xff)


class Original:
    """A file, and the parts of it that bear on the report."""

    def __init__(self, path):
        with open(path, "rb") as file:
            self.data = file.read()
        head = subprocess.run(["readelf", "-hSW", path], capture_output=True, text=True, errors="replace").stdout
        table = int(re.search(r"Start of section headers: +(\d+)", head)[1])
        self.parts = [(0, 64), (table, len(self.data) - table)]
        for name, offset, size in re.findall(r"\] (\S+) +[A-Z]\S* +[0-9a-f]+ ([0-9a-f]+) ([0-9a-f]+) ", head):
            if re.search(r"\.(rela?\.)?debug_aranges$|^\.symtab$|^\.strtab$|^\.shstrtab$", name):
                self.parts.append((int(offset, 16), int(size, 16)))
        self.parts = [(at, size) for at, size in self.parts if size > 0 and at + size <= len(self.data)]
        self.parts.append((0, len(self.data)))


def mutate(draw, original):
    data = bytearray(original.data)
    for _ in range(draw.choice((1, 1, 1, 2, 3, 8, 40))):
        at, size = draw.choice(original.parts)
        place = at + draw.randrange(size)
        way = draw.randrange(4)
        if way == 0:
            data[place] = draw.choice(INTERESTING)
        elif way == 1:
            data[place] ^= 1 << draw.randrange(8)
        elif way == 2:
            data[place] = draw.randrange(256)
        else:
            length = min(draw.choice((2, 4, 8)), len(data) - place)
            data[place:place + length] = draw.choice((b"\xff", b"\x00", b"\x80")) * length
    if draw.random() < 0.15:
        del data[draw.choice((draw.randrange(len(data)), draw.randrange(120))):]
    return bytes(data)


def outcome(program, path, addresses, strict):
    """How a run ended, and whether it may."""
    before = resource.getrusage(resource.RUSAGE_CHILDREN)
    try:
        done = subprocess.run([program, *["--strict"] * strict, path, *addresses], capture_output=True, timeout=60,
                              stdin=subprocess.DEVNULL)
    except subprocess.TimeoutExpired:
        return "no end in 60 seconds", False
    after = resource.getrusage(resource.RUSAGE_CHILDREN)
    # its own time, so that other work of the machine does not count
    seconds = after.ru_utime + after.ru_stime - before.ru_utime - before.ru_stime
    if seconds > 1:
        return "longer than a second", False
    sentence = done.stderr.startswith(b"addr2unit: ") and done.stderr.count(b"\n") == 1
    if done.returncode == 0:
        return "0, with a report", not done.stderr and b"\ntotal: addresses 12, " in done.stdout
    if done.returncode == 1 and done.stdout:
        return "1, halted by --strict", strict and not done.stderr and b"; halted\n" in done.stdout
    if done.returncode == 1:
        return "1, with a sentence", sentence
    return f"status {done.returncode}", False


def main(seed, count, program, listing):
    draw = random.Random(seed)
    with open(listing) as file:
        paths = [line.rstrip("\n").split("\t")[3] for line in file]
    paths = [path for path in paths if os.path.getsize(path) <= LARGEST]
    originals, outcomes, wrong = {}, collections.Counter(), 0
    with tempfile.TemporaryDirectory() as folder:
        for number in range(int(count)):
            path = draw.choice(paths)
            if path not in originals:
                originals[path] = Original(path)
            changed = f"{folder}/changed"
            with open(changed, "wb") as file:
                file.write(mutate(draw, originals[path]))
            addresses = [f"{draw.getrandbits(draw.choice((4, 8, 16, 24, 32, 64))):x}" for _ in range(12)]
            what, well = outcome(program, changed, addresses, draw.random() < 0.2)
            outcomes[what] += 1
            if not well:
                wrong += 1
                kept = f"{os.path.dirname(listing) or '.'}/wrong-{number}"
                os.replace(changed, kept)
                print(f"{kept}, made of {path}: {what}; addresses {' '.join(addresses)}")
    for what, number in sorted(outcomes.items()):
        print(f"{number:>7} ended with {what}")
    print(f"{count} changed files, {wrong} wrong")
    return 1 if wrong else 0


if __name__ == "__main__":
    if len(sys.argv) != 5:
        sys.exit(__doc__)
    sys.exit(main(*sys.argv[1:]))
