#!/usr/bin/env python3
"""Makes an x86-64 ELF object whose .debug_aranges has N tuples, in sets of M, each begin and info offset relocated.

    objects.py [--shuffle] N [M] > OBJECT

The tuple k is the range of 16 addresses from 16 * k on in `.text`, and the set k of the unit at 64 * k of `.debug_info`. M is
20 where it is not given. With --shuffle the relocations stand in no order. There are N relocations of begins, and one more
for each set.
"""
import random
import struct
import sys

TEXT, INFO, ARANGES, RELOCATIONS, SYMBOLS, STRINGS, NAMES = range(1, 8)


def aranges(tuples, in_set):
    """The section, and its relocation entries."""
    section, entries = bytearray(), []
    for first in range(0, tuples, in_set):
        last = min(first + in_set, tuples)
        length = 12 + 16 * (last - first + 1)
        entries.append(struct.pack("<QQq", len(section) + 6, (2 << 32) | 10, 64 * (first // in_set)))
        section += struct.pack("<IHIBBI", length, 2, 0, 8, 0, 0)
        for place in range(first, last):
            entries.append(struct.pack("<QQq", len(section), (1 << 32) | 1, 16 * place))
            section += struct.pack("<QQ", 0, 16)
        section += bytes(16)
    return bytes(section), entries


def main(words):
    numbers = [int(word) for word in words if word != "--shuffle"]
    tuples, in_set = numbers[0], (numbers + [20])[1]
    section, entries = aranges(tuples, in_set)
    if "--shuffle" in words:
        random.Random(1).shuffle(entries)
    names = b"\0.text\0.debug_info\0.debug_aranges\0.rela.debug_aranges\0.symtab\0.strtab\0.shstrtab\0"
    # name, type, bytes, link, info, size of an entry
    symbols = bytes(24) + b"".join(struct.pack("<IBBHQQ", 0, 3, 0, index, 0, 0) for index in (TEXT, INFO))
    parts = [
        (b".text", 1, b"\x90" * 16, 0, 0, 0),
        (b".debug_info", 1, bytes(64), 0, 0, 0),
        (b".debug_aranges", 1, section, 0, 0, 0),
        (b".rela.debug_aranges", 4, b"".join(entries), SYMBOLS, ARANGES, 24),
        (b".symtab", 2, symbols, STRINGS, 3, 24),
        (b".strtab", 3, b"\0", 0, 0, 0),
        (b".shstrtab", 3, names, 0, 0, 0),
    ]
    body, heads = bytearray(), bytearray(64)
    for name, kind, content, link, info, entry in parts:
        body += bytes(-len(body) % 8)
        place = names.index(b"\0" + name + b"\0") + 1
        heads += struct.pack("<IIQQQQIIQQ", place, kind, 0, 0, 64 + len(body), len(content), link, info, 8, entry)
        body += content
    body += bytes(-len(body) % 8)
    head = b"\x7fELF" + bytes([2, 1, 1]) + bytes(9)
    head += struct.pack("<HHIQQQIHHHHHH", 1, 62, 1, 0, 0, 64 + len(body), 0, 64, 0, 0, 64, len(parts) + 1, NAMES)
    sys.stdout.buffer.write(head + body + heads)


if __name__ == "__main__":
    main(sys.argv[1:])
