#!/usr/bin/env python3
"""Drafts planted/bugs.txt: one wrong operator, constant, order or dropped statement at a time, all over the code.

    planted/mutate.py [MOST] >DRAFT

Of each function at most MOST bugs are taken (4 if not given), evenly over its body. Clauses, comments, imports, tests,
programs' `main` and crates that promise nothing are left alone. A bug is told with the lines around it, so that it
stands once in its file. It is a draft: some of it does not compile or changes nothing, and functions of one word or one
call have nothing to swap. planted/bugs.txt is the draft put right by hand, with bugs for those too.
"""
import glob
import os
import re
import sys

SWAPS = [
    (r" <= ", " < "), (r" >= ", " > "), (r" < ", " <= "), (r" > ", " >= "), (r" == ", " != "), (r" != ", " == "),
    (r" && ", " || "), (r" \|\| ", " && "), (r" \+ ", " - "), (r" - ", " + "), (r" << ", " >> "), (r" >>= ", " <<= "),
    (r" \+= ", " -= "), (r"\btrue\b", "false"), (r"\bfalse\b", "true"),
    (r"RunTimeEndian::Big\b", "RunTimeEndian::Little"), (r"RunTimeEndian::Little\b", "RunTimeEndian::Big"),
    (r"Format::Dwarf64\b", "Format::Dwarf32"), (r"Format::Dwarf32\b", "Format::Dwarf64"),
    (r"saturating_sub\((\w)", r"saturating_add(\1"), (r"\.min\(", ".max("), (r"wrapping_add", "wrapping_sub"),
    (r"from_le_bytes", "from_be_bytes"), (r"from_be_bytes", "from_le_bytes"), (r"\bnext_raw\(\)", "next()"),
    (r"\bread_u8\(", "read_u16("), (r"\bread_u16\(", "read_u8("), (r"\.truncate\(", ".skip("), (r"\.skip\(", ".truncate("),
    (r"Ok\(None\)", "Err(Error::NothingOpen)"),
]
NUMBER = re.compile(r"(?<![\w.#])(0x[0-9a-f_]+|\d+)(?![\w.])")
DROPPED = re.compile(r"^\s+(self\.[\w.]+ [-+]?= .*;|self\.[\w.]+\(.*\);|\w+ [-+|]?= .*;|[\w.]+\(.*\)\?;|buf\..*;)$")


def bodies(text):
    """The first and last line of each function's body, with its name."""
    lines = text.split("\n")
    at = 0
    while at < len(lines):
        found = re.match(r"^(\s*)(pub )?(extern \"C\" )?fn (\w+)", lines[at])
        if not found:
            at += 1
            continue
        start = at
        while at < len(lines) and not re.match(r"^(\s*\{|.*\) (-> .* )?\{|.*> \{)$", lines[at]) and not lines[at].endswith(";"):
            at += 1
        if at >= len(lines) or lines[at].endswith(";"):
            at = max(at, start) + 1
            continue
        close = found.group(1) + "}"
        end = at + 1
        while end < len(lines) and lines[end] != close:
            end += 1
        yield found.group(4), at + 1, end
        at = end + 1


def changes(line):
    if re.match(r"\s*(//|prove!)", line):
        return
    for old, new in SWAPS:
        changed = re.sub(old, new, line, count=1)
        if changed != line:
            yield changed
    for number in NUMBER.finditer(line):
        digits = number.group(1)
        value = int(digits.replace("_", ""), 0) + 1
        yield line[:number.start(1)] + (hex(value) if digits.startswith("0x") else str(value)) + line[number.end(1):]
    if DROPPED.match(line):
        yield ""


def main(most):
    count = 0
    for path in sorted(glob.glob("crates/*/src/*.rt")):
        crate, file = path.split("/")[1], "/".join(path.split("/")[2:])
        if os.path.exists("crates/%s/src/main.rt" % crate):
            continue
        text = open(path).read()
        if not re.search(r"^\s*(ensures|ghost \w+ =)", text, re.M):
            continue
        lines = text.split("\n")
        for name, first, last in bodies(text):
            found = [(at, new) for at in range(first, last) for new in changes(lines[at])]
            if len(found) > most:
                found = [found[i * len(found) // most] for i in range(most)]
            for at, new in found:
                before, after = at, at + 1
                while text.count("\n".join(lines[before:after])) != 1:
                    before, after = max(before - 1, 0), min(after + 1, len(lines))
                old = lines[before:after]
                put = lines[before:at] + ([new] if new else []) + lines[at + 1:after]
                print("# %s" % name)
                print("%s %s" % (crate, file))
                print("\n".join("- " + x for x in old))
                print("\n".join("+ " + x for x in put))
                print()
                count += 1
    print("%d bugs" % count, file=sys.stderr)


if __name__ == "__main__":
    main(int(sys.argv[1]) if len(sys.argv) > 1 else 4)
