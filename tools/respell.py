#!/usr/bin/env python3
"""Brings the repository's own definitions, lemmas, fields and constructors to snake case, and its types to camel case.

    tools/respell.py [--list]

Run once, at the top, right after the toolchain's own upgrade script, on files that nobody has edited since. A name counts
as the repository's own if a file of specs/ or a lemma file of proofs/ declares it; answers and invariants, whose names the
prover makes, declare none. The crate of hexadecimal digits gets a name that no library of the toolchain has. With --list
it only prints what would be renamed, and where two names of one file would fall together.
"""
import glob
import os
import re
import sys

MADE = ("Answers.antt", "Invariants.antt", "Proof.antt", "Lib.antt")
KINDS = ("specs/**/*.antt", "proofs/**/*.antt", "src/**/*.rt", "must-fail/*.edit")
# a name, as antt reads one: a hyphen is a letter of it
TOKEN = re.compile(r"[^\s(){}\[\],;.:«»`\"]+")
DECLARED = re.compile(r"^\s*(?:(?:abbrev|unfoldable|data|record|pub|ruleset)\s+)*([^\s(){}\[\],;.:]+)\s*(?:\s[^:]*)?:\s")

# where the plain spelling would be that of a field or of a word of the library; then variables of statements
CHOSEN = {
    "address-size": "size_of_addresses",
    "Is-some": "IsHeld",
    "So-far": "AskedSoFar",
    "So-many": "ReadSoMany",
    "Stands-at": "HeaderStandsAt",
}
BOUND = ("before-sets", "after-sets")
CRATES = {"hex": "hex_digits"}


def sources(kinds=KINDS):
    for kind in kinds:
        yield from sorted(glob.glob("crates/*/" + kind, recursive=True))


def new_name(name):
    if name in CHOSEN:
        return CHOSEN[name]
    if name[0].isupper():
        return "".join(part[:1].upper() + part[1:] for part in name.split("-"))
    return name.replace("-", "_")


def renamings():
    names = {name: new_name(name) for name in BOUND}
    for path in sources(KINDS[:2]):
        if os.path.basename(path) in MADE:
            continue
        for line in open(path):
            found = DECLARED.match(line)
            if found and not line.lstrip().startswith("--") and re.fullmatch(r"[A-Za-z][\w'-]*-[\w'-]*", found.group(1)):
                names[found.group(1)] = new_name(found.group(1))
    return names


def together(names):
    """The pairs that would be one name: of two of the old ones, or of an old one and one that its file has already."""
    for old, new in names.items():
        others = [other for other in names if other != old and names[other] == new]
        if others:
            yield old, others[0], "everywhere"
    for path in sources(KINDS[:3]):
        tokens = set(TOKEN.findall("\n".join(re.sub(r"^\s*(//|--).*|\"[^\"]*\"", "", line) for line in open(path))))
        for old in tokens & set(names):
            if names[old] in tokens:
                yield old, names[old], path


def turned(text, names):
    text = TOKEN.sub(lambda found: names.get(found.group(0), found.group(0)), text)
    for old, new in CRATES.items():
        text = re.sub(r"\bRattle\.%s\." % old, "Rattle.%s." % new, text)
        text = re.sub(r"^use %s::" % old, "use %s::" % new, text, flags=re.M)
    return text


def main(arguments):
    names = renamings()
    met = list(together(names))
    if "--list" in arguments:
        for old, new in sorted(names.items()):
            print(old, new)
        for old, new, where in met:
            print("together:", old, new, where)
        return 0
    for path in sources():
        text = open(path).read()
        if turned(text, names) != text:
            open(path, "w").write(turned(text, names))
    lines = open("crates.txt").read().split("\n")
    for old, new in CRATES.items():
        os.rename("crates/" + old, "crates/" + new)
        lines = [line if line.startswith("#") else re.sub(r"\b%s\b" % old, new, line) for line in lines]
    open("crates.txt", "w").write("\n".join(lines))
    print(len(names), "names and", len(CRATES), "crate")
    return 0


if __name__ == "__main__":
    raise SystemExit(main(sys.argv[1:]))
