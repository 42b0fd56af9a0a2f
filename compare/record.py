#!/usr/bin/env python3
"""Picks inputs that show every kind of answer, and records what gimli answers to them.

    record.py walks DRIVER INPUTS MOST PICKED ANSWERS
    record.py reads DRIVER INPUTS MOST PICKED ANSWERS

DRIVER is the driver of that name, INPUTS a file of its inputs as generate.py writes them. The inputs picked go into the
file PICKED, and what DRIVER answers to them into ANSWERS. At most MOST are picked.

walks: the inputs are gone through from the shortest to the longest. One is picked if it has a kind of line that was seen
fewer than 20 times with its reader kind and byte order, or if no input before it has just its kinds of lines, each fault by
its name. If that makes too many, those stay whose rarest kind had been seen least, and of these the shortest. Of the inputs
that begin with no reader kind and byte order, at most 40 are picked, of all lengths.

reads: the lines are sorted by form and call, reader kind, byte order, and fault or none, or by the length of what is
written. Of each sort the same number is picked, or all; they are spread over the numbers of the calls and the lengths of the
lines.
"""
import collections
import itertools
import random
import subprocess
import sys

MALFORMED = 40
ENOUGH = 20


def answers(driver, inputs):
    """All that a driver writes for inputs."""
    text = "".join(line + "\n" for line in inputs)
    return subprocess.run([driver], input=text, capture_output=True, check=True, text=True).stdout


def read_inputs(path):
    with open(path) as file:
        return sorted(set(file.read().split("\n")[:-1]), key=by_length)


def by_length(line):
    return len(line), line


def kinds_of(answer):
    """The kinds of lines in an answer."""
    kinds = set()
    for line in answer:
        words = line.split(" ")
        kinds.add(" ".join(words[:2]) if words[0] == "!" else words[0] + ("+" if line.startswith("- ") else ""))
    return frozenset(kinds)


def spread(things, count):
    """At most so many of some things, with even gaps."""
    return things if len(things) <= count else [things[index * len(things) // count] for index in range(count)]


def known_head(data):
    """Whether an input begins with a reader kind and a byte order."""
    return len(data) >= 4 and int(data[:2], 16) < 4 and int(data[2:4], 16) < 2


def pick_walks(driver, inputs, most):
    malformed = spread([data for data in inputs if not known_head(data)], min(MALFORMED, most))
    inputs = [data for data in inputs if known_head(data)]
    output = answers(driver, inputs).split("\n")
    seen, shapes, picked = {}, set(), []
    at = 0
    for data in inputs:
        end = output.index("=", at)
        head, kinds, at = data[:4], kinds_of(output[at:end]), end + 1
        rarest = min((seen.get((head, kind), 0) for kind in kinds), default=ENOUGH)
        if rarest >= ENOUGH and (head, kinds) in shapes:
            continue
        shapes.add((head, kinds))
        for kind in kinds:
            seen[head, kind] = seen.get((head, kind), 0) + 1
        picked.append((min(rarest, ENOUGH), data, kinds))
    picked = sorted(picked, key=lambda pick: pick[0])[:most - len(malformed)]
    counts = collections.Counter((data[:4], kind) for _, data, kinds in picked for kind in kinds)
    for (head, kind), count in sorted(counts.items()):
        print(head, kind, count, file=sys.stderr)
    return malformed + sorted((data for _, data, _ in picked), key=by_length)


def sort_of(line, answer):
    """What a line is counted as, and the call's number."""
    words = line.split(" ")
    if len(words) == 2:
        return (words[0], "", "", f"{len(answer) // 2} bytes"), words[1].startswith("-")
    form, kind, order = words[:3] if words[0] == "reloc" else ("", *words[:2])
    name, _, number = words[-1].partition(":")
    return (form + " " + name, kind, order, answer.split(" ")[1] if answer.startswith("!") else "ok"), number


def pick_reads(driver, inputs, most):
    sorts = {}
    random.Random(0).shuffle(inputs)
    for line, answer in zip(inputs, answers(driver, inputs).split("\n")):
        sort, number = sort_of(line, answer)
        sorts.setdefault(sort, {}).setdefault((number, len(line)), []).append(line)
    sorts = {sort: [group for _, group in sorted(groups.items())] for sort, groups in sorted(sorts.items())}
    sizes = [sum(map(len, groups)) for groups in sorts.values()]
    share = 0
    while share < max(sizes) and sum(min(share + 1, size) for size in sizes) <= most:
        share += 1
    picked = []
    for sort, groups in sorts.items():
        picked += itertools.islice(in_turn(spread(groups, share)), share)
        print(*sort, min(share, sum(map(len, groups))), file=sys.stderr)
    return picked


def in_turn(lists):
    """One element of each list, then the next of each, to the end of the longest."""
    for row in itertools.zip_longest(*lists):
        yield from (element for element in row if element is not None)


def main(form, driver, inputs, most, picked_path, answers_path):
    pick = {"walks": pick_walks, "reads": pick_reads}[form]
    picked = pick(driver, read_inputs(inputs), int(most))
    with open(picked_path, "w") as file:
        file.writelines(line + "\n" for line in picked)
    with open(answers_path, "w") as file:
        file.write(answers(driver, picked))
    print(len(picked), "picked", file=sys.stderr)


if __name__ == "__main__":
    if len(sys.argv) != 7 or sys.argv[1] not in ("walks", "reads"):
        sys.exit(__doc__)
    main(*sys.argv[1:])
