#!/usr/bin/env python3
"""Counts the inputs that two programs answer differently, and shows the first of them.

    diff.py walks|reads INPUTS EXPECTED ANSWERS [MOST]

INPUTS has one input to a line; EXPECTED and ANSWERS are what the driver and our program wrote. An answer of `walks` ends
with a line `=`, one of `reads` is a line. An answer that is missing differs. At most MOST inputs are shown (5 if not
given), with the first line of the answers that is not the same. Then come the kinds of lines that were expected, with
their numbers, and the last line is `N equal, M different`. Ends with 1 if M is not 0.
"""
import sys


def answers(file, form):
    """The answers in a file, each a list of lines; one that is cut short has None at its end."""
    answer = []
    for line in file:
        if form == "reads":
            yield [line]
        elif line == "=\n":
            yield answer
            answer = []
        else:
            answer.append(line)
    if answer:
        yield answer + [None]


def kind_of(line):
    words = line.split()
    if not words:
        return "(an empty line)"
    if words[0] == "!":
        return " ".join(words[:2])
    if words[0] == "-" and len(words) > 1:
        return "- PASSED"
    return words[0] if words[0] in ("ok", "bad", "?", "-") or words[0].isupper() else "(digits)"


def show(index, text, expected, answer):
    print(f"input {index}: {text if len(text) <= 600 else text[:600] + '...'}")
    if answer is None:
        print("  no answer")
        return
    lines = max(len(expected), len(answer))
    for at in range(lines):
        first = expected[at] if at < len(expected) else None
        second = answer[at] if at < len(answer) else None
        if first != second:
            print(f"  line {at + 1}: expected {first!r}, answered {second!r}")
            return


def main(form, inputs, expected, answered, most=5):
    equal = different = 0
    kinds = {}
    with open(inputs) as inputs, open(expected) as expected, open(answered, errors="replace") as answered:
        wanted, given = answers(expected, form), answers(answered, form)
        for index, text in enumerate(inputs, 1):
            want, have = next(wanted, None), next(given, None)
            if want is None:
                sys.exit(f"{expected.name}: no answer to input {index}")
            for line in want:
                kind = kind_of(line)
                kinds[kind] = kinds.get(kind, 0) + 1
            if want == have:
                equal += 1
            else:
                different += 1
                if different <= int(most):
                    show(index, text.rstrip("\n"), want, have)
        if next(wanted, None) is not None:
            sys.exit(f"{expected.name}: more answers than inputs")
        if next(given, None) is not None:
            different += 1
            print("more answers than inputs")
    print(", ".join(f"{kind} {count}" for kind, count in sorted(kinds.items())))
    print(f"{equal} equal, {different} different")
    return 1 if different else 0


if __name__ == "__main__":
    if len(sys.argv) not in (5, 6) or sys.argv[1] not in ("walks", "reads"):
        sys.exit(__doc__)
    sys.exit(main(*sys.argv[1:]))
