#!/usr/bin/env python3
"""Plants bugs in a copy of the repository, one at a time, and says whether the prover refuses each.

    planted/plant.py [--edits] [CRATE ..]

The bugs stand in planted/bugs.txt: a line `crate file`, then lines `- old`, `+ new` (several of each where a bug takes
more lines), then an empty line. With --edits the must-fail edits of the crates are tried in their place. Each bug is
tried with `rt check`, which takes over what did not change, in a scratch copy of the repository under /tmp.

    refused   a fact that has to be proved fails: the line tells the first
    answer    an answer in a proof file no longer proves its fact: look whether the fact is false, or only its names changed
    unfit     the bug does not compile, or only names of a proof file are missing: it shows nothing
    PROVED    the contract is too weak: it holds of the bug too
"""
import glob
import os
import re
import shutil
import subprocess
import sys


def bugs(path):
    bug = None
    for line in open(path).read().split("\n"):
        if line.startswith("- "):
            bug[2].append(line[2:])
        elif line.startswith("+ "):
            bug[3].append(line[2:])
        elif line and not line.startswith("#"):
            crate, file = line.split(" ")
            bug = (crate, file, [], [])
        elif not line and bug:
            yield bug[0], bug[1], [("\n".join(bug[2]), "\n".join(bug[3]))]
            bug = None


def edits(root):
    for path in sorted(glob.glob(root + "/crates/*/must-fail/*.edit")):
        lines = [line.split(": ", 1) for line in open(path).read().split("\n") if line]
        file, olds, news = ([text for key, text in lines if key == wanted] for wanted in ("file", "old", "new"))
        yield path.split("/")[-3], file[0], list(zip(olds, news))


def verdict(status, output):
    # not by a line `logic=proved`: the crates below come first, and each has one
    if status == 0:
        return "PROVED", ""
    unproved = r"(?:^|\s)(?:\./)?(src/\S+): (?:note: )?(?:it is not proved that|`search` found no proof) (.*)"
    facts = re.findall(unproved, output, re.M)
    if re.search(r"error\[", output) and not facts:
        return "unfit", re.search(r"error\[.*", output).group(0)[:150]
    if facts:
        return "refused", "%s: %s" % (facts[0][0], facts[0][1][:110])
    wrong = re.findall(r"^\S*?/(proofs/\S+): error: (.*)", output, re.M)
    missing = r"that can be named|has no field|not in scope|has no `|was not admitted"
    names = [w for w in wrong if re.search(missing, w[1])]
    if wrong and len(names) < len(wrong):
        first = next(w for w in wrong if w not in names)
        return "answer", "%s: %s" % (first[0], first[1][:110])
    return "unfit", (wrong[0][1] if wrong else output[-200:])[:150]


def main(arguments):
    root = os.path.dirname(os.path.dirname(os.path.abspath(__file__)))
    scratch = "/tmp/planted-%d" % os.getpid()
    shutil.copytree(root, scratch, ignore=shutil.ignore_patterns(".git", "out"), symlinks=True)
    chosen = [a for a in arguments if not a.startswith("--")]
    source = edits(root) if "--edits" in arguments else bugs(root + "/planted/bugs.txt")
    counts = {}
    for crate, file, changes in source:
        if chosen and crate not in chosen:
            continue
        path = os.path.join(scratch, "crates", crate, file)
        text = open(path).read()
        changed, counts_of_old = text, []
        for old, new in changes:
            counts_of_old.append(changed.count(old))
            changed = changed.replace(old, new)
        if any(count != 1 for count in counts_of_old):
            result, note = "unfit", "stands %s times" % counts_of_old
        else:
            open(path, "w").write(changed)
            folder = os.path.join(scratch, "crates", crate)
            run = subprocess.run(["rt", "check", "--jobs", "1"], cwd=folder, capture_output=True, text=True)
            result, note = verdict(run.returncode, run.stdout + run.stderr)
            open(path, "w").write(text)
        counts[result] = counts.get(result, 0) + 1
        shown = [" / ".join(part.strip() for part in text.split("\n"))[:90] for text in changes[0]]
        print("%-8s %s/%s: %s -> %s | %s" % (result, crate, file, *shown, note), flush=True)
    print(", ".join("%d %s" % (n, r) for r, n in sorted(counts.items())))
    shutil.rmtree(scratch)
    return 1 if "PROVED" in counts else 0


if __name__ == "__main__":
    sys.exit(main(sys.argv[1:]))
