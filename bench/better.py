#!/usr/bin/env python3
"""Joins what bench/speed wrote at two places of its code: each side's better time, and the ratios of these.

    better.py TIMES TIMES

A line is a name, then after `|` the section's bytes, how many things were read, and the nanoseconds for each of them: ours,
gimli's and the bare pass's. Other lines are headings, and are shown as they are.
"""
import sys


def main(paths):
    least = float("inf")
    heads = ["", "bytes", "items", "ours", "gimli", "bare", "million/s", "x gimli", "x bare"]
    print("%-34s %9s %8s %8s %8s %8s %9s %8s %7s" % tuple(heads))
    for lines in zip(*(open(path).read().split("\n") for path in paths)):
        if "|" not in lines[0]:
            print(lines[0])
            continue
        name = lines[0].split("|")[0]
        rows = [[float(number) for number in line.split("|")[1].split()] for line in lines]
        size, items = rows[0][:2]
        ours, gimli, bare = (min(row[place] for row in rows) for place in (2, 3, 4))
        least = min(least, gimli / ours)
        print("%-34s %9d %8d %8.2f %8.2f %8.2f %9.1f %8.2f %7.1f"
              % (name, size, items, ours, gimli, bare, 1000 / ours, gimli / ours, ours / bare))
    print("the least of the ratios to gimli: %.2f" % least)


if __name__ == "__main__":
    main(sys.argv[1:])
