#!/usr/bin/env python3
"""Writes the units of a C program that is drawn by a seed.

    generate.py SEED UNITS DIR

DIR gets UNITS files unit0.c, unit1.c, ..; the program begins at the function `start` of unit0.c. Each unit has some
functions, of which a few are never called, and some data. Nothing needs a library: no sum is a product or a quotient.
"""
import random
import sys


class Unit:
    """The text of a unit, and what other units may use of it."""

    def __init__(self, draw, number):
        self.draw, self.number, self.lines, self.functions, self.data = draw, number, [], [], []

    def add_data(self):
        name = f"data{self.number}_{len(self.data)}"
        size = self.draw.choice((1, 3, 16, 100))
        kind = self.draw.choice(("static volatile int", "volatile int", "volatile short", "static const volatile int"))
        first = self.draw.choice(("", f" = {{{self.number + 1}}}"))
        if "const" in kind:
            first = first or " = {7}"
        self.lines.append(f"{kind} {name}[{size}]{first};")
        self.data.append(name)

    def expression(self, others):
        parts = ["a", f"(a >> {self.draw.randint(1, 7)})", str(self.draw.randint(0, 5000))]
        if self.data:
            parts.append(f"{self.draw.choice(self.data)}[0]")
        if others:
            parts.append(f"{self.draw.choice(others)}(a ^ {self.draw.randint(1, 99)})")
        self.draw.shuffle(parts)
        return self.draw.choice((" + ", " ^ ", " - ")).join(parts[:self.draw.randint(1, len(parts))])

    def add_function(self, others):
        """A function that calls none but those that stand before it, so that the program ends."""
        name = f"f{self.number}_{len(self.functions)}"
        inner = self.draw.random() < 0.25
        place = '__attribute__((section(".text.hot"))) ' if self.draw.random() < 0.06 else ""
        words = "static __attribute__((noinline, used)) " if inner else ""
        self.lines.append(f"{place}{words}int {name}(int a) {{")
        for _ in range(self.draw.randint(0, 3)):
            self.lines.append(f"    if (a & {1 << self.draw.randint(0, 9)}) a = {self.expression(others)};")
        if self.data and self.draw.random() < 0.5:
            data = [name for name in self.data if f"const volatile int {name}" not in " ".join(self.lines)]
            if data:
                self.lines.append(f"    {self.draw.choice(data)}[0] = a;")
        self.lines.append(f"    return {self.expression(others)};\n}}")
        self.functions.append(name)
        return None if inner else name


def program(seed, count):
    """The texts of all units."""
    draw = random.Random(seed)
    known, texts = [], {}
    for number in reversed(range(count)):
        unit = Unit(draw, number)
        outer = draw.sample(known, min(len(known), 4))
        unit.lines += [f"extern int {name}(int);" for name in outer]
        for _ in range(draw.randint(0, 3)):
            unit.add_data()
        own = []
        for _ in range(draw.choice((0, 1, 2, 3, 5, 8)) if number else 2):
            name = unit.add_function(outer + own)
            if name:
                own.append(name)
        if number == 0:
            unit.lines.append("volatile int result;\nvoid start(void) {")
            unit.lines += [f"    result = {name}({draw.randint(0, 9)});" for name in outer + own]
            unit.lines.append("    for (;;) result = result;\n}")
        known += own
        texts[f"unit{number}.c"] = "\n".join(unit.lines) + "\n"
    return texts


def write(seed, count, folder):
    for name, text in program(seed, count).items():
        with open(f"{folder}/{name}", "w") as file:
            file.write(text)


if __name__ == "__main__":
    if len(sys.argv) != 4:
        sys.exit(__doc__)
    write(sys.argv[1], int(sys.argv[2]), sys.argv[3])
