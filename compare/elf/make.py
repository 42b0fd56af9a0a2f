#!/usr/bin/env python3
"""Makes ELF files with the section .debug_aranges, of every target whose compiler is there.

    make.py SEED DIR

For each target and each form of debug information a program is drawn, compiled and linked in several ways. What a compiler or
a linker cannot do is left out. Prints a line for each file: its target, its compiler, its kind and its path, with tabs between.
"""
import concurrent.futures
import os
import random
import shutil
import subprocess
import sys

import generate

OBJECTS = 4        # of a program that are looked at by themselves

# the names of the targets, and what clang and gcc call them
CLANG = {
    "x86-64": "x86_64-linux-gnu", "i386": "i686-linux-gnu", "arm": "armv7-linux-gnueabi", "armeb": "armebv7-linux-gnueabi",
    "thumb": "thumbv7m-none-eabi", "aarch64": "aarch64-linux-gnu", "aarch64_be": "aarch64_be-linux-gnu",
    "mips": "mips-linux-gnu", "mipsel": "mipsel-linux-gnu", "mips64": "mips64-linux-gnuabi64",
    "mips64el": "mips64el-linux-gnuabi64", "powerpc": "powerpc-linux-gnu", "powerpc64": "powerpc64-linux-gnu",
    "powerpc64le": "powerpc64le-linux-gnu", "riscv32": "riscv32-linux-gnu", "riscv64": "riscv64-linux-gnu",
    "x32": "x86_64-linux-gnux32", "mipsn32": "mips64-linux-gnuabin32",
    "s390x": "s390x-linux-gnu", "sparc64": "sparcv9-linux-gnu", "avr": "avr", "msp430": "msp430",
}
GCC = {
    "x86-64": "", "i386": "i686-linux-gnu-", "arm": "arm-linux-gnueabihf-", "aarch64": "aarch64-linux-gnu-",
    "mips": "mips-linux-gnu-", "mipsel": "mipsel-linux-gnu-", "mips64": "mips64-linux-gnuabi64-",
    "mips64el": "mips64el-linux-gnuabi64-", "powerpc": "powerpc-linux-gnu-", "powerpc64": "powerpc64-linux-gnu-",
    "powerpc64le": "powerpc64le-linux-gnu-", "riscv64": "riscv64-linux-gnu-", "s390x": "s390x-linux-gnu-",
    "sparc64": "sparc64-linux-gnu-",
}
# linkers that take over where lld does not know a target
OTHER_LINKERS = {"armeb": ["arm-linux-gnueabihf-ld", "-EB"], "aarch64_be": ["aarch64-linux-gnu-ld", "-EB"],
                 "s390x": ["s390x-linux-gnu-ld"], "sparc64": ["sparc64-linux-gnu-ld"]}

FORMS = {
    "4": "-gdwarf-4 -O0",
    "5 sections": "-gdwarf-5 -O2 -ffunction-sections -fdata-sections",
    "4 64 sections": "-gdwarf-4 -gdwarf64 -O2 -ffunction-sections",
    "5 64": "-gdwarf-5 -gdwarf64 -O1",
    "5 pic": "-gdwarf-5 -O1 -fPIC",
}
LINKS = {
    "image": ["-e", "start"],
    "image, unused dropped": ["-e", "start", "--gc-sections"],
    "image, relocations kept": ["-e", "start", "--gc-sections", "--emit-relocs"],
    "image, text elsewhere": ["-e", "start", "--gc-sections", "-Ttext"],
    "image, dropped at the top": ["-e", "start", "--gc-sections",
                                  "-z", "dead-reloc-in-nonalloc=.debug_aranges=0xffffffffffffffff"],
    "shared": ["-e", "start", "-pie"],
}


def run(*command, cwd=None):
    """Whether a command went well."""
    environment = dict(os.environ, LC_ALL="C")
    return subprocess.run(command, cwd=cwd, env=environment, stdin=subprocess.DEVNULL, capture_output=True).returncode == 0


class Build:
    """A program of one target, one compiler and one form."""

    def __init__(self, seed, folder, target, compiler, form):
        self.target, self.compiler, self.form = target, compiler, form
        self.draw = random.Random(f"{seed} {target} {compiler} {form}")
        self.folder = f"{folder}/{compiler} {target} {form}".replace(" ", "-")
        self.made = []

    def add(self, kind, name):
        self.made.append((self.target, self.compiler, kind, f"{self.folder}/{name}"))

    def compilers(self):
        if self.compiler == "clang":
            return ["clang", f"--target={CLANG[self.target]}", "-fintegrated-as", "-gdwarf-aranges"]
        return [f"{GCC[self.target]}gcc"]

    def linkers(self):
        if self.compiler == "gcc":
            return [[f"{GCC[self.target]}ld", *self.gcc_emulation()]]
        other = OTHER_LINKERS.get(self.target)
        return [["ld.lld"]] + ([other] if other and shutil.which(other[0]) else [])

    def gcc_emulation(self):
        # the linker's own choice is another one than the compiler's on these
        return {"mips64": ["-melf64btsmip"], "mips64el": ["-melf64ltsmip"]}.get(self.target, [])

    def make(self):
        count = self.draw.choice((3, 3, 4, 5, 6, 8, 12, 20, 40))
        os.makedirs(self.folder)
        generate.write(self.draw.random(), count, self.folder)
        units = [f"unit{number}" for number in range(count)]
        flags = ["-g", *FORMS[self.form].split(), "-w", "-ffreestanding", "-fno-stack-protector"]
        flags += [] if "pic" in self.form or self.target in ("avr", "msp430") else ["-fno-pie"]
        if not run(*self.compilers(), *flags, "-c", *[f"{unit}.c" for unit in units], cwd=self.folder):
            return []
        objects = [f"{unit}.o" for unit in units]
        for name in self.draw.sample(objects, min(OBJECTS, count)):
            self.add("object", name)
        self.link("object of two", ["-r"], self.draw.sample(objects, 2))
        self.link("object, unused dropped", ["-r", "--gc-sections", "-e", "start"], objects)
        for kind, options in LINKS.items():
            if kind == "shared" and "pic" not in self.form:
                continue
            if options[-1] == "-Ttext":
                options = [*options[:-1], f"-Ttext={self.draw.choice((0x8000, 0x1f000, 0x40000000)):#x}"]
            self.link(kind, options, objects)
        return self.made

    def link(self, kind, options, objects):
        name = kind.replace(", ", "-").replace(" ", "-")
        for linker in self.linkers():
            if "dead-reloc" in options[-1] and "lld" not in linker[0]:
                continue
            if run(*linker, *options, *objects, "-o", name, cwd=self.folder):
                self.add(kind, name)
                if kind == "image, unused dropped" and run("llvm-objcopy", "--only-keep-debug", name, "debug-file",
                                                           cwd=self.folder):
                    self.add("debug file", "debug-file")
                return


def rust(folder):
    """Programs of rustc for the host, as it is called by default and with the section asked for."""
    made = []
    os.makedirs(folder)
    with open(f"{folder}/main.rs", "w") as file:
        file.write("mod inner { pub fn twice(a: usize) -> usize { a + a } }\n"
                   "fn main() { let n = std::env::args().count(); println!(\"{}\", inner::twice(n)); }\n")
    for name, options in (("plain", []), ("small", ["-O", "-Ccodegen-units=4"]), ("object", ["--emit=obj"])):
        for asked in ([], ["-Cllvm-args=-generate-arange-section"]):
            path = f"{folder}/{name}{len(asked)}"
            if run("rustc", "-g", *options, *asked, "-o", path, f"{folder}/main.rs"):
                made.append(("x86-64", "rustc", "object" if name == "object" else "shared", path))
    return made


def many_sections(folder):
    """An object whose sections are too many for the 16 bits of their usual numbers."""
    os.makedirs(folder)
    with open(f"{folder}/many.c", "w") as file:
        file.write("int f0(void) { return 0; }\n")
        for number in range(1, 33000):
            # some functions are longer than all before them, so that addresses are in them alone
            calls = " + ".join([f"f{number - 1}()"] * (1 + (number // 1000 if number % 1000 == 999 else 0)))
            file.write(f"int f{number}(void) {{ return {calls}; }}\n")
    well = run("clang", f"--target={CLANG['x86-64']}", "-g", "-gdwarf-aranges", "-O0", "-ffunction-sections", "-c", "many.c",
               "-o", "many.o", cwd=folder)
    return [("x86-64", "clang", "object of 66,000 sections", f"{folder}/many.o")] if well else []


def main(seed, folder):
    os.makedirs(folder, exist_ok=True)
    builds = [Build(seed, folder, target, "clang", form) for target in CLANG for form in FORMS if shutil.which("clang")]
    builds += [Build(seed, folder, target, "gcc", form) for target, prefix in GCC.items() for form in FORMS
               if shutil.which(f"{prefix}gcc")]
    jobs = [build.make for build in builds] + [lambda: rust(f"{folder}/rust"), lambda: many_sections(f"{folder}/many")]
    with concurrent.futures.ThreadPoolExecutor(max(1, (os.cpu_count() or 2) // 2)) as pool:
        for made in pool.map(lambda job: job(), jobs):
            for line in made:
                print("\t".join(line))


if __name__ == "__main__":
    if len(sys.argv) != 3:
        sys.exit(__doc__)
    main(*sys.argv[1:])
