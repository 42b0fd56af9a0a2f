#!/bin/bash
# Compares on sections that compilers and linkers made: our program with gimli, and with what readelf prints.
#
#   real.sh [--work DIR] REPLAY
#
# REPLAY is the path of our program `replay`. The programs beside this script are compiled for every target below whose
# compiler is there, in several forms of DWARF, and linked wholly, partly and not at all; ranges.py makes the comparison and
# prints a table. Needs readelf. On Debian 12 the compilers are in the packages gcc, clang, lld, llvm, gcc-avr and
# gcc-TARGET-linux-gnu. DIR is where files go, and stay; if not given, it is a directory that is deleted.
#
# GIMLI_SRC names the directory src of gimli 0.34.0. Ends with 1 if anything is different.
set -euo pipefail
here=$(cd "$(dirname "${BASH_SOURCE[0]}")" && pwd)
usage() { sed -n '2,11s/^# \{0,1\}//p' "$0" >&2; exit 2; }

work=
if [ $# = 3 ] && [ "$1" = --work ]; then work=$2; shift 2; fi
[ $# = 1 ] || usage
replay=$1
if [ -z "$work" ]; then
    work=$(mktemp -d)
    trap 'rm -rf "$work"' EXIT
fi
"$here/../build.sh" "$work"
files=$work/real-files
rm -rf "$files"
mkdir "$files"
: >"$files/list"

gcc_targets="x86_64 i686 aarch64 arm mips powerpc riscv64 s390x avr"
clang_targets="x86_64-linux-gnu i686-linux-gnu aarch64-linux-gnu aarch64_be-linux-gnu armv7-linux-gnueabi mips-linux-gnu
    mipsel-linux-gnu mips64-linux-gnuabi64 powerpc-linux-gnu powerpc64-linux-gnu riscv32-linux-gnu riscv64-linux-gnu
    m68k-linux-gnu s390x-linux-gnu sparc-linux-gnu sparcv9-linux-gnu hexagon-linux-gnu msp430 avr"

# add TARGET FILE: extracts the section of a file, and lists the file if it has one.
add() {
    [ -e "$2" ] || return 0
    $objcopy -O binary --only-section=.debug_aranges --set-section-flags .debug_aranges=alloc "$2" "$2.aranges" \
        2>/dev/null || return 0
    [ -s "$2.aranges" ] || return 0
    printf '%s\t%s\n' "$1" "$2" >>"$files/list"
}

# make TARGET FORM FLAGS: compiles and links, with $compile, $link and $objcopy; what a target cannot do is left out.
make() {
    local target=$1 dir="$files/$1, $2" name objects=()
    shift 2
    mkdir -p "$dir"
    for name in one two three; do
        $compile "$@" -ffreestanding -c "$here/programs/$name.c" -o "$dir/$name.o" 2>/dev/null || return 0
        objects+=("$dir/$name.o")
        add "$target" "$dir/$name.o"
    done
    make_linked partly.o -r
    make_linked linked $whole
    make_linked collected $whole $collect
    [ -z "$tombstones" ] || make_linked tombstones $whole $collect $tombstones
}

# make_linked NAME FLAGS: a part of make.
make_linked() {
    local file=$dir/$1
    shift
    { $link "$@" "${objects[@]}" -o "$file"; } 2>/dev/null || return 0     # some linkers crash
    add "$target" "$file"
}

make_forms() {
    make "$1" dwarf4 -g -gdwarf-4 -O1
    make "$1" dwarf5 -g -gdwarf-5 -O0
    make "$1" dwarf4-64 -g -gdwarf-4 -gdwarf64 -O2
    make "$1" dwarf5-64 -g -gdwarf-5 -gdwarf64 -O1
    make "$1" sections -g -gdwarf-5 -O2 -ffunction-sections -fdata-sections
    make "$1" sections-64 -g -gdwarf-5 -gdwarf64 -O2 -ffunction-sections -fdata-sections
}

for target in $gcc_targets; do
    case $target in
    x86_64) prefix= ;;
    arm) prefix=arm-linux-gnueabi- ;;
    avr) prefix=avr- ;;
    *) prefix=$target-linux-gnu- ;;
    esac
    command -v "${prefix}gcc" >/dev/null || continue
    compile=${prefix}gcc link="${prefix}gcc -nostdlib" objcopy=${prefix}objcopy
    whole="-static -Wl,-e,start" collect=-Wl,--gc-sections tombstones=
    make_forms "gcc $target"
done

if command -v clang >/dev/null && command -v llvm-objcopy >/dev/null; then
    for target in $clang_targets; do
        compile="clang --target=$target -fintegrated-as -gdwarf-aranges" link=ld.lld objcopy=llvm-objcopy
        whole="-e start" collect=--gc-sections tombstones="-z dead-reloc-in-nonalloc=.debug_aranges=0xffffffffffffffff"
        make_forms "clang ${target%%-*}"
    done
fi

# With the C library, and Rust's own with the drivers.
objcopy=objcopy
for compiler in gcc "clang -gdwarf-aranges"; do
    command -v ${compiler%% *} >/dev/null || continue
    $compiler -g "$here"/programs/*.c -o "$files/${compiler%% *}-libc" 2>/dev/null || true
    add "${compiler%% *} with libc" "$files/${compiler%% *}-libc"
done
for driver in walks reads; do
    cp "$work/$driver" "$files/rust-$driver"
    add "rust" "$files/rust-$driver"
done

"$here/ranges.py" "$work/walks" "$replay" "$files/list"
