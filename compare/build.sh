#!/bin/bash
# Builds the drivers around gimli's files: OUT/walks and OUT/reads.
#
#   build.sh [--checked | --fast] [--i686 ROOT] OUT
#
# GIMLI_SRC     the directory src of gimli 0.34.0, or one with the nine files named below
# RUSTC         the compiler, if not rustc
# --checked     with debug assertions and overflow checks on, not optimised
# --fast        optimised as far as rustc goes, and for the processor that our library is built for; without the drivers
# --i686 ROOT   as 32-bit programs, with the compiler that fetch-i686.sh left in ROOT
#
# The files are linked to where they lie, not copied; OUT/gimli.sha256 has their sums.
set -euo pipefail
here=$(cd "$(dirname "${BASH_SOURCE[0]}")" && pwd)
usage() { sed -n '2,12s/^# \{0,1\}//p' "$0" >&2; exit 2; }

flags="-C opt-level=2"
drivers="walks reads"
root=
while [ $# -gt 1 ]; do
    case $1 in
    --checked) flags="-C opt-level=0 -C debug-assertions=on -C overflow-checks=on" ;;
    --fast) flags="-C opt-level=3 -C codegen-units=1 -C target-cpu=x86-64-v2" drivers= ;;
    --i686) root=$(cd "$2" && pwd); shift ;;
    *) usage ;;
    esac
    shift
done
[ $# = 1 ] || usage
[ -n "${GIMLI_SRC-}" ] || { echo "GIMLI_SRC does not name a directory" >&2; exit 2; }
source=$(cd "$GIMLI_SRC" && pwd)
mkdir -p "$1"
out=$(cd "$1" && pwd)

nine="common.rs endianity.rs leb128.rs read/aranges.rs read/endian_reader.rs read/endian_slice.rs read/reader.rs
    read/relocate.rs read/rnglists.rs"
made=$out/gimli-0.34.0
rm -rf "$made"
mkdir "$made"
cp -r "$here/stand-ins" "$made/src"
for file in $nine; do
    ln -s "$source/$file" "$made/src/$file"    # fails if a stand-in has the name
done
(cd "$source" && sha256sum $nine) >"$out/gimli.sha256"

if [ -z "$root" ]; then
    compile() { "${RUSTC:-rustc}" $flags "$@"; }
else
    gcc=$(echo "$root"/usr/lib/gcc/i686-linux-gnu/*)
    libs=$root/usr/lib/i386-linux-gnu
    compile() {
        LD_LIBRARY_PATH=$root/usr/lib/x86_64-linux-gnu "$root/usr/bin/rustc" $flags --sysroot "$root/usr" \
            --target i686-unknown-linux-gnu -C target-feature=+crt-static -C linker=gcc -C link-arg=-m32 \
            -C link-arg=--sysroot="$root" -C link-arg=-B"$gcc" -C link-arg=-L"$gcc" -C link-arg=-B"$libs" \
            -C link-arg=-L"$libs" -C link-arg=-L"$root/lib/i386-linux-gnu" "$@"
    }
fi

compile --edition 2018 --crate-type rlib --crate-name stable_deref_trait --out-dir "$made" \
    "$made/src/stable_deref_trait.rs"
compile --edition 2018 --crate-type rlib --crate-name gimli --cap-lints allow --out-dir "$made" \
    --cfg 'feature="read"' --cfg 'feature="read-core"' --cfg 'feature="std"' \
    --extern stable_deref_trait="$made/libstable_deref_trait.rlib" "$made/src/lib.rs"
for driver in $drivers; do
    compile --edition 2021 -L "$made" --extern gimli="$made/libgimli.rlib" \
        -o "$out/$driver" "$here/drivers/$driver.rs"
done
