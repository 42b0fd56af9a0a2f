#!/bin/bash
# Builds our static library and gimli's files, and times them on the same sections: bench/speed.rs.
#
#   run.sh [MILLISECONDS]
#
# MILLISECONDS  how long each line may take (400 if not given)
# GIMLI_SRC     the directory src of gimli 0.34.0, or one with the nine files that compare/build.sh names
# RUSTC         the compiler, if not rustc
#
# The time of a short loop depends on its place in the program: on many processors a jump across a border of 32 bytes
# costs more. So the program is linked twice, with its code 16 bytes apart, and each side is shown at its better time.
set -euo pipefail
here=$(cd "$(dirname "${BASH_SOURCE[0]}")" && pwd)
top=$(cd "$here/.." && pwd)
made=$(mktemp -d)
trap 'rm -rf "$made"' EXIT

(cd "$top/crates/mallethill" && rt lib) >&2
"$top/compare/build.sh" --fast "$made" >&2
gimli=$made/gimli-0.34.0
for place in 100000 100010; do
    "${RUSTC:-rustc}" --edition 2021 -C opt-level=3 -C codegen-units=1 -C target-cpu=x86-64-v2 -L "$gimli" \
        --extern gimli="$gimli/libgimli.rlib" -C link-arg="$top/crates/mallethill/out/libmallethill.a" \
        -C link-arg=-Wl,--section-start=.text=0x$place -o "$made/speed-$place" "$here/speed.rs"
    "$made/speed-$place" "$@" >"$made/times-$place"
done
"$here/better.py" "$made"/times-*
