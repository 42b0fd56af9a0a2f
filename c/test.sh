#!/usr/bin/env bash
# Proves and builds the static library, and runs two programs with it: c/test.c, and the example of docs/C.md on itself.
# It fails where a check fails.
set -euo pipefail
cd "$(dirname "${BASH_SOURCE[0]}")/.."
(cd crates/mallethill && rt lib)
built=$(mktemp -d)
trap 'rm -rf "$built"' EXIT

# clang writes .debug_aranges only where it is asked to
case $(cc --version) in
*clang*) debug=(-g -gdwarf-aranges) ;;
*) debug=(-g) ;;
esac
with_library() {
    cc -Wall -Wextra -Werror "${debug[@]}" -I crates/mallethill/include "$1" crates/mallethill/out/libmallethill.a \
        -o "$2"
}

with_library c/test.c "$built/test"
"$built/test"

sed -n '/^    \/\/ unit.c/,/^    }$/{s/^    //;p}' docs/C.md > "$built/unit.c"
with_library "$built/unit.c" "$built/unit"
objcopy --dump-section ".debug_aranges=$built/section" "$built/unit" /dev/null
main=0x$(nm "$built/unit" | sed -n 's/ T main$//p')
"$built/unit" "$built/section" "$main" | tee "$built/said"
grep -q '^unit at 0, 0 faulty tuples passed$' "$built/said"
