#!/bin/bash
# Gives the same drawn inputs to gimli's files and to our programs, and compares what they write.
#
#   run.sh [OPTION...] REPLAY WALKS READS LINES
#
# REPLAY and READS are the paths of our programs `replay` and `reads`; WALKS and LINES are how many inputs each is given.
# A path `-` leaves a program out.
#
# --seed SEED   what the inputs are drawn by (1 if not given)
# --checked     gimli with debug assertions and overflow checks on
# --i686 DIR    gimli as a 32-bit program, and only the readers with offsets of 32 bits; DIR is where fetch-i686.sh put its
#               files, and is filled by it if it is not there
# --work DIR    where the drivers, inputs and outputs go, and stay (if not given, a directory that is deleted)
# --show MOST   how many different inputs are shown (5 if not given)
#
# GIMLI_SRC names the directory src of gimli 0.34.0. Ends with 1 if anything is different, or a program fails.
set -euo pipefail
here=$(cd "$(dirname "${BASH_SOURCE[0]}")" && pwd)
usage() { sed -n '2,17s/^# \{0,1\}//p' "$0" >&2; exit 2; }

seed=1 show=5 work='' narrow='' build=()
while [ $# -gt 4 ]; do
    case $1 in
    --seed) seed=$2; shift ;;
    --checked) build+=(--checked) ;;
    --i686)
        narrow=--narrow
        [ -d "$2/root" ] || "$here/fetch-i686.sh" "$2"
        build+=(--i686 "$2/root")
        shift
        ;;
    --work) work=$2; shift ;;
    --show) show=$2; shift ;;
    *) usage ;;
    esac
    shift
done
[ $# = 4 ] || usage
if [ -z "$work" ]; then
    work=$(mktemp -d)
    trap 'rm -rf "$work"' EXIT
fi
mkdir -p "$work"
"$here/build.sh" "${build[@]}" "$work"

# compare FORM PROGRAM COUNT
failed=0
compare() {
    local form=$1 program=$2 count=$3 inputs=$work/$1.in expected=$work/$1.expected answers=$work/$1.answers
    [ "$program" != - ] || return 0
    "$here/generate.py" $narrow "$form" "$seed" "$count" >"$inputs"
    "$work/$form" <"$inputs" >"$expected"
    echo "$form: $count inputs by seed $seed, $(sort -u "$inputs" | wc -l) distinct"
    local code=0 same=0
    "$program" <"$inputs" >"$answers" || code=$?
    if [ $code != 0 ]; then
        echo "$program ended with $code"
        failed=1
    fi
    cmp -s "$expected" "$answers" || same=1
    "$here/diff.py" "$form" "$inputs" "$expected" "$answers" "$show" || same=$((same + 2))
    case $same in
    0) ;;
    3) failed=1 ;;
    *) echo "cmp and diff.py do not agree about $expected and $answers"; failed=1 ;;
    esac
}

compare walks "$1" "$2"
compare reads "$3" "$4"
exit $failed
