#!/bin/bash
# Compares addr2unit with readelf, llvm-dwarfdump and eu-addr2line on ELF files of all compilers that are there.
#
#   run.sh [OPTION...] ADDR2UNIT
#
# ADDR2UNIT is the path of the program. Programs are drawn, compiled and linked for every target whose compiler is there; each
# report at drawn addresses is compared with what the other tools tell; then the refusals are tried, and files with changed
# bytes.
#
# --seed SEED    what programs, addresses and changes are drawn by (1 if not given)
# --changed MOST how many files with changed bytes are run (4000 if not given)
# --work DIR     where the files go, and stay; files that were made there before are taken again (if not given, a directory
#                that is deleted)
#
# Needs Python 3 and readelf. On Debian 12 the rest is in the packages clang, lld, llvm, elfutils, gcc and gcc-TARGET-linux-gnu;
# what is not there is left out, and the table shows what was there. Ends with 1 if anything is different.
set -euo pipefail
here=$(cd "$(dirname "${BASH_SOURCE[0]}")" && pwd)
usage() { sed -n '2,17s/^# \{0,1\}//p' "$0" >&2; exit 2; }

seed=1 changed=4000 work=
while [ $# -gt 1 ]; do
    case $1 in
    --seed) seed=$2 ;;
    --changed) changed=$2 ;;
    --work) work=$2 ;;
    *) usage ;;
    esac
    shift 2
done
[ $# = 1 ] && [ -x "$1" ] || usage
program=$(realpath "$1")
if [ -z "$work" ]; then
    work=$(mktemp -d)
    trap 'rm -rf "$work"' EXIT
fi
mkdir -p "$work"
work=$(realpath "$work")
files=$work/files-$seed list=$work/list-$seed

for tool in clang ld.lld rustc gcc ld readelf llvm-dwarfdump eu-addr2line; do
    if command -v "$tool" >/dev/null; then
        echo "$tool: $("$tool" --version 2>&1 | grep -m1 '[0-9]')"
    else
        echo "$tool is not there"
    fi
done
if [ ! -s "$list" ]; then
    rm -rf "$files"
    PYTHONDONTWRITEBYTECODE=1 "$here/make.py" "$seed" "$files" >"$list.new"
    mv "$list.new" "$list"
fi

failed=0
object=$(awk -F '\t' '$1 == "x86-64" && $3 == "object" { print $4; exit }' "$list")
rm -rf "$work/refused"
"$here/refusals.sh" "$program" "$object" "$work/refused" || failed=1
"$here/mutate.py" "$seed" "$changed" "$program" "$list" || failed=1
"$here/check.py" "$seed" "$program" "$list" || failed=1
exit $failed
