#!/bin/bash
# Shows that addr2unit refuses what has no report: status 1, one sentence on standard error, nothing on standard output.
#
#   refusals.sh ADDR2UNIT OBJECT DIR
#
# OBJECT is an x86-64 object with the section. DIR is where the spoilt files go. Prints a line for each refusal, and ends with 1
# if one is missing.
set -euo pipefail
[ $# = 3 ] || { sed -n '2,8s/^# \{0,1\}//p' "$0" >&2; exit 2; }
program=$1 object=$2 dir=$3
mkdir -p "$dir"
failed=0 tried=0 input=/dev/null

# refused STATUS SENTENCE WORD..: runs the program with the words and $input, and expects a sentence behind `addr2unit: `.
refused() {
    local status=$1 sentence="addr2unit: $2" code=0 why=
    shift 2
    "$program" "$@" <"$input" >"$dir/out" 2>"$dir/err" || code=$?
    [ $code = "$status" ] || why="status $code in place of $status"
    [ ! -s "$dir/out" ] || why="$why; something on standard output"
    [ "$(cat "$dir/err")" = "$sentence" ] && [ "$(wc -l <"$dir/err")" = 1 ] || why="$why; it says: $(cat "$dir/err")"
    tried=$((tried + 1))
    if [ -n "$why" ]; then
        echo "not refused: $sentence: $why"
        failed=1
    else
        echo "refused: ${sentence/"$dir/"/}"
    fi
}

# put FILE PLACE BYTES: changes bytes, given as \xNN.
put() { printf "$3" | dd of="$1" bs=1 seek="$(($2))" conv=notrunc status=none; }

# section_field FILE NAME COLUMN: a hexadecimal number that readelf tells of a section: 4 its place, 5 its size.
section_field() { readelf -SW "$1" | sed 's/^ *\[ *//; s/\]//' | awk -v name="$2" -v column="$3" '$2 == name { print "0x" $(column + 1); exit }'; }

compressed="section .debug_aranges is compressed: objcopy --decompress-debug-sections undoes that"

objcopy --remove-section .debug_aranges "$object" "$dir/without.o"
refused 1 "$dir/without.o: the file has no section .debug_aranges" "$dir/without.o"
strip --strip-all -o "$dir/stripped.o" "$object"
refused 1 "$dir/stripped.o: the file has no section .debug_aranges" "$dir/stripped.o"
for way in zlib-gabi zlib-gnu; do
    objcopy --compress-debug-sections=$way "$object" "$dir/$way.o"
    # a section that would grow is left as it is
    if readelf -SW "$dir/$way.o" | grep -qE '\.zdebug_aranges|\.debug_aranges .* (C|[A-Z]*C[A-Z]*) +[0-9]+ +[0-9]+ +[0-9]+$'; then
        refused 1 "$dir/$way.o: $compressed" "$dir/$way.o"
    else
        echo "not tried: objcopy does not compress the section by $way"
    fi
done

size=$(wc -c <"$object")
head -c 30 "$object" >"$dir/cut-header.o"
refused 1 "$dir/cut-header.o: the file ends within its ELF header" "$dir/cut-header.o"
head -c $((size - 1)) "$object" >"$dir/cut-table.o"
refused 1 "$dir/cut-table.o: the file ends before its section table does" "$dir/cut-table.o"
head -c 3 "$object" >"$dir/cut-magic.o"
refused 1 "$dir/cut-magic.o: this is not an ELF file" "$dir/cut-magic.o"
echo "This is a text." >"$dir/text"
refused 1 "$dir/text: this is not an ELF file" "$dir/text"
: >"$dir/empty"
refused 1 "$dir/empty: this is not an ELF file" "$dir/empty"
mkdir -p "$dir/folder"
refused 1 "$dir/folder can't be read: Is a directory (os error 21)" "$dir/folder"
refused 1 "$dir/missing can't be read: No such file or directory (os error 2)" "$dir/missing"
ar rc "$dir/archive.a" "$object"
refused 1 "$dir/archive.a: this is not an ELF file" "$dir/archive.a"

cp "$object" "$dir/class.o"; put "$dir/class.o" 4 '\x03'
refused 1 "$dir/class.o: the ELF class 3 is unknown: it should be 1 or 2" "$dir/class.o"
cp "$object" "$dir/order.o"; put "$dir/order.o" 5 '\x00'
refused 1 "$dir/order.o: the ELF byte order 0 is unknown: it should be 1 or 2" "$dir/order.o"
cp "$object" "$dir/machine.o"; put "$dir/machine.o" 18 '\x16\x00'
refused 1 "$dir/machine.o: the relocations of machine 22 are not known" "$dir/machine.o"

# the first entry of the relocations: its type is 8 bytes behind its place, its symbol 12
entries=$(section_field "$object" .rela.debug_aranges 4)
at=$(readelf -rW "$object" | awk '/^Relocation section/ { here = /debug_aranges/ } here && /R_X86/ { print $1; exit }')
cp "$object" "$dir/type.o"; put "$dir/type.o" "$entries + 8" '\x07'
refused 1 "$dir/type.o: relocation 7 of x86-64 at offset $((0x$at)) is not supported" "$dir/type.o"
cp "$object" "$dir/symbol.o"; put "$dir/symbol.o" "$entries + 12" '\xff\xff\xff\x00'
refused 1 "$dir/symbol.o: the file has no symbol 16777215" "$dir/symbol.o"
cp "$object" "$dir/undefined.o"; put "$dir/undefined.o" "$entries + 12" '\x00\x00\x00\x00'
refused 1 "$dir/undefined.o: the relocation at offset $((0x$at)) needs symbol 0, which has no address in the file" "$dir/undefined.o"
cp "$object" "$dir/twice.o"; put "$dir/twice.o" "$entries + 24" "$(printf '\\x%02x' $((0x$at)))"
refused 1 "$dir/twice.o: two relocations are for the place at offset $((0x$at))" "$dir/twice.o"

# a class with another size of entries, and a section that passes the file's end
cp "$object" "$dir/entry.o"; put "$dir/entry.o" 58 '\x28'
refused 1 "$dir/entry.o: entries of the section table have 40 bytes, which this ELF class has not" "$dir/entry.o"
cp "$object" "$dir/names.o"; put "$dir/names.o" 62 '\x00\x00'
refused 1 "$dir/names.o: the file has no table of section names" "$dir/names.o"

refused 2 "no file is named: addr2unit --help tells the usage"
refused 2 "there is no option \"--frob\": addr2unit --help tells the usage" --frob "$object"
refused 2 "\"zz\" is not a hexadecimal address" "$object" zz
refused 2 "\"10000000000000000\" is an address of more than 64 bits" "$object" 10000000000000000
printf '5\n\nxyz\n' >"$dir/lines"
input=$dir/lines
refused 2 "\"xyz\" is not a hexadecimal address" "$object"

echo "$tried refusals tried"
exit $failed
