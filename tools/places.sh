#!/bin/bash
# Lists, for each point of docs/DESIGN-PASS.md, the lines of crates/*/src that may be places of it: bash tools/places.sh
# With a commit behind it, the lines as they stood there.
cd "$(dirname "$0")/.." || exit 1
if [ -n "$1" ]; then
    top=$(mktemp -d)
    git archive "$1" crates | tar -x -C "$top" && cd "$top" || exit 1
fi
show() {
    echo "== $1"
    shift
    grep -nE "$@" crates/*/src/*.rt
    echo "   $(grep -hE "$@" crates/*/src/*.rt | wc -l) lines"
}
show '1a numbers, flags and texts for kinds' '^ +pub kind: u8|: bool,|big: bool|end: 0 |_ => 0,|Err\(_\) => [0-9]|== "0"|pub address_size: u8|_or\([0-9]\)|"0" =>'
show '1b matches where ? or a method may do' 'None => (return )?(Err|Ok\(None\)|None|bad_line)|Err\((_|error)\) => (\{$|return|bad_line|None|fault_text|fault_line)|Err\(_\) => passed'
show '1c enums' '^(pub )?enum '
show '2a reads and offsets by type' 'fn (read_[iu](8|16|32|64)|read_(length|word|plain_[a-z_]+|uleb128|sleb128)|from_u(8|32|64)|into_u64|ones_sized|min_tombstone)\b'
show '2b readers, policies, lines and programs by type' '(impl|fn) .*(EndianSlice|EndianReader|SectionReader|NoRelocation|RelocationTable<|relocate_(address|offset))|fn ([a-z_]+_line|(un)?signed|mallethill_[a-z]+|format_call|byte_call|perform[a-z_]*)\b|(EndianSlice|EndianReader|SectionReader)::new|RunTimeEndian::(Big|Little)$'
show '3 loops' '^ +(.[a-z]+: )?(for|while|loop)\b'
show '4 conversion, copying and printing' 'fn (clone|from|try_from|fmt|write_name|payload|fault_[a-z]+|none_line|read_kind|read_order|command_of|order_of|format_of|endian|digit|digit_value|encode|decode|straight|turn|below_zero|less_twice|kind_of)\b|as (u|i)(8|16|32|64)\b.*> |> 0xffff_ffff|> 255'
show '5a facts of three contracts' 'Kept |2 \^ 32 \}|header_is R|walk_is R|event_is R|_means'
show '5b parameters together' '^ +(heap: Global,|passed: |most: |first: &|second: &|skipped: |calls: &\[Call\],|out: &mut String)|fn .*\(heap: Global, .*out: '
show '6 buffers and places' '^ +(section: &.*|first: usize|end: usize|len: (u8|u32|usize)|bytes: \[u8; 10\]|records: (&|Vec).*),$'
show '7 switches on a step' 'match (call|command|letter|name|kind|head\.kind|self\.kind|command_of.*|Command::.*) \{'
[ -n "$top" ] && rm -rf "$top"
exit 0
