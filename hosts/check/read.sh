#!/bin/sh
# hosts/c/read.c on known sources; hosts/check/run calls it with library and work set.
set -eu
gcc -std=c99 -O2 -Wall -Wextra -Wpedantic -Werror -Iinclude hosts/c/read.c "$library" -o "$work/read"
read=$work/read

# expect STATUS COMMAND..: the command's exit status.
expect() {
    wanted=$1 got=0
    shift
    "$@" >"$work/out" 2>"$work/err" || got=$?
    [ "$got" -eq "$wanted" ] || { echo "status $got, not $wanted: $*"; cat "$work/err"; exit 1; }
}

says() { [ "$(cat "$work/out")" = "$1" ] || { echo "not \"$1\":"; head -n 5 "$work/out"; exit 1; }; }

# refused NUMBER WORDS: what it says of the source.
refused() {
    expect 1 "$read" listing "$work/source"
    says "answer,$1,0,0,0"
    expect 1 "$read" tokens "$work/source"
    says "refused: $1"
    [ "$(cat "$work/err")" = "$work/source: refused: $2" ] || { echo "not \"$2\":"; cat "$work/err"; exit 1; }
}

# The sources of the program `readings`, with their listings out of what it prints.
for name in $(cat crates/readings/args); do
    awk -v name="$name" '
        $0 == name { here = 1; next }
        here && !/^(answer|node|leaf|error|line),/ { exit }
        here' crates/readings/stdout >"$work/listing"
    [ -s "$work/listing" ] || continue
    "$read" listing "crates/readings/data/$name" >"$work/out" || true
    diff "$work/listing" "$work/out"
    seen=$((${seen:-0} + 1))
done
[ "$seen" -ge 20 ] || { echo "only $seen stored listings were found"; exit 1; }

printf '#a' | "$read" listing - | diff crates/listing/stdout -
printf '<<<\\\n' >"$work/source"
expect 0 "$read" tokens "$work/source"
says '37,0,2,<<
10,2,3,<
35,3,5,\\x0a'
printf '\t\013# \013\\\013' >"$work/source"
expect 0 "$read" tokens "$work/source"
says '32,0,2,\x09\x0b
28,2,3,#
32,3,5, \x0b
31,5,6,\
32,6,7,\x0b'

# Long sources, and one that is too long.
yes '#a' | head -n 500000 >"$work/source"
expect 0 "$read" listing "$work/source"
[ "$(head -n 1 "$work/out")" = "answer,0,2500001,500000,500001" ] || { head -n 1 "$work/out"; exit 1; }
head -c 16777217 /dev/zero >"$work/source"
refused 1 'longer than 16777216 bytes'

# What is not UTF-8, or ends inside a character.
printf '\377' >"$work/source"
refused 2 'not UTF-8: byte 0xFF at offset 0'
printf 'caf\351 au lait\303' >"$work/source"
refused 2 'not UTF-8: byte 0xE9 at offset 3'
cut='the file ends inside a character: the upload was cut'
printf '\303' >"$work/source"
refused 10 "$cut, the character begins at offset 0"
{ yes '#a' | head -n 50000; printf '\360\237\230'; } >"$work/source"
refused 10 "$cut, the character begins at offset 150000"

# What can't be read, written or understood.
expect 2 "$read" listing "$work/nothing"
expect 2 "$read" listing "$work"
expect 2 "$read"
expect 2 "$read" trees "$work/source"
expect 2 sh -c "'$read' listing examples/layer_mask.frag >/dev/full"
expect 2 sh -c "'$read' listing examples/three_lines.frag >/dev/full"
echo "$seen stored listings"
