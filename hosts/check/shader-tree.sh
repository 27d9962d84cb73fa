#!/bin/sh
# The command line as make builds it, on the samples and on bad files: shader-tree.sh COPY; hosts/check/run calls it.
set -eu
unset MAKEFLAGS MFLAGS MAKELEVEL
cd "$1"
SHADER_READER_LIB=$library make shader-tree
tree=build/shader-tree
gcc -O2 -Iinclude hosts/c/read.c "$library" -o "$work/read"

# status STATUS WORDS..: the exit status of the command line.
status() {
    wanted=$1 got=0
    shift
    "$tree" "$@" >"$work/out" 2>"$work/err" </dev/null || got=$?
    [ "$got" -eq "$wanted" ] || { echo "status $got, not $wanted: shader-tree $*"; cat "$work/err"; exit 1; }
}

for sample in examples/*.frag; do
    "$tree" --listing $sample >"$work/out" 2>"$work/err" || true
    "$work/read" listing $sample | diff - "$work/out"
done
status 0 --check examples/layer_mask.frag
status 0 --check examples/old_editor.frag
[ ! -s "$work/err" ] || { cat "$work/err"; exit 1; }
status 1 --check examples/errors.frag
status 2 --check "$work/nothing"
status 2 --no-such-word
printf 'a\377' >"$work/latin"
status 1 --check "$work/latin"
grep -q ':1:2: error: not UTF-8: byte 0xFF at offset 1$' "$work/err"
printf 'a\303' >"$work/cut"
status 1 --check "$work/cut"
grep -q ':1:2: error: the file ends inside a character: the upload was cut' "$work/err"
status 1 --listing "$work/cut"
echo answer,10,0,0,0 | diff - "$work/out"
head -c 16777217 /dev/zero >"$work/long"
status 1 --check "$work/long"
if "$tree" examples/layer_mask.frag >/dev/full 2>"$work/err"; then echo "a full disk was not told"; exit 1; fi

# Installed, with its man page, which has the program's version and every option of its help.
SHADER_READER_LIB=$library make install PREFIX="$work/with-tree"
cmp build/shader-tree "$work/with-tree/bin/shader-tree"
page=$work/with-tree/share/man/man1/shader-tree.1
"$tree" --help >"$work/help"
grep -q "\"$("$tree" --version)\"" "$page"
sed 's/\\-/-/g' "$page" >"$work/page"
for option in $(grep -o '^  -[-a-zA-Z]*\|, --[a-z]*' "$work/help" | tr -d ' ,'); do
    grep -qwF -e "$option" "$work/page" || { echo "$option is not in the man page"; exit 1; }
done
if command -v man >/dev/null 2>&1; then
    man --warnings -l "$page" >"$work/out" 2>"$work/warned"
    grep -q 'EXIT STATUS' "$work/out"
    [ ! -s "$work/warned" ] || { cat "$work/warned"; exit 1; }
fi
