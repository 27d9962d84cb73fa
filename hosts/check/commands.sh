#!/bin/sh
# make alone, read, tokens and library, in a copy of the repository and with an rt that only hands out the library and
# counts its calls: commands.sh COPY; hosts/check/run calls it with library and work set.
set -eu
unset FILE MAKEFLAGS MFLAGS MAKELEVEL SHADER_READER_LIB
mkdir -p "$work/bin"
cat >"$work/bin/rt" <<END
#!/bin/sh
echo proving
echo "\$*" >>"$work/rt-calls"
mkdir -p out
cp "$library" out/libshader_reader_c.a
END
chmod +x "$work/bin/rt"
PATH=$work/bin:$PATH
: >"$work/rt-calls"
cd "$1"

# run STATUS COMMAND..: with its exit status, and what it prints in WORK/out.
run() {
    wanted=$1 got=0
    shift
    "$@" >"$work/out" 2>"$work/err" || got=$?
    [ "$got" -eq "$wanted" ] || { echo "status $got, not $wanted: $*"; cat "$work/out" "$work/err"; exit 1; }
}
printed() { diff "$1" "$work/out" || { echo "that is what was printed"; exit 1; }; }
calls() {
    [ "$(wc -l <"$work/rt-calls")" -eq "$1" ] || { echo "rt was not called $1 times:"; cat "$work/rt-calls"; exit 1; }
}

run 0 make
printed hosts/check/help
run 2 make read
printed /dev/null
run 2 make tokens FILE="$work/no such file"
printed /dev/null
run 2 make read FILE=examples
printed /dev/null
calls 0

sample=examples/three_lines.frag
gcc -O2 -Iinclude hosts/c/read.c "$library" -o "$work/read"
"$work/read" listing $sample >"$work/listing"
"$work/read" tokens $sample >"$work/tokens"
run 0 make read FILE=$sample
printed "$work/listing"
calls 1
odd="$work/it's \"one\" \$HOME & #2; (x).frag"
cp $sample "$odd"
run 0 make read FILE="$odd"
printed "$work/listing"
run 0 make tokens FILE="$odd"
printed "$work/tokens"
run 0 make read FILE=- <$sample
printed "$work/listing"
printf '\377' >"$odd"
run 2 make read FILE="$odd"
echo answer,2,0,0,0 | diff - "$work/out"
printf '// caf\303' >"$odd"
run 2 make read FILE="$odd"
echo answer,10,0,0,0 | diff - "$work/out"
calls 1

# What rt writes meanwhile counts for nothing; the library outlives it, and is proved again when a crate has changed.
mkdir -p crates/text/out/rlib/src
touch -d '1 hour' crates/text/out/rlib/src/lib.rt
run 0 make library
calls 1
rm -rf crates/*/out
run 0 make library
[ -f build/libshader_reader.a ]
calls 1
touch -d '1 hour' crates/text/src/lib.rt
run 0 make library
calls 2
SHADER_READER_LIB=$library run 0 make read FILE=$sample
printed "$work/listing"
calls 2

# A failed proof leaves no library and prints nothing.
rm -rf build
printf '#!/bin/sh\necho "not proved"\nexit 1\n' >"$work/bin/rt"
run 2 make read FILE=$sample
printed /dev/null
grep -q 'not proved' "$work/err"
[ ! -e build/libshader_reader.a ]
