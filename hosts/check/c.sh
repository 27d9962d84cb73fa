# C and C++: the header alone, the tests of hosts/c/tests, the two programs of hosts/c; a part of hosts/check/run.
strict="-Wall -Wextra -Wpedantic -Werror -Iinclude"
sanitizers="address and undefined-behaviour sanitizers"
cut="the file ends inside a character: the upload was cut"
sanitize="-g -fsanitize=address,undefined -fno-sanitize-recover=all"
tests="calls null search inlines threads utf8 blanks"
runner=

# Compiles a test and runs it: test_with COMPILER TEST [FLAGS..]. `inlines` is told the samples, for which the guess must
# suffice.
test_with() {
    compiler=$1 test=$2 words=
    shift 2
    case $compiler in *++) source=$test.cpp standard=c++11 ;; *) source=$test.c standard=c99 ;; esac
    case $test in inlines) words=$(ls examples/*.frag) ;; esac
    $compiler -std=$standard $strict -pthread "hosts/c/tests/$source" "$library" -o "$work/test" "$@" || return 1
    $runner "$work/test" $words
}

# suite LABEL COMPILER TESTS [FLAGS..]
suite() {
    label=$1 with=$2 all=$3
    shift 3
    for one in $all; do try "$label: $one" test_with "$with" "$one" "$@"; done
}

# The header in two files of one program, by each standard: header_alone COMPILER SUFFIX STANDARDS
header_alone() {
    echo '#include "shader_reader.h"' >"$work/one.$2"
    printf '#include "shader_reader.h"\nint main(void) { return 0; }\n' >"$work/two.$2"
    for standard in $3; do
        $1 -std="$standard" $strict -Wconversion -Wshadow "$work/one.$2" "$work/two.$2" -o "$work/alone" || return 1
    done
}

# hosts/c/errors.cpp says what is stored, and nothing of samples without errors.
errors_of_samples() {
    $1 -std=c++11 -O2 $strict hosts/c/errors.cpp "$library" -o "$work/errors" || return 1
    "$work/errors" examples/errors.frag | diff hosts/c/tests/errors.txt - || return 1
    for sample in layer_mask three_lines old_editor; do
        said=$("$work/errors" examples/$sample.frag) && [ -z "$said" ] || { echo "$sample: $said"; return 1; }
    done
}

# What it says of a source with one error, behind its name: error_of BYTES WORDS
error_of() {
    printf "$1" >"$work/source"
    said=$("$work/errors" "$work/source")
    [ $? -eq 1 ] && [ "$said" = "$work/source:$2" ] || { echo "$said"; return 1; }
}

# Of a source that is refused it says why, and where the source stops being UTF-8.
errors_of_refused() {
    error_of 'a\nb\351c' ' refused: not UTF-8: byte 0xE9 at offset 3' || return 1
    error_of 'a\nb\344\270' " refused: $cut, the character begins at offset 3"
}

# Vertical tabs are blanks around # and a part of strings, whose control bytes are shown by their numbers.
errors_of_controls() {
    error_of '\013#\013foo\013bar\n' '1:4: unknown preprocessor directive #foo' || return 1
    error_of '#"\013\033"\n' '1:2: unknown preprocessor directive #"\x0b\x1b"'
}

for c in gcc clang; do
    needs $c "C with $c" || continue
    try "$c: the header, C99 to C17" header_alone $c c "c99 c11 c17"
    suite "$c -O2" $c "$tests stack" -O2
    suite "$c -O0" $c "$tests" -O0
    can "$c, $sanitizers" $c $sanitize && suite "$c, $sanitizers" $c "$tests" $sanitize
done
for c in g++ clang++; do
    needs $c "C++ with $c" || continue
    try "$c: the header, C++11 to C++20" header_alone $c cpp "c++11 c++14 c++17 c++20"
    suite "$c -O2" $c plus -O2
    can "$c, $sanitizers" $c $sanitize && suite "$c, $sanitizers" $c plus $sanitize
    try "$c: errors of the samples" errors_of_samples $c
    try "$c: errors of refused sources" errors_of_refused
    try "$c: errors of sources with control bytes" errors_of_controls
done
can "gcc -static" gcc -static && suite "gcc -static" gcc "$tests stack" -O2 -static
if needs musl-gcc "C with musl"; then
    suite "musl-gcc" musl-gcc "$tests stack" -O2
    suite "musl-gcc -static" musl-gcc "$tests stack" -O2 -static
fi
if needs valgrind "tests under valgrind"; then
    runner="valgrind --quiet --error-exitcode=9"
    suite "valgrind" gcc "calls null search inlines blanks" -O1 -g
    runner="valgrind --quiet --tool=helgrind --error-exitcode=9"
    suite "valgrind, races" gcc threads -O1 -g
    runner=
fi
try "hosts/c/read.c: listings and tokens" hosts/check/read.sh
