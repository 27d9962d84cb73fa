#!/bin/sh
# The programs of README.md, built and run as it says: readme.sh COPY LANGUAGE; hosts/check/run calls it.
set -eu
cd "$1"
export SHADER_READER_LIB="$library"
strict="-Wall -Wextra -Wpedantic -Werror -Iinclude"

# The program in a language, the only one.
program() { awk -v fence="\`\`\`$1" '$0 == fence { here = 1; next } here && $0 == "```" { exit } here' README.md; }

# A program that meets errors, and the last line that it must print: says LINE COMMAND..
says() {
    wanted=$1
    shift
    "$@" >"$work/out" || echo "its exit status is $?"
    [ "$(tail -n 1 "$work/out")" = "$wanted" ] || { tail -n 3 "$work/out"; echo "and not: $wanted"; exit 1; }
}

case $2 in
c)
    program c >"$work/tree.c"
    gcc -std=c99 $strict "$work/tree.c" "$library" -o "$work/tree"
    says '3:2: unknown preprocessor directive' "$work/tree"
    ;;
cpp)
    program cpp >"$work/check.cpp"
    g++ -std=c++11 $strict "$work/check.cpp" "$library" -o "$work/check"
    says '103 entries, 8 errors, 12 lines' "$work/check" examples/errors.frag
    printf '// caf\303' >"$work/cut"
    says '0 entries, 0 errors, 0 lines' timeout 60 "$work/check" "$work/cut"
    ;;
rust)
    rm -rf reading
    cargo new --quiet reading
    cargo add --quiet --offline --manifest-path reading/Cargo.toml --path hosts/rust
    program rust >reading/src/main.rs
    says '10:2: unexpected end of input: [RPAREN]' cargo run --quiet --offline --target-dir "$work/cargo" \
        --manifest-path reading/Cargo.toml examples/errors.frag
    ;;
esac
