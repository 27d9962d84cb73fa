#!/bin/sh
# make shared, in a copy of the repository, and a program over what it wrote: shared.sh COPY; hosts/check/run calls it.
set -eu
unset MAKEFLAGS MFLAGS MAKELEVEL
cd "$1"
SHADER_READER_LIB=$library make shared
nm -D --defined-only build/libshader_reader.so >"$work/exports"
awk '$2 == "T" && $3 !~ /^_(init|fini)$/ { print $3 }' "$work/exports" | sort | diff "$work/calls" -
readelf -d build/libshader_reader.so >"$work/dynamic"
grep -q 'SONAME.*libshader_reader.so.[0-9]*.[0-9]*\]' "$work/dynamic"
if grep TEXTREL "$work/dynamic"; then exit 1; fi
gcc -O2 -Iinclude hosts/c/read.c -Lbuild -lshader_reader -Wl,-rpath,"$(pwd)/build" -o "$work/shared"
ldd "$work/shared" | grep -q "$(pwd)/build/libshader_reader.so"
printf '#a' | "$work/shared" listing - | diff crates/listing/stdout -
