#!/bin/sh
# Programs in C and C++ built through CMake's find_package, static and shared: cmake.sh FOLDER; hosts/check/run calls it.
set -eu
cmake -S hosts/c/package/sample -B "$work/cmake" -DCMAKE_PREFIX_PATH="$1"
cmake --build "$work/cmake"
for program in listing listing-shared; do
    printf '#a' | "$work/cmake/$program" listing - | diff crates/listing/stdout -
done
ldd "$work/cmake/listing-shared" | grep -q "$1/lib/libshader_reader.so"
"$work/cmake/errors" examples/errors.frag | diff hosts/c/tests/errors.txt -

# Another version is refused.
mkdir -p "$work/other"
cat >"$work/other/CMakeLists.txt" <<END
cmake_minimum_required(VERSION 3.10)
project(other C)
find_package(shader_reader 0.0 REQUIRED)
END
if cmake -S "$work/other" -B "$work/other/build" -DCMAKE_PREFIX_PATH="$1"; then exit 1; fi
