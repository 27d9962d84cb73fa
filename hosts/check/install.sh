#!/bin/sh
# make install, from a copy of the repository: install.sh COPY FOLDER; hosts/check/run calls it.
set -eu
unset MAKEFLAGS MFLAGS MAKELEVEL
cd "$1"
version=$(sed -n 's/^#define SHADER_READER_VERSION "\(.*\)"/\1/p' include/shader_reader.h)
export SHADER_READER_LIB="$library"
make shared
make install PREFIX="$2"
cmp "$library" "$2/lib/libshader_reader.a"
cmp include/shader_reader.h "$2/include/shader_reader.h"
cmp NOTICE "$2/share/doc/shader_reader/NOTICE"
cmp build/libshader_reader.so "$2/lib/libshader_reader.so"
[ -f "$2/lib/cmake/shader_reader/shader_reader-config.cmake" ]

# In a folder that stands for the root, no file knows it.
make install DESTDIR="$work/root" PREFIX=/opt/reader LIBDIR=/opt/reader/lib64
cmp "$library" "$work/root/opt/reader/lib64/libshader_reader.a"
grep -q '^libdir=/opt/reader/lib64$' "$work/root/opt/reader/lib64/pkgconfig/shader_reader.pc"
grep -q "^Version: $version\$" "$work/root/opt/reader/lib64/pkgconfig/shader_reader.pc"
if grep -r "$work\|@[A-Z]*@" "$work/root" --include='*.pc' --include='*.cmake'; then exit 1; fi
