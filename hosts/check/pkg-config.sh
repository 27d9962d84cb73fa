#!/bin/sh
# Programs built through pkg-config, static and shared: pkg-config.sh FOLDER; hosts/check/run calls it.
set -eu
PKG_CONFIG_PATH=$1/lib/pkgconfig
export PKG_CONFIG_PATH
gcc -O2 hosts/c/read.c $(pkg-config --cflags --libs shader_reader) -Wl,-rpath,"$1/lib" -o "$work/linked"
ldd "$work/linked" | grep -q "$1/lib/libshader_reader.so"
printf '#a' | "$work/linked" listing - | diff crates/listing/stdout -
gcc -O2 hosts/c/read.c -Wl,-Bstatic $(pkg-config --static --cflags --libs shader_reader) -Wl,-Bdynamic -o "$work/linked"
if ldd "$work/linked" | grep shader_reader; then exit 1; fi
printf '#a' | "$work/linked" listing - | diff crates/listing/stdout -
