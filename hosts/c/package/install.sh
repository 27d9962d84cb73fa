#!/bin/sh
# Installs the library, its header, the files for pkg-config and CMake, and what else was built in build/:
#
#     install.sh LIBRARY
#
# below PREFIX (/usr/local), or in LIBDIR and INCLUDEDIR; DESTDIR stands before every place, and in no file.
set -eu
here=$(cd "$(dirname "$0")" && pwd)
top=$(cd "$here/../../.." && pwd)

absolute() { case $1 in /*) printf '%s\n' "$1" ;; *) printf '%s/%s\n' "$(pwd)" "$1" ;; esac; }

prefix=$(absolute "${PREFIX:-/usr/local}")
libdir=$(absolute "${LIBDIR:-$prefix/lib}")
includedir=$(absolute "${INCLUDEDIR:-$prefix/include}")
version=$(sed -n 's/^#define SHADER_READER_VERSION "\(.*\)"/\1/p' "$top/include/shader_reader.h")
minor=${version%.*}

# Puts a file in a folder: put MODE FOLDER FILE [NAME].
put() {
    install -d "${DESTDIR:-}$2"
    install -m "$1" "$3" "${DESTDIR:-}$2/${4:-$(basename "$3")}"
    printf '%s\n' "${DESTDIR:-}$2/${4:-$(basename "$3")}"
}

# A value as the right side of a sed command.
quoted() { printf '%s\n' "$1" | sed 's/[&|\\]/\\&/g'; }

# Puts a template in a folder, with its names filled in.
fill() {
    filled=$(mktemp)
    sed -e "s|@PREFIX@|$(quoted "$prefix")|" -e "s|@LIBDIR@|$(quoted "$libdir")|" \
        -e "s|@INCLUDEDIR@|$(quoted "$includedir")|" -e "s|@VERSION@|$version|" -e "s|@MINOR@|$minor|" \
        -e "s|@SONAME@|libshader_reader.so.$minor|" "$here/$2.in" >"$filled"
    put 644 "$1" "$filled" "$2"
    rm -f "$filled"
}

put 644 "$libdir" "$1" libshader_reader.a
put 644 "$includedir" "$top/include/shader_reader.h"
fill "$libdir/pkgconfig" shader_reader.pc
fill "$libdir/cmake/shader_reader" shader_reader-config.cmake
fill "$libdir/cmake/shader_reader" shader_reader-config-version.cmake
for paper in NOTICE LICENSE; do
    [ ! -f "$top/$paper" ] || put 644 "$prefix/share/doc/shader_reader" "$top/$paper"
done
if [ -f "$top/build/libshader_reader.so.$version" ]; then
    put 755 "$libdir" "$top/build/libshader_reader.so.$version"
    ln -sf "libshader_reader.so.$version" "${DESTDIR:-}$libdir/libshader_reader.so.$minor"
    ln -sf "libshader_reader.so.$version" "${DESTDIR:-}$libdir/libshader_reader.so"
fi
if [ -f "$top/build/shader-tree" ]; then
    put 755 "$prefix/bin" "$top/build/shader-tree"
    page=$top/hosts/shader-tree/shader-tree.1
    [ ! -f "$page" ] || put 644 "$prefix/share/man/man1" "$page"
fi
