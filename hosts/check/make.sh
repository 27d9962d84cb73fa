# The Makefile, and README's programs in C and C++, in a copy of the repository; a part of hosts/check/run.
copy=$work/copy
mkdir "$copy"
tar --exclude=./build --exclude='./crates/*/out' --exclude='./hosts/*/target' --exclude=./.git -cf - . | tar -xf - -C "$copy"

try "make: help, files, what is proved when" hosts/check/commands.sh "$copy"
try "make shared: a program over libshader_reader.so" hosts/check/shared.sh "$copy"
try "make install: library, header and the rest, with DESTDIR and without" hosts/check/install.sh "$copy" "$work/installed"
try "README: its program in C" hosts/check/readme.sh "$copy" c
try "README: its program in C++" hosts/check/readme.sh "$copy" cpp
if needs pkg-config "a program through pkg-config"; then
    try "pkg-config: a program" hosts/check/pkg-config.sh "$work/installed"
fi
if needs cmake "a program through CMake"; then
    try "CMake: programs through find_package" hosts/check/cmake.sh "$work/installed"
fi
