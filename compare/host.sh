#!/usr/bin/env bash
# Compares the seven exported calls with the Rust: host.sh ORACLE [[quick] [calls | reading | KIND ..] | files FILE .. | kinds];
# or with the earlier library that BEFORE names: host.sh ORACLE before [[quick] [calls | reading | KIND ..] | files FILE ..].
# See README.md.
set -u
here=$(cd "$(dirname "$0")" && pwd)
[ $# -ge 1 ] || { echo "usage: host.sh ORACLE [[before] [quick] [calls | reading | KIND ..] | [before] files FILE .. | kinds]" >&2; exit 2; }
"$here/build.sh" "$1" || exit 2
shift
exec "$here/../build/compare-host/target/release/host" "$@"
