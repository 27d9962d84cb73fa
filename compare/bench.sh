#!/usr/bin/env bash
# Times the exported calls beside the Rust: bench.sh ORACLE [calls | reading | shapes | growth ..]
# Times readings of files of one's own, those of 0.5 to 4 KB: bench.sh ORACLE files FILE ..
# Counts instructions a byte with callgrind: bench.sh ORACLE instructions [SHAPE ..]
# See README.md.
set -u
here=$(cd "$(dirname "$0")" && pwd)
[ $# -ge 1 ] || { echo "usage: bench.sh ORACLE [calls | reading | shapes | growth .. | files FILE .. | instructions [SHAPE ..]]" >&2; exit 2; }
"$here/build.sh" "$1" || exit 2
shift
bench=$here/../build/compare-host/target/release/bench
[ "${1:-}" = instructions ] || exec "$bench" "$@"
shift

# Instructions of one call, without those of the program around it.
instructions() { # CALL SHAPE FUNCTION
  said=$(valgrind --tool=callgrind --callgrind-out-file=/dev/null --toggle-collect="$3" "$bench" once "$1" "$2" 500000 2>&1) || { echo "$said" >&2; exit 2; }
  bytes=$(echo "$said" | grep -E '^[0-9]+$')
  echo "$said" | awk -v bytes="$bytes" -v name="$1 $2" '/Collected/ { printf "%-22s %12d instructions  %9d bytes %8.2f a byte\n", name, $4, bytes, $4 / bytes }'
}
[ $# -gt 0 ] || set -- $("$bench" words | cut -d' ' -f1)
for shape; do instructions read "$shape" shader_read; done
instructions tokens mixed shader_tokens
[ -z "${BEFORE:-}" ] || instructions before mixed before_shader_tokens
