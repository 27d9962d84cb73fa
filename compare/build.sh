#!/usr/bin/env bash
# Builds the programs `host` and `bench` in build/compare-host: build.sh ORACLE
#
# The static library is proved and built first by `rt lib` in crates/shader_reader_c; if LIBRARY is set, the file
# libshader_reader.a that it names is linked instead. If BEFORE is set, the libshader_reader.a of an earlier
# commit that it names is linked beside it, for `host` to compare with and `bench` to time. The Rust's files
# are looked for in ORACLE/../docs/src, or in the folder that ORACLE_DOCS names.
set -eu
top=$(cd "$(dirname "$0")/.." && pwd)
[ $# -eq 1 ] && [ -f "$1/Cargo.toml" ] || { echo "usage: build.sh ORACLE, the folder of the oracle" >&2; exit 2; }
oracle=$(cd "$1" && pwd)
[ -d "${ORACLE_DOCS:-$oracle/../docs/src}" ] || { echo "no ${ORACLE_DOCS:-$oracle/../docs/src}: set ORACLE_DOCS" >&2; exit 2; }

work=$top/build/compare-host
mkdir -p "$work"
if [ -n "${LIBRARY:-}" ]; then
  library=$(cd "$(dirname "$LIBRARY")" && pwd)/$(basename "$LIBRARY")
else
  (cd "$top/crates/shader_reader_c" && rt lib) >&2
  library=$work/libshader_reader.a
  cp "$top/crates/shader_reader_c/out/libshader_reader_c.a" "$library"
fi

export SHADER_READER_LIBRARY=$library
if [ -n "${BEFORE:-}" ]; then
  export SHADER_READER_BEFORE=$work/libshader_reader_before.a
  cp "$BEFORE" "$SHADER_READER_BEFORE"
  renamed=$(nm --defined-only --extern-only "$SHADER_READER_BEFORE" | sed -n 's/.* T \(.*\)/--redefine-sym \1=before_\1/p')
  # shellcheck disable=SC2086
  objcopy $renamed "$SHADER_READER_BEFORE"
fi
sed -e "s|@HOST@|$top/compare/host|" -e "s|@ORACLE@|$oracle|" "$top/compare/host/Cargo.toml.in" >"$work/Cargo.toml"
cargo build --offline --release --quiet --manifest-path "$work/Cargo.toml" --target-dir "$work/target"
